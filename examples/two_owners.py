"""The record in two-owners.nvr: of a device that told two hosts that each of them has the lock."""

import os
from dataclasses import replace

from forged import audited
from model import Namespace
from recorded import recorded
from records import DONE, LOOKED, spelled

HERE = os.path.dirname(os.path.realpath(__file__))
SPACE = Namespace(nsze=32, block=512, nabsn=7, nabo=0, nawun=7, nacwu=3, limit=100)
HELD_BY_2 = b"\x02" * 512


def content(name):
    with open(os.path.join(HERE, name), "rb") as file:
        return file.read()


def record_of_two_owners():
    """The record of the run in lock-1.list, but that host 2's pair succeeds as well, behind host 1's, and both Reads then give 02."""
    lawful = recorded(SPACE, [content("lock-1.nvq"), content("lock-2.nvq")])
    (taken,), *others = lawful.units
    again = replace(taken, job=1, data=taken.data[:512] + HELD_BY_2)
    jobs = list(lawful.done[0])
    jobs[1] = replace(jobs[1], parts=((0, 1, DONE),), statuses=((0, 0), (0, 0)))
    jobs[2:] = [replace(it, parts=((0, 2, LOOKED),), data=HELD_BY_2) for it in jobs[2:]]
    return replace(lawful, units=((taken, again), *others), done=(tuple(jobs),))


def two_owners(run):
    """Holds the file to that record, its audit to the second pair's entry, which doesn't succeed after the first."""
    file = content("two-owners.nvr")
    run.hold("examples/two-owners.nvr", file, spelled(record_of_two_owners()))
    audited(run, file, "unlawful EntryWrong job 1 unit 0 place 1")
