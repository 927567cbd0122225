"""Runs of 64 hosts whose commands collide, by 8 and by 64 workers: how many jobs end with which statuses is known, and not which. Their records are lawful.

The namespace has 32 blocks of 512 bytes in units of eight, where nothing else is said.
"""

from collections import Counter

from auditor import text, verdict
from host_files import compare, file_of, pair, write
from recording import run_words
from records import record_of

OPTIONS = {"nsze": 32, "block": 512, "nabsn": 7, "nabo": 0, "nawun": 7, "nacwu": 3, "limit": 65_536}
DONE, FAILED, FULL = (0, 0), ((2, 0x85), (0, 9)), (0, 6)

# What is other of the options, what a host asks for, how many jobs end with which statuses, the verdict, and how many changes each unit has.
CROWDS = [
    # Each host writes its own block a hundred times.
    ({"workers": 8}, lambda host: [write(host % 32, 0x41)] * 100, {(DONE,): 6400}, "lawful jobs 6400 units 4 changes 6400 refused 0", [1600] * 4),
    # A unit that takes 1,000 changes.
    (
        {"workers": 64, "nabsn": 0, "limit": 1000},
        lambda host: [write((host - 1) % 32, 0x41)] * 32,
        {(DONE,): 1000, (FULL,): 1048},
        "lawful jobs 2048 units 1 changes 1000 refused 1048",
        [1000],
    ),
    # Each host's pair finds zeroes in a block and writes the host's number there, or doesn't find zeroes any more.
    (
        {"workers": 64},
        lambda host: pair(compare(0, 0), write(0, host)),
        {(DONE, DONE): 1, FAILED: 63},
        "lawful jobs 64 units 4 changes 1 refused 0",
        [1, 0, 0, 0],
    ),
]


def crowds(run):
    names = [f"crowd-{host}" for host in range(1, 65)]
    for changed, asked, ends, line, changes in CROWDS:
        for host, name in enumerate(names, 1):
            run.keep(name, file_of(asked(host)))
        shown = run.output(run_words({**OPTIONS, **changed}, *names))
        record = record_of(run.kept("record"))
        run.hold("what is shown of a crowd", shown, text(record))
        run.hold("how the jobs of a crowd end", Counter(tuple(it.statuses) for done in record.done for it in done), ends)
        run.hold("the changes of a crowd", [len(entries) for entries in record.units], changes)
        run.hold("the verdict on a crowd", verdict(record), line)
        run.expect(["nvmu", "audit", "record"], out=f"{line}\n")
