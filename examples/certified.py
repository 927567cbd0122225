#!/usr/bin/env python3
"""Verdicts on traces by `nvq certify`: small traces by hand, those of bench/standard/rows.txt, random ones, and devices with a planted bug. Short ones
are held to bench/standard/judge.py, which tries all choices and orders. Each piece of evidence is judged again, and each verdict's object says what its
text does.

`certified.py --random COUNT SEED` judges so many random traces, the first made by SEED, each next one by the number after it.
"""

import os
import re
import subprocess
import sys
import tempfile
from collections import Counter
from concurrent.futures import ProcessPoolExecutor
from dataclasses import replace
from functools import partial

HERE = os.path.dirname(os.path.realpath(__file__))
TOP = os.path.dirname(HERE)

sys.dont_write_bytecode = True
sys.path[:0] = [HERE, os.path.join(TOP, "sweep"), os.path.join(TOP, "bench", "standard")]

from devices import BUGS, CLEARED, TORN, crossing, left, trace_of
import briefs
import judge as standard
from host_files import compare, dataset, pair, read, uncorrectable, write, zeroes
from model import READ, WRITE, Namespace
from simulated import PLANTED, device_trace, small_trace
from trace_files import text_of, together, together_line
from verdict_objects import text_of as text_of_object
from witness_model import DIFFERS, MARKED, SUCCESS, sent

PROGRAMS = {name: os.path.join(TOP, "crates", name, "out", name) for name in ("nvq", "nvmu")}
ROWS = os.path.join(TOP, "bench", "standard", "rows.txt")
# The first words of the verdicts, their exit statuses, and what the standard must not say then.
EXPLAINED, CONTRADICTION, UNKNOWN = "explained", "contradiction", "unknown"
STATUSES = {EXPLAINED: 0, CONTRADICTION: 2, UNKNOWN: 3}
DENIED = {EXPLAINED: "contradicted", CONTRADICTION: "explained", UNKNOWN: None}
ERROR = ((0, 6),)
# Up to so many commands a trace is judged by the standard's page, choice by choice and order by order.
SHORT = 40


def contradiction(commands, reads="atomic"):
    return f"{CONTRADICTION} commands {commands} reads {reads} deallocated either\n"


def explained(jobs, points, reads="atomic"):
    return f"{EXPLAINED} jobs {jobs} points {points} reads {reads} deallocated either\n"


# How many commands show each of the bugs, of which the standard lets a device leave a mark.
BUGS_SHOWN_BY = {
    "a stale read": 3,
    "a lost write": 2,
    "a write that is done after its end": 2,
    "a read that goes back": 2,
    "a wrong LBA": 1,
    "a write torn within NAWUN + 1 blocks": 3,
    "a torn read": 3,
    "a pair that another write parts": 4,
    "two pairs that take one lock": 2,
    "a pair that writes after its comparison failed": 1,
    "a mark that a read ignores": 3,
    "a mark that a write leaves": None,
    "zeroes that leave the last block": 3,
    "a deallocated block that comes back": 3,
}


def torn(**numbers):
    """Two Writes of two blocks, and a Read that finds one block of each, on a namespace of these numbers."""
    trace = BUGS["a write torn within NAWUN + 1 blocks"][0]
    return replace(trace, namespace=replace(trace.namespace, **numbers))


def written(ended, *found, **more):
    """A Write of a block, and what Reads found there one after the other."""
    reads = [sent(3 + 2 * place, 4 + 2 * place, read(0, 1), found=(it,)) for place, it in enumerate(found)]
    return trace_of(sent(1, ended, write(0, 0x41), **more), *reads)


def cleared_to(byte, deallocated="either"):
    """A Write of a block, a Deallocate of it, and a Read that found this byte."""
    jobs = sent(1, 2, write(0, 0x41)), sent(3, 4, dataset((0, 1))), sent(5, 6, read(0, 1), found=(byte,))
    return replace(trace_of(*jobs), deallocated=deallocated)


def of_a_block(*jobs):
    """A trace of Writes and Reads of one block: of each when it began and when it ended, what it is, and its byte."""
    return trace_of(*(sent(began, ended, write(0, byte)) if asked == WRITE else sent(began, ended, read(0, 1), found=(byte,)) for began, ended, asked, byte in jobs))


# A Write that never ended, over two units; one of three blocks, more than the standard keeps whole; and two Reads, the second of which found the first
# one's data after another Write.
TORN_AND_STALE = replace(
    trace_of(
        sent(1, None, zeroes(7, 2)),
        sent(2, 9, write(0, 0x41, 0x41, 0x41)),
        sent(3, 8, read(0, 2), found=(0x41, 0), host=2),
        sent(10, 11, write(0, 0x42), host=2),
        sent(12, 13, read(0, 1), found=(0x41,), host=3),
    ),
    namespace=Namespace(nabsn=7, nawun=1, nacwu=1),
    reads="by-blocks",
)
NO_SNAPSHOT = trace_of(
    sent(1, 9, read(0, 2), found=(0, 0x42)),
    sent(2, 3, write(0, 0x41), host=2),
    sent(4, 5, write(1, 0x42), host=2),
)
# A Read that found in the first of two units what began to be written when it had ended.
FORESEEN = trace_of(sent(3, 4, read(7, 1), found=(0x41,)), sent(10, None, write(7, 0x41, 0x41)))


# Traces, words of the command line, and how what is told begins. Why stands above.
BY_HAND = [
    # Each block of a Write above its limit has a moment of its own, and a Read's has where the trace says so.
    (TORN_AND_STALE, (), CONTRADICTION),
    (FORESEEN, (), CONTRADICTION),
    # A Read found the zeroes that were there at first when two Writes had ended, and the next Read found what the second put.
    (of_a_block((1, 2, WRITE, 1), (3, 4, WRITE, 2), (5, 6, READ, 0), (7, 8, READ, 2)), (), contradiction(2)),
    # What is known of the order of two Writes that overlap is what Reads found.
    (of_a_block((1, 9, WRITE, 1), (1, 9, WRITE, 2), (2, 3, READ, 1), (4, 5, READ, 2), (6, 7, READ, 1)), (), CONTRADICTION),
    (of_a_block((1, 2, WRITE, 1), (3, 9, WRITE, 2), (4, 5, READ, 2), (6, 7, READ, 1)), (), CONTRADICTION),
    # So it is where the Reads have a hundred Writes of another block between them.
    (
        trace_of(
            *of_a_block((1, 2, WRITE, 1), (3, 1000, WRITE, 2), (4, 5, READ, 2)).jobs,
            *(sent(time, time, write(1, time)) for time in range(10, 110)),
            *of_a_block((200, 201, READ, 1)).jobs,
        ),
        (),
        CONTRADICTION,
    ),
    # Of two Writes of the bytes that the Read found one was overwritten before it began, and the other began after it had ended.
    (of_a_block((1, 2, WRITE, 1), (3, 4, WRITE, 2), (5, 6, READ, 1), (7, 8, WRITE, 1)), (), CONTRADICTION),
    # That the first Write's bytes were overwritten before the second Read is known only by what the first Read found. So they were the third
    # Write's, and yet the last Read found the second one's.
    (
        of_a_block((1, 2, WRITE, 1), (3, 20, WRITE, 2), (4, 5, READ, 2), (6, 30, WRITE, 1), (7, 8, READ, 1), (9, 10, READ, 2)),
        (),
        CONTRADICTION,
    ),
    # The first zeroes were overwritten before the first Read, so what it found are the Deallocate's, which the second Read overlooked.
    (
        trace_of(sent(1, 2, write(0, 1)), sent(3, 20, dataset((0, 1))), *of_a_block((4, 5, READ, 0), (6, 7, READ, 1)).jobs),
        (),
        CONTRADICTION,
    ),
    # Two hosts' pairs both held on what a Write left, and a Write of four blocks is found torn.
    (
        trace_of(
            sent(1, 2, write(0, 1)),
            sent(3, 9, *pair(compare(0, 1), write(0, 2))),
            sent(3, 9, *pair(compare(0, 1), write(0, 3)), host=2),
        ),
        (),
        CONTRADICTION,
    ),
    (
        trace_of(sent(1, 9, write(4, 1, 2, 3, 4)), sent(1, 9, write(4, 5, 6, 7, 8)), sent(1, 9, read(4, 4), found=(1, 2, 7, 8))),
        (),
        CONTRADICTION,
    ),
    # What overlaps is put into an order that explains all that was found, also over two units.
    (
        trace_of(
            sent(1, 10, write(0, 1, 2)),
            sent(2, 10, write(0, 3, 4)),
            sent(3, 10, read(0, 2), found=(1, 2)),
            sent(4, 10, read(0, 2), found=(3, 4)),
            sent(5, 10, read(0, 2), found=(0, 0)),
            sent(6, 11, *pair(compare(0, 1), write(0, 5))),
        ),
        (),
        EXPLAINED,
    ),
    (
        trace_of(
            sent(1, 10, write(6, 0x41, 0x42, 0x43)),
            sent(2, 9, write(7, 0x51)),
            sent(3, 8, read(6, 2), found=(0x41, 0x42)),
            sent(3, 12, read(6, 3), found=(0x41, 0x51, 0x43)),
        ),
        (),
        EXPLAINED,
    ),
    # What was found tells the order.
    (
        trace_of(
            sent(1, 12, write(1, 0x41)),
            sent(4, 8, read(0, 2), found=(0, 0), host=2),
            sent(11, 18, write(1, 0x44), host=3),
            sent(11, 20, write(0, 0x42, 0x43), host=4),
            sent(17, 19, read(0, 2), found=(0x42, 0x44), host=2),
        ),
        (),
        EXPLAINED,
    ),
    # What failed has its moment, too.
    (
        trace_of(
            sent(1, 10, uncorrectable(0, 1)),
            sent(1, 10, write(0, 0x41), host=2),
            sent(1, 10, compare(0, 0x41), statuses=(MARKED,), host=3),
            sent(11, 12, read(0, 1), found=(0x41,), host=3),
            sent(13, 14, uncorrectable(7, 1)),
            sent(15, 16, read(7, 2), statuses=(MARKED,), host=2),
            sent(17, 18, write(7, 0x42)),
            sent(19, 20, uncorrectable(8, 1)),
            sent(21, 22, read(7, 2), statuses=(MARKED,), host=2),
        ),
        (),
        EXPLAINED,
    ),
    *((BUGS[name][0], (), contradiction(count) if count else EXPLAINED) for name, count in BUGS_SHOWN_BY.items()),
    # Nothing was done, and one Read found the zeroes that were there.
    (trace_of(), (), EXPLAINED),
    (trace_of(sent(1, 2, read(0, 1), found=(0,))), (), EXPLAINED),
    # A Write of two blocks is kept whole where NAWUN says so. Where it doesn't, the standard lets it be torn.
    (torn(nawun=1), (), contradiction(3)),
    (torn(nawun=0), (), EXPLAINED),
    # A Read may be torn where the trace says that each of its blocks has a moment of its own.
    (replace(TORN, reads="by-blocks"), (), EXPLAINED),
    (TORN, ("--reads", "by-blocks"), EXPLAINED),
    # A Read of two blocks found the second as it was after a Write that came behind one of the first, and the first as it was before: no snapshot. `whole` of
    # a head doesn't ask for one.
    *((replace(NO_SNAPSHOT, reads=reads), (), EXPLAINED) for reads in ("atomic", "whole", "by-blocks")),
    (replace(NO_SNAPSHOT, reads="by-blocks"), ("--reads", "whole"), CONTRADICTION),
    # What a deallocated block reads as.
    *((cleared_to(byte), (), EXPLAINED) for byte in (0, 0x41, 0xFF)),
    *((cleared_to(byte, "zeroes"), (), wanted) for byte, wanted in ((0, EXPLAINED), (0x41, EXPLAINED), (0xFF, CONTRADICTION))),
    *((cleared_to(byte, "ones"), (), wanted) for byte, wanted in ((0, CONTRADICTION), (0x41, EXPLAINED), (0xFF, EXPLAINED))),
    *((cleared_to(0xFF, "zeroes"), ("--deallocated", word), EXPLAINED) for word in ("either", "ones")),
    (cleared_to(0xFF, "ones"), ("--deallocated", "zeroes"), CONTRADICTION),
    (replace(TORN, reads="by-blocks"), ("--reads", "whole"), CONTRADICTION),
    # A success that no check allows says nothing of what was done.
    (trace_of(sent(1, 2, write(0, 0x41)), sent(3, 4, write(1_000, 0x41))), (), EXPLAINED),
    # A Write that never ended, or ended in an error that leaves open what was done, is done or not.
    *((written(None, *found), (), EXPLAINED) for found in ((0x41,), (0,), (0, 0x41))),
    *((written(2, *found, statuses=ERROR), (), EXPLAINED) for found in ((0x41,), (0,))),
    # It isn't undone.
    (written(None, 0x41, 0), (), CONTRADICTION),
    # One that ended had its moment before its end, whatever it ended in.
    (written(2, 0, 0x41, statuses=ERROR), (), CONTRADICTION),
    # One that was found to be past the end wrote nothing.
    (written(2, 0, statuses=((0, 0x80),)), (), EXPLAINED),
    (written(2, 0x41, statuses=((0, 0x80),)), (), contradiction(1)),
    # A Deallocate has a moment in each of its blocks, and may leave each as it was.
    (trace_of(*CLEARED), (), EXPLAINED),
    *((left(*found), (), EXPLAINED) for found in ((0x41, 0x41), (0, 0x41), (0x41, 0), (0, 0))),
    (
        trace_of(sent(1, 2, write(7, 0x41)), sent(1, 2, write(8, 0x41)), sent(3, 4, dataset((7, 2))), sent(5, 6, read(8, 1), found=(0x41,))),
        (),
        EXPLAINED,
    ),
    # A Write over two units has one in each.
    *((crossing(*found), (), EXPLAINED) for found in ((0x41, 0), (0, 0x41))),
    (crossing(0x41, 0, ended=2), (), contradiction(2)),
    # A Compare that failed, where it must have held, and one that needn't have.
    (trace_of(sent(1, 2, write(0, 0x41)), sent(3, 4, compare(0, 0x41), statuses=(DIFFERS,))), (), CONTRADICTION),
    (trace_of(sent(1, 3, write(0, 0x41)), sent(3, 4, compare(0, 0x41), statuses=(DIFFERS,))), (), EXPLAINED),
    # A Compare over two units fails in the one or in the other.
    (trace_of(sent(1, 2, write(8, 0x41)), sent(3, 4, compare(7, 0, 0), statuses=(DIFFERS,))), (), EXPLAINED),
    (trace_of(sent(1, 2, uncorrectable(8, 1)), sent(3, 4, read(7, 2), statuses=(MARKED,))), (), EXPLAINED),
    (trace_of(sent(1, 2, read(7, 2), statuses=(MARKED,))), (), EXPLAINED),
    # Of two Writes over two units each unit may have the other last.
    (
        trace_of(
            sent(1, 9, write(7, 0x41, 0x41)),
            sent(1, 9, write(7, 0x42, 0x42), host=2),
            sent(10, 11, read(7, 1), found=(0x41,)),
            sent(10, 11, read(8, 1), found=(0x42,)),
        ),
        (),
        EXPLAINED,
    ),
    # What was there before is what a Read found, where it isn't known. It is one thing for all Reads, and nothing that is put later.
    (trace_of(sent(1, 2, read(0, 2), found=(0x41, 0x42)), sent(1, 2, read(0, 1), found=(0x41,)), unknown=True), (), EXPLAINED),
    (trace_of(sent(1, 2, read(0, 1), found=(0x41,)), sent(3, 4, read(0, 1), found=(0x42,)), unknown=True), (), CONTRADICTION),
    (trace_of(sent(1, 2, read(9, 2), found=(0x77, 0)), sent(3, 4, write(9, 0x78)), sent(5, 6, read(9, 1), found=(0x78,)), unknown=True), (), EXPLAINED),
    (trace_of(sent(1, 2, compare(0, 0x41), statuses=(DIFFERS,)), sent(3, 4, compare(0, 0), statuses=(DIFFERS,)), unknown=True), (), EXPLAINED),
    # What lies outside the namespace is neither found nor put.
    (trace_of(sent(1, 2, read(40, 1), statuses=((0, 0x80),))), (), EXPLAINED),
    (trace_of(sent(1, 2, zeroes(40, 1))), (), EXPLAINED),
    # One of two pairs holds, and the Read finds what it wrote.
    (
        trace_of(
            sent(1, 9, *pair(compare(0, 0), write(0, 0x41))),
            sent(2, 8, *pair(compare(0, 0), write(0, 0x42)), statuses=(DIFFERS, (0, 9)), host=2),
            sent(10, 11, read(0, 1), found=(0x41,)),
        ),
        (),
        EXPLAINED,
    ),
]

# Of each device the number that makes its run, and the verdict.
DEVICES = {
    None: (0, EXPLAINED),
    "stale read": (0, CONTRADICTION),
    "lost write": (0, CONTRADICTION),
    "write done twice": (0, CONTRADICTION),
    "wrong LBA": (0, CONTRADICTION),
    "completed before it was done": (0, CONTRADICTION),
    "lagging copy": (0, CONTRADICTION),
    "zeroes leave the last block": (0, CONTRADICTION),
    "torn write": (0, CONTRADICTION),
    "torn read": (20, CONTRADICTION),
    "pair compared and written later": (0, CONTRADICTION),
    "mark ignored by a Compare": (0, CONTRADICTION),
    "Compare that finds no difference": (0, CONTRADICTION),
}


class Wrong(Exception):
    """What is wrong with an answer."""


def hold(told, found, wanted):
    if found != wanted:
        raise Wrong(f"{told}: found {found!r} in place of {wanted!r}")


def answer(folder, name, *words):
    """The status of a program, and what it prints."""
    done = subprocess.run([PROGRAMS[name], *words], stdin=subprocess.DEVNULL, capture_output=True, cwd=folder, timeout=120)
    hold("standard error", done.stderr, b"")
    return done.returncode, done.stdout.decode()


def traced(folder, name, text):
    """Keeps the file of a trace's text, and gives the text as it is listed."""
    with open(os.path.join(folder, f"{name}.txt"), "w") as file:
        file.write(text)
    hold("trace", answer(folder, "nvq", "trace", f"{name}.txt", name), (0, ""))
    return answer(folder, "nvq", "list", name)[1]


def times_of(line):
    """When the command of a trace's line began and ended."""
    began, ended, *_ = line.split()
    return int(began), None if ended == "-" else int(ended)


def certified(folder, text, words=()):
    """What is printed of the trace of a text. Its evidence, its object and the standard's page say the same."""
    trace, evidence = (f"{os.getpid()}.{kind}" for kind in ("nvt", "nve"))
    lines = traced(folder, trace, text).splitlines()
    status, told = answer(folder, "nvq", "certify", *words, "--data", "--evidence", evidence, trace)
    first = told.splitlines()[0]
    verdict = first.split()[0]
    hold("status", status, STATUSES[verdict])
    is_reply = first.startswith(f"{CONTRADICTION} job ")
    status, printed = answer(folder, "nvq", "certify", *words, "--json", trace)
    hold("the object's status and text", (status, told if is_reply else text_of_object(printed)), (STATUSES[verdict], told))
    path = os.path.join(folder, evidence)
    hold("evidence", os.path.exists(path), verdict != UNKNOWN and not is_reply)
    if verdict == EXPLAINED:
        hold("all that is told", told, f"{first}\n{together_line(together([*map(times_of, lines[1:])]))}")
        for name in ("nvmu", "nvq"):
            hold("witness", answer(folder, name, "witness", trace, evidence), (0, f"{first}\n"))
        hold("explain", answer(folder, "nvq", "explain", trace, evidence)[1].splitlines()[0], first)
    elif os.path.exists(path):
        held_to_commands(lines, told)
        status, brief = answer(folder, "nvq", "certify", *words, trace)
        hold("status in brief", status, STATUSES[verdict])
        briefs.held(lines, brief, told)
        hold("refute", answer(folder, "nvmu", "refute", trace, evidence), (0, refuted(told)))
        hold("explain", answer(folder, "nvq", "explain", trace, evidence), (0, brief.replace(f"{first}\n", refuted(told), 1)))
    if os.path.exists(path):
        os.remove(path)
    hold("the standard says otherwise", by_the_standard(text, words) == DENIED[verdict], False)
    return told


def refuted(told):
    """The line of `nvmu refute` after a contradiction of which this is told."""
    first, *lines = told.splitlines()
    _, _, commands, profile = first.split(" ", 3)
    facts = len(lines) - int(commands) - 1
    return f"refuted commands {commands} facts {facts} {profile}\n"


def held_to_commands(lines, told):
    """Holds the commands of a contradiction to the lines of the trace. It names them by rising number, and its facts name no others."""
    first, *said = told.splitlines()
    count = int(first.split()[2])
    numbers = [int(line.split()[1]) for line in said[:count]]
    hold("commands", said[:count], [f"job {number} {lines[1 + number]}" for number in sorted({*numbers})])
    named = {int(it) for line in said[count:] for it in re.findall(r"\bjob (\d+)", line)}
    hold("commands of facts", named, {*numbers})


def by_the_standard(text, words=()):
    """What the standard's page says of a trace, held to what these words or its head hold it to, or None of a long one."""
    if text.count("\n") > SHORT:
        return None
    asked = dict(zip((it.removeprefix("--") for it in words[::2]), words[1::2]))
    head, jobs = standard.trace(text)
    said = standard.promised(head)
    return standard.verdict(head, jobs, asked.get("reads", said[0]), asked.get("deallocated", said[1]))


def judged(folder, text, words=(), wanted=""):
    """The verdict on a trace, and what is wrong with it, if anything. `wanted` is how what is told must begin."""
    try:
        told = certified(folder, text, words)
        if not told.startswith(wanted):
            raise Wrong(f"{told!r} in place of {wanted!r}")
    except (Wrong, OSError, subprocess.SubprocessError, ValueError, IndexError, KeyError) as fault:
        return None, f"{fault!r} of {' '.join(words)}\n{text[:3000]}"
    return told.split()[0], None


def by_hand(folder):
    """The traces that were written by hand."""
    for trace, words, wanted in BY_HAND:
        yield judged(folder, text_of(trace), words, wanted)[1]


def of_the_standard(folder):
    """The traces that have verdicts by the standard's page."""
    with open(ROWS) as file:
        rows = file.read().split("\n\n")
    for row in rows:
        named, *lines = [line for line in row.splitlines() if line]
        name, *asked = named.removeprefix("# ").split("; ")
        for one in asked:
            *said, verdict = one.split()
            words = tuple(word if place % 2 else f"--{word}" for place, word in enumerate(said))
            wanted = (EXPLAINED,) if verdict == "explained" else (CONTRADICTION,)
            wrong = judged(folder, "".join(f"{line}\n" for line in lines), words, wanted)[1]
            yield wrong and f"{name}: {one}: {wrong}"


def of_devices(folder):
    """Each device's run has its verdict, and the one without a bug no contradiction."""
    if tuple(DEVICES) != PLANTED:
        yield f"there are {PLANTED}"
    for bug, (number, wanted) in DEVICES.items():
        trace, hits = device_trace(bug, number)
        wrong = judged(folder, text_of(trace), (), wanted)[1]
        if bool(hits) != bool(bug):
            wrong = f"it struck {hits} times"
        yield wrong and f"{bug}: {wrong}"


def of_right_devices(folder):
    """A device without a bug is cleared, also where many of its commands fail while others are under way."""
    for seed in range(6):
        trace, _ = device_trace(None, seed, number=1_000, queues=8)
        failed = sum(statuses != (SUCCESS,) * len(statuses) for statuses in (seen.statuses for seen in trace.jobs))
        wrong = judged(folder, text_of(trace), (), EXPLAINED)[1] if failed > 100 else f"{failed} failed alone"
        yield wrong and f"seed {seed}: {wrong}"


def of_seed(folder, seed):
    """The verdict on a random trace, what the standard says, and what is wrong, if anything."""
    trace, _, bug = small_trace(seed)
    text = text_of(trace)
    verdict, wrong = judged(folder, text, (), "" if bug else EXPLAINED)
    return verdict, by_the_standard(text), wrong and f"random trace {seed}: {wrong}"


def at_random(folder, number, seed):
    """Judges random traces in several processes, and tells how many had which verdict. It gives how many were right and how many weren't."""
    counts, failed = Counter(), 0
    with ProcessPoolExecutor(os.cpu_count()) as pool:
        for verdict, said, wrong in pool.map(partial(of_seed, folder), range(seed, seed + number), chunksize=25):
            counts[verdict, said] += 1
            if wrong:
                failed += 1
                print(wrong)
    told = ", ".join(f"{sum(count for (found, _), count in counts.items() if found == verdict)} {verdict}" for verdict in STATUSES)
    print(f"of {number} random traces {told}, of which the standard explains {counts[UNKNOWN, 'explained']} and contradicts {counts[UNKNOWN, 'contradicted']}")
    return number - failed, failed


def tried():
    """How many traces had the verdict that they must have, and how many hadn't."""
    with tempfile.TemporaryDirectory(prefix="certified-") as folder:
        passed, failed = at_random(folder, 150, 0)
        for table in (by_hand, of_the_standard, of_devices, of_right_devices):
            for wrong in table(folder):
                passed, failed = passed + (wrong is None), failed + (wrong is not None)
                if wrong:
                    print(f"{table.__name__}: {wrong}")
    return passed, failed


def main(words):
    if not words:
        passed, failed = tried()
    elif len(words) == 3 and words[0] == "--random":
        with tempfile.TemporaryDirectory(prefix="certified-") as folder:
            passed, failed = at_random(folder, int(words[1]), int(words[2]))
    else:
        print(__doc__.strip())
        return 1
    print(f"{passed} passed, {failed} failed")
    return 0 if failed == 0 and passed else 1


if __name__ == "__main__":
    sys.exit(main(sys.argv[1:]))
