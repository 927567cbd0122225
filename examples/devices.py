"""Traces of right devices and of wrong ones, each judged by the records of orders in which its commands can have been done."""

import random
from dataclasses import replace
from itertools import permutations

from host_files import compare, dataset, pair, read, uncorrectable, unknown, write, zeroes
from model import Namespace
from records import spelled as record_bytes
from trace_files import Trace, spelled, with_seen
from witness_model import ABORTED, BEFORE, DIFFERS, MARKED, SUCCESS, line_of, pieces, record_in, sent, unexplained

SPACE = Namespace(nabsn=7)
# Statuses that a device may answer: those of the step, those of a check, and others.
STATUSES = (SUCCESS, MARKED, DIFFERS, *BEFORE, (0, 4), (0, 6), (1, 0x80), (2, 0x80), (2, 0), (255, 0xFE))
STRICT = "--strict"


def trace_of(*jobs, **more):
    return Trace(SPACE, jobs, **more)


# What a right device answers, one command after the other. The last two meet two units.
IN_TURN = trace_of(
    sent(10, 15, write(0, 0x41)),
    sent(20, 25, read(0, 1), found=(0x41,), host=2),
    sent(30, 35, *pair(compare(0, 0x41), write(0, 0x42))),
    sent(40, 45, *pair(compare(0, 0x41), write(0, 0x43)), statuses=(DIFFERS, ABORTED), host=2),
    sent(50, 55, uncorrectable(1, 1)),
    sent(60, 65, read(0, 2), statuses=(MARKED,)),
    sent(70, 75, zeroes(1, 1), host=3),
    sent(80, 85, compare(0, 0x42, 0)),
    sent(90, 95, read(40, 1), statuses=((0, 0x80),)),
    sent(100, 105, dataset((0, 1), (9, 2)), host=2),
    sent(110, 115, read(7, 4), found=(0, 0, 0, 0)),
)

# Of each bug the smallest trace that shows it, the best of its records, by the order of the commands, and the fault that is left in it.
BUGS = {
    "a stale read": (
        trace_of(sent(1, 2, write(0, 0x41)), sent(3, 4, write(0, 0x42)), sent(5, 6, read(0, 1), found=(0x41,))),
        (0, 2, 1),
        unexplained("TimeBack", 1, 0, 1),
    ),
    "a lost write": (
        trace_of(sent(1, 2, write(0, 0x41)), sent(3, 4, read(0, 1), found=(0,))),
        (1, 0),
        unexplained("TimeBack", 0, 0, 0),
    ),
    "a write that is done after its end": (
        trace_of(sent(1, 2, write(0, 0x41)), sent(3, 4, read(0, 1), found=(0,)), sent(5, 6, read(0, 1), found=(0x41,))),
        (1, 0, 2),
        unexplained("TimeBack", 0, 0, 0),
    ),
    "a read that goes back": (
        trace_of(sent(1, 9, write(0, 0x41)), sent(2, 3, read(0, 1), found=(0x41,)), sent(4, 5, read(0, 1), found=(0,))),
        (2, 0, 1),
        unexplained("TimeBack", 1, 0, 1),
    ),
    "a wrong LBA": (
        trace_of(sent(1, 2, write(0, 0x41)), sent(3, 4, read(1, 1), found=(0x41,))),
        (0, 1),
        unexplained("ReplyDiffers", 1),
    ),
    "a write torn within NAWUN + 1 blocks": (
        trace_of(sent(1, 9, write(0, 0x41, 0x41)), sent(2, 8, write(0, 0x42, 0x42)), sent(10, 11, read(0, 2), found=(0x41, 0x42))),
        (0, 1, 2),
        unexplained("ReplyDiffers", 2),
    ),
    "a torn read": (
        trace_of(sent(1, 2, write(0, 0x41, 0x41)), sent(3, 9, write(0, 0x42, 0x42)), sent(4, 8, read(0, 2), found=(0x41, 0x42))),
        (0, 1, 2),
        unexplained("ReplyDiffers", 2),
    ),
    "a pair that another write parts": (
        trace_of(
            sent(1, 2, write(0, 0x41)),
            sent(3, 9, *pair(compare(0, 0x41), write(0, 0x43))),
            sent(4, 8, write(0, 0x42)),
            sent(10, 11, read(0, 1), found=(0x43,)),
        ),
        (0, 1, 3, 2),
        unexplained("TimeBack", 2, 0, 2),
    ),
    "two pairs that take one lock": (
        trace_of(sent(1, 9, *pair(compare(0, 0), write(0, 0x41))), sent(2, 8, *pair(compare(0, 0), write(0, 0x42)), host=2)),
        (0, 1),
        unexplained("ReplyDiffers", 1),
    ),
    "a pair that writes after its comparison failed": (
        trace_of(
            sent(1, 2, *pair(compare(0, 0x41), write(0, 0x42)), statuses=(DIFFERS, ABORTED)),
            sent(3, 4, read(0, 1), found=(0x42,)),
        ),
        (0, 1),
        unexplained("ReplyDiffers", 1),
    ),
    "a mark that a read ignores": (
        trace_of(sent(1, 2, write(0, 0x41)), sent(3, 4, uncorrectable(0, 1)), sent(5, 6, read(0, 1), found=(0x41,))),
        (0, 2, 1),
        unexplained("TimeBack", 1, 0, 1),
    ),
    "a mark that a write leaves": (
        trace_of(sent(1, 2, uncorrectable(0, 1)), sent(3, 4, write(0, 0x41)), sent(5, 6, read(0, 1), statuses=(MARKED,))),
        (0, 2, 1),
        unexplained("TimeBack", 1, 0, 1),
    ),
    "zeroes that leave the last block": (
        trace_of(sent(1, 2, write(0, 0x41, 0x41)), sent(3, 4, zeroes(0, 2)), sent(5, 6, read(1, 1), found=(0x41,))),
        (0, 2, 1),
        unexplained("TimeBack", 1, 0, 1),
    ),
    "a deallocated block that comes back": (
        trace_of(
            sent(1, 2, write(0, 0x41)),
            sent(3, 4, dataset((0, 1))),
            sent(5, 6, read(0, 1), found=(0,)),
            sent(7, 8, read(0, 1), found=(0x41,)),
        ),
        (0, 3, 1, 2),
        unexplained("TimeBack", 1, 0, 1),
    ),
}

TORN = BUGS["a torn read"][0]
# A Deallocate over two units, which is seen in the first before it is in the second.
CLEARED = (
    sent(1, 2, write(7, 0x41)),
    sent(1, 2, write(8, 0x41)),
    sent(5, 20, dataset((7, 2))),
    sent(6, 7, read(7, 1), found=(0,)),
    sent(8, 9, read(8, 1), found=(0x41,)),
    sent(21, 22, read(7, 2), found=(0, 0)),
)
UNENDED = replace(CLEARED[2], ended=None, statuses=())


def left(*found):
    """The trace of a Deallocate over two units that never ended, and what was found in each then."""
    return trace_of(*CLEARED[:2], UNENDED, sent(21, 22, read(7, 1), found=found[:1]), sent(23, 24, read(8, 1), found=found[1:]))


def crossing(*found, ended=None):
    """The trace of a Write over two units, and what was found in each then."""
    return trace_of(sent(1, ended, write(7, 0x41, 0x41)), sent(3, 4, read(7, 1), found=found[:1]), sent(5, 6, read(8, 1), found=found[1:]))


# Traces, orders of their pieces, at which part of which piece memory is wanted, words of the command line, and the line.
UNITS = [
    # A Deallocate has a place in each unit of its own.
    (trace_of(*CLEARED), (0, 1, 4, 2, 3, 5), {}, (), "explained jobs 6 units 4 steps 8 excused 0 preparations 0"),
    (trace_of(*CLEARED), (0, 1, 2, 4, 3, 5), {}, (), unexplained("ReplyDiffers", 4)),
    # One that never ended is done in any of its units.
    (left(0x41, 0x41), (0, 1, 2, 3, 4, 5), {2: -1, 3: -1}, (), "explained jobs 5 units 4 steps 4 excused 1 preparations 0"),
    (left(0, 0x41), (0, 1, 2, 3, 4, 5), {3: -1}, (), "explained jobs 5 units 4 steps 5 excused 1 preparations 0"),
    (left(0x41, 0), (0, 1, 2, 3, 4, 5), {2: -1}, (), "explained jobs 5 units 4 steps 5 excused 1 preparations 0"),
    (left(0, 0), (0, 1, 2, 3, 4, 5), {}, (), "explained jobs 5 units 4 steps 6 excused 1 preparations 0"),
    (left(0x41, 0), (0, 1, 2, 3, 4, 5), {}, (), unexplained("ReplyDiffers", 4)),
    (left(0x41, 0), (0, 1, 4, 2, 3, 5), {}, (), "explained jobs 5 units 4 steps 6 excused 1 preparations 0"),
    # Its ranges may overlap, be empty, and lie in either unit.
    (
        trace_of(
            *CLEARED[:2],
            sent(5, None, dataset((8, 2), (3, 0), (7, 2))),
            sent(21, 22, read(7, 2), found=(0x41, 0)),
        ),
        (0, 1, 2, 3, 4),
        {2: -1},
        (),
        "explained jobs 4 units 4 steps 5 excused 1 preparations 0",
    ),
    # So is a Write, strictly. By the standard each of its blocks may be done or not.
    (crossing(0x41, 0), (0, 1, 2, 3), {1: -1}, (STRICT,), "explained jobs 3 units 4 steps 3 excused 1 preparations 0"),
    (crossing(0, 0x41), (0, 1, 2, 3), {0: -1}, (STRICT,), "explained jobs 3 units 4 steps 3 excused 1 preparations 0"),
    (crossing(0, 0x41), (0, 1, 2, 3), {1: -1}, (STRICT,), unexplained("ReplyDiffers", 2)),
    (crossing(0, 0x41), (0, 1, 2, 3), {0: -1}, (), "explained jobs 3 units 4 steps 3 excused 1 preparations 0"),
    (crossing(0x41, 0), (0, 1, 2, 3), {1: -1}, (), "explained jobs 3 units 4 steps 3 excused 1 preparations 0"),
    (crossing(0x41, 0, ended=2), (0, 2, 3, 1), {}, (), unexplained("TimeBack", 1, 1, 0)),
    # One of more blocks than the standard keeps whole is done in any of its blocks.
    (
        Trace(Namespace(nabsn=7, nawun=1, nacwu=1), (sent(10, None, write(0, 0x41, 0x41, 0x41)), sent(20, 25, read(0, 3), found=(0x41, 0, 0)))),
        (0, 1, 2, 3),
        {1: -1, 2: -1},
        (),
        "explained jobs 2 units 4 steps 2 excused 1 preparations 0",
    ),
    # A Read over two units finds each at a moment of its own, and one by blocks each block.
    (
        trace_of(sent(1, 9, write(7, 0x41)), sent(1, 9, write(8, 0x41)), sent(2, 8, read(7, 2), found=(0x41, 0))),
        (0, 2, 1),
        {},
        (),
        "explained jobs 3 units 4 steps 4 excused 0 preparations 0",
    ),
    (replace(TORN, reads="by-blocks"), (0, 2, 1, 3), {}, (), "explained jobs 3 units 4 steps 4 excused 0 preparations 0"),
    (replace(TORN, reads="by-blocks"), (0, 1, 2, 3), {}, (), unexplained("ReplyDiffers", 2)),
    # A pair that never ended is done or not.
    *(
        (
            trace_of(sent(1, None, *pair(compare(0, 0), write(0, 0x41))), sent(2, 3, read(0, 1), found=(found,))),
            (0, 1),
            wants,
            (),
            f"explained jobs 2 units 4 steps {steps} excused 1 preparations 0",
        )
        for found, wants, steps in ((0x41, {}, 2), (0, {0: -1}, 1))
    ),
    # What a check refuses does nothing. Its success is a fault, and so is a pair's above NACWU + 1 blocks or over a boundary.
    (trace_of(sent(1, 2, read(40, 1), statuses=((0, 0x80),))), (0,), {}, (), "explained jobs 1 units 4 steps 0 excused 0 preparations 0"),
    (trace_of(sent(1, 2, write(40, 0x41))), (0,), {}, (), unexplained("ReplyDiffers", 0)),
    (trace_of(sent(1, 2, *pair(compare(7, 0, 0), write(7, 0x41, 0x41)))), (0,), {}, (), unexplained("ReplyDiffers", 0)),
    (trace_of(sent(1, 2, unknown(5, 6))), (0,), {}, (), "explained jobs 1 units 4 steps 0 excused 1 preparations 0"),
]


# What each status says of a Write: that it was done, that nothing was written, or neither. Those of the last line are Data Transfer Error, Command Abort
# Requested, Namespace Not Ready, Write Fault, one of a vendor, and one of another type that has the number of a refusal.
DONE, NOTHING, OPEN = "done", "nothing", "open"
OF_WRITES = {
    DONE: (SUCCESS,),
    NOTHING: BEFORE,
    OPEN: ((0, 6), MARKED, DIFFERS, (0, 4), (0, 7), (0, 0x82), (2, 0x80), (7, 0xFF), (1, 2)),
}
# What each two say of a pair: also that the comparison failed, and what can't be, since no step ends so here, or one says that the comparison held
# and the other that it didn't.
FAILED, NEVER = "failed", "never"
OF_PAIRS = {
    DONE: ((SUCCESS, SUCCESS),),
    FAILED: ((DIFFERS, ABORTED),),
    NEVER: ((MARKED, ABORTED), (SUCCESS, ABORTED), *((it, SUCCESS) for it in (DIFFERS, MARKED, (0, 6), (0, 4)))),
    # The comparison failed, or the Write wasn't executed.
    NOTHING: ((DIFFERS, (0, 6)), (MARKED, (0, 4)), ((0, 6), ABORTED), ((0, 0x14), ABORTED), (SUCCESS, (0, 0x14)), ((0, 4), (0, 0x80))),
    # An error of the Write alone, or of both.
    OPEN: ((SUCCESS, (0, 6)), (SUCCESS, (0, 4)), ((0, 6), (0, 6)), ((0, 0x14), (0, 6)), ((0, 4), (7, 0xFF))),
}
# How many replies are excused where the command was done, where its unit could take no change more, and where the comparison failed, or None where the
# reply isn't that of the record.
EXCUSED = {DONE: (0, None, None), FAILED: (None, None, 0), NOTHING: (None, 1, 1), OPEN: (1, 1, 1), NEVER: (None, None, None)}


def devices(run):
    judge = Judge(run)
    moved_times(judge)
    other_replies(judge)
    each_status(judge)
    errors_alone(judge)
    for trace, order, wants, words, line in UNITS:
        judge(trace, order, wants, words, line)
    for name, (trace, best, line) in BUGS.items():
        lines = [judge(trace, order) for order in permutations(range(len(trace.jobs)))]
        run.hold(f"{name}: some order explains it", [it for it in lines if it.startswith("explained")], [])
        judge(trace, best, line=line)
    by_chance(judge)


class Judge:
    """Holds the program to the model's line, and the model to a line that was worked out by hand, where there is one."""

    def __init__(self, run):
        self.run = run

    def __call__(self, trace, order, wants=None, words=(), line=None):
        record = record_in(trace, order, wants, STRICT in words)
        told = line_of(trace, record, STRICT in words)
        if line:
            self.run.hold("the model's line", told, line)
        self.run.keep("trace.nvt", spelled(trace))
        self.run.keep("record.nvr", record_bytes(record))
        status = 0 if told.startswith("explained") else 2
        self.run.expect(["nvmu", "witness", *words, "trace.nvt", "record.nvr"], status, out=f"{told}\n")
        return told


def kinds(lines):
    """The first words of lines, up to what is at fault."""
    return {" ".join(line.split()[: 1 + line.startswith("un")]) for line in lines}


def moved_times(judge):
    """Each time is moved past its neighbour, and each command past the next. The order allows it where two overlap then, and where they
    have no unit in common."""
    order, jobs = range(len(IN_TURN.jobs)), IN_TURN.jobs
    judge(IN_TURN, order, line="explained jobs 11 units 4 steps 12 excused 0 preparations 0")
    lines = []
    for number, (seen, after) in enumerate(zip(jobs, jobs[1:])):
        for moved in (
            # Its end to the next one's beginning, and past it.
            with_seen(IN_TURN, number, ended=after.began),
            with_seen(IN_TURN, number, ended=after.began + 1),
            # The next one's beginning before its end, and all of the next one to its beginning.
            with_seen(IN_TURN, number + 1, began=seen.ended - 1),
            with_seen(IN_TURN, number + 1, began=seen.began, ended=seen.began),
            # All of it behind the next one, and all of the next one before it.
            with_seen(IN_TURN, number, began=after.ended + 1, ended=after.ended + 2),
            with_seen(IN_TURN, number + 1, began=seen.began - 2, ended=seen.began - 1),
        ):
            lines.append(judge(moved, order))
    judge.run.hold("moved times", kinds(lines), {"explained", "unexplained TimeBack"})


def other_replies(judge):
    """Each status is changed to each other one, and each byte of a Read's data."""
    order = range(len(IN_TURN.jobs))
    lines = []
    for number, seen in enumerate(IN_TURN.jobs):
        for place, was in enumerate(seen.statuses):
            for status in STATUSES:
                if status != was:
                    statuses = (*seen.statuses[:place], status, *seen.statuses[place + 1 :])
                    changed = with_seen(IN_TURN, number, statuses=statuses)
                    lines.append(judge(changed, range(len(pieces(changed)))))
    judge.run.hold("other statuses", kinds(lines), {"explained", "unexplained ReplyDiffers"})
    for at in range(512):
        data = bytearray(IN_TURN.jobs[1].data)
        data[at] ^= 1 << at % 8
        judge(with_seen(IN_TURN, 1, data=bytes(data)), order, line=unexplained("ReplyDiffers", 1))
    for data in (None, bytes(512) * 3):
        judge(with_seen(IN_TURN, 10, data=data and data + b"\1" * 512), order, line=unexplained("ReplyDiffers", 10))


def each_status(judge):
    """A Write, or a pair that compares with zeroes, after a Write of another block or of the same, where the unit takes two changes or one."""
    for says, each in [*OF_WRITES.items(), *OF_PAIRS.items()]:
        for told in each:
            is_pair = isinstance(told[0], tuple)
            asked = pair(compare(0, 0), write(0, 0x42)) if is_pair else [write(0, 0x42)]
            for place, (lba, limit) in enumerate(((1, 2), (1, 1), (0, 2))[: 2 + is_pair]):
                jobs = (sent(10, 15, write(lba, 0x41)), sent(20, 25, *asked, statuses=told if is_pair else (told,)))
                excused, steps = EXCUSED[says][place], 1 if limit == 1 else 2
                line = unexplained("ReplyDiffers", 1) if excused is None else f"explained jobs 2 units 4 steps {steps} excused {excused} preparations 0"
                judge(Trace(Namespace(nabsn=7, limit=limit), jobs), (0, 1), line=line)


def errors_alone(judge):
    """A trace of nothing but errors that leave open what was done is explained, whether all or nothing was done, with all excused."""
    trace = IN_TURN
    for number, seen in enumerate(IN_TURN.jobs):
        trace = with_seen(trace, number, statuses=((0, 6),) * len(seen.body), data=None)
    count, order = len(trace.jobs), range(len(pieces(trace)))
    for wants, steps in (({}, 12), ({number: -1 for number in order}, 0)):
        judge(trace, order, wants, line=f"explained jobs {count} units 4 steps {steps} excused {count} preparations 0")


def by_chance(judge):
    """Commands of three hosts at random, done in an order that their times allow, and judged in others, too."""
    chance = random.Random(20261125)
    lines = []
    for _ in range(30):
        lines += by_chance_of(judge, chance)
    judge.run.hold("by chance", kinds(lines), {"explained", "unexplained ReplyDiffers", "unexplained TimeBack"})


def asked_by(chance):
    first, byte = chance.choice((0, 1, 6, 7)), chance.choice((0x41, 0x42))
    blocks = chance.choice((1, 1, 2))
    return chance.choice(
        (
            [write(first, *[byte] * blocks)],
            [write(first, byte)],
            [read(first, blocks)],
            [read(first, 1)],
            [compare(first, byte)],
            [zeroes(first, blocks)],
            [uncorrectable(first, 1)],
            [dataset((first, blocks))],
            pair(compare(first, chance.choice((0, byte))), write(first, 0x43)),
        )
    )


def by_chance_of(judge, chance):
    """The lines of one trace."""
    moments = sorted(chance.sample(range(10, 100), 6))
    jobs = tuple(
        sent(moment - chance.randrange(9), moment + chance.randrange(9), *asked_by(chance), host=1 + place % 3) for place, moment in enumerate(moments)
    )
    words = (STRICT,) if chance.randrange(2) else ()
    trace = trace_of(*jobs)
    # What is found then is what came back. A command that is cut has no data.
    order = range(len(pieces(trace, STRICT in words)))
    made, cut = record_in(trace, order, strict=STRICT in words), pieces(trace, STRICT in words)
    for piece, done in zip(cut, made.done[0]):
        if piece.block is None:
            trace = with_seen(trace, jobs.index(piece.seen), statuses=done.statuses, data=done.data)
    lines = [judge(trace, order, words=words)]
    judge.run.hold("a right device", kinds(lines), {"explained"})
    for _ in range(5):
        lines.append(judge(trace, chance.sample(order, len(order)), words=words))
    return lines
