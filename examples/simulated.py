"""Devices that do commands at moments between their beginnings and their ends, each with a bug or without one, and what their hosts see."""

import random
from dataclasses import dataclass, field, replace
from heapq import heappop, heappush
from itertools import count

from auditor import numbered, parts_of
from model import CHANGES, COMPARE, DATASET, FIRST, MARK, READ, SECOND, UNCORRECTABLE, WRITE, ZEROES, Command, Namespace, look, refusal
from trace_files import Seen, Trace, with_seen
from witness_model import BEFORE, DIFFERS, MARKED, SUCCESS, says_nothing_was_written

STALE, LOST, TWICE, WRONG_LBA = "stale read", "lost write", "write done twice", "wrong LBA"
LATE, LAGGING, LEFT, TORN_WRITE = "completed before it was done", "lagging copy", "zeroes leave the last block", "torn write"
TORN_READ, PARTED, IGNORED, BLIND = "torn read", "pair compared and written later", "mark ignored by a Compare", "Compare that finds no difference"
PLANTED = (None, STALE, LOST, TWICE, WRONG_LBA, LATE, LAGGING, LEFT, TORN_WRITE, TORN_READ, PARTED, IGNORED, BLIND)
# Of small traces alone: a reply that may say anything.
OTHER_REPLY = "another reply"

ERRORS = (*BEFORE, (0, 4), (0, 6), (1, 0x80), (2, 0x80))
ERRORS_OF_PAIRS = (((0, 6), (0, 6)), (SUCCESS, (0, 6)), ((0, 0x0B), (0, 9)), (DIFFERS, (0, 6)), ((0, 4), (0, 0x80)))
REPLIES = (SUCCESS, MARKED, DIFFERS, (0, 6), (0, 9), (0, 0x80))
# How long after its end a command is still done by a device that completes it too soon, and how long a copy lags.
LAG = 20


@dataclass
class Job:
    """A command or a pair on its way. A reply of `None` is the step's."""

    host: int
    began: int
    ended: int = None
    reply: tuple = None
    body: tuple = ()
    found: dict = field(default_factory=dict)  # each block of a look at its moment
    at_once: dict = field(default_factory=dict)  # and all of them in each unit at one

    def moment(self, chance):
        return chance.randint(self.began, self.began + LAG if self.ended is None else self.ended)


class Device:
    """Does the jobs that are handed to it, in the order of their moments. `by_blocks` says whether Reads and Compares may find each block
    at a moment of its own, and `tears` whether Writes above the standard's limit may be done so."""

    def __init__(self, chance, space, bug=None, rate=0.0, by_blocks=False, tears=False):
        self.chance, self.space, self.bug, self.rate = chance, space, bug, rate
        self.by_blocks, self.tears = by_blocks, tears
        zero = bytes(space.block)
        self.blocks = [zero] * space.nsze
        # What was in each block before, what a lagging copy has of it, and what is below its mark.
        self.before, self.copy, self.below = list(self.blocks), list(self.blocks), list(self.blocks)
        self.events, self.places = [], count()
        self.hits = 0

    def later(self, time, deed, *words):
        heappush(self.events, (time, next(self.places), deed, words))

    def run(self):
        while self.events:
            self.now, _, deed, words = heappop(self.events)
            deed(*words)

    def has_bug(self, bug):
        """Whether this bug, if it is the device's, strikes now."""
        strikes = self.bug == bug and self.chance.random() < self.rate
        self.hits += strikes
        return strikes

    def begin(self, job, ask):
        """Has the host ask for something, and does it in each of its cells."""
        job.body = ask(self)
        if refusal(self.space, job.body):
            return
        is_open = job.ended is None or job.reply is not None
        if is_open and (job.body[-1].opcode not in CHANGES or says_nothing_was_written(self.seen_of(job))):
            return
        for cell in self.cells(job.body):
            if is_open and self.chance.randrange(2):
                continue
            if len(job.body) == 2:
                self.do_pair(job, cell)
            elif job.body[0].opcode in CHANGES:
                self.do_write(job, cell)
            else:
                self.do_look(job, cell)

    def cells(self, body):
        """The blocks that have one moment each."""
        lead = body[0]
        cells = [tuple(range(first, first + blocks)) for _, first, blocks in parts_of(self.space, body)]
        if lead.opcode == DATASET:
            return [tuple(lba for lba in cell if any(0 <= lba - first < blocks for first, blocks in lead.ranges)) for cell in cells]
        is_above = len(cells) > 1 or lead.blocks > self.space.nawun + 1
        if self.tears and lead.opcode in CHANGES and is_above:
            return [(lba,) for cell in cells for lba in cell]
        return cells

    def halves(self, cell, bug):
        """The cell, or its halves where the bug tears it."""
        middle = len(cell) // 2
        return [cell[:middle], cell[middle:]] if middle and self.has_bug(bug) else [cell]

    def do_write(self, job, cell):
        is_clearing = job.body[0].opcode in (ZEROES, DATASET)
        if is_clearing and len(cell) > 1 and self.has_bug(LEFT):
            cell = cell[:-1]
        for part in self.halves(cell, TORN_WRITE):
            moment, end = job.moment(self.chance), job.began if job.ended is None else job.ended
            if self.has_bug(LOST):
                continue
            if self.has_bug(LATE):
                moment = end + self.chance.randint(1, LAG)
            self.later(moment, self.put, job.body[0], part, int(self.has_bug(WRONG_LBA)))
            if self.has_bug(TWICE):
                self.later(end + self.chance.randint(1, LAG), self.put, job.body[0], part, 0)

    def put(self, command, cell, aside):
        for lba in cell:
            it = {WRITE: command.data[lba - command.first] if command.data else None, UNCORRECTABLE: MARK}.get(command.opcode, bytes(self.space.block))
            lba = lba ^ aside if lba ^ aside < self.space.nsze else lba
            self.before[lba], self.blocks[lba] = self.blocks[lba], it
            self.below[lba] = self.below[lba] if it is MARK else it
            if self.bug == LAGGING:
                self.later(self.now + LAG, self.copy.__setitem__, lba, it)

    def do_look(self, job, cell):
        if self.bug in (STALE, LAGGING) and self.has_bug(self.bug):
            self.later(job.moment(self.chance), self.look, job.found, cell, self.before if self.bug == STALE else self.copy)
        elif job.body[0].opcode == COMPARE and self.has_bug(IGNORED):
            self.later(job.moment(self.chance), self.look, job.found, cell, self.below)
        else:
            for part in [(lba,) for lba in cell] if self.by_blocks else self.halves(cell, TORN_READ):
                self.later(job.moment(self.chance), self.look, job.found, part, self.blocks)
        self.later(job.moment(self.chance), self.look, job.at_once, cell, self.blocks)

    def look(self, found, cell, blocks):
        found.update((lba, blocks[lba]) for lba in cell)

    def do_pair(self, job, cell):
        moment = job.moment(self.chance)
        self.later(moment, self.compare, job, cell, self.has_bug(PARTED))

    def compare(self, job, cell, is_parted):
        """Compares, and writes at once or at another moment."""
        self.look(job.found, cell, self.blocks)
        self.look(job.at_once, cell, self.blocks)
        if self.status_of(job, job.found) == SUCCESS:
            if is_parted:
                last = job.began + LAG if job.ended is None else job.ended
                self.later(self.chance.randint(self.now, last), self.put, job.body[1], cell, 0)
            else:
                self.put(job.body[1], cell, 0)

    def status_of(self, job, found):
        """The status of a look that found this: of its first unit without success."""
        lead = job.body[0]
        for _, first, blocks in parts_of(self.space, job.body):
            lbas = range(first, first + blocks)
            at = first - lead.first
            status = look(lead, tuple(found[lba] for lba in lbas), lead.data[at : at + blocks])
            if status != "0/00":
                return numbered([status])[0]
        return SUCCESS

    def seen_of(self, job):
        """What the host saw of a job: of one that was answered with an error of its own, or never, whenever it is asked for."""
        if job.ended is None:
            return Seen(job.host, job.body, job.began)
        refused = refusal(self.space, job.body)
        statuses, data = (SUCCESS,) * len(job.body), None
        if job.reply or refused:
            statuses = job.reply[len(job.body) - 1] if job.reply else numbered(refused)
        elif job.body[0].opcode in (READ, COMPARE):
            statuses, data = self.told(job)
        return Seen(job.host, job.body, job.began, job.ended, statuses, data)

    def told(self, job):
        """The statuses of a look or a pair, and a Read's data."""
        lead, found = job.body[0], job.found
        # What fails block by block is looked at as a whole, as the standard has it fail.
        if self.by_blocks and self.status_of(job, found) != SUCCESS:
            found = job.at_once
        status = self.status_of(job, found)
        if status == DIFFERS and len(job.body) == 1 and self.has_bug(BLIND):
            return (SUCCESS,), None
        if status != SUCCESS:
            return (status, (0, 9))[: len(job.body)], None
        is_read = lead.opcode == READ
        return (SUCCESS,) * len(job.body), b"".join(found[lba] for lba in range(lead.first, lead.first + lead.blocks)) if is_read else None


KINDS = (WRITE, READ, COMPARE, ZEROES, UNCORRECTABLE, DATASET, "pair", "flawed")
# How often each kind is asked for, and where a bug is of some kinds alone, more often those.
WEIGHTS = {None: (6, 8, 2, 1, 1, 2, 3, 1), LEFT: (6, 8, 1, 5, 0, 5, 1, 0), PARTED: (5, 5, 0, 0, 0, 0, 10, 0), IGNORED: (5, 4, 8, 0, 4, 0, 3, 0), BLIND: (6, 6, 6, 1, 1, 1, 3, 0)}


class Host:
    """Asks for commands at random. `values` gives the content of a block that is written."""

    def __init__(self, chance, values, bug, by_units):
        self.chance, self.values, self.by_units = chance, values, by_units
        self.weights = WEIGHTS.get(bug, WEIGHTS[None])

    def range_in(self, space):
        """The first block and how many: a whole unit mostly, where the host works by units."""
        # Few blocks above the limit, since each of them has a moment of its own.
        most = space.nawun + 2 if space.nawun < 2 else space.nawun + 1
        if self.by_units and self.chance.random() < 0.7:
            first, blocks = self.chance.choice(space.units())
            return first, min(blocks, most)
        first = self.chance.randrange(space.nsze)
        return first, min(self.chance.choice((1, 1, 2, 3)), most, space.nsze - first)

    def data_for(self, opcode, device, first, blocks):
        """New data for a Write. A Compare mostly has what is there."""
        if opcode == COMPARE and self.chance.random() < 0.8:
            return tuple(device.below[first : first + blocks])
        return tuple(self.values() for _ in range(blocks)) if opcode in (WRITE, COMPARE) else ()

    def command(self, opcode, device, first, blocks, fuse=0):
        cid = self.chance.randrange(100)
        if opcode == DATASET:
            ranges = ((first, blocks), *(self.range_in(device.space) for _ in range(self.chance.randrange(2))))
            return Command(opcode, fuse, cid, 1, 0, 1, (), ranges, self.chance.random() < 0.9)
        return Command(opcode, fuse, cid, 1, first, blocks, self.data_for(opcode, device, first, blocks))

    def ask(self, device):
        """The command or the pair that it asks for, by what is on the device now."""
        (kind,) = self.chance.choices(KINDS, self.weights)
        first, blocks = self.range_in(device.space)
        if kind == "pair":
            return tuple(self.command(opcode, device, first, blocks, fuse) for opcode, fuse in ((COMPARE, FIRST), (WRITE, SECOND)))
        if kind == "flawed":
            sound = self.command(self.chance.choice((WRITE, READ, ZEROES)), device, first, blocks)
            return (replace(sound, **self.chance.choice(({"nsid": 2}, {"fuse": FIRST}, {"first": device.space.nsze}, {"opcode": 0x7F, "data": ()}))),)
        return (self.command(kind, device, first, blocks),)


def filled(stamp):
    return stamp.to_bytes(4, "little") * 128


FEW = (0, *(0x01010101 * it for it in range(0x41, 0x55)))


def times(chance, number):
    """When each of some jobs began and ended."""
    width = chance.choice((2, 6, 15, 40))
    for moment in sorted(chance.choices(range(100, 200), k=number)):
        yield moment - chance.randrange(width), moment + chance.randrange(width)


def small_space(chance, is_unknown):
    """A namespace of few blocks. There are fewest where what they held at first isn't known."""
    nabsn = chance.choice((0, 1, 1, 2, 3, 3))
    nabo = chance.randrange(nabsn + 1) if chance.randrange(2) else 0
    most = nabsn or 3
    return Namespace(chance.randint(1, 3 if is_unknown else 5), 512, nabsn, nabo, chance.randint(0, most), chance.randint(0, most))


def small_trace(seed):
    """A trace of 6 to 10 jobs, whether it is to be judged strictly, and the device's bug."""
    chance = random.Random(seed)
    is_strict, by_blocks, is_unknown = chance.random() < 0.25, chance.random() < 0.2, chance.random() < 0.15
    bug = chance.choice((*PLANTED[1:], OTHER_REPLY)) if chance.random() < 0.75 else None
    rate = chance.choice((0.3, 0.6, 1))
    device = Device(chance, small_space(chance, is_unknown), bug, rate, by_blocks and not is_strict, not is_strict and chance.randrange(2) == 0)
    few = [filled(it) for it in FEW[: chance.choice((3, 4, 6, 21))]]
    if is_unknown:
        device.blocks = [chance.choice(few) for _ in device.blocks]
        device.before, device.copy, device.below = list(device.blocks), list(device.blocks), list(device.blocks)
    host = Host(chance, lambda: chance.choice(few), bug, chance.randrange(2))
    jobs = []
    for began, ended in times(chance, chance.randint(6, 10)):
        job = Job(chance.randint(1, 3), began, None if chance.random() < 0.08 else ended)
        if chance.random() < 0.08:
            job.reply = (chance.choice(ERRORS),), chance.choice(ERRORS_OF_PAIRS)
        jobs.append(job)
    trace = trace_of(device, host, jobs, is_unknown, by_blocks)
    return (with_other_reply(chance, trace) if bug == OTHER_REPLY else trace), is_strict, bug


def trace_of(device, host, jobs, is_unknown=False, by_blocks=False):
    """What the hosts saw of the jobs."""
    for job in jobs:
        device.later(job.began, device.begin, job, host.ask)
    device.run()
    return Trace(device.space, tuple(map(device.seen_of, jobs)), unknown=is_unknown, reads="by-blocks" if by_blocks else "atomic")


def with_other_reply(chance, trace):
    """The trace in which one job has other statuses, or without data, or other data."""
    number = chance.randrange(len(trace.jobs))
    seen = trace.jobs[number]
    if seen.ended is None:
        return trace
    statuses = tuple(chance.choice(REPLIES) for _ in seen.statuses)
    data = seen.data if chance.randrange(2) else None
    if len(seen.body) == 1 and seen.body[0].opcode == READ and chance.randrange(2):
        data = b"".join(filled(chance.choice(FEW[:4])) for _ in range(seen.body[0].blocks))
    return with_seen(trace, number, statuses=statuses, data=data)


def device_trace(bug, seed, number=200, queues=4):
    """What the hosts saw of a device with four queues, where each content is written once. And how often the bug struck."""
    chance, stamps = random.Random(seed), count(1)
    device = Device(chance, Namespace(16, 512, 3, 0, 3, 3), bug, 0.1)
    host = Host(chance, lambda: filled(next(stamps)), bug, by_units=True)
    jobs = []
    for queue in range(1, queues + 1):
        time = 1
        for _ in range(number // queues):
            began = time + chance.randrange(1, 4)
            time = began + chance.randrange(1, 12)
            jobs.append(Job(queue, began, time))
    jobs.sort(key=lambda job: job.began)
    return trace_of(device, host, jobs), device.hits
