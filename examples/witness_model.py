"""A plain model of a witness: the record of a trace's commands done in some order, and the line that the program must print of the two.

It knows nothing of how the programs are made. A record of it is by one worker, and lawful, so that what can be wrong are replies and times.
"""

from dataclasses import dataclass, replace

from auditor import numbered, parts_of
from host_files import file_of
from model import CHANGES, COMPARE, DATASET, READ, UNCORRECTABLE, WRITE, ZEROES, refusal
from recorded import OneWorker, jobs_of
from records import DONE, FAILED, LOOKED, Job, Record
from trace_files import Seen

SUCCESS, ABORTED, MARKED, DIFFERS = (0, 0), (0, 9), (2, 0x81), (2, 0x85)
# The errors that the step gives a command by itself.
OF_STEP = {READ: (MARKED,), COMPARE: (MARKED, DIFFERS)}
# The errors that are found before a command is executed.
BEFORE = ((0, 1), (0, 2), ABORTED, (0, 0x0A), (0, 0x0B), (0, 0x14), (0, 0x80))


def filled(*fillers):
    """Blocks, each of one byte."""
    return b"".join(bytes([filler]) * 512 for filler in fillers)


def sent(began, ended, *asked, statuses=None, found=None, host=1):
    """What a host saw of a command or a pair. It succeeded where no statuses are told; `found` are the bytes of a Read's blocks."""
    body = jobs_of([file_of(list(asked))], 512)[0].body
    if ended is None:
        return Seen(host, body, began)
    return Seen(host, body, began, ended, statuses or (SUCCESS,) * len(body), found and filled(*found))


@dataclass(frozen=True)
class Piece:
    """A job of the record: the traced job that it is of, and which block of it, or None for all or for its part in a unit."""

    seen: Seen
    block: int
    job: Job

    def data(self, size=512):
        """What came back of it."""
        data = self.seen.data
        return data if data is None or self.block is None else data[size * self.block : size * (self.block + 1)]


def is_cut(trace, seen):
    """Whether the standard has the command done block by block."""
    space, lead = trace.namespace, seen.body[0]
    if len(seen.body) == 2 or refusal(space, seen.body):
        return False
    if lead.opcode in (WRITE, ZEROES, UNCORRECTABLE):
        return lead.blocks > space.nawun + 1 or space.unit(lead.first) != space.unit(lead.first + lead.blocks - 1)
    return trace.by_blocks and lead.opcode in (READ, COMPARE) and seen.statuses == (SUCCESS,)


def is_open(space, seen):
    """Whether it writes, and its reply leaves open what was done."""
    is_write = len(seen.body) == 1 and seen.body[0].opcode in CHANGES
    return is_write and not refusal(space, seen.body) and not says(space, seen) and not says_nothing_was_written(seen)


def in_unit(lead, part):
    """The command's part in a unit, as a command by itself."""
    _, begin, count = part
    if lead.opcode == DATASET:
        cut = [(max(first, begin), min(first + blocks, begin + count)) for first, blocks in lead.ranges]
        return replace(lead, ranges=tuple((first, end - first) for first, end in cut if first < end))
    at = begin - lead.first
    return replace(lead, first=begin, blocks=count, data=lead.data[at : at + count])


def pieces_of(trace, seen, strict):
    """The block of each piece, or None, and its commands."""
    space, lead = trace.namespace, seen.body[0]
    if not strict and is_cut(trace, seen):
        for block in range(lead.blocks):
            yield block, (replace(lead, first=lead.first + block, blocks=1, data=lead.data[block : block + 1]),)
        return
    parts = parts_of(space, seen.body) if is_open(space, seen) else ()
    if len(parts) > 1:
        for part in parts:
            yield None, (in_unit(lead, part),)
        return
    yield None, seen.body


def pieces(trace, strict=False):
    return [Piece(seen, block, Job(seen.host, body)) for seen in trace.jobs for block, body in pieces_of(trace, seen, strict)]


def record_in(trace, order, wants=None, strict=False):
    """The record of a worker that did the pieces in this order. `wants` says at which part of a piece memory was wanted."""
    handed = tuple(piece.job for piece in pieces(trace, strict))
    worker = OneWorker(trace.namespace, [job.body for job in handed], wants or {})
    done = tuple(worker.done(number) for number in order)
    return Record(2, trace.namespace, 1, handed, tuple(map(tuple, worker.entries)), (done,))


def contradicts(statuses):
    if len(statuses) == 1:
        return False
    compared, written = statuses
    return compared != SUCCESS and written == SUCCESS or compared == SUCCESS and written == ABORTED


def says(space, seen):
    """Whether the reply says what was done."""
    if seen.ended is None:
        return False
    statuses, refused = seen.statuses, refusal(space, seen.body)
    if contradicts(statuses):
        return True
    if refused:
        is_served = len(seen.body) == 2 or seen.body[0].is_known()
        return is_served and (statuses == numbered(refused) or set(statuses) == {SUCCESS})
    if len(statuses) == 1:
        return statuses[0] in (SUCCESS, *OF_STEP.get(seen.body[0].opcode, ()))
    return set(statuses) == {SUCCESS} or statuses[0] in (MARKED, DIFFERS) and statuses[1] == ABORTED


def says_nothing_was_written(seen):
    if seen.ended is None:
        return False
    return seen.statuses[-1] in BEFORE or len(seen.body) == 2 and seen.statuses[0] in (MARKED, DIFFERS)


def agrees(space, piece, done):
    """Whether what was recorded is what the host saw."""
    if says(space, piece.seen) and (done.statuses != piece.seen.statuses or done.data != piece.data()):
        return False
    return not says_nothing_was_written(piece.seen) or all(result != DONE for _, _, result in done.parts)


@dataclass(frozen=True)
class Step:
    seen: Seen
    job: int
    unit: int
    point: int
    level: int

    def is_late(self, earlier):
        """Whether the earlier one's command began only when this one's had ended."""
        is_before = earlier.unit == self.unit and earlier.level < self.level
        return is_before and self.seen.ended is not None and self.seen.ended < earlier.seen.began


def steps_of(cut, record):
    return [
        Step(cut[done.job].seen, done.job, unit, point, 2 * point + (result == DONE))
        for done in record.done[0]
        for unit, point, result in done.parts
        if result in (DONE, FAILED, LOOKED)
    ]


def unexplained(fault, job="-", unit="-", place="-"):
    return f"unexplained {fault} job {job} unit {unit} place {place}"


def line_of(trace, record, strict=False):
    """The line of the trace and a record that `record_in` made of it."""
    space, cut = trace.namespace, pieces(trace, strict)
    for done in sorted(record.done[0], key=lambda done: done.job):
        if not agrees(space, cut[done.job], done):
            return unexplained("ReplyDiffers", done.job)
    steps = steps_of(cut, record)
    for step in steps:
        if any(step.is_late(earlier) for earlier in steps):
            return unexplained("TimeBack", step.job, step.unit, step.point)
    excused = sum(not says(space, seen) for seen in trace.jobs)
    return f"explained jobs {len(trace.jobs)} units {len(space.units())} steps {len(steps)} excused {excused} preparations 0"
