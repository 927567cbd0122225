"""Records as files, by the tables of docs/FORMATS.md: how one is spelled, and how one is read or refused.

It knows nothing of how the programs are made. A command is one of model.py; opcode 09h in a record of version 1 is one
without ranges, of no known command.
"""

import struct
from dataclasses import dataclass, field

from model import COMPARE, DATASET, FIRST, READ, SECOND, UNCORRECTABLE, WRITE, ZEROES, Command, Namespace, refusal

NAMES = {b"NVR1": 1, b"NVR2": 2}
MOST_JOBS = 4_194_304
MOST_LIMIT = {1: 65_536, 2: 4_194_304}
KIND_WRITE, KIND_ZEROES, KIND_UNCORRECTABLE, KIND_PAIR, KIND_DEALLOCATE = range(1, 6)
KINDS = {WRITE: KIND_WRITE, ZEROES: KIND_ZEROES, UNCORRECTABLE: KIND_UNCORRECTABLE, DATASET: KIND_DEALLOCATE}
DONE, FAILED, LOOKED, NO_MEMORY, FULL = range(1, 6)
GEOMETRY = ("nabsn", "nabo", "nawun", "nacwu")


class RecordFault(Exception):
    """The first fault of a file, as the program tells it, and the field whose value isn't allowed."""

    def __init__(self, told, at=None, field=None):
        super().__init__(told if at is None else f"{told} at {at}")
        self.field = field


@dataclass(frozen=True)
class Job:
    host: int
    body: tuple  # one command, or the two of a pair


@dataclass(frozen=True)
class Entry:
    """One change in the history of a unit."""

    worker: int
    job: int
    kind: int
    first: int = 0
    blocks: int = 0
    data: bytes = b""
    ranges: tuple = ()  # of a Deallocate: first and blocks of each


@dataclass(frozen=True)
class Done:
    """What a worker did of a job."""

    job: int
    parts: tuple  # of each its unit, its point and its result
    statuses: tuple  # of each command: type and code
    data: bytes = None


@dataclass(frozen=True)
class Record:
    version: int
    namespace: Namespace
    workers: int
    jobs: tuple
    units: tuple  # the entries of each
    done: tuple  # the done jobs of each worker


def command_bytes(command):
    """A submission entry, and the data behind it."""
    place, data = command.first, b"".join(command.data)
    if command.ranges:
        place = len(command.ranges) - 1 + (command.deallocate << 34)
        data = b"".join(struct.pack("<4xIQ", blocks, first) for first, blocks in command.ranges)
    head = struct.pack("<BBHI32x", command.opcode, command.fuse, command.cid, command.nsid)
    return head + struct.pack("<QH14x", place, command.blocks - 1) + data


def entry_bytes(entry):
    head = struct.pack("<HIB", entry.worker, entry.job, entry.kind)
    if entry.kind == KIND_DEALLOCATE:
        ranges = b"".join(struct.pack("<QI", first, blocks) for first, blocks in entry.ranges)
        return head + struct.pack("<H", len(entry.ranges)) + ranges
    return head + struct.pack("<QI", entry.first, entry.blocks) + entry.data


def done_bytes(done):
    parts = b"".join(struct.pack("<HIB", *part) for part in done.parts)
    statuses = b"".join(struct.pack("<BB", *status) for status in done.statuses)
    data = b"\0" if done.data is None else b"\1" + done.data
    return struct.pack("<IH", done.job, len(done.parts)) + parts + statuses + data


def counted(items, spelled):
    return [struct.pack("<I", len(items)), *map(spelled, items)]


def spelled(record):
    """The file of a record."""
    space, first = record.namespace, record.version == 1
    file = [b"NVR%d" % record.version, struct.pack("<QI", space.nsze, space.block)]
    file.append(struct.pack("<4H", *(getattr(space, name) for name in GEOMETRY)))
    file.append(struct.pack("<H", space.limit - 1) if first else struct.pack("<I", space.limit))
    file.append(struct.pack("<HI", record.workers, len(record.jobs)))
    for job in record.jobs:
        file.append(struct.pack("<HB", job.host, len(job.body) - 1))
        file.extend(map(command_bytes, job.body))
    for entries in record.units:
        file.extend(counted(entries, entry_bytes))
    for jobs in record.done:
        file.extend(counted(jobs, done_bytes))
    return b"".join(file)


def makes_namespace(nsze, block, nabsn, nabo, nawun, nacwu):
    """Whether these numbers describe a namespace."""
    if not 1 <= nsze <= 65_536 or block not in (512, 4096):
        return False
    if nabsn == 0:
        return nabo == 0
    units = len({0, *range(nabo, nsze, nabsn + 1)})
    return max(nabo, nawun, nacwu) <= nabsn and units <= 4096


@dataclass
class Reader:
    """Reads a file from its front."""

    file: bytes
    version: int = 0
    namespace: Namespace = None
    workers: int = 0
    jobs: list = field(default_factory=list)
    at: int = 4
    piece: str = ""  # what is read, as in "job 3"

    def bytes(self, length):
        """A field of so many bytes."""
        if len(self.file) - self.at < length:
            raise RecordFault("truncated", self.at)
        self.at += length
        return self.file[self.at - length : self.at]

    def refuse(self, at, called):
        """The field there, which is called so, has a value that isn't allowed."""
        raise RecordFault("bad value", at, f"the {called} of {self.piece}" if self.piece else f"the {called}")

    def number(self, length, least=0, most=None, called=""):
        """A field that holds a number, from the least to the most that are allowed."""
        at, number = self.at, int.from_bytes(self.bytes(length), "little")
        if number < least or most is not None and number > most:
            self.refuse(at, called)
        return number

    def record(self):
        numbers = [self.number(length) for length in (8, 4, 2, 2, 2, 2)]
        if not makes_namespace(*numbers):
            self.refuse(4, "numbers of the namespace")
        limit = self.number(2) + 1 if self.version == 1 else self.number(4, 1, MOST_LIMIT[2], "limit")
        self.namespace = Namespace(*numbers, limit)
        self.workers = self.number(2, 1, 64, "number of workers")
        for number in range(self.number(4, 0, MOST_JOBS, "number of jobs")):
            self.piece = f"job {number}"
            self.jobs.append(self.job())
        units = tuple(self.history(limit, unit, *place) for unit, place in enumerate(self.namespace.units()))
        done = tuple(self.work(worker) for worker in range(self.workers))
        if self.at < len(self.file):
            raise RecordFault("trailing", self.at)
        return Record(self.version, self.namespace, self.workers, tuple(self.jobs), units, done)

    def job(self):
        host, kind = self.number(2, 1, 64, "host"), self.number(1, 0, 1, "kind")
        places = (FIRST, SECOND) if kind else (None,)
        return Job(host, tuple(self.command(place) for place in places))

    def history(self, limit, unit, begin, length):
        self.piece = f"unit {unit}"
        count = self.number(4, 0, limit, "number of entries")
        return tuple(self.entry(f"entry {place} of unit {unit}", begin, length) for place in range(count))

    def work(self, worker):
        self.piece = f"worker {worker}"
        count = self.number(4, 0, MOST_JOBS, "number of done jobs")
        return tuple(self.done(f"done job {place} of worker {worker}") for place in range(count))

    def command(self, place):
        """A command; `place` is the FUSE bits that it must have in a pair, or None."""
        at, entry, called = self.at, self.bytes(64), {FIRST: "first command", SECOND: "second command"}.get(place, "command")
        opcode, fuse, cid, nsid, slba, nlb = struct.unpack("<BBHI32xQH14x", entry)
        has_ranges = opcode == DATASET and self.version == 2
        named = slba & (0xFF | 1 << 34) if has_ranges else slba
        if entry != struct.pack("<BBHI32xQH14x", opcode, fuse & 3, cid, nsid, named, 0 if has_ranges else nlb):
            self.refuse(at, called)
        command = Command(opcode, fuse, cid, nsid, 0 if has_ranges else slba, nlb + 1, ())
        if place is not None and (fuse != place or not (command.is_known() or has_ranges)):
            self.refuse(at, called)
        if has_ranges:
            return Command(opcode, fuse, cid, nsid, 0, 1, (), self.ranges((slba & 0xFF) + 1, "data" if place is None else f"data of the {called}"), bool(slba >> 34))
        if opcode not in (WRITE, COMPARE):
            return command
        block = self.namespace.block
        data = self.bytes(command.blocks * block)
        blocks = tuple(data[begin : begin + block] for begin in range(0, len(data), block))
        return Command(opcode, fuse, cid, nsid, slba, nlb + 1, blocks)

    def ranges(self, count, called):
        at, data = self.at, self.bytes(16 * count)
        read = [struct.unpack_from("<IIQ", data, 16 * place) for place in range(count)]
        if any(attributes for attributes, _, _ in read):
            self.refuse(at, called)
        return tuple((first, blocks) for _, blocks, first in read)

    def range_in(self, begin, length, called="number of blocks"):
        """A first LBA, and a number of blocks, which all lie in the unit."""
        first, at, blocks = self.number(8), self.at, self.number(4, 1, called=called)
        if first < begin or first + blocks > begin + length:
            self.refuse(at, called)
        return first, blocks

    def entry(self, piece, begin, length):
        """An entry of the unit that begins there and has so many blocks."""
        self.piece = piece
        worker = self.number(2, 0, self.workers - 1, "pass")
        job = self.number(4, 0, len(self.jobs) - 1, "job")
        kind = self.number(1, 1, KIND_PAIR if self.version == 1 else KIND_DEALLOCATE, "kind")
        if kind == KIND_DEALLOCATE:
            count = self.number(2, 1, 256, "number of ranges")
            ranges = tuple(self.range_in(begin, length, f"number of blocks of range {place}") for place in range(count))
            return Entry(worker, job, kind, ranges=ranges)
        first, blocks = self.range_in(begin, length)
        runs = {KIND_WRITE: 1, KIND_PAIR: 2}.get(kind, 0)
        return Entry(worker, job, kind, first, blocks, self.bytes(runs * blocks * self.namespace.block))

    def done(self, piece):
        self.piece = piece
        job = self.number(4, 0, len(self.jobs) - 1, "job")
        parts = tuple(self.part(place) for place in range(self.number(2, 0, len(self.namespace.units()), "number of parts")))
        body = self.jobs[job].body
        statuses = tuple((self.number(1), self.number(1)) for _ in body)
        has_data = len(body) == 1 and body[0].opcode == READ and refusal(self.namespace, body) is None
        if not self.number(1, 0, int(has_data), "flag of the data"):
            return Done(job, parts, statuses)
        return Done(job, parts, statuses, self.bytes(body[0].blocks * self.namespace.block))

    def part(self, place):
        unit = self.number(2, 0, len(self.namespace.units()) - 1, f"unit of part {place}")
        return unit, self.number(4), self.number(1, DONE, FULL, f"result of part {place}")


def record_of(file):
    """The record that a file spells. Where it spells none, it raises RecordFault."""
    if file[:3] != b"NVR":
        raise RecordFault("bad name")
    if file[:4] not in NAMES:
        raise RecordFault("unknown version")
    return Reader(file, NAMES[file[:4]]).record()
