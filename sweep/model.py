"""A plain model of a run of the program: jobs, units, marks, limits, and where memory may be wanted.

What isn't decided by the files alone is which growths of memory are refused. So a job has several ends
here, those in which it wants memory among them, and `Model.wants` follows all of those that print what the
program printed. It knows nothing of how the program is made but this: a job of several parts asks for
their list before the first, and one that is refused a growth ends with it, and asks for no more.
"""

import re
import struct
from collections import deque
from dataclasses import dataclass, replace
from functools import lru_cache
from itertools import groupby, zip_longest

WRITE, READ, UNCORRECTABLE, COMPARE, ZEROES, DATASET = 1, 2, 4, 5, 8, 9
NAMES = {
    WRITE: "write",
    READ: "read",
    UNCORRECTABLE: "uncorrectable",
    COMPARE: "compare",
    ZEROES: "zeroes",
    DATASET: "dataset",
}
CHANGES = {WRITE, UNCORRECTABLE, ZEROES, DATASET}
NORMAL, FIRST, SECOND, RESERVED = range(4)
# Stands for the bytes of a block that is marked uncorrectable.
MARK = None


@dataclass(frozen=True)
class Namespace:
    """Its numbers, by the names of the options, and how many changes each unit may have."""

    nsze: int = 32
    block: int = 512
    nabsn: int = 0
    nabo: int = 0
    nawun: int = 7
    nacwu: int = 3
    limit: int = 100

    def unit(self, lba):
        """The number of the LBA's unit: how many boundaries are at most it, 0 not among them."""
        if self.nabsn == 0:
            return 0
        return len(range(self.nabo, lba + 1, self.nabsn + 1)) - (self.nabo == 0)

    def units(self):
        """The first LBA and the number of blocks of each unit."""
        return units_of(self.nsze, self.nabsn, self.nabo)


@lru_cache(64)
def units_of(nsze, nabsn, nabo):
    begins = sorted({0, *(range(nabo, nsze, nabsn + 1) if nabsn else ())})
    return tuple((begin, end - begin) for begin, end in zip(begins, [*begins[1:], nsze]))


@dataclass(frozen=True)
class Command:
    opcode: int
    fuse: int
    cid: int
    nsid: int
    first: int
    blocks: int
    data: tuple  # block by block
    ranges: tuple = ()  # of a Dataset Management: first and blocks of each
    deallocate: bool = False

    def is_known(self):
        """Whether the opcode is one of the profile. A record of the first version knows no Dataset Management."""
        return self.opcode in NAMES and (self.opcode != DATASET or bool(self.ranges))

    def name(self):
        return NAMES[self.opcode] if self.is_known() else f"op-{self.opcode:02x}"


def commands(file, block):
    """The commands of a whole host file."""
    at = 4
    while at < len(file):
        opcode, fuse, cid, nsid = struct.unpack_from("<BBHI", file, at)
        first, blocks = struct.unpack_from("<QH", file, at + 40)
        if opcode == DATASET:
            count, deallocate = file[at + 40] + 1, bool(file[at + 44] & 4)
            at += 64
            ranges = tuple(struct.unpack_from("<4xIQ", file, at + 16 * place)[::-1] for place in range(count))
            yield Command(opcode, fuse & 3, cid, nsid, 0, 1, (), ranges, deallocate)
            at += 16 * count
            continue
        at, blocks = at + 64, blocks + 1
        end = at + (blocks * block if opcode in (WRITE, COMPARE) else 0)
        data = tuple(file[i : i + block] for i in range(at, end, block))
        yield Command(opcode, fuse & 3, cid, nsid, first, blocks, data)
        at = end


def bodies(listed):
    """One host's jobs: a fused pair of neighbours, or a command by itself."""
    rest = deque(listed)
    while rest:
        body = [rest.popleft()]
        if rest and is_pair(body[0], rest[0]):
            body.append(rest.popleft())
        yield body


def is_pair(first, second):
    return (first.fuse, second.fuse) == (FIRST, SECOND) and first.is_known() and second.is_known()


def jobs(files, block):
    """Each job with its host's number, in the order in which they are done: one of each host in turn."""
    turns = zip_longest(*(bodies(commands(file, block)) for file in files))
    return [(host, body) for turn in turns for host, body in enumerate(turn, 1) if body]


def refusal(namespace, body):
    """The statuses of the first check that applies, or None."""
    lead, last = body[0], body[-1]
    end = max([first + blocks for first, blocks in lead.ranges], default=lead.first + lead.blocks)
    if len(body) == 1:
        table = [
            (not lead.is_known(), ["0/01"]),
            (lead.fuse == RESERVED, ["0/02"]),
            (lead.fuse != NORMAL, ["0/0a"]),
            (lead.nsid != 1, ["0/0b"]),
            (end > namespace.nsze, ["0/80"]),
        ]
    else:
        table = [
            ((lead.opcode, last.opcode) != (COMPARE, WRITE), ["0/02", "0/02"]),
            ((lead.nsid, last.nsid) != (1, 1), ["0/0b", "0/09"]),
            ((lead.first, lead.blocks) != (last.first, last.blocks), ["0/02", "0/02"]),
            (end > namespace.nsze, ["0/80", "0/09"]),
            (lead.blocks > namespace.nacwu + 1, ["0/14", "0/09"]),
            (end <= namespace.nsze and namespace.unit(lead.first) != namespace.unit(end - 1), ["0/14", "0/09"]),
        ]
    return next((statuses for applies, statuses in table if applies), None)


@dataclass(frozen=True)
class World:
    """What stands after some jobs."""

    blocks: tuple  # the bytes of each block, or MARK
    changes: tuple  # how many changes each unit had
    wanting: int = 0  # how many jobs ended by want of memory

    def refused(self):
        """The same, after a job that was refused a growth."""
        return replace(self, wanting=self.wanting + 1)

    def changed(self, unit, begin, blocks):
        """After a change of the unit: the blocks from `begin` are these."""
        whole = self.blocks[:begin] + blocks + self.blocks[begin + len(blocks) :]
        counts = self.changes[:unit] + (self.changes[unit] + 1,) + self.changes[unit + 1 :]
        return replace(self, blocks=whole, changes=counts)


def cleared_ranges(command):
    """The LBAs of each range that a Dataset Management deallocates."""
    return [range(first, first + blocks) for first, blocks in command.ranges if blocks and command.deallocate]


def parts(namespace, command):
    """Each unit that the command's range meets, or one of its ranges that are to be deallocated, with the first and the
    number of the blocks in it."""
    if command.opcode == DATASET:
        met = {unit for lbas in cleared_ranges(command) for unit in range(namespace.unit(lbas[0]), namespace.unit(lbas[-1]) + 1)}
        for unit in sorted(met):
            yield unit, *namespace.units()[unit]
        return
    for unit, lbas in groupby(range(command.first, command.first + command.blocks), namespace.unit):
        lbas = list(lbas)
        yield unit, lbas[0], len(lbas)


def look(command, old, data):
    """The status of a look at these blocks; `data` is what a Compare has for them."""
    if command.opcode in (READ, COMPARE) and MARK in old:
        return "2/81"
    return "2/85" if command.opcode == COMPARE and old != data else "0/00"


def ends(namespace, body, world):
    """Yields each end that the job can have: what is told of its commands, and the world that it leaves."""
    refused = refusal(namespace, body)
    if refused:
        yield refused, world
        return
    lead, last = body[0], body[-1]
    wants_memory = ["0/00", "0/06"][-len(body) :]
    pieces = list(parts(namespace, lead))
    # Before its first part a job of several asks for the room of their list, and a Read also for that of its data.
    if len(pieces) > 1:
        yield ["0/06"], world.refused()
    for unit, begin, count in pieces:
        at, old = begin - lead.first, world.blocks[begin : begin + count]
        status = look(lead, old, lead.data[at : at + count])
        if status != "0/00":
            yield [status, "0/09"][: len(body)], world
            return
        if last.opcode in CHANGES and world.changes[unit] == namespace.limit:
            yield wants_memory, world
            return
        # A Compare takes no memory of its own.
        if last.opcode != COMPARE:
            yield wants_memory, world.refused()
        if last.opcode in CHANGES:
            zeroes, marks = (bytes(namespace.block),) * count, (MARK,) * count
            new = {WRITE: last.data[at : at + count], ZEROES: zeroes, UNCORRECTABLE: marks}.get(last.opcode)
            if last.opcode == DATASET:
                cleared = [any(0 <= lba - first < n for first, n in last.ranges) for lba in range(begin, begin + count)]
                new = tuple(zeroes[0] if clear else it for clear, it in zip(cleared, old))
            world = world.changed(unit, begin, new)
    read = " " + runs(world.blocks[lead.first : lead.first + lead.blocks]) if lead.opcode == READ else ""
    yield ["0/00" + read, "0/00"][: len(body)], world


@lru_cache(4096)
def runs(blocks):
    """The bytes of the blocks as their longest runs of equal ones."""
    found = re.finditer(rb"(?s)(.)\1*", b"".join(blocks))
    return ",".join(f"{len(run[0])}*{run[1].hex()}" for run in found)


class Model:
    """What a run of these host files, host 1's first, may print."""

    def __init__(self, namespace, files):
        self.namespace = namespace
        self.jobs = jobs(files, namespace.block)
        self.first = World((bytes(namespace.block),) * namespace.nsze, (0,) * (namespace.unit(namespace.nsze - 1) + 1))

    def wants(self, text):
        """In how many jobs memory may have been wanted, as a set, for the run to print this text. Where it
        can't print this, it raises ValueError."""
        lines = deque(text.split("\n"))
        worlds = {self.first}
        for host, body in self.jobs:
            shown = [lines.popleft() if lines else "" for _ in body]
            found, ways = set(), set()
            for world in worlds:
                for told, after in ends(self.namespace, body, world):
                    way = [f"{host} {it.cid} {it.name()} {word}" for it, word in zip(body, told)]
                    ways.add("; ".join(way))
                    if way == shown:
                        found.add(after)
            if not found:
                raise ValueError(f"{'; '.join(shown)!r} in place of {' or '.join(sorted(map(repr, ways)))}")
            worlds = found
        if list(lines) != [""]:
            raise ValueError(f"after the last line stands {list(lines)!r}")
        return {world.wanting for world in worlds}
