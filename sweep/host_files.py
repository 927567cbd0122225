"""Writes host files for the runs."""

import random
import struct
from dataclasses import dataclass, replace

from model import COMPARE, DATASET, FIRST, READ, RESERVED, SECOND, UNCORRECTABLE, WRITE, ZEROES


@dataclass(frozen=True)
class Asked:
    """A command. The data of a Write and of a Compare is a byte for each block, which fills it."""

    opcode: int
    first: int
    blocks: int
    fillers: tuple = ()
    fuse: int = 0
    nsid: int = 1
    cid: int = None  # or its place in the file, from 1
    end: bytes = b""  # in place of the last bytes of its data
    ranges: tuple = ()  # of a Dataset Management: first and blocks of each
    deallocate: bool = False
    attributes: int = 0  # the context attributes of each range


def write(first, *fillers, **more):
    return Asked(WRITE, first, len(fillers), fillers, **more)


def compare(first, *fillers, **more):
    return Asked(COMPARE, first, len(fillers), fillers, **more)


def read(first, blocks, **more):
    return Asked(READ, first, blocks, **more)


def zeroes(first, blocks, **more):
    return Asked(ZEROES, first, blocks, **more)


def uncorrectable(first, blocks, **more):
    return Asked(UNCORRECTABLE, first, blocks, **more)


def dataset(*ranges, deallocate=True, **more):
    return Asked(DATASET, 0, 1, ranges=ranges, deallocate=deallocate, **more)


def unknown(first, blocks, **more):
    return Asked(0x7F, first, blocks, **more)


def pair(first, second):
    """The two commands with the FUSE bits of a pair."""
    return [replace(first, fuse=FIRST), replace(second, fuse=SECOND)]


def file_of(asked, block=512):
    """The host file of these commands."""
    file = [b"NVQ1"]
    for place, it in enumerate(asked, 1):
        cid = place if it.cid is None else it.cid
        data = b"".join(bytes([filler]) * block for filler in it.fillers)
        place = len(it.ranges) - 1 + (it.deallocate << 34) if it.ranges else it.first
        data += b"".join(struct.pack("<IIQ", it.attributes, blocks, first) for first, blocks in it.ranges)
        file.append(struct.pack("<BBHI32xQH14x", it.opcode, it.fuse, cid, it.nsid, place, it.blocks - 1))
        file.append(data[: len(data) - len(it.end)] + it.end)
    return b"".join(file)


def mixed(seed, count, nsze, block=512):
    """The host file of about so many commands of all kinds on this namespace, the same each time, and then
    a Read of each block. Most are as they should be; the others are strays of pairs, pairs that don't
    match, past the end, and so on."""
    dice = random.Random(seed)

    def one(opcode, first, blocks):
        fillers = (dice.choice([0, 0, 0x41, 0x42]),) * blocks if opcode in (WRITE, COMPARE) else ()
        return Asked(opcode, first, blocks, fillers)

    def some(first):
        more = [(dice.randrange(nsze), dice.choice([0, 1, 2])) for _ in range(dice.randrange(4))]
        return dataset((first, 1), *more, deallocate=dice.randrange(5) > 0)

    def flawed(command):
        flaw = dice.choice([{"nsid": 2}, {"fuse": FIRST}, {"fuse": SECOND}, {"fuse": RESERVED}, {"opcode": 0x7F}])
        return replace(command, **flaw, **({"fillers": (), "ranges": ()} if "opcode" in flaw else {}))

    asked = []
    while len(asked) < count:
        opcode = dice.choice([WRITE] * 4 + [READ] * 4 + [ZEROES, UNCORRECTABLE, COMPARE, COMPARE, DATASET] + ["pair"] * 3)
        first, blocks = dice.randrange(nsze), dice.choice([1, 1, 2, 3, 4, 7])
        if opcode == "pair":
            blocks = min(blocks, dice.choice([1, 2, 4, 7]))
            two = pair(one(COMPARE, first, blocks), one(WRITE, first, blocks))
            if dice.randrange(6) == 0:
                at = dice.randrange(2)
                moved, other = replace(two[at], first=first ^ 1), replace(two[1 - at], fuse=two[at].fuse)
                two[at] = dice.choice([replace(two[at], nsid=2), moved, other])
            asked += two
        else:
            command = some(first) if opcode == DATASET else one(opcode, first, blocks)
            asked.append(flawed(command) if dice.randrange(10) == 0 else command)
    return file_of(asked + [read(lba, 1) for lba in range(nsze)], block)
