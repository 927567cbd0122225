"""The file of a trace that judge.py has read, by the tables of docs/FORMATS.md."""
import math
import struct

OPCODES = {"write": 1, "read": 2, "uncorrectable": 4, "compare": 5, "zeroes": 8, "dataset": 9}
FUSES = {"first": 1, "second": 2}


def limit(head, name):
    """NAWUN and NACWU are limited by the boundary."""
    return min(head[name], head["nabsn"]) if head["nabsn"] else head[name]


def command(one):
    fuse = sum(FUSES.get(option, 0) for option in one.options)
    nsid = next((int(option[5:]) for option in one.options if option.startswith("nsid=")), 1)
    opcode = OPCODES.get(one.name) or int(one.name.removeprefix("op-"), 16)
    head = struct.pack("<BBHI32x", opcode, fuse, 0, nsid)
    if one.name == "dataset":
        ranges = b"".join(struct.pack("<4xIQ", count, first) for first, count in one.ranges)
        return head + struct.pack("<II16x", len(one.ranges) - 1, 4 * ("deallocate" in one.options)) + ranges
    return head + struct.pack("<QH14x", one.first, one.count - 1) + b"".join(one.data or [])


def job(one):
    yield struct.pack("<HB", 1, len(one.commands) - 1)
    yield from map(command, one.commands)
    if one.ended == math.inf:
        yield struct.pack("<QQ", one.began, 2**64 - 1)
        return
    yield struct.pack("<QQ", one.began, one.ended)
    yield b"".join(bytes(status) for status in one.statuses)
    yield b"\1" + b"".join(one.data) if one.data else b"\0"


def trace(head, jobs):
    numbers = [head["nabsn"], head["nabo"], limit(head, "nawun"), limit(head, "nacwu")]
    said = struct.pack("<QI4HQ", head["nsze"], head["block"], *numbers, head["first"])
    said += struct.pack("<BBI", head["start"] == "unknown", 0, len(jobs))
    return b"NVT1" + said + b"".join(part for one in jobs for part in job(one))
