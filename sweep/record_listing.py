"""How a record is listed, by the table of docs/FORMATS.md: one line a fact, made in no way that the program makes it."""

import re

from model import COMPARE, DATASET, WRITE
from records import DONE, FAILED, FULL, KIND_DEALLOCATE, KIND_PAIR, KIND_UNCORRECTABLE, KIND_WRITE, KIND_ZEROES, LOOKED, NO_MEMORY

FUSES = ("", " first", " second", " reserved")
DEEDS = {KIND_WRITE: "write", KIND_ZEROES: "zeroes", KIND_UNCORRECTABLE: "uncorrectable", KIND_PAIR: "pair"}
RESULTS = {DONE: "done", FAILED: "failed", LOOKED: "looked", NO_MEMORY: "no-memory", FULL: "full"}


def runs(data):
    """Data as its longest runs of equal bytes."""
    return ",".join(f"{len(run[0])}*{run[1].hex()}" for run in re.finditer(rb"(?s)(.)\1*", data))


def spans(ranges):
    return ",".join(f"{first}+{blocks}" for first, blocks in ranges)


def asked(command):
    """What a command asks for, without its identifiers. `dataset` has ranges, and opcode 09h of the first version none."""
    name, fuse = command.name(), FUSES[command.fuse]
    if command.opcode == DATASET and command.ranges:
        return f"{name} {spans(command.ranges)}{' deallocate' * command.deallocate}{fuse}"
    data = f" {runs(b''.join(command.data))}" if command.opcode in (WRITE, COMPARE) else ""
    return f"{name} {command.first} {command.blocks}{data}{fuse}"


def deed(entry):
    """What an entry did."""
    if entry.kind == KIND_DEALLOCATE:
        return f"deallocate {spans(entry.ranges)}"
    length = len(entry.data) // (2 if entry.kind == KIND_PAIR else 1)
    data = [entry.data[at : at + length] for at in range(0, len(entry.data), length or 1)]
    return " ".join([DEEDS[entry.kind], str(entry.first), str(entry.blocks), *map(runs, data)])


def head(record):
    space, jobs = record.namespace, len(record.jobs)
    yield f"record version {record.version}"
    numbers = ("nsze", "block", "nabsn", "nabo", "nawun", "nacwu")
    yield " ".join(["namespace", *(f"{name} {getattr(space, name)}" for name in numbers)])
    yield f"limit {space.limit} workers {record.workers} jobs {jobs} units {len(record.units)}"


def lines(record):
    yield from head(record)
    for number, job in enumerate(record.jobs):
        for command in job.body:
            yield f"job {number} host {job.host} cid {command.cid} nsid {command.nsid} {asked(command)}"
    for unit, entries in enumerate(record.units):
        for place, entry in enumerate(entries):
            yield f"unit {unit} place {place} worker {entry.worker} job {entry.job} {deed(entry)}"
    for worker, work in enumerate(record.done):
        for done in work:
            begin = f"worker {worker} job {done.job}"
            yield " ".join([begin, "status", *(f"{sct}/{sc:02x}" for sct, sc in done.statuses)])
            for unit, point, result in done.parts:
                yield f"{begin} unit {unit} point {point} {RESULTS[result]}"
            if done.data is not None:
                yield f"{begin} data {runs(done.data)}"


def record_listing(record):
    """The text of a record."""
    return "".join(f"{line}\n" for line in lines(record))
