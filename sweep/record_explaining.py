"""How a record is explained, by docs/FORMATS.md: of a lawful one how much of what there was in it, and of an unlawful one the bytes that differ."""

import re
from collections import Counter

from auditor import SUCCESS, parts_of, told, verdict
from model import COMPARE, READ
from record_listing import lines as listed
from records import FAILED, KIND_DEALLOCATE, KIND_PAIR, KIND_UNCORRECTABLE, KIND_ZEROES

DIFFERENT = "2/85"


def statuses(done):
    return " ".join(f"{sct}/{sc:02x}" for sct, sc in done.statuses)


def most(name, counts):
    """In how many units something is counted, and the first that has most of it."""
    text = f"{name} {len(counts)}"
    if counts:
        unit = max(counts, key=lambda unit: (counts[unit], -unit))
        text += f" most {counts[unit]} unit {unit}"
    return text


def lines(record):
    yield verdict(record)
    # In the order in which they first occur.
    for told, jobs in Counter(statuses(done) for work in record.done for done in work).items():
        yield f"status {told} jobs {jobs}"
    for worker, work in enumerate(record.done):
        yield f"worker {worker} jobs {len(work)}"
    entries = {unit: len(it) for unit, it in enumerate(record.units) if it}
    yield most("units with entries", entries)
    workers = {unit: len({entry.worker for entry in it}) for unit, it in enumerate(record.units)}
    yield most("units of several workers", {unit: count for unit, count in workers.items() if count > 1})


def lawful_explanation(record):
    """The explanation of a lawful record."""
    return "".join(f"{line}\n" for line in lines(record))


def held_before(record, unit, point):
    """By LBA what the unit's blocks hold before the entry at a point, None where they are marked, and the place of the entry that changed each last."""
    size = record.namespace.block
    begin, count = record.namespace.units()[unit]
    held, last = dict.fromkeys(range(begin, begin + count), bytes(size)), {}
    for place, entry in enumerate(record.units[unit][:point]):
        for first, blocks in entry.ranges if entry.kind == KIND_DEALLOCATE else ((entry.first, entry.blocks),):
            for lba in range(first, first + blocks):
                last[lba] = place
                # What a pair writes stands behind what it compares.
                at = len(entry.data) - (first + blocks - lba) * size
                is_zero = entry.kind in (KIND_DEALLOCATE, KIND_ZEROES)
                held[lba] = None if entry.kind == KIND_UNCORRECTABLE else bytes(size) if is_zero else entry.data[at : at + size]
    return held, last


def recorded_bytes(record, fault, job, unit, place):
    """Of the part at fault the first LBA, the bytes that were read or compared, if any were, the status that it is recorded with, and whether it is
    recorded as failed."""
    if fault == "EntryWrong":
        entry = record.units[unit][place]
        return entry.first, entry.data[: len(entry.data) // 2] if entry.kind == KIND_PAIR else None, SUCCESS, False
    done = next(it for work in record.done for it in work if it.job == job)
    body, is_last = record.jobs[job].body, done.parts[-1][0] == unit
    first, count = next(part[1:] for part in parts_of(record.namespace, body) if part[0] == unit)
    data = {READ: done.data, COMPARE: b"".join(body[0].data)}.get(body[0].opcode)
    at, size = (first - body[0].first) * record.namespace.block, count * record.namespace.block
    status, result = told(done.statuses)[0] if is_last else SUCCESS, next(part[2] for part in done.parts if part[0] == unit)
    return first, None if data is None else data[at : at + size], status, result == FAILED or status != SUCCESS


def byte_lines(record):
    """The lines of an explanation that tell of bytes: where those that were read or compared first differ from what the unit held, and
    the entry that changed that block last."""
    found = re.fullmatch(r"unlawful (EntryWrong|StatusWrong|DataWrong) job (\d+) unit (\d+) place (\d+)", verdict(record))
    if not found:
        return []
    job, unit, place = map(int, found.groups()[1:])
    first, data, status, is_failed = recorded_bytes(record, found[1], job, unit, place)
    if data is None:
        return []
    size, is_read = record.namespace.block, record.jobs[job].body[0].opcode == READ
    held, last = held_before(record, unit, place)
    blocks = [held[lba] for lba in range(first, first + len(data) // size)]
    if None in blocks:
        return []
    at = next((at for at, (mine, other) in enumerate(zip(data, b"".join(blocks))) if mine != other), None)
    if at is None or status == DIFFERENT:
        return ["first difference: none"] if at is None and is_failed else []
    lba, (mine, other) = first + at // size, ("recorded", "given") if is_read else ("compared", "held")
    change = "none"
    if lba in last:
        change = next(line for line in listed(record) if line.startswith(f"unit {unit} place {last[lba]} "))
    return [
        f"first difference: LBA {lba} byte {at % size} {mine} {data[at]:02x} {other} {b''.join(blocks)[at]:02x}",
        f"last change of LBA {lba}: {change}",
    ]
