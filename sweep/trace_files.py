"""Traces as files and as text, by the tables of docs/FORMATS.md. It knows nothing of how the programs are made."""

import struct
from dataclasses import dataclass, replace
from itertools import groupby

from model import COMPARE, DATASET, NAMES, WRITE, Namespace
from records import GEOMETRY, command_bytes

NEVER = 2**64 - 1
FUSES = {1: " first", 2: " second", 3: " reserved"}
# The words of a head, each at the place of its code.
READS = ("whole", "by-blocks", "atomic")
DEALLOCATED = ("either", "zeroes", "ones")


@dataclass(frozen=True)
class Seen:
    """What a host saw of a job: when it began and ended, the statuses that came back, and a Read's data."""

    host: int
    body: tuple  # one command, or the two of a pair
    began: int
    ended: int = None
    statuses: tuple = ()  # of each command: type and code
    data: bytes = None


@dataclass(frozen=True)
class Trace:
    namespace: Namespace
    jobs: tuple
    first: int = 0
    unknown: bool = False
    reads: str = "atomic"
    deallocated: str = "either"

    @property
    def by_blocks(self):
        return self.reads == "by-blocks"

    @property
    def promises(self):
        """What the device promises of Reads and of deallocated blocks, as the one byte of a file."""
        return READS.index(self.reads) + 3 * DEALLOCATED.index(self.deallocated)


def seen_bytes(seen):
    """The bytes of one job, field by field."""
    yield struct.pack("<H", seen.host)
    yield struct.pack("<B", len(seen.body) - 1)
    for command in map(command_bytes, seen.body):
        yield command[:64]
        yield command[64:]
    yield struct.pack("<Q", seen.began)
    yield struct.pack("<Q", NEVER if seen.ended is None else seen.ended)
    if seen.ended is not None:
        for status in seen.statuses:
            yield from (struct.pack("<B", it) for it in status)
        yield b"\0" if seen.data is None else b"\1"
        yield seen.data or b""


def trace_bytes(trace):
    """The file of a trace, field by field."""
    space = trace.namespace
    yield b"NVT1"
    yield struct.pack("<Q", space.nsze)
    yield struct.pack("<I", space.block)
    yield from (struct.pack("<H", getattr(space, name)) for name in GEOMETRY)
    yield struct.pack("<Q", trace.first)
    yield bytes([trace.unknown])
    yield bytes([trace.promises])
    yield struct.pack("<I", len(trace.jobs))
    for seen in trace.jobs:
        yield from seen_bytes(seen)


def spelled(trace):
    return b"".join(trace_bytes(trace))


def runs(data):
    """Bytes as the longest runs of equal ones."""
    return ",".join(f"{len(list(run))}*{byte:02x}" for byte, run in groupby(data))


def command_text(command):
    words = f"{NAMES.get(command.opcode) or f'op-{command.opcode:02x}'} "
    if command.opcode == DATASET:
        words += ",".join(f"{first}+{blocks}" for first, blocks in command.ranges)
        words += " deallocate" if command.deallocate else ""
    else:
        words += f"{command.first} {command.blocks}"
    if command.opcode in (WRITE, COMPARE):
        words += f" {runs(b''.join(command.data))}"
    nsid = "" if command.nsid == 1 else f" nsid={command.nsid}"
    return f"{command.cid} {words}{FUSES.get(command.fuse, '')}{nsid}"


def seen_text(seen):
    line = f"{seen.began} {'-' if seen.ended is None else seen.ended} {seen.host} {' + '.join(map(command_text, seen.body))}"
    if seen.ended is None:
        return line
    line += " = " + " ".join(f"{sct}/{sc:02x}" for sct, sc in seen.statuses)
    return line if seen.data is None else f"{line} {runs(seen.data)}"


def text_of(trace):
    """The text of a trace, as it is listed."""
    space = trace.namespace
    numbers = " ".join(f"{name} {getattr(space, name)}" for name in ("nsze", "block", *GEOMETRY))
    start = "unknown" if trace.unknown else "zeroes"
    deallocated = "" if trace.deallocated == "either" else f" deallocated {trace.deallocated}"
    head = f"trace {numbers} first {trace.first} start {start} reads {trace.reads}{deallocated}\n"
    return head + "".join(f"{seen_text(seen)}\n" for seen in trace.jobs)


def in_turn(record, **more):
    """What hosts would have seen of a record by one worker: each job began after the one before it had ended."""
    done = {it.job: it for jobs in record.done for it in jobs}
    jobs = tuple(
        Seen(job.host, job.body, 10 * number + 10, 10 * number + 15, done[number].statuses, done[number].data)
        for number, job in enumerate(record.jobs)
    )
    return Trace(record.namespace, jobs, **more)


def with_seen(trace, number, **changed):
    """The trace with something else seen of one job."""
    jobs = list(trace.jobs)
    jobs[number] = replace(jobs[number], **changed)
    return replace(trace, jobs=tuple(jobs))


def together(times):
    """How many of the commands that began and ended at these times were under way together at most."""
    return max((sum(began <= at and (ended is None or ended >= at) for began, ended in times) for at, _ in times), default=0)


def together_line(count):
    """What `nvq certify` says of that."""
    return f"at most {count} commands were under way together\n" if count > 1 else "no two commands were under way together\n"


def told_together(trace):
    return together_line(together([(job.began, job.ended) for job in trace.jobs]))
