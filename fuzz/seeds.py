"""What fuzzing begins with beside the kept corpus: files and texts of the tables in examples/ and sweep/, packed as fuzz/input.h expands them."""

import glob
import os
import re
import sys

FUZZ = os.path.dirname(os.path.realpath(__file__))
TOP = os.path.dirname(FUZZ)
sys.path[:0] = [f"{TOP}/examples", f"{TOP}/sweep"]

import contradictions
import ordered
import traces
from host_files import mixed
from records import Record
from records import spelled as record_bytes
from trace_files import Trace, in_turn, text_of
from trace_files import spelled as trace_bytes
from witnesses import KEEPING, ORDER

# What the first byte of an input asks for: of a reader, and of a judge.
PLAIN, BY_BLOCKS = 0, 3 << 3
AUDIT, WITNESS, REFUTE = 0, 2, 4
STRICTLY = 1


def packed(data):
    """Bytes of which the longer runs are four, and in which the two bytes that stand for more come alone."""
    def short(found):
        run = found[0]
        if len(run) > 4:
            return b"".join(bytes([0xFE, run[0]]) + min(0xFFFF, len(run) - at).to_bytes(2, "little") for at in range(0, len(run), 0xFFFF))
        return b"".join(bytes([0xFD, it]) if it in (0xFD, 0xFE) else bytes([it]) for it in run)

    return re.sub(rb"(?s)(.)\1*", short, data)


def of_kind(kind):
    """The values of this kind that the tables have."""
    return [it for table in (traces, contradictions) for it in vars(table).values() if isinstance(it, kind)]


def two(first, second):
    return len(first).to_bytes(3, "little") + first + second


def kept(pattern):
    for path in sorted(glob.glob(f"{TOP}/examples/{pattern}")):
        with open(path, "rb") as file:
            yield file.read()


def seeds():
    """The inputs of each target."""
    records, seen = of_kind(Record), of_kind(Trace)
    texts = [text_of(it).encode() for it in seen] + [it.encode() for it in vars(contradictions).values() if isinstance(it, str) and it.startswith("trace ")]
    texts += [f"{traces.HEAD_OF.format(limits)}\n".encode() for limits, _ in traces.LIMITS]
    hosts = [mixed(number, 4 * number, 16) for number in range(4)] + [*kept("*.nvq")]
    files = [*map(record_bytes, records), *map(trace_bytes, seen), *hosts]
    refuting = [contradictions.NOBODY, contradictions.PAIR, *(it for it, _ in contradictions.STALE), *(it for _, it, *_ in contradictions.RULES)]
    trace_files = [*map(trace_bytes, seen)]
    yield "files", [bytes([how]) + packed(it) for it in files for how in (PLAIN, BY_BLOCKS)]
    yield "texts", [bytes([how]) + packed(it) for it in texts for how in (PLAIN, BY_BLOCKS)]
    yield "lists", [bytes([PLAIN]) + packed(it) for it in kept("*.list")]
    judged = [bytes([AUDIT]) + packed(record_bytes(it)) for it in records]
    judged += [bytes([WITNESS | STRICTLY]) + packed(two(trace_bytes(in_turn(it)), record_bytes(it))) for it in records if all(job in {done.job for jobs in it.done for done in jobs} for job in range(len(it.jobs)))]
    judged += [bytes([WITNESS]) + packed(two(trace_bytes(KEEPING), it)) for it in (ORDER, *(it for _, it, _ in ordered.WITNESSED))]
    judged += [bytes([REFUTE]) + packed(two(it, other)) for it in trace_files for other in refuting]
    yield "judges", judged


def write(name, folder):
    """Writes the inputs of a target to a folder, and gives how many these are."""
    found = dict(seeds()).get(name, [])
    for number, it in enumerate(found):
        with open(f"{folder}/seed-{number}", "wb") as file:
            file.write(it)
    return len(found)
