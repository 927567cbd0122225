"""Records that no run made: forged, cut and spoiled ones, of both versions, and what their audit answers."""

import json
import resource
from dataclasses import replace

from auditor import verdict
from hints import of_record
from hints import told as hinted
from host_files import compare, file_of, pair, read, unknown, write
from model import DATASET, Command, Namespace
from recorded import jobs_of, recorded
from records import (
    DONE,
    FAILED,
    KIND_WRITE,
    LOOKED,
    Done,
    Entry,
    Job,
    Record,
    RecordFault,
    record_of,
    spelled,
)

SPACE = Namespace(nabsn=7)
ROW = [file_of([write(0, 0x41), read(0, 1)])]
HOSTS = [file_of([write(0, 0x41), read(0, 1)]), file_of([write(0, 0x42)])]
BLOCK = b"\x41" * 512
# The highest count of jobs, entries and done jobs, and so many bytes of memory.
MOST, MEMORY = 4_194_304, 64 << 20
# Two workers: the second did the Write of the second host, before the first did both jobs of the first.
ENTRIES = (Entry(1, 1, KIND_WRITE, 0, 1, b"\x42" * 512), Entry(0, 0, KIND_WRITE, 0, 1, BLOCK))
WRITTEN = Done(0, ((0, 1, DONE),), ((0, 0),))
OTHER = Done(1, ((0, 0, DONE),), ((0, 0),))
SEEN = Done(2, ((0, 2, LOOKED),), ((0, 0),), BLOCK)
TWO = Record(2, SPACE, 2, jobs_of(HOSTS, 512), (ENTRIES, (), (), ()), ((WRITTEN, SEEN), (OTHER,)))


def seen(**changed):
    """The record of two workers with another Read."""
    return replace(TWO, done=((WRITTEN, replace(SEEN, **changed)), (OTHER,)))


def changes(*entries):
    return replace(TWO, units=(entries, (), (), ()))


def one(asked, done, units=((), (), (), ())):
    """The record of one job, by one worker."""
    return Record(2, SPACE, 1, jobs_of([file_of(asked)], 512), units, ((done,),))


def pair_at(*results):
    return one(pair(compare(0, 0), write(0, 0x55)), Done(0, results, ((0, 0), (0, 0))))


def pair_failed(compared, *statuses):
    """The record of a pair on a block of zero bytes, which compared with these bytes and is told to have failed."""
    return one(pair(compare(0, compared), write(0, 0x55)), Done(0, ((0, 0, FAILED),), statuses))


WRONG = b"\x42" * 512
# Records, and the line of each.
FORGED = [
    (TWO, "lawful jobs 3 units 4 changes 2 refused 0"),
    (seen(data=WRONG), "unlawful DataWrong job 2 unit 0 place 2"),
    (seen(parts=((0, 1, LOOKED),)), "unlawful PointBack job 2 unit 0 place 1"),
    (replace(TWO, done=((WRITTEN,), (OTHER,))), "unlawful JobMissing job 2 unit - place -"),
    (replace(TWO, done=((WRITTEN, SEEN), (OTHER, SEEN))), "unlawful JobTwice job 2 unit - place -"),
    (changes(replace(ENTRIES[0], worker=0), ENTRIES[1]), "unlawful EntryUnclaimed job 1 unit 0 place 0"),
    (changes(ENTRIES[0], replace(ENTRIES[1], data=b"\x43" + BLOCK[1:])), "unlawful EntryWrong job 0 unit 0 place 1"),
    (seen(parts=((0, 3, LOOKED),)), "unlawful PointPast job 2 unit 0 place 3"),
    (seen(statuses=((2, 0x81),), data=None), "unlawful StatusWrong job 2 unit 0 place 2"),
    (replace(TWO, done=((replace(WRITTEN, statuses=((0, 0x80),)), SEEN), (OTHER,))), "unlawful StatusWrong job 0 unit - place -"),
    (pair_at((0, 0, FAILED)), "unlawful StatusWrong job 0 unit 0 place 0"),
    # Each has a fault that is looked for later, too.
    (replace(seen(data=WRONG), done=((WRITTEN,), ())), "unlawful JobMissing job 1 unit - place -"),
    (replace(TWO, done=((SEEN, SEEN), (OTHER,))), "unlawful JobMissing job 0 unit - place -"),
    (replace(TWO, done=((WRITTEN, replace(SEEN, statuses=((0, 0x80),))), (OTHER, WRITTEN))), "unlawful JobTwice job 0 unit - place -"),
    (replace(seen(parts=()), units=((ENTRIES[1],), (), (), ())), "unlawful StatusWrong job 2 unit - place -"),
    (replace(seen(data=WRONG), units=(ENTRIES[::-1], (), (), ())), "unlawful EntryUnclaimed job 0 unit 0 place 0"),
    (replace(seen(parts=((0, 9, LOOKED),)), units=(ENTRIES[:1], (), (), ())), "unlawful PointPast job 0 unit 0 place 1"),
    (replace(seen(data=WRONG), units=((replace(ENTRIES[0], blocks=2, data=WRONG * 2), ENTRIES[1]), (), (), ())), "unlawful EntryWrong job 1 unit 0 place 0"),
    (seen(parts=((0, 0, LOOKED),), data=WRONG), "unlawful PointBack job 2 unit 0 place 0"),
    (seen(parts=((0, 3, LOOKED),), data=WRONG), "unlawful PointPast job 2 unit 0 place 3"),
    (changes(replace(ENTRIES[0], worker=0), replace(ENTRIES[1], data=b"\x43" + BLOCK[1:])), "unlawful EntryUnclaimed job 1 unit 0 place 0"),
    (replace(seen(data=WRONG), units=((ENTRIES[0], replace(ENTRIES[1], data=WRONG)), (), (), ())), "unlawful EntryWrong job 0 unit 0 place 1"),
    (replace(seen(data=WRONG), done=((WRITTEN, replace(SEEN, data=WRONG)), (replace(OTHER, parts=((0, 9, DONE),)),))), "unlawful EntryUnclaimed job 1 unit 0 place 0"),
    (
        replace(TWO, done=((replace(WRITTEN, statuses=((0, 0x80),)), SEEN), (OTHER,)), units=((replace(ENTRIES[0], worker=0), ENTRIES[1]), (), (), ())),
        "unlawful StatusWrong job 0 unit - place -",
    ),
    (pair_failed(0, (0, 0), (0, 0)), "unlawful StatusWrong job 0 unit 0 place 0"),
    (pair_failed(0, (2, 0x85), (0, 9)), "unlawful StatusWrong job 0 unit 0 place 0"),
    (pair_failed(1, (0, 0), (0, 0)), "unlawful StatusWrong job 0 unit 0 place 0"),
    (pair_failed(1, (2, 0x85), (0, 9)), "lawful jobs 1 units 4 changes 0 refused 0"),
    (one([write(0, 0x41)], Done(0, ((0, 0, DONE),), ((0, 0),))), "unlawful PointPast job 0 unit 0 place 0"),
    (one([write(0, 0x41)], Done(0, (), ((0, 6),))), "lawful jobs 1 units 4 changes 0 refused 1"),
    (one([write(0, 0x41)], Done(0, ((0, 0, 4),), ((0, 6),))), "lawful jobs 1 units 4 changes 0 refused 1"),
    (one([write(0, 0x41)], Done(0, ((0, 0, 5),), ((0, 6),))), "unlawful StatusWrong job 0 unit 0 place 0"),
    (one([write(0, 0x41)], Done(0, ((0, 0, 2),), ((0, 6),))), "unlawful StatusWrong job 0 unit - place -"),
    (one([read(0, 1)], Done(0, ((0, 4_294_967_295, 3),), ((0, 0),), bytes(512))), "unlawful PointPast job 0 unit 0 place 4294967295"),
    (one([read(0, 1)], Done(0, ((0, 0, 3),), ((255, 255),))), "unlawful StatusWrong job 0 unit 0 place 0"),
    (one([unknown(0, 1)], Done(0, (), ((0, 1),))), "lawful jobs 1 units 4 changes 0 refused 0"),
]

# A record of the first version knows no Dataset Management.
UNKNOWN = Job(1, (Command(DATASET, 0, 1, 1, 0, 1, ()),))
OLD = Record(1, SPACE, 1, (UNKNOWN,), ((), (), (), ()), ((Done(0, (), ((0, 1),)),),))
SPOILS = (0x00, 0x01, 0x7F, 0x80, 0xFF)

# Where each field begins in the first version's record of ROW with a limit of 100, and where the file ends, by hand.
STARTS = (
    *(4, 12, 16, 18, 20, 22, 24, 26, 28, 32, 34, 35, 99, 611, 613, 614, 678, 682, 684, 688, 689, 697, 701, 1213, 1217, 1221, 1225, 1229),
    *(1233, 1235, 1237, 1241, 1242, 1243, 1244, 1245, 1249, 1251, 1253, 1257, 1258, 1259, 1260, 1261, 1773),
)
# Bytes at an offset of it that aren't allowed there, and the field that is named, by hand.
BAD_VALUES = [
    # no LBA, another block size, an offset without a boundary
    (4, b"\0", 4),
    (12, b"\x01", 4),
    (16, b"\0\0\x01", 4),
    # no worker, 65 of them, more than 4,194,304 jobs
    (26, b"\0", 26),
    (26, b"\x41", 26),
    (28, b"\x01\0\x40", 28),
    # host 0, host 65, a kind of job that there isn't
    (32, b"\0", 32),
    (32, b"\x41", 32),
    (34, b"\x02", 34),
    # a pair of a command that is no first, bits that no field names, a pair of an unknown opcode, a first whose second isn't one
    (34, b"\x01", 35),
    (36, b"\x04", 35),
    (43, b"\x01", 35),
    (98, b"\x80", 35),
    (34, b"\x01\x09\x01", 35),
    (34, b"\x01\x01\x01", 611),
    # more entries than the limit, another worker's pass, no such job, no such kind
    (678, b"\x65", 678),
    (682, b"\x01", 682),
    (684, b"\x02", 684),
    (688, b"\0", 688),
    (688, b"\x05", 688),
    # no block, more blocks than the unit has, blocks of the next unit
    (697, b"\0", 697),
    (697, b"\x09", 697),
    (689, b"\x08", 697),
    # no such job, more parts than units, no such unit, no such result
    (1229, b"\x02", 1229),
    (1233, b"\x05", 1233),
    (1235, b"\x04", 1235),
    (1241, b"\x06", 1241),
    # data of a Write, no such flag, data of a Read of another namespace, which is refused
    (1244, b"\x01", 1244),
    (1260, b"\x02", 1260),
    (618, b"\x02", 1260),
]


def audited(run, file, told=None, **how):
    """Holds the audit of a file by either program to the model, and to the line that was worked out by hand."""
    field = None
    try:
        line, status = verdict(record_of(file)), 0
    except RecordFault as fault:
        line, status, field = f"nvmu: record: {fault}", 1, fault.field
    if told is not None:
        run.hold("the model of a record", line, told)
    status = 2 if line.startswith("unlawful") else status
    run.keep("forged", file)
    out, err, named = f"{line}\n", "", ""
    if status == 1:
        out, err = "", f"{line}\n"
        # nvq tells what helps, too.
        hint = f"it is {field}" if field else of_record(line, "forged", file)
        named = hinted(line.replace("nvmu: record:", "nvq: forged:"), hint)
    for words, said in ((["nvmu", "audit", "forged"], err), (["nvq", "audit", "forged"], named)):
        run.expect(words, status, out=out, err=said, files={"forged": file}, **how)
        if told is not None:
            run.expect([*words, "--json"], status, out=object_of(out), err=said, **how)


def object_of(line):
    """The object of an audit's line, or nothing after a fault of the file."""
    if not line:
        return ""
    names = ["verdict", *line.split()[1::2]] if line.startswith("lawful") else ["verdict", "fault", *line.split()[2::2]]
    values = [line.split()[0], *line.split()[2::2]] if line.startswith("lawful") else [*line.split()[:2], *line.split()[3::2]]
    told = {name: None if value == "-" else int(value) if value.isdigit() else value for name, value in zip(names, values)}
    return json.dumps(told, separators=(",", ":")) + "\n"


def forged(run):
    for record, told in FORGED:
        for version in (1, 2):
            audited(run, spelled(replace(record, version=version)), told)
    audited(run, spelled(OLD), "lawful jobs 1 units 4 changes 0 refused 0")
    row = recorded(SPACE, ROW)
    for version, at in ((1, 1261), (2, 1263)):
        file = bytearray(spelled(replace(row, version=version)))
        run.hold("its length", len(file), at + 512)
        file[at] = 0x42
        audited(run, bytes(file), "unlawful DataWrong job 1 unit 0 place 1")
    told = "lawful jobs 2 units 4 changes 1 refused 0"
    for limit, version in ((1, 1), (65_536, 1), (1, 2), (65_537, 2), (4_194_304, 2)):
        audited(run, spelled(replace(row, version=version, namespace=replace(SPACE, limit=limit))), told)
    for limit in (0, 4_194_305):
        audited(run, spelled(replace(row, namespace=replace(SPACE, limit=limit))), "nvmu: record: bad value at 24")


def spoiled(run):
    """The record of a Write and a Read, cut to each length of interest, and spoiled at each byte outside its data."""
    for version in (1, 2):
        file = spelled(replace(recorded(SPACE, ROW), version=version))
        data = 2 * version - 2
        # Where the Write's data, the entry's and the Read's stand.
        runs = [range(begin + data, begin + data + 512) for begin in (99, 701, 1261)]
        outside = [at for at in range(len(file)) if not any(at in them for them in runs)]
        for length in [*outside, *(them[it] for them in runs for it in (0, 1, 511))]:
            audited(run, file[:length])
        audited(run, file + b"\0", f"nvmu: record: trailing at {len(file)}")
        for at in outside:
            for byte in SPOILS:
                audited(run, file[:at] + bytes([byte]) + file[at + 1 :])
    by_hand(run)
    file = spelled(recorded(SPACE, ROW))
    audited(run, file[:26], "nvmu: record: truncated at 24")
    audited(run, b"NVR3" + file[4:], "nvmu: record: unknown version")
    audited(run, b"NVR", "nvmu: record: unknown version")
    audited(run, b"NVQ1", "nvmu: record: bad name")
    audited(run, b"", "nvmu: record: bad name")
    audited(run, file[:30] + b"\x01\x00\x40\x00", "nvmu: record: bad value at 30")
    # A count of 4,194,304 in a file of few bytes: of jobs, of a unit's entries, of a worker's done jobs.
    file = spelled(recorded(replace(SPACE, limit=MOST), ROW))
    audited(run, file[:30] + MOST.to_bytes(4, "little"), "nvmu: record: truncated at 34", preexec_fn=little_memory)
    for at in (680, 1227):
        audited(run, file[:at] + MOST.to_bytes(4, "little") + file[at + 4 :], preexec_fn=little_memory)


def little_memory():
    """A child has far less memory than the items of a forged count would take, were it reserved for them."""
    resource.setrlimit(resource.RLIMIT_AS, (MEMORY, MEMORY))


def by_hand(run):
    """The record of the first version, cut and spoiled, with the fields that were counted out by hand."""
    file = spelled(replace(recorded(SPACE, ROW), version=1))
    run.hold("its length", len(file), STARTS[-1])
    for start, end in zip(STARTS, STARTS[1:]):
        for length in {start, (start + end) // 2, end - 1}:
            audited(run, file[:length], f"nvmu: record: truncated at {start}")
    for at, content, field in BAD_VALUES:
        audited(run, file[:at] + content + file[at + len(content) :], f"nvmu: record: bad value at {field}")
    # any point and any status
    for at, content in ((1237, b"\xff" * 4), (1242, b"\xff" * 2)):
        audited(run, file[:at] + content + file[at + len(content) :], "unlawful StatusWrong job 0 unit - place -" if at == 1242 else None)
