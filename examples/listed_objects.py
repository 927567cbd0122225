"""Records as nvq lists them for programs: rows that were worked out by hand, and objects that say what the lines of the same record say."""

import json
from dataclasses import replace

from auditor import verdict
from forged import FORGED, OLD, SPACE, TWO, object_of
from hints import FOLDER, MISSING, NO_SPACE, VERSIONS, no_record, told
from host_files import compare, dataset, file_of, pair, read, uncorrectable, unknown, write, zeroes
from listing_objects import listing_objects
from listings import ASKED, DEALLOCATED, ODD, OPTIONS
from record_listing import record_listing
from recorded import recorded
from recording import ran
from records import spelled
from verdict_objects import named

NUMBERS = ("nsze", "block", "nabsn", "nabo", "nawun", "nacwu")
COUNTS = ("limit", "workers", "jobs", "units")

# A Write into two units, a pair, marks, a Read of two units, one that fails, a Deallocate and a command that is refused.
EACH = [
    write(7, 0x41, 0x42),
    *pair(compare(8, 0x42), write(8, 0x43, end=b"\x00\x01")),
    *pair(compare(8, 0x42), write(8, 0x44)),
    uncorrectable(24, 2),
    read(7, 2),
    read(24, 1),
    zeroes(24, 2),
    dataset((7, 2), (0, 1)),
    unknown(2**64 - 1, 65_536, fuse=3, nsid=7),
]
HEAD = '"nsze":32,"block":512,"nabsn":7,"nabo":0,"nawun":7,"nacwu":3'
EACH_OBJECTS = f"""{{"version":2,{HEAD},"limit":100,"workers":1,"jobs":9,"units":4}}
{{"job":0,"host":1,"sent":[{{"cid":1,"command":"write 7 2 512*41,512*42"}}]}}
{{"job":1,"host":1,"sent":[{{"cid":2,"command":"compare 8 1 512*42 first"}},{{"cid":3,"command":"write 8 1 510*43,1*00,1*01 second"}}]}}
{{"job":2,"host":1,"sent":[{{"cid":4,"command":"compare 8 1 512*42 first"}},{{"cid":5,"command":"write 8 1 512*44 second"}}]}}
{{"job":3,"host":1,"sent":[{{"cid":6,"command":"uncorrectable 24 2"}}]}}
{{"job":4,"host":1,"sent":[{{"cid":7,"command":"read 7 2"}}]}}
{{"job":5,"host":1,"sent":[{{"cid":8,"command":"read 24 1"}}]}}
{{"job":6,"host":1,"sent":[{{"cid":9,"command":"zeroes 24 2"}}]}}
{{"job":7,"host":1,"sent":[{{"cid":10,"command":"dataset 7+2,0+1 deallocate"}}]}}
{{"job":8,"host":1,"sent":[{{"cid":11,"command":"op-7f 18446744073709551615 65536 reserved nsid=7"}}]}}
{{"unit":0,"place":0,"worker":0,"job":0,"deed":"write","lba":7,"blocks":1,"data":"512*41"}}
{{"unit":0,"place":1,"worker":0,"job":7,"deed":"deallocate","ranges":"7+1,0+1"}}
{{"unit":1,"place":0,"worker":0,"job":0,"deed":"write","lba":8,"blocks":1,"data":"512*42"}}
{{"unit":1,"place":1,"worker":0,"job":1,"deed":"pair","lba":8,"blocks":1,"compare":"512*42","write":"510*43,1*00,1*01"}}
{{"unit":1,"place":2,"worker":0,"job":7,"deed":"deallocate","ranges":"8+1"}}
{{"unit":3,"place":0,"worker":0,"job":3,"deed":"uncorrectable","lba":24,"blocks":2}}
{{"unit":3,"place":1,"worker":0,"job":6,"deed":"zeroes","lba":24,"blocks":2}}
{{"worker":0,"job":0,"statuses":["0/00"],"parts":[{{"unit":0,"point":0,"result":"done"}},{{"unit":1,"point":0,"result":"done"}}],"data":null}}
{{"worker":0,"job":1,"statuses":["0/00","0/00"],"parts":[{{"unit":1,"point":1,"result":"done"}}],"data":null}}
{{"worker":0,"job":2,"statuses":["2/85","0/09"],"parts":[{{"unit":1,"point":2,"result":"failed"}}],"data":null}}
{{"worker":0,"job":3,"statuses":["0/00"],"parts":[{{"unit":3,"point":0,"result":"done"}}],"data":null}}
{{"worker":0,"job":4,"statuses":["0/00"],"parts":[{{"unit":0,"point":1,"result":"looked"}},{{"unit":1,"point":2,"result":"looked"}}],"data":"512*41,510*43,1*00,1*01"}}
{{"worker":0,"job":5,"statuses":["2/81"],"parts":[{{"unit":3,"point":1,"result":"looked"}}],"data":null}}
{{"worker":0,"job":6,"statuses":["0/00"],"parts":[{{"unit":3,"point":1,"result":"done"}}],"data":null}}
{{"worker":0,"job":7,"statuses":["0/00"],"parts":[{{"unit":0,"point":1,"result":"done"}},{{"unit":1,"point":2,"result":"done"}}],"data":null}}
{{"worker":0,"job":8,"statuses":["0/01"],"parts":[],"data":null}}
{{"verdict":"lawful","jobs":9,"units":4,"changes":7,"refused":0}}
"""
# What no run made, of two hosts and two workers.
ODD_OBJECTS = f"""{{"version":2,{HEAD},"limit":100,"workers":2,"jobs":3,"units":4}}
{{"job":0,"host":1,"sent":[{{"cid":1,"command":"write 0 1 512*41"}}]}}
{{"job":1,"host":2,"sent":[{{"cid":1,"command":"write 0 1 512*42"}}]}}
{{"job":2,"host":1,"sent":[{{"cid":2,"command":"read 0 1"}}]}}
{{"unit":0,"place":0,"worker":1,"job":1,"deed":"write","lba":0,"blocks":1,"data":"512*42"}}
{{"unit":0,"place":1,"worker":0,"job":0,"deed":"write","lba":0,"blocks":1,"data":"512*41"}}
{{"worker":0,"job":0,"statuses":["255/ff"],"parts":[{{"unit":3,"point":4294967295,"result":"no-memory"}},{{"unit":0,"point":7,"result":"looked"}}],"data":null}}
{{"worker":0,"job":0,"statuses":["0/00"],"parts":[{{"unit":0,"point":1,"result":"done"}}],"data":null}}
{{"worker":1,"job":1,"statuses":["0/00"],"parts":[{{"unit":0,"point":0,"result":"done"}}],"data":null}}
{{"worker":1,"job":2,"statuses":["0/00"],"parts":[],"data":"1*01,511*00"}}
{{"verdict":"unlawful","fault":"JobTwice","job":0,"unit":null,"place":null}}
"""
OLD_OBJECTS = f"""{{"version":1,{HEAD},"limit":100,"workers":1,"jobs":1,"units":4}}
{{"job":0,"host":1,"sent":[{{"cid":1,"command":"op-09 0 1"}}]}}
{{"worker":0,"job":0,"statuses":["0/01"],"parts":[],"data":null}}
{{"verdict":"lawful","jobs":1,"units":4,"changes":0,"refused":0}}
"""


def numbers(names, values):
    return " ".join(f"{name} {value}" for name, value in zip(names, values, strict=True))


def head_lines(it):
    version, *values = named(it, "version", *NUMBERS, *COUNTS)
    yield f"record version {version}"
    yield f"namespace {numbers(NUMBERS, values[:6])}"
    yield numbers(COUNTS, values[6:])


def job_lines(it):
    job, host, sent = named(it, "job", "host", "sent")
    for cid, command in (named(one, "cid", "command") for one in sent):
        words, _, nsid = command.partition(" nsid=")
        yield f"job {job} host {host} cid {cid} nsid {nsid or 1} {words}"


# The names that each deed has behind its own, in their order.
DEEDS = {
    "write": ("lba", "blocks", "data"),
    "zeroes": ("lba", "blocks"),
    "uncorrectable": ("lba", "blocks"),
    "pair": ("lba", "blocks", "compare", "write"),
    "deallocate": ("ranges",),
}


def entry_lines(it):
    unit, place, worker, job, deed, *more = named(it, "unit", "place", "worker", "job", "deed", *DEEDS[it["deed"]])
    yield " ".join(map(str, ["unit", unit, "place", place, "worker", worker, "job", job, deed, *more]))


def done_lines(it):
    worker, job, statuses, parts, answered = named(it, "worker", "job", "statuses", "parts", "data")
    begin = f"worker {worker} job {job}"
    yield " ".join([begin, "status", *statuses])
    for unit, point, result in (named(part, "unit", "point", "result") for part in parts):
        yield f"{begin} unit {unit} point {point} {result}"
    if answered is not None:
        yield f"{begin} data {answered}"


# What an object is told by that only such a one has.
LINES = {"version": head_lines, "sent": job_lines, "deed": entry_lines, "parts": done_lines}


def lines_of(printed):
    """The lines of the record whose objects were printed."""
    for it in map(json.loads, printed.splitlines()):
        (lines,) = (lines for name, lines in LINES.items() if name in it)
        yield from lines(it)


def listed_objects(run):
    def listed(record, by_hand=None):
        """The objects of a record are those of the model, and say what its lines say; the last one is that of its audit."""
        objects, audited = listing_objects(record), object_of(verdict(record))
        if by_hand is not None:
            run.hold("the model of the objects of a record", objects + audited, by_hand)
        run.hold("what the objects of a record say", "".join(f"{line}\n" for line in lines_of(objects)), record_listing(record))
        run.keep("listed", spelled(record))
        run.expect(["nvq", "list", "--json", "listed"], out=objects + audited)

    run.keep("each.nvq", file_of(EACH))
    ran(run, OPTIONS, "each.nvq")
    run.expect(["nvq", "list", "--json", "record"], out=EACH_OBJECTS)
    listed(recorded(SPACE, [file_of(EACH)]), EACH_OBJECTS)
    listed(ODD, ODD_OBJECTS)
    listed(OLD, OLD_OBJECTS)
    for version in (1, 2):
        listed(replace(recorded(SPACE, [file_of(ASKED)]), version=version))
    listed(recorded(replace(SPACE, limit=1), [file_of(DEALLOCATED)]))
    listed(recorded(SPACE, [file_of([])]))
    for forged, _line in FORGED:
        listed(forged)
    faults(run)


def faults(run):
    """What is no record is told as to an audit, and no object is printed of it."""
    file = spelled(TWO)
    # A record says by itself how long its blocks are.
    run.expect(["nvq", "list", "--block", "4096", "--json", "-"], given=file, out=listing_objects(TWO) + object_of(verdict(TWO)))
    for given, fault in (
        (b"", "bad name"),
        (b"NVQ1", "bad name"),
        (b"NVT2", "bad name"),
        (b"read 0 1\n", "bad name"),
        (b"NVR3" + file[4:], "unknown version"),
        (file[:-1], f"truncated at {len(file) - 1}"),
        (file + b"\0", f"trailing at {len(file)}"),
        (file[:28] + bytes(2) + file[30:], "bad value at 28"),
    ):
        run.keep("wrong", given)
        for path in ("wrong", "-"):
            hint = {"bad name": no_record(path, given), "unknown version": VERSIONS, "bad value at 28": "it is the number of workers"}.get(fault, "")
            run.expect(["nvq", "list", "--json", path], 1, given=given, err=told(f"nvq: {path}: {fault}", hint))
    run.expect(["nvq", "list", "--json", "missing"], 1, err=told("nvq: cannot read missing", MISSING))
    run.expect(["nvq", "list", "--json", "."], 1, err=told("nvq: cannot read .", FOLDER))
    run.keep("listed", file)
    with open("/dev/full", "wb") as full:
        found = run.status_of(["nvq", "list", "--json", "listed"], stdout=full)
    run.hold("a full standard output", found, (1, told("nvq: cannot write -", NO_SPACE).encode()))
    for words in (["list", "--json"], ["list", "--json=yes", "listed"], ["list", "--json", "--json", "listed"], ["list", "--json", "listed", "listed"]):
        run.refuse(["nvq", *words])
