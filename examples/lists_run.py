"""Runs of command lists by nvq: two lines for each command, the record, the options' defaults, and what is refused."""

import os
import threading

from auditor import text
from beside import beside
from hints import FOLDER, GEOMETRY, IS_LIST, MISSING, NO_FOLDER, NO_SPACE, no_list, the_line, told
from host_files import file_of, write
from model import Namespace
from recorded import jobs_of, recorded
from records import MOST_LIMIT, record_of, spelled

# What nvq run takes where an option isn't given.
DEFAULTS = {"nsze": 32_768, "block": 512, "nabsn": 7, "nabo": 0, "nawun": 7, "nacwu": 7, "limit": MOST_LIMIT[2]}
# Each option at a value that no other has.
OPTIONS = {"nsze": 33, "block": 512, "nabsn": 9, "nabo": 4, "nawun": 8, "nacwu": 5, "workers": 1, "limit": 3}

# A list with each status, in other spellings than those that are listed, and what is printed of it with NAWUN and the rest as in
# `DEFAULTS`, but for a limit of 2.
EACH = """# each status
write 0 1 41
\tread  0 1 # what was written\r
op-7f 0 1

  read 0 1 reserved
compare 8 1 00 first
write 8 1 512*42 second\t
compare 8 1 00 first cid=900
write 8 1 43 second # not done
read 0 1 first
read 0 1 nsid=2
compare 4 8 00 first
write 4 8 44 second
read 32768 1
uncorrectable 16 1
read 16 1
#write 0 1 45
write 8 1 46
write 8 1 47"""
EACH_LINES = """1 1 write 0/00
  write 0 1 41: Successful Completion (0x0)
1 2 read 0/00 512*41
  read  0 1: Successful Completion (0x0)
1 3 op-7f 0/01
  op-7f 0 1: Invalid Command Opcode (0x1)
1 4 read 0/02
  read 0 1 reserved: Invalid Field in Command (0x2)
1 5 compare 0/00
  compare 8 1 00 first: Successful Completion (0x0)
1 6 write 0/00
  write 8 1 512*42 second: Successful Completion (0x0)
1 900 compare 2/85
  compare 8 1 00 first cid=900: Compare Failure (0x285)
1 8 write 0/09
  write 8 1 43 second: Command Aborted due to Failed Fused Command (0x9)
1 9 read 0/0a
  read 0 1 first: Command Aborted due to Missing Fused Command (0xa)
1 10 read 0/0b
  read 0 1 nsid=2: Invalid Namespace or Format (0xb)
1 11 compare 0/14
  compare 4 8 00 first: Atomic Write Unit Exceeded (0x14)
1 12 write 0/09
  write 4 8 44 second: Command Aborted due to Failed Fused Command (0x9)
1 13 read 0/80
  read 32768 1: LBA Out of Range (0x80)
1 14 uncorrectable 0/00
  uncorrectable 16 1: Successful Completion (0x0)
1 15 read 2/81
  read 16 1: Unrecovered Read Error (0x281)
1 16 write 0/00
  write 8 1 46: Successful Completion (0x0)
1 17 write 0/06
  write 8 1 47: Internal Error (0x6)
lawful jobs 14 units 4096 changes 4 refused 1
"""

# The lists of three hosts, of different lengths and with pairs, so that a job takes one line of its list or two.
HOSTS = {
    "first": "write 0 1 61\n\nwrite 1 1 62 # the second\nread 0 4\n",
    "again": "# a pair\ncompare 2 1 00 first\nwrite 2 1 63 second\nread 0 4 cid=0\nread 0 4",
    "last": "zeroes 3 1\n",
}
ORDERS = [("first", "again"), ("last", "again", "first"), ("again", "last", "again", "first")]
# What is said of a run without a command.
IDLE = "nvq: the lists have no command\n"


def words(*lists, **options):
    return ["nvq", "run", *(f"--{name}={value}" for name, value in options.items()), *lists]


def lists_run(run):
    def expected(options, lists):
        """The record of a run of these lists by one worker, and what is printed of it. Their host files are those that nvq makes
        of them, which other tables hold to the byte."""
        files = []
        for listed in lists:
            run.keep("of.list", listed)
            run.expect(["nvq", "assemble", "--block", str(options["block"]), "of.list", "of.nvq"])
            files.append(run.kept("of.nvq"))
        space = Namespace(**{name: options[name] for name in options if name != "workers"})
        record = recorded(space, files, workers=1)
        return record, beside(text(record), lists)

    def ran(options, names, given=None):
        lists = [given if name == "-" else run.kept(name).decode() for name in names]
        record, shown = expected({**DEFAULTS, **options}, lists)
        asked = words(*names, **{**options, "workers": 1, "record": "kept"})
        run.expect(asked, out=shown, given=(given or "").encode(), files={"kept": spelled(record)})
        run.expect(["nvmu", "audit", "kept"], out=shown.splitlines(True)[-1])
        return shown

    run.keep("each", EACH)
    run.hold("each status", ran({"limit": 2}, ["each"]), EACH_LINES)
    ran(OPTIONS, ["each"])
    for name, listed in HOSTS.items():
        run.keep(name, listed)
    for names in ORDERS:
        ran({}, names)
    ran({}, ["first", "-", "again"], HOSTS["last"])
    run.keep("large", "write 0 1 4096*41\nread 0 1\n")
    ran({"block": 4096}, ["large"])
    # Without boundaries a write of any length is in one unit, and with smaller ones a unit has fewer blocks.
    for nabsn, most in ((0, 65_535), (3, 3), (15, 15)):
        ran({"nabsn": nabsn, "nawun": most, "nacwu": most, "nsze": 64}, ["first"])
        run.expect(words("first", nabsn=nabsn, nsze=64, workers=1, record="own"), out=run.SOME, files={"own": run.kept("kept")})
    # What isn't given is as in DEFAULTS, and there are as many workers as processors at most.
    run.keep("alone", "write 9 2 41\n")
    run.expect(words("alone"), out="1 1 write 0/00\n  write 9 2 41: Successful Completion (0x0)\n" + verdict(1, 1))
    run.expect(words("alone", record="kept"), out=run.SOME)
    record = record_of(run.kept("kept"))
    handed = jobs_of([file_of([write(9, 0x41, 0x41)])], 512)
    run.hold("the defaults", (record.namespace, record.jobs), (Namespace(**DEFAULTS), handed))
    run.hold("the processors", 1 <= record.workers <= min(64, os.cpu_count()), True)
    run.keep("none", "# nothing\n")
    run.expect(words("none"), out=verdict(0, 0), err=IDLE)
    run.expect(words("none", workers=3, record="kept"), out=verdict(0, 0), err=IDLE)
    run.expect(["nvmu", "audit", "kept"], out=verdict(0, 0))
    run.expect(words("none", "-", "none"), out=verdict(0, 0), err=IDLE)
    run.expect(words(*["none"] * 63, "alone"), out="64 1 write 0/00\n  write 9 2 41: Successful Completion (0x0)\n" + verdict(1, 1))
    run.expect([*words("alone"), "--limit", "5", "none"], out=run.SOME)
    refused_runs(run)


def verdict(jobs, changes):
    return f"lawful jobs {jobs} units 4096 changes {changes} refused 0\n"


def refused_runs(run):
    """What ends in a fault prints nothing, and leaves the record that stands as it was."""
    run.keep("old", b"old")
    run.keep("wrong", "read 0 1\n\nwalk 0 1\n")
    line = "expected write, read, compare, zeroes, uncorrectable, dataset, or op- and another opcode in two hexadecimal digits"
    no_data = "expected data of 512 bytes and not of 4096"
    many = "there are 65 lists, and at most 64 can be run"
    faults = [
        (["missing"], {}, "cannot read missing", MISSING),
        (["wrong", "missing"], {}, "cannot read missing", MISSING),
        (["."], {}, "cannot read .", FOLDER),
        (["alone", "wrong"], {}, f"wrong: line 3: {line}", the_line("walk 0 1")),
        (["large", "wrong"], {}, f"large: line 1: {no_data}", the_line("write 0 1 4096*41")),
        (["wrong"], {"nsze": 0}, f"wrong: line 3: {line}", the_line("walk 0 1")),
        (["alone", "a.nvq"], {}, f"a.nvq: line 1: {line}", no_list("a.nvq", b"NVQ1")),
        (["none"] * 65, {}, "too many hosts", many),
        (["none"] * 65, {"nsze": 0}, "too many hosts", many),
        (["alone"], {"nsze": 0}, "geometry: Size", GEOMETRY["Size"]),
        (["alone"], {"nabsn": 0, "nabo": 1}, "geometry: OffsetWithoutBoundary", GEOMETRY["OffsetWithoutBoundary"]),
        (["alone"], {"nabo": 8}, "geometry: OffsetAboveBoundary", GEOMETRY["OffsetAboveBoundary"]),
        (["alone"], {"nawun": 8}, "geometry: WriteUnitAboveBoundary", GEOMETRY["WriteUnitAboveBoundary"]),
        (["alone"], {"nacwu": 8}, "geometry: PairUnitAboveBoundary", GEOMETRY["PairUnitAboveBoundary"]),
        (["alone"], {"nsze": 32_769}, "geometry: TooManyUnits", GEOMETRY["TooManyUnits"]),
        (["-", "alone", "-"], {}, "standard input is named twice", ""),
        (["/dev/stdin", "-"], {}, "standard input is named twice", ""),
        (["-", "alone", "/dev/stdin"], {}, "standard input is named twice", ""),
    ]
    run.keep("a.nvq", file_of([]))
    for names, options, fault, hint in faults:
        err = told(f"nvq: {fault}", hint)
        run.expect(words(*names, **options, record="old"), 1, err=err, given=b"read 0 1\n", files={"old": b"old"})
    # A file that changes between two reads: the line is that of the list that has the fault.
    run.keep("twice", "read 0 1\n")
    pipe = os.path.join(run.folder, "between")
    os.mkfifo(pipe)

    def changed():
        with open(pipe, "wb") as file:
            run.keep("twice", "walk 0 1\n")
            file.write(b"read 0 1\n")

    writer = threading.Thread(target=changed, daemon=True)
    writer.start()
    run.expect(words("twice", "between", "twice"), 1, err=told(f"nvq: twice: line 1: {line}", the_line("walk 0 1")))
    writer.join(60)
    os.remove(pipe)
    run.expect(words("-"), 1, given=b"walk", err=told(f"nvq: -: line 1: {line}", the_line("walk")))
    run.expect(words("none", "alone", record="alone"), 1, err=told("nvq: cannot write alone", IS_LIST), files={"alone": run.kept("alone")})
    run.expect(words("alone", record="-"), 1, err="nvq: the record can't go to standard output\n")
    for name, why in (("absent/record", MISSING), (".", FOLDER), ("alone/record", NO_FOLDER)):
        run.expect(words("alone", record=name), 1, err=told(f"nvq: cannot write {name}", why))
    with open("/dev/full", "wb") as full:
        found = run.status_of(words("alone", record="kept"), stdout=full)
    run.hold("a full standard output", found, (1, told("nvq: cannot write -", NO_SPACE).encode()))
    run.expect(["nvmu", "audit", "kept"], out=verdict(1, 1))
    numbers = {"workers": [0, 65], "limit": [0, 4_194_305], "nsze": [-1, 2**64], "nabsn": [65_536], "nabo": [65_536]}
    for name, values in {**numbers, "nawun": ["x"], "nacwu": [-1], "block": [1024], "bogus": [1]}.items():
        for value in values:
            run.refuse(words("alone", **{name: value}))
    run.refuse(["nvq", "run"])
    run.refuse(["nvq", "run", "--nsze", "1", "--nsze", "1", "alone"])
    run.expect(["nvq", "run", "--help"], out=run.SOME)
