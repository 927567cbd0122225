"""Runs that were worked out by hand, each with all that is printed of it: commands, lines and verdict; and each fault of words, files
and records, with its one line.

The namespace has 32 blocks of 512 bytes in units of eight, and pairs have up to four blocks, where nothing else is said.
"""

import os
import resource

from host_files import compare, dataset, file_of, pair, read, uncorrectable, unknown, write, zeroes
from recording import ran, run_words
from records import MOST_LIMIT

OPTIONS = {"nsze": 32, "block": 512, "nabsn": 7, "nabo": 0, "nawun": 7, "nacwu": 3, "workers": 1, "limit": 100}
LAST = 2**64 - 1


def equal(make, first, blocks, filler, **more):
    """A command of equal bytes."""
    return make(first, *[filler] * blocks, **more)


def both(first, blocks, compared, written):
    return pair(equal(compare, first, blocks, compared), equal(write, first, blocks, written))


FIRST, SECOND, RESERVED = {"fuse": 1}, {"fuse": 2}, {"fuse": 3}

# The options that are other ones, the commands of each host, and what is printed.
ROWS = {
    "a Write and a Read": ({}, [[write(0, 0x41), read(0, 1)]], """1 1 write 0/00
1 2 read 0/00 512*41
lawful jobs 2 units 4 changes 1 refused 0
"""),
    "no commands": ({}, [[]], "lawful jobs 0 units 4 changes 0 refused 0\n"),
    "a Read of nothing written": ({}, [[read(31, 1)]], """1 1 read 0/00 512*00
lawful jobs 1 units 4 changes 0 refused 0
"""),
    "a Write over a boundary": ({}, [[equal(write, 6, 4, 0x42), read(5, 6)]], """1 1 write 0/00
1 2 read 0/00 512*00,2048*42,512*00
lawful jobs 2 units 4 changes 2 refused 0
"""),
    "a Write over the first three units, which begin at an offset": (
        {"nabo": 4},
        [[equal(write, 2, 12, 0x42), read(0, 16)]],
        """1 1 write 0/00
1 2 read 0/00 1024*00,6144*42,1024*00
lawful jobs 2 units 5 changes 3 refused 0
""",
    ),
    "blocks of 4096 bytes": ({"nabsn": 0, "block": 4096}, [[read(31, 1)]], """1 1 read 0/00 4096*00
lawful jobs 1 units 1 changes 0 refused 0
"""),
    "a pair": ({}, [[*both(4, 4, 0, 0x55), read(7, 2)]], """1 1 compare 0/00
1 2 write 0/00
1 3 read 0/00 512*55,512*00
lawful jobs 2 units 4 changes 1 refused 0
"""),
    "a pair over a boundary": ({}, [[*both(5, 4, 0, 0x55), read(5, 4)]], """1 1 compare 0/14
1 2 write 0/09
1 3 read 0/00 2048*00
lawful jobs 2 units 4 changes 0 refused 0
"""),
    "a pair of too many blocks": ({}, [[*both(0, 5, 0, 0x55), read(0, 5)]], """1 1 compare 0/14
1 2 write 0/09
1 3 read 0/00 2560*00
lawful jobs 2 units 4 changes 0 refused 0
"""),
    "a pair that fails": (
        {},
        [[write(0, 0x41), *pair(compare(0, 0x41, end=b"\x42"), write(0, 0x43)), read(0, 1)]],
        """1 1 write 0/00
1 2 compare 2/85
1 3 write 0/09
1 4 read 0/00 512*41
lawful jobs 3 units 4 changes 1 refused 0
""",
    ),
    "a first before a pair": ({}, [[compare(0, 0, **FIRST), *both(0, 1, 0, 0x61)]], """1 1 compare 0/0a
1 2 compare 0/00
1 3 write 0/00
lawful jobs 2 units 4 changes 1 refused 0
"""),
    "a second before a first": ({}, [[write(0, 0x61, **SECOND), compare(0, 0, **FIRST)]], """1 1 write 0/0a
1 2 compare 0/0a
lawful jobs 2 units 4 changes 0 refused 0
"""),
    "an unknown opcode between a first and a second": (
        {},
        [[compare(0, 0, **FIRST), unknown(0, 1, **SECOND), write(0, 0x61, **SECOND)]],
        """1 1 compare 0/0a
1 2 op-7f 0/01
1 3 write 0/0a
lawful jobs 3 units 4 changes 0 refused 0
""",
    ),
    "a pair of two namespaces": ({}, [pair(compare(0, 0), write(1, 0x61, nsid=2))], """1 1 compare 0/0b
1 2 write 0/09
lawful jobs 1 units 4 changes 0 refused 0
"""),
    "a pair past the end": ({}, [both(31, 2, 0, 0x61)], """1 1 compare 0/80
1 2 write 0/09
lawful jobs 1 units 4 changes 0 refused 0
"""),
    "pairs that are none": (
        {},
        [[*pair(compare(0, 0), write(1, 0x62)), *pair(write(0, 0x62), write(0, 0x62))]],
        """1 1 compare 0/02
1 2 write 0/02
1 3 write 0/02
1 4 write 0/02
lawful jobs 2 units 4 changes 0 refused 0
""",
    ),
    "the farthest range": ({}, [[read(LAST, 65_536)]], """1 1 read 0/80
lawful jobs 1 units 4 changes 0 refused 0
"""),
    "marks": (
        {},
        [[uncorrectable(7, 1), read(6, 3), *both(7, 1, 0, 0x63), zeroes(7, 1), read(7, 1)]],
        """1 1 uncorrectable 0/00
1 2 read 2/81
1 3 compare 2/81
1 4 write 0/09
1 5 zeroes 0/00
1 6 read 0/00 512*00
lawful jobs 5 units 4 changes 2 refused 0
""",
    ),
    "a mark, and zeroes in its place": (
        {},
        [[uncorrectable(7, 1), read(6, 3), equal(compare, 6, 3, 0), zeroes(7, 1), equal(compare, 6, 3, 0), read(6, 3)]],
        """1 1 uncorrectable 0/00
1 2 read 2/81
1 3 compare 2/81
1 4 zeroes 0/00
1 5 compare 0/00
1 6 read 0/00 1536*00
lawful jobs 6 units 4 changes 2 refused 0
""",
    ),
    "a Compare whose first part decides": ({}, [[write(7, 0x41), uncorrectable(8, 1), equal(compare, 7, 2, 0)]], """1 1 write 0/00
1 2 uncorrectable 0/00
1 3 compare 2/85
lawful jobs 3 units 4 changes 2 refused 0
"""),
    "a Compare of one part, in which the mark decides": ({}, [[write(6, 0x41), uncorrectable(7, 1), equal(compare, 6, 2, 0)]], """1 1 write 0/00
1 2 uncorrectable 0/00
1 3 compare 2/81
lawful jobs 3 units 4 changes 2 refused 0
"""),
    "a full history": ({"limit": 1}, [[write(0, 0x41), write(1, 0x42), read(0, 2)]], """1 1 write 0/00
1 2 write 0/06
1 3 read 0/00 512*41,512*00
lawful jobs 3 units 4 changes 1 refused 1
"""),
    "a history that is full in the second part": (
        {"limit": 1},
        [[write(8, 0x41), equal(write, 6, 4, 0x42), read(6, 4)]],
        """1 1 write 0/00
1 2 write 0/06
1 3 read 0/00 1024*42,512*41,512*00
lawful jobs 3 units 4 changes 2 refused 1
""",
    ),
    "pairs at the limit": (
        {"limit": 1},
        [[write(0, 0x41), *both(0, 1, 0x41, 0x43), *both(0, 1, 0x40, 0x43)]],
        """1 1 write 0/00
1 2 compare 0/00
1 3 write 0/06
1 4 compare 2/85
1 5 write 0/09
lawful jobs 3 units 4 changes 1 refused 1
""",
    ),
    "two hosts": ({}, [[write(0, 0x41), read(0, 1)], [write(0, 0x42)]], """1 1 write 0/00
2 1 write 0/00
1 2 read 0/00 512*42
lawful jobs 3 units 4 changes 2 refused 0
"""),
    "checks": ({}, [[unknown(0, 1), write(0, 0x41, fuse=3), read(0, 1, nsid=2)]], """1 1 op-7f 0/01
1 2 write 0/02
1 3 read 0/0b
lawful jobs 3 units 4 changes 0 refused 0
"""),
    "checks in their order, each with reasons for later ones": (
        {},
        [[
            unknown(32, 1, nsid=2, **RESERVED),
            write(32, 0x41, nsid=2, **RESERVED),
            compare(32, 0, nsid=2, **FIRST),
            read(32, 1, nsid=2**32 - 1),
            zeroes(31, 2),
            read(31, 1),
        ]],
        """1 1 op-7f 0/01
1 2 write 0/02
1 3 compare 0/0a
1 4 read 0/0b
1 5 zeroes 0/80
1 6 read 0/00 512*00
lawful jobs 6 units 4 changes 0 refused 0
""",
    ),
    "checks of pairs in their order": (
        {},
        [[
            *pair(equal(compare, 5, 4, 0, nsid=2), zeroes(6, 4)),
            *pair(compare(32, 0), write(33, 0x41, nsid=2)),
            *pair(compare(32, 0), write(33, 0x41)),
            *both(28, 8, 0, 0x41),
            *both(7, 2, 0, 0x41),
            read(28, 4),
        ]],
        """1 1 compare 0/02
1 2 zeroes 0/02
1 3 compare 0/0b
1 4 write 0/09
1 5 compare 0/02
1 6 write 0/02
1 7 compare 0/80
1 8 write 0/09
1 9 compare 0/14
1 10 write 0/09
1 11 read 0/00 2048*00
lawful jobs 6 units 4 changes 0 refused 0
""",
    ),
    "hosts with unlike numbers of jobs": (
        {},
        [
            [compare(0, 0, **FIRST), unknown(0, 1), write(0, 0x41, **SECOND), compare(0, 0, **FIRST), *both(0, 1, 0x42, 0x43)],
            [],
            [write(0, 0x41, **SECOND), *both(0, 1, 0, 0x42), compare(0, 0x42, **RESERVED)],
        ],
        """1 1 compare 0/0a
3 1 write 0/0a
1 2 op-7f 0/01
3 2 compare 0/00
3 3 write 0/00
1 3 write 0/0a
3 4 compare 0/02
1 4 compare 0/0a
1 5 compare 0/00
1 6 write 0/00
lawful jobs 8 units 4 changes 2 refused 0
""",
    ),
    "deallocated blocks": ({}, [[equal(write, 6, 4, 0x42), dataset((7, 2)), read(6, 4)]], """1 1 write 0/00
1 2 dataset 0/00
1 3 read 0/00 512*42,1024*00,512*42
lawful jobs 3 units 4 changes 4 refused 0
"""),
    "marks and Dataset Managements": (
        {},
        [[uncorrectable(7, 1), dataset((7, 1), deallocate=False), read(7, 1), dataset((7, 1)), read(7, 1)]],
        """1 1 uncorrectable 0/00
1 2 dataset 0/00
1 3 read 2/81
1 4 dataset 0/00
1 5 read 0/00 512*00
lawful jobs 5 units 4 changes 2 refused 0
""",
    ),
    "a Deallocate in a full unit": ({"limit": 1}, [[write(8, 0x41), dataset((0, 1), (8, 1)), read(8, 1)]], """1 1 write 0/00
1 2 dataset 0/06
1 3 read 0/00 512*41
lawful jobs 3 units 4 changes 2 refused 1
"""),
    "the last blocks of a unit of 3,000, and then all": (
        {"nsze": 3000, "nabsn": 0},
        [[write(2996, 1, 2, 3), zeroes(2997, 3), uncorrectable(2998, 1), read(2996, 2), read(2996, 4), zeroes(0, 3000), read(0, 3000)]],
        """1 1 write 0/00
1 2 zeroes 0/00
1 3 uncorrectable 0/00
1 4 read 0/00 512*01,512*00
1 5 read 2/81
1 6 zeroes 0/00
1 7 read 0/00 1536000*00
lawful jobs 7 units 1 changes 4 refused 0
""",
    ),
    "ranges over 4,096 units of two blocks, which overlap, from the back": (
        {"nsze": 8192, "nabsn": 1, "nawun": 1, "nacwu": 1},
        [[dataset((4000, 4192), (9, 0), (1, 4100), (0, 1))]],
        """1 1 dataset 0/00
lawful jobs 1 units 4096 changes 4096 refused 0
""",
    ),
    "the highest limit": ({"limit": MOST_LIMIT[2]}, [[write(0, 0x41), read(0, 1)]], """1 1 write 0/00
1 2 read 0/00 512*41
lawful jobs 2 units 4 changes 1 refused 0
"""),
}

# Files of hosts and of records, by their names. `missing` isn't there.
WRITE_AND_READ = file_of([write(0, 0x41), read(0, 1)])
TWO_WRITES = file_of([write(0, 0x41), write(1, 0x42)])
MANY_READS = b"NVQ1" + file_of([read(0, 1)])[4:] * 65_536
FILES = {
    "good": WRITE_AND_READ,
    "empty": b"",
    "wrong": b"NVQ2",
    "cut": TWO_WRITES[:700],
    "many": MANY_READS,
    "more": MANY_READS + b"0",
    "no.nvr": b"NVQ1",
    "later.nvr": b"NVR3",
}
# The numbers of a namespace: NSZE, the bytes of a block, NABSN, NABO, NAWUN, NACWU.
NUMBERS = ("nsze", "block", "nabsn", "nabo", "nawun", "nacwu")
NO_NAMESPACES = {
    (0, 512, 0, 0, 0, 0): "Size",
    (32, 1024, 0, 0, 0, 0): "BlockSize",
    (32, 512, 0, 1, 0, 0): "OffsetWithoutBoundary",
    (32, 512, 7, 8, 0, 0): "OffsetAboveBoundary",
    (32, 512, 7, 0, 8, 0): "WriteUnitAboveBoundary",
    (32, 512, 7, 0, 7, 8): "PairUnitAboveBoundary",
    (65_536, 512, 1, 0, 0, 0): "TooManyUnits",
}
NO_BLOCKS = {"nsze": 0}
# What is asked for, and the one line that is on standard error then. The first faults are those of one thing; then two
# are there each time, and the one that is looked for first is told.
FAULTS = {
    "a file that isn't there": (run_words(OPTIONS, "missing"), "cannot read missing"),
    "a record that isn't there": (["nvmu", "audit", "missing"], "cannot read missing"),
    "a record in no folder": (run_words(OPTIONS, "good", out="missing/record"), "cannot write missing/record"),
    "65 hosts": (run_words(OPTIONS, *["good"] * 65), "too many hosts"),
    "an empty host file": (run_words(OPTIONS, "empty"), "host 1: bad name"),
    "another name of a second host file": (run_words(OPTIONS, "good", "wrong"), "host 2: bad name"),
    "a host file cut in a Write's data": (run_words(OPTIONS, "cut"), "host 1: truncated at 644"),
    "a byte behind 65536 commands": (run_words(OPTIONS, "more"), "host 1: too many commands"),
    "a host file for a record": (["nvmu", "audit", "no.nvr"], "record: bad name"),
    "a record of a third version": (["nvmu", "audit", "later.nvr"], "record: unknown version"),
    "a cut record": (["nvmu", "audit", "cut.nvr"], "record: truncated at 24"),
    "a byte behind a record": (["nvmu", "audit", "longer.nvr"], "record: trailing at 1775"),
    "a record of no workers": (["nvmu", "audit", "idle.nvr"], "record: bad value at 28"),
    "a missing file, and too many": (run_words(OPTIONS, *["good"] * 64, "missing"), "cannot read missing"),
    "too many hosts, and no namespace": (run_words({**OPTIONS, **NO_BLOCKS}, *["good"] * 65), "too many hosts"),
    "no namespace, and no host file": (run_words({**OPTIONS, **NO_BLOCKS}, "empty"), "geometry: Size"),
    "two wrong host files": (run_words(OPTIONS, "cut", "empty"), "host 1: truncated at 644"),
    "no host file, and no place for the record": (run_words(OPTIONS, "empty", out="missing/record"), "host 1: bad name"),
    "no host file, and the record in its place": (run_words(OPTIONS, "empty", out="empty"), "host 1: bad name"),
}


def faults(run):
    """Each fault's line is all that is printed, the status is 1, and what stood where the record goes stays."""
    for name, content in FILES.items():
        run.keep(name, content)
    ran(run, OPTIONS, "good")
    record = run.kept("record")
    for name, content in (
        ("cut.nvr", record[:26]),
        ("longer.nvr", record + b"0"),
        ("idle.nvr", record[:28] + bytes(2) + record[30:]),
        ("record", b"old"),
    ):
        run.keep(name, content)
    for words, line in FAULTS.values():
        run.expect(words, 1, err=f"nvmu: {line}\n", files={"record": b"old"})
    for numbers, fault in NO_NAMESPACES.items():
        words = run_words({**OPTIONS, **dict(zip(NUMBERS, numbers))}, "good")
        run.expect(words, 1, err=f"nvmu: geometry: {fault}\n", files={"record": b"old"})
    # The command line is looked at first, and its faults are in the words of clap.
    run.refuse(run_words({**OPTIONS, "workers": 65}, "missing"))
    run.refuse(run_words({**OPTIONS, "limit": MOST_LIMIT[2] + 1}, "good"))
    # A file that is larger than the memory which the program may have. Of one that can't be of ours only the front is read, and so of one that never ends.
    with open(os.path.join(run.folder, "large"), "wb") as large:
        large.truncate(2 * MEMORY)
    for path in ("large", "/dev/zero"):
        for words, named in ((run_words(OPTIONS, path), "host 1"), (["nvmu", "audit", path], "record")):
            run.expect(words, 1, err=f"nvmu: {named}: bad name\n", files={"record": b"old"}, preexec_fn=little_memory)
    with open(os.path.join(run.folder, "large"), "r+b") as large:
        large.write(b"NV")
    for words in (run_words(OPTIONS, "large"), ["nvmu", "audit", "large"]):
        run.expect(words, 1, err="nvmu: no memory\n", files={"record": b"old"}, preexec_fn=little_memory)
    os.remove(os.path.join(run.folder, "large"))
    cuts(run)


# So many bytes of memory a child with `little_memory` may have.
MEMORY = 128 << 20


def little_memory():
    resource.setrlimit(resource.RLIMIT_AS, (MEMORY, MEMORY))


def cuts(run):
    """The host file of a Write and a Read, cut to each length."""
    for length in range(len(WRITE_AND_READ) + 1):
        run.keep("front", WRITE_AND_READ[:length])
        starts = [at for at in (4, 68, 580, 644) if at <= length]
        lines = {4: 0, 580: 1, 644: 2}.get(length)
        if lines is None:
            fault = f"truncated at {starts[-1]}" if starts else "bad name"
            run.expect(run_words(OPTIONS, "front"), 1, err=f"nvmu: host 1: {fault}\n")
        else:
            told = ["1 1 write 0/00", "1 2 read 0/00 512*41"][:lines]
            told.append(f"lawful jobs {lines} units 4 changes {min(lines, 1)} refused 0")
            run.expect(run_words(OPTIONS, "front"), out="".join(f"{line}\n" for line in told))


def rows(run):
    for title, (changed, hosts, told) in ROWS.items():
        names = [f"row-{host}" for host in range(1, len(hosts) + 1)]
        for name, asked in zip(names, hosts):
            run.keep(name, file_of(asked))
        ran(run, {**OPTIONS, **changed}, *names, told=told)
    faults(run)
    run.expect(["nvmu", "run", *PLACED], out=ROWS["a Write and a Read"][2])
    most(run)
    units(run)


# Each option apart from its value, and the record's place before the files.
PLACED = "--nsze 32 --block 512 --nabsn 7 --nabo 0 --nawun 7 --nacwu 3 --workers 1 --limit 100 --out record good".split()


def most(run):
    """As many units as there can be, and as many commands as a host can have."""
    run.keep("none", file_of([]))
    numbers = dict(zip(NUMBERS, (65_536, 512, 15, 0, 15, 15)))
    ran(run, {**OPTIONS, **numbers}, "none", told="lawful jobs 0 units 4096 changes 0 refused 0\n")
    lines = "".join(f"1 1 read 0/00 512*00\n" for _ in range(65_536))
    run.expect(run_words(OPTIONS, "many"), out=f"{lines}lawful jobs 65536 units 4 changes 0 refused 0\n")


def one_core():
    """A child has one processor, for which the audit makes fewer threads."""
    os.sched_setaffinity(0, {min(os.sched_getaffinity(0))})


def units(run):
    """4,096 units, each with one change; then with a spoiled byte in the entries of two. Audited on one core and on all."""
    run.keep("many", file_of([write(16 * unit, 0x41) for unit in range(4096)]))
    options = {**OPTIONS, "nsze": 65_536, "nabsn": 15, "nawun": 15, "nacwu": 15}
    lines = "".join(f"1 {cid} write 0/00\n" for cid in range(1, 4097))
    ran(run, options, "many", told=f"{lines}lawful jobs 4096 units 4096 changes 4096 refused 0\n")
    run.expect(["nvmu", "audit", "record"], out="lawful jobs 4096 units 4096 changes 4096 refused 0\n", preexec_fn=one_core)
    file = bytearray(run.kept("record"))
    # 34 bytes, each job 579, and each unit 4 bytes, an entry of 19 and its block.
    for unit in (4000, 9):
        file[34 + 4096 * 579 + unit * 535 + 23] ^= 1
        run.keep("spoiled", bytes(file))
        for how in ({}, {"preexec_fn": one_core}):
            run.expect(["nvmu", "audit", "spoiled"], 2, out=f"unlawful EntryWrong job {unit} unit {unit} place 0\n", **how)
    both = "".join(f"unlawful EntryWrong job {unit} unit {unit} place 0\n" for unit in (9, 4000))
    run.expect(["nvq", "audit", "--all", "spoiled"], 2, out=f"{both}faults 2\n")
