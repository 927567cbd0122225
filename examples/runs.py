"""Runs of whole lists, and what must be printed of them: rows that were worked out by hand.

The namespace has 32 blocks of 512 bytes in units of eight, or 65,536 in units of sixteen or in one unit, and pairs have up
to four blocks.
"""

from recording import ran, run_words

OPTIONS = {"nsze": 32, "block": 512, "nabsn": 7, "nabo": 0, "nawun": 7, "nacwu": 3, "workers": 1, "limit": 100}


# A range that ends far above 2^64.
FAR = f"{2**64 - 1}+{2**32 - 1}"

# The limit of a unit's changes, a list, and the lines.
RUNS = [
    # Over a boundary, part by part.
    (
        100,
        "write 6 12 42 / zeroes 8 1 / read 5 14 / compare 6 12 42",
        "write 0/00 / zeroes 0/00 / read 0/00 512*00,1024*42,512*00,4608*42,512*00 / compare 2/85",
    ),
    # Marks, until they are written.
    (
        100,
        "uncorrectable 8 1 / read 6 3 / compare 6 3 00 / write 7 2 41 / read 7 2",
        "uncorrectable 0/00 / read 2/81 / compare 2/81 / write 0/00 / read 0/00 1024*41",
    ),
    # A pair that holds, and one that fails.
    (
        100,
        "compare 4 4 00 first / write 4 4 55 second / compare 4 4 00 first / write 4 4 56 second / read 7 2",
        "compare 0/00 / write 0/00 / compare 2/85 / write 0/09 / read 0/00 512*55,512*00",
    ),
    # A pair over a boundary, and one of too many blocks.
    (
        100,
        "compare 5 4 00 first / write 5 4 55 second / compare 0 5 00 first / write 0 5 55 second / read 0 9",
        "compare 0/14 / write 0/09 / compare 0/14 / write 0/09 / read 0/00 4608*00",
    ),
    # A unit that is full, in the middle of a Write and below a pair.
    (
        1,
        "write 8 1 41 / write 6 4 42 / compare 8 1 41 first / write 8 1 43 second / read 6 4",
        "write 0/00 / write 0/06 / compare 0/00 / write 0/06 / read 0/00 1024*42,512*41,512*00",
    ),
    # Checks.
    (
        100,
        f"op-7f 0 1 / write 0 1 00 reserved / compare 0 1 00 first / read {2**64 - 1} 65536",
        "op-7f 0/01 / write 0/02 / compare 0/0a / read 0/80",
    ),
    # Deallocated blocks are zero bytes, in two units.
    (
        100,
        "write 6 4 42 / dataset 7+2 deallocate / read 6 4",
        "write 0/00 / dataset 0/00 / read 0/00 512*42,1024*00,512*42",
    ),
    # A mark goes with the Deallocate bit alone.
    (
        100,
        "uncorrectable 7 1 / dataset 7+1 / read 7 1 / dataset 7+1 deallocate / read 7 1",
        "uncorrectable 0/00 / dataset 0/00 / read 2/81 / dataset 0/00 / read 0/00 512*00",
    ),
    # An empty range at NSZE, and ranges that end above it, with and without the bit.
    (
        100,
        "write 0 1 41 / dataset 32+0 deallocate / dataset 33+0 deallocate / dataset 31+2 deallocate / dataset 31+2"
        f" / dataset 0+1,31+2 deallocate / dataset {FAR} deallocate / read 0 1",
        "write 0/00 / dataset 0/00 / dataset 0/80 / dataset 0/80 / dataset 0/80 / dataset 0/80 / dataset 0/80 / read 0/00 512*41",
    ),
    # No pair has a Dataset Management.
    (
        100,
        "compare 0 1 00 first / dataset 0+1 deallocate second / dataset 0+1 first / write 0 1 41 second"
        " / dataset 0+1 second / dataset 0+1 reserved",
        "compare 0/02 / dataset 0/02 / dataset 0/02 / write 0/02 / dataset 0/0a / dataset 0/02",
    ),
    # Its checks in their order, each with the reasons that are looked for later, too.
    (
        100,
        "write 0 1 41 / dataset 0+1,33+0 deallocate reserved nsid=2 / dataset 0+1,33+0 deallocate first nsid=2"
        " / dataset 0+1,33+0 deallocate nsid=2 / dataset 0+1,33+0 deallocate / read 0 1",
        "write 0/00 / dataset 0/02 / dataset 0/0a / dataset 0/0b / dataset 0/80 / read 0/00 512*41",
    ),
    # Ranges in any order, one twice: a change in each of two units, so that the next is one too many.
    (
        1,
        "dataset 9+2,0+1,10+2 deallocate / zeroes 16 1 / dataset 5+0,16+0 deallocate / write 0 1 41 / write 8 1 41",
        "dataset 0/00 / zeroes 0/00 / dataset 0/00 / write 0/06 / write 0/06",
    ),
    # One without the bit is no change, also of a unit that is full.
    (
        1,
        "write 0 1 41 / dataset 0+1 / dataset 0+1 deallocate / read 0 1",
        "write 0/00 / dataset 0/00 / dataset 0/06 / read 0/00 512*41",
    ),
    # A unit that is full stops it. What was deallocated in lower units stays so.
    (
        2,
        "write 0 1 41 / write 8 1 41 / write 8 1 42 / dataset 8+1,0+1 deallocate / read 0 1 / read 8 1",
        "write 0/00 / write 0/00 / write 0/00 / dataset 0/06 / read 0/00 512*00 / read 0/00 512*42",
    ),
]

# An order of 256 ranges in which neighbours lie far apart.
MIXED = [place * 93 % 256 for place in range(256)]


def deallocate(ranges, bit=" deallocate"):
    """A Deallocate of these ranges, each its first LBA and its number of blocks."""
    return f"dataset {','.join(f'{first}+{blocks}' for first, blocks in ranges)}{bit}"


# Range k has the blocks of the units from 16k to 16k + 15.
WHOLE_UNITS = deallocate((256 * k, 256) for k in MIXED)
# All blocks but the first eight. Where one range ends, the next begins in the middle of a unit.
HALF_UNITS = deallocate((8 + 256 * k, 248 if k == 255 else 256) for k in MIXED)
# Block 257k is number k modulo 16 of unit 16k + k // 16.
ONE_BLOCKS = deallocate((257 * k, 1) for k in MIXED)
ONE_BLOCKS_UNITS = {16 * k + k // 16 for k in range(256)}
ONE_BLOCKS_LEFT = "read 0/00 512*00" + ",131072*41,512*00" * 255
# Blocks 1,000 to 5,999, from the middle of unit 62 to the end of unit 374.
EQUAL = deallocate([(1000, 5000)] * 256)
EQUAL_LEFT = "read 0/00 512000*41,2560000*00,30482432*41"
# Blocks 5 to 32,900, the last of them in unit 2,056. A range begins in the middle of the one before it.
HALVES = deallocate((5 + 128 * k, 256) for k in MIXED)
HALVES_LEFT = "read 0/00 2560*41,16842752*00,16709120*41"
# Only the last block of the last range is above NSZE.
TOO_FAR = [*((256 * k, 256) for k in range(255)), (65_280, 257)]
EMPTY = [*((256 * k, 0) for k in range(255)), (65_536, 0)]

# A Write into each of the units of 16 blocks, and its lines where these units are full.
WRITES = [f"write {16 * unit} 1 43" for unit in range(4096)]


def writes_told(full):
    return ["write 0/06" if unit in full else "write 0/00" for unit in range(4096)]


# Runs on 65,536 blocks: NABSN, the limit, the commands, and the lines. What takes one change in each unit of a namespace that
# had one less than the limit succeeds, and a change more is 0/06.
LARGE_RUNS = [
    # 256 ranges over 4,096 units, with data and marks in them.
    (
        15,
        2,
        ["write 0 32768 41", "uncorrectable 32768 32768", "read 65535 1", WHOLE_UNITS, "read 0 65536", *WRITES],
        ["write 0/00", "uncorrectable 0/00", "read 2/81", "dataset 0/00", "read 0/00 33554432*00", *writes_told(range(4096))],
    ),
    (
        15,
        1,
        [HALF_UNITS, *WRITES, "read 0 65536"],
        ["dataset 0/00", *writes_told(range(4096)), "read 0/00 33554432*00"],
    ),
    (
        15,
        2,
        ["write 0 65536 41", HALF_UNITS, "read 0 65536", *WRITES],
        ["write 0/00", "dataset 0/00", "read 0/00 4096*41,33550336*00", *writes_told(range(4096))],
    ),
    # Unit 2,048 is full. The lower ones are deallocated, the others as they were.
    (
        15,
        2,
        ["write 0 65536 41", "write 32768 1 42", WHOLE_UNITS, "read 0 65536", *WRITES],
        [
            *["write 0/00", "write 0/00", "dataset 0/06", "read 0/00 16777216*00,512*42,16776704*41"],
            *writes_told(range(2049)),
        ],
    ),
    # One block of each of 256 units. Those beside it stay as they were.
    (
        15,
        2,
        ["write 0 65536 41", ONE_BLOCKS, "read 0 65536", *WRITES],
        ["write 0/00", "dataset 0/00", ONE_BLOCKS_LEFT, *writes_told(ONE_BLOCKS_UNITS)],
    ),
    # Ranges that overlap.
    (
        15,
        2,
        ["write 0 65536 41", EQUAL, "read 0 65536", *WRITES],
        ["write 0/00", "dataset 0/00", EQUAL_LEFT, *writes_told(range(62, 375))],
    ),
    (
        15,
        2,
        ["write 0 65536 41", HALVES, "read 0 65536", *WRITES],
        ["write 0/00", "dataset 0/00", HALVES_LEFT, *writes_told(range(2057))],
    ),
    # The same in one unit.
    *(
        (0, 2, ["write 0 65536 41", asked, "read 0 65536", "write 9 1 42"], ["write 0/00", "dataset 0/00", left, "write 0/06"])
        for asked, left in [
            (WHOLE_UNITS, "read 0/00 33554432*00"),
            (HALF_UNITS, "read 0/00 4096*41,33550336*00"),
            (ONE_BLOCKS, ONE_BLOCKS_LEFT),
            (EQUAL, EQUAL_LEFT),
            (HALVES, HALVES_LEFT),
        ]
    ),
    # One range of 256 that ends above NSZE, ranges without a block, and ranges without the bit.
    (
        15,
        1,
        [
            *["write 0 65536 41", deallocate(TOO_FAR), deallocate(TOO_FAR, ""), deallocate(EMPTY)],
            *[deallocate([(0, 65_536)] * 256, ""), "read 0 65536"],
        ],
        ["write 0/00", "dataset 0/80", "dataset 0/80", "dataset 0/00", "dataset 0/00", "read 0/00 33554432*41"],
    ),
]

# The list of two hosts among 64, and what is told of it.
TURNS = "compare 0 1 00 first\nwrite 0 1 61 second\nread 0 1\n"
TURNS_LINES = """63 1 compare 0/00
63 2 write 0/00
64 1 compare 2/85
64 2 write 0/09
63 3 read 0/00 512*61
64 3 read 0/00 512*61
"""
# How long a host file is cut, and what is told of it as the second host's.
CUT = "write 0 1 41\nread 0 1\ndataset 0+1,1+1 deallocate\n"
CUTS = [(3, "bad name"), (67, "truncated at 4"), (579, "truncated at 68"), (643, "truncated at 580"), (707, "truncated at 644")]
CUTS += [(708 + 31, "truncated at 708")]
CUTS_LINES = {644: "2 1 write 0/00\n2 2 read 0/00 512*41\n", 740: "2 1 write 0/00\n2 2 read 0/00 512*41\n2 3 dataset 0/00\n"}
# What is left where each bit of a Dataset Management that isn't read is 1, by the byte with the Deallocate bit.
BITS = "write 0 2 41\ndataset 1+1\nread 0 2\n"
BITS_LEFT = {0xFF: "512*41,512*00", 0xFB: "1024*41"}


def runs(run):
    """Holds nvmu to each run of lists that nvq assembles."""

    def assembled(name, text):
        run.keep("run.list", text)
        run.expect(["nvq", "assemble", "run.list", name])

    def answered(limit, asked, lines, **changed):
        assembled("run.nvq", "\n".join(asked))
        told = "".join(f"1 {cid} {line}\n" for cid, line in enumerate(lines, 1))
        ran(run, {**OPTIONS, "limit": limit, **changed}, "run.nvq", lines=told)

    for limit, asked, lines in RUNS:
        answered(limit, asked.split(" / "), lines.split(" / "))
    for nabsn, limit, asked, lines in LARGE_RUNS:
        answered(limit, asked, lines, nsze=65_536, nabsn=nabsn)
    assembled("empty.nvq", "")
    assembled("turns.nvq", TURNS)
    ran(run, OPTIONS, *["empty.nvq"] * 62, "turns.nvq", "turns.nvq", lines=TURNS_LINES)
    assembled("whole.nvq", CUT)
    whole = run.kept("whole.nvq")
    for length, fault in CUTS:
        run.keep("cut.nvq", whole[:length])
        run.expect(run_words(OPTIONS, "empty.nvq", "cut.nvq"), 1, err=f"nvmu: host 2: {fault}\n")
    for length, lines in CUTS_LINES.items():
        run.keep("cut.nvq", whole[:length])
        ran(run, OPTIONS, "empty.nvq", "cut.nvq", lines=lines)
    assembled("bits.nvq", BITS)
    bits = bytearray(run.kept("bits.nvq"))
    # The entry is at 1,092, and its range behind it. FUSE stays 0, and the number of ranges 1.
    bits[1093] = 0xFC
    for at in [*range(8, 40), *range(41, 68)]:
        bits[1092 + at] = 0xFF
    for byte, left in BITS_LEFT.items():
        bits[1092 + 44] = byte
        run.keep("bits.nvq", bytes(bits))
        ran(run, OPTIONS, "bits.nvq", lines=f"1 1 write 0/00\n1 2 dataset 0/00\n1 3 read 0/00 {left}\n")
