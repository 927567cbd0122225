"""The words of nvmu: which value each gives, which file is which host's, and what is refused; and runs by several workers."""

import os
import stat
import subprocess
import threading

from auditor import text
from hints import no_host_file, no_list, no_record, other_block, told
from host_files import compare, dataset, file_of, pair, read, uncorrectable, unknown, write, zeroes
from model import Namespace
from outs import obeys_permissions
from recorded import jobs_of
from recording import OPTIONS, expected, ran, run_words
from records import MOST_LIMIT, record_of, spelled

LAST = 2**64 - 1
# What `--version` prints behind the program's name.
with open(os.path.join(os.path.dirname(os.path.dirname(os.path.realpath(__file__))), "VERSION")) as file:
    VERSION = file.read().strip()
# What is expected at the front of a list's line.
NO_COMMAND = "expected write, read, compare, zeroes, uncorrectable, dataset, or op- and another opcode in two hexadecimal digits"
# Boundaries at 4, 14 and 24.
COMMANDS = [
    write(32, 0x41),
    read(33, 1),
    *pair(compare(4, *[0] * 6), write(4, *[0x42] * 6)),
    *pair(compare(4, *[0x42] * 7), write(4, *[0x43] * 7)),
    *pair(compare(3, 0, 0x42), write(3, 0x44, 0x44)),
    *pair(compare(13, 0, 0), write(13, 0x44, 0x44)),
    *pair(compare(32, 0x42), write(32, 0x45)),
    *pair(compare(32, 0x41, nsid=2), write(32, 0x45)),
    write(24, 0x46),
    zeroes(25, 2),
    write(24, 0x47),
    uncorrectable(14, 1),
    read(14, 1),
    read(24, 2),
    unknown(0, 1, cid=65_535),
    read(0, 1, fuse=1),
    read(0, 1, fuse=3, cid=0),
    dataset((13, 2), (3, 1)),
    read(3, 12),
    dataset((33, 0), (24, 1), (4, 1)),
    read(3, 2),
]
LINES = """1 1 write 0/00
1 2 read 0/80
1 3 compare 0/00
1 4 write 0/00
1 5 compare 0/14
1 6 write 0/09
1 7 compare 0/14
1 8 write 0/09
1 9 compare 0/14
1 10 write 0/09
1 11 compare 2/85
1 12 write 0/09
1 13 compare 0/0b
1 14 write 0/09
1 15 write 0/00
1 16 zeroes 0/00
1 17 write 0/06
1 18 uncorrectable 0/00
1 19 read 2/81
1 20 read 0/00 512*46,512*00
1 65535 op-7f 0/01
1 22 read 0/0a
1 0 read 0/02
1 24 dataset 0/00
1 25 read 0/00 512*00,3072*42,2560*00
1 26 dataset 0/06
1 27 read 0/00 1024*00
"""
HOST_VERDICT = "lawful jobs 21 units 4 changes 9 refused 2\n"
# What four hosts ask for, all of them alike and each on blocks of its own, so that the lines are the same whichever worker does
# what: with the numbers of the host and the command in the place of the dots.
SEVERAL = {
    "write": (lambda own: [write(own, own + 1)], ". . write 0/00\n"),
    "pair": (
        lambda own: pair(compare(own + 4, 0), write(own + 4, 0x42)),
        ". . compare 0/00\n. . write 0/00\n",
    ),
    "failed pair": (
        lambda own: pair(compare(own + 8, 1), write(own + 8, 0x43)),
        ". . compare 2/85\n. . write 0/09\n",
    ),
    "range": (lambda own: [zeroes(own * 2 + 12, 2)], ". . zeroes 0/00\n"),
    "read": (lambda own: [read(28, 4)], ". . read 0/00 2048*00\n"),
    "far": (lambda own: [write(own + 32, 0x44, 0x45)], ". . write 0/80\n"),
    "unknown": (lambda own: [unknown(own, 1)], ". . op-7f 0/01\n"),
}
SEVERAL_VERDICT = "lawful jobs 28 units 5 changes 12 refused 0\n"
# Numbers that nvmu takes: of each option at the ends of what it can be, and in between at values that no two have alike.
TAKEN = [
    *({name: value} for name in ("nawun", "nacwu", "nabo") for value in (0, 9)),
    *({"nsze": value} for value in (1, 40_954)),
    *({"block": value} for value in (512, 4096)),
    *({"workers": value} for value in (1, 2, 3, 63, 64)),
    *({"limit": value} for value in (1, 2, 65_535, 65_536, 65_537, 16_777_216 // 5, MOST_LIMIT[2])),
    {"nsze": 65_536, "nabsn": 65_535, "nabo": 65_535, "nawun": 65_535, "nacwu": 65_535},
    {"nsze": 65_535, "block": 4096, "nabsn": 65_534, "nabo": 65_533, "nawun": 65_532, "nacwu": 65_531},
    {"nsze": 258, "nabsn": 65_535, "nabo": 256, "nawun": 259, "nacwu": 513, "workers": 5, "limit": 66_051},
    {"nabsn": 0, "nabo": 0, "nawun": 65_535, "nacwu": 65_534},
    {"nabsn": 0, "nabo": 0, "nawun": 65_533, "nacwu": 65_535},
]
# Words that say 4,096, and others by what they say.
SAID = ["4096", "+4096", "004096", "4k", "4K", "0x1000", "0X1000", "+0x1000", "0x4k", "0x04K"]
NUMBERS = {"4095k": 4_193_280, "4m": 4_194_304, "0x4M": 4_194_304, "0xabcd": 43_981, "0xEF": 239, "0xfk": 15_360, "9K": 9_216}
NUMBER = "expected a number, as in 65536, 0x10000 or 64k"
NO_NUMBERS = ["", "x", "-1", "+", "++1", "k", "+k", "0x", "0xk", "0xg", "x10", "1x0", "0x1.0", "1kk", "1k ", " 1", "1_0", "0b1", "0o7", "64kb", "1t", "12a", "\u0661"]
TOO_LARGE = ["17179869184g", "18446744073709551616", "0x10000000000000000", "9" * 99 + "m"]
# The first and the last number that an option takes.
RANGES = {
    "workers": (1, 64),
    "limit": (1, MOST_LIMIT[2]),
    "nsze": (0, LAST),
    "block": (0, 2**32 - 1),
    **{name: (0, 65_535) for name in ("nabsn", "nabo", "nawun", "nacwu")},
}
# Numbers that make no geometry.
NO_GEOMETRY = [
    ("Size", {"nsze": 0}),
    ("Size", {"nsze": LAST}),
    ("Size", {"nsze": 65_537}),
    ("BlockSize", {"block": 1000}),
    ("OffsetWithoutBoundary", {"nabsn": 0}),
    ("OffsetAboveBoundary", {"nabo": 10}),
    ("OffsetAboveBoundary", {"nabo": 65_535}),
    ("WriteUnitAboveBoundary", {"nawun": 10}),
    ("PairUnitAboveBoundary", {"nacwu": 10}),
    ("TooManyUnits", {"nsze": 40_955}),
    ("TooManyUnits", {"nsze": 65_536, "nabsn": 1, "nabo": 0, "nawun": 1, "nacwu": 1}),
]

# Three files whose names aren't in the order of their hosts.
ORDERS = [("b", "a"), ("a", "b"), ("a", "a"), ("c", "a", "b"), ("b", "c", "a"), ("a", "c", "c")]


def words_of_nvmu(run):
    def words(*files, left_out=None, **changed):
        return run_words({**OPTIONS, **changed}, *files, left_out=left_out)

    run.keep("host.nvq", file_of(COMMANDS))
    run.keep("none.nvq", file_of([]))
    ran(run, OPTIONS, "host.nvq", told=LINES + HOST_VERDICT)
    apart = [word for option in words()[2:] for word in option.split("=")]
    run.expect(["nvmu", "run", "host.nvq", *apart], out=LINES + HOST_VERDICT)
    run.keep("large.nvq", file_of([write(0, 0x41, 0x42), dataset((1, 1)), read(0, 2)], 4096))
    lines = "1 1 write 0/00\n1 2 dataset 0/00\n1 3 read 0/00 4096*41,4096*00\n"
    ran(run, {**OPTIONS, "block": 4096}, "large.nvq", lines=lines)
    # Files in their order, before and after options, and one of them twice.
    for host, filler in (("a", 0x41), ("b", 0x42), ("c", 0x43)):
        run.keep(host, file_of([write(0, filler), read(0, 1)]))
    turns = "1 1 write 0/00\n2 1 write 0/00\n1 2 read 0/00 512*42\n2 2 read 0/00 512*42\n"
    ran(run, OPTIONS, "a", "b", lines=turns)
    run.expect([*words("a")[:2], "a", *words("b")[2:]], out=turns + "lawful jobs 4 units 4 changes 2 refused 0\n")
    for names in ORDERS:
        ran(run, OPTIONS, *names)
    ran(run, OPTIONS, *["none.nvq", "b"] * 31, "a", "c")
    ran(run, OPTIONS, *["none.nvq"] * 64)
    for changed in TAKEN:
        ran(run, {**OPTIONS, **changed}, "none.nvq")
    for fault, changed in NO_GEOMETRY:
        run.expect(words("none.nvq", **changed), 1, err=f"nvmu: geometry: {fault}\n")
    numbers_of_options(run, words)
    nearest(run)
    for name in [*OPTIONS, "out"]:
        run.refuse(words("none.nvq", left_out=name))
    # The record's path has another name, too, and is given once by the one or the other.
    run.expect([*words("none.nvq", left_out="out"), "--record", "named"], out="lawful jobs 0 units 4 changes 0 refused 0\n")
    run.expect(["nvmu", "audit", "named"], out="lawful jobs 0 units 4 changes 0 refused 0\n")
    run.refuse([*words("none.nvq"), "--record=other"])
    run.refuse(words())
    run.refuse([*words("none.nvq"), "--nsze", "33"])
    run.refuse([*words("none.nvq"), "--out=other"])
    for given in ([], ["walk"], ["run", "--bogus"], [b"\xff"], ["audit"], ["audit", "a", "b"], ["audit", "--bogus", "a"], ["audit", "--json"], ["audit", "--json=yes", "a"]):
        run.refuse(["nvmu", *given])
    for given in (["--help"], ["run", "--help"], ["audit", "--help"]):
        run.expect(["nvmu", *given], out=run.SOME)


# Words that are no command or option, and the one that is nearest.
NEAR = {
    "nvq certfy a": "certify",
    "nvq audti a": "audit",
    "nvq explian a": "explain",
    "nvmu witnes a b": "witness",
    "nvq run --worker=1 a": "--workers",
    "nvq audit --jason a": "--json",
    "nvmu run --nzse=1 a": "--nsze",
}


def nearest(run):
    """An unknown command or option is told with the nearest that there is, and one that is near to none without."""
    for words, near in NEAR.items():
        status, said = run.status_of(words.split())
        tips = [line for line in said.decode().splitlines() if line.startswith("  tip: ") and "similar" in line]
        run.hold(f"what is near: {words}", (status, [f"'{near}'" in line for line in tips]), (1, [True]))
    # A contradiction is judged by nvmu, and a verdict is searched for by nvq; pictures are gone.
    for words in ("nvq walk a", "nvq audit --bogus a", "nvq refute a", "nvq draw a", "nvmu certify a"):
        status, said = run.status_of(words.split())
        run.hold(f"nothing is near: {words}", (status, b"similar" in said, words.split()[-2].encode() in said), (1, False, True))


def no_number(option, word, expected):
    """What is said of an option's value that isn't taken."""
    return f"error: invalid value '{word}' for '--{option}': {expected}\n\nFor more information, try '--help'.\n"


def numbers_of_options(run, words):
    """Each spelling of a number, and each word that is none or one that isn't taken. `words` are those of a run with another value."""
    for said in SAID:
        ran(run, {**OPTIONS, "block": 4096}, "none.nvq", said={"block": said})
    for said, number in NUMBERS.items():
        ran(run, {**OPTIONS, "limit": number}, "none.nvq", said={"limit": said})
    for option, (least, most) in RANGES.items():
        for said in [*([str(least - 1)] if least else []), str(most + 1), hex(most + 1), *TOO_LARGE]:
            run.expect(words("none.nvq", **{option: said}), 1, err=no_number(option, said, f"expected a number from {least} to {most}"))
        for said in NO_NUMBERS:
            run.expect(words("none.nvq", **{option: said}), 1, err=no_number(option, said, NUMBER))
    for given, expected_there in (
        (["run", "--block=1k", "missing"], "expected 512 or 4096"),
        (["list", "--block=0x201", "missing"], "expected 512 or 4096"),
        (["run", "--workers=65", "missing"], "expected a number from 1 to 64"),
        (["run", "--limit=5m", "missing"], f"expected a number from 1 to {MOST_LIMIT[2]}"),
        (["generate", "--commands=0", "out"], "expected a number from 1 to 65535"),
        (["generate", "--deallocate=64k", "out"], "expected a number from 0 to 65535"),
        (["generate", "--seed=0x1ffffffffffffffff", "out"], f"expected a number from 0 to {LAST}"),
        (["certify", "--effort=4g", "missing"], "expected a number from 0 to 4294967295"),
    ):
        option, said = given[1].removeprefix("--").split("=")
        run.expect(["nvq", *given], 1, err=no_number(option, said, expected_there))


def files_of_nvmu(run):
    """Files that can't be read, that end early, and that are no regular ones."""
    run.keep("none.nvq", file_of([]))
    run.keep("host.nvq", file_of(COMMANDS))
    run.keep("cut.nvq", file_of(COMMANDS)[:700])
    run.keep("wrong", b"NVR1")
    run.keep("hidden", file_of([]))
    os.chmod(os.path.join(run.folder, "hidden"), 0)
    for files, fault in (
        (["missing"], "cannot read missing"),
        (["host.nvq", "missing"], "cannot read missing"),
        (["wrong", "missing"], "cannot read missing"),
        (["host.nvq", "."], "cannot read ."),
        (["hidden"], "cannot read hidden"),
        (["host.nvq", "/proc/self/mem"], "cannot read /proc/self/mem"),
        (["none.nvq"] * 64 + ["missing"], "cannot read missing"),
        (["host.nvq", "wrong"], "host 2: bad name"),
        (["/dev/null"], "host 1: bad name"),
        (["cut.nvq", "wrong"], "host 1: truncated at 644"),
        (["host.nvq", "none.nvq", "cut.nvq"], "host 3: truncated at 644"),
        (["none.nvq"] * 65, "too many hosts"),
    ):
        run.expect(run_words(OPTIONS, *files), 1, err=f"nvmu: {fault}\n", preexec_fn=obeys_permissions)
    for name in ("missing", ".", "hidden", "/proc/self/mem", "host.nvq/record"):
        run.expect(["nvmu", "audit", name], 1, err=f"nvmu: cannot read {name}\n", preexec_fn=obeys_permissions)
    # A pipe whose writer stops: what came through is the whole file.
    pipe = os.path.join(run.folder, "pipe")
    os.mkfifo(pipe)
    for content, ended in (
        (file_of(COMMANDS), {"out": LINES + HOST_VERDICT}),
        (file_of(COMMANDS)[:700], {"status": 1, "err": "nvmu: host 1: truncated at 644\n"}),
        (b"", {"status": 1, "err": "nvmu: host 1: bad name\n"}),
    ):
        writer = threading.Thread(target=written, args=(pipe, content), daemon=True)
        writer.start()
        run.expect(run_words(OPTIONS, "pipe"), **ended)
        writer.join(60)
    run.hold("pipe", stat.S_ISFIFO(os.lstat(pipe).st_mode), True)
    os.remove(pipe)


def files_of_another_kind(run):
    """Each kind of file where another is wanted, and blocks of another size."""
    # Read as blocks of 512 bytes, the first two have a Write of 258 blocks, and too many commands.
    large = file_of([write(0, 1), read(0, 1)], 4096)
    many = file_of([write(0, *[0x41] * 1200)], 4096)
    small = file_of([write(0, 0x41), *[read(0, 1)] * 7])
    contents = {
        "kind.nvq": file_of([]),
        "kind.nvr": b"NVR2",
        "kind.list": "# Schritt f\u00fcr Schritt\r\n\twrite 0 1 41\n".encode(),
        "empty": b"",
        "short": b"abc",
        "binary": b"write 0 1 41\0",
        "later.nvq": b"NVQ2",
        "late": b"read 0 1\n" * 456 + b"\x01",
    }
    for name, content in contents.items():
        run.keep(name, content)
        if not content.startswith(b"NVQ1"):
            run.expect(run_words(OPTIONS, "kind.nvq", name), 1, err="nvmu: host 2: bad name\n")
        if not content.startswith(b"NVR"):
            run.expect(["nvmu", "audit", name], 1, err="nvmu: record: bad name\n")
            run.expect(["nvq", "audit", name], 1, err=told(f"nvq: {name}: bad name", no_record(name, content)))
        if not content.startswith((b"NVQ1", b"NVR")):
            run.expect(["nvq", "list", name], 1, err=told(f"nvq: {name}: bad name", no_host_file(name, content)))
    for name in ("kind.nvq", "kind.nvr"):
        content = contents[name]
        for path in (name, "-"):
            err = told(f"nvq: line 1: {NO_COMMAND}", no_list(path, content))
            run.expect(["nvq", "assemble", path, "out.nvq"], 1, given=content, err=err)
    for content in contents.values():
        if not content.startswith(b"NVR"):
            run.expect(["nvmu", "audit", "-"], 1, given=content, err="nvmu: record: bad name\n")
            run.expect(["nvq", "audit", "-"], 1, given=content, err=told("nvq: -: bad name", no_record("-", content)))
        if not content.startswith(b"NVQ1"):
            run.expect(run_words(OPTIONS, "-"), 1, given=content, err="nvmu: host 1: bad name\n")
        if not content.startswith((b"NVQ1", b"NVR")):
            run.expect(["nvq", "list", "-"], 1, given=content, err=told("nvq: -: bad name", no_host_file("-", content)))
    # Of what never ends only the front is read.
    run.expect(["nvq", "audit", "/dev/zero"], 1, err=told("nvq: /dev/zero: bad name", no_record("/dev/zero", b"\0")))
    run.expect(["nvq", "list", "/dev/zero"], 1, err=told("nvq: /dev/zero: bad name", no_host_file("/dev/zero", b"\0")))
    run.expect(["nvq", "assemble", "/dev/zero", "out.nvq"], 1, err=f"nvq: line 1: {NO_COMMAND}\n")
    for content, block, fault, other in (
        (large, 512, "truncated at 644", 4096),
        (many, 512, "too many commands", 4096),
        (small, 4096, "truncated at 68", 512),
    ):
        run.keep("sized.nvq", content)
        run.expect(run_words({**OPTIONS, "block": block}, "kind.nvq", "sized.nvq"), 1, err=f"nvmu: host 2: {fault}\n")
        err = told(f"nvq: sized.nvq: {fault}", other_block(other))
        run.expect(["nvq", "list", "--block", str(block), "sized.nvq"], 1, err=err)


def standard_input(run):
    """`-` is standard input, as one host's file or as the record; and `./-` a file of that name."""
    for name, filler in (("a", 0x41), ("b", 0x42), ("-", 0x43)):
        run.keep(name, file_of([write(0, filler), read(0, 1)]))
    for names in (["-"], ["a", "-"], ["-", "a"], ["b", "-", "a"]):
        files = ["b" if name == "-" else name for name in names]
        record, shown = expected(run, OPTIONS, files)
        run.expect(run_words(OPTIONS, *names), given=run.kept("b"), out=shown, files={"record": spelled(record)})
        for program in ("nvmu", "nvq"):
            run.expect([program, "audit", "-"], given=spelled(record), out=f"{shown.splitlines()[-1]}\n")
    record, shown = expected(run, OPTIONS, ["-", "a"])
    run.expect(run_words(OPTIONS, "./-", "a"), out=shown, files={"record": spelled(record)})
    record, shown = expected(run, OPTIONS, ["a"])
    run.expect(run_words(OPTIONS, "a", out="./-"), out=shown, files={"-": spelled(record)})
    os.remove(os.path.join(run.folder, "-"))
    for names, unread in ((["-", "-"], "-"), (["a", "-", "-", "missing"], "-"), (["a", "-", "missing", "-"], "missing")):
        run.expect(run_words(OPTIONS, *names), 1, given=run.kept("b"), err=f"nvmu: cannot read {unread}\n")
    # /dev/stdin is standard input, too.
    record, shown = expected(run, OPTIONS, ["a", "b"])
    run.expect(run_words(OPTIONS, "a", "/dev/stdin"), given=run.kept("b"), out=shown, files={"record": spelled(record)})
    for names in (["-", "/dev/stdin"], ["/dev/stdin", "a", "-"], ["/dev/stdin", "/dev/stdin"]):
        run.expect(run_words(OPTIONS, *names), 1, given=run.kept("b"), err=f"nvmu: cannot read {names[-1]}\n")
    for words in (run_words(OPTIONS, "-"), ["nvmu", "audit", "-"]):
        run.hold(f"{words}", run.status_of(words, preexec_fn=without_input), (1, b"nvmu: cannot read -\n"))
    folder = os.open(run.folder, os.O_RDONLY)
    found = run.status_of(["nvmu", "audit", "-"], stdin=folder)
    run.hold("a folder", found, (1, b"nvmu: cannot read -\n"))
    os.close(folder)


def without_input():
    """A child has no standard input."""
    os.close(0)


def versions(run):
    for program in ("nvmu", "nvq"):
        run.expect([program, "--version"], out=f"{program} {VERSION}\n")
        run.expect([program, "-V"], out=f"{program} {VERSION}\n")


def files_that_stop(run):
    """Files of which only a front can be read: the record that stood there stays."""
    library = os.path.join(run.folder, "stop_reading.so")
    source = os.path.join(os.path.dirname(os.path.realpath(__file__)), "stop_reading.c")
    subprocess.run(["gcc", "-O2", "-Wall", "-shared", "-fPIC", "-o", library, source], check=True)
    run.keep("a", file_of([write(0, 0x41), read(0, 1)]))
    run.keep("b", file_of([write(0, 0x42), read(0, 1)]))
    ran(run, OPTIONS, "a", "b")
    record = run.kept("record")
    run.keep("old", record)
    length = len(run.kept("a"))
    for after in (0, 3, 4, 68, length - 1, length, length + 4, 2 * length - 1, 2 * length):
        # The end of a file is read, too.
        name = "a" if after <= length else "b"
        how = {"env": {**os.environ, "LD_PRELOAD": library, "STOP_AFTER": str(after)}}
        run.expect(run_words(OPTIONS, "a", "b"), 1, err=f"nvmu: cannot read {name}\n", files={"record": record}, **how)
    for after in (0, 3, 4, 34, len(record) - 1, len(record)):
        how = {"env": {**os.environ, "LD_PRELOAD": library, "STOP_AFTER": str(after)}}
        run.expect(["nvmu", "audit", "old"], 1, err="nvmu: cannot read old\n", files={"old": record}, **how)


def written(path, content):
    with open(path, "wb") as file:
        file.write(content)


def several_workers(run):
    """Runs whose lines don't depend on which worker does what, by several numbers of workers. Their records are lawful."""
    hosts = range(1, 5)
    lines, cids = "", dict.fromkeys(hosts, 0)
    for _commands, each in SEVERAL.values():
        for host in hosts:
            for line in each.splitlines():
                cids[host] += 1
                lines += f"{host} {cids[host]} {line[4:]}\n"
    names = [f"several-{host}" for host in hosts]
    for host, name in zip(hosts, names):
        run.keep(name, file_of([command for commands, _lines in SEVERAL.values() for command in commands(host - 1)]))
    handed = jobs_of([run.kept(name) for name in names], 512)
    options = {"nsze": 33, "block": 512, "nabsn": 7, "nabo": 0, "nawun": 7, "nacwu": 3, "limit": 100}
    for workers in (1, 2, 4, 64):
        run.expect(run_words({**options, "workers": workers}, *names), out=lines + SEVERAL_VERDICT)
        record = record_of(run.kept("record"))
        found = (record.version, record.namespace, record.workers, record.jobs)
        run.hold(f"what {workers} workers did", found, (2, Namespace(**options), workers, handed))
        run.hold(f"the record of {workers} workers", text(record), lines + SEVERAL_VERDICT)
        run.expect(["nvmu", "audit", "record"], out=SEVERAL_VERDICT)
