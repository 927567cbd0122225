"""What the built programs must answer: tables of words, lists and files, and of what is said of each.

What stands here is written by hand. Host files are made by sweep/host_files.py, which knows nothing of the programs.
"""

import os
import subprocess
import sys
import tempfile

HERE = os.path.dirname(os.path.realpath(__file__))
TOP = os.path.dirname(HERE)

sys.dont_write_bytecode = True
sys.path[:0] = [HERE, os.path.join(TOP, "sweep")]

from contradictions import CERTIFIED, CONTRADICTION, EXPLAINED, PAIR_TEXT, PROFILE, WRONG, contradictions
from crowds import crowds
from devices import devices
from entries import entries
from explained import explained
from faulty import faulty
from forged import forged, spoiled
from generated import lists_generated
from hints import FOLDER, MISSING, no_host_file, the_line, told
from host_files import Asked, compare, dataset, file_of, read, uncorrectable, unknown, write, zeroes
from lists_expected import lists_expected
from lists_run import lists_run
from objects_run import objects_run
from listed_objects import listed_objects
from listings import listings
from outs import outs_of_nvmu, outs_of_nvq, outs_that_are_read, shown_nowhere
from progress import progress
from rows import rows
from runs import runs
from trace_files import spelled, text_of
from traces import HEAD, TRACE, traces
from two_owners import two_owners
from unbuilt import unbuilt
from words import (
    SEVERAL,
    files_of_another_kind,
    files_of_nvmu,
    files_that_stop,
    several_workers,
    standard_input,
    versions,
    words_of_nvmu,
)
from wrong_lines import wrong_lists

# Stands for a text that isn't empty: clap words its own.
SOME = object()
LAST = 2**64 - 1

# What is expected in a line of a list, by what was found there.
NAME = "expected write, read, compare, zeroes, uncorrectable, dataset, or op- and another opcode in two hexadecimal digits"
LBA = "expected an LBA from 0 to 18446744073709551615"
BLOCKS = "expected a number of blocks from 1 to 65536"
DATA = "expected data as runs, as in 511*41,1*42, or as two hexadecimal digits"
SHORT = "expected data of 512 bytes and not of 511"
LONG = "expected data of 1024 bytes and not of 36893488147419103230"
RANGES = "expected ranges, as in 7+2,0+1: LBAs from 0 to 18446744073709551615, and from 0 to 4294967295 blocks"
MANY_RANGES = "expected at most 256 ranges and not 257"
OPTION = "expected first, second, reserved, cid= or nsid="
RANGE_OPTION = "expected deallocate, first, second, reserved, cid= or nsid="
ONCE = "expected each option at most once, and at most one of first, second and reserved"
CID = "expected a number from 0 to 65535 behind cid="
NSID = "expected a number from 0 to 4294967295 behind nsid="
REFUSED_LINES = {
    NAME: ["walk 0 1", "Write 0 1 41", "op-01 0 1", "op-09 0 1", "op-7 0 1", "op-7g 0 1", "op-", "\u00e9"],
    LBA: ["read", "read x 1", "read -1 1", "read +1 1", "read 0x10 1", "read 18446744073709551616 1"],
    BLOCKS: ["read 0", "read 0 0", "read 0 65537", "read 0 1x"],
    DATA: [
        "write 0 1",
        "write 0 1 # 41",
        "write 0 1 4",
        "write 0 1 411",
        "write 0 1 first",
        "write 0 1 512*4",
        "write 0 1 512*41,",
        "write 0 1 ,512*41",
        "write 0 1 0*41,512*41",
        "write 0 1 512*41*42",
        "write 0 1 *41",
        "write 0 1 18446744073709551616*41",
    ],
    SHORT: ["write 0 1 511*41", "compare 0 1 500*41,11*42 bogus"],
    LONG: ["write 0 2 18446744073709551615*41,18446744073709551615*42"],
    RANGES: [
        "dataset",
        "dataset 7",
        "dataset 7 2",
        "dataset 7+",
        "dataset +2",
        "dataset 7+2+1",
        "dataset 7+2,",
        "dataset ,7+2",
        "dataset 7+2, 0+1",
        "dataset 7-2",
        "dataset deallocate 7+2",
        "dataset 18446744073709551616+1",
        "dataset 0+4294967296",
        f"dataset {'0+1,' * 257}x",
    ],
    MANY_RANGES: [f"dataset 0+1{',0+1' * 256} bogus"],
    OPTION: ["read 0 1 41", "read 0 1 normal", "read 0 1 cid", "zeroes 0 1 deallocate"],
    RANGE_OPTION: ["dataset 7+2 0+1", "dataset 7+2 Deallocate"],
    ONCE: [
        "read 0 1 first first",
        "read 0 1 first second",
        "read 0 1 cid=1 nsid=1 cid=x",
        "read 0 1 nsid=1 nsid=1",
        "dataset 7+2 deallocate first deallocate",
    ],
    CID: ["read 0 1 cid=", "read 0 1 cid=65536"],
    NSID: ["read 0 1 nsid=4294967296", "read 0 1 nsid=1,"],
}

# Lists, and the commands that they say. A comment, a blank line and other spellings of numbers say nothing more.
LISTS = {
    "": [],
    "\n\n \t\n\r\n# write 0 1 41\n": [],
    "write 0 1 41\nread 5 2\nuncorrectable 6 65536\n": [write(0, 0x41), read(5, 2), uncorrectable(6, 65_536)],
    "compare 18446744073709551615 1 511*41,1*42\nzeroes 007 08\n": [compare(LAST, 0x41, end=b"\x42"), zeroes(7, 8)],
    "op-7f 9 10\nop-0a 0 1\nop-FF 0 1": [unknown(9, 10), Asked(0x0A, 0, 1), Asked(0xFF, 0, 1)],
    "dataset 7+2 deallocate\ndataset 007+02\ndataset 18446744073709551615+4294967295,0+0,7+2\n": [
        dataset((7, 2)),
        dataset((7, 2), deallocate=False),
        dataset((LAST, 2**32 - 1), (0, 0), (7, 2), deallocate=False),
    ],
    "dataset 1+1 nsid=2 deallocate first\ndataset 1+1 second cid=7 deallocate\ndataset 1+1 reserved\n": [
        dataset((1, 1), nsid=2, fuse=1),
        dataset((1, 1), cid=7, fuse=2),
        dataset((1, 1), fuse=3, deallocate=False),
    ],
    "read 0 1 first cid=7 nsid=2\nread 0 1 nsid=4294967295 cid=65535 second\n": [
        read(0, 1, fuse=1, cid=7, nsid=2),
        read(0, 1, fuse=2, cid=65_535, nsid=2**32 - 1),
    ],
    "read 0 1 cid=0 reserved nsid=0\nread 0 1 cid=001\n": [read(0, 1, fuse=3, cid=0, nsid=0), read(0, 1, cid=1)],
    "read 0 1\r\n\tread  0\t1 \n\n# a comment\nread 1 1# and one behind a command\nread 2 1 # first # cid=1\n#": [
        read(0, 1),
        read(0, 1),
        read(1, 1),
        read(2, 1),
    ],
    "write 3 1 fF\nwrite 3 1 512*41\nwrite 3 1 1*0a,510*B0,1*c9\nwrite 3 1 1*41,0511*41\n": [
        write(3, 0xFF),
        write(3, 0x41),
        write(3, 0xC9, end=b"\x0a" + b"\xb0" * 510 + b"\xc9"),
        write(3, 0x41),
    ],
}

# Lists as they are printed: each is the listing of its own host file.
LISTED = """write 0 1 511*41,1*42
read 18446744073709551615 65536
compare 4 1 512*00 first cid=258
write 4 1 512*ff second
op-7f 0 1 reserved cid=4 nsid=2
zeroes 0 8 nsid=0
uncorrectable 1 1 cid=0
dataset 7+2,18446744073709551615+4294967295,0+0 deallocate second cid=9 nsid=0
dataset 7+2
compare 0 2 63*01,64*02,65*03,128*07,129*08,1*09,574*0a
"""


class Programs:
    """Runs the built programs in a folder of its own, and counts the runs that ended as they must."""

    SOME = SOME

    def __init__(self, folder):
        self.folder = folder
        self.passed, self.failed = 0, 0

    def path_of(self, name):
        """Where the program of this name was built."""
        return os.path.join(TOP, "crates", name, "out", name)

    def keep(self, name, content):
        with open(os.path.join(self.folder, name), "wb") as file:
            file.write(content if isinstance(content, bytes) else content.encode())

    def kept(self, name):
        with open(os.path.join(self.folder, name), "rb") as file:
            return file.read()

    def expect(self, words, status=0, out=b"", err=b"", given=b"", files=None, **how):
        """Holds a run to its status, to what it writes on both streams, and to the files that it writes."""
        done = subprocess.run(
            [self.path_of(words[0]), *words[1:]], input=given, capture_output=True, cwd=self.folder, timeout=60, umask=0o022, **how
        )
        found = [done.returncode, done.stdout, done.stderr]
        wanted = [status, *(text if text is SOME or isinstance(text, bytes) else text.encode() for text in (out, err))]
        right = all(it and b"panic" not in it if want is SOME else it == want for it, want in zip(found, wanted))
        for name, content in (files or {}).items():
            with open(os.path.join(self.folder, name), "rb") as file:
                found.append(file.read())
            right = right and found[-1] == content
        self.passed, self.failed = self.passed + right, self.failed + (not right)
        if not right:
            print(f"{words} ended with {[it if isinstance(it, int) else it[:300] for it in found]}")

    def output(self, words):
        """What a run prints that ends without a fault."""
        done = subprocess.run([self.path_of(words[0]), *words[1:]], stdin=subprocess.DEVNULL, capture_output=True, cwd=self.folder, timeout=60)
        self.hold(f"how {words} ends", done.returncode, 0)
        return done.stdout.decode()

    def status_of(self, words, stdin=subprocess.DEVNULL, **how):
        """The status of a run, and what it says on standard error."""
        done = subprocess.run([self.path_of(words[0]), *words[1:]], stdin=stdin, stderr=subprocess.PIPE, cwd=self.folder, timeout=60, **how)
        return done.returncode, done.stderr

    def hold(self, told, found, wanted):
        """Holds what was found to what is wanted."""
        self.passed, self.failed = self.passed + (found == wanted), self.failed + (found != wanted)
        if found != wanted:
            print(f"{told}: found {found}")

    def refuse(self, words):
        """Holds words that clap refuses to its fault, on standard error alone."""
        self.expect(words, 1, err=SOME)


def lists(run):
    def assembled(text, **told):
        run.expect(["nvq", "assemble", "-", "-"], given=text.encode(), **told)

    for text, asked in LISTS.items():
        assembled(text, out=file_of(asked))
    for expected, texts in REFUSED_LINES.items():
        for text in texts:
            err = told(f"nvq: line 4: {expected}", the_line(text, f"line 5: {NAME}"))
            assembled(f"# a list\n\nread 0 1\n \t{text}\r\nwalk\n", status=1, err=err)
    run.keep("listed", LISTED)
    run.expect(["nvq", "assemble", "listed", "listed.nvq"])
    run.expect(["nvq", "list", "listed.nvq"], out=LISTED)
    # A command has up to 256 ranges. What isn't read of a range isn't listed.
    ranges = [(place * 16, 255 - place) for place in range(256)]
    words = ",".join(f"{first}+{blocks}" for first, blocks in ranges)
    assembled(f"dataset {words} deallocate\n", out=file_of([dataset(*ranges)]))
    run.expect(["nvq", "list", "-"], given=file_of([dataset(*ranges, attributes=7)]), out=f"dataset {words} deallocate\n")
    # The identifier goes round after 65,535, and no more than 65,536 commands are taken.
    many = "# many\n" + "read 0 1\n" * 65_536
    most = file_of([read(0, 1, cid=place % 65_536) for place in range(1, 65_537)])
    assembled(many, out=most)
    run.expect(["nvq", "list", "-"], given=most, out="read 0 1\n" * 65_536)
    assembled(f"{many}# no command\n\nwalk\n", status=1, err=told("nvq: line 65540: expected no more than 65536 commands", the_line("walk")))
    # Where a character ends behind the front of a line that is shown, it isn't; nor is what isn't plain text.
    for line, hint in (
        ("walk" + "\u00e9" * 60, the_line("walk" + "\u00e9" * 48)),
        ("walks" + "\u00e9" * 60, the_line("walks" + "\u00e9" * 47)),
        ("walk \x1b[2J", ""),
        (b"walk \xff", ""),
    ):
        given = line if isinstance(line, bytes) else line.encode()
        run.expect(["nvq", "assemble", "-", "-"], 1, given=given, err=told(f"nvq: line 1: {NAME}", hint))


def words_of_nvq(run):
    large = file_of([write(0, 0x41), read(0, 1)], 4096)
    run.keep("a.txt", "write 0 1 41\nread 0 1\n")
    run.expect(["nvq", "assemble", "--block", "4096", "a.txt", "a.nvq"], files={"a.nvq": large})
    run.expect(["nvq", "assemble", "a.txt", "-", "--block=4096"], out=large)
    run.expect(["nvq", "list", "--block", "4096", "-"], given=large, out="write 0 1 4096*41\nread 0 1\n")
    run.expect(["nvq", "list", "-"], given=b"NVQ1")
    for given, fault, hint in (
        (b"NVQ", "bad name", no_host_file("wrong.nvq", b"NVQ")),
        (b"NVQ1.", "truncated at 4", ""),
    ):
        run.keep("wrong.nvq", given)
        run.expect(["nvq", "list", "wrong.nvq"], 1, err=told(f"nvq: wrong.nvq: {fault}", hint))
    many = file_of([unknown(0, 1, cid=0)] * 65_536)
    run.expect(["nvq", "list", "-"], 1, given=many + b"0", err="nvq: -: too many commands\n")
    run.expect(["nvq", "list", "missing"], 1, err=told("nvq: cannot read missing", MISSING))
    run.expect(["nvq", "assemble", "a.txt", "missing/a.nvq"], 1, err=told("nvq: cannot write missing/a.nvq", MISSING))
    for words in ("", "assemble", "assemble a", "assemble a b c", "walk a b", "list", "list a b", "list --block 1024 a", "audit", "audit a b", "audit --strict a", "audit --json", "audit --json=yes a"):
        run.refuse(["nvq", *words.split()])
    for words in ("list --bogus 1 a", "list --block 512 --block 512 a", "list --block"):
        run.refuse(["nvq", *words.split()])
    for words in ("--help", "assemble --help", "list --help", "explain --help", "certify --help", "audit --help", "witness --help"):
        run.expect(["nvq", *words.split()], out=SOME)


# The verdicts of contradictions.py as objects.
EXPLAINED_OBJECT = '{"verdict":"explained","jobs":3,"points":3,"together":1,"reads":"atomic","deallocated":"either"}\n'
CONTRADICTION_OBJECT = (
    '{"verdict":"contradiction","reads":"atomic","deallocated":"either","commands":[{"job":2,"began":30,"ended":35,"host":1,"sent":[{"cid":2,"command":"read 0 1"}],'
    '"statuses":["0/00"],"data":"512*43"}],"facts":[],"conclusion":{"conclusion":"nobody","lba":0,"reader":2,"text":"job 2 found in LBA 0 what nobody can have left there"}}\n'
)
PAIR_OBJECT = (
    '{"verdict":"contradiction","reads":"atomic","deallocated":"either","commands":[{"job":0,"began":10,"ended":20,"host":1,"sent":[{"cid":1,"command":"compare 4 4 2048*00 first"},'
    '{"cid":2,"command":"write 4 4 2048*55 second"}],"statuses":["0/00","0/00"],"data":null},{"job":1,"began":21,"ended":30,"host":1,'
    '"sent":[{"cid":3,"command":"read 7 2"}],"statuses":["0/00"],"data":"1024*00"}],"facts":[{"fact":"time","before":0,"after":1,"text":"job 0 comes before job 1: it had ended at 20, and job 1 began at 21"}],'
    '"conclusion":{"conclusion":"nobody","lba":7,"reader":1,"text":"job 1 found in LBA 7 what nobody can have left there"}}\n'
)
# What begins as a file and should be a trace, its fault, and what helps.
NO_TRACES = [
    (b"NVT2", "bad name", "it is no trace, which begins with NVT1"),
    (b"NV", "bad name", "it is no trace, which begins with NVT1"),
    (file_of([]), "bad name", "it is a host file: nvmu run does its commands and writes a record"),
    (b"NVR2", "bad name", "it is a record: nvq audit it judges it; the trace comes first, and then the record"),
    (b"NVT1", "truncated at 4", ""),
    (spelled(TRACE) + b"0", f"trailing at {len(spelled(TRACE))}", ""),
    (spelled(TRACE)[:32] + b"\2" + spelled(TRACE)[33:], "bad value at 32", "it is what was known of the blocks before"),
]
# What should be a trace's text, its fault, and what helps.
NO_TEXTS = [
    (b"", "expected a trace's head", "it has no line with words"),
    (b"# nothing\n", "expected a trace's head", "it has no line with words"),
    (b"walk\n1 2 65 1 read 0 1\n", f"line 1: {HEAD}", the_line("walk", of="it")),
    (b"\n# a list\nread 0 1 # it\n", f"line 3: {HEAD}", "it is a command list: nvq run it does its commands"),
    (b"op-7f 0 1\n", f"line 1: {HEAD}", "it is a command list: nvq run it does its commands"),
    (text_of(TRACE).encode() + b"1 2 65 1 read 0 1\n", f"line {len(TRACE.jobs) + 2}: expected a host from 1 to 64", the_line("1 2 65 1 read 0 1", of="it")),
    (b"\0NVT1", f"line 1: {HEAD}", ""),
]
# Where a trace's text isn't taken.
IS_TEXT = "it is a trace's text: nvq certify it judges it, nvq trace it TRACE makes its file"


def texts_of_traces(run):
    """A trace is taken as its text, too, and a fault of it is told as `nvq trace` tells it."""
    run.keep("right.nvt", spelled(TRACE))
    run.keep("right.txt", text_of(TRACE))
    run.keep("wrong.txt", text_of(WRONG))
    run.expect(["nvq", "certify", "right.txt"], out=CERTIFIED)
    run.expect(["nvq", "certify", "--evidence", "text.nve", "-"], given=text_of(TRACE).encode(), out=CERTIFIED)
    run.expect(["nvq", "certify", "wrong.txt"], 2, out=CONTRADICTION)
    run.expect(["nvq", "witness", "right.txt", "text.nve"], out=EXPLAINED)
    run.expect(["nvmu", "witness", "right.nvt", "text.nve"], out=EXPLAINED)
    run.expect(["nvq", "witness", "-", "text.nve"], given=text_of(TRACE).encode(), out=EXPLAINED)
    run.expect(["nvq", "explain", "right.txt", "text.nve"], out=run.SOME)
    run.expect(["nvmu", "witness", "right.txt", "text.nve"], 1, err="nvmu: trace: bad name\n")
    run.expect(["nvq", "witness", "--strict", "right.txt", "text.nve"], 1, err=told("nvq: text.nve: bad name", "text.nve is an order: nvmu witness TRACE text.nve judges a trace by it, nvq explain TRACE text.nve shows it"))
    for content, fault, hint in NO_TEXTS:
        run.keep("it", content)
        for words in (["certify", "it"], ["witness", "it", "text.nve"], ["explain", "it", "text.nve"], ["trace", "it", "out"]):
            run.expect(["nvq", *words], 1, err=told(f"nvq: {fault}", hint))
    run.keep("it", text_of(TRACE))
    for words in ("audit it", "explain it", "list it", "list --json it", "witness right.nvt it"):
        run.expect(["nvq", *words.split()], 1, err=told("nvq: it: bad name", IS_TEXT))
    status, said = run.status_of(["nvq", "run", "it"], stdout=subprocess.DEVNULL)
    run.hold("nvq run it", (status, said.decode().partition("\n")[2]), (1, f"  {IS_TEXT}\n"))


def words_of_certify(run):
    run.keep("right.nvt", spelled(TRACE))
    run.keep("wrong.nvt", spelled(WRONG))
    for words in ("", "--effort 4294967295", "--effort=1000 --reads atomic", "--deallocated=either"):
        run.expect(["nvq", "certify", *words.split(), "right.nvt"], out=CERTIFIED)
        run.expect(["nvq", "certify", *words.split(), "wrong.nvt"], 2, out=CONTRADICTION)
    for reads in ("atomic", "atomic-all", "whole", "by-blocks"):
        for deallocated in ("zeroes", "ones", "either"):
            words, held = ["--reads", reads, "--deallocated", deallocated], f"reads {reads} deallocated {deallocated}"
            run.expect(["nvq", "certify", *words, "right.nvt"], out=CERTIFIED.replace(PROFILE, held))
            run.expect(["nvq", "certify", *words, "wrong.nvt"], 2, out=CONTRADICTION.replace(PROFILE, held))
    run.expect(["nvq", "certify", "-"], given=spelled(TRACE), out=CERTIFIED)
    run.expect(["nvq", "certify", "--json", "right.nvt"], out=EXPLAINED_OBJECT)
    run.expect(["nvq", "certify", "--json", "wrong.nvt"], 2, out=CONTRADICTION_OBJECT)
    run.expect(["nvq", "certify", "--json", "--evidence", "object.nve", "-"], given=spelled(TRACE), out=EXPLAINED_OBJECT)
    run.expect(["nvmu", "witness", "right.nvt", "object.nve"], out=EXPLAINED)
    run.keep("pair.txt", PAIR_TEXT)
    run.expect(["nvq", "trace", "pair.txt", "pair.nvt"])
    run.expect(["nvq", "certify", "pair.nvt", "--json"], 2, out=PAIR_OBJECT)
    run.expect(["nvq", "certify", "--json", "missing"], 1, err=told("nvq: cannot read missing", MISSING))
    run.refuse(["nvq", "certify", "--json=yes", "right.nvt"])
    for words in ("certify", "certify a b", "certify --reads a", "certify --reads torn a", "certify --deallocated kept a"):
        run.refuse(["nvq", *words.split()])
    for effort in ("4294967296", "-1", "x", ""):
        run.refuse(["nvq", "certify", f"--effort={effort}", "right.nvt"])
    for content, fault, hint in NO_TRACES:
        run.keep("it", content)
        run.expect(["nvq", "certify", "it"], 1, err=told(f"nvq: it: {fault}", hint))
    run.expect(["nvq", "certify", "missing"], 1, err=told("nvq: cannot read missing", MISSING))
    run.expect(["nvq", "certify", "."], 1, err=told("nvq: cannot read .", FOLDER))


TABLES = [lists, wrong_lists, words_of_nvq, listings, listed_objects, lists_run, lists_expected, objects_run, lists_generated, explained, outs_of_nvq, words_of_nvmu, files_of_nvmu, files_that_stop, several_workers]
TABLES += [versions, standard_input, files_of_another_kind, outs_that_are_read]
TABLES += [traces, words_of_certify, texts_of_traces, contradictions, devices, outs_of_nvmu, shown_nowhere, progress, runs, rows, crowds, entries, forged, spoiled, faulty, two_owners, unbuilt]


# What a table runs that runs something else than both programs for people.
OTHERS = {unbuilt: set()}


def tried(lacking=()):
    """How many runs ended as they must, and how many didn't, where these programs aren't built."""
    with tempfile.TemporaryDirectory(prefix="examples-") as folder:
        run, left = Programs(folder), []
        for table in TABLES:
            if OTHERS.get(table, {"nvq", "nvmu"}) & {*lacking}:
                left.append(table.__name__)
            else:
                table(run)
    if left:
        print("left out of the tables:", *left)
    return run.passed, run.failed
