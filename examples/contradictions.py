"""Contradictions of traces: the files that `nvq certify` keeps, and what `nvmu refute` and `nvq explain` say of them and of others.

The files were worked out by hand, by the tables of docs/FORMATS.md.
"""

import os
import subprocess

from hints import FOLDER, IS_OUTPUT, MISSING, NO_SPACE, told
from trace_files import spelled, text_of, told_together, with_seen
from traces import TRACE

PROFILE = "reads atomic deallocated either"
EXPLAINED = f"explained jobs 3 points 3 {PROFILE}\n"
CERTIFIED = EXPLAINED + told_together(TRACE)
# A Read of what nobody wrote: job 2, in LBA 0.
WRONG = with_seen(TRACE, 2, data=b"\x43" * 512)
WRONG_LINES = f"Job 2 found in LBA 0 bytes that no other command put there.\njob 2 {text_of(WRONG).splitlines()[3]}\njob 2 found in LBA 0 what nobody can have left there\n"
CONTRADICTION = f"contradiction commands 1 {PROFILE}\n{WRONG_LINES}"
NOBODY = bytes.fromhex("4e564531 02 00 02 01 02000000 00000000 0000000000000000")
# A pair, and a Read of the zeroes that it took away: the example of docs/FORMATS.md.
PAIR_TEXT = """trace nsze 32 block 512 nabsn 7 nabo 0 nawun 7 nacwu 3 first 0 start zeroes reads whole
10 20 1 1 compare 4 4 00 first + 2 write 4 4 55 second = 0/00 0/00
21 30 1 3 read 7 2 = 0/00 1024*00
"""
PAIR = bytes.fromhex("4e564531 02 00 02 01 01000000 07000000 0100000000000000 00 00000000 04000000 01000000 07000000")
ATOMIC, BY_BLOCKS = b"\0", b"\3"
LOOP = b"\0"


def number(value):
    return value.to_bytes(4, "little")


def fact(kind, *numbers):
    """A fact: a byte for its kind, and its numbers."""
    return bytes([kind]) + b"".join(map(number, numbers))


def contradiction(*facts, conclusion=LOOP, held=ATOMIC):
    return b"NVE1\2" + held + b"\2" + conclusion + len(facts).to_bytes(8, "little") + b"".join(facts)


# Facts on LBA 0, unless another is named, of points that have one block each.
def time(earlier, later, lba=0):
    return fact(0, earlier, lba, later, lba)


def source(writer, reader, lba=0):
    return fact(3, writer, reader, lba)


def over(reader, writer, found, lba=0):
    """The reader comes before the writer, which comes after the one whose data it found."""
    return fact(4, reader, writer, lba, found)


def under(writer, found, reader, lba=0):
    """The writer, which comes before the reader, comes before the one whose data that found."""
    return fact(5, writer, found, lba, reader)


def first(reader, writer, lba=0):
    return fact(6, reader, writer, lba)


def at_first(reader, lba=0):
    return fact(7, reader, lba)


def nobody(reader, lba=0):
    return bytes([1]) + number(reader) + number(lba)


def nowhere(reader):
    return bytes([2]) + number(reader)


NOTHING = "unrefuted NothingContradicted fact -"
# Two Writes, one after the other, and a Read that found the first one's data. What contradictions of it come to.
STALE_TEXT = """trace nsze 16 block 512 nabsn 7 nabo 0 nawun 7 nacwu 3 first 0 start zeroes reads whole
1 2 1 1 write 9 1 41 = 0/00
3 4 1 1 write 9 1 42 = 0/00
5 6 1 1 read 9 1 = 0/00 512*41
"""
SOURCE, FIRST, SECOND = source(0, 2, 9), time(0, 1, 9), time(1, 2, 9)
OVER, UNDER = over(2, 1, 0, 9), under(1, 0, 2, 9)
STALE = [
    (contradiction(SOURCE, FIRST, OVER, SECOND), "refuted commands 3 facts 4"),
    (contradiction(FIRST, OVER, SECOND), "refuted commands 3 facts 3"),
    (contradiction(SECOND, UNDER, FIRST), "refuted commands 3 facts 3"),
    # What the times say needs no fact before, but only facts lead to a loop.
    (contradiction(OVER, SECOND), "refuted commands 3 facts 2"),
    (contradiction(SOURCE, OVER, FIRST, SECOND), "refuted commands 3 facts 4"),
    (contradiction(SOURCE, FIRST, OVER), NOTHING),
    (contradiction(SECOND, FIRST, time(1, 0, 9)), "unrefuted FactWrong fact 2"),
    (contradiction(SECOND, time(0, 2**32 - 1, 9)), "unrefuted FactWrong fact 1"),
    (contradiction(SOURCE, FIRST, over(2, 1, 0, 8), SECOND), "unrefuted FactWrong fact 2"),
    # The second Write was between, so nobody can have left what the Read found.
    (contradiction(conclusion=nobody(2, 9)), "refuted commands 1 facts 0"),
    (contradiction(first(2, 1, 9), SECOND), "refuted commands 2 facts 2"),
    (contradiction(first(2, 1, 9)), NOTHING),
    *((contradiction(conclusion=it), NOTHING) for it in (nobody(2, 8), nobody(1, 9), nobody(3, 9), nowhere(2))),
    (contradiction(), NOTHING),
]

# A pair whose statuses contradict each other.
ODD = "trace nsze 32 block 512 nabsn 7 nabo 0 nawun 7 nacwu 3 first 0 start zeroes reads whole\n1 2 1 1 compare 0 1 41 first + 2 write 0 1 42 second = 2/85 0/00\n"
HEAD = "trace nsze 32 block 512 nabsn 7 nabo 0 nawun 7 nacwu 0 first 0 start zeroes reads whole\n"
# Commands of which each rule gives something. Of two Writes at once the Reads tell the order, and tell it twice.
CROSSED = f"""{HEAD}1 9 1 1 write 0 1 512*41 = 0/00
1 9 2 1 write 0 1 512*42 = 0/00
10 11 1 2 read 0 1 = 0/00 512*42
12 13 1 3 read 0 1 = 0/00 512*41
"""
# Zeroes that a Read found after a Write of other bytes, and a Read after it that found those again.
ZEROED = f"""{HEAD}1 2 1 1 write 0 1 512*41 = 0/00
3 20 2 1 zeroes 0 1 = 0/00
4 5 1 2 read 0 1 = 0/00 512*00
6 7 1 3 read 0 1 = 0/00 512*41
"""
# Zeroes that a Read found after a Deallocate and a Write.
DEALLOCATED = f"""{HEAD}1 2 1 1 write 0 1 512*41 = 0/00
3 4 1 2 dataset 0+1 deallocate = 0/00
5 6 1 3 write 0 1 512*42 = 0/00
7 8 1 4 read 0 1 = 0/00 512*00
"""
# A pair above its limit that found what only it wrote.
OWN = f"{HEAD}1 2 1 1 compare 0 2 1024*41 first + 2 write 0 2 1024*41 second = 0/00 0/00\n"
# Two Reads that found two things, and nobody wrote.
UNKNOWN = f"""{HEAD.replace("zeroes", "unknown")}1 2 1 1 read 0 1 = 0/00 512*41
3 4 1 2 read 0 1 = 0/00 512*42
"""
# A Read that found one block of a Write, and the other as it was.
TORN = f"""{HEAD}10 40 1 1 write 0 2 1024*41 = 0/00
20 30 2 1 read 0 2 = 0/00 512*41,512*00
"""
# A Compare that failed where it can't have.
BLIND = f"{HEAD}1 2 1 1 compare 0 2 1024*00 = 2/85\n"
TIED_BEFORE, TIED_AFTER = fact(8, 1, 0, 0, 1), fact(9, 0, 1, 1, 0)

NO_ORDER = "No order of these commands gives what their hosts saw."
# Traces, facts and a conclusion, and what they come to; or, where they are taken, the jobs that they name, the sentence that says what is wrong, and
# the lines of the facts and the conclusion.
RULES = [
    (
        CROSSED,
        contradiction(under(0, 1, 2), over(3, 1, 0), time(1, 3)),
        (0, 1, 2, 3),
        NO_ORDER,
        """job 0 comes before job 1 in LBA 0: job 0 put something there, comes before job 2, and job 2 found job 1's data
job 3 comes before job 1 in LBA 0: job 1 put something there after job 0, whose data job 3 found
job 1 comes before job 3: it had ended at 9, and job 3 began at 12
so job 1 comes before itself
""",
    ),
    (CROSSED, contradiction(over(3, 1, 0), under(0, 1, 2), time(1, 3)), "unrefuted FactWrong fact 0"),
    (
        CROSSED,
        contradiction(under(0, 1, 2), conclusion=nobody(3)),
        (0, 1, 2, 3),
        "Job 3 found in LBA 0 what job 0 had left there, though job 1 had put other data there since.",
        """job 0 comes before job 1 in LBA 0: job 0 put something there, comes before job 2, and job 2 found job 1's data
job 3 found in LBA 0 what nobody can have left there
""",
    ),
    (
        CROSSED,
        contradiction(conclusion=nobody(3)),
        (3,),
        # Of the two Writes nobody knows yet which came first.
        "Job 3 found in LBA 0 what job 0 had left there, though job 2 had found other data there since.",
        "job 3 found in LBA 0 what nobody can have left there\n",
    ),
    (
        ZEROED,
        contradiction(source(1, 2), over(3, 1, 0), time(2, 3)),
        (0, 1, 2, 3),
        NO_ORDER,
        """job 1 comes before job 2 in LBA 0: only job 1 can have put what job 2 found there
job 3 comes before job 1 in LBA 0: job 1 put something there after job 0, whose data job 3 found
job 2 comes before job 3: it had ended at 5, and job 3 began at 6
so job 2 comes before itself
""",
    ),
    (
        DEALLOCATED,
        contradiction(fact(1, 1, 2, 0), conclusion=nobody(3)),
        (1, 2, 3),
        "Job 3 found in LBA 0 what job 1 had left there, though job 2 had put other data there since.",
        """job 1 comes before job 2 in LBA 0: a Deallocate that had ended at 4 isn't done after a later write, and job 2 began at 5
job 3 found in LBA 0 what nobody can have left there
""",
    ),
    (
        DEALLOCATED,
        contradiction(conclusion=nobody(3)),
        (3,),
        "Job 3 found in LBA 0 what job 1 had left there, though job 2 had put other data there since.",
        "job 3 found in LBA 0 what nobody can have left there\n",
    ),
    (DEALLOCATED, contradiction(fact(1, 1, 0, 0)), "unrefuted FactWrong fact 0"),
    (
        OWN,
        contradiction(fact(2, 1, 1), conclusion=nobody(0, 1)),
        (0,),
        "Job 0 found in LBA 1 bytes that no other command put there.",
        "job 0's Compare comes before its Write in LBA 1\njob 0's Compare found in LBA 1 what nobody can have left there\n",
    ),
    (OWN, contradiction(fact(2, 1, 1), conclusion=nobody(0, 0)), NOTHING),
    (OWN, contradiction(fact(2, 0, 1)), "unrefuted FactWrong fact 0"),
    (
        UNKNOWN,
        contradiction(at_first(0), conclusion=nobody(1)),
        (0, 1),
        "Job 1 found in LBA 0 bytes that no other command put there.",
        "job 0 found in LBA 0 what was there at first: nobody else can have left that\njob 1 found in LBA 0 what nobody can have left there\n",
    ),
    (
        UNKNOWN,
        contradiction(conclusion=nobody(1)),
        (1,),
        "Job 1 found in LBA 0 bytes that no other command put there.",
        "job 1 found in LBA 0 what nobody can have left there\n",
    ),
    (
        TORN,
        contradiction(first(1, 0, 1), TIED_BEFORE, source(0, 1)),
        (0, 1),
        "Job 1 found job 0 half done: what it put was in LBA 0, and not in LBA 1.",
        """job 1 comes before job 0 in LBA 1: job 1 found the zeroes there that were in LBA 1 at first, and nobody can have left zeroes there
job 1 comes before job 0 in LBA 0: it does in LBA 1, and job 0 put both at one moment
job 0 comes before job 1 in LBA 0: only job 0 can have put what job 1 found there
so job 0 comes before itself
""",
    ),
    (
        TORN,
        contradiction(source(0, 1), TIED_AFTER, first(1, 0, 1)),
        (0, 1),
        "Job 1 found job 0 half done: what it put was in LBA 0, and not in LBA 1.",
        """job 0 comes before job 1 in LBA 0: only job 0 can have put what job 1 found there
job 0 comes before job 1 in LBA 1: it does in LBA 0, and job 0 put both at one moment
job 1 comes before job 0 in LBA 1: job 1 found the zeroes there that were in LBA 1 at first, and nobody can have left zeroes there
so job 1 comes before itself
""",
    ),
    (TORN, contradiction(first(1, 0, 1), TIED_BEFORE, source(0, 1), held=BY_BLOCKS), "unrefuted FactWrong fact 1"),
    (
        BLIND,
        contradiction(conclusion=nowhere(0)),
        (0,),
        "Job 0 failed to compare, though each of its blocks held what it compared.",
        "job 0 failed to compare, and found in none of its blocks anything but what it compared\n",
    ),
    (BLIND.replace("1024*00", "512*00,512*41"), contradiction(conclusion=nowhere(0)), NOTHING),
]
# A fact of each kind, about a point 258 at a block 0, where no two numbers are the same; where its fields begin behind the name, and its end.
NUMBERS = (4, 3, 2, 3, 4, 4, 3, 2, 4, 4)
EACH = contradiction(*(fact(kind, *range(10 * kind + 3, 10 * kind + 3 + count)) for kind, count in enumerate(NUMBERS)), conclusion=nobody(2))
FACTS = [24 + sum(1 + 4 * it for it in NUMBERS[:kind]) for kind in range(len(NUMBERS))]
FIELDS = [4, 5, 6, 7, 8, 12, 16, *(at for start, count in zip(FACTS, NUMBERS) for at in (start, *range(start + 1, start + 1 + 4 * count, 4)))]
# What the file is refused for where other bytes stand at an offset: kinds that there are not, kinds of facts of other lengths, and other numbers of
# facts. One of very many takes no memory.
UNREAD = [
    *((4, bytes([kind]), "bad value at 4") for kind in (0, 1, 3, 255)),
    (5, b"\4", "bad value at 5"),
    (6, b"\3", "bad value at 6"),
    (7, b"\3", "bad value at 7"),
    # Without a conclusion's numbers the next ones are the number of facts.
    (7, b"\0", "bad value at 16"),
    *((FACTS[-1], bytes([kind]), f"bad value at {FACTS[-1]}") for kind in (10, 255)),
    (FACTS[-1], b"\1", f"trailing at {len(EACH) - 4}"),
    (FACTS[-2], b"\7", f"bad value at {FACTS[-2] + 9}"),
    (16, b"\x09", f"trailing at {FACTS[-1]}"),
    (16, b"\x0b", f"truncated at {len(EACH)}"),
    (16, (2**32).to_bytes(8, "little"), f"truncated at {len(EACH)}"),
    (16, b"\xff" * 8, f"truncated at {len(EACH)}"),
    (len(EACH), b"0", f"trailing at {len(EACH)}"),
]


def trace_of(run, name, text):
    """Keeps the file of a trace's text."""
    run.keep("text.txt", text)
    run.expect(["nvq", "trace", "text.txt", name])


def contradictions(run):
    """The contradiction of a trace is kept, or the order that explains it, and nothing where there is neither. It refutes this trace."""
    run.keep("right.nvt", spelled(TRACE))
    run.keep("wrong.nvt", spelled(WRONG))
    run.keep("kept", b"old")
    for name in ("wrong.nve", "kept"):
        run.expect(["nvq", "certify", "wrong.nvt", "--evidence", name], 2, out=CONTRADICTION, files={name: NOBODY})
    run.keep("kept", b"old")
    for name in ("right.nve", "kept"):
        run.expect(["nvq", "certify", "--evidence", name, "right.nvt"], out=CERTIFIED)
        for judge in ("nvmu", "nvq"):
            run.expect([judge, "witness", "right.nvt", name], out=EXPLAINED)
    contradictions_judged(run)
    contradictions_changed(run)
    contradictions_misplaced(run)
    words_of_refute(run)


def contradictions_judged(run):
    """What contradictions come to against traces that they refute, and against others."""
    refuted = f"refuted commands 1 facts 0 {PROFILE}\n"
    run.expect(["nvmu", "refute", "wrong.nvt", "wrong.nve"], out=refuted)
    run.expect(["nvmu", "refute", "right.nvt", "wrong.nve"], 2, out=f"{NOTHING}\n")
    run.expect(["nvmu", "refute", "-", "wrong.nve"], given=spelled(WRONG), out=refuted)
    run.expect(["nvmu", "refute", "wrong.nvt", "-"], given=NOBODY, out=refuted)
    trace_of(run, "stale.nvt", STALE_TEXT)
    for file, line in STALE:
        run.keep("stale.nve", file)
        is_refuted = line.startswith("refuted")
        run.expect(["nvmu", "refute", "stale.nvt", "stale.nve"], 0 if is_refuted else 2, out=f"{line} {PROFILE}\n" if is_refuted else f"{line}\n")
    for text, file, *said in RULES:
        judged_by_rules(run, text, file, *said)
    # Whatever the file holds, a reply that is wrong by itself refutes its trace.
    trace_of(run, "odd.nvt", ODD)
    run.expect(["nvmu", "refute", "odd.nvt", "wrong.nve"], out="refuted job 0\n")
    # Of a trace of which nothing is known at first nobody can tell what was there.
    trace_of(run, "unknown.nvt", STALE_TEXT.replace("start zeroes", "start unknown").replace("512*41", "512*43"))
    run.keep("stale.nve", contradiction(conclusion=nobody(2, 9)))
    run.expect(["nvmu", "refute", "unknown.nvt", "stale.nve"], out=f"{refuted}")


def judged_by_rules(run, text, file, said, sentence="", lines=""):
    """What a contradiction comes to by its rules: a line, or the jobs that it names and what else is told of it."""
    trace_of(run, "ruled.nvt", text)
    run.keep("ruled.nve", file)
    if not lines:
        run.expect(["nvmu", "refute", "ruled.nvt", "ruled.nve"], 2, out=f"{said}\n")
        run.expect(["nvq", "explain", "ruled.nvt", "ruled.nve"], out=f"{said}\n")
        return
    line = f"refuted commands {len(said)} facts {lines.count(chr(10)) - 1} {PROFILE}\n"
    run.expect(["nvmu", "refute", "ruled.nvt", "ruled.nve"], out=line)
    jobs = "".join(f"job {job} {text.splitlines()[1 + job]}\n" for job in said)
    run.expect(["nvq", "explain", "ruled.nvt", "ruled.nve"], out=f"{line}{sentence}\n{jobs}{lines}")


def contradictions_changed(run):
    """No front of a file is one, nor what is longer. A file of which one byte is another refutes no trace that is explained."""
    trace_of(run, "pair.nvt", PAIR_TEXT)
    run.expect(["nvq", "certify", "--json", "--evidence", "pair.nve", "pair.nvt"], 2, out=run.SOME, files={"pair.nve": PAIR})
    run.expect(["nvmu", "refute", "pair.nvt", "pair.nve"], out=f"refuted commands 2 facts 1 {PROFILE}\n")
    for length in range(len(EACH)):
        run.keep("it", EACH[:length])
        fault = f"truncated at {max(at for at in FIELDS if at <= length)}" if length >= 4 else "bad name"
        run.expect(["nvmu", "refute", "pair.nvt", "it"], 1, err=f"nvmu: contradiction: {fault}\n")
    # The whole file can be read, and the trace has no such points.
    run.keep("it", EACH)
    run.expect(["nvmu", "refute", "pair.nvt", "it"], 2, out="unrefuted FactWrong fact 0\n")
    for at, value, fault in UNREAD:
        run.keep("it", EACH[:at] + value + EACH[at + len(value) :])
        run.expect(["nvmu", "refute", "pair.nvt", "it"], 1, err=f"nvmu: contradiction: {fault}\n")
        # With another kind it may be an order.
        if (at, value) != (4, b"\1"):
            run.expect(["nvq", "explain", "pair.nvt", "it"], 1, err=f"nvq: it: {fault}\n")
    for at in range(len(PAIR)):
        for mask in (0x01, 0x80, 0xFF):
            run.keep("it", PAIR[:at] + bytes([PAIR[at] ^ mask]) + PAIR[at + 1 :])
            for trace, ends in (("right.nvt", (1, 2)), ("pair.nvt", (0, 1, 2))):
                status, _ = run.status_of(["nvmu", "refute", trace, "it"], stdout=subprocess.DEVNULL)
                run.hold(f"byte {at} changed by {mask}, of {trace}", status in ends, True)


def contradictions_misplaced(run):
    """Where evidence can't go is told before the trace is read, and nothing is printed of what couldn't be written."""
    run.expect(["nvq", "certify", "missing", "--evidence", "-"], 1, err="nvq: the evidence can't go to standard output\n")
    for trace, file in (("right.nvt", spelled(TRACE)), ("wrong.nvt", spelled(WRONG))):
        for name in (trace, f"./{trace}"):
            err = told(f"nvq: cannot write {name}", "it is the trace")
            run.expect(["nvq", "certify", trace, "--evidence", name], 1, err=err, files={trace: file})
        with open(os.path.join(run.folder, trace), "rb") as given:
            found = run.status_of(["nvq", "certify", "--evidence", trace, "-"], stdin=given)
        run.hold("standard input is the trace", found, (1, told(f"nvq: cannot write {trace}", "it is the trace").encode()))
        with open(os.path.join(run.folder, "shown"), "wb") as shown:
            found = run.status_of(["nvq", "certify", "--evidence", "shown", trace], stdout=shown)
        run.hold("the evidence > shown", (found, run.kept("shown")), ((1, told("nvq: cannot write shown", IS_OUTPUT).encode()), b""))
        for name, hint in (("missing/evidence", MISSING), (".", FOLDER)):
            run.expect(["nvq", "certify", trace, "--evidence", name], 1, err=told(f"nvq: cannot write {name}", hint))
        with open("/dev/full", "wb") as full:
            found = run.status_of(["nvq", "certify", "--evidence", f"{trace}.nve", trace], stdout=full)
        run.hold("the verdict > /dev/full", found, (1, told("nvq: cannot write -", NO_SPACE).encode()))
    # The evidence was written before.
    run.expect(["nvmu", "witness", "right.nvt", "right.nvt.nve"], out=EXPLAINED)
    with open("/dev/full", "wb") as full:
        found = run.status_of(["nvmu", "refute", "wrong.nvt", "wrong.nvt.nve"], stdout=full)
    run.hold("refuted > /dev/full", found, (1, b"nvmu: cannot write standard output\n"))


def words_of_refute(run):
    for words in ("refute", "refute a", "refute a b c", "refute --strict a b", "refute --evidence a b"):
        run.refuse(["nvmu", *words.split()])
    for words in ("certify --evidence", "certify --evidence a --evidence b c", "certify --record a b", "certify --argument a b", "certify --strict a"):
        run.refuse(["nvq", *words.split()])
    run.expect(["nvmu", "refute", "--help"], out=run.SOME)
    # The trace's faults come first.
    run.keep("it", PAIR)
    run.expect(["nvmu", "refute", "it", "it"], 1, err="nvmu: trace: bad name\n")
    for file in ("wrong.nvt", "-"):
        run.expect(["nvmu", "refute", "wrong.nvt", file], 1, err="nvmu: contradiction: bad name\n")
    for words in ("missing wrong.nve", "wrong.nvt missing", "missing missing"):
        run.expect(["nvmu", "refute", *words.split()], 1, err="nvmu: cannot read missing\n")
    run.expect(["nvmu", "refute", "-", "-"], 1, err="nvmu: cannot read -\n")
    # What the file is, where another is expected.
    hint = "it is a contradiction: nvmu refute TRACE it judges it, nvq explain TRACE it shows it"
    for words in ("list it", "audit it", "certify it", "explain it", "run it"):
        status, said = run.status_of(["nvq", *words.split()], stdout=subprocess.DEVNULL)
        run.hold(f"nvq {words}", (status, said.decode().partition("\n")[2]), (1, f"  {hint}\n"))
    run.keep("it", contradiction())
    run.expect(["nvmu", "witness", "wrong.nvt", "it"], 1, err="nvmu: order: bad value at 4\n")
    run.expect(["nvq", "witness", "wrong.nvt", "it"], 1, err=told("nvq: it: bad value at 4", hint))
