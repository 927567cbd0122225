"""Orders of points: what `nvmu witness` and `nvq explain` say of their files and of others, and a reply that is wrong by itself.

The files were worked out by hand, by the tables of docs/FORMATS.md.
"""

import os
import subprocess
import tempfile

HERE = os.path.dirname(os.path.realpath(__file__))
TOP = os.path.dirname(HERE)
PROGRAMS = {name: os.path.join(TOP, "crates", name, "out", name) for name in ("nvq", "nvmu")}
HELD = ("atomic", "atomic-all", "whole", "by-blocks")
DEALLOCATED = ("zeroes", "ones", "either")
# What is put where something is placed.
AS_IS, ZEROES, ONES, MARK = b"\0", b"\1", b"\2", b"\4"
END = 2**64 - 1


def number(value, size=4):
    return value.to_bytes(size, "little")


def these(content):
    return b"\3" + number(len(content), 8) + content


def placed(point, value=AS_IS, first=0, blocks=1):
    return number(point) + number(first) + number(blocks) + value


def at_first(block, content):
    return number(block) + content


def order(*points, firsts=(), held="atomic", deallocated="either"):
    """The bytes of an order's file."""
    profile = bytes([HELD.index(held), DEALLOCATED.index(deallocated)])
    return b"NVE1\1" + profile + number(len(firsts), 8) + b"".join(firsts) + number(len(points), 8) + b"".join(points)


# A block is written, deallocated, and found as it was written. The points are the Write's, the Deallocate's and the Read's.
KEPT = """trace nsze 32 block 512 nabsn 7 nabo 0 nawun 7 nacwu 3 first 0 start zeroes reads whole
10 20 1 1 write 0 1 41 = 0/00
30 40 1 2 dataset 0+1 deallocate = 0/00
50 60 1 3 read 0 1 = 0/00 41
"""
# Nobody knew what was there. A Read found it, a Deallocate cleared it, and another command then wrote.
UNKNOWN = """trace nsze 32 block 512 nabsn 7 nabo 0 nawun 7 nacwu 3 first 0 start unknown reads by-blocks
10 20 1 1 read 0 1 = 0/00 41
30 40 1 2 dataset 0+1 deallocate = 0/00
50 60 1 3 write 0 1 42 = 0/00
"""
# A Write of two blocks within its limits, and a Read beside it.
TORN = """trace nsze 32 block 512 nabsn 7 nabo 0 nawun 7 nacwu 3 first 0 start zeroes reads whole
10 40 1 1 write 0 2 41 = 0/00
20 30 2 1 read 0 2 = 0/00 512*41,512*00
"""
# A pair above its limit: what each of its blocks puts comes after what it finds.
SERVED = """trace nsze 32 block 512 nabsn 7 nabo 0 nawun 7 nacwu 0 first 0 start zeroes reads whole
10 20 1 1 compare 0 2 00 first + 2 write 0 2 00 second = 0/00 0/00
"""
# A pair whose statuses contradict each other.
WRONG = """trace nsze 32 block 512 nabsn 7 nabo 0 nawun 7 nacwu 3 first 0 start zeroes reads whole
10 20 1 1 write 0 1 41 = 0/00
30 40 1 2 compare 0 1 41 first + 3 write 0 1 42 second = 2/85 0/00
"""
FORTY_ONE = at_first(0, these(b"\x41" * 512))

# Of a trace, an order's file and the line of a witness.
WITNESSED = [
    (KEPT, order(placed(0), placed(2)), "explained jobs 3 points 2 reads atomic deallocated either"),
    (KEPT, order(placed(0), placed(2), held="by-blocks", deallocated="zeroes"), "explained jobs 3 points 2 reads by-blocks deallocated zeroes"),
    (KEPT, order(placed(0), placed(2), placed(1, ONES)), "explained jobs 3 points 3 reads atomic deallocated either"),
    (KEPT, order(placed(0), placed(2), placed(1, ONES), deallocated="zeroes"), "unexplained Misplaced position 2"),
    (KEPT, order(placed(0), placed(2), placed(1)), "unexplained Misplaced position 2"),
    (KEPT, order(placed(0), placed(2), placed(1, MARK)), "unexplained Misplaced position 2"),
    (KEPT, order(placed(0), placed(1, ZEROES), placed(2)), "unexplained FindsOther position 2"),
    (KEPT, order(placed(2), placed(0)), "unexplained TimeBack position 1"),
    (KEPT, order(placed(0)), "unexplained Absent point 2"),
    (KEPT, order(placed(0), placed(0), placed(2)), "unexplained DoneAgain position 1"),
    (KEPT, order(placed(0), placed(2), placed(3)), "unexplained Misplaced position 2"),
    (KEPT, order(placed(0, blocks=2), placed(2)), "unexplained Misplaced position 0"),
    (KEPT, order(placed(0, blocks=0), placed(2)), "unexplained Misplaced position 0"),
    (KEPT, order(placed(0), placed(2), firsts=[at_first(5, ZEROES)]), "unexplained FirstWrong place 0"),
    (UNKNOWN, order(placed(0), placed(2), firsts=[FORTY_ONE]), "explained jobs 3 points 2 reads atomic deallocated either"),
    (UNKNOWN, order(placed(0), placed(1, ZEROES), placed(2), firsts=[FORTY_ONE]), "explained jobs 3 points 3 reads atomic deallocated either"),
    (UNKNOWN, order(placed(0), placed(2), placed(1, ZEROES), firsts=[FORTY_ONE]), "unexplained DeallocatesLate position 2"),
    (UNKNOWN, order(placed(0), placed(2), firsts=[at_first(0, ONES)]), "unexplained FindsOther position 0"),
    (UNKNOWN, order(placed(0), placed(2), firsts=[FORTY_ONE, at_first(0, ONES)]), "unexplained FindsOther position 0"),
    (UNKNOWN, order(placed(0), placed(2), firsts=[FORTY_ONE, at_first(1, these(b"\x41" * 511))]), "unexplained FirstWrong place 1"),
    (UNKNOWN, order(placed(0), placed(2), firsts=[at_first(32, MARK)]), "unexplained FirstWrong place 0"),
    # The Read's blocks may be done one by one, but no Write that has both of them comes between.
    (TORN, order(placed(1, first=1), placed(0, blocks=2), placed(1, first=0)), "unexplained Between position 1"),
    (TORN, order(placed(1, first=1), placed(0, blocks=2), placed(1, first=0), held="by-blocks"), "explained jobs 2 points 3 reads by-blocks deallocated either"),
    (TORN, order(placed(0), placed(1, blocks=2)), "unexplained Misplaced position 0"),
    (SERVED, order(placed(0, blocks=2), placed(1, blocks=2)), "explained jobs 1 points 2 reads atomic deallocated either"),
    (SERVED, order(placed(0), placed(1), placed(0, first=1), placed(1, first=1)), "explained jobs 1 points 4 reads atomic deallocated either"),
    (SERVED, order(placed(1, blocks=2), placed(0, blocks=2)), "unexplained TooEarly point 1"),
    (WRONG, order(placed(0)), "unexplained Wrong job 1"),
]

# The example of docs/FORMATS.md, and what `nvq explain` says of it.
EXAMPLE = order(placed(0), placed(2))
STORY = """explained jobs 3 points 2 reads atomic deallocated either
position 0 point 0 lba 0 blocks 1 job 0 puts 512*41
position 1 point 2 lba 0 blocks 1 job 2 finds 512*41
"""
UNKNOWN_STORY = """explained jobs 3 points 3 reads atomic deallocated either
at first lba 0 512*41
position 0 point 0 lba 0 blocks 1 job 0 finds 512*41
position 1 point 1 lba 0 blocks 1 job 1 deallocates to ones
position 2 point 2 lba 0 blocks 1 job 2 puts 512*42
"""
FULL = order(placed(0), placed(1, ONES), placed(2), firsts=[FORTY_ONE])
TOLD_WRONG = """contradiction job 1
job 1 30 40 1 2 compare 0 1 512*41 first + 3 write 0 1 512*42 second = 2/85 0/00
no device may end a pair so: by the one status the comparison held, and by the other it didn't
"""


def cut_at(length):
    """Where the field begins that isn't whole in a front of FULL of so many bytes."""
    fields = [4, 5, 6, 7, 15, 19, 20, 28, 540, 548, 552, 556, 560, 561, 565, 569, 573, 574, 578, 582, 586]
    return max(it for it in fields if it <= length)


# Files that hold no order, and the line of `nvmu`.
UNREAD = [
    *((FULL[:length], f"truncated at {cut_at(length)}") for length in range(4, len(FULL))),
    (FULL + b"\0", f"trailing at {len(FULL)}"),
    *((FULL[:4] + kind + FULL[5:], "bad value at 4") for kind in (b"\0", b"\3", b"\xff")),
    (FULL[:5] + b"\4" + FULL[6:], "bad value at 5"),
    (FULL[:6] + b"\3" + FULL[7:], "bad value at 6"),
    # A block that held at first what the table says is none, nor is a fifth kind of content.
    (FULL[:19] + b"\0" + FULL[20:], "bad value at 19"),
    (FULL[:560] + b"\5" + FULL[561:], "bad value at 560"),
    (FULL[:20] + number(END, 8) + FULL[28:], "truncated at 28"),
    (FULL[:540] + number(END, 8) + FULL[548:], "truncated at 587"),
    (FULL[:7] + number(END, 8) + FULL[15:], "bad value at 544"),
]


class Wrong(Exception):
    """What is wrong with an answer."""


def hold(told, found, wanted):
    if found != wanted:
        raise Wrong(f"{told}: found {found!r} in place of {wanted!r}")


def answer(folder, name, *words):
    """The status of a program, what it prints, and its standard error."""
    done = subprocess.run([PROGRAMS[name], *words], stdin=subprocess.DEVNULL, capture_output=True, cwd=folder, timeout=120)
    return done.returncode, done.stdout.decode(), done.stderr.decode()


def write(folder, name, held):
    with open(os.path.join(folder, name), "wb") as file:
        file.write(held if isinstance(held, bytes) else held.encode())


def traced(folder, text):
    write(folder, "seen.txt", text)
    hold("nvq trace", answer(folder, "nvq", "trace", "seen.txt", "seen.nvt"), (0, "", ""))


def witnessed(folder):
    """What a witness says of each order, and its exit status."""
    for text, held, line in WITNESSED:
        traced(folder, text)
        write(folder, "held.nve", held)
        status = 0 if line.startswith("explained") else 2
        hold("witness", answer(folder, "nvmu", "witness", "seen.nvt", "held.nve"), (status, f"{line}\n", ""))
        yield


def unread(folder):
    """What is said of files that hold no order."""
    traced(folder, UNKNOWN)
    for held, line in UNREAD:
        write(folder, "held.nve", held)
        hold(f"{len(held)} bytes", answer(folder, "nvmu", "witness", "seen.nvt", "held.nve"), (1, "", f"nvmu: order: {line}\n"))
        status, shown, said = answer(folder, "nvq", "explain", "seen.nvt", "held.nve")
        hold("explain", (status, shown, said.splitlines()[0]), (1, "", f"nvq: held.nve: {line}"))
        yield
    # Another version is no order, and an order isn't judged strictly.
    for held, words in ((b"NVE2" + FULL[4:], ()), (FULL, ("--strict",)), (FULL[:3], ())):
        write(folder, "held.nve", held)
        hold("no record", answer(folder, "nvmu", "witness", *words, "seen.nvt", "held.nve"), (1, "", "nvmu: record: bad name\n"))
        yield


def shown(folder):
    """What `nvq explain` shows of an order, and what is said where another file is expected."""
    for text, held, story in ((KEPT, EXAMPLE, STORY), (UNKNOWN, FULL, UNKNOWN_STORY), (WRONG, EXAMPLE, "unexplained Wrong job 1\n")):
        traced(folder, text)
        write(folder, "held.nve", held)
        hold("explain", answer(folder, "nvq", "explain", "seen.nvt", "held.nve"), (0, story, ""))
        yield
    hint = "  held.nve is an order: nvmu witness TRACE held.nve judges a trace by it, nvq explain TRACE held.nve shows it\n"
    for words in (("list", "held.nve"), ("audit", "held.nve"), ("certify", "held.nve"), ("explain", "held.nve"), ("run", "held.nve")):
        status, _, said = answer(folder, "nvq", *words)
        hold(f"nvq {words[0]}", (status, said[said.index("\n") + 1 :]), (1, hint))
        yield


def replied(folder):
    """A reply that no device may give."""
    traced(folder, WRONG)
    hold("certify", answer(folder, "nvq", "certify", "seen.nvt"), (2, TOLD_WRONG, ""))
    hold("object", answer(folder, "nvq", "certify", "--json", "seen.nvt"), (2, '{"verdict":"contradiction","rule":"wrong reply","job":1}\n', ""))
    yield


def tried():
    """How many answers are as they must be, and how many aren't."""
    passed, failed = 0, 0
    for table in (witnessed, unread, shown, replied):
        with tempfile.TemporaryDirectory(prefix="ordered-") as folder:
            try:
                for wrong in table(folder):
                    passed, failed = passed + (wrong is None), failed + (wrong is not None)
                    if wrong:
                        print(wrong)
            except (Wrong, OSError, subprocess.SubprocessError, ValueError, IndexError, KeyError) as fault:
                failed += 1
                print(f"{table.__name__}: {fault}")
    return passed, failed
