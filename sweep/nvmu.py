"""The runs of the program nvmu that are swept."""

import os
import random

from audits import audits
from cases import Recording, Run
from host_files import compare, dataset, file_of, mixed, pair, read, uncorrectable, unknown, write, zeroes
from model import Namespace
from witnesses import witnesses

# Units of 8 blocks, the first of which has 3.
EIGHTS = {"nabsn": 7, "nabo": 3}
LAST = 2**64 - 1
LIST = b"write 0 1 41\nread 0 1\n"

# What stands where the record is written.
BEFORE = {Recording.name: b"old" * 10}


def words(paths, out=Recording.name, **changed):
    """The command line of a run of these files on 32 blocks, but for the changed options."""
    options = {"nsze": 32, "block": 512, "nabsn": 0, "nabo": 0, "nawun": 7, "nacwu": 3, "workers": 1, "limit": 100}
    options.update(changed)
    given = [word for name in options for word in (f"--{name}", str(options[name]))]
    return ["run", *given, "--out", out, *paths]


def single_commands():
    """Each command, in one unit and over several, and each check; with the marks and differences that
    decide them."""
    return file_of([
        read(0, 32),
        write(0, 0x41),
        write(1, 0x42, 0x43, 0x44),
        read(0, 5),
        compare(0, 0x41, 0x42),
        compare(0, 0x41, 0x41),
        compare(2, *[0x43, 0x44] + [0] * 16),
        unknown(0, 1),
        # Each has the reasons that are looked for later, too.
        unknown(40, 1, fuse=3, nsid=2),
        read(40, 1, fuse=3, nsid=2),
        compare(40, 0x45, fuse=2, nsid=2),
        write(40, 0x45, fuse=1, nsid=2),
        write(40, 0x46, nsid=2),
        read(0, 1, fuse=3),
        compare(0, 0x45, fuse=2),
        write(0, 0x45, fuse=1),
        write(0, 0x46, nsid=2),
        read(31, 2),
        write(LAST, 0x47, 0x48),
        write(30, 0x49, 0x4A),
        uncorrectable(9, 4),
        read(8, 6),
        read(2, 8),
        compare(8, 0, 0),
        compare(2, *[0] * 8),
        zeroes(11, 10),
        read(11, 20),
        write(2, *range(0x50, 0x5C)),
        read(0, 32),
        write(0, 0x4D, end=b"\x4e"),
        compare(0, 0x4D),
        read(0, 1),
        zeroes(0, 32),
        uncorrectable(31, 1),
        read(0, 31),
        read(0, 32),
    ])


def pairs():
    """Pairs that hold, pairs that don't, each check, and strays."""
    return file_of([
        write(0, 0x41),
        *pair(compare(0, 0x41), write(0, 0x42)),
        *pair(compare(0, 0x41), write(0, 0x43)),
        *pair(compare(0, 0x42, end=b"\x43"), write(0, 0x44)),
        *pair(compare(4, 0, 0, 0, 0), write(4, 0x45, 0x46, 0x47, 0x48)),
        read(0, 12),
        uncorrectable(20, 1),
        *pair(compare(19, 0x49, 0), write(19, 0x49, 0x4A)),
        *pair(compare(21, 0), write(21, 0x4B)),
        *pair(write(0, 0x4C), compare(0, 0x4C)),
        *pair(read(0, 1), zeroes(0, 1)),
        *pair(compare(0, 0x42, nsid=2), write(0, 0x4D)),
        *pair(compare(0, 0x42), write(0, 0x4D, nsid=0)),
        *pair(compare(0, 0x42), write(1, 0x4D)),
        *pair(compare(1, 0), write(1, 0x4D, 0x4D)),
        *pair(compare(31, 0, 0), write(31, 0x4E, 0x4F)),
        # Each has the reasons that are looked for later, too.
        *pair(write(40, *[0] * 9), compare(41, 0, nsid=2)),
        *pair(compare(40, *[0] * 9), write(41, 0, nsid=2)),
        *pair(compare(40, *[0] * 9), write(41, *[0] * 9)),
        *pair(compare(28, *[0] * 9), write(28, *[0] * 9)),
        *pair(compare(12, *[0] * 5), write(12, *[0x50] * 5)),
        *pair(compare(10, 0, 0), write(10, 0x51, 0x52)),
        compare(0, 0x42, fuse=1),
        *pair(compare(0, 0x42), write(0, 0x53)),
        write(0, 0x54, fuse=2),
        *pair(compare(0, 0x53), unknown(0, 1)),
        write(0, 0x54, fuse=2),
        *pair(compare(30, 0, 0), write(30, 0x55, 0x56)),
        read(0, 8),
        read(8, 8),
        read(16, 4),
        read(21, 11),
        compare(0, 0x53, fuse=1),
    ])


def wide_commands():
    """Changes and looks of several units, each with a look at all that it can have left."""
    return file_of([
        write(5, *range(1, 15)),
        read(0, 32),
        zeroes(8, 8),
        read(0, 32),
        uncorrectable(10, 20),
        read(0, 10),
        read(30, 2),
        write(9, *range(0x20, 0x35)),
        read(0, 32),
        compare(3, *[0, 0, 1, 2, 3, 0], *range(0x20, 0x2A)),
        compare(3, *[0, 0, 1, 2, 3, 0], *range(0x20, 0x29), 0),
        *pair(compare(9, 0x20, 0x21), write(9, 0x40, 0x41)),
        zeroes(0, 32),
        read(0, 32),
    ])


def ranges():
    """Dataset Managements: overlapping ranges in any order, empty ones, without the bit, past the end, and in a pair."""
    return file_of([
        write(0, *range(1, 33)),
        uncorrectable(9, 3),
        dataset((6, 4), (30, 2), (0, 1), (7, 2)),
        read(0, 10),
        read(12, 20),
        dataset((12, 20), deallocate=False),
        dataset((10, 2), (3, 0), attributes=0xABCD),
        read(0, 32),
        dataset((32, 0), (5, 0)),
        dataset((33, 0)),
        dataset((0, 1), (31, 2), deallocate=False),
        dataset((LAST, 2**32 - 1)),
        dataset((0, 1), nsid=2),
        dataset((0, 1), fuse=3),
        *pair(compare(1, 2), dataset((1, 1))),
        *pair(dataset((1, 1)), write(1, 3)),
        dataset(*[(lba, 1) for lba in range(31, -1, -1)] * 8),
        read(0, 32),
    ])


def two_hosts():
    """Two hosts' files, of different lengths, with a pair for a turn."""
    one = [write(0, 0x41), read(0, 2), *pair(compare(0, 0x42), write(0, 0x43)), read(0, 2), uncorrectable(8, 2)]
    other = [write(0, 0x42, 0x61), *pair(compare(1, 0x61), write(1, 0x62)), read(0, 12)]
    return [file_of([*one, zeroes(9, 4), read(0, 8), read(9, 23)]), file_of(other)]


def hosts_apart(count):
    """So many hosts' files, of commands on blocks that no other host names, so that each command has one answer, whatever
    the order in which workers do the hosts' jobs: a Write and a pair of blocks that none of its others name, a Read of one that
    nobody writes, and commands that are refused."""
    return [
        file_of([
            write(4 * host, 0x41 + host),
            *pair(compare(4 * host + 1, 0), write(4 * host + 1, 0x61 + host)),
            read(4 * host + 2, 2),
            *pair(compare(4 * host + 2, 1), write(4 * host + 2, 2)),
            zeroes(4 * count, 1),
            unknown(0, 1),
        ])
        for host in range(count)
    ]


def hosts_of_one_or_two(count):
    """So many hosts' files, by turns of a Write and a Read and of a Read alone."""
    return [file_of([write(host, host), read(0, count)][host % 2 :]) for host in range(count)]


def by_chance(seed):
    """The seed, the files of one host to three, and the options of the namespace for them, all by chance but
    the same each time."""
    dice = random.Random(seed)
    nabsn, nsze = dice.choice([0, 1, 3, 7]), dice.randint(9, 40)
    most = nabsn or 7
    options = {
        "nsze": nsze,
        "nabsn": nabsn,
        "nabo": dice.randint(0, nabsn),
        "nawun": dice.randint(0, most),
        "nacwu": dice.randint(0, most),
        "limit": dice.randint(2, 12),
    }
    hosts = dice.randint(1, 3)
    return seed, [mixed(10 * seed + host, dice.randint(1, 60 // hosts), nsze) for host in range(hosts)], options


def runs(folder):
    def kept(name, file):
        path = os.path.join(folder, name.replace(" ", "-"))
        with open(path, "wb") as it:
            it.write(file)
        return path

    def lines(name, files, workers=1, before=BEFORE, **changed):
        paths = [kept(f"{name}-{host}", file) for host, file in enumerate(files, 1)]
        model = Recording(Namespace(**changed), files, workers)
        return Run(name, "nvmu", words(paths, workers=workers, **changed), before=before, model=model)

    def fault(name, line, paths, hides_wants=False, **changed):
        return Run(name, "nvmu", words(paths, **changed), 1, err=f"nvmu: {line}\n", before=BEFORE, hides_wants=hides_wants)

    def refused(name, given, status=1):
        return Run(name, "nvmu", given, status)

    served = single_commands()
    none = file_of([])
    whole, empty, cut = kept("whole", served), kept("empty", b""), kept("cut", served[:700])
    nothing, text, small = kept("nothing", none), kept("text", LIST), kept("small", file_of([write(0, 0x41)]))
    many = kept("many", b"NVQ1" + file_of([unknown(0, 1)])[4:] * 65_536 + b"0")
    missing = os.path.join(folder, "missing")
    return [
        lines("single commands", [served]),
        lines("single commands and no record before", [served], before={}),
        lines("single commands over units", [served], **EIGHTS),
        lines("a full history", [served], limit=4),
        lines("a history full at once", [served], limit=1),
        lines("full histories of units", [served], **EIGHTS, limit=2),
        lines("pairs", [pairs()], nabsn=7),
        lines("pairs without boundaries, at the limit", [pairs()], limit=3),
        lines("pairs, full at once", [pairs()], nabsn=7, limit=1),
        lines("pairs of a block", [pairs()], nacwu=0, limit=5),
        lines("changes over units", [wide_commands()], **EIGHTS),
        lines("changes over full units", [wide_commands()], **EIGHTS, limit=1),
        lines("changes over units of two", [wide_commands()], nabsn=1, nabo=1, nawun=1, nacwu=1, limit=3),
        lines("ranges", [ranges()]),
        lines("ranges over units", [ranges()], **EIGHTS),
        lines("ranges over units at the limit", [ranges()], **EIGHTS, limit=3),
        lines("a large Read", [file_of([write(60, *range(200)), read(0, 256), read(10, 100)])], nsze=256, nabsn=63),
        lines("two hosts", two_hosts(), nabsn=7),
        lines("two hosts at the limit", two_hosts(), nabsn=7, limit=1),
        lines("sixty-four hosts", hosts_of_one_or_two(64), nsze=64),
        lines("sixty commands", [mixed(1, 60, 32, 4096)], block=4096, limit=15),
        lines("sixty commands over units", [mixed(2, 60, 32)], **EIGHTS, limit=8),
        *(lines(f"by chance, {seed}", files, **options) for seed, files, options in map(by_chance, range(1, 6))),
        lines("two workers", hosts_apart(4), 2, nsze=16, nabsn=3, nawun=3),
        lines("four workers on one unit", hosts_apart(6), 4, nsze=24),
        lines("sixty-four workers", hosts_apart(3), 64, nsze=12, nabsn=7),
        lines("two workers and no commands", [none], 2),
        lines("no commands", [none]),
        lines("no commands of two hosts", [none, none]),
        fault("an empty file", "host 1: bad name", [empty]),
        fault("a list for a host file", "host 1: bad name", [text]),
        fault("blocks of another size", "host 1: truncated at 68", [small], block=4096),
        fault("standard input twice", "cannot read -", ["-", "-"]),
        fault("a record to standard output", "cannot write -", [whole], True, out="-"),
        fault("a record over a host file", f"cannot write {whole}", [nothing, whole], True, out=whole),
        fault("a truncated file", "host 1: truncated at 644", [cut], hides_wants=True),
        fault("too many commands", "host 1: too many commands", [many], hides_wants=True),
        fault("a second host's truncated file", "host 2: truncated at 644", [whole, cut, empty], hides_wants=True),
        fault("sixty-five hosts", "too many hosts", [nothing] * 65, nsze=0),
        fault("a missing file", f"cannot read {missing}", [missing]),
        fault("a second file that is missing", f"cannot read {missing}", [empty, missing], nsze=0),
        fault("a folder", f"cannot read {folder}", [folder]),
        fault("no blocks", "geometry: Size", [empty], nsze=0),
        fault("blocks of 1000 bytes", "geometry: BlockSize", [whole], block=1000),
        fault("too many units", "geometry: TooManyUnits", [whole], nsze=65_536, nabsn=1, nawun=1, nacwu=1),
        fault("a record that can't be written", "cannot write missing/record", [whole], True, out="missing/record"),
        *audits(kept, missing, [served, pairs(), ranges()], none),
        *witnesses(kept),
        refused("help on the witness", ["witness", "--help"], 0),
        refused("an audit of two files", ["audit", "a", "b"]),
        refused("help on the audit", ["audit", "--help"], 0),
        refused("no words", []),
        refused("an unknown option", ["run", "--bogus", "1"]),
        refused("an option that is almost one", ["run", "--nsz", "1"]),
        refused("an unknown word", ["walk"]),
        refused("a missing option", words([whole])[3:]),
        refused("no file", words([])),
        refused("a value out of its range", words([whole], workers=65)),
        refused("no number", words([whole], nsze="x")),
        refused("a word that isn't UTF-8", [b"\xff"]),
        refused("help", ["--help"], 0),
        refused("help on the run", ["run", "--help"], 0),
        refused("the version", ["--version"], 0),
    ]
