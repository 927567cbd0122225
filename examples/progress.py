"""How far long work is: what the programs show on a terminal while they work, and that nothing is left of it."""

import os
import pty
import subprocess

from host_files import file_of, read, write

TOP = os.path.dirname(os.path.dirname(os.path.realpath(__file__)))
MIB = 1 << 20
# Goes to the front of a terminal's line and clears it.
CLEAR = b"\r\x1b[K"
OPTIONS = "--nsze 65536 --block 512 --nabsn 15 --nabo 0 --nawun 15 --nacwu 3 --workers 2 --limit 100 --out record".split()
RUN = ["nvmu", "run", *OPTIONS, "long.nvq"]
# So many commands, of which 64 write 64 KiB each; and so many units are in the namespace.
JOBS, UNITS = 364, 4_096
# Every so many are told, and 0: a power of two, for at most 128 lines more.
EACH_JOB, EACH_UNIT = 4, 32


def path_of(program):
    return os.path.join(TOP, "crates", program, "out", program)


def shown(folder, program, words, both):
    """What a program writes to a terminal on standard error, and on standard output too where both are one."""
    ours, terminal = pty.openpty()
    with open(os.path.join(folder, "lines"), "wb") as lines:
        begun = subprocess.Popen(
            [program, *words], stdin=subprocess.DEVNULL, stdout=terminal if both else lines, stderr=terminal, cwd=folder
        )
        os.close(terminal)
        found = b""
        try:
            while piece := os.read(ours, 65_536):
                found += piece
        except OSError:
            pass
        os.close(ours)
        return begun.wait(), found


def seen(found):
    """What stands on the terminal in the end."""
    return b"\n".join(line.split(CLEAR)[-1] for line in found.replace(b"\r\n", b"\n").split(b"\n"))


def steps(all_, each, words):
    return [f"nvmu: {count} of {all_} {words}" for count in range(0, all_ + 1, each)]


def mib(size, words, of=""):
    return [f"nvmu: {count}{of} MiB {words}" for count in range(1, size // MIB + 1)]


def progress(run):
    written = [write(128 * at, *[0x41] * 128) for at in range(64)]
    run.keep("long.nvq", file_of(written + [read(at, 1) for at in range(JOBS - 64)]))
    size = len(run.kept("long.nvq"))
    # Each phase in its order. Two threads may tell of their jobs, or of their units, in another order than they did them.
    status, found = shown(run.folder, path_of("nvmu"), RUN[1:], both=False)
    told = [piece.decode() for piece in found.split(CLEAR)]
    phases = [
        mib(size, "read", f" of {-(-size // MIB)}"),
        steps(JOBS, EACH_JOB, "jobs done"),
        steps(UNITS, EACH_UNIT, "units audited"),
        mib(len(run.kept("record")), "written"),
    ]
    ends = [piece for piece in told if piece]
    run.hold("the status of a run on a terminal", status, 0)
    for phase in phases:
        run.hold("a phase on a terminal", sorted(ends[: len(phase)]), sorted(phase))
        ends = ends[len(phase) :]
    run.hold("the line is gone in the end", (ends, told[-1]), ([], ""))
    run.hold("the lines of the run", run.kept("lines").count(b"\n"), JOBS + 1)
    # On one terminal the lines stand as in a file.
    for words in (RUN, ["nvmu", "audit", "record"], ["nvq", "audit", "record"], ["nvq", "audit", "--all", "record"], ["nvq", "explain", "record"], ["nvq", "list", "long.nvq"]):
        program = path_of(words[0])
        alone = subprocess.run([program, *words[1:]], capture_output=True, cwd=run.folder, stdin=subprocess.DEVNULL)
        run.hold(f"{words} says nothing on standard error elsewhere", alone.stderr, b"")
        status, found = shown(run.folder, program, words[1:], both=True)
        run.hold(f"{words} on one terminal", (status, seen(found)), (alone.returncode, alone.stdout))
    # A fault's lines stand alone too.
    run.keep("short", run.kept("record")[:-1])
    for words in (["nvmu", "audit", "short"], ["nvq", "explain", "short"]):
        program = path_of(words[0])
        alone = subprocess.run([program, *words[1:]], capture_output=True, cwd=run.folder, stdin=subprocess.DEVNULL)
        status, found = shown(run.folder, program, words[1:], both=True)
        run.hold(f"{words} on one terminal", (status, seen(found)), (1, alone.stderr))
