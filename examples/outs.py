"""What stands where the programs write their files, before and after, and what they say where they can't."""

import ctypes
import os
import resource
import shutil
import signal
import socket
import stat
import threading

from hints import (
    FOLDER,
    FORBIDDEN,
    IS_LIST,
    IS_OUTPUT,
    LOOP,
    MISSING,
    NO_FOLDER,
    NO_READER,
    NO_SPACE,
    TOO_LARGE,
    told,
)
from host_files import file_of, write
from recording import OPTIONS, expected, run_words
from records import spelled

REFUSED = (
    "nvq: line 1: expected write, read, compare, zeroes, uncorrectable, dataset, or op- and another opcode in two"
    " hexadecimal digits\n  the line is: walk\n"
)
# What a file holds before the host file of LONG_LIST is written over it, which is longer than what a child with
# `stopped_early` or `killed_early` can write into a file.
OLD = b"old" * 100_000
LONG_LIST = "write 0 1 41\n" * 200
LONG_FILE = file_of([write(0, 0x41)] * 200)
# Stand for what the program writes, and for the front of it that is written before it is stopped.
WHOLE, FRONT = object(), object()
NEW = ("-rw-r--r--", WHOLE)
LIMIT_OF_FILE = 100_000


def obeys_permissions():
    """A child that is root has no right to pass over permissions: PR_CAPBSET_DROP of CAP_DAC_OVERRIDE and CAP_DAC_READ_SEARCH."""
    for right in (1, 2):
        ctypes.CDLL(None).prctl(24, right, 0, 0, 0)


def killed_early():
    """A child is killed as it writes more than so many bytes into a file."""
    resource.setrlimit(resource.RLIMIT_CORE, (0, 0))
    resource.setrlimit(resource.RLIMIT_FSIZE, (LIMIT_OF_FILE, LIMIT_OF_FILE))


def stopped_early():
    """A child can't write more than so many bytes into a file."""
    signal.signal(signal.SIGXFSZ, signal.SIG_IGN)
    killed_early()


def mounted():
    """To a child, `outs/old` is a mount point, a bind mount of the file on itself, where this process may make one."""
    call, own_mounts, private, bind = ctypes.CDLL(None), 0x20000, 0x44000, 0x1000
    if call.unshare(own_mounts) == 0:
        call.mount(b"none", b"/", None, ctypes.c_ulong(private), None)
        call.mount(b"outs/old", b"outs/old", None, ctypes.c_ulong(bind), None)


# What stands in a folder, the OUT there, what stands afterwards, and how the child is run. Where it can't write OUT, the
# third is what it says of that, which is "" where the system has no words for it. A link has what it names, and what is
# neither a file nor a link has nothing. The folder itself is "".
OUTS = [
    # The file appears whole, in place of what stood there and with its permissions.
    ({}, "new", {"new": NEW}, None),
    ({"old": ("-rw-r-----", OLD)}, "old", {"old": ("-rw-r-----", WHOLE)}, None),
    ({"old": ("-rwxrwxrwx", b"")}, "old", {"old": ("-rwxrwxrwx", WHOLE)}, None),
    ({"-": ("-rw-r--r--", OLD)}, "-", {"-": NEW}, None),
    ({"\u00e9" * 127: ("-rw-r--r--", OLD)}, "\u00e9" * 127, {"\u00e9" * 127: NEW}, None),
    # Names beside it that others have stay theirs.
    (
        {".nvm-unfinished-0": ("-rw-------", b"0"), ".nvm-unfinished-1": ("drwxr-xr-x", None)},
        "new",
        {".nvm-unfinished-0": ("-rw-------", b"0"), ".nvm-unfinished-1": ("drwxr-xr-x", None), "new": NEW},
        None,
    ),
    # Or not at all, and nothing is left beside it but by a program that was killed.
    ({}, "new", TOO_LARGE, stopped_early),
    ({"old": ("-rw-r-----", OLD)}, "old", TOO_LARGE, stopped_early),
    ({}, "new", {".nvm-unfinished-0": ("-rw-r--r--", FRONT)}, killed_early),
    (
        {"old": ("-rw-r-----", OLD)},
        "old",
        {"old": ("-rw-r-----", OLD), ".nvm-unfinished-0": ("-rw-r-----", FRONT)},
        killed_early,
    ),
    # What can't be written stays as it was.
    ({"old": ("-r--r--r--", OLD)}, "old", FORBIDDEN, obeys_permissions),
    ({"": ("dr-xr-xr-x", None)}, "new", FORBIDDEN, obeys_permissions),
    ({}, "missing/new", MISSING, None),
    ({"old": ("-rw-r--r--", OLD)}, "old/new", NO_FOLDER, None),
    ({}, "new/", NO_FOLDER, None),
    ({"folder": ("drwxr-xr-x", None)}, "folder", FOLDER, None),
    ({"old": ("srwxr-xr-x", None)}, "old", "", None),
    # A file that can be written but not replaced is written as it stands.
    ({"old": ("-rw-r-----", OLD)}, "old", {"old": ("-rw-r-----", WHOLE)}, mounted),
    (
        {"": ("dr-xr-xr-x", None), "old": ("-rw-r-----", OLD)},
        "old",
        {"": ("dr-xr-xr-x", None), "old": ("-rw-r-----", WHOLE)},
        obeys_permissions,
    ),
    # A link is written through, and stays.
    (
        {"link": ("lrwxrwxrwx", "old"), "old": ("-rw-r-----", OLD)},
        "link",
        {"link": ("lrwxrwxrwx", "old"), "old": ("-rw-r-----", WHOLE)},
        None,
    ),
    ({"link": ("lrwxrwxrwx", "new")}, "link", {"link": ("lrwxrwxrwx", "new"), "new": NEW}, None),
    ({"link": ("lrwxrwxrwx", "link")}, "link", LOOP, None),
    ({"link": ("lrwxrwxrwx", "/dev/null")}, "link", {"link": ("lrwxrwxrwx", "/dev/null")}, None),
    ({"link": ("lrwxrwxrwx", "/dev/full")}, "link", NO_SPACE, None),
]


def make(path, mode, content):
    """Makes what has a mode as `ls -l` writes it."""
    kind = mode[0]
    if kind == "l":
        os.symlink(content, path)
        return
    if kind == "p":
        os.mkfifo(path)
    elif kind == "s":
        with socket.socket(socket.AF_UNIX) as made:
            made.bind(path)
    elif kind == "d":
        os.makedirs(path, exist_ok=True)
    else:
        with open(path, "wb") as file:
            file.write(content)
    os.chmod(path, sum(1 << place for place, letter in enumerate(reversed(mode[1:])) if letter != "-"))


def standing(folder):
    """What stands in a folder, as in OUTS."""
    found = {}
    for name in ["", *os.listdir(folder)]:
        path = os.path.join(folder, name)
        mode = stat.filemode(os.lstat(path).st_mode)
        if mode[0] == "l":
            found[name] = (mode, os.readlink(path))
        elif mode[0] == "-":
            with open(path, "rb") as file:
                found[name] = (mode, file.read())
        else:
            found[name] = (mode, None)
    return found


def resolved(standing_there, whole):
    """The table's names and modes, with what the program writes in the place of what stands for it."""
    contents = {WHOLE: whole, FRONT: whole[:LIMIT_OF_FILE]}
    return {name: (mode, contents.get(content, content)) for name, (mode, content) in standing_there.items()}


def outs(run, program, words, whole):
    """Holds a program that writes a file, of these words and the file's path, to the table."""

    def fault(out, hint):
        # What helps is told by nvq alone.
        return {"status": 1, "err": told(f"{program}: cannot write {out}", hint if program == "nvq" else "")}

    folder = os.path.join(run.folder, "outs")
    open_folder = {"": ("drwxr-xr-x", None)}
    for before, out, after, how in OUTS:
        os.mkdir(folder)
        for name, (mode, content) in sorted({**open_folder, **before}.items(), reverse=True):
            make(os.path.join(folder, name), mode, content)
        is_refused = isinstance(after, str)
        ended = fault(f"outs/{out}", after) if is_refused else {"out": words.shown}
        if how is killed_early:
            ended = {"status": -signal.SIGXFSZ}
        run.expect([program, *words(f"outs/{out}")], preexec_fn=how, **ended)
        wanted = resolved(before if is_refused else after, whole)
        run.hold(f"{program}: outs/{out} after {how}", standing(folder), {**open_folder, **wanted})
        os.chmod(folder, 0o755)
        shutil.rmtree(folder)
    for out, hint in (("/dev/full", NO_SPACE), ("/dev", FOLDER), ("/proc/new", MISSING)):
        run.expect([program, *words(out)], **fault(out, hint))
    run.expect([program, *words("/dev/null")], out=words.shown)
    run.hold("/dev/null", stat.S_ISCHR(os.lstat("/dev/null").st_mode), True)
    # A new file gets the owner of the one that it replaces. Only root can give files to others.
    if os.geteuid() == 0:
        run.keep("owned", OLD)
        os.chown(os.path.join(run.folder, "owned"), 1, 2)
        run.expect([program, *words("owned")], out=words.shown, files={"owned": whole})
        found = os.lstat(os.path.join(run.folder, "owned"))
        run.hold("owned", (found.st_uid, found.st_gid), (1, 2))
        os.remove(os.path.join(run.folder, "owned"))
    # A pipe is read as it is written, and stays.
    pipe, read_there = os.path.join(run.folder, "pipe"), []
    os.mkfifo(pipe)

    def read_pipe():
        with open(pipe, "rb") as file:
            read_there.append(file.read())

    reader = threading.Thread(target=read_pipe, daemon=True)
    reader.start()
    run.expect([program, *words("pipe")], out=words.shown)
    reader.join(60)
    run.hold("pipe", (read_there, stat.S_ISFIFO(os.lstat(pipe).st_mode)), ([whole], True))
    os.remove(pipe)


class Words:
    """The words of a program that writes a file, by the file's path, and what it shows beside it."""

    def __init__(self, words, shown):
        self.words, self.shown = words, shown

    def __call__(self, out):
        return self.words(out)


def outs_of_nvq(run):
    run.keep("long.txt", LONG_LIST)
    outs(run, "nvq", Words(lambda out: ["assemble", "long.txt", out], b""), LONG_FILE)
    # A list that is refused leaves OUT as it was.
    run.keep("kept", OLD)
    run.expect(["nvq", "assemble", "-", "kept"], 1, given=b"walk", err=REFUSED, files={"kept": OLD})


def outs_of_nvmu(run):
    run.keep("long.nvq", LONG_FILE)
    options = {**OPTIONS, "limit": 200}
    record, shown = expected(run, options, ["long.nvq"])
    words = Words(lambda out: run_words(options, "long.nvq", out=out)[1:], shown.encode())
    outs(run, "nvmu", words, spelled(record))
    # A run that ends in a fault leaves REC as it was, and makes none.
    run.keep("kept", OLD)
    run.keep("cut.nvq", LONG_FILE[:700])
    for options, line in ((OPTIONS, "host 1: truncated at 644"), ({**OPTIONS, "nsze": 0}, "geometry: Size")):
        for out in ("kept", "unmade"):
            run.expect(run_words(options, "cut.nvq", out=out), 1, err=f"nvmu: {line}\n", files={"kept": OLD})
        run.hold("no record", os.path.exists(os.path.join(run.folder, "unmade")), False)
    # Files are read, and their faults told, before REC is looked for.
    run.expect(run_words(OPTIONS, "missing", out="missing/record"), 1, err="nvmu: cannot read missing\n")


def without_output():
    """A child has no standard output."""
    os.close(1)


def closed_pipe():
    """A pipe that nobody reads."""
    read, wrote = os.pipe()
    os.close(read)
    return wrote


def shown_nowhere(run):
    """Where standard output takes nothing, the status is 1, a line says so, and the record stands all the same."""
    run.keep("long.nvq", LONG_FILE)
    run.keep("long.txt", LONG_LIST)
    record, _ = expected(run, OPTIONS, ["long.nvq"])
    run.keep("audited", spelled(record))
    ways = [
        ({"stdout": os.open("/dev/full", os.O_WRONLY)}, NO_SPACE),
        ({"stdout": closed_pipe()}, NO_READER),
        ({"preexec_fn": without_output}, ""),
    ]
    for how, hint in ways:
        run.keep("record", b"old")
        line = "nvmu: cannot write standard output\n"
        for words, name in ((run_words(OPTIONS, "long.nvq"), "record"), (["nvmu", "audit", "audited"], "audited")):
            run.hold(f"{words} with {how}", run.status_of(words, **how), (1, line.encode()))
            run.hold(f"{name} with {how}", run.kept(name), spelled(record))
        for words in (["nvmu", "--version"], ["nvmu", "run", "--help"]):
            run.hold(f"{words} with {how}", run.status_of(words, **how), (1, line.encode()))
        line = told("nvq: cannot write standard output", hint)
        for words in (["nvq", "--version"], ["nvq", "--help"]):
            run.hold(f"{words} with {how}", run.status_of(words, **how), (1, line.encode()))
        line = told("nvq: cannot write -", hint)
        for words in (["nvq", "list", "long.nvq"], ["nvq", "assemble", "long.txt", "-"]):
            run.hold(f"{words} with {how}", run.status_of(words, **how), (1, line.encode()))


def outs_that_are_read(run):
    """A file that is read isn't written over: under its path, another path, a link, or as standard input. Nor is standard output's."""
    content, text = file_of([write(0, 0x41)]), b"write 0 1 41\n"
    run.keep("other.nvq", file_of([]))
    run.keep("read.nvq", content)
    run.keep("read.list", text)
    os.link(os.path.join(run.folder, "read.nvq"), os.path.join(run.folder, "hard"))
    os.symlink("read.nvq", os.path.join(run.folder, "soft"))
    files = {"read.nvq": content}
    for out in ("read.nvq", "./read.nvq", os.path.join(run.folder, "read.nvq"), "hard", "soft"):
        run.expect(run_words(OPTIONS, "other.nvq", "read.nvq", out=out), 1, err=f"nvmu: cannot write {out}\n", files=files)
        # What is wrong with the files is told before.
        run.expect(run_words(OPTIONS, "missing", "read.nvq", out=out), 1, err="nvmu: cannot read missing\n", files=files)
    with open(os.path.join(run.folder, "read.nvq"), "rb") as given:
        words = run_words(OPTIONS, "-", out="hard")
        found = run.status_of(words, stdin=given)
        run.hold(f"{words}", found, (1, b"nvmu: cannot write hard\n"))
    run.expect(run_words(OPTIONS, "read.nvq", out="-"), 1, err="nvmu: cannot write -\n")
    run.hold("no file of that name", os.path.exists(os.path.join(run.folder, "-")), False)
    # Nor is the record written over the lines, where standard output goes to a file. It may go to a device.
    for words, line in (
        (run_words(OPTIONS, "read.nvq", out="shown"), "nvmu: cannot write shown\n"),
        (run_words(OPTIONS, "read.nvq", out="./shown"), "nvmu: cannot write ./shown\n"),
        (["nvq", "run", "--record", "shown", "read.list"], told("nvq: cannot write shown", IS_OUTPUT)),
    ):
        with open(os.path.join(run.folder, "shown"), "wb") as shown:
            found = run.status_of(words, stdout=shown)
        run.hold(f"{words} > shown", (found, run.kept("shown")), ((1, line.encode()), b""))
    with open("/dev/null", "wb") as nowhere:
        run.hold("twice nowhere", run.status_of(run_words(OPTIONS, "read.nvq", out="/dev/null"), stdout=nowhere), (0, b""))
    # A device is no file that is read.
    run.expect(run_words(OPTIONS, "read.nvq", out="/dev/null"), out="1 1 write 0/00\nlawful jobs 1 units 4 changes 1 refused 0\n")
    os.remove(os.path.join(run.folder, "soft"))
    os.symlink("read.list", os.path.join(run.folder, "soft"))
    for out in ("read.list", "./read.list", "soft"):
        err = told(f"nvq: cannot write {out}", IS_LIST)
        run.expect(["nvq", "assemble", "read.list", out], 1, err=err, files={"read.list": text})
