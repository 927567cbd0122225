"""Holds the JUnit XML that clients/junit writes, read as XML, to what the programs printed."""

import os
import subprocess
import tempfile
import xml.etree.ElementTree as xml

TOP = os.path.dirname(os.path.dirname(os.path.realpath(__file__)))
HEAD = "trace nsze 32 block 512 nabsn 7 nabo 0 nawun 7 nacwu 7 first 0 start zeroes reads whole\n10 20 1 1 write 0 1 41 = 0/00\n"
WRITTEN = {
    "own.list": "# a list\nwrite 0 1 41 expect 0/00\nread 0 1\ncompare 0 1 42 cid=9 expect 0/00  # which differs\n\nread 32 1 expect 0/80\n",
    "met.list": "read 0 1 expect 0/00\n",
    "bare.list": "read 0 1\n",
    "own.txt": HEAD + "30 40 1 2 read 0 1 = 0/00 41\n",
    "wrong.txt": HEAD + "30 40 1 2 read 0 1 = 0/00 00\n",
}
RUN = "run --nsze 32 --workers 1 --check"
UNMET = "host 1 command 9: compare 0 1 42 cid=9 expect 0/00"
# The words of a call, its status, and each test of the report: its name and how it ended, with the front of its message.
REPORTS = [
    (f"nvq {RUN} met.list", 0, [("host 1 command 1: read 0 1 expect 0/00", None, "")]),
    (f"nvq {RUN} own.list", 2, [("host 1 command 1: write 0 1 41 expect 0/00", None, ""), (UNMET, "failure", "compare expected 0/00 got 2/85"), ("host 1 command 4: read 32 1 expect 0/80", None, "")]),
    (f"nvq {RUN} --record own.list.nvr met.list", 0, [("host 1 command 1: read 0 1 expect 0/00", None, "")]),
    (f"nvq {RUN} bare.list", 0, []),
    ("nvq audit own.list.nvr", 0, [("audit own.list.nvr", None, "")]),
    ("nvmu audit two-owners.nvr", 2, [("audit two-owners.nvr", "failure", "unlawful EntryWrong job 1")]),
    ("nvq certify own.nvt", 0, [("certify own.nvt", None, "")]),
    ("nvq certify --evidence wrong.nve wrong.nvt", 2, [("certify wrong.nvt", "failure", "contradiction commands 2 ")]),
    ("nvmu refute wrong.nvt wrong.nve", 0, [("refute wrong.nvt", None, "")]),
    ("nvmu refute own.nvt wrong.nve", 2, [("refute own.nvt", "failure", "unrefuted NothingContradicted fact -")]),
    ("nvq audit missing.nvr", 1, [("audit missing.nvr", "error", "nvq: ")]),
    (f"nvq {RUN} own.txt", 1, [(f"{RUN} own.txt", "error", "nvq: ")]),
]


def tests_in(path):
    for it in xml.parse(path).getroot().iter("testcase"):
        ended = next(iter(it), None)
        yield it.get("name"), None if ended is None else ended.tag, "" if ended is None else ended.get("message")


def tried():
    """How many reports are as they must be, and how many aren't."""
    passed, failed = 0, 0
    with tempfile.TemporaryDirectory(prefix="reports-") as folder:
        for name, text in WRITTEN.items():
            with open(os.path.join(folder, name), "w") as file:
                file.write(text)
        os.symlink(os.path.join(TOP, "examples", "two-owners.nvr"), os.path.join(folder, "two-owners.nvr"))
        for name in ("own", "wrong"):
            subprocess.run([f"{TOP}/crates/nvq/out/nvq", "trace", f"{name}.txt", f"{name}.nvt"], cwd=folder, check=True)
        for call, status, tests in REPORTS:
            program, *words = call.split()
            program = f"{TOP}/crates/{program}/out/{program}"
            alone = subprocess.run([program, *words], cwd=folder, capture_output=True)
            done = subprocess.run([f"{TOP}/clients/junit", "out.xml", program, *words], cwd=folder, capture_output=True)
            found = list(tests_in(os.path.join(folder, "out.xml")))
            is_told = len(found) == len(tests) and all(a[:2] == b[:2] and a[2].startswith(b[2]) for a, b in zip(found, tests))
            is_right = is_told and done.returncode == status and (done.returncode, done.stdout, done.stderr) == (alone.returncode, alone.stdout, alone.stderr)
            passed, failed = passed + is_right, failed + (not is_right)
            if not is_right:
                print(f"junit {call}: ended with {done.returncode}, reported {found}")
    return passed, failed


if __name__ == "__main__":
    print("{} passed, {} failed".format(*tried()))
