#!/usr/bin/env python3
"""Looks at the pages of nvq-view in a browser, Debian's chromium without a window: what a reader finds there, and what filters and jumps do.

A page is opened in a frame of a page of ours, which asks for things as a reader would and writes down what is there then. Where there is no browser, nothing is
looked at, and that is said. As a program it prints how many rows held.
"""

import json
import os
import re
import shutil
import subprocess
import sys
import tempfile

HERE = os.path.dirname(os.path.realpath(__file__))
TOP = os.path.dirname(HERE)
VIEW = os.path.join(TOP, "nvq-view")
NVQ = os.path.join(TOP, "crates", "nvq", "out", "nvq")
SECONDS = 90

HEAD = "trace nsze 32 block 512 nabsn 7 nabo 0 nawun 7 nacwu 3 first 0 start {start} reads whole\n"
STALE = HEAD.format(start="zeroes") + (
    "1 2 1 1 write 9 1 41 = 0/00\n3 4 1 2 write 9 1 42 = 0/00\n5 6 2 1 read 9 1 = 0/00 512*41\n7 - 2 2 write 20 1 43\n"
)
FRESH = STALE.replace("= 0/00 512*41", "= 0/00 512*42")
# A Read and a Write that are under way together: each may be first.
OPEN = HEAD.format(start="unknown") + "1 9 1 1 write 0 2 55 = 0/00\n2 8 2 7 compare 0 1 55 = 2/85\n10 11 2 8 dataset 0+1 deallocate = 0/00\n"

# Two Writes are under way together, and each of two Reads afterwards finds another one of them.
CROSSED = HEAD.format(start="zeroes") + (
    "1 10 1 1 write 8 2 41 = 0/00\n2 10 2 1 write 8 2 42 = 0/00\n11 12 3 1 read 8 1 = 0/00 512*41\n13 14 3 2 read 9 1 = 0/00 512*42\n15 - 2 2 write 20 1 43\n"
)
# Zeroes are put in LBA 9 again and again, then other bytes; and a Read finds zeroes.
LONG = HEAD.format(start="zeroes") + (
    "".join(f"{10 * it} {10 * it + 5} 1 {it} zeroes 8 8 = 0/00\n" for it in range(1, 13))
    + "130 135 2 1 write 9 1 42 = 0/00\n140 145 2 2 read 9 1 = 0/00 512*00\n150 155 1 20 write 20 1 43 = 0/00\n"
)

# What one host asks of our engine, and sees.
OWN = "write 9 1 41\nread 9 1\n"
OWN_SEEN = HEAD.format(start="zeroes").replace("nacwu 3", "nacwu 7") + "1 2 1 1 write 9 1 41 = 0/00\n3 4 1 2 read 9 1 = 0/00 512*41\n"

# What the reader does, and what is written down: the text of elements, and how many there are.
HARNESS = """<!doctype html><meta charset="utf-8"><iframe id="page" style="width:1300px;height:900px"></iframe><pre id="said"></pre><script>
const frame = document.getElementById("page"), said = {};
window.addEventListener("error", (event) => { said.error = event.message; });
const put = () => { document.getElementById("said").textContent = JSON.stringify(said); };
frame.addEventListener("load", () => setTimeout(() => {
  const page = frame.contentDocument, of = (it) => [...page.querySelectorAll(it)].map((e) => e.textContent);
  frame.contentWindow.addEventListener("error", (event) => { said.error = event.message; });
  said.painted = page.documentElement.dataset.painted || null;
  said.verdict = page.getElementById("verdict").textContent;
  said.why = of("#why li, #why p");
  said.labels = of("#labels div");
  said.named = of("#table .named span:first-child");
  said.details = of("#details h2");
  said.only = page.getElementById("only").value;
  said.choices = of("#only option");
  said.seen = page.getElementById("seen").textContent;
  said.bad = of("#why .bad");
  said.folded = of("#why details:not([open]) li");
  said.selected = of('#table [aria-selected="true"] span:first-child');
  const form = page.getElementById("filters"), count = () => page.getElementById("count").textContent;
  said.filtered = {};
  for (const [name, value] of WORDS) {
    form.elements[name].value = value;
    form.dispatchEvent(new Event("input"));
    said.filtered[name] = [count(), of("#table .row span:first-child").slice(1)];
    form.elements[name].value = "";
  }
  form.dispatchEvent(new Event("input"));
  said.all = count();
  form.elements.job.value = "JOB";
  form.dispatchEvent(new Event("input"));
  said.jumped = of("#details h2")[0];
  said.fields = of("#details dt, #details dd");
  said.shown = page.getElementById("only").value;
  frame.contentWindow.dispatchEvent(new Event("beforeprint"));
  said.printed = of("#printed text");
  frame.contentWindow.dispatchEvent(new Event("afterprint"));
  said.unprinted = of("#printed svg");
  form.elements.job.value = "";
  form.dispatchEvent(new Event("input"));
  page.getElementById("only").value = said.only;
  page.getElementById("only").dispatchEvent(new Event("change"));
  said.hash = frame.contentWindow.location.hash;
  page.getElementById("chart").dispatchEvent(new KeyboardEvent("keydown", { key: "n" }));
  said.stepped = of("#details h2")[0];
  page.getElementById("chart").dispatchEvent(new KeyboardEvent("keydown", { key: "0" }));
  put();
}, 300));
frame.src = "PAGE";
</script>"""


class Rows:
    """How many rows held, and which didn't."""

    def __init__(self):
        self.passed = self.failed = 0

    def hold(self, what, found, wanted):
        if found == wanted:
            self.passed += 1
        else:
            self.failed += 1
            print(f"viewed: {what}: {found!r}, and not {wanted!r}")

    def has(self, what, found, wanted):
        self.hold(f"{what}: {wanted!r} in {found!r}", wanted in found, True)


def browser():
    return next(filter(None, map(shutil.which, ("chromium", "chromium-browser", "google-chrome"))), None)


def environment():
    return {**os.environ, "NVQ": NVQ}


def written(words):
    """The exit status of nvq-view, and its line."""
    done = subprocess.run([VIEW, *words], stdin=subprocess.DEVNULL, capture_output=True, text=True, env=environment(), check=False)
    return done.returncode, done.stdout + done.stderr


def looked(folder, page, words, job):
    """What is found in the page where these filters are set one by one, and then a job is asked for."""
    harness = HARNESS.replace("PAGE", page).replace("WORDS", json.dumps(words)).replace("JOB", str(job))
    path = os.path.join(folder, "harness.html")
    with open(path, "w", encoding="utf-8") as file:
        file.write(harness)
    flags = ["--headless=new", "--no-sandbox", "--disable-gpu", "--allow-file-access-from-files", "--virtual-time-budget=6000", f"--user-data-dir={folder}/profile"]
    done = subprocess.run([browser(), *flags, "--dump-dom", f"file://{path}"], capture_output=True, text=True, timeout=SECONDS, check=False)
    found = re.search(r'<pre id="said">(.*?)</pre>', done.stdout, re.DOTALL)
    if not found or not found[1]:
        return {}
    told = found[1].replace("&lt;", "<").replace("&gt;", ">").replace("&amp;", "&")
    return json.loads(told)


def record(rows, folder):
    status, told = written([os.path.join(HERE, "two-owners.nvr"), os.path.join(folder, "page.html")])
    rows.hold("the page of a record", (status, told), (0, ""))
    said = looked(folder, "page.html", [["kind", "read"], ["lba", "0"], ["lba", "9"], ["status", "2/85"]], 3)
    rows.hold("an error in it", said.get("error"), None)
    rows.hold("its verdict", said.get("verdict"), "Not lawful: EntryWrong at job 1, unit 0, place 1")
    rows.hold("its marked job", said.get("named"), ["1"])
    rows.hold("its rows", said.get("labels"), ["worker 0", "unit 0 LBA 0"])
    first = (
        "job 1 (Compare and Write 0+1) compared 00 in byte 0 of LBA 0, which held 01: job 0 had changed that block last. "
        "It was answered 0/00 0/00, and not 2/85 0/09."
    )
    rows.hold("what is wrong, in a sentence", said.get("why", [""])[0], first)
    rows.has("what else the record has, folded", said.get("folded", []), "worker 0 job 1 unit 0 point 1 done")
    rows.hold("how much is in view", said.get("seen"), "2 of 2 rows · 8 of 8 boxes in view")
    rows.hold("the fault in the table", said.get("selected"), ["1"])
    rows.has("on paper", said.get("printed", []), "unit 0 LBA 0")
    rows.hold("after that", said.get("unprinted"), [])
    rows.has("why", said.get("why", []), "first difference: LBA 0 byte 0 compared 00 held 01")
    rows.hold("the job in view", said.get("details"), ["job 1: Compare and Write 0+1"])
    rows.hold("Reads alone", said.get("filtered", {}).get("kind"), ["2 of 4", ["2", "3"]])
    rows.hold("another LBA", said.get("filtered", {}).get("lba"), ["0 of 4", []])
    rows.hold("another status", said.get("filtered", {}).get("status"), ["0 of 4", []])
    rows.hold("without filters", said.get("all"), "4 commands")
    rows.hold("a jump", said.get("jumped"), "job 3: Read 0+1")
    rows.has("who wrote what was read", said.get("fields", []), "LBA 0: job 1 (unit 0 place 1)")
    rows.has("a link with its place", said.get("hash", ""), "job=")


def traces(rows, folder):
    def kept(name, text):
        path = os.path.join(folder, name)
        with open(path, "w", encoding="utf-8") as file:
            file.write(text)
        return path

    page = os.path.join(folder, "page.html")
    rows.hold("the page of a contradiction", written([kept("stale.txt", STALE), page]), (0, ""))
    said = looked(folder, "page.html", [["host", "2"], ["cid", "1"], ["unit", "2"], ["text", "512*42"]], 2)
    rows.hold("an error in it", said.get("error"), None)
    rows.hold("its verdict", said.get("verdict"), "Contradiction: no order of points gives what the hosts of 4 commands saw")
    rows.hold("its commands alone are shown", said.get("only"), "named")
    rows.hold("how much is in view", said.get("seen"), "2 of 2 rows · 3 of 3 boxes in view · 1 other command left out")
    told = said.get("why", [])
    rows.hold("what is wrong, in a sentence", told[:1], ["Job 2 found in LBA 9 what job 0 had left there, though job 1 had put other data there since."])
    rows.hold("its facts", told[1:3], ["job 0 comes before job 1: it had ended at 2, and job 1 began at 3", "job 1 comes before job 2: it had ended at 4, and job 2 began at 5"])
    rows.hold("what is absurd", told[3:4], ["job 2 found in LBA 9 what nobody can have left there"])
    rows.hold("what was done in the block", told[4:7], ["job 0 (Write 9+1) put 512*41", "job 1 (Write 9+1) put 512*42", "job 2 (Read 9+1) found 512*41"])
    rows.hold("what found it, in view", said.get("details"), ["job 2: Read 9+1"])
    rows.hold("its marked commands", said.get("named"), ["0", "1", "2"])
    rows.hold("what is red", said.get("bad"), ["job 2 found in LBA 9 what nobody can have left there"])
    rows.hold("its lanes", said.get("labels"), ["host 1", "host 2"])
    rows.hold("one host", said.get("filtered", {}).get("host"), ["2 of 4", ["2", "3"]])
    rows.hold("one CID", said.get("filtered", {}).get("cid"), ["2 of 4", ["0", "2"]])
    rows.hold("one unit", said.get("filtered", {}).get("unit"), ["1 of 4", ["3"]])
    rows.hold("some data", said.get("filtered", {}).get("text"), ["1 of 4", ["1"]])
    rows.has("who put the same", said.get("fields", []), "LBA 9: job 0 put that")
    rows.hold("the next command", said.get("stepped", "")[:5], "job 2")

    rows.hold("the page of a contradiction with a circle", written([kept("crossed.txt", CROSSED), page]), (0, ""))
    said = looked(folder, "page.html", [], 4)
    rows.hold("an error in it", said.get("error"), None)
    circle = [
        "job 1 comes before job 0 in LBA 8: job 1 put something there, comes before job 2, and job 2 found job 0's data",
        "job 0 comes before job 1 in LBA 9: job 0 put something there, comes before job 3, and job 3 found job 1's data",
    ]
    rows.hold("what leads from a command back to itself", said.get("bad"), [*circle, "so job 0 comes before itself"])
    rows.hold("what found one of them, in view", said.get("details"), ["job 2: Read 8+1"])
    rows.hold("a jump to a command that isn't shown", (said.get("jumped"), said.get("shown")), ("job 4: Write 20+1", "all"))

    rows.hold("the page of an explained trace", written([kept("fresh.txt", FRESH), page]), (0, ""))
    said = looked(folder, "page.html", [["kind", "write"]], 3)
    rows.hold("an error in it", said.get("error"), None)
    rows.hold("its verdict", said.get("verdict"), "Explained: an order of 3 points gives what the hosts of 4 commands saw")
    rows.has("a row for a unit", said.get("labels", []), "unit 1 LBA 8")
    rows.hold("all are shown", said.get("choices"), [])
    rows.has("no end", said.get("fields", []), "7 to no end that was seen")

    said = looked(folder, "page.html", [], 2)
    rows.has("who wrote what was read, by the order", said.get("fields", []), "LBA 9: job 1 (position 1)")
    rows.has("the order, a point a line", said.get("why", []), "position 2 point 2 lba 9 blocks 1 job 2 finds 512*42")

    subprocess.run([NVQ, "run", "--nsze", "32", "--nacwu", "7", "--workers", "1", "--record", os.path.join(folder, "own.nvr"), kept("own.list", OWN)], stdout=subprocess.DEVNULL, check=True)
    rows.hold("the page of a trace by a record", written(["--strict", kept("own.txt", OWN_SEEN), os.path.join(folder, "own.nvr"), page]), (0, ""))
    said = looked(folder, "page.html", [], 1)
    rows.hold("an error in it", said.get("error"), None)
    rows.has("its verdict", said.get("verdict", ""), "Explained: an order of 2 steps in 4 units gives")
    rows.hold("its rows", said.get("labels"), ["host 1", "unit 1 LBA 8"])
    rows.has("who wrote what was read, by the record", said.get("fields", []), "LBA 9: job 0 (unit 1 place 0)")

    rows.hold("the page of a long contradiction", written([kept("long.txt", LONG), page]), (0, ""))
    said = looked(folder, "page.html", [], 14)
    rows.hold("an error in it", said.get("error"), None)
    rows.hold("the others that did something in the block", [it for it in said.get("why", []) if "other commands" in it], ["8 other commands: LBA 9 in the filters lists them"])
    rows.has("the Write before the Read", said.get("why", []), "job 12 (Write 9+1) put 512*42")
    rows.hold("a jump to a command that isn't shown", (said.get("jumped"), said.get("shown")), ("job 14: Write 20+1", "all"))

    rows.hold("the page of a trace from unknown blocks", written([kept("open.txt", OPEN), page]), (0, ""))
    said = looked(folder, "page.html", [["status", "2/85"]], 1)
    rows.hold("an error in it", said.get("error"), None)
    rows.hold("a failed Compare", said.get("filtered", {}).get("status"), ["1 of 3", ["1"]])


def markup(rows, folder):
    """A name that would be markup is text, in the page's title and in its line."""
    name = os.path.join(folder, "<img src=x onerror=alert(1)>\"'&.nvr")
    shutil.copy(os.path.join(HERE, "two-owners.nvr"), name)
    inside = os.path.join(folder, "a<b")
    os.mkdir(inside)
    page = os.path.join(folder, "page.html")
    rows.hold("a page of a file with such a name", written([name, page]), (0, ""))
    with open(page, encoding="utf-8") as file:
        text = file.read()
    rows.hold("no such element", "<img" in text, False)
    closing = os.path.join(folder, "closing")
    os.makedirs(os.path.join(closing, "<"))
    odd = os.path.join(closing, "<", "script>.nvr")
    shutil.copy(os.path.join(HERE, "two-owners.nvr"), odd)
    rows.hold("a page of a file whose path ends a script", written([odd, page]), (0, ""))
    said = looked(folder, "page.html", [], 0)
    rows.hold("its verdict", said.get("verdict"), "Not lawful: EntryWrong at job 1, unit 0, place 1")


def refused(rows, folder):
    """What no page is written of: the line, and that nothing is there."""
    page = os.path.join(folder, "none.html")
    host_file, stale = os.path.join(HERE, "lock-1.nvq"), os.path.join(folder, "stale.txt")
    fresh, evidence, trace = (os.path.join(folder, it) for it in ("fresh.txt", "stale.nve", "stale.nvt"))
    subprocess.run([NVQ, "trace", stale, trace], check=True)
    subprocess.run([NVQ, "certify", "--evidence", evidence, trace], stdout=subprocess.DEVNULL, check=False)
    missing = os.path.join(folder, "missing")
    two = os.path.join(HERE, "two-owners.nvr")
    wrong = os.path.join(folder, "wrong.txt")
    with open(wrong, "w", encoding="utf-8") as file:
        file.write(STALE.replace("1 2 1 1", "0 2 1 1"))
    wrong_pair = os.path.join(folder, "wrong_pair.txt")
    with open(wrong_pair, "w", encoding="utf-8") as file:
        file.write(HEAD.format(start="zeroes") + "1 2 1 1 compare 0 1 00 first + 2 write 0 1 01 second = 0/00 0/09\n")
    for words, line in (
        ([missing, page], f"{missing}: No such file or directory"),
        ([host_file, page], f"{host_file}: no record, trace or evidence; nvq list takes host files, and nvq run command lists"),
        ([evidence, page], "evidence is about a trace: nvq-view TRACE EVIDENCE OUT"),
        ([two, stale, page], "a record is given alone, or after a trace: nvq-view TRACE RECORD OUT"),
        ([fresh, evidence, page], f"{evidence}: unrefuted NothingContradicted fact -: there is no page of that; nvq explain TRACE EVIDENCE says more"),
        (["--strict", stale, page], "--strict is of a trace and a record"),
        ([wrong_pair, page], "contradiction job 0: no device may end a pair so: by the one status the comparison held, and by the other it didn't"),
        ([stale, two, page], f"{two}: unexplained JobDiffers job 0 unit - place -: nvq explain TRACE RECORD says why"),
        ([wrong, page], f"{wrong}: line 2: expected a time from 1 at which it began"),
        (["--strict", two, page], "--strict is of traces"),
        ([two], "expected FILE [FILE] OUT; --help says more"),
        ([two, os.path.join(missing, "out.html")], f"{missing}/out.html: No such file or directory"),
    ):
        rows.hold(f"nvq-view {' '.join(map(os.path.basename, words))}", written(words), (1, f"nvq-view: {line}\n"))
    rows.hold("no page is there", os.path.exists(page), False)
    rows.hold("the page of evidence that is given", written([trace, evidence, page])[0], 0)


def tried():
    """How many rows held, and how many didn't."""
    if not browser():
        print("viewed: left out, since there is no chromium: the pages of nvq-view weren't looked at")
        return 0, 0
    rows = Rows()
    for look in (record, traces, markup):
        with tempfile.TemporaryDirectory(prefix="viewed-") as folder:
            look(rows, folder)
            if look is traces:
                refused(rows, folder)
    return rows.passed, rows.failed


if __name__ == "__main__":
    held, wrong = tried()
    print(f"{held} passed, {wrong} failed")
    sys.exit(1 if wrong or not held else 0)
