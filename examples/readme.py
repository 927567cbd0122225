"""Runs each command that README.md, docs/ and clients/README.md show, with the programs as they were built, and holds what it prints to the text.

A block of indented lines is one of commands where its first line begins with a word of COMMANDS; what the next block of indented
lines shows is what they must print, unless that is one of commands too. A block that begins with a program's name and a colon is
a fault, which they must print on standard error. `...` stands for lines of any number. Commands are run in
a folder of their own, page by page, with `crates` and `examples` in it. Those of APART aren't run, each for the reason that
stands there.
"""

import os
import re
import subprocess
import tempfile

TOP = os.path.dirname(os.path.dirname(os.path.realpath(__file__)))
FAULTS = ("nvq: ", "nvmu: ")
COMMANDS = ("./", "crates/", "examples/", "edits/", "bench/", "sweep/", "fuzz/", "mkdir ", "printf ", "cat > ", "sed 's", "sed -i ", "cp ", "(cd ", "rt ", "git ", "nvq ", "nvq-view ", "nvmu ", "zalkvorn-", "gcc ", "clients/", "apt-get ", "nbdkit ")
# What isn't run as it stands, and what is run in its place: a word of itself, or nothing.
APART = {
    "./test": None,  # the gate, which calls this
    "./package": None,  # clients/check-package tries what it makes
    "./build": None,  # the gate has proved and built all that it would
    "bench/": "--help",  # these take minutes
    "fuzz/": "--help",
    "sweep/many": "--help",
    "./sanitize": "--help",  # this takes minutes, too
    "edits/try": "--help",
    "rt try": None,  # using.py does what that page says
    "gcc ": None,  # the library for C isn't built here; clients/check compiles and links all that these do
    "clients/": None,  # clients/check runs these, and clients/check-nbd and clients/check-soak take long or want packages
    "apt-get ": None,  # clients/check-nbd says what it lacks
    "nbdkit ": None,  # clients/check-nbd runs it
    "./zalkvorn-target": None,  # clients/check-tcp compiles and runs it
}
NOT_APART = ("clients/junit ",)


def blocks(text):
    """The blocks of indented lines outside fences, in their order."""
    text = re.sub(r"^```.*?^```$", "```", text, flags=re.DOTALL | re.MULTILINE)
    found, lines = [], []
    for line in text.split("\n") + [""]:
        if line.startswith("    "):
            lines.append(line[4:])
        elif lines and line.strip():
            found.append("\n".join(lines) + "\n")
            lines = []
        elif lines:
            lines.append("")
    if lines:
        found.append("\n".join(lines) + "\n")
    return [re.sub(r"\n+\Z", "\n", it) for it in found]


def shown(text):
    """Pairs of commands and what they must print, or None where the text doesn't say."""
    found = blocks(text)
    is_command = [it.startswith(COMMANDS) for it in found]
    for place, block in enumerate(found):
        if is_command[place]:
            told = found[place + 1] if place + 1 < len(found) and not is_command[place + 1] else None
            yield block, told


def key_of(line):
    """By which word of APART the line isn't run as it stands."""
    return next((it for it in APART if line.startswith(it) and not line.startswith(NOT_APART)), None)


def is_apart(block):
    """Whether a line of the block isn't run as it stands."""
    return any(key_of(line) for line in block.splitlines())


def to_run(block):
    """The block as what is run of it: lines of APART are left out, or run as that says."""
    kept = []
    for line in block.replace("\\\n", "").splitlines():
        key = key_of(line)
        if key is None:
            kept.append(line)
        elif APART[key]:
            kept.append(f"{os.path.join(TOP, line.split()[0])} {APART[key]} > out/help")
    return "\n".join(kept)


def matches(printed, told):
    """Whether what was printed is what the text shows, in which `...` stands for any lines."""
    pattern = "".join("(?:.*\n)*" if line == "...\n" else re.escape(line) for line in told.splitlines(True))
    return re.fullmatch(pattern, printed) is not None


def held(page, folder):
    """Runs the commands of one page, and says what isn't as the page has it."""
    with open(os.path.join(TOP, page), encoding="utf-8") as file:
        pairs = list(shown(file.read()))
    passed, wrong = 0, []
    for block, told in pairs:
        words = to_run(block)
        if not words:
            continue
        ran = subprocess.run(["bash", "-eo", "pipefail", "-c", words], cwd=folder, stdin=subprocess.DEVNULL, capture_output=True, text=True)
        if told is not None and told.startswith(FAULTS):
            is_told, is_ended = matches(ran.stderr, told), ran.returncode == 1
        else:
            is_told = told is None or is_apart(block) or matches(ran.stdout, told)
            # such a verdict, or an expectation that isn't met, ends with 2, which the page shows by its line
            is_two = ran.stdout.startswith(("unlawful ", "unexplained ", "contradiction ", '{"verdict":"unlawful",')) or "\nunmet " in ran.stdout
            is_ended = ran.returncode == 0 or ran.returncode == 2 and is_two
        if is_told and is_ended:
            passed += 1
        else:
            wrong.append(f"{page}: {block.splitlines()[0]}: ended with {ran.returncode}, printed:\n{ran.stdout}{ran.stderr}")
    return passed, wrong


def pages():
    yield "README.md"
    yield "clients/README.md"
    for folder in ("docs", "bench/figures"):
        for name in sorted(os.listdir(os.path.join(TOP, folder))):
            if name.endswith(".md"):
                yield f"{folder}/{name}"


def tried():
    """Runs the commands of all pages, prints what is wrong, and gives the numbers of those that passed and failed."""
    passed, failed = 0, 0
    for page in pages():
        with tempfile.TemporaryDirectory(prefix="readme-") as folder:
            os.mkdir(os.path.join(folder, "out"))
            for name in ("crates", "crates.txt", "HANDLES", "VERSION", "clients", "docs", "examples", "build", "compile", "nvq", "nvq-view", "nvmu"):
                os.symlink(os.path.join(TOP, name), os.path.join(folder, name))
            right, wrong = held(page, folder)
        for it in wrong:
            print(it)
        passed, failed = passed + right, failed + len(wrong)
    return passed, failed


if __name__ == "__main__":
    print("{} passed, {} failed".format(*tried()))
