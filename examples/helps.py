#!/usr/bin/env python3
"""Holds the help that docs/help keeps to what the built programs print: the scripts nvq and nvmu answer --help from it until the programs are built.
The manual pages in docs/man and the completions in docs/completion are held to what manuals.py derives from that help.

    examples/helps.py --write     writes all of it, the help as the programs print it now
    examples/helps.py --derive    writes what is derived from the help as it stands; no program need be built for that
"""

import glob
import os
import re
import subprocess
import sys

import manuals

TOP = os.path.dirname(os.path.dirname(os.path.realpath(__file__)))
DOCS = os.path.join(TOP, "docs")
COMMAND = re.compile(r"^  ([a-z]+) ", re.MULTILINE)
# What each folder of docs/ must hold.
HELD = {"help": "what the program prints", "man": "what is derived from docs/help", "completion": "what is derived from docs/help"}


def program(name):
    return os.path.join(TOP, "crates", name, "out", name)


def printed(name, *words):
    done = subprocess.run([program(name), *words, "--help"], stdout=subprocess.PIPE, text=True, check=True)
    return done.stdout


def pages():
    """The help of each program and of each of its commands, by its path in docs/."""
    for name in manuals.PROGRAMS:
        whole = printed(name)
        yield f"help/{name}.txt", whole
        for command in COMMAND.findall(whole.partition("Commands:\n")[2].partition("\n\n")[0]):
            if command != "help":
                yield f"help/{name}-{command}.txt", printed(name, command)


def kept(path):
    try:
        with open(os.path.join(DOCS, path)) as file:
            return file.read()
    except FileNotFoundError:
        return None


def held():
    """How many files are as they must be, with how many completions by them and examples in them, and how many aren't."""
    due = {**dict(pages()), **dict(manuals.derived(kept))}
    wrong = [path for path, text in due.items() if kept(path) != text]
    found = {os.path.relpath(it, DOCS) for folder in HELD for it in glob.glob(os.path.join(DOCS, folder, "*"))}
    wrong += sorted(found - set(due))
    for path in wrong:
        print(f"docs/{path} isn't {HELD[os.path.dirname(path)]}; examples/helps.py --write writes it")
    answered, unanswered = manuals.completed(os.path.join(DOCS, "completion"))
    done, undone = manuals.examples_done(program)
    return len(due) - len(wrong) + answered + done, len(wrong) + unanswered + undone


def write(files):
    for path, text in files:
        os.makedirs(os.path.dirname(os.path.join(DOCS, path)), exist_ok=True)
        with open(os.path.join(DOCS, path), "w") as file:
            file.write(text)


def main():
    if sys.argv[1:] not in (["--write"], ["--derive"]):
        sys.exit(__doc__)
    if sys.argv[1] == "--write":
        write(pages())
    write(manuals.derived(kept))


if __name__ == "__main__":
    main()
