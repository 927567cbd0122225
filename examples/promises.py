"""Holds docs/PROMISES.md to the sources: each clause and each edit that a row names is there, and each edit is named.

A name in the column of clauses is a function, or FUNCTION.CLAUSE where it has several, of the crate whose heading stands above, or a type, a definition of specs/ or a
file; in the column of edits, an edit of edits/. What a clause means, and whether it carries the row's sentence, this doesn't see.
"""

import glob
import os
import re

TOP = os.path.dirname(os.path.dirname(os.path.realpath(__file__)))
KINDS = r"\b(?:fn|struct|enum|trait|record|data|module|ensures) "


def text_of(path):
    with open(path, encoding="utf-8") as it:
        return it.read()


def texts_of(*parts):
    """The joined text of all files below these folders."""
    found = [path for part in parts for path in glob.glob(f"{TOP}/crates/{part}/**/*", recursive=True)]
    return "\n".join(text_of(path) for path in sorted(found) if path.endswith((".rt", ".antt")))


def is_there(name, sources, everywhere):
    """Whether the clause, or what else stands in that column, is there."""
    if re.search(r"\.(rt|antt|py|json)$", name):
        return bool(glob.glob(f"{TOP}/**/{name}", recursive=True))
    if name in os.listdir(f"{TOP}/crates"):
        return True
    called, _, clause = name.partition(".")
    called = called.split("::")[-1]
    if clause:
        # A clause of a function, or a field of a definition.
        return bool(re.search(rf"\b{called}\b", sources) and re.search(rf"\bensures {clause}\b|\b{clause} :", sources))
    return bool(re.search(rf"{KINDS}{called}\b|^(?:abbrev )?(?:pub )?{called} :|^{called}\b|ghost {called}\b", sources + everywhere, re.MULTILINE) or re.search(rf"\b{called}\b", sources))


def faults():
    """What is named and isn't there, and what isn't named."""
    crates, named, page = [], set(), text_of(f"{TOP}/docs/PROMISES.md")
    edits = {os.path.basename(it).removesuffix(".edit") for it in glob.glob(f"{TOP}/edits/*/*.edit")}
    everywhere = texts_of("*/src", "*/specs")
    sources = ""
    for line in page.splitlines():
        if line.startswith("## "):
            crates = [it for it in re.findall(r"\w+", line) if os.path.isdir(f"{TOP}/crates/{it}")]
            sources = texts_of(*(f"{it}/{part}" for it in crates for part in ("src", "specs")))
        named |= edits & set(re.findall(r"`(\w+)`", line))
        cells = [it.strip() for it in re.split(r"(?<!\\)\|", line)[1:-1]]
        if not crates or len(cells) != 3:
            continue
        for name in re.findall(r"`([\w:.]+)`", cells[1]):
            if not is_there(name, sources, everywhere):
                yield f"{crates[0]}: {name} is nowhere"
        for name in re.findall(r"`(\w+)`", cells[2]):
            if name not in edits and not re.search(rf"\b{name}\b", everywhere):
                yield f"{crates[0]}: there is no edit {name}"
    for name in sorted(edits - named):
        yield f"no row names the edit {name}"


def held():
    """1 and 0 where the page is as the sources are, or 0 and how many names aren't."""
    found = list(faults())
    for fault in found:
        print(f"docs/PROMISES.md: {fault}")
    return (0, len(found)) if found else (1, 0)
