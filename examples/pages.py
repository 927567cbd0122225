"""Holds the pages for makers to their callers: crates/NAME/CALLING.md to a module of crates/nvm_calling.

A page names its module in a line of its own, and shows the module's file in the block of code after that line, to the byte. Each
such module is shown by one page, that of the library that it calls. The page's links must lead somewhere.
"""

import os
import re

HERE = os.path.dirname(os.path.realpath(__file__))
CRATES = os.path.join(os.path.dirname(HERE), "crates")
CALLERS = "nvm_calling/src"
SHOWN = re.compile(r"^\[crates/([\w/]+)/(\w+)\.rt\]\(\.\./\1/\2\.rt\):\n\n```rust\n(.*?)^```$", re.MULTILINE | re.DOTALL)
LINK = re.compile(r"\]\(([^)#]+)\)")


def text_of(*path):
    with open(os.path.join(*path)) as file:
        return file.read()


def modules():
    """The modules that pages show: those that are public."""
    return re.findall(r"^pub mod (\w+);$", text_of(CRATES, CALLERS, "main.rt"), re.MULTILINE)


def pages():
    """The page of each library that has one."""
    return {name: text_of(CRATES, name, "CALLING.md") for name in sorted(os.listdir(CRATES)) if os.path.exists(os.path.join(CRATES, name, "CALLING.md"))}


def fault_of(name, page):
    """What is wrong with the page of a library, or None."""
    shown = SHOWN.findall(page)
    if len(shown) != 1 or shown[0][0] != CALLERS:
        return "the page doesn't show just its caller"
    module, text = shown[0][1:]
    if text != text_of(CRATES, CALLERS, f"{module}.rt"):
        return "the page shows another caller than is proved"
    if f"use {name}::" not in text:
        return "the caller that the page shows doesn't call the library"
    for link in LINK.findall(SHOWN.sub("", page)):
        if not os.path.exists(os.path.join(CRATES, name, link)):
            return f"{link} is nowhere"
    return None


def held():
    """How many pages are as they must be, and how many faults there are."""
    found = pages()
    faults = [(f"{name}/CALLING.md", fault_of(name, page)) for name, page in found.items()]
    shown = [module for page in found.values() for _, module, _ in SHOWN.findall(page)]
    faults += [(f"{CALLERS}/{module}.rt", "it isn't shown by just one page") for module in modules() if shown.count(module) != 1]
    faults = [it for it in faults if it[1]]
    for place, fault in faults:
        print(f"{place}: {fault}")
    return len(modules()) - len(faults), len(faults)
