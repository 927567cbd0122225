"""The programs that are swept, and the runs of each."""

import os

import calls
import nvmu
import nvq

CRATES = os.path.join(os.path.dirname(os.path.dirname(os.path.realpath(__file__))), "crates")
RUNS = {"nvmu": nvmu.runs, "nvq": nvq.runs, "nvm_calling": calls.calls, "nvm_rows": calls.groups}
# Growths aren't refused to this one.
UNREFUSED = "nvm_calling"


def programs():
    """The crates that are programs."""
    return [it for it in sorted(os.listdir(CRATES)) if os.path.isfile(os.path.join(CRATES, it, "src", "main.rt"))]


def runs_of(program, folder):
    """The runs of a program. What they read is put into a folder of its own below this one."""
    own = os.path.join(folder, f"runs-{program}")
    os.mkdir(own)
    return RUNS[program](own)


def files_in(folder):
    """The bytes of each file in the folder."""
    files = {}
    for name in os.listdir(folder):
        with open(os.path.join(folder, name), "rb") as it:
            files[name] = it.read()
    return files
