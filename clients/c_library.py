"""Proves and links the library for C, over the libraries that `rt ci` or `rt check` built, where they are there, and else over ones that it builds first.

    clients/c_library.py TOP [JOBS]     of the repository, or the copy of one, at TOP; it prints what is wrong, and ends with 1 then

The library lies in crates/nvm_c/out/libnvm_c.a of TOP afterwards.
"""

import contextlib
import os
import shutil
import sys

sys.dont_write_bytecode = True

KIT = os.path.dirname(os.path.dirname(os.path.realpath(shutil.which("rt") or "/rt/rt")))
NAME = "nvm_c"


def built(top, log, jobs=None):
    """The library's path, or None where it isn't built; the log has why."""
    # The kit's own script knows which words a build of a crate has.
    if os.path.join(KIT, "bin") not in sys.path:
        sys.path.insert(0, os.path.join(KIT, "bin"))
    import rtlib

    crate = next(it for it in rtlib.crates_below(top) if it.name == NAME)
    words = ["--jobs", str(jobs or min(4, len(os.sched_getaffinity(0))))]
    os.chdir(crate.folder)
    os.makedirs("out", exist_ok=True)
    for it in [*crate.below(), crate]:
        it.out = log
    with contextlib.redirect_stdout(log):
        below = all(os.path.isdir(it.rlib) or it.build_rlib(words, anew=False) == 0 for it in crate.below())
        return f"{crate.folder}/out/lib{NAME}.a" if below and crate.build_static(words) == 0 else None


if __name__ == "__main__":
    sys.exit(0 if built(os.path.realpath(sys.argv[1]), sys.stdout, *sys.argv[2:3]) else 1)
