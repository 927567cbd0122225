#!/usr/bin/env python3
"""Judges a trace by the library, which is loaded as a shared object: by a record or an order that is to explain it, or by a contradiction that is to refute it.

    clients/judge.py [--strict] LIBRARY witness TRACE RECORD
    clients/judge.py LIBRARY witness TRACE ORDER
    clients/judge.py LIBRARY refute TRACE CONTRADICTION

It prints the line of `nvmu witness` or `nvmu refute`, on standard error and without `nvmu: ` where a file isn't what it should be. It ends with 0
where the record or the order explains the trace, or the contradiction shows that nothing does; with 2 where it doesn't; and else with 1.
"""

import ctypes
import os
import sys

# Codes of include/zalkvorn.h, and the room that each line fits in.
DONE, NO_MEMORY, BAD_RECORD, SHORT_ROOM, UNEXPLAINED, UNREFUTED, BAD_TRACE, BAD_CONTRADICTION, LINE_BYTES = 0, 4, 17, 18, 22, 23, 24, 25, 128
CALLS = {"witness": "zk_witness", "refute": "zk_refute"}


def judge(library, name, trace, other, strict=False, room=LINE_BYTES):
    """The code that zk_witness or zk_refute returns for the bytes of a trace's file and of the other file, and its line."""
    call = getattr(ctypes.CDLL(os.path.abspath(library)), CALLS[name])
    file, how = [ctypes.c_char_p, ctypes.c_size_t], [strict] if name == "witness" else []
    call.argtypes = [*file, *file, *[ctypes.c_bool] * len(how), ctypes.c_char_p, ctypes.c_size_t]
    line = ctypes.create_string_buffer(room)
    return call(trace, len(trace), other, len(other), *how, line, room), line.value.decode()


def main():
    words = [word for word in sys.argv[1:] if word != "--strict"]
    is_strict = "--strict" in sys.argv
    if len(words) != 4 or words[1] not in CALLS or is_strict and words[1] != "witness":
        sys.exit(__doc__)
    library, name, *paths = words
    files = []
    for path in paths:
        with open(path, "rb") as file:
            files.append(file.read())
    code, line = judge(library, name, *files, strict=is_strict)
    if code == NO_MEMORY:
        line = "no memory\n"
    print(line, end="", file=sys.stdout if code in (DONE, UNEXPLAINED, UNREFUTED) else sys.stderr)
    return {DONE: 0, UNEXPLAINED: 2, UNREFUTED: 2}.get(code, 1)


if __name__ == "__main__":
    sys.exit(main())
