#!/usr/bin/env python3
"""Judges the record of a run by the library, which is loaded as a shared object:

    clients/audit.py LIBRARY RECORD

It prints the line of `nvmu audit RECORD`, on standard error and without `nvmu: ` where the file is no record. It ends with 0 where the
record is lawful, with 2 where it isn't, and else with 1.
"""

import ctypes
import os
import sys

# Codes of include/zalkvorn.h, and the room that each line fits in.
LAWFUL, NO_MEMORY, UNLAWFUL, BAD_RECORD, SHORT_ROOM, LINE_BYTES = 0, 4, 16, 17, 18, 128


def audit(library, record, room=LINE_BYTES):
    """The code that zk_audit answers for the bytes of a record's file, and its line."""
    call = ctypes.CDLL(os.path.abspath(library)).zk_audit
    call.argtypes = [ctypes.c_char_p, ctypes.c_size_t, ctypes.c_char_p, ctypes.c_size_t]
    line = ctypes.create_string_buffer(room)
    return call(record, len(record), line, room), line.value.decode()


def main():
    if len(sys.argv) != 3:
        sys.exit(__doc__)
    with open(sys.argv[2], "rb") as file:
        code, line = audit(sys.argv[1], file.read())
    if code == NO_MEMORY:
        line = "no memory\n"
    print(line, end="", file=sys.stdout if code in (LAWFUL, UNLAWFUL) else sys.stderr)
    return {LAWFUL: 0, UNLAWFUL: 2}.get(code, 1)


if __name__ == "__main__":
    sys.exit(main())
