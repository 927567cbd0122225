#!/usr/bin/env python3
"""Records a device of your own: does lists of `nvq generate`, each by a thread of its own, and prints the trace of that for `nvq certify`.

    nvq generate --commands 200 --compare 0 --pair 0 --zeroes 0 --uncorrectable 0 1.list 2.list 3.list 4.list
    recorder.py 1.list 2.list 3.list 4.list > seen.txt

Put your device in the place of `Device`, and what it promises in the place of HEAD: `nvq --help` and FORMATS say what the words mean. This one is in memory. It writes and reads a block after the other, and has
no lock, so a Read may find a Write half done, which HEAD says it doesn't.
"""

import sys
import time
from concurrent.futures import ThreadPoolExecutor
from itertools import groupby

BLOCK = 512
HEAD = f"trace nsze 32 block {BLOCK} nabsn 7 nabo 0 nawun 7 nacwu 7 first 0 start zeroes reads atomic"


class Device:
    def __init__(self):
        self.blocks = [bytes(BLOCK)] * 32

    def write(self, lba, data):
        for place in range(len(data) // BLOCK):
            time.sleep(0)
            self.blocks[lba + place] = data[place * BLOCK : (place + 1) * BLOCK]

    def read(self, lba, count):
        found = b""
        for place in range(count):
            time.sleep(0)
            found += self.blocks[lba + place]
        return found


def bytes_of(runs):
    """The bytes that runs say, such as 512*41,512*00."""
    return b"".join(bytes.fromhex(byte) * int(count) for count, byte in (it.split("*") for it in runs.split(",")))


def runs_of(data):
    return ",".join(f"{len(list(run))}*{byte:02x}" for byte, run in groupby(data))


def done(device, words):
    """What came back of a command, as the trace has it."""
    name, lba, count, *data = words.split()
    if name == "write":
        device.write(int(lba), bytes_of(data[0]))
        return "0/00"
    return f"0/00 {runs_of(device.read(int(lba), int(count)))}"


def host(device, number, commands):
    """The lines of a host that sends these commands. A command begins before the device can see it, and ends when all has come back."""
    lines = []
    for cid, words in enumerate(commands, 1):
        began = time.monotonic_ns()
        told = done(device, words)
        ended = time.monotonic_ns()
        lines.append(f"{began} {ended} {number} {cid} {words} = {told}")
    return lines


def commands_of(path):
    with open(path, encoding="ascii") as file:
        commands = file.read().splitlines()
    others = {it.split()[0] for it in commands} - {"write", "read"}
    if others:
        sys.exit(f"recorder.py: {path}: the device has no {' and no '.join(sorted(others))}: have nvq generate leave these out, as by --{min(others)} 0")
    return commands


def main():
    lists = [commands_of(path) for path in sys.argv[1:]]
    if not lists:
        sys.exit(__doc__)
    device = Device()
    with ThreadPoolExecutor(len(lists)) as pool:
        asked = [pool.submit(host, device, number, commands) for number, commands in enumerate(lists, 1)]
        print(HEAD, *(line for it in asked for line in it.result()), sep="\n")


if __name__ == "__main__":
    main()
