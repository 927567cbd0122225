#!/usr/bin/env python3
"""Says of the text of a trace how much of it was under way together: a load without that can't show whether a device keeps commands apart.

    clients/nvme-tcp/overlaps.py seen.txt
"""

import heapq
import sys
from collections import defaultdict

LASTS = float("inf")


def ranges_in(words):
    """First blocks and lengths of what a command meets, by its words."""
    if words[0] == "dataset":
        return [tuple(map(int, it.split("+"))) for it in words[1].split(",")]
    return [(int(words[1]), int(words[2]))] if not words[0].startswith("op-") else []


def in_units(lines):
    """The commands of a trace by units: when each begins and ends, and its number. And how many commands there are."""
    found, count, head = defaultdict(list), 0, None
    for line in lines:
        words = line.partition("#")[0].split()
        if not words:
            continue
        if head is None:
            head = dict(zip(words[1::2], words[2::2]))
            size, offset, nsze = int(head["nabsn"]) + 1, int(head["nabo"]), int(head["nsze"])
            continue
        unit_of = lambda lba: 0 if size == 1 or lba < offset else 1 + (lba - offset) // size
        ended = LASTS if words[1] == "-" else int(words[1])
        met = {unit for first, blocks in ranges_in(words[4:]) if blocks for unit in range(unit_of(first), unit_of(min(first + blocks, nsze) - 1) + 1)}
        for unit in met:
            found[unit].append((int(words[0]), ended, count))
        count += 1
    return found, count


def overlaps(lines):
    """How many commands there are, how many of them were under way together with another in a unit, and the most at once in one."""
    units, count = in_units(lines)
    together, most = set(), 0
    for commands in units.values():
        under_way = []
        for began, ended, number in sorted(commands):
            while under_way and under_way[0][0] < began:
                heapq.heappop(under_way)
            heapq.heappush(under_way, (ended, number))
            if len(under_way) > 1:
                together.update(it for _, it in under_way)
            most = max(most, len(under_way))
    return count, len(together), most


def line_of(path):
    with open(path, encoding="ascii") as file:
        return "commands {} together {} most {}".format(*overlaps(file))


if __name__ == "__main__":
    if len(sys.argv) != 2:
        sys.exit(__doc__)
    print(line_of(sys.argv[1]))
