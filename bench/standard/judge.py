#!/usr/bin/env python3
"""Judges a trace's text by docs/STANDARD.md, by trying all choices and orders.

    judge.py TRACE [--reads atomic|atomic-all|whole|by-blocks] [--deallocated zeroes|ones|either] [--bound STATES]

prints `explained`, `contradicted` or `too large` and ends with 0, 2 or 3. It was written from that page alone and
shares nothing with the product. Where a word isn't given the head's stands; `whole` of a head is taken for `atomic`.
"""
import argparse
import collections
import itertools
import math
import sys

MARK = "mark"

# What a block may hold: the values of the set, or, where `but` is true, all others.
Contents = collections.namedtuple("Contents", "but values")
ANYTHING = Contents(True, frozenset())
ANY_BYTES = Contents(True, frozenset([MARK]))

Command = collections.namedtuple("Command", "name first count data ranges options")
Job = collections.namedtuple("Job", "number began ended commands statuses data")

# `finds` and `puts` give contents by block. `over` is when the command was over, `ended` when this point's time was.
# `kind` is "read" where clause 4 holds the point, "deallocate", "any number", else "plain".
Point = collections.namedtuple("Point", "job began ended over sure finds puts kind")


def value(*values):
    return Contents(False, frozenset(values))


def other(content):
    return Contents(True, frozenset([content, MARK]))


def overlap(one, two):
    if one.but and two.but:
        return Contents(True, one.values | two.values)
    if one.but:
        return Contents(False, two.values - one.values)
    if two.but:
        return Contents(False, one.values - two.values)
    return Contents(False, one.values & two.values)


# The text


def blocks(word, count, size):
    if "*" not in word:
        return [bytes.fromhex(word) * size] * count
    data = b"".join(bytes.fromhex(run.split("*")[1]) * int(run.split("*")[0]) for run in word.split(","))
    return [data[at : at + size] for at in range(0, count * size, size)]


def command(words, size):
    name, words = words[0], words[1:]
    if name == "dataset":
        ranges = [tuple(map(int, word.split("+"))) for word in words[0].split(",")]
        return Command(name, 0, 0, None, ranges, words[1:])
    count, data = int(words[1]), None
    if name in ("write", "compare"):
        data = blocks(words[2], count, size)
    return Command(name, int(words[0]), count, data, [], words[3 if data else 2 :])


def job(number, words, size):
    asked, told = words, []
    if "=" in words:
        asked, told = words[: words.index("=")], words[words.index("=") + 1 :]
    parts = [list(group) for plus, group in itertools.groupby(asked[3:], "+".__eq__) if not plus]
    commands = [command(part[1:], size) for part in parts]
    statuses = [(int(word.split("/")[0]), int(word.split("/")[1], 16)) for word in told if "/" in word]
    data = [blocks(word, commands[0].count, size) for word in told if "/" not in word]
    ended = math.inf if asked[1] == "-" else int(asked[1])
    return Job(number, int(asked[0]), ended, commands, statuses, data[0] if data else None)


def trace(text):
    lines = [words for words in (line.split("#")[0].split() for line in text.splitlines()) if words]
    head = dict(zip(lines[0][1::2], lines[0][2::2]))
    head = {word: int(said) if said.isdigit() else said for word, said in head.items()}
    return head, [job(number, words, head["block"]) for number, words in enumerate(lines[1:])]


def promised(head):
    """The words of a head for Reads and for deallocated blocks."""
    return "by-blocks" if head["reads"] == "by-blocks" else "atomic", head.get("deallocated", "either")


# The page's table


def unit(head, block):
    if head["nabsn"] == 0 or block < head["nabo"]:
        return 0
    return 1 + (block - head["nabo"]) // (head["nabsn"] + 1)


def kind(status):
    if status == (0, 0):
        return "done"
    if status is None or status[0] == 3 or status in ((0, 0x07), (0, 0x08)):
        return "host"
    if status in ((0, 0x01), (0, 0x02), (0, 0x09), (0, 0x0A), (0, 0x0B), (0, 0x14), (0, 0x80)):
        return "before"
    return "error"


class Table:
    """What each command does: lists of points, of which one is chosen. `None` is a reply that nothing explains."""

    def __init__(self, head, reads, deallocated):
        self.head, self.reads = head, reads
        zeroes, ones = bytes(head["block"]), b"\xff" * head["block"]
        self.zeroes = zeroes
        self.deallocated = {"zeroes": value(zeroes), "ones": value(ones), "either": value(zeroes, ones)}[deallocated]

    def existing(self, command):
        return [block for block in range(command.first, command.first + command.count) if block < self.head["nsze"]]

    def within(self, command, limit):
        units = {unit(self.head, block) for block in self.existing(command)}
        return command.count <= limit + 1 and len(self.existing(command)) == command.count and len(units) == 1

    def point(self, job, finds, puts, sure=True, late=False, over=None, kind="plain"):
        over = job.ended if over is None else over
        return Point(job.number, job.began, math.inf if late else job.ended, over, sure, finds, puts, kind)

    def each(self, job, values, put, **how):
        made = ({block: content} for block, content in values.items())
        return [self.point(job, {}, one, **how) if put else self.point(job, one, {}, **how) for one in made]

    def values(self, command):
        made = command.data or [MARK if command.name == "uncorrectable" else self.zeroes] * command.count
        return {block: value(made[block - command.first]) for block in self.existing(command)}

    def write(self, job, command, status):
        values, told = self.values(command), kind(status)
        if told == "before":
            return [[]]
        if told != "done":
            return [self.each(job, values, True, sure=False, late=told == "host")]
        entry = command.name == "write" or self.reads in ("atomic-all", "whole")
        if entry and self.within(command, self.head["nawun"] or self.head.get("awun", 0)):
            return [[self.point(job, {}, values)]]
        return [self.each(job, values, True)]

    def found(self, job, values, held):
        if not held or self.reads == "by-blocks":
            return self.each(job, values, False)
        if self.reads != "whole":
            return self.each(job, values, False, kind="read")
        units = itertools.groupby(values, lambda block: unit(self.head, block))
        return [self.point(job, {block: values[block] for block in group}, {}) for _, group in units]

    def read(self, job, command, status):
        if status != (0, 0):
            return [[]]
        data = [value(one) for one in job.data] if job.data else [ANY_BYTES] * command.count
        values = {block: data[block - command.first] for block in self.existing(command)}
        return [self.found(job, values, True)]

    def compare(self, job, command, status):
        if status == (0, 0):
            return [self.found(job, self.values(command), self.reads in ("atomic-all", "whole"))]
        if status != (2, 0x85):
            return [[]]
        differs = [
            [self.point(job, {block: other(*content.values)}, {})] for block, content in self.values(command).items()
        ]
        return differs + [[]] * (len(differs) < command.count)

    def dataset(self, job, command, status):
        if "deallocate" not in command.options or status in ((0, 0x01), (0, 0x0B)):
            return [[]]
        over = math.inf if kind(status) == "host" else job.ended
        points = []
        for first, count in command.ranges:
            values = {block: self.deallocated for block in range(first, min(first + count, self.head["nsze"]))}
            points += self.each(job, values, True, sure=False, late=True, over=over, kind="deallocate")
        return [points]

    def unknown(self, job, command, status, named):
        silent = ("op-00", "op-0c", "op-0d", "op-0e", "op-11", "op-15")
        if command.name in silent or status in ((0, 0x01), (0, 0x0B)):
            return [[]]
        late = command.name != "op-19" or kind(status) == "host"
        values = {block: ANYTHING for block in named}
        return [self.each(job, values, True, sure=False, late=late, kind="any number")]

    def elsewhere(self, command):
        return any(option.startswith("nsid=") and option != "nsid=1" for option in command.options)

    def single(self, job, command, status, named):
        if self.elsewhere(command):
            return [[]]
        if command.name in ("write", "zeroes", "uncorrectable"):
            return self.write(job, command, status)
        if command.name in ("read", "compare", "dataset"):
            return getattr(self, command.name)(job, command, status)
        return self.unknown(job, command, status, named)

    def pair(self, job, compare, write, first, second):
        told, then = kind(first), kind(second)
        finds, puts = self.values(compare), self.values(write)
        found = self.each(job, finds, False)
        if job.statuses and told not in ("done", "host") and then == "done" or (first, second) == ((0, 0), (0, 0x09)):
            return None
        if told == then == "done":
            if self.within(write, self.head["nacwu"] or self.head.get("acwu", 0)):
                return [[self.point(job, finds, puts)]]
            return [found + self.each(job, puts, True)]
        if first == (2, 0x85):
            return self.compare(job, compare, first)
        if told == "done":
            optional = self.each(job, puts, True, sure=False, late=then == "host")
            return [found + optional * (then != "before")]
        if then == "done":
            return [found + self.each(job, puts, True)]
        if first == (2, 0x81) or then == "before" or told == "before" and first != (0, 0x09):
            return [[]]
        late = "host" in (told, then)
        return [[], self.each(job, finds, False, late=late) + self.each(job, puts, True, sure=False, late=late)]

    def alternatives(self, job, named):
        statuses = job.statuses or [None] * len(job.commands)
        if len(job.commands) == 1:
            return self.single(job, job.commands[0], statuses[0], named)
        one, two = job.commands
        same = (one.name, two.name, one.first, one.count) == ("compare", "write", two.first, two.count)
        if same and not any(map(self.elsewhere, job.commands)):
            return self.pair(job, one, two, *statuses)
        halves = [job._replace(number=(job.number, half)) for half in (0, 1)]
        both = [self.single(half, part, status, named) for half, part, status in zip(halves, job.commands, statuses)]
        return [first + second for first, second in itertools.product(*both)]


# An explanation


def components(points):
    """The blocks by which orders can be sought apart: those that a point of several blocks joins."""
    joined = {}
    for point in points:
        group = {*point.finds, *point.puts}
        for block in set(group):
            group |= joined.get(block, set())
        joined.update(dict.fromkeys(group, group))
    return {frozenset(group) for group in joined.values()}


def order(points, start, bound):
    """Whether these points of one component have an order; `None` where more than `bound` states were met."""
    points = sorted(points, key=lambda point: (point.sure, not point.puts, -point.began))
    place = {block: at for at, block in enumerate(sorted({block for p in points for block in {**p.finds, **p.puts}}))}
    bits = {1 << at: point for at, point in enumerate(points)}
    sure = sum(bit for bit, point in bits.items() if point.sure)
    moves = []
    for bit, point in bits.items():
        first, later, halves = 0, 0, collections.Counter()
        for one, than in bits.items():
            if point.puts and not point.finds and than.job == point.job and than.finds.keys() >= point.puts.keys():
                first |= one
            writes = than.sure and than.kind == "plain" and point.puts.keys() & than.puts.keys()
            if point.kind == "deallocate" and writes and than.began > point.over:
                later |= one
            if than.kind == "read" and than.finds.keys() <= point.puts.keys():
                halves[than.job] |= one
        finds = [(place[block], content) for block, content in point.finds.items()]
        puts = [(place[block], content) for block, content in point.puts.items()]
        moves.append((bit, point, first, later, halves.values(), finds, puts))
    states = [(0, (start,) * len(place), 0)]
    seen = set(states)
    while states:
        done, contents, latest = states.pop()
        if done & sure == sure:
            return True
        limit = min(point.ended for bit, point in bits.items() if bit & sure & ~done)
        for bit, point, first, later, halves, finds, puts in moves:
            if done & bit or point.ended < latest or point.began > limit or done & first != first or done & later:
                continue
            if any(done & half not in (0, half) for half in halves):
                continue
            after = list(contents)
            for at, content in finds:
                after[at] = overlap(after[at], content)
            if any(not after[at].but and not after[at].values for at, _ in finds):
                continue
            for at, content in puts:
                after[at] = content
            state = (done if point.kind == "any number" else done | bit, tuple(after), max(latest, point.began))
            if state not in seen:
                seen.add(state)
                states.append(state)
        if len(seen) > bound:
            return None
    return False


def verdict(head, jobs, reads="atomic", deallocated="either", bound=100000):
    table = Table(head, reads, deallocated)
    named = {
        block
        for job in jobs
        for command in job.commands
        if not command.name.startswith("op-")
        for block in table.existing(command)
    }
    choices = [table.alternatives(job, named) for job in jobs]
    if None in choices:
        return "contradicted"
    parts = components([point for lists in choices for points in lists for point in points])
    start = value(bytes(head["block"])) if head["start"] == "zeroes" else ANYTHING
    known, large, tried = {}, False, 0
    for choice in itertools.product(*choices):
        tried += 1
        if tried > bound:
            return "too large"
        answers = set()
        for part in parts:
            points = tuple(p for points in choice for p in points if part & {*p.finds, *p.puts})
            key = (part, tuple(map(id, points)))
            if key not in known:
                known[key] = order(points, start, bound)
            answers.add(known[key])
            if known[key] is False:
                break
        if answers <= {True}:
            return "explained"
        large |= False not in answers
    return "too large" if large else "contradicted"


def options():
    parser = argparse.ArgumentParser()
    parser.add_argument("trace")
    parser.add_argument("--reads", choices=["atomic", "atomic-all", "whole", "by-blocks"])
    parser.add_argument("--deallocated", choices=["zeroes", "ones", "either"])
    parser.add_argument("--bound", type=int, default=100000)
    return parser.parse_args()


if __name__ == "__main__":
    asked = options()
    head, jobs = trace(open(asked.trace).read())
    reads, deallocated = promised(head)
    said = verdict(head, jobs, asked.reads or reads, asked.deallocated or deallocated, asked.bound)
    print(said)
    sys.exit({"explained": 0, "contradicted": 2, "too large": 3}[said])
