#!/usr/bin/env python3
"""Makes small traces for judge.py, by a simulated device that uses each freedom of docs/STANDARD.md at random.

    traces.py SEED [BUG]

prints one, with the judge's options in its first line. The device knows blocks, moments and its own promises, and not
the page's points. With one of BUGS it is wrong in that way; not each of its traces shows it.
"""
import random
import sys

MARK = None
FILLS = ["00", "41", "42", "ff"]
BEFORE = ["0/02", "0/0a", "0/0b", "0/14", "0/80", "0/01", "0/09"]
ERRORS = ["0/04", "0/06", "2/80", "2/82", "6/10"]
HOST = ["3/70", "3/71", "0/07", "0/08"]
# A wrong deed, and the command that it is of.
BUGS = {
    "answers_another_block": "read",
    "answers_old_data": "read",
    "compares_equal_as_different": "compare",
    "compares_other_bytes_as_equal": "compare",
    "deallocates_after_a_later_write": "dataset",
    "deallocates_to_other_bytes": "dataset",
    "does_a_refused_write": "write",
    "forgets_a_block": "write",
    "pair_aborts_after_success": "pair",
    "pair_in_two_moments": "pair",
    "pair_writes_after_a_difference": "pair",
    "reads_a_mark": "uncorrectable",
    "tears_a_write": "write",
    "writes_after_its_end": "write",
    "writes_after_its_error": "write",
    "zeroes_in_part": "zeroes",
}
FATES = {"does_a_refused_write": "before", "writes_after_its_error": "error"}


class Reader:
    """A Read under way: the blocks that it has found, and those that it hasn't."""

    def __init__(self, blocks):
        self.found, self.left = {}, list(blocks)

    def is_between(self, blocks):
        return any(block in blocks for block in self.found) and any(block in blocks for block in self.left)


class Device:
    def __init__(self, chance, head, reads, deallocated, bug, calm):
        self.chance, self.head, self.reads, self.bug, self.calm = chance, head, reads, bug, calm
        self.values = {"zeroes": ["00"], "ones": ["ff"], "either": ["00", "ff"]}[deallocated]
        known = head["start"] == "zeroes"
        self.blocks = ["00" if known else chance.choice([*FILLS, "43", MARK]) for _ in range(head["nsze"])]
        self.old, self.readers = list(self.blocks), []
        self.puts = []
        self.used = set()

    # Blocks and moments

    def maybe(self, of_hundred):
        return self.chance.random() * 100 < of_hundred

    def fate(self, weights):
        """How a command ends: mostly by the first of these where the device is calm."""
        if self.bug in FATES and self.maybe(40) and FATES[self.bug] in weights:
            return FATES[self.bug]
        if self.calm and self.maybe(85):
            return next(iter(weights))
        return self.chance.choices([*weights], weights.values())[0]

    def wrong(self, bug):
        return self.bug == bug and self.maybe(70)

    def existing(self, command):
        first = command["first"]
        return [block for block in range(first, first + command["count"]) if block < len(self.blocks)]

    def unit(self, block):
        nabsn, nabo = self.head["nabsn"], self.head["nabo"]
        return 0 if nabsn == 0 or block < nabo else 1 + (block - nabo) // (nabsn + 1)

    def is_within(self, command, limit):
        blocks = self.existing(command)
        return len(blocks) == command["count"] <= limit + 1 and len(set(map(self.unit, blocks))) == 1

    def put(self, began, blocks, made, sure):
        for block in blocks:
            self.old[block] = self.blocks[block]
            self.blocks[block] = made(block)
            if sure:
                self.puts.append((began, block))

    def is_rewritten(self, block, ended):
        """Whether a command surely put the block that began after this time."""
        return ended is not None and any(put == block and began > ended for began, put in self.puts)

    def some(self, blocks):
        return [block for block in self.chance.sample(blocks, len(blocks)) if self.maybe(50)]

    def settled(self, blocks):
        """Waits until no Read stands between two of these blocks."""
        while self.reads != "by-blocks" and any(reader.is_between(blocks) for reader in self.readers):
            yield

    def each(self, began, blocks, made, sure):
        for block in self.chance.sample(blocks, len(blocks)):
            yield
            self.put(began, [block], made, sure)

    # Commands. A step ends at each `yield`; what is yielded is the reply, and what follows it comes late.

    def look(self, blocks, held):
        reader = Reader(self.chance.sample(blocks, len(blocks)))
        if held:
            self.readers.append(reader)
        try:
            apart = not self.maybe(25)
            while reader.left:
                if self.reads == "whole" and held:
                    number = self.unit(reader.left[0])
                    part = [block for block in reader.left if self.unit(block) == number]
                else:
                    part = reader.left[:1]
                for block in part:
                    reader.found[block] = self.blocks[block]
                    reader.left.remove(block)
                if apart and reader.left:
                    self.used.add("Read in several moments")
                    yield
        finally:
            if held:
                self.readers.remove(reader)
        return reader.found

    def read(self, command, began):
        blocks = self.existing(command)
        yield
        found = yield from self.look(blocks, True)
        yield
        if self.wrong("answers_old_data") and blocks:
            block = self.chance.choice(blocks)
            found[block] = self.old[block] if began > 1 else found[block]
        if self.wrong("answers_another_block") and blocks:
            found[blocks[0]] = self.blocks[blocks[0] - 1]
        if self.wrong("reads_a_mark"):
            found = {block: self.chance.choice(FILLS) if one is MARK else one for block, one in found.items()}
        if self.maybe(6):
            self.used.add("Read that failed, or without an end")
            if self.maybe(60):
                yield [self.chance.choice(["2/81", *HOST, *BEFORE, *ERRORS])], None
            return
        if MARK in found.values():
            yield ["2/81"], None
        else:
            if len(blocks) < command["count"]:
                self.used.add("Read past the end")
            ends = range(command["first"], command["first"] + command["count"])
            data = None if self.maybe(2) else [found.get(block) or self.chance.choice(FILLS) for block in ends]
            yield ["0/00"], data

    def write(self, command, began):
        name, blocks = command["name"], self.existing(command)
        fixed = {"zeroes": "00", "uncorrectable": MARK}
        made = lambda block: fixed[name] if name in fixed else command["data"][block - command["first"]]
        fate = self.fate({"done": 76, "before": 6, "error": 7, "host": 7, "never": 4})
        if fate == "done":
            meant = name == "write" or self.reads in ("atomic-all", "whole")
            entry = meant and self.is_within(command, self.head["nawun"])
            torn = self.wrong("tears_a_write")
            if self.wrong("zeroes_in_part") and name == "zeroes":
                blocks = blocks[1:]
            if self.wrong("forgets_a_block"):
                blocks = blocks[:-1]
            if self.wrong("writes_after_its_end"):
                yield ["0/00"], None
            yield
            if entry and not torn:
                yield from self.settled(blocks)
                self.put(began, blocks, made, True)
            else:
                if not torn and len(blocks) > 1:
                    self.used.add("put block by block")
                yield from self.each(began, blocks, made, True)
            yield
            yield ["0/00"], None
            return
        self.used.add(f"{fate}: Write, Write Zeroes or Write Uncorrectable")
        done = blocks if self.maybe(20) else self.some(blocks)
        if fate == "before":
            if self.wrong("does_a_refused_write"):
                yield from self.each(began, blocks, made, False)
            yield [self.chance.choice(BEFORE)], None
        elif fate == "error":
            if self.wrong("writes_after_its_error"):
                yield [self.chance.choice(ERRORS)], None
            yield from self.each(began, done, made, False)
            yield [self.chance.choice(ERRORS)], None
        elif fate == "host":
            cut = self.chance.randint(0, len(done))
            yield from self.each(began, done[:cut], made, False)
            yield [self.chance.choice(HOST)], None
            yield from self.each(began, done[cut:], made, False)
        else:
            yield from self.each(began, done, made, False)

    zeroes = uncorrectable = write

    def held(self, command, found):
        """What a comparison of the found blocks says: a status."""
        differs = any(one not in (MARK, command["data"][block - command["first"]]) for block, one in found.items())
        marked = MARK in found.values()
        if len(found) < command["count"] and self.maybe(30):
            self.used.add("Compare that fails past the end")
            differs = True
        if self.wrong("compares_equal_as_different"):
            return "2/85"
        if self.wrong("compares_other_bytes_as_equal"):
            return "0/00"
        if differs and marked:
            self.used.add("Compare of a mark and a difference")
            return self.chance.choice(["2/81", "2/85"])
        return "2/81" if marked else "2/85" if differs else "0/00"

    def compare(self, command, began):
        yield
        found = yield from self.look(self.existing(command), self.reads in ("atomic-all", "whole"))
        yield
        status = self.held(command, found)
        if self.maybe(8):
            self.used.add("Compare that failed otherwise, or without an end")
            if self.maybe(30):
                return
            status = self.chance.choice(["2/81", *HOST, *BEFORE, *ERRORS])
        yield [status], None

    def dataset(self, command, began):
        ranges = [range(first, first + count) for first, count in command["ranges"]]
        named = sorted({block for one in ranges for block in one if block < len(self.blocks)})
        fate = self.fate({"0/00": 80, "error": 6, "host": 5, "never": 4, "none": 5})
        if fate == "none" or not command["deallocate"]:
            self.used.add("Dataset Management that does nothing")
            yield [self.chance.choice(["0/01", "0/0b"] if fate == "none" else ["0/00", "0/80"])], None
            return
        kept, now, late = [], [], []
        for block in self.chance.sample(named, len(named)):
            wrong = self.bug == "deallocates_after_a_later_write"
            self.chance.choice([late] if wrong else [kept, now, late]).append(block)
        for way, blocks in (("kept", kept), ("within its time", now), ("late", late)):
            if blocks:
                self.used.add(f"Deallocate: {way}")
        other = self.wrong("deallocates_to_other_bytes")
        value = lambda block: "41" if other else self.chance.choice(self.values)
        for block in now:
            yield
            self.put(began, [block], value, False)
        yield
        ended = None
        if fate == "0/00":
            out = any(first + count > len(self.blocks) for first, count in command["ranges"])
            ended = yield [self.chance.choice(["0/00", "0/80"]) if out else "0/00"], None
        elif fate == "error":
            ended = yield [self.chance.choice(["0/02", "0/80", *ERRORS])], None
        elif fate == "host":
            yield [self.chance.choice(HOST)], None
        for block in late:
            yield
            wrong = self.bug == "deallocates_after_a_later_write" and ended
            while wrong and not self.is_rewritten(block, ended):
                yield
            if wrong or not self.is_rewritten(block, ended):
                self.put(began, [block], value, False)

    def other(self, command, began):
        if command["name"] in ("op-00", "op-0c"):
            yield [self.chance.choice(["0/00", "0/06"])], None
            return
        if self.maybe(30):
            yield ["0/01"], None
            return
        self.used.add("Copy" if command["name"] == "op-19" else "opcode that isn't known")
        replies = self.chance.randint(0, 3)
        status = self.chance.choice(["0/00", "0/80", "2/80", "3/70"])
        late = command["name"] != "op-19" or status == "3/70"
        for step in range(4):
            yield
            if step == replies and late:
                yield [status], None
            block = self.chance.randrange(len(self.blocks))
            if self.maybe(60):
                self.put(began, [block], lambda _: self.chance.choice([*FILLS, "44", MARK]), False)
        if not late and self.maybe(80):
            yield [status], None

    def pair(self, command, began):
        blocks = self.existing(command)
        made = lambda block: command["write"][block - command["first"]]
        within = self.is_within(command, self.head["nacwu"])
        fate = self.fate({"done": 62, "refused": 8, "write fails": 10, "host wrote": 5, "both fail": 10, "never": 5})
        if fate == "refused":
            told = ["0/14 0/09", "0/80 0/09", "0/02 0/02", "0/06 0/09", "3/70 0/09"]
            yield self.chance.choice(told).split(), None
            return
        yield
        if within and fate == "done" and not self.wrong("pair_in_two_moments"):
            yield from self.settled(blocks)
            found = {block: self.blocks[block] for block in blocks}
        else:
            found = yield from self.look(blocks, False)
            yield
        status = self.held(command, found)
        if self.wrong("pair_writes_after_a_difference"):
            self.put(began, blocks, made, True)
        if status != "0/00" and fate not in ("both fail", "never"):
            yield [status, self.chance.choice(["0/09", "0/09", "2/80", "3/70", "0/14"])], None
            return
        if fate == "done":
            if within:
                if self.bug == "pair_in_two_moments":
                    yield
                self.put(began, blocks, made, True)
            else:
                self.used.add("pair not within its limits")
                yield from self.each(began, blocks, made, True)
            yield
            yield ["0/00", "0/09" if self.wrong("pair_aborts_after_success") else "0/00"], None
            return
        self.used.add(f"pair: {fate}")
        done = self.some(blocks) if status == "0/00" else []
        cut = self.chance.randint(0, len(done))
        if fate == "host wrote":
            yield from self.each(began, blocks, made, True)
            yield [self.chance.choice(HOST), "0/00"], None
        elif fate == "write fails":
            second = self.chance.choice(["0/02", "2/80", "2/80", "3/70"])
            if second == "0/02":
                yield ["0/00", second], None
                return
            yield from self.each(began, done[:cut] if second == "3/70" else done, made, False)
            yield ["0/00", second], None
            if second == "3/70":
                yield from self.each(began, done[cut:], made, False)
        elif fate == "both fail":
            first = self.chance.choice(["0/06", "2/80", "0/09", *HOST])
            second = self.chance.choice(["0/06", "2/80", *HOST])
            late = first in HOST or second in HOST
            yield from self.each(began, done[:cut] if late else done, made, False)
            yield [first, second], None
            if late:
                yield from self.each(began, done[cut:], made, False)
        else:
            yield from self.each(began, done, made, False)

    def elsewhere(self, command, began):
        """A command of another namespace."""
        self.used.add("command of another namespace")
        yield
        data = [self.chance.choice(FILLS) for _ in range(command["count"])] if command["name"] == "read" else None
        yield [self.chance.choice(["0/00", "0/0b"])] if data is None else ["0/00"], data

    def run(self, command, began):
        if command["nsid"] != 1:
            return self.elsewhere(command, began)
        return getattr(self, command["name"] if command["name"][:3] != "op-" else "other")(command, began)


# The load, its run, its text


KINDS = {"write": 26, "read": 30, "zeroes": 6, "uncorrectable": 5, "pair": 12, "dataset": 9, "compare": 9, "op": 2}


def commands(chance, head, number, calm, bug):
    """A load on a few blocks. Comparisons mostly ask for what is there if the commands are done in this order."""
    made, likely, stamped = [], ["00"] * (head["nsze"] + 4), chance.random() < 0.6
    weights = dict(KINDS)
    if calm:
        focus = BUGS[bug] if bug else chance.choice([*KINDS])
        weights = {kind: weight if kind in ("read", "write") else weight // 9 for kind, weight in KINDS.items()}
        weights[focus] += 20
    hot = chance.randrange(head["nsze"])
    for at in range(number):
        name = chance.choices([*weights], weights.values())[0]
        count = chance.choice([2, 3] if bug == "tears_a_write" else [1, 1, 2, 2, 3, 4])
        first = chance.choice([hot, hot, max(0, hot - 1), chance.randrange(head["nsze"])])
        if first + count > head["nsze"] and chance.random() < 0.9:
            count = head["nsze"] - first
        one = dict(name=name, first=first, count=count, nsid=2 if not calm and chance.random() < 0.02 else 1)
        one["write"] = [f"{at + 16:02x}" if stamped else chance.choice(FILLS)] * count
        if chance.random() < 0.2:
            one["write"] = [chance.choice(FILLS) for _ in range(count)]
        guessed = name in ("compare", "pair") and chance.random() < 0.7
        one["data"] = likely[first : first + count] if guessed else one["write"]
        one["ranges"] = [(first, count)]
        if chance.random() < 0.3:
            one["ranges"].append((chance.randrange(head["nsze"] + 1), chance.choice([0, 1, 2])))
        one["deallocate"] = chance.random() < 0.9
        if name == "op":
            one["name"] = chance.choice(["op-19", "op-7f", "op-00", "op-0c"])
        if name in ("pair", "dataset"):
            one["nsid"] = 1
        if name in ("write", "pair", "zeroes"):
            likely[first : first + count] = ["00"] * count if name == "zeroes" else one["write"]
        made.append(one)
    return made


def steps(chance, device, load, together):
    """Runs the load, and gives what the hosts saw: began, ended, command, statuses, data."""
    time, waiting, running, late, seen = 1, list(load), [], [], []
    wider = lambda: 0 if device.bug else chance.choice([0, 0, 2])
    while waiting or running:
        time += chance.choice([0, 1, 1, 2])
        if waiting and len(running) < together and (not running or chance.random() < 0.35):
            command = waiting.pop(0)
            seen.append(dict(began=max(1, time - wider()), ended=None, command=command))
            running.append((seen[-1], device.run(command, time)))
            continue
        one = chance.choice(running + late)
        told = step(one, None)
        if told == "over":
            (late if one in late else running).remove(one)
        elif told:
            one[0].update(ended=time, statuses=told[0], data=told[1])
            running.remove(one)
            time += 1
            if step(one, one[0]["ended"]) != "over":
                late.append(one)
    for one in seen:
        if one["ended"]:
            one["ended"] += wider()
    return seen


def step(one, sent):
    """One step of a command: what it tells, if it does. Once it has told, nothing counts as told any more."""
    try:
        told = one[1].send(sent) if sent else next(one[1])
    except StopIteration:
        return "over"
    return told if one[0]["ended"] is None else None


def runs(data):
    return ",".join(f"512*{one}" for one in data)


def line(one):
    command, nsid = one["command"], "" if one["command"]["nsid"] == 1 else " nsid=2"
    where = f"{command['first']} {command['count']}"
    said = f"{command['name']} {where}{nsid}"
    if command["name"] in ("write", "compare"):
        said = f"{command['name']} {where} {runs(command['data'])}{nsid}"
    if command["name"] == "pair":
        said = f"compare {where} {runs(command['data'])} first + 0 write {where} {runs(command['write'])} second"
    if command["name"] == "dataset":
        said = "dataset " + ",".join(f"{first}+{count}" for first, count in command["ranges"])
        said += " deallocate" * command["deallocate"]
    if one["ended"] is None:
        return f"{one['began']} - 1 0 {said}"
    told = one["statuses"] + ([runs(one["data"])] if one["data"] else [])
    return f"{one['began']} {one['ended']} 1 0 {said} = {' '.join(told)}"


def generated(seed, bug=None):
    """A trace's text, the judge's word for Reads and for deallocated blocks, and which freedoms were used."""
    chance = random.Random(seed)
    head = dict(nsze=chance.choice([1, 2, 3, 4, 4, 5]), block=512, nabsn=chance.choice([0, 0, 1, 2, 3]))
    head["nabo"] = chance.randint(0, head["nabsn"])
    head.update(nawun=chance.choice([0, 1, 2, 3]), nacwu=chance.choice([0, 1, 2, 3]), first=0)
    head["start"] = chance.choice(["zeroes", "zeroes", "unknown"])
    reads = chance.choice(["atomic", "atomic", "atomic-all", "whole", "by-blocks"])
    deallocated = chance.choice(["zeroes", "ones", "either"])
    calm = chance.random() < (0.8 if bug else 0.4)
    device = Device(chance, head, reads, deallocated, bug, calm)
    seen = steps(chance, device, commands(chance, head, chance.randint(2, 9), calm, bug), chance.randint(1, 4))
    said = " ".join(f"{word} {number}" for word, number in head.items())
    return f"trace {said} reads whole\n" + "".join(line(one) + "\n" for one in seen), reads, deallocated, device.used


if __name__ == "__main__":
    text, reads, deallocated, _ = generated(int(sys.argv[1]), *sys.argv[2:3])
    print(f"# --reads {reads} --deallocated {deallocated}\n{text}", end="")
