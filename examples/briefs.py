"""What `nvq certify` says of a contradiction for people: a sentence, commands without their long data, and whose data they found. It is held to the trace's text as
that is listed, and to what `--data` prints.
"""

import re

LONGEST, NAMED = 40, 3
FOUND = re.compile(r"  found in LBA (\d+)(?: to (\d+))?: (.*)")
# Sentences that name whose data was found, and what was there since.
SINCE = re.compile(r"Job (\d+) found in LBA (\d+) (?:what job (\d+) had left there|the zeroes that were there at first), (?:though job (\d+) had (put|found) other data there since|and that can't have been there then)\.")
LATER = re.compile(r"Job (\d+) found in LBA (\d+) what job (\d+) put there only later\.")
NO_BYTES = re.compile(r"Job (\d+) found in LBA (\d+) bytes that no other command put there\.")
TORN = re.compile(r"Job (\d+) found LBA (\d+) torn: one part of it is of job (\d+), another (?:of job (\d+)|still as it was at first)\.")
HALF = re.compile(r"Job (\d+) found job (\d+) half done: what it put was in LBA (\d+), and not in LBA (\d+)\.")
OTHERS = re.compile(
    r"Job \d+ failed to compare, though (?:LBA \d+|each of its blocks) held what it compared\.|Job \d+ read LBA \d+ without an error, though a Write Uncorrectable had marked it\.|No order of these commands gives what their hosts saw\."
)


class Job:
    """A line of a trace: what it may have put in each block, and what it found there."""

    def __init__(self, line, size):
        sent, _, reply = line.partition(" = ")
        self.size, self.puts, self.found = size, {}, {}
        answers = reply.split()
        # Whether all that it may have put was put.
        self.is_sure = bool(answers) and all(it == "0/00" for it in answers[: 1 + (" + " in sent)])
        for place, words in enumerate(" ".join(sent.split()[3:]).split(" + ")):
            _, name, operands, *rest = words.split()
            status = answers[place] if place < len(answers) else None
            if any(it.startswith("nsid=") for it in rest):
                continue
            if name == "dataset":
                self.is_sure = False
                if rest[-1:] == ["deallocate"]:
                    for first, blocks in (map(int, it.split("+")) for it in operands.split(",")):
                        self.put(first, [{bytes(size), b"\xff" * size}] * blocks)
                continue
            first, blocks = int(operands), int(rest[0])
            if name == "write":
                self.put(first, [{it} for it in self.blocks_of(rest[1])])
            elif name == "zeroes":
                self.put(first, [{bytes(size)}] * blocks)
            elif name == "compare" and status in ("0/00", None):
                # That of a pair that never ended was done where something shows that its Write was.
                self.found.update(enumerate(self.blocks_of(rest[1]), first))
            elif name == "read" and status == "0/00":
                data = answers[1] if len(answers) > 1 else ""
                self.found.update(enumerate(self.blocks_of(data), first))

    def put(self, first, blocks):
        for lba, block in enumerate(blocks, first):
            self.puts[lba] = self.puts.get(lba, set()) | block

    def blocks_of(self, runs):
        data = b"".join(bytes.fromhex(byte) * int(count) for count, byte in (it.split("*") for it in runs.split(",") if it))
        return [data[at : at + self.size] for at in range(0, len(data), self.size)]


class Trace:
    def __init__(self, lines):
        words = lines[0].split()
        self.size, self.starts_with_zeroes = int(words[words.index("block") + 1]), words[words.index("start") + 1] == "zeroes"
        self.jobs = [Job(it, self.size) for it in lines[1:]]

    def writers(self, reader, lba, data):
        return [number for number, job in enumerate(self.jobs) if number != reader and data in job.puts.get(lba, ())]

    def sure_writers(self, *of):
        return {it for it in self.writers(*of) if self.jobs[it].is_sure}

    def is_first(self, data):
        return self.starts_with_zeroes and not any(data)

    def hold(self, is_right, what):
        if not is_right:
            raise ValueError(what)

    def held_parts(self, reader, lba, text):
        """A block that nobody put there whole, by its parts."""
        data, at, owners = self.jobs[reader].found[lba], 0, []
        self.hold(not self.sure_writers(reader, lba, data) and not self.is_first(data), text)
        for part in text.removeprefix("torn: ").split(", "):
            if part == "..":
                return
            first, last, owner = re.fullmatch(r"bytes (\d+) to (\d+) of (.*)", part).groups()
            first, last = int(first), int(last)
            piece = slice(first, last + 1)
            self.hold(first == at and last < len(data), part)
            if owner.startswith("job "):
                puts = self.jobs[int(owner[4:])].puts[lba]
                self.hold(any(it[piece] == data[piece] for it in puts), part)
            else:
                self.hold(owner == "no command" or owner == "the first zeroes" and self.is_first(data[piece]), part)
            at, owners = last + 1, [*owners, owner]
        self.hold(at == len(data), text)
        self.hold(text.startswith("torn: ") == (len(owners) > 1 and "no command" not in owners), text)

    def held_source(self, reader, lba, text):
        """Whose a block is."""
        if "bytes " in text:
            self.held_parts(reader, lba, text)
            return
        data = self.jobs[reader].found[lba]
        due, may = self.sure_writers(reader, lba, data), set(self.writers(reader, lba, data))
        told = [int(it) for it in re.findall(r"job (\d+)", text)]
        more = int((re.search(r"or (\d+) more$", text) or [0, 0])[1])
        self.hold(text.startswith("zeroes, as at first") == self.is_first(data), text)
        self.hold(set(told) <= may and (due <= set(told) or len(told) == NAMED and len(due) <= NAMED + more), f"{text} in place of {due}")

    def held_sentence(self, sentence):
        found = SINCE.fullmatch(sentence)
        if found:
            reader, lba, writer, between, deed = found.groups()
            data = self.jobs[int(reader)].found[int(lba)]
            self.hold(self.is_first(data) if writer is None else int(writer) in self.writers(int(reader), int(lba), data), sentence)
            if deed == "put":
                self.hold(data not in self.jobs[int(between)].puts.get(int(lba), ()), sentence)
            elif deed == "found":
                self.hold(self.jobs[int(between)].found[int(lba)] != data, sentence)
            return
        found = LATER.fullmatch(sentence)
        if found:
            reader, lba, writer = map(int, found.groups())
            self.hold(writer in self.writers(reader, lba, self.jobs[reader].found[lba]), sentence)
            return
        found = NO_BYTES.fullmatch(sentence) or TORN.fullmatch(sentence)
        if found:
            reader, lba, *parts = found.groups()
            data = self.jobs[int(reader)].found[int(lba)]
            self.hold(not self.sure_writers(int(reader), int(lba), data), sentence)
            return
        found = HALF.fullmatch(sentence)
        if found:
            reader, writer, done, undone = map(int, found.groups())
            seen, put = self.jobs[reader].found, self.jobs[writer].puts
            self.hold(seen[done] in put[done] and seen[undone] not in put[undone], sentence)
            return
        self.hold(OTHERS.fullmatch(sentence), sentence)


def shortened(line):
    return " ".join(".." if len(it) > LONGEST else it for it in line.split(" "))


def held(lines, brief, whole):
    """Raises ValueError where a contradiction in brief isn't what the trace of these lines and the contradiction with all data say."""
    trace = Trace(lines)
    first, sentence, *rest = brief.splitlines()
    told = [it for it in rest if not it.startswith("  ")]
    trace.hold([first, *told] == list(map(shortened, whole.splitlines())), "the lines of a contradiction in brief are others")
    trace.held_sentence(sentence)
    job = None
    for line in rest:
        found = FOUND.fullmatch(line)
        if found:
            first, last, text = int(found[1]), int(found[2] or found[1]), found[3]
            for lba in range(first, last + 1):
                trace.held_source(job, lba, text)
        elif line != "  ..":
            job = int(line.split()[1].rstrip("'s")) if line.startswith("job ") else None
