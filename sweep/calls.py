"""The rows of calls that programs read from standard input, and what must stand where a growth of memory is refused to them.

Beside the source of such a program stand `stdin`, its rows, and `stdout`, a line for each. A line that begins with `#` begins a group
that stands by itself, and each group is a run here.

Where a growth is refused, the program ends, if the memory was for the row itself: the rows before are answered as ever. Or it was for the row's own words,
and the row is answered `unread`. Or the call says that it was refused. Then the program goes on, and a row that wasn't read must have left nothing, and a call what it
says: the rows behind it must be answered as the program answers them where other rows stand in the place of this one, those of `left_by`."""

import os
import re
import subprocess
from dataclasses import dataclass

CRATES = os.path.join(os.path.dirname(os.path.dirname(os.path.realpath(__file__))), "crates")
PROGRAM = os.path.join(CRATES, "nvm_rows", "out", "nvm_rows")
# How a row ended for want of memory, in a word.
BY_ROW, BY_CALL, BY_NONE = "no memory", "by the call", "with less"
# What a row is answered that had no memory for its own words.
UNREAD = "unread"
# The answers that say that a call had none. One of a job has its statuses first.
REFUSED = re.compile(r".*\bNoMemory\b.*|(?:0/00 )?0/06\b.*")
# Rows, with their answers, whose calls take no memory: it can't be refused to them.
TAKES_NONE = re.compile(
    r"(?:unit|space) (?:\w+ )?(?:refresh|meet|keeps|gate)\b.*"
    # A comparison, what is full, newer, busy or held by another, and a pair that fails.
    r"|unit \w+ \w+ compare [^;]* = at .*|.* = (?:(?:Ok|Err|Some)\()?(?:Full|Newer|Busy|Failed|None)\b.*|unit close = .*"
    # A Read that doesn't wait and isn't answered, and jobs that a check refuses or that have no parts.
    r"|space \w+ now .* = (?:Crosses|OutOfRange)"
    r"|space \w+ (?:run|poll) .* = 0/(?!00|06)[0-9a-f]{2}(?: 0/[0-9a-f]{2})?"
    r"|space \w+ (?:run|poll) dataset (?!.*deallocate).*"
)


def left_by(row, answer):
    """The rows that leave what the row's call says that it leaves where it gives this answer, as it was refused."""
    match row.split():
        case [_, "close"]:
            # It is lost.
            return [row]
        case _ if answer == UNREAD:
            return [""]
        case ["unit", who, "observe" | "history", *_] | ["unit", who, "poll", "read" | "compare", _, _] | ["unit", who, "poll", "compare", _, _, _]:
            # The pass is brought up nevertheless.
            return [f"unit {who} refresh"]
        case ["unit", who, "change" | "try" | "poll" as how, *_]:
            # The pass is brought up and the gate called, as by a pair that fails.
            return [f"unit {who} {how} compare 0 1 e7 first ; write 0 1 e7 second"]
        case ["space", who, "run" | "poll" as how, *command]:
            return [*parts_done(who, how, command, answer)]
    return [""]


def parts_done(port, how, command, answer):
    """The parts that a job lists as done, a row each, and that the port has found the unit of the one that found no memory."""
    yield ""
    for unit, end in re.findall(r"; unit (\d+) at \d+ (\w+)", answer):
        if end == "NoMemory":
            yield f"space {port} refresh {unit}"
        elif end == "Done":
            yield f"space {port} {how} {part_in(int(unit), command)}"
        else:
            yield f"space {port} refresh {unit}"


def part_in(unit, command):
    """The command's part in this unit of 8 blocks of 512 bytes."""
    name, first, blocks, *data = command
    begin, end = max(int(first), 8 * unit), min(int(first) + int(blocks), 8 * unit + 8)
    words = [name, str(begin), str(end - begin)]
    if data:
        runs = [run.split("*") for run in data[0].split(",")]
        # A byte alone fills all blocks.
        whole = b"".join(bytes.fromhex(run[-1]) * int(run[0] if len(run) == 2 else 512 * int(blocks)) for run in runs)
        part = whole[512 * (begin - int(first)) : 512 * (end - int(first))]
        words.append(",".join(f"{len(run[0])}*{run[0][:1].hex()}" for run in re.finditer(rb"(?s)(.)\1*", part)))
    return " ".join(words)


@dataclass
class Rows:
    """A group of rows."""

    name: str
    rows: list
    told: list  # what is answered to each
    input: str
    words = ()
    before = {}
    row = 5  # this many growths, one after the other, are refused in a further run

    @property
    def every(self):
        """Only each of so many growths is refused in a long group, which does the same again and again."""
        return 1 + len(self.rows) // 50

    def has_threads(self):
        return False

    def thread_growths(self):
        return 0

    def whole(self, end):
        if (end.status, end.err, end.out.splitlines(), end.files) != (0, "", self.told, {}):
            raise ValueError("it isn't what stdout has")

    def is_passed(self, end):
        return (end.status, end.out.splitlines()) == (0, self.told)

    def refused(self, end, whole, refusals):
        lines, asked, unlike = end.out.splitlines(), [[row] for row in self.rows], []
        is_ended = (end.status, end.err) == (1, "")
        while True:
            expected = self.answers(asked)
            place = next((it for it, line in enumerate(lines) if it not in unlike and expected.get(it) != line), None)
            if place is None:
                break
            row, line = self.rows[place], lines[place]
            if line != UNREAD and not REFUSED.fullmatch(line):
                raise ValueError(f"{row} is answered {line!r} and not {expected.get(place)!r}")
            if line != UNREAD and TAKES_NONE.fullmatch(f"{row} = {self.told[place]}"):
                raise ValueError(f"{row} takes memory")
            asked[place] = left_by(row, line)
            unlike.append(place)
        if not is_ended and (len(lines) != len(self.rows) or (end.status, end.err) != (0, "")):
            raise ValueError("it is another end")
        if not is_ended and not unlike:
            if refusals == 1 and end.asks_for_less:
                # Room for more than was needed at once was asked for, and that was had.
                return BY_NONE
            raise ValueError("all is answered, though a growth was refused")
        by_call = [place for place in unlike if lines[place] != UNREAD]
        return f"{BY_CALL}: {' '.join(map(str, by_call))}" if by_call else BY_ROW

    def answers(self, asked):
        """What the program answers to these rows, of which there is a list in the place of each row of the group: by the row's place, where it
        is asked alone."""
        given = "".join(f"{row}\n" for rows in asked for row in rows)
        ended = subprocess.run([PROGRAM], input=given, capture_output=True, text=True, env={}, check=False)
        lines, expected, line = ended.stdout.splitlines(), {}, 0
        for place, rows in enumerate(asked):
            if line < len(lines):
                expected[place] = lines[line]
            line += len(rows)
        return expected

    def amiss(self, ends):
        """What is wrong of the ends of all runs together, which are counted by their words, or None."""
        return None


def kind_of(row):
    """The layer and the call."""
    return " ".join([it for it in row.split() if it not in ("0", "1")][:2])


def never_refused(ends):
    """The kinds of calls to whom no refusal came, of those which leave something to other rows and take memory. Each case is given with the
    words for how its runs ended."""
    asked, came = set(), set()
    for case, words in ends:
        for place, row in enumerate(case.rows if isinstance(case, Rows) else []):
            if re.match(r"(?:unit|space) (?!open|close)", row) and not TAKES_NONE.fullmatch(f"{row} = {case.told[place]}"):
                asked.add(kind_of(row))
        came |= {kind_of(case.rows[int(it)]) for word in words for it in word.partition(":")[2].split()}
    return sorted(asked - came)


@dataclass
class Calls:
    """The calls of a program that prints what each answers. They rest on one another, so growths aren't refused to them."""

    name: str
    told: list
    input: str
    words = ()
    before = {}
    every = 1

    def whole(self, end):
        if (end.status, end.err, end.out.splitlines(), end.files) != (0, "", self.told, {}):
            raise ValueError("it isn't what stdout has")


def calls(_folder):
    """The run of nvm_calling."""
    return [Calls("calls", kept("nvm_calling", "stdout"), os.path.join(CRATES, "nvm_calling", "stdin"))]


def kept(crate, name):
    """The lines of a file beside a program's source."""
    with open(os.path.join(CRATES, crate, name), encoding="utf-8") as file:
        return file.read().splitlines()


def groups(folder):
    """The groups of rows of nvm_rows."""
    pairs = list(zip(kept("nvm_rows", "stdin"), kept("nvm_rows", "stdout"), strict=True))
    heads = [it for it, (row, _) in enumerate(pairs) if row.startswith("#")]
    found = []
    for begin, end in zip(heads, [*heads[1:], len(pairs)]):
        asked, told = map(list, zip(*pairs[begin:end]))
        path = os.path.join(folder, str(len(found)))
        with open(path, "w", encoding="utf-8") as file:
            file.write("".join(f"{row}\n" for row in asked))
        found.append(Rows(asked[0].strip("# "), asked, told, path))
    return found
