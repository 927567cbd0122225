"""What is run, and what must stand at its end.

A case has `whole`, which looks at a run with nothing refused, and `refused`, which looks at one with
growths refused: it says in a word how that ended. Both raise ValueError where it is no right end. And it has `amiss`,
which looks at the words of all its runs.
"""

import os
import re
import signal
from dataclasses import dataclass, field

from auditor import text, verdict
from beside import beside
from model import Model
from record_objects import record_objects
from recorded import jobs_of, recorded, wants_of
from records import RecordFault, record_of, spelled

# How an assertion prints the want of memory that a call gave.
GIVEN_FOR_MEMORY = re.compile(r'"(nvmu|nvq): no memory"|(Err|Some)\((NoMemory|AllocError|AllocFailed \{ \.\. \})\)')


# How a run is called that had the memory for its commands, and none for a thread.
WITHOUT_A_THREAD = "without a thread"
# How a test ended, or any program: for want of memory, or well.
LEFT, PASSED = "no memory", "passed"


@dataclass
class End:
    status: int
    out: str
    err: str
    files: dict  # the bytes of each file that it left, by the file's name
    growths: int
    asks_for_less: bool = False  # the growth behind the last refused one was for as many bytes or fewer

    def said(self):
        return self.status, self.out, self.err, self.files


class Recording:
    """What a run of these host files, host 1's first, may write and print: a lawful record, and its text, or the text beside the
    lists that they were made of, or the record's objects."""

    name = "record"

    def __init__(self, namespace, files, workers=1, lists=None, objects=False):
        self.model = Model(namespace, files)
        self.lists, self.objects = lists, objects
        self.namespace, self.files, self.workers = namespace, files, workers
        self.jobs = jobs_of(files, namespace.block)

    def units(self):
        return len(self.namespace.units())

    def told(self, record, shown):
        """What is printed of a record of which this is the text."""
        if self.objects:
            return record_objects(record)
        return shown if self.lists is None else beside(shown, self.lists)

    def wants(self, end):
        """In how many jobs memory was wanted. Where the run can't end so, it raises ValueError."""
        if list(end.files) != [self.name]:
            raise ValueError(f"it left {list(end.files)}")
        try:
            record = record_of(end.files[self.name])
        except RecordFault as fault:
            raise ValueError(f"the record has a fault: {fault}") from fault
        if (record.version, record.namespace, record.workers, record.jobs) != (2, self.namespace, self.workers, self.jobs):
            raise ValueError("the record is of another run")
        line = verdict(record)
        if not line.startswith("lawful "):
            raise ValueError(f"the record is {line}")
        shown = text(record)
        if end.out != self.told(record, shown):
            raise ValueError("what is told isn't the text or the objects of the record")
        wants = wants_of(record)
        if self.workers == 1 and end.files[self.name] != spelled(recorded(self.namespace, self.files, wants)):
            raise ValueError("one worker leaves another record")
        if len(wants) not in self.model.wants(shown.removesuffix(f"{line}\n")):
            raise ValueError(f"{len(wants)} jobs of the record want memory, and others by the lines")
        return len(wants)


@dataclass
class Run:
    """A program on a command line."""

    name: str
    program: str
    words: list
    status: int = 0
    out: str = None  # the whole of standard output, or None for the help of `clap`, or a text of the model
    err: str = None  # the whole of standard error, or None for what `clap` says, or for nothing of a run of host files
    files: dict = field(default_factory=dict)  # what it writes, by the file's name
    before: dict = field(default_factory=dict)  # what stands there before, and stays where it ends in a fault
    model: Recording = None  # of a run of host files
    units: int = 0  # of the record that it audits
    rounds: int = 1  # how often it goes through these in several threads
    # It ends in a fault that comes after its commands, and shows nothing of them; or help is looked for in vain, which memory can be refused.
    hides_wants: bool = False
    input: str = None  # the path of its standard input
    every: int = 1  # only each of so many growths is refused, where a run takes long
    row = 5  # this many growths, one after the other, are refused in a further run

    def has_threads(self):
        return self.thread_growths() > 1

    def thread_growths(self):
        """At most how many growths are those of threads: one of a worker that is alone, three of each of several, and three of each
        thread that audits, of which there are two for each processor. Where a thread can't be made, the program does its work by itself. Which growths are
        those of threads changes from run to run, since workers that were started grow while others are, so this counts more than there can be in one."""
        units = self.model.units() if self.model else self.units
        workers = self.model.workers if self.model else 0
        workers = 3 * workers if workers > 1 else workers
        return workers + 3 * self.rounds * max(0, min(units, 2 * os.cpu_count()) - 1)

    def whole(self, end):
        if end.status != self.status:
            raise ValueError(f"the status isn't {self.status}")
        if self.model:
            if self.model.wants(end):
                raise ValueError("a command wants memory")
            if end.err != (self.err or ""):
                raise ValueError(f"it isn't {self.err or ''!r} that it says on standard error")
            return
        if end.files != {**self.before, **self.files}:
            raise ValueError(f"it left {list(end.files)}, or another content than that of {list(self.files)}")
        if self.is_said_by_clap():
            if bool(end.out) == bool(self.status) or bool(end.err) != bool(self.status):
                raise ValueError("what it says isn't on the one stream where it belongs")
        elif end.err != (self.err or "") or end.out != (self.out or ""):
            raise ValueError(f"it isn't {self.out or self.err!r}, on the stream where it belongs")

    def is_passed(self, end):
        try:
            self.whole(end)
        except ValueError:
            return False
        return True

    def is_said_by_clap(self):
        return (self.out, self.err, self.model) == (None, None, None)

    def refused(self, end, whole, refusals):
        if end.said() == (1, "", f"{self.program}: no memory\n", self.before):
            return "no memory"
        line, _, hint = (self.err or "").partition("\n  ")
        if hint and end.said() == (self.status, "", f"{line}\n", self.before):
            return "without the hint"
        # `clap` goes on where it is refused the memory to measure how similar two words are.
        if (self.hides_wants or self.is_said_by_clap()) and end.said() == whole.said():
            return "as before"
        without = WITHOUT_A_THREAD if refusals == 1 else "with fewer threads"
        if self.units and end.said() == whole.said() and refusals <= self.thread_growths():
            return without
        if not self.model or end.status or end.err != (self.err or ""):
            raise ValueError("it is another end")
        # A command that is refused a growth asks for no more, and what is outside ends the program, but for threads.
        wants = self.model.wants(end)
        if not 0 <= refusals - wants <= self.thread_growths():
            raise ValueError(f"{wants} commands want memory, where {refusals} growths were refused")
        return "with 0/06" if wants else without

    def amiss(self, ends):
        """What is wrong of the ends of all runs together, which are counted by their words, or None."""
        if ends[WITHOUT_A_THREAD] <= self.thread_growths():
            return None
        return f"{ends[WITHOUT_A_THREAD]} runs had no memory for a thread, of which there are {self.thread_growths()}"


@dataclass
class Test:
    """A test, run by its name. Want of memory may end it, a wrong value not.

    The two are told apart by what it prints. An error that leaves the test by `?` prints its Debug text
    behind 'error: ' and gives status 101; that of want of memory has the name of the error in it. An
    assertion that compares what a call gave with what it gives in ample memory prints both and aborts:
    what it gave must then be the error, or the line of want of memory. Any other assertion is a wrong value:
    no test takes a call's want of memory for its answer."""

    name: str
    words: list
    input = row = None
    every = 1
    before = {}

    def has_threads(self):
        return "threads" in self.name.split("::")

    def thread_growths(self):
        return 0

    def whole(self, end):
        if not self.is_passed(end):
            raise ValueError("the test doesn't pass")

    def is_passed(self, end):
        return end.status == 0 and end.out.endswith("test result: ok\n") and not end.err

    def refused(self, end, whole, refusals):
        """It passed, it was left by `?` for want of memory, or an assertion shows that a call wanted it."""
        if self.is_passed(end):
            return PASSED
        error = re.match(r"error: .*\b(AllocError|AllocFailed|NoMemory|OutOfMemory)\b.*\n.*\n\Z", end.err)
        if error and end.status == 101:
            return LEFT
        if end.status == 101 and re.match(r'(error: ")?there was no memory"?\n', end.err):
            return LEFT
        sides = re.search(r"^ *left: (.*)\n *right: (.*)$", end.err, re.M)
        if sides and end.status == -signal.SIGABRT and GIVEN_FOR_MEMORY.fullmatch(sides[1]):
            return LEFT
        raise ValueError("the test fails by something else than want of memory")

    def amiss(self, ends):
        """What is wrong of the ends of all runs together, which are counted by their words, or None."""
        return None
