"""The audit of a record: what is looked for, in its order, and the line that tells the verdict, or a line for each unit in which something is wrong."""

from collections import Counter, defaultdict

from model import COMPARE, DATASET, MARK, READ, UNCORRECTABLE, WRITE, ZEROES, look, parts, refusal, runs
from records import DONE, FAILED, FULL, KIND_DEALLOCATE, KIND_PAIR, KINDS, LOOKED, NO_MEMORY, Entry

SUCCESS, WANTED = "0/00", "0/06"


class Unlawful(Exception):
    """The first fault, as the line tells it."""

    def __init__(self, fault, job, unit="-", place="-"):
        super().__init__(f"unlawful {fault} job {job} unit {unit} place {place}")


def told(statuses):
    """Statuses as lines have them."""
    return [f"{kind}/{code:02x}" for kind, code in statuses]


def numbered(statuses):
    """Statuses as records have them."""
    return tuple((int(it[0]), int(it[2:4], 16)) for it in statuses)


def changes(body):
    return body[-1].opcode in KINDS


def parts_of(space, body):
    """The job's parts: of each its unit, its first LBA, and its number of blocks."""
    return list(parts(space, body[0]))


def entry_of(space, worker, number, body, part):
    """What a change that is this part of the job leaves in the unit's history."""
    unit, begin, count = part
    lead, last = body[0], body[-1]
    if last.opcode == DATASET:
        cut = [(max(first, begin), min(first + blocks, begin + count)) for first, blocks in last.ranges]
        ranges = tuple((first, end - first) for first, end in cut if first < end)
        return Entry(worker, number, KIND_DEALLOCATE, ranges=ranges)
    at = begin - lead.first
    data = b"".join(it for command in body for it in command.data[at : at + count])
    return Entry(worker, number, KIND_PAIR if len(body) == 2 else KINDS[last.opcode], begin, count, data)


def looked(body, part, blocks, begin):
    """The status of a look of the job's part at a unit's blocks, of which the first has LBA `begin`."""
    _, first, count = part
    at = first - body[0].first
    return look(body[0], tuple(blocks[first - begin : first - begin + count]), body[0].data[at : at + count])


def changed(body, part, blocks, begin, size):
    """Changes the unit's blocks by the job's part."""
    _, first, count = part
    last = body[-1]
    if last.opcode == DATASET:
        for lba, length in last.ranges:
            low, high = max(lba, begin), min(lba + length, begin + len(blocks))
            if low < high:
                blocks[low - begin : high - begin] = [bytes(size)] * (high - low)
        return
    at = first - last.first
    new = {WRITE: last.data[at : at + count], ZEROES: [bytes(size)] * count, UNCORRECTABLE: [MARK] * count}
    blocks[first - begin : first - begin + count] = new[last.opcode]


class Audit:
    def __init__(self, record):
        self.record, self.space = record, record.namespace
        self.bodies = [job.body for job in record.jobs]
        self.refusals = [refusal(self.space, body) for body in self.bodies]
        self.parts = [[] if no else parts_of(self.space, body) for body, no in zip(self.bodies, self.refusals)]
        self.units = self.space.units()

    def verdict(self):
        """The line of the verdict, without its end."""
        try:
            self.jobs()
            self.shapes()
            self.all_units()
        except Unlawful as fault:
            return str(fault)
        refused = sum(WANTED in told(done.statuses) for jobs in self.record.done for done in jobs)
        count = sum(map(len, self.record.units))
        return f"lawful jobs {len(self.bodies)} units {len(self.units)} changes {count} refused {refused}"

    def jobs(self):
        times = Counter(done.job for jobs in self.record.done for done in jobs)
        for job in range(len(self.bodies)):
            if times[job] != 1:
                raise Unlawful("JobTwice" if times[job] else "JobMissing", job)

    def shapes(self):
        for done in sorted((done for jobs in self.record.done for done in jobs), key=lambda it: it.job):
            if not self.has_shape(done):
                raise Unlawful("StatusWrong", done.job)

    def has_shape(self, done):
        body, statuses = self.bodies[done.job], told(done.statuses)
        if self.refusals[done.job]:
            return not done.parts and statuses == self.refusals[done.job] and done.data is None
        pieces, results = self.parts[done.job], [result for _, _, result in done.parts]
        if [unit for unit, _, _ in done.parts] != [unit for unit, _, _ in pieces][: len(done.parts)]:
            return False
        fitting = {DONE, NO_MEMORY, FULL, *([FAILED] if len(body) == 2 else [])} if changes(body) else {LOOKED, NO_MEMORY}
        if not set(results) <= fitting or not set(results[:-1]) <= {DONE, LOOKED}:
            return False
        is_whole = len(done.parts) == len(pieces)
        if not results:
            wanted = [SUCCESS] if not pieces else [WANTED, "0/09"][: len(body)]
        elif results[-1] in (NO_MEMORY, FULL):
            wanted = [SUCCESS, WANTED][-len(body) :]
        elif results[-1] == DONE:
            wanted = [SUCCESS] * len(body) if is_whole else None
        else:
            wanted = statuses
        if statuses != wanted or not is_whole and statuses == [SUCCESS] * len(body):
            return False
        return (done.data is not None) == (len(body) == 1 and body[0].opcode == READ and statuses == [SUCCESS])

    def all_units(self):
        """Every unit, with what each worker did there, in its order."""
        at = self.parts_by_unit()
        for unit in range(len(self.units)):
            self.one_unit(unit, at[unit])

    def parts_by_unit(self):
        at = defaultdict(list)
        for worker, jobs in enumerate(self.record.done):
            for done in jobs:
                for place, (unit, _, _) in enumerate(done.parts):
                    at[unit].append((worker, done, place))
        return at

    def one_unit(self, unit, there):
        self.points(unit, there, self.entries(unit, there))

    def faults(self):
        """The line of the first fault of each unit that has one; or the one line of a record that is lawful, or in which a job is wrong by itself."""
        line, at = self.verdict(), self.parts_by_unit()
        if line.startswith("lawful") or " unit - " in line:
            return [line]
        lines = []
        for unit in range(len(self.units)):
            try:
                self.one_unit(unit, at[unit])
            except Unlawful as fault:
                lines.append(str(fault))
        return lines

    def part_in(self, job, unit):
        return next((part for part in self.parts[job] if part[0] == unit), None)

    def entries(self, unit, there):
        """Judges the entries of the unit, and gives its blocks at each point at which a part stands."""
        begin, count = self.units[unit]
        blocks, entries = [bytes(self.space.block)] * count, self.record.units[unit]
        points = {done.parts[place][1] for _, done, place in there}
        claims = {(worker, done.job, done.parts[place][1]) for worker, done, place in there if done.parts[place][2] == DONE}
        states = {}
        for place, entry in enumerate(entries):
            if place in points:
                states[place] = list(blocks)
            body, part = self.bodies[entry.job], self.part_in(entry.job, unit)
            if part is None or not changes(body) or entry != entry_of(self.space, entry.worker, entry.job, body, part):
                raise Unlawful("EntryWrong", entry.job, unit, place)
            if looked(body, part, blocks, begin) != SUCCESS:
                raise Unlawful("EntryWrong", entry.job, unit, place)
            if (entry.worker, entry.job, place) not in claims:
                raise Unlawful("EntryUnclaimed", entry.job, unit, place)
            changed(body, part, blocks, begin, self.space.block)
        states[len(entries)] = blocks
        return states

    def points(self, unit, there, states):
        """Judges the parts in the unit, worker by worker, each one's as it did them."""
        entries = self.record.units[unit]
        earlier, own = defaultdict(int), defaultdict(lambda: -1)
        for worker, done, place in there:
            _, point, result = done.parts[place]

            def wrong(fault):
                return Unlawful(fault, done.job, unit, point)

            if point > len(entries):
                raise wrong("PointPast")
            if result == DONE:
                entry = entries[point] if point < len(entries) else None
                if entry is None or (entry.worker, entry.job) != (worker, done.job):
                    raise wrong("PointPast")
            if point < earlier[worker] or point <= own[worker]:
                raise wrong("PointBack")
            earlier[worker] = point
            if result == DONE:
                own[worker] = point
            self.answer(unit, done, place, states[point], wrong)

    def answer(self, unit, done, place, blocks, wrong):
        """Judges what is recorded of a part against the unit's blocks at its point."""
        body, part, (_, point, result) = self.bodies[done.job], self.part_in(done.job, unit), done.parts[place]
        begin, _ = self.units[unit]
        status, statuses = looked(body, part, blocks, begin), told(done.statuses)
        is_right = {
            DONE: True,
            FAILED: status != SUCCESS and statuses == [status, "0/09"],
            NO_MEMORY: not changes(body) or point < self.space.limit and status == SUCCESS,
            FULL: point == self.space.limit and status == SUCCESS,
            LOOKED: status == (statuses[0] if place == len(done.parts) - 1 else SUCCESS),
        }[result]
        if not is_right:
            raise wrong("StatusWrong")
        if done.data is not None:
            at, size = (part[1] - body[0].first) * self.space.block, part[2] * self.space.block
            low = part[1] - begin
            if done.data[at : at + size] != b"".join(blocks[low : low + part[2]]):
                raise wrong("DataWrong")


def verdict(record):
    """The line that is printed of a record, without its end."""
    return Audit(record).verdict()


def all_faults(record):
    """All that is printed of the first faults of all units, or of a lawful record."""
    faults = Audit(record).faults()
    count = [] if faults[0].startswith("lawful") else [f"faults {len(faults)}"]
    return "".join(f"{line}\n" for line in [*faults, *count])


def lines(record):
    """The lines of a record's commands, without their ends."""
    done = {it.job: it for jobs in record.done for it in jobs}
    for number, job in enumerate(record.jobs):
        it = done[number]
        read = "" if it.data is None else f" {runs((it.data,))}"
        for command, status in zip(job.body, told(it.statuses)):
            yield f"{job.host} {command.cid} {command.name()} {status}{read}"


def text(record):
    """All that a run prints of its record."""
    return "".join(f"{line}\n" for line in [*lines(record), verdict(record)])
