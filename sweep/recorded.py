"""The record of a run by one worker, made in no way that the program makes it."""

from auditor import SUCCESS, changed, changes, entry_of, looked, numbered, parts_of
from model import READ, jobs, refusal
from records import DONE, FAILED, FULL, LOOKED, NO_MEMORY, Done, Job, Record


class OneWorker:
    """A worker that does all jobs in their order. `wants` says at which part of a job a growth is refused, by the job's
    number: -1 stands for what is asked for before the first."""

    def __init__(self, namespace, bodies, wants):
        self.space, self.bodies, self.wants = namespace, bodies, wants
        self.blocks = [[bytes(namespace.block)] * count for _, count in namespace.units()]
        self.entries = [[] for _ in self.blocks]

    def part(self, number, body, place, part):
        """Does one part, and gives its result and what the job is told if it is the last."""
        unit, begin = part[0], self.space.units()[part[0]][0]
        status = looked(body, part, self.blocks[unit], begin)
        wants_memory = self.wants.get(number) == place
        if not changes(body):
            return (NO_MEMORY, ["0/06"]) if wants_memory else (LOOKED, [status])
        if status != SUCCESS:
            return FAILED, [status, "0/09"]
        if len(self.entries[unit]) == self.space.limit:
            return FULL, [SUCCESS, "0/06"][-len(body) :]
        if wants_memory:
            return NO_MEMORY, [SUCCESS, "0/06"][-len(body) :]
        self.entries[unit].append(entry_of(self.space, 0, number, body, part))
        changed(body, part, self.blocks[unit], begin, self.space.block)
        return DONE, [SUCCESS] * len(body)

    def read(self, part):
        unit, first, count = part
        begin = self.space.units()[unit][0]
        return b"".join(self.blocks[unit][first - begin : first - begin + count])

    def done(self, number):
        body = self.bodies[number]
        refused = refusal(self.space, body)
        if refused:
            return Done(number, (), numbered(refused))
        pieces = parts_of(self.space, body)
        if pieces and self.wants.get(number) == -1:
            return Done(number, (), numbered(["0/06", "0/09"][: len(body)]))
        found, statuses, data = [], [SUCCESS] * len(body), []
        for place, part in enumerate(pieces):
            point = len(self.entries[part[0]])
            result, statuses = self.part(number, body, place, part)
            found.append((part[0], point, result))
            if statuses != [SUCCESS] * len(body):
                break
            if body[0].opcode == READ:
                data.append(self.read(part))
        has_data = len(body) == 1 and body[0].opcode == READ and statuses == [SUCCESS]
        return Done(number, tuple(found), numbered(statuses), b"".join(data) if has_data else None)


def jobs_of(files, block):
    return tuple(Job(host, tuple(body)) for host, body in jobs(files, block))


def recorded(namespace, files, wants=None, workers=1):
    """The record of a run of these host files. With several workers there may be no job at all."""
    handed = jobs_of(files, namespace.block)
    if workers > 1 and handed:
        raise ValueError("which worker does what isn't known")
    worker = OneWorker(namespace, [job.body for job in handed], wants or {})
    done = tuple(worker.done(number) for number in range(len(handed)))
    return Record(2, namespace, workers, handed, tuple(map(tuple, worker.entries)), (done, *[()] * (workers - 1)))


def wants_of(record):
    """At which part of which job a record says that memory was wanted, as `recorded` takes it."""
    wants = {}
    for done in (done for jobs in record.done for done in jobs):
        if done.parts and done.parts[-1][2] == NO_MEMORY:
            wants[done.job] = len(done.parts) - 1
        body = record.jobs[done.job].body
        if not done.parts and not refusal(record.namespace, body) and parts_of(record.namespace, body):
            wants[done.job] = -1
    return wants
