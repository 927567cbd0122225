"""What a record holds as objects, by the tables of docs/FORMATS.md: made in no way that the program makes it."""

from record_listing import DEEDS, RESULTS, runs, spans
from record_objects import spelled_object, words_of
from records import KIND_DEALLOCATE, KIND_PAIR, KIND_WRITE

SPACE = ("nsze", "block", "nabsn", "nabo", "nawun", "nacwu")


def head(record):
    space = record.namespace
    counts = {"limit": space.limit, "workers": record.workers, "jobs": len(record.jobs), "units": len(record.units)}
    return {"version": record.version, **{name: getattr(space, name) for name in SPACE}, **counts}


def deed(entry):
    """What an entry did."""
    if entry.kind == KIND_DEALLOCATE:
        return {"deed": "deallocate", "ranges": spans(entry.ranges)}
    told = {"deed": DEEDS[entry.kind], "lba": entry.first, "blocks": entry.blocks}
    if entry.kind == KIND_PAIR:
        half = len(entry.data) // 2
        return {**told, "compare": runs(entry.data[:half]), "write": runs(entry.data[half:])}
    return {**told, "data": runs(entry.data)} if entry.kind == KIND_WRITE else told


def objects(record):
    yield head(record)
    for number, job in enumerate(record.jobs):
        sent = [{"cid": command.cid, "command": words_of(command)} for command in job.body]
        yield {"job": number, "host": job.host, "sent": sent}
    for unit, entries in enumerate(record.units):
        for place, entry in enumerate(entries):
            yield {"unit": unit, "place": place, "worker": entry.worker, "job": entry.job, **deed(entry)}
    for worker, work in enumerate(record.done):
        for done in work:
            statuses = [f"{sct}/{sc:02x}" for sct, sc in done.statuses]
            parts = [{"unit": unit, "point": point, "result": RESULTS[result]} for unit, point, result in done.parts]
            answered = None if done.data is None else runs(done.data)
            yield {"worker": worker, "job": done.job, "statuses": statuses, "parts": parts, "data": answered}


def listing_objects(record):
    """What `nvq list --json` prints of a record before the object of its verdict."""
    return "".join(map(spelled_object, objects(record)))
