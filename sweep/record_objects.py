"""The answers of a run as objects, by the tables of docs/FORMATS.md: made of its record, and of the lines that are shown of it."""

import json

from auditor import text
from record_listing import asked


def spelled_object(told):
    """An object as it is printed, with its line feed."""
    return json.dumps(told, separators=(",", ":")) + "\n"


def words_of(command):
    """The words of a command, without its identifier."""
    return asked(command) + ("" if command.nsid == 1 else f" nsid={command.nsid}")


def command_object(host, command, line):
    """What is told of a command, whose line is this one."""
    _, _, _, status, *data = line.split()
    return {"host": host, "cid": command.cid, "command": words_of(command), "status": status, "data": data[0] if data else None}


def verdict_object(line):
    """The object of a lawful record, whose line is this one."""
    verdict, *numbers = line.split()
    return {"verdict": verdict, **dict(zip(numbers[::2], map(int, numbers[1::2])))}


def record_objects(record):
    """What `nvq run --json` prints of a record."""
    *lines, verdict = text(record).splitlines()
    commands = [(job.host, command) for job in record.jobs for command in job.body]
    told = [command_object(*it, line) for it, line in zip(commands, lines, strict=True)]
    return "".join(map(spelled_object, [*told, verdict_object(verdict)]))
