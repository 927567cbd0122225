"""Runs of nvmu whose text and whose record are known to the byte, by the model in sweep/."""

from auditor import text
from model import Namespace
from recorded import recorded
from records import spelled

# Each option of nvmu at a value that no other has.
OPTIONS = {"nsze": 33, "block": 512, "nabsn": 9, "nabo": 4, "nawun": 7, "nacwu": 5, "workers": 1, "limit": 3}


def run_words(options, *files, out="record", left_out=None):
    given = {**options, "out": out}
    return ["nvmu", "run", *(f"--{name}={given[name]}" for name in given if name != left_out), *files]


def expected(run, options, names):
    """The record of a run of the files of these names, and the text that is shown of it."""
    space = Namespace(**{name: options[name] for name in options if name != "workers"})
    record = recorded(space, [run.kept(name) for name in names], workers=options["workers"])
    return record, text(record)


def ran(run, options, *names, lines=None, told=None, said=None):
    """Holds a run to its record and its text, and the audit of the record to its line. `lines` are those of the commands, and
    `told` with the verdict too, as they were worked out by hand. `said` has other spellings of options."""
    record, shown = expected(run, options, names)
    line = f"{shown.splitlines()[-1]}\n"
    if lines is not None:
        told = lines + line
    if told is not None:
        run.hold(f"the model of {names} with {options}", shown, told)
    run.expect(run_words({**options, **(said or {})}, *names), out=shown, files={"record": spelled(record)})
    run.expect(["nvmu", "audit", "record"], out=line)
