"""The lists that nvq generate writes: those of the model in sweep/loads.py, to the byte, and what is said where none are written."""

import os

from auditor import verdict
from hints import FOLDER, GEOMETRY, IS_OTHER_LIST, MISSING, NO_SPACE, told
from loads import WEIGHTS, Load, generated
from model import Namespace
from records import record_of

# The options of a load each.
LOADS = [
    {},
    {"seed": 2, "deallocate": 2},
    {"seed": 2**64 - 1, "commands": 1},
    {"nsze": 1, "commands": 300},
    {"nsze": 61, "nabsn": 9, "nabo": 4, "nawun": 6, "nacwu": 3},
    {"block": 4096, "nabsn": 1, "commands": 300},
    # A unit of more than 256 blocks, with and without boundaries.
    {"nsze": 700, "nabsn": 299, "commands": 40},
    {"nsze": 700, "nabsn": 0, "commands": 40},
]
# Weights of the kinds. A pair that has no second place is a Read.
MIXES = [{"pair": 1}, {"read": 1}, {"write": 1, "compare": 1}, {"uncorrectable": 65_535, "deallocate": 65_535}, {}]
# Statuses of a load in order: success, a comparison that failed, and a Write that was aborted with it.
SERVED = {(0, 0x00), (2, 0x85), (0, 0x09)}


def words(*outs, **options):
    return ["nvq", "generate", *(f"--{name}={value}" for name, value in options.items()), *outs]


def load_of(options):
    """The load that the options ask for. A unit is whole where they say nothing of its limits."""
    options = {"nsze": 32, "nabsn": 7, **options}
    whole = options["nabsn"] or 65_535
    weights = {kind: options.pop(kind, weight) for kind, weight in WEIGHTS.items()}
    asked = {name: options.pop(name) for name in ("seed", "commands") if name in options}
    return Load(**asked, space=Namespace(**{"nawun": whole, "nacwu": whole, **options}), weights=weights)


def lists_of(names, options):
    """The files of a load's lists, by their names; the k-th name is that of host k's."""
    return {name: generated(load_of(options), host).encode() for host, name in enumerate(names, 1)}


def lists_generated(run):
    for options in LOADS:
        names = ["one", "two", "three"]
        run.expect(words(*names, **options), files=lists_of(names, options))
    for mix in MIXES:
        options = {"commands": 51, **dict.fromkeys(WEIGHTS, 0), **mix}
        run.expect(words("-", **options), out=generated(load_of(options), 1))
    # Numbers may be spelled otherwise.
    options = {"seed": 16, "commands": 1024, "block": 4096, "nsze": 700, "nabsn": 255, "write": 4096}
    spelled = {"seed": "0x10", "commands": "1k", "block": "4K", "nsze": "0X2bc", "nabsn": "0xFF", "write": "+4k"}
    run.expect(words("-", **spelled), out=generated(load_of(options), 1))
    # As many lists as there can be, of which the first is thrown away.
    names = ["/dev/null", *(f"of-{host}" for host in range(2, 65))]
    files = lists_of(names, {"commands": 3})
    del files["/dev/null"]
    run.expect(words(*names, commands=3), files=files)
    # As many commands as there can be.
    options = {"commands": 65_535, "nsze": 2, "nabsn": 0, "nawun": 0}
    run.expect(words("many", **options), files=lists_of(["many"], options))
    lists_are_run(run)
    words_refused(run)
    places_refused(run)
    kept_after_a_fault(run)


def lists_are_run(run):
    """What is generated is done as it is, without a refusal, and the record is lawful. The same words run it that generated it."""
    numbers = ["--nsze=48", "--nabsn=7", "--nabo=3", "--nacwu=5"]
    names = [f"host-{host}" for host in range(1, 5)]
    run.expect(["nvq", "generate", "--seed=9", "--commands=400", *numbers, *names])
    run.expect(["nvq", "run", "--workers=4", "--record=of-load", *numbers, *names], out=run.SOME)
    record = record_of(run.kept("of-load"))
    line = verdict(record)
    run.hold("verdict on a load", line.startswith("lawful ") and line.endswith(" refused 0"), True)
    run.expect(["nvmu", "audit", "of-load"], out=f"{line}\n")
    statuses = {status for done in record.done for it in done for status in it.statuses}
    run.hold("statuses of a load", statuses, SERVED)
    run.expect(["nvq", "assemble", "host-1", "host-1.nvq"])
    run.expect(["nvq", "list", "host-1.nvq"], out=run.kept("host-1"))


def words_refused(run):
    run.keep("old", b"old")
    for options, fault in (
        ({"nsze": 0}, "Size"),
        ({"nsze": 65_537}, "Size"),
        ({"nabsn": 0, "nabo": 1}, "OffsetWithoutBoundary"),
        ({"nabo": 8}, "OffsetAboveBoundary"),
        ({"nawun": 8}, "WriteUnitAboveBoundary"),
        ({"nacwu": 8}, "PairUnitAboveBoundary"),
        ({"nsze": 32_769}, "TooManyUnits"),
    ):
        run.expect(words("old", **options), 1, err=told(f"nvq: geometry: {fault}", GEOMETRY[fault]), files={"old": b"old"})
    many = "there are 65 lists, and at most 64 can be run"
    run.expect(words(*["old"] * 65, nsze=0), 1, err=told("nvq: too many hosts", many), files={"old": b"old"})
    numbers = {"seed": [-1, 2**64, "x"], "commands": [0, 65_536], "nsze": [-1], "block": [1024], "pair": [-1, 65_536], "mix": [1]}
    for name, values in numbers.items():
        for value in values:
            run.refuse(words("old", **{name: value}))
    run.refuse(["nvq", "generate"])
    run.refuse(["nvq", "generate", "--seed", "1", "--seed", "1", "old"])
    run.expect(["nvq", "generate", "--help"], out=run.SOME)


def places_refused(run):
    """No two lists go to one place: none is written, and nothing is left of those that were begun."""
    run.keep("old", b"old")
    os.symlink("old", os.path.join(run.folder, "linked"))
    os.mkdir(os.path.join(run.folder, "within"))
    for outs, fault, hint in (
        (["old", "fresh", "old"], "old", IS_OTHER_LIST),
        (["-", "-"], "-", IS_OTHER_LIST),
        (["old", "./old"], "./old", IS_OTHER_LIST),
        (["linked", "old"], "old", IS_OTHER_LIST),
        # Nothing stands there yet.
        (["fresh", "./fresh"], "./fresh", IS_OTHER_LIST),
        (["within/../fresh", "old", "fresh"], "fresh", IS_OTHER_LIST),
        (["old", "fresh", "absent/list"], "absent/list", MISSING),
        (["old", "fresh", "."], ".", FOLDER),
    ):
        run.expect(words(*outs), 1, err=told(f"nvq: cannot write {fault}", hint), files={"old": b"old"})
        run.hold(f"{outs}", (os.path.exists(os.path.join(run.folder, "fresh")), unfinished(run)), (False, []))
    # One name in two folders, and two names in one.
    names = ["fresh", "within/fresh", "within/other"]
    run.expect(words(*names, commands=3), files=lists_of(names, {"commands": 3}))
    # A link that leads to nothing is written through, and its file stands once it is begun.
    os.symlink("later", os.path.join(run.folder, "leading"))
    for outs in (["leading", "later"], ["later", "leading"]):
        run.expect(words(*outs), 1, err=told(f"nvq: cannot write {outs[1]}", IS_OTHER_LIST))
        run.hold(f"{outs}", unfinished(run), [])
        os.remove(os.path.join(run.folder, "later"))
    for outs in (["-", "shown"], ["shown", "-"]):
        with open(os.path.join(run.folder, "shown"), "wb") as shown:
            found = run.status_of(words(*outs), stdout=shown)
        wanted = (1, told(f"nvq: cannot write {outs[1]}", IS_OTHER_LIST).encode()), b""
        run.hold(f"{outs} > shown", (found, run.kept("shown")), wanted)


def kept_after_a_fault(run):
    """Where one list can't be written, however short it is, no other takes its place. A fault in taking a place isn't tried."""
    run.keep("old", b"old")
    for commands in (3, 1000):
        with open("/dev/full", "wb") as full:
            found = run.status_of(words("old", "-", commands=commands), stdout=full)
        run.hold("a list > /dev/full", (found, run.kept("old")), ((1, told("nvq: cannot write -", NO_SPACE).encode()), b"old"))
        run.hold("beside a list > /dev/full", unfinished(run), [])


def unfinished(run):
    """The files that were begun and took no place."""
    return [name for name in os.listdir(run.folder) if name.startswith(".nvm-unfinished")]
