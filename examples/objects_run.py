"""Runs of command lists by nvq that are told as objects: they say what the lines of the same run say, each by Python's json."""

import json
import random
import re

from hints import NO_SPACE, the_line, told
from lists_run import DEFAULTS, EACH, HOSTS, IDLE, OPTIONS, ORDERS, words
from model import Namespace
from record_objects import record_objects, spelled_object
from recorded import recorded
from records import record_of, spelled
from verdict_objects import named

LAWFUL = ("verdict", "jobs", "units", "changes", "refused")
# The objects of a pair that fails, of a Read of two runs, and of what is refused, in another spelling than their list has.
LIST = "compare 4 4 01 first\nwrite 4 4 55 second cid=0\nwrite 0 1 41 # so\n read  0 2\ndataset 0+1,9+2 deallocate\nop-7f 0 1 reserved nsid=7\n"
OBJECTS = """{"host":1,"cid":1,"command":"compare 4 4 2048*01 first","status":"2/85","data":null}
{"host":1,"cid":0,"command":"write 4 4 2048*55 second","status":"0/09","data":null}
{"host":1,"cid":3,"command":"write 0 1 512*41","status":"0/00","data":null}
{"host":1,"cid":4,"command":"read 0 2","status":"0/00","data":"512*41,512*00"}
{"host":1,"cid":5,"command":"dataset 0+1,9+2 deallocate","status":"0/00","data":null}
{"host":1,"cid":6,"command":"op-7f 0 1 reserved nsid=7","status":"0/01","data":null}
{"verdict":"lawful","jobs":5,"units":4096,"changes":3,"refused":0}
"""


def line_of(printed):
    """The line of the object that was printed on a line."""
    it = json.loads(printed)
    if spelled_object(it) != printed:
        raise ValueError("it is spelled in another way than Python's json spells it")
    if "verdict" in it:
        verdict, *numbers = named(it, *LAWFUL)
        return " ".join([verdict, *(f"{name} {number}" for name, number in zip(LAWFUL[1:], numbers))]) + "\n"
    host, cid, command, status, data = named(it, "host", "cid", "command", "status", "data")
    return " ".join([str(host), str(cid), command.split()[0], status, *([] if data is None else [data])]) + "\n"


def lines_of(printed):
    return "".join(map(line_of, printed.splitlines(True)))


def objects_run(run):
    def ran(options, names):
        """A run by one worker is held to the record of a model, and to the lines that it prints without the option."""
        options = {**DEFAULTS, **options}
        files = []
        for name in names:
            run.expect(["nvq", "assemble", "--block", str(options["block"]), name, "of.nvq"])
            files.append(run.kept("of.nvq"))
        space = Namespace(**{name: options[name] for name in options if name != "workers"})
        record = recorded(space, files, workers=1)
        objects = record_objects(record)
        asked = words(*names, **{**options, "workers": 1, "record": "kept"})
        run.expect([*asked, "--json"], out=objects, files={"kept": spelled(record)})
        run.expect(["nvq", "audit", "--json", "kept"], out=objects.splitlines(True)[-1])
        lines = [line for line in run.output(asked).splitlines(True) if not line.startswith("  ")]
        run.hold(f"what is told of {names}", lines_of(objects), "".join(lines))

    run.keep("it", LIST)
    run.expect([*words("it", workers=1), "--json"], out=OBJECTS)
    run.keep("each", EACH)
    for options in ({}, {"limit": 2}, OPTIONS):
        ran(options, ["each"])
    for name, listed in HOSTS.items():
        run.keep(name, listed)
    for names in ORDERS:
        ran({}, names)
    run.keep("large", "write 0 1 4096*41\nread 0 1\n")
    ran({"block": 4096}, ["large"])
    several(run)
    faults(run)


def several(run):
    """Where several workers do the commands, the objects are those of the record that is kept."""
    names = [f"load-{host}" for host in range(1, 5)]
    for seed in random.Random(7).sample(range(2**32), 3):
        run.expect(["nvq", "generate", "--seed", str(seed), "--commands", "200", "--deallocate", "2", *names])
        asked = words(*names, nsze=32, workers=4, record="kept")
        objects = run.output([*asked, "--json"])
        run.hold(f"the objects of load {seed}", objects, record_objects(record_of(run.kept("kept"))))


def faults(run):
    """No object is printed of a run that ends in a fault, and each fault is told as without the option."""
    run.keep("none", "# nothing\n")
    run.expect([*words("none"), "--json"], out='{"verdict":"lawful","jobs":0,"units":4096,"changes":0,"refused":0}\n', err=IDLE)
    # What a list expects isn't looked at, as without --check, but a wrong expectation is.
    run.keep("expecting", "read 0 1 expect 2/85\n")
    run.hold("an expectation", len(run.output([*words("expecting"), "--json"]).splitlines()), 2)
    run.keep("wrong", "read 0 1\nread 0 1 expect\n")
    err = told("nvq: wrong: line 2: expected a status after expect, as in 2/85", the_line("read 0 1 expect"))
    run.keep("old", b"old")
    run.expect([*words("it", "wrong", record="old"), "--json"], 1, err=err, files={"old": b"old"})
    run.expect([*words("it", record="-"), "--json"], 1, err="nvq: the record can't go to standard output\n")
    with open("/dev/full", "wb") as full:
        found = run.status_of([*words("it", record="kept"), "--json"], stdout=full)
    run.hold("a full standard output", found, (1, told("nvq: cannot write -", NO_SPACE).encode()))
    for given in (["--json", "--check"], ["--check", "--json"], ["--json=yes"], ["--json", "--json"]):
        run.refuse([*words("it"), *given])
    status, said = run.status_of([*words("it"), "--json", "--check"])
    run.hold("what is told of both", (status, re.findall(rb"'--(\w+)'", said.splitlines()[0])), (1, [b"json", b"check"]))
