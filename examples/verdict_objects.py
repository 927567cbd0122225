"""The text of a verdict on a trace, made of the object that `nvq certify --json` prints of it.

The object has all that the text says, so the one must give the other to the byte. What a fact says in words is held to its other members.
"""

import json
import os
import re
import sys

sys.path.insert(0, os.path.join(os.path.dirname(os.path.abspath(__file__)), "..", "sweep"))
from trace_files import together_line

PROFILE = ("reads", "deallocated")
# The members of each fact behind its name, and behind its order.
ORDER, BLOCK = ("before", "after"), ("before", "after", "lba")
MEMBERS = {
    "time": ORDER,
    "deallocate": (*BLOCK, "deallocate", "writer"),
    "own": BLOCK,
    "source": (*BLOCK, "writer", "reader"),
    "over": (*BLOCK, "writer", "source", "reader"),
    "under": (*BLOCK, "writer", "source", "reader"),
    "first": (*BLOCK, "writer", "reader"),
    "at first": ("lba", "reader"),
    "tied before": (*BLOCK, "entry", "reader", "by"),
    "tied after": (*BLOCK, "entry", "reader", "by"),
}
# What each says of them, without which command of a pair is meant.
SAYS = {
    "time": "it had ended at {ended}, and {after} began at {began}",
    "deallocate": "a Deallocate that had ended at {ended} isn't done after a later write, and {after} began at {began}",
    "source": "only {writer} can have put what {reader} found there",
    "over": "{writer} put something there after {source}, whose data {reader} found",
    "under": "{writer} put something there, comes before {reader}, and {reader} found {source}'s data",
    "first": "{reader} found the zeroes there that were in LBA {lba} at first, and nobody can have left zeroes there",
    "tied before": "it does in LBA {by}, and {entry} put both at one moment",
    "tied after": "it does in LBA {by}, and {entry} put both at one moment",
}
FIRST_UNKNOWN = "{reader} found what was there at first, and nobody else can have left that"
# What stopped the search for an order, by the words for it.
STOPS = {
    "neither an order of its points nor a contradiction was found: a higher --effort may find one": "effort",
    "no order of its points explains it, but no contradiction by the rules was found": "everything",
}
CONCLUSIONS = {
    "loop": (("job",), "so {job} comes before itself"),
    "nobody": (("lba", "reader"), "{reader} found in LBA {lba} what nobody can have left there"),
    "nowhere": (("reader",), "{reader} failed to compare, and found in none of its blocks anything but what it compared"),
}


def named(told, *names):
    """The values of an object that has just these names, in this order."""
    if tuple(told) != names:
        raise ValueError(f"{tuple(told)} in place of {names}")
    return [told[name] for name in names]


def numbers(told, names):
    return "".join(f" {name} {value}" for name, value in zip(names, named(told, *names)))


def time(told):
    return "-" if told is None else str(told)


def command(told):
    """The line of a command."""
    job, began, ended, host, sent, statuses, data = named(told, "job", "began", "ended", "host", "sent", "statuses", "data")
    commands = " + ".join(f"{cid} {words}" for cid, words in (named(it, "cid", "command") for it in sent))
    reply = " ".join(statuses + ([] if data is None else [data]))
    return f"job {job} {began} {time(ended)} {host} {commands}{reply and f' = {reply}'}"


def words(members):
    """What members are called: blocks by their numbers, and all others as jobs."""
    return {name: it if name in ("lba", "by") else f"job {it}" for name, it in members.items()}


def held(text, *lines):
    """The text, if it is one of these lines, whichever command of a pair it names."""
    if re.sub(r"(job \d+)'s (Compare|Write)\b", r"\1", text) not in lines:
        raise ValueError(f"{text!r} in place of {lines}")
    return text


def fact(told, commands):
    """The line of a fact."""
    rule, *values, text = named(told, "fact", *MEMBERS[told["fact"]], "text")
    members = dict(zip(MEMBERS[rule], values))
    said = words(members)
    if rule == "at first":
        return held(text, "{reader} found in LBA {lba} what was there at first: nobody else can have left that".format(**said))
    if rule == "own":
        if text != "{before}'s Compare comes before its Write in LBA {lba}".format(**said) or members["before"] != members["after"]:
            raise ValueError(text)
        return text
    said.update(ended=time(commands[members["before"]]["ended"]), began=commands[members["after"]]["began"])
    order = "{before} comes before {after}".format(**said) + (f" in LBA {members['lba']}" if "lba" in members else "")
    return held(text, *(f"{order}: {it.format(**said)}" for it in (SAYS[rule], *((FIRST_UNKNOWN,) if rule == "first" else ()))))


def conclusion(told):
    names, line = CONCLUSIONS[told["conclusion"]]
    _, *values, text = named(told, "conclusion", *names, "text")
    return held(text, line.format(**words(dict(zip(names, values)))))


def text_of(printed):
    """The text of the verdict whose object was printed."""
    if printed.count("\n") != 1 or not printed.endswith("}\n"):
        raise ValueError("the object isn't one line")
    told = json.loads(printed)
    verdict = told.pop("verdict")
    if verdict == "explained":
        line = together_line(told.pop("together")) if list(told)[2] == "together" else ""
        return f"explained{numbers(told, ('jobs', 'points', *PROFILE))}\n{line}"
    if verdict == "unknown":
        stop, why = told.pop("stop"), told.pop("why")
        held(stop, STOPS[why])
        return f"unknown{numbers(told, PROFILE)}\n{why}\n"
    reads, deallocated, commands, facts, concluded = named(told, *PROFILE, "commands", "facts", "conclusion")
    by_number = {it["job"]: it for it in commands}
    lines = [f"{verdict} commands {len(commands)} reads {reads} deallocated {deallocated}", *map(command, commands)]
    lines += [*(fact(it, by_number) for it in facts), conclusion(concluded)]
    return "".join(f"{line}\n" for line in lines)
