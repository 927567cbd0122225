"""Traces as the programs are swept with them: judged by records, made of text, and listed."""

import os
from dataclasses import replace

from auditor import all_faults, verdict
from cases import Run
from hints import MISSING, the_line, told
from host_files import compare, dataset, file_of, pair, read, write, zeroes
from model import Namespace
from record_explaining import lawful_explanation
from recorded import recorded
from records import record_of as parsed
from records import spelled as record_bytes
from trace_files import Seen, Trace, in_turn, spelled, text_of, told_together, with_seen

RECORD = recorded(Namespace(nabsn=7), [file_of([write(0, 0x41), read(0, 1), *pair(compare(0, 0x41), write(0, 0x42)), zeroes(9, 2), read(7, 2)])])
TRACE = in_turn(RECORD)
UNITS = len(RECORD.namespace.units())
# The contradiction that nobody can have left what point 1, job 1's, found in LBA 0.
NOBODY = bytes.fromhex("4e564531 020002 01 01000000 00000000 0000000000000000")
PROFILE = "reads atomic deallocated either"


def witnesses(kept):
    """The cases of nvmu. `kept` makes a file and gives its path."""
    record, missing = kept("witnessed", record_bytes(RECORD)), kept("witnessed", record_bytes(RECORD)) + "-missing"

    def judged(name, trace, line, *words):
        path = kept(f"trace-{name}", spelled(trace))
        return Run(name, "nvmu", ["witness", *words, path, record], 0 if line.startswith("explained") else 2, out=f"{line}\n", units=UNITS)

    def fault(name, file, line):
        path = kept(f"trace-{name}", file)
        return Run(name, "nvmu", ["witness", path, record], 1, err=f"nvmu: trace: {line}\n")

    def refuted(name, contradiction, status, **more):
        path, file = kept("refuted.nvt", spelled(with_seen(TRACE, 1, data=b"\x43" * 512))), kept(f"contradiction-{name}", contradiction)
        return Run(name, "nvmu", ["refute", path, file], status, **more)

    whole = spelled(TRACE)
    return [
        refuted("a refuted trace", NOBODY, 0, out=f"refuted commands 1 facts 0 {PROFILE}\n"),
        refuted("a conclusion that doesn't follow", NOBODY[:8] + b"\0" + NOBODY[9:], 2, out="unrefuted NothingContradicted fact -\n"),
        refuted("a cut contradiction", NOBODY[:-1], 1, err=f"nvmu: contradiction: truncated at {len(NOBODY) - 8}\n"),
        Run("a reply that refutes its trace", "nvmu", ["refute", kept("odd.nvt", spelled(odd_reply())), kept("odd.nve", NOBODY)], out="refuted job 0\n"),
        judged("an explained trace", TRACE, f"explained jobs 5 units {UNITS} steps 6 excused 0 preparations 0"),
        judged("an explained trace of nothing but errors", in_errors(), f"explained jobs 5 units {UNITS} steps 6 excused 5 preparations 0", "--strict"),
        judged("a reply that differs", with_seen(TRACE, 1, data=b"\x42" * 512), "unexplained ReplyDiffers job 1 unit - place -"),
        judged("a time that goes back", with_seen(TRACE, 2, began=1, ended=2), "unexplained TimeBack job 2 unit 0 place 1"),
        fault("a cut trace", whole[:-1], f"truncated at {len(whole) - 1024}"),
        fault("no trace", record_bytes(RECORD)[:2], "bad name"),
        Run("a missing trace", "nvmu", ["witness", missing, record], 1, err=f"nvmu: cannot read {missing}\n"),
        Run("a trace that an order explains", "nvmu", ["witness", kept("keeping.nvt", spelled(KEEPING)), kept("keeping.nve", ORDER)], out=ORDERED),
        Run("a cut order", "nvmu", ["witness", kept("keeping.nvt", spelled(KEEPING)), kept("cut.nve", ORDER[:-1])], 1, err=f"nvmu: order: truncated at {len(ORDER) - 1}\n"),
        Run("no record of a trace", "nvmu", ["witness", record], 1),
    ]


def in_errors():
    """The trace where each command came back with an error that doesn't say what was done."""
    trace = TRACE
    for number, seen in enumerate(TRACE.jobs):
        trace = with_seen(trace, number, statuses=((0, 6),) * len(seen.body), data=None)
    return trace


def of_text(kept):
    """The cases of nvq."""
    text = text_of(TRACE)
    path, file = kept("trace.txt", text.encode()), kept("trace.nvt", spelled(TRACE))
    wrong = kept("wrong.txt", text.replace("= 0/00\n", "= 0/0\n", 1).encode())
    line = text.split("\n")[1].replace("= 0/00", "= 0/0")
    err = told("nvq: line 2: expected a status, as in 0/00", the_line(line, of=wrong))
    return [
        Run("the text of a trace", "nvq", ["trace", path, "out.nvt"], out="", files={"out.nvt": spelled(TRACE)}),
        Run("a trace is listed", "nvq", ["list", file], out=text),
        Run("a wrong line of a trace's text", "nvq", ["trace", wrong, "out.nvt"], 1, err=err),
        Run("a cut trace", "nvq", ["list", kept("cut.nvt", spelled(TRACE)[:-1])], 1, err=f"nvq: {os.path.dirname(path)}/cut.nvt: truncated at {len(spelled(TRACE)) - 1024}\n"),
    ]


def explained(kept):
    """The cases of nvq which tell of a trace and a record."""
    record = kept("explaining.nvr", record_bytes(RECORD))
    told_read = "as job 1 the record has:\njob 1 host 1 cid 2 nsid 1 read 0 1\nworker 0 job 1 status 0/00\nworker 0 job 1 unit 0 point 1 looked\nworker 0 job 1 data 512*41\n"
    differs = with_seen(TRACE, 1, data=b"\x42" * 512)
    reply = "ReplyDiffers: what the record shows of the job isn't what its host saw.\n"
    back = with_seen(TRACE, 2, began=1, ended=2)
    cut_contradiction = kept("cut-contradiction.nve", NOBODY[:-1])
    late = "TimeBack: the job had ended before one began that stands before it in the unit.\n"

    def told_of(name, trace, out, rounds=1):
        return Run(name, "nvq", ["explain", kept(f"explained-{name}", spelled(trace)), record], out=out, units=UNITS, rounds=rounds)

    return [
        # Two audits, each of which does with fewer threads where a thread's memory is refused.
        told_of("a trace and a record", TRACE, f"explained jobs 5 units {UNITS} steps 6 excused 0 preparations 0\n{lawful_explanation(RECORD)}", 2),
        told_of("a reply and its record", differs, f"unexplained ReplyDiffers job 1 unit - place -\n{reply}as job 1 the trace has: {line_of(differs, 1)}{told_read}"),
        told_of(
            "a time that goes back, and the step before",
            back,
            f"unexplained TimeBack job 2 unit 0 place 1\n{late}as job 2 the trace has: {line_of(back, 2)}job 2 unit 0 point 1 entry began 1 ended 2\n"
            f"as job 0 the trace has: {line_of(back, 0)}job 0 unit 0 point 0 entry began {back.jobs[0].began} ended {back.jobs[0].ended}\n"
            f"job 0 began at {back.jobs[0].began}, after job 2 had ended at 2, and stands before it in unit 0\n",
        ),
        Run(
            "a trace and an order",
            "nvq",
            ["explain", kept("keeping.nvt", spelled(KEEPING)), kept("keeping.nve", ORDER)],
            out=f"{ORDERED}position 0 point 0 lba 0 blocks 1 job 0 puts 512*41\nposition 1 point 2 lba 0 blocks 1 job 2 finds 512*41\n",
        ),
        Run(
            "a trace and a contradiction",
            "nvq",
            ["explain", kept("stale.nvt", spelled(STALE)), kept("stale.nve", STALE_FIRST)],
            out=f"refuted commands 2 facts 2 {PROFILE}\nNo order of these commands gives what their hosts saw.\njob 0 {line_of(STALE, 0)}job 2 {line_of(STALE, 2)}"
            "job 2 comes before job 0 in LBA 0: job 2 found the zeroes there that were in LBA 0 at first, and nobody can have left zeroes there\n"
            "job 0 comes before job 2: it had ended at 2, and job 2 began at 5\nso job 0 comes before itself\n",
        ),
        Run("a cut contradiction to explain", "nvq", ["explain", kept("stale.nvt", spelled(STALE)), cut_contradiction], 1, err=f"nvq: {cut_contradiction}: truncated at {len(NOBODY) - 8}\n"),
        Run("standard input named twice to explain", "nvq", ["explain", "-", "-"], 1, err="nvq: standard input is named twice\n"),
    ]


def judged(kept):
    """The cases of nvq which judge a record, and a trace by it."""
    record, trace = kept("judged.nvr", record_bytes(RECORD)), kept("judged.nvt", spelled(TRACE))
    cut, wrong = kept("cut-to-judge.nvr", record_bytes(RECORD)[:-1]), kept("wrong.nvt", spelled(with_seen(TRACE, 1, data=b"\x42" * 512)))
    unlawful = bytearray(record_bytes(RECORD))
    unlawful[-1] ^= 1
    nobody = kept("nobody.nve", NOBODY)

    def done(name, words, out, status=0):
        return Run(name, "nvq", words, status, out=out, units=UNITS)

    return [
        done("an audit by nvq", ["audit", record], verdict(RECORD) + "\n"),
        done("an audit of a wrong record by nvq", ["audit", kept("wrong.nvr", bytes(unlawful))], verdict(parsed(bytes(unlawful))) + "\n", 2),
        done("all faults of a record by nvq", ["audit", "--all", record], all_faults(RECORD)),
        done("all faults of a wrong record by nvq", ["audit", "--all", kept("faulty.nvr", bytes(unlawful))], all_faults(parsed(bytes(unlawful))), 2),
        done("an object of an audit by nvq", ["audit", "--json", record], '{"verdict":"lawful","jobs":5,"units":%d,"changes":3,"refused":0}\n' % UNITS),
        done("a witness by nvq", ["witness", trace, record], f"explained jobs 5 units {UNITS} steps 6 excused 0 preparations 0\n"),
        done("a wrong trace by nvq", ["witness", wrong, record], "unexplained ReplyDiffers job 1 unit - place -\n", 2),
        Run("a trace that an order explains, to nvq", "nvq", ["witness", kept("keeping.nvt", spelled(KEEPING)), kept("keeping.nve", ORDER)], out=ORDERED),
        Run("a contradiction for an order, to nvq", "nvq", ["witness", kept("stale.nvt", spelled(STALE)), nobody], 1, err=told(f"nvq: {nobody}: bad value at 4", f"{nobody} is a contradiction: nvmu refute TRACE {nobody} judges it, nvq explain TRACE {nobody} shows it")),
        Run("a cut record to audit", "nvq", ["audit", cut], 1, err=f"nvq: {cut}: truncated at {len(record_bytes(RECORD)) - 1024}\n"),
        Run("standard input named twice to judge", "nvq", ["witness", "-", "-"], 1, err="nvq: standard input is named twice\n"),
        Run("no record to audit", "nvq", ["audit"], 1),
        Run("help on the witness by nvq", "nvq", ["witness", "--help"], 0),
    ]


def on_a_block(*steps, **more):
    """A trace of Writes and Reads of block 0 of a unit of 8, each by a host of its own: of each, when it began and ended, the command, and
    the byte that fills the data of a Read."""
    space = Namespace(nsze=8, nabsn=7)
    jobs = recorded(space, [file_of([command for _, _, command, _ in steps])]).jobs
    seen = (
        Seen(host, job.body, began, ended, ((0, 0),), None if byte is None else bytes([byte]) * 512)
        for host, (job, (began, ended, _, byte)) in enumerate(zip(jobs, steps), 1)
    )
    return Trace(space, tuple(seen), **more)


# A Read found the first zeroes after two Writes.
STALE = on_a_block((1, 2, write(0, 1), None), (3, 4, write(0, 2), None), (5, 6, read(0, 1), 0), (7, 8, read(0, 1), 2))
# A contradiction of it: the Read comes before the first Write, which had ended when it began.
STALE_FIRST = bytes.fromhex("4e564531 020002 00 0200000000000000 06 02000000 00000000 00000000 00 00000000 00000000 02000000 00000000")
# Of three Writes at once two leave the same.
TWICE = on_a_block(*((1, 10, write(0, it), None) for it in (1, 2, 1)), (11, 12, read(0, 1), 2), (13, 14, read(0, 1), 1), (15, 16, read(0, 1), 2))
# What two Writes at once left was found three times, and something else between: no rule of a contradiction says which of them was found when.
UNSETTLED = on_a_block(
    *((1, 20, write(0, it), None) for it in (1, 2, 1, 2)),
    *((at, at + 1, read(0, 1), found) for at, found in ((3, 1), (5, 2), (7, 1), (9, 2), (11, 1))),
)
# Two Writes of stamps at once, and a Read of which one block has the front of one and the rest of the other.
FRONTS, RESTS = [[f"64*{host:02x},64*00,64*{10 * host:02x},64*{block:02x}" for block in range(2)] for host in (1, 2)]
STAMPED = f"""trace nsze 32 block 512 nabsn 7 nabo 0 nawun 7 nacwu 7 first 0 start zeroes reads atomic
1 9 1 10 write 0 2 {FRONTS[0]},{FRONTS[0]},{FRONTS[1]},{FRONTS[1]} = 0/00
1 9 2 20 write 0 2 {RESTS[0]},{RESTS[0]},{RESTS[1]},{RESTS[1]} = 0/00
10 11 1 11 read 0 2 = 0/00 {FRONTS[0]},{RESTS[0]},{RESTS[1]},{RESTS[1]}
"""

# The order of what was seen in turn.
RIGHT_ORDER = bytes.fromhex(
    "4e564531 010002 0000000000000000 0500000000000000 00000000 00000000 01000000 00 01000000 00000000 01000000 00 02000000 00000000 01000000 00"
    "03000000 09000000 02000000 00 04000000 07000000 02000000 00"
)
# A device that keeps what it deallocates, and the order of docs/FORMATS.md.
KEEPING = on_a_block((1, 2, write(0, 0x41), None), (3, 4, dataset((0, 1)), None), (5, 6, read(0, 1), 0x41))
ORDER = bytes.fromhex("4e564531 010002 0000000000000000 0200000000000000 00000000 00000000 01000000 00 02000000 00000000 01000000 00")
ORDERED = "explained jobs 3 points 2 reads atomic deallocated either\n"


def odd_reply():
    """A trace of a pair whose statuses say that its comparison held, and that it didn't."""
    space = Namespace(nsze=8, nabsn=7)
    [job] = recorded(space, [file_of([*pair(compare(0, 0), write(0, 0x41))])]).jobs
    return Trace(space, (Seen(1, job.body, 1, 2, ((0, 0), (0, 9))),))


def line_of(trace, number):
    """The line of a trace's job in its text."""
    return text_of(trace).splitlines(keepends=True)[1 + number]


def certified(kept):
    """The cases of nvq which search for a verdict."""
    wrong, missing = with_seen(TRACE, 1, data=b"\x43" * 512), kept("certified.nvt", spelled(TRACE)) + "-missing"
    right, cut = kept("certified.nvt", spelled(TRACE)), kept("cut-to-certify.nvt", spelled(TRACE)[:-1])
    not_explained = kept("not-explained.nvt", spelled(wrong))
    explained = f"explained jobs 5 points 5 {PROFILE}\n{told_together(TRACE)}"
    sentence = "Job 1 found in LBA 0 bytes that no other command put there.\n"
    contradiction = f"contradiction commands 1 {PROFILE}\n{sentence}job 1 {line_of(wrong, 1)}job 1 found in LBA 0 what nobody can have left there\n"
    contradiction_object = (
        f'{{"verdict":"contradiction","reads":"atomic","deallocated":"either","commands":[{{"job":1,"began":{wrong.jobs[1].began},"ended":{wrong.jobs[1].ended},"host":1,'
        '"sent":[{"cid":2,"command":"read 0 1"}],"statuses":["0/00"],"data":"512*43"}],"facts":[],'
        '"conclusion":{"conclusion":"nobody","lba":0,"reader":1,"text":"job 1 found in LBA 0 what nobody can have left there"}}\n'
    )
    unsettled = f"unknown {PROFILE}\nno order of its points explains it, but no contradiction by the rules was found\n"
    unsettled_object = (
        '{"verdict":"unknown","reads":"atomic","deallocated":"either","stop":"everything",'
        '"why":"no order of its points explains it, but no contradiction by the rules was found"}\n'
    )
    stale = (
        f"contradiction commands 2 {PROFILE}\nJob 2 found in LBA 0 the zeroes that were there at first, though job 1 had put other data there since.\n"
        f"job 1 {line_of(STALE, 1)}job 2 {line_of(STALE, 2)}"
        "job 1 comes before job 2: it had ended at 4, and job 2 began at 5\njob 2 found in LBA 0 what nobody can have left there\n"
    )
    twice = (
        f"contradiction commands 3 {PROFILE}\nJob 5 found in LBA 0 what job 1 had left there, though job 4 had found other data there since.\n"
        f"{''.join(f'job {it} {line_of(TWICE, it)}' for it in (1, 4, 5))}"
        "job 1 comes before job 4: it had ended at 10, and job 4 began at 13\n"
        "job 4 comes before job 5: it had ended at 14, and job 5 began at 15\n"
        "job 5 found in LBA 0 what nobody can have left there\n"
    )
    torn = (
        f"contradiction commands 1 {PROFILE}\nJob 2 found LBA 0 torn: one part of it is of job 0, another of job 1.\n"
        "job 2 10 11 1 11 read 0 2 = 0/00 ..\n"
        "  found in LBA 0: torn: bytes 0 to 255 of job 0, bytes 256 to 511 of job 1\n"
        "  found in LBA 1: job 1\n"
        "job 2 found in LBA 0 what nobody can have left there\n"
    )
    keeping, odd = kept("keeping.nvt", spelled(KEEPING)), kept("odd.nvt", spelled(odd_reply()))
    ordered_object = '{"verdict":"explained","jobs":3,"points":2,"together":1,"reads":"atomic","deallocated":"either"}\n'
    odd_text = f"contradiction job 0\njob 0 {line_of(odd_reply(), 0)}no device may end a pair so: by the one status the comparison held, and by the other it didn't\n"
    odd_object = '{"verdict":"contradiction","rule":"wrong reply","job":0}\n'
    walked = kept("walked.txt", text_of(replace(TRACE, jobs=())).encode() + b"walk\n")
    order, nobody, before = {"it": RIGHT_ORDER}, {"it": NOBODY}, {"it": b"old"}

    def done(name, trace, out, *words, status=0, **more):
        return Run(name, "nvq", ["certify", *words, trace], status, out=out, **more)

    def fault(name, line, *words, hint="", **more):
        return Run(name, "nvq", ["certify", *words], 1, err=told(f"nvq: {line}", hint), **more)

    return [
        done("a trace that is explained", right, explained, "--evidence", "it", files=order),
        done("a trace that is explained, and a file before", right, explained, "--evidence", "it", files=order, before=before),
        done("a trace that is explained, read from standard input", "-", explained, input=right),
        done("a trace's text that is explained", kept("certified.txt", text_of(TRACE).encode()), explained),
        fault("a wrong line of a trace's text", "line 2: expected a time from 1 at which it began", walked, hint=the_line("walk", of=walked)),
        done("a trace that nothing explains", not_explained, contradiction, status=2),
        done("a contradiction that nothing explains a trace", not_explained, contradiction, "--evidence", "it", status=2, files=nobody),
        done("a contradiction, and a file before", not_explained, contradiction, "--evidence", "it", status=2, files=nobody, before=before),
        done("a Read of the first zeroes after two Writes", kept("stale.nvt", spelled(STALE)), stale, status=2),
        done("Reads of three Writes that no order gives", kept("twice.nvt", spelled(TWICE)), twice, status=2),
        done("a block that is torn between two stamps", kept("stamped.txt", STAMPED.encode()), torn, status=2),
        done("a contradiction with all data", not_explained, contradiction.replace(sentence, ""), "--data", status=2),
        done("a trace of which neither is found", kept("unsettled.nvt", spelled(UNSETTLED)), unsettled, "--evidence", "it", status=3, before=before),
        done("an object of a trace of which neither is found", kept("unsettled.nvt", spelled(UNSETTLED)), unsettled_object, "--json", status=3),
        done("an object of a trace that nothing explains", not_explained, contradiction_object, "--json", status=2),
        done("a trace that an order explains, by nvq", keeping, ORDERED + told_together(KEEPING), "--evidence", "it", files={"it": ORDER}),
        done("an object of a trace that an order explains", keeping, ordered_object, "--json"),
        done("a reply that is wrong by itself", odd, odd_text, status=2),
        done("an object of a reply that is wrong by itself", odd, odd_object, "--json", status=2),
        fault("a cut trace to certify", f"{cut}: truncated at {len(spelled(TRACE)) - 1024}", cut),
        fault("a missing trace to certify", f"cannot read {missing}", missing, hint=MISSING),
        fault("the evidence of a trace that is written over it", f"cannot write {right}", right, "--evidence", right, hint="it is the trace"),
        fault("evidence among the lines", "the evidence can't go to standard output", right, "--evidence", "-"),
        fault("evidence in no folder", "cannot write missing/it", right, "--evidence", "missing/it", hint=MISSING),
        Run("no trace to certify", "nvq", ["certify"], 1),
        Run("help on a verdict", "nvq", ["certify", "--help"], 0),
    ]
