"""Traces: their files and their text, and what a witness says of them by records: rows that were worked out by hand."""

from dataclasses import replace

from forged import MOST, OTHER, SPACE, TWO, WRITTEN, little_memory, one, seen
from hints import MISSING, the_line, told
from host_files import compare, dataset, file_of, pair, read, unknown, write, zeroes
from recorded import jobs_of, recorded
from records import DONE, FAILED, KIND_WRITE, LOOKED, Done, Entry, Record
from records import spelled as record_bytes
from trace_files import DEALLOCATED, READS, Seen, Trace, spelled, text_of, trace_bytes, with_seen

HEAD = "expected trace, then nsze, block, nabsn, nabo, nawun and nacwu, each with its number, maybe awun and acwu with theirs, first with its number, start zeroes or start unknown, reads atomic, reads whole or reads by-blocks, and maybe deallocated zeroes, deallocated ones or deallocated either"
HEAD_OF = "trace nsze 32 block 512 {} first 0 start zeroes reads atomic"
SUCCESS = ((0, 0),)


def as_recorded(record, **more):
    """What hosts would have seen of a record, if each job began after the one before it in the unit had ended."""
    done = {it.job: it for jobs in record.done for it in jobs}
    first = sorted(range(len(record.jobs)), key=lambda number: (done[number].parts or ((0, 0, 0),))[0][1])
    begins = {number: 10 * place + 10 for place, number in enumerate(first)}
    jobs = tuple(
        Seen(job.host, job.body, begins[number], begins[number] + 5, done[number].statuses, done[number].data)
        for number, job in enumerate(record.jobs)
    )
    return Trace(record.namespace, jobs, **more)


TRACE = as_recorded(TWO)
# A Write of eight blocks, where four are kept whole, and a record of its blocks one by one.
TORN = recorded(replace(SPACE, nawun=3), [file_of([write(lba, 0x41, cid=1) for lba in range(8)])])
LONG = Trace(TORN.namespace, (Seen(1, jobs_of([file_of([write(0, *[0x41] * 8)])], 512)[0].body, 1, 9, SUCCESS),))
# A block that was there, and a Read of it.
THERE = Record(
    2,
    SPACE,
    1,
    (*jobs_of([file_of([read(0, 1)])], 512), *jobs_of([file_of([write(0, 0x41)])], 512)),
    ((Entry(0, 1, KIND_WRITE, 0, 1, b"\x41" * 512),), (), (), ()),
    ((Done(1, ((0, 0, DONE),), SUCCESS), Done(0, ((0, 1, LOOKED),), SUCCESS, b"\x41" * 512)),),
)
FOUND = Trace(SPACE, (Seen(1, THERE.jobs[0].body, 3, 4, SUCCESS, b"\x41" * 512),), unknown=True)
# A Write over two units that never ended, done in the first alone: strictly it stands in the record once for each unit.
UNENDED = recorded(SPACE, [file_of([write(7, 0x41, cid=1), write(8, 0x41, cid=1), read(7, 2, cid=2)])], wants={1: -1})
HALF = Trace(
    SPACE,
    (
        Seen(1, jobs_of([file_of([write(7, 0x41, 0x41)])], 512)[0].body, 10),
        Seen(1, UNENDED.jobs[2].body, 20, 25, SUCCESS, b"\x41" * 512 + bytes(512)),
    ),
)
# A Write of four blocks over two units that never ended, and a Read of it all; a record of its parts.
BY_UNITS = recorded(SPACE, [file_of([write(6, 0x41, 0x41, cid=1), write(8, 0x42, 0x42, cid=1), read(6, 4, cid=2)])])
HALVES = Trace(
    SPACE,
    (
        Seen(1, jobs_of([file_of([write(6, 0x41, 0x41, 0x42, 0x42)])], 512)[0].body, 10),
        Seen(1, BY_UNITS.jobs[2].body, 20, 25, SUCCESS, b"\x41" * 1024 + b"\x42" * 1024),
    ),
)
# A Deallocate over two units that never ended, which the record has as one job.
CLEARED_AT_ONCE = recorded(SPACE, [file_of([write(7, 0x41), dataset((8, 2), (3, 0), (7, 2))])])
CLEARED = Trace(SPACE, (Seen(1, CLEARED_AT_ONCE.jobs[0].body, 1, 2, SUCCESS), Seen(1, CLEARED_AT_ONCE.jobs[1].body, 3)))
# A Write of two blocks and a Read of them, which the record has as two jobs.
SEEN_BY_BLOCKS = recorded(SPACE, [file_of([write(0, 0x41, 0x42), read(0, 1, cid=2), read(1, 1, cid=2)])])
SEEN = Trace(
    SPACE,
    (
        Seen(1, SEEN_BY_BLOCKS.jobs[0].body, 10, 15, SUCCESS),
        Seen(1, jobs_of([file_of([read(0, 2, cid=2)])], 512)[0].body, 20, 25, SUCCESS, b"\x41" * 512 + b"\x42" * 512),
    ),
)
# A pair whose comparison holds, and one whose comparison fails.
HELD = recorded(SPACE, [file_of(pair(compare(0, 0), write(0, 0x55)))])
PAIR = one(pair(compare(0, 1), write(0, 0x55)), Done(0, ((0, 0, FAILED),), ((2, 0x85), (0, 9))))


def explained(jobs, steps, excused=0, preparations=0):
    return f"explained jobs {jobs} units 4 steps {steps} excused {excused} preparations {preparations}"


def unexplained(fault, job="-", unit="-", place="-"):
    return f"unexplained {fault} job {job} unit {unit} place {place}"


# Traces, records, and the line of the two. A fourth word is one of the command line.
WITNESSED = [
    (TRACE, TWO, explained(3, 3)),
    (replace(TRACE, first=4096), TWO, explained(3, 3)),
    # Time: the first job's entry comes after that of the second, and the Read after both.
    (with_seen(with_seen(TRACE, 0, began=1, ended=3), 1, began=3, ended=9), TWO, explained(3, 3)),
    (with_seen(with_seen(TRACE, 0, began=1, ended=2), 1, began=3, ended=9), TWO, unexplained("TimeBack", 0, 0, 1)),
    (with_seen(TRACE, 2, began=1, ended=19), TWO, unexplained("TimeBack", 2, 0, 2)),
    (with_seen(TRACE, 2, began=1, ended=20), TWO, explained(3, 3)),
    (with_seen(TRACE, 1, began=36, ended=37), TWO, unexplained("TimeBack", 0, 0, 1)),
    (with_seen(TRACE, 1, began=1, ended=None, statuses=()), TWO, explained(3, 3, 1)),
    # Replies.
    *((with_seen(TRACE, 2, data=b"\x41" * k + b"\x42" + b"\x41" * (511 - k)), TWO, unexplained("ReplyDiffers", 2)) for k in (0, 1, 255, 511)),
    (with_seen(TRACE, 2, data=None), TWO, unexplained("ReplyDiffers", 2)),
    (with_seen(TRACE, 2, data=None, statuses=((2, 0x81),)), TWO, unexplained("ReplyDiffers", 2)),
    (with_seen(TRACE, 2, data=None, statuses=((0, 6),)), TWO, explained(3, 3, 1)),
    (with_seen(TRACE, 0, statuses=((0, 6),)), TWO, explained(3, 3, 1)),
    (with_seen(TRACE, 0, statuses=((0, 0x80),)), TWO, unexplained("ReplyDiffers", 0)),
    (Trace(SPACE, tuple(replace(it, statuses=((0, 6),), data=None) for it in TRACE.jobs)), TWO, explained(3, 3, 3)),
    # Jobs and the namespace.
    (with_seen(TRACE, 1, host=3), TWO, unexplained("JobDiffers", 1)),
    (with_seen(TRACE, 0, body=(replace(TRACE.jobs[0].body[0], cid=9),)), TWO, unexplained("JobDiffers", 0)),
    (replace(TRACE, jobs=TRACE.jobs[:2]), TWO, unexplained("NoPreparation", 2)),
    (replace(TRACE, jobs=TRACE.jobs[:2], unknown=True), TWO, unexplained("NoPreparation", 2)),
    (replace(TRACE, namespace=replace(SPACE, nacwu=2)), TWO, unexplained("NamespaceDiffers")),
    (FOUND, THERE, explained(1, 2, 0, 1)),
    (replace(FOUND, unknown=False), THERE, unexplained("NoPreparation", 1)),
    # The record's own fault.
    (TRACE, replace(TWO, done=((WRITTEN,), (OTHER,))), unexplained("JobMissing", 2)),
    (TRACE, seen(data=b"\x42" * 512), unexplained("DataWrong", 2, 0, 2)),
    # A long Write may be torn by the standard.
    (LONG, TORN, explained(1, 8)),
    (LONG, TORN, unexplained("JobDiffers", 0), "--strict"),
    (LONG, recorded(LONG.namespace, [file_of([write(0, *[0x41] * 8)])]), explained(1, 1), "--strict"),
    (LONG, recorded(LONG.namespace, [file_of([write(0, *[0x41] * 8)])]), unexplained("JobDiffers", 0)),
    # A Write over two units that never ended, and a Read of what it did in the first.
    (HALF, UNENDED, explained(2, 3, 1), "--strict"),
    (with_seen(HALF, 0, ended=15, statuses=SUCCESS), UNENDED, unexplained("JobDiffers", 0), "--strict"),
    # One of four blocks stands by its units strictly, and by its blocks by the standard. A Deallocate stands by its units.
    (HALVES, BY_UNITS, explained(2, 4, 1), "--strict"),
    (HALVES, BY_UNITS, unexplained("JobDiffers", 0)),
    (CLEARED, CLEARED_AT_ONCE, unexplained("JobDiffers", 1)),
    # A Read stands by its blocks only where the trace says so.
    (SEEN, SEEN_BY_BLOCKS, unexplained("JobDiffers", 1)),
    (replace(SEEN, reads="by-blocks"), SEEN_BY_BLOCKS, explained(2, 3)),
    # A pair.
    (as_recorded(PAIR), PAIR, explained(1, 1)),
    (with_seen(as_recorded(PAIR), 0, statuses=((2, 0x81), (0, 9))), PAIR, unexplained("ReplyDiffers", 0)),
    (with_seen(as_recorded(PAIR), 0, statuses=((2, 0x85), (0, 0))), PAIR, unexplained("ReplyDiffers", 0)),
    (with_seen(as_recorded(PAIR), 0, statuses=((0, 6), (0, 6))), PAIR, explained(1, 1, 1)),
    (with_seen(as_recorded(PAIR), 0, statuses=((0, 6), (0, 0))), PAIR, unexplained("ReplyDiffers", 0)),
    (with_seen(as_recorded(PAIR), 0, statuses=((2, 0x85), (0, 6))), PAIR, explained(1, 1, 1)),
    (as_recorded(HELD), HELD, explained(1, 1)),
    (with_seen(as_recorded(HELD), 0, statuses=((0, 0), (0, 6))), HELD, explained(1, 1, 1)),
    (with_seen(as_recorded(HELD), 0, statuses=((2, 0x85), (0, 6))), HELD, unexplained("ReplyDiffers", 0)),
    (with_seen(as_recorded(HELD), 0, statuses=((0, 0), (0, 9))), HELD, unexplained("ReplyDiffers", 0)),
]

# Jobs of all kinds, with other identifiers, namespaces and replies.
ALL = jobs_of(
    [
        file_of(
            [
                write(0, 0x41, 0x42, cid=7),
                read(0, 2, cid=0),
                *pair(compare(4, 0, nsid=1), write(4, 0x55)),
                zeroes(8, 3, nsid=2),
                dataset((1, 2), (9, 0), cid=65_535),
                dataset((1, 2), deallocate=False),
                unknown(5, 6, fuse=3),
            ]
        )
    ],
    512,
)
WIDE = Trace(
    SPACE,
    (
        Seen(1, ALL[0].body, 1, 2, SUCCESS),
        Seen(64, ALL[1].body, 2, 2**64 - 2, SUCCESS, b"\x41" * 512 + b"\x42" * 511 + b"\x00"),
        Seen(2, ALL[2].body, 2**64 - 1, None),
        Seen(3, ALL[2].body, 5, 5, ((2, 0x85), (0, 9))),
        *(Seen(4, it.body, 5, 6, ((255, 0xFE),)) for it in ALL[3:]),
    ),
    first=2**64 - 1,
    unknown=True,
    reads="by-blocks",
    deallocated="ones",
)


# Comments, tabs, lines without words and other spellings, and how it is listed.
SPELLED = """# by hand

\ttrace nsze 32 block 512 nabsn 7 nabo 0 nawun 7 nacwu 3 first 64 start unknown reads by-blocks
12 17 01 4 read 0 1 cid=4\t= 0/00\t41 # 512 bytes
12 - 64 65535 write 31 1 500*00,12*ff
20 21 2 0 compare 4 1 00 first + 7 write 4 1 55 second cid=7 = 2/85 0/09
"""
# Limits as devices report them, and as they are taken.
LIMITS = (
    ("nabsn 7 nabo 0 nawun 8 nacwu 65535", "nabsn 7 nabo 0 nawun 7 nacwu 7"),
    ("nabsn 7 nabo 0 nawun 7 nacwu 8", "nabsn 7 nabo 0 nawun 7 nacwu 7"),
    ("nabsn 0 nabo 0 nawun 8 nacwu 65535", "nabsn 0 nabo 0 nawun 8 nacwu 65535"),
    ("nabsn 7 nabo 0 nawun 0 nacwu 0 awun 5 acwu 4", "nabsn 7 nabo 0 nawun 5 nacwu 4"),
    ("nabsn 7 nabo 0 nawun 0 nacwu 0 awun 5", "nabsn 7 nabo 0 nawun 5 nacwu 0"),
    ("nabsn 7 nabo 0 nawun 0 nacwu 0 acwu 4", "nabsn 7 nabo 0 nawun 0 nacwu 4"),
    ("nabsn 7 nabo 0 nawun 0 nacwu 0 awun 65535 acwu 8", "nabsn 7 nabo 0 nawun 7 nacwu 7"),
    ("nabsn 0 nabo 0 nawun 0 nacwu 0 awun 65535 acwu 8", "nabsn 0 nabo 0 nawun 65535 nacwu 8"),
    # A limit of the namespace's own stands before the controller's.
    ("nabsn 7 nabo 0 nawun 1 nacwu 2 awun 5 acwu 4", "nabsn 7 nabo 0 nawun 1 nacwu 2"),
    ("nabsn 7 nabo 0 nawun 1 nacwu 0 awun 5 acwu 4", "nabsn 7 nabo 0 nawun 1 nacwu 4"),
    ("nabsn 7 nabo 0 nawun 0 nacwu 0 awun 0 acwu 0", "nabsn 7 nabo 0 nawun 0 nacwu 0"),
)
LISTED = """trace nsze 32 block 512 nabsn 7 nabo 0 nawun 7 nacwu 3 first 64 start unknown reads by-blocks
12 17 1 4 read 0 1 = 0/00 512*41
12 - 64 65535 write 31 1 500*00,12*ff
20 21 2 0 compare 4 1 512*00 first + 7 write 4 1 512*55 second = 2/85 0/09
"""


def traces(run):
    run.keep("two.nvr", record_bytes(TWO))
    promises = [replace(WIDE, jobs=(), reads=reads, deallocated=deallocated) for reads in READS for deallocated in DEALLOCATED]
    for trace in (TRACE, FOUND, LONG, WIDE, *promises):
        text = text_of(trace)
        run.keep("text", f"# a trace\n\n{text}# its end\n")
        run.expect(["nvq", "trace", "text", "kept.nvt"], files={"kept.nvt": spelled(trace)})
        run.expect(["nvq", "trace", "-", "-"], given=text.encode(), out=spelled(trace))
        run.expect(["nvq", "list", "kept.nvt"], out=text)
    run.expect(["nvq", "trace", "-", "spelled.nvt"], given=SPELLED.encode())
    run.expect(["nvq", "list", "spelled.nvt"], out=LISTED)
    for limits, taken in LIMITS:
        run.expect(["nvq", "trace", "-", "limits.nvt"], given=f"{HEAD_OF.format(limits)}\n".encode())
        run.expect(["nvq", "list", "limits.nvt"], out=f"{HEAD_OF.format(taken)}\n")
    run.expect(["nvq", "trace", "-", "either.nvt"], given=f"{HEAD_OF.format(taken)} deallocated either\n".encode())
    run.expect(["nvq", "list", "either.nvt"], out=f"{HEAD_OF.format(taken)}\n")
    for trace, record, line, *words in WITNESSED:
        run.keep("trace.nvt", spelled(trace))
        run.keep("record.nvr", record_bytes(record))
        for program in ("nvmu", "nvq"):
            given = [program, "witness", *words, "trace.nvt", "record.nvr"]
            run.expect(given, 0 if line.startswith("explained") else 2, out=f"{line}\n")
    run.expect(["nvq", "witness", "-", "record.nvr"], given=spelled(trace), out=f"{line}\n", status=2)
    run.expect(["nvq", "witness", "trace.nvt", "-"], given=record_bytes(record), out=f"{line}\n", status=2)
    faults_of_texts(run)
    faults_of_files(run)
    for words in ("witness", "witness a", "witness a b c", "witness --strictly a b"):
        for program in ("nvmu", "nvq"):
            run.refuse([program, *words.split()])
    for words in ("trace", "trace a", "trace a b c"):
        run.refuse(["nvq", *words.split()])


def faults_of_texts(run):
    """Each wrong line is named, with what was expected in it."""
    head, line = text_of(TRACE).splitlines()[:2]
    for text, expected in (
        ("walk", HEAD),
        (head.replace("start zeroes", "start ones"), HEAD),
        ("trace nsze 32", HEAD),
        (head.replace("reads atomic", "reads atomic-all"), HEAD),
        (head.replace("reads atomic", "reads"), HEAD),
        # What a deallocated block may read as: no word, another one, one more, and words in another place.
        (f"{head} deallocated", HEAD),
        (f"{head} deallocated twos", HEAD),
        (f"{head} deallocated zeroes ones", HEAD),
        (f"{head} zeroes", HEAD),
        (f"{head} deallocated zeroes deallocated zeroes", HEAD),
        (head.replace("reads", "deallocated zeroes reads"), HEAD),
        # The controller's limits: no number, one too high, in another order, twice, and in another place.
        (head.replace("first", "awun first"), HEAD),
        (head.replace("first", "awun 65536 first"), HEAD),
        (head.replace("first", "acwu 65536 first"), HEAD),
        (head.replace("first", "acwu 0 awun 0 first"), HEAD),
        (head.replace("first", "awun 0 awun 0 first"), HEAD),
        (head.replace("first", "acwu 0 acwu 0 first"), HEAD),
        (head.replace("nacwu", "awun 0 nacwu"), HEAD),
        (f"{head} awun 0", HEAD),
        (head.replace("nabo 0", "nabo 9"), "expected the numbers of a namespace: OffsetAboveBoundary"),
        (head.replace("block 512", "block 513"), "expected the numbers of a namespace: BlockSize"),
    ):
        run.expect(["nvq", "trace", "-", "-"], 1, given=f"\n{text}\n".encode(), err=told(f"nvq: line 2: {expected}", the_line(text)))
    words = line.split()
    for at, word, expected in (
        (0, "0x1", "expected a time from 1 at which it began"),
        (0, "0", "expected a time from 1 at which it began"),
        (1, "+", "expected a time at which it ended, or - if it never did"),
        (2, "0", "expected a host from 1 to 64"),
        (2, "65", "expected a host from 1 to 64"),
        (3, "65536", "expected a command identifier from 0 to 65535"),
        (len(words) - 1, "0/0", "expected a status, as in 0/00"),
    ):
        wrong = " ".join([*words[:at], word, *words[at + 1 :]])
        run.expect(["nvq", "trace", "-", "-"], 1, given=f"{head}\n{wrong}\n".encode(), err=told(f"nvq: line 2: {expected}", the_line(wrong)))
    for wrong, expected in (
        ("1 1 1 4 read 0 1 cid=5 = 0/00", "expected no cid= behind a command's identifier"),
        ("1 1 1 4 read 0 0 = 0/00", "expected a number of blocks from 1 to 65536"),
        ("1 1 1 4 read 0 1", "expected = and what came back, as in = 0/00"),
        ("1 - 1 4 read 0 1 = 0/00", "expected no = behind what never ended"),
        ("1 1 1 4 read 0 1 = 0/00 41 42", "expected nothing more in this line"),
    ):
        # Behind other lines, and before another wrong one.
        err = told(f"nvq: line 4: {expected}", the_line(wrong, "line 5: expected a time from 1 at which it began"))
        run.expect(["nvq", "trace", "-", "-"], 1, given=f"{head}\n{line}\n\n{wrong}\nanother\n".encode(), err=err)
    for wrong, why in (
        ("2 1 1 4 zeroes 0 1 = 0/00", "it ended before it began"),
        ("1 2 1 4 zeroes 0 1 = 0/00 41", "it has data and isn't a Read, or data of another length than its blocks"),
        (
            "1 2 1 4 read 0 1 + 5 read 0 1 = 0/00 0/00",
            "its host isn't 1 to 64, its data isn't what it calls for, or its two commands aren't first and second of a pair",
        ),
    ):
        err = told(f"nvq: line 2: expected what a trace can have, but {why}", the_line(wrong))
        run.expect(["nvq", "trace", "-", "-"], 1, given=f"{head}\n{wrong}\n".encode(), err=err)
    run.expect(["nvq", "trace", "-", "-"], 1, given=b"# nothing\n", err=told("nvq: expected a trace's head", "standard input has no line with words"))
    # All wrong lines are told, up to 21 of them.
    for count, more in ((21, ()), (22, ("and more",))):
        run.keep("wrong.txt", f"{head}\n" + f"walk\n{line}\n" * count)
        others = [f"line {2 * place}: expected a time from 1 at which it began" for place in range(2, 22)]
        err = told("nvq: line 2: expected a time from 1 at which it began", the_line("walk", *others, *more, of="wrong.txt"))
        for words in ("trace wrong.txt out", "certify wrong.txt"):
            run.expect(["nvq", *words.split()], 1, err=err)
    run.expect(["nvq", "trace", "missing", "-"], 1, err=told("nvq: cannot read missing", MISSING))


def faults_of_files(run):
    """Each fault of a trace's file is named, with the offset at which its field begins."""
    whole, at = spelled(TRACE), 0
    for field in trace_bytes(TRACE):
        # The name isn't one of any trace's as long as it isn't whole.
        fault = "bad name" if at == 0 else f"truncated at {at}"
        if field:
            run.keep("cut.nvt", whole[: at + len(field) - 1])
            run.expect(["nvmu", "witness", "cut.nvt", "two.nvr"], 1, err=f"nvmu: trace: {fault}\n")
        at += len(field)
    run.keep("cut.nvt", whole + b"\0")
    run.expect(["nvmu", "witness", "cut.nvt", "two.nvr"], 1, err=f"nvmu: trace: trailing at {len(whole)}\n")
    run.expect(["nvq", "list", "cut.nvt"], 1, err=f"nvq: cut.nvt: trailing at {len(whole)}\n")
    for offset, value, fault, field in (
        # NABO above NABSN, and what none of the three flags can be: what was known, what the device promises, and a job's kind.
        (18, 9, "bad value at 4", "the numbers of the namespace"),
        (32, 2, "bad value at 32", "what was known of the blocks before"),
        (33, 9, "bad value at 33", "what the device promises"),
        (33, 255, "bad value at 33", "what the device promises"),
        (40, 2, "bad value at 40", "the kind of job 0"),
        # A host above 64, and an unnamed bit of an entry.
        (38, 65, "bad value at 38", "the host of job 0"),
        (41 + 8, 1, "bad value at 41", "the command of job 0"),
        # The first job began at 10 and ended at 15: at 0, and after its end.
        (41 + 64 + 512, 0, "began at zero at 617", "the beginning of job 0"),
        (41 + 64 + 512, 99, "ended before at 625", "the end of job 0"),
        (41 + 64 + 512 + 8, 9, "ended before at 625", "the end of job 0"),
        # Data of what isn't a Read.
        (41 + 64 + 512 + 18, 1, "bad value at 635", "the flag of the data of job 0"),
    ):
        run.keep("cut.nvt", whole[:offset] + bytes([value]) + whole[offset + 1 :])
        run.expect(["nvmu", "witness", "cut.nvt", "two.nvr"], 1, err=f"nvmu: trace: {fault}\n")
        told_by_nvq = fault.replace("ended before at", "ended before it began at")
        for words in ("list cut.nvt", "witness cut.nvt two.nvr"):
            run.expect(["nvq", *words.split()], 1, err=told(f"nvq: cut.nvt: {told_by_nvq}", f"it is {field}"))
    # A count of 4,194,304 jobs in a file that ends behind it.
    run.keep("cut.nvt", whole[:34] + MOST.to_bytes(4, "little"))
    run.expect(["nvmu", "witness", "cut.nvt", "two.nvr"], 1, err="nvmu: trace: truncated at 38\n", preexec_fn=little_memory)
    run.expect(["nvq", "list", "cut.nvt"], 1, err="nvq: cut.nvt: truncated at 38\n", preexec_fn=little_memory)
    run.keep("whole.nvt", whole)
    run.keep("bad.nvr", b"NVR2")
    run.expect(["nvmu", "witness", "whole.nvt", "bad.nvr"], 1, err="nvmu: record: truncated at 4\n")
    run.expect(["nvq", "witness", "whole.nvt", "bad.nvr"], 1, err="nvq: bad.nvr: truncated at 4\n")
    for names in (["missing", "two.nvr"], ["whole.nvt", "missing"]):
        run.expect(["nvmu", "witness", *names], 1, err="nvmu: cannot read missing\n")
        run.expect(["nvq", "witness", *names], 1, err=told("nvq: cannot read missing", MISSING))
    for names in (["-", "-"], ["/dev/stdin", "-"]):
        run.expect(["nvq", "witness", *names], 1, given=whole, err="nvq: standard input is named twice\n")
    run.expect(["nvmu", "witness", "-", "-"], 1, given=whole, err="nvmu: cannot read -\n")
