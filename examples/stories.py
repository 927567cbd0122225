"""What nvq explain tells of a trace and a record: rows that were worked out by hand, one of each kind of fault and of an explained trace."""

from dataclasses import replace

from forged import SPACE, TWO, seen
from hints import MISSING, no_record, told
from host_files import file_of, write
from recorded import recorded
from records import Record, spelled
from trace_files import spelled as spelled_trace
from trace_files import with_seen
from traces import FOUND, HALF, LONG, THERE, TORN, TRACE, UNENDED

WRITE = "20 25 1 1 write 0 1 512*41 = 0/00\n"
READ = "30 35 1 2 read 0 1 = 0/00 512*41\n"
RECORDED_WRITE = (
    "as job 0 the record has:\njob 0 host 1 cid 1 nsid 1 write 0 1 512*41\nworker 0 job 0 status 0/00\nworker 0 job 0 unit 0 point 1 done\n"
)
RECORDED_READ = (
    "as job 2 the record has:\njob 2 host 1 cid 2 nsid 1 read 0 1\nworker 0 job 2 status 0/00\nworker 0 job 2 unit 0 point 2 looked\nworker 0 job 2 data 512*41\n"
)
DIFFERS = "JobDiffers: as the job of this number the record has something else than the trace, or nothing.\n"
NONE = "NoPreparation: the job isn't the trace's, and it is no Write of one block by itself, or the trace starts from zeroes.\n"
REPLY = "ReplyDiffers: what the record shows of the job isn't what its host saw.\n"
BACK = "TimeBack: the job had ended before one began that stands before it in the unit.\n"
# One Write of the long one's eight blocks.
WHOLE = recorded(LONG.namespace, [file_of([write(0, *[0x41] * 8)])])

# Traces, records, and what is told of the two. A fourth word is one of the command line.
STORIES = [
    (
        TRACE,
        TWO,
        "explained jobs 3 units 4 steps 3 excused 0 preparations 0\nlawful jobs 3 units 4 changes 2 refused 0\nstatus 0/00 jobs 3\n"
        "worker 0 jobs 2\nworker 1 jobs 1\nunits with entries 1 most 2 unit 0\nunits of several workers 1 most 2 unit 0\n",
    ),
    (
        replace(TRACE, namespace=replace(SPACE, nacwu=2)),
        TWO,
        "unexplained NamespaceDiffers job - unit - place -\nNamespaceDiffers: the record is of another namespace than the trace.\n"
        f"trace namespace nsze 32 block 512 nabsn 7 nabo 0 nawun {SPACE.nawun} nacwu 2\n"
        f"record namespace nsze 32 block 512 nabsn 7 nabo 0 nawun {SPACE.nawun} nacwu {SPACE.nacwu}\n",
    ),
    (
        with_seen(TRACE, 0, body=(replace(TRACE.jobs[0].body[0], cid=9),)),
        TWO,
        f"unexplained JobDiffers job 0 unit - place -\n{DIFFERS}as job 0 the trace has: 20 25 1 9 write 0 1 512*41 = 0/00\n{RECORDED_WRITE}",
    ),
    # A long Write, by its blocks and strictly whole, and one that never ended, strictly by its units.
    (
        LONG,
        WHOLE,
        f"unexplained JobDiffers job 0 unit - place -\n{DIFFERS}as job 0 the trace has block 0 of: 1 9 1 1 write 0 8 4096*41 = 0/00\n"
        "as job 0 the record has:\njob 0 host 1 cid 1 nsid 1 write 0 8 4096*41\nworker 0 job 0 status 0/00\nworker 0 job 0 unit 0 point 0 done\n",
    ),
    (
        LONG,
        TORN,
        f"unexplained JobDiffers job 0 unit - place -\n{DIFFERS}as job 0 the trace has: 1 9 1 1 write 0 8 4096*41 = 0/00\n"
        "as job 0 the record has:\njob 0 host 1 cid 1 nsid 1 write 0 1 512*41\nworker 0 job 0 status 0/00\nworker 0 job 0 unit 0 point 0 done\n",
        "--strict",
    ),
    (
        HALF,
        replace(UNENDED, jobs=(UNENDED.jobs[1], UNENDED.jobs[0], *UNENDED.jobs[2:])),
        f"unexplained JobDiffers job 0 unit - place -\n{DIFFERS}as job 0 the trace has the part in unit 0 of: 10 - 1 1 write 7 2 1024*41\n"
        "as job 0 the record has:\njob 0 host 1 cid 1 nsid 1 write 8 1 512*41\nworker 0 job 0 status 0/00\nworker 0 job 0 unit 0 point 0 done\n",
        "--strict",
    ),
    (
        TRACE,
        Record(2, SPACE, 1, (), ((),) * 4, ((),)),
        f"unexplained JobDiffers job 0 unit - place -\n{DIFFERS}as job 0 the trace has: {WRITE}as job 0 the record has nothing\n",
    ),
    (
        replace(TRACE, jobs=TRACE.jobs[:2]),
        TWO,
        f"unexplained NoPreparation job 2 unit - place -\n{NONE}{RECORDED_READ}",
    ),
    (
        TRACE,
        seen(data=b"\x42" * 512),
        "unexplained DataWrong job 2 unit 0 place 2\nUnlawful: the record has a fault of its own, whatever the trace is.\n"
        "unlawful DataWrong job 2 unit 0 place 2\nDataWrong: the Read's data isn't what the unit held at the part's point.\n"
        "job 2 host 1 cid 2 nsid 1 read 0 1\nworker 0 job 2 status 0/00\nworker 0 job 2 unit 0 point 2 looked\nworker 0 job 2 data 512*42\n"
        "part: unit 0 point 2 read 0 1\nrecorded: status 0/00 data 512*42\nthe step gives: status 0/00 data 512*41\n"
        "first difference: LBA 0 byte 0 recorded 42 given 41\nlast change of LBA 0: unit 0 place 1 worker 0 job 0 write 0 1 512*41\n"
        "unit 0 first 0 blocks 8 entries 2 limit 100\n"
        "unit 0 place 0 worker 1 job 1 write 0 1 512*42\nunit 0 place 1 worker 0 job 0 write 0 1 512*41\nunit 0 point 2 rests job 2\n",
    ),
    (
        with_seen(TRACE, 2, data=b"\x41" * 511 + b"\x42"),
        TWO,
        f"unexplained ReplyDiffers job 2 unit - place -\n{REPLY}as job 2 the trace has: 30 35 1 2 read 0 1 = 0/00 511*41,1*42\n{RECORDED_READ}",
    ),
    (
        with_seen(TRACE, 2, began=1, ended=19),
        TWO,
        f"unexplained TimeBack job 2 unit 0 place 2\n{BACK}as job 2 the trace has: 1 19 1 2 read 0 1 = 0/00 512*41\n"
        "job 2 unit 0 point 2 no-entry began 1 ended 19\n"
        f"as job 0 the trace has: {WRITE}job 0 unit 0 point 1 entry began 20 ended 25\n"
        "job 0 began at 20, after job 2 had ended at 19, and stands before it in unit 0\n",
    ),
    (
        with_seen(TRACE, 1, began=36, ended=37),
        TWO,
        f"unexplained TimeBack job 0 unit 0 place 1\n{BACK}as job 0 the trace has: {WRITE}job 0 unit 0 point 1 entry began 20 ended 25\n"
        "as job 1 the trace has: 36 37 2 1 write 0 1 512*42 = 0/00\njob 1 unit 0 point 0 entry began 36 ended 37\n"
        "job 1 began at 36, after job 0 had ended at 25, and stands before it in unit 0\n",
    ),
    # A preparation, which ended at 0, behind a Read that found zeroes.
    (
        with_seen(FOUND, 0, data=bytes(512)),
        replace(THERE, done=((replace(THERE.done[0][1], parts=((0, 0, 3),), data=bytes(512)), THERE.done[0][0]),)),
        f"unexplained TimeBack job 1 unit 0 place 0\n{BACK}as job 1 the trace has nothing, so it is a preparation\n"
        "job 1 unit 0 point 0 entry began 0 ended 0\nas job 0 the trace has: 3 4 1 1 read 0 1 = 0/00 512*00\n"
        "job 0 unit 0 point 0 no-entry began 3 ended 4\njob 0 began at 3, after job 1 had ended at 0, and stands before it in unit 0\n",
    ),
]


def stories(run):
    for trace, record, text, *words in STORIES:
        run.keep("trace.nvt", spelled_trace(trace))
        run.keep("record.nvr", spelled(record))
        run.expect(["nvq", "explain", *words, "trace.nvt", "record.nvr"], out=text)
    run.expect(["nvq", "explain", "-", "record.nvr"], given=spelled_trace(trace), out=text)
    run.expect(["nvq", "explain", "trace.nvt", "-"], given=spelled(record), out=text)
    run.expect(["nvq", "explain", "-", "-"], 1, given=spelled_trace(trace), err="nvq: standard input is named twice\n")
    run.expect(["nvq", "explain", "missing", "record.nvr"], 1, err=told("nvq: cannot read missing", MISSING))
    run.expect(["nvq", "explain", "trace.nvt", "missing"], 1, err=told("nvq: cannot read missing", MISSING))
    run.expect(["nvq", "explain", "trace.nvt", "trace.nvt"], 1, err=told("nvq: trace.nvt: bad name", no_record("trace.nvt", spelled_trace(trace))))
    run.keep("cut.nvt", spelled_trace(trace)[:-1])
    run.expect(["nvq", "explain", "cut.nvt", "record.nvr"], 1, err=f"nvq: cut.nvt: truncated at {len(spelled_trace(trace)) - 512}\n")
    for words in ("explain a b c", "explain --strict a", "explain --strictly a b"):
        run.refuse(["nvq", *words.split()])
