"""Records as nvq explains them: rows that were worked out by hand, one of each kind of fault and two of lawful records.

The namespace has 32 blocks of 512 bytes in units of eight, and pairs have up to four blocks.
"""

import os
import random
import re
from collections import Counter
from dataclasses import replace

from forged import ENTRIES, OTHER, SEEN, SPACE, TWO, WRITTEN, WRONG, changes, one, pair_failed, seen
from hints import MISSING, VERSIONS, no_record, told
from host_files import compare, dataset, file_of, mixed, pair, read, write
from model import COMPARE, READ
from record_explaining import byte_lines, lawful_explanation
from record_listing import lines as listed
from recorded import recorded
from records import DONE, FAILED, FULL, LOOKED, NO_MEMORY, Done, record_of, spelled
from stories import stories

READ = "job 2 host 1 cid 2 nsid 1 read 0 1\n"
FIRST = "unit 0 place 0 worker 1 job 1 write 0 1 512*42\n"
SECOND = "unit 0 place 1 worker 0 job 0 write 0 1 512*41\n"
UNIT = "unit 0 first 0 blocks 8 entries 2 limit 100\n"
DONE_0 = "worker 0 job 0 status 0/00\nworker 0 job 0 unit 0 point 1 done\n"
DONE_1 = "worker 1 job 1 status 0/00\nworker 1 job 1 unit 0 point 0 done\n"

# A pair behind a Write of its block and a Deallocate of the blocks beside it.
PAIRED = [write(1, 0x41), dataset((0, 1), (2, 1)), *pair(compare(1, 0x41), write(1, 0x55))]
WROTE = "unit 0 place 0 worker 0 job 0 write 1 1 512*41\n"
PAIR = "unit 0 place 2 worker 0 job 2 pair 1 1 511*41,1*42 512*55\n"


def with_compared(record, job, data):
    """The record with other data that the pair of a job compares, in its command and in its entry."""
    compared, second = record.jobs[job].body
    blocks = tuple(data[at : at + 512] for at in range(0, len(data), 512))
    jobs = tuple(replace(it, body=(replace(compared, data=blocks), second)) if at == job else it for at, it in enumerate(record.jobs))
    entries = [[replace(it, data=data + it.data[len(data) :]) if it.job == job else it for it in unit] for unit in record.units]
    return replace(record, jobs=jobs, units=tuple(map(tuple, entries)))


def pair_told(byte, recorded_statuses, given, bytes_told):
    """The explanation of a record of a pair that compared one block of these bytes with zeroes and is recorded as failed, with these statuses."""
    return (
        "unlawful StatusWrong job 0 unit 0 place 0\n"
        "StatusWrong: at its point the part doesn't end as it is recorded.\n"
        f"job 0 host 1 cid 1 nsid 1 compare 0 1 512*{byte:02x} first\njob 0 host 1 cid 2 nsid 1 write 0 1 512*55 second\n"
        f"worker 0 job 0 status {recorded_statuses}\nworker 0 job 0 unit 0 point 0 failed\n"
        f"part: unit 0 point 0 pair 0 1 512*{byte:02x} 512*55\nrecorded: status {recorded_statuses}\nthe step gives: status {given}\n"
        f"{bytes_told}unit 0 first 0 blocks 8 entries 0 limit 100\nunit 0 point 0 rests job 0\n"
    )


ENDS_OF_PAIRS = [(((2, 0x85), (0, 9)), "2/85 0/09"), (((2, 0x81), (0, 9)), "2/81 0/09"), (((0, 0), (0, 0)), "0/00 0/00")]

# Two Writes of one block by two workers, and a Read of it: the record, what is wrong with it, and its explanation.
EXPLAINED = [
    (
        TWO,
        "lawful jobs 3 units 4 changes 2 refused 0\nstatus 0/00 jobs 3\nworker 0 jobs 2\nworker 1 jobs 1\n"
        "units with entries 1 most 2 unit 0\nunits of several workers 1 most 2 unit 0\n",
    ),
    (
        pair_failed(1, (2, 0x85), (0, 9)),
        "lawful jobs 1 units 4 changes 0 refused 0\nstatus 2/85 0/09 jobs 1\nworker 0 jobs 1\n"
        "units with entries 0\nunits of several workers 0\n",
    ),
    (
        replace(TWO, done=((WRITTEN,), (OTHER,))),
        f"unlawful JobMissing job 2 unit - place -\nJobMissing: no worker did the job.\n{READ}",
    ),
    (
        replace(TWO, done=((WRITTEN, SEEN), (OTHER, SEEN))),
        f"unlawful JobTwice job 2 unit - place -\nJobTwice: the job was done more than once.\n{READ}"
        "worker 0 job 2 status 0/00\nworker 0 job 2 unit 0 point 2 looked\nworker 0 job 2 data 512*41\n"
        "worker 1 job 2 status 0/00\nworker 1 job 2 unit 0 point 2 looked\nworker 1 job 2 data 512*41\n",
    ),
    (
        seen(parts=()),
        "unlawful StatusWrong job 2 unit - place -\n"
        f"StatusWrong: no run of the job ends with these parts, these statuses and this data.\n{READ}"
        "worker 0 job 2 status 0/00\nworker 0 job 2 data 512*41\n"
        "no check refuses the job, which has a part in each of the units: 0\n"
        "status 0/00 is recorded, where 0/06 is due: no part is recorded\n",
    ),
    (
        one([read(31, 2)], Done(0, (), ((0, 0),))),
        "unlawful StatusWrong job 0 unit - place -\n"
        "StatusWrong: no run of the job ends with these parts, these statuses and this data.\n"
        "job 0 host 1 cid 1 nsid 1 read 31 2\nworker 0 job 0 status 0/00\n"
        "a check refuses the job: status 0/80\nstatus 0/00 is recorded, where 0/80 is due\n",
    ),
    (
        changes(ENTRIES[0], replace(ENTRIES[1], data=b"\x43" + ENTRIES[1].data[1:])),
        "unlawful EntryWrong job 0 unit 0 place 1\n"
        "EntryWrong: the entry isn't its job's part in the unit, or it doesn't succeed after the entries before it.\n"
        f"job 0 host 1 cid 1 nsid 1 write 0 1 512*41\n{DONE_0}"
        "recorded: unit 0 place 1 worker 0 job 0 write 0 1 1*43,511*41\nthe job's part: write 0 1 512*41\n"
        f"first difference: LBA 0 byte 0 recorded 43 sent 41\nthe step gives: status 0/00\n{UNIT}{FIRST}unit 0 place 1 worker 0 job 0 write 0 1 1*43,511*41\n",
    ),
    (
        changes(replace(ENTRIES[0], worker=0), ENTRIES[1]),
        "unlawful EntryUnclaimed job 1 unit 0 place 0\n"
        "EntryUnclaimed: no part of this worker and this job was done at the entry's place.\n"
        f"job 1 host 2 cid 1 nsid 1 write 0 1 512*42\n{DONE_1}{UNIT}unit 0 place 0 worker 0 job 1 write 0 1 512*42\n{SECOND}",
    ),
    (
        seen(parts=((0, 3, LOOKED),)),
        "unlawful PointPast job 2 unit 0 place 3\n"
        f"PointPast: the part's point is above the number of entries, or its own entry doesn't stand there.\n{READ}"
        "worker 0 job 2 status 0/00\nworker 0 job 2 unit 0 point 3 looked\nworker 0 job 2 data 512*41\n"
        f"{UNIT}{FIRST}{SECOND}unit 0 point 3 rests job 2\n",
    ),
    (
        seen(parts=((0, 1, LOOKED),)),
        "unlawful PointBack job 2 unit 0 place 1\n"
        f"PointBack: the part's point lies before one that its worker had passed in the unit.\n{READ}"
        "worker 0 job 2 status 0/00\nworker 0 job 2 unit 0 point 1 looked\nworker 0 job 2 data 512*41\n"
        f"before that: worker 0 job 0 unit 0 point 1 done\n{UNIT}{FIRST}unit 0 point 1 rests job 2\n{SECOND}",
    ),
    (
        seen(statuses=((2, 0x81),), data=None),
        "unlawful StatusWrong job 2 unit 0 place 2\n"
        f"StatusWrong: at its point the part doesn't end as it is recorded.\n{READ}"
        "worker 0 job 2 status 2/81\nworker 0 job 2 unit 0 point 2 looked\n"
        "part: unit 0 point 2 read 0 1\nrecorded: status 2/81\nthe step gives: status 0/00 data 512*41\n"
        f"{UNIT}{FIRST}{SECOND}unit 0 point 2 rests job 2\n",
    ),
    (
        pair_failed(1, (0, 0), (0, 0)),
        "unlawful StatusWrong job 0 unit 0 place 0\n"
        "StatusWrong: at its point the part doesn't end as it is recorded.\n"
        "job 0 host 1 cid 1 nsid 1 compare 0 1 512*01 first\njob 0 host 1 cid 2 nsid 1 write 0 1 512*55 second\n"
        "worker 0 job 0 status 0/00 0/00\nworker 0 job 0 unit 0 point 0 failed\n"
        "part: unit 0 point 0 pair 0 1 512*01 512*55\nrecorded: status 0/00 0/00\nthe step gives: status 2/85 0/09\n"
        "first difference: LBA 0 byte 0 compared 01 held 00\nlast change of LBA 0: none\n"
        "unit 0 first 0 blocks 8 entries 0 limit 100\nunit 0 point 0 rests job 0\n",
    ),
    (
        one([compare(0, 0)], Done(0, ((0, 0, LOOKED),), ((2, 0x85),))),
        "unlawful StatusWrong job 0 unit 0 place 0\n"
        "StatusWrong: at its point the part doesn't end as it is recorded.\n"
        "job 0 host 1 cid 1 nsid 1 compare 0 1 512*00\nworker 0 job 0 status 2/85\nworker 0 job 0 unit 0 point 0 looked\n"
        "part: unit 0 point 0 compare 0 1 512*00\nrecorded: status 2/85\nthe step gives: status 0/00\nfirst difference: none\n"
        "unit 0 first 0 blocks 8 entries 0 limit 100\nunit 0 point 0 rests job 0\n",
    ),
    # A pair that is recorded as failed, where no byte differs: once as different, once with a marked block, and once with success. Then one where a byte
    # differs, with a marked block, and a Compare with a marked block where none differs.
    *((pair_failed(0, *told_of), pair_told(0, words, "0/00 0/00", "first difference: none\n")) for told_of, words in ENDS_OF_PAIRS),
    (
        pair_failed(1, (2, 0x81), (0, 9)),
        pair_told(1, "2/81 0/09", "2/85 0/09", "first difference: LBA 0 byte 0 compared 01 held 00\nlast change of LBA 0: none\n"),
    ),
    (
        one([compare(0, 0)], Done(0, ((0, 0, LOOKED),), ((2, 0x81),))),
        "unlawful StatusWrong job 0 unit 0 place 0\n"
        "StatusWrong: at its point the part doesn't end as it is recorded.\n"
        "job 0 host 1 cid 1 nsid 1 compare 0 1 512*00\nworker 0 job 0 status 2/81\nworker 0 job 0 unit 0 point 0 looked\n"
        "part: unit 0 point 0 compare 0 1 512*00\nrecorded: status 2/81\nthe step gives: status 0/00\nfirst difference: none\n"
        "unit 0 first 0 blocks 8 entries 0 limit 100\nunit 0 point 0 rests job 0\n",
    ),
    (
        with_compared(recorded(SPACE, [file_of(PAIRED)]), 2, b"\x41" * 511 + b"\x42"),
        "unlawful EntryWrong job 2 unit 0 place 2\n"
        "EntryWrong: the entry isn't its job's part in the unit, or it doesn't succeed after the entries before it.\n"
        "job 2 host 1 cid 3 nsid 1 compare 1 1 511*41,1*42 first\njob 2 host 1 cid 4 nsid 1 write 1 1 512*55 second\n"
        "worker 0 job 2 status 0/00 0/00\nworker 0 job 2 unit 0 point 2 done\n"
        f"recorded: {PAIR}the job's part: pair 1 1 511*41,1*42 512*55\nthe step gives: status 2/85 0/09\n"
        f"first difference: LBA 1 byte 511 compared 42 held 41\nlast change of LBA 1: {WROTE}"
        f"unit 0 first 0 blocks 8 entries 3 limit 100\n{WROTE}unit 0 place 1 worker 0 job 1 deallocate 0+1,2+1\n{PAIR}",
    ),
    (
        seen(data=WRONG),
        "unlawful DataWrong job 2 unit 0 place 2\n"
        f"DataWrong: the Read's data isn't what the unit held at the part's point.\n{READ}"
        "worker 0 job 2 status 0/00\nworker 0 job 2 unit 0 point 2 looked\nworker 0 job 2 data 512*42\n"
        "part: unit 0 point 2 read 0 1\nrecorded: status 0/00 data 512*42\nthe step gives: status 0/00 data 512*41\n"
        f"first difference: LBA 0 byte 0 recorded 42 given 41\nlast change of LBA 0: {SECOND}"
        f"{UNIT}{FIRST}{SECOND}unit 0 point 2 rests job 2\n",
    ),
]

# Jobs that no check refuses and that are recorded as no outcome can be: the commands, what is recorded of them, in which units they have a part, and what is
# said to be wrong.
WRITE_TWO = [write(7, 0x41, 0x41)]
PAIR_OF_ONE = pair(compare(0, 0), write(0, 0x55))
SHAPELESS = [
    (WRITE_TWO, Done(0, ((0, 0, DONE),), ((0, 0),)), "0 1", "no part is recorded in unit 1, and each part before it succeeded"),
    (WRITE_TWO, Done(0, ((1, 0, DONE), (0, 0, DONE)), ((0, 0),)), "0 1", "a part is recorded in unit 1, where one in unit 0 is due"),
    (WRITE_TWO, Done(0, ((0, 0, DONE), (3, 0, DONE)), ((0, 0),)), "0 1", "a part is recorded in unit 3, where one in unit 1 is due"),
    (WRITE_TWO, Done(0, ((0, 0, DONE), (1, 0, DONE), (2, 0, DONE)), ((0, 0),)), "0 1", "a part is recorded in unit 2, where none is due"),
    (WRITE_TWO, Done(0, ((0, 0, FAILED), (1, 0, FULL)), ((0, 6),)), "0 1", "the part in unit 0 is recorded as failed, where it can be: done no-memory full"),
    ([read(0, 1)], Done(0, ((0, 0, DONE),), ((0, 0),), bytes(512)), "0", "the part in unit 0 is recorded as done, where it can be: looked no-memory"),
    (PAIR_OF_ONE, Done(0, ((0, 0, LOOKED),), ((0, 0), (0, 0))), "0", "the part in unit 0 is recorded as looked, where it can be: done failed no-memory full"),
    (WRITE_TWO, Done(0, ((0, 0, FULL), (1, 0, DONE)), ((0, 0),)), "0 1", "the part in unit 0 ended the job as full, and another is recorded after it"),
    (WRITE_TWO, Done(0, ((0, 0, DONE), (1, 0, DONE)), ((0, 6),)), "0 1", "status 0/06 is recorded, where 0/00 is due: the last part is recorded as done"),
    (PAIR_OF_ONE, Done(0, ((0, 0, NO_MEMORY),), ((0, 0), (0, 0))), "0", "status 0/00 0/00 is recorded, where 0/00 0/06 is due: the last part is recorded as no-memory"),
    (PAIR_OF_ONE, Done(0, (), ((0, 6), (0, 6))), "0", "status 0/06 0/06 is recorded, where 0/06 0/09 is due: no part is recorded"),
    ([dataset((0, 0))], Done(0, (), ((0, 6),)), "", "status 0/06 is recorded, where 0/00 is due: no part is recorded"),
    ([read(0, 1)], Done(0, ((0, 0, LOOKED),), ((0, 0),)), "0", "no data is recorded, where that of the Read is due"),
    ([read(0, 1)], Done(0, ((0, 0, LOOKED),), ((2, 0x81),), bytes(512)), "0", "data is recorded, where none is due"),
]

# A pair, and a Read of two units whose last byte was recorded as 01.
SPOILED_LIST = [*pair(compare(4, 0, 0, 0, 0), write(4, 0x55, 0x55, 0x55, 0x55)), read(7, 2)]
SPOILED_EXPLAINED = """unlawful DataWrong job 1 unit 1 place 0
DataWrong: the Read's data isn't what the unit held at the part's point.
job 1 host 1 cid 3 nsid 1 read 7 2
worker 0 job 1 status 0/00
worker 0 job 1 unit 0 point 1 looked
worker 0 job 1 unit 1 point 0 looked
worker 0 job 1 data 512*55,511*00,1*01
part: unit 1 point 0 read 8 1
recorded: status 0/00 data 511*00,1*01
the step gives: status 0/00 data 512*00
first difference: LBA 8 byte 511 recorded 01 given 00
last change of LBA 8: none
unit 1 first 8 blocks 8 entries 0 limit 100
unit 1 point 0 rests job 1
"""

# Nine Writes of one block, and a Read after the fifth of them: three entries before the point are told, and four from it on.
MANY = [write(0, byte) for byte in range(5)] + [read(0, 1)] + [write(0, byte) for byte in range(5, 9)]
ROUND = """unit 0 first 0 blocks 8 entries 9 limit 100
unit 0 place 2 worker 0 job 2 write 0 1 512*02
unit 0 place 3 worker 0 job 3 write 0 1 512*03
unit 0 place 4 worker 0 job 4 write 0 1 512*04
unit 0 point 5 rests job 5
unit 0 place 5 worker 0 job 6 write 0 1 512*05
unit 0 place 6 worker 0 job 7 write 0 1 512*06
unit 0 place 7 worker 0 job 8 write 0 1 512*07
unit 0 place 8 worker 0 job 9 write 0 1 512*08
"""


NO_RUN = "unlawful StatusWrong job 0 unit - place -\nStatusWrong: no run of the job ends with these parts, these statuses and this data.\n"
REFUSED_WITH_PART = one([read(31, 2)], Done(0, ((3, 0, LOOKED),), ((0, 0x80),)))


def shapeless(record, units, wrong):
    """The explanation of a record of one job that no check refuses, and whose outcome has no shape."""
    own = "".join(f"{line}\n" for line in listed(record) if line.startswith(("job 0 ", "worker 0 job 0 ")))
    words = "".join(f" {unit}" for unit in units.split())
    return f"{NO_RUN}{own}no check refuses the job, which has a part in each of the units:{words}\n{wrong}\n"


def with_data_of(record, job, data):
    """The record with other data of a job that the first worker did."""
    done = tuple(replace(it, data=data) if it.job == job else it for it in record.done[0])
    return replace(record, done=(done, *record.done[1:]))


def with_done(record, job, **changed):
    """The record with something else of a job that the first worker did."""
    done = tuple(replace(it, **changed) if it.job == job else it for it in record.done[0])
    return replace(record, done=(done, *record.done[1:]))


def spoiled(record, dice):
    """The record with one byte of a Read's data changed, or of what a pair compares, or with another end of a comparison: one of each job."""
    for done in record.done[0]:
        body = record.jobs[done.job].body
        if body[0].opcode == READ and done.data:
            at = dice.randrange(len(done.data))
            yield with_data_of(record, done.job, done.data[:at] + bytes([done.data[at] ^ 1]) + done.data[at + 1 :])
        elif len(body) == 2 and done.parts and done.parts[-1][2] == DONE:
            data = b"".join(body[0].data)
            at = dice.randrange(len(data))
            yield with_compared(record, done.job, data[:at] + bytes([data[at] ^ 1]) + data[at + 1 :])
        elif body[0].opcode == COMPARE and done.parts and done.statuses[0] in ((0, 0), (2, 0x85), (2, 0x81)):
            other = ((2, 0x85), (0, 9)) if done.statuses[0] == (0, 0) else ((0, 0), (0, 0))
            yield with_done(record, done.job, statuses=other[: len(body)])
            if done.statuses[0] != (2, 0x81):
                yield with_done(record, done.job, statuses=((2, 0x81), (0, 9))[: len(body)])


# How these lines begin, of which each must occur.
KINDS = {"first difference: LBA ", "first difference: none", "last change of LBA "}


def bytes_told(run):
    """Records of all kinds of commands, each spoiled in some ways: the lines that tell of bytes are those of a model."""
    kinds = Counter()
    for seed in range(12):
        dice = random.Random(seed)
        several = list(spoiled(recorded(SPACE, [mixed(seed, 60, 32)]), dice))
        for place, record in enumerate(dice.sample(several, min(20, len(several)))):
            run.keep("spoiled", spelled(record))
            with open(os.path.join(run.folder, "told"), "wb") as file:
                ended = run.status_of(["nvq", "explain", "spoiled"], stdout=file)
            wanted = byte_lines(record)
            lines = run.kept("told").decode().splitlines()
            run.hold(f"bytes of record {place} of {seed}", (ended, [it for it in lines if it.startswith(("first diff", "last change"))]), ((0, b""), wanted))
            kinds.update(re.sub(r"\d+.*", "", line) for line in wanted)
    run.hold("the lines that tell of bytes", set(kinds), KINDS)


def explained(run):
    def explains(file, text):
        run.keep("explained", file)
        run.expect(["nvq", "explain", "explained"], out=text)
        run.expect(["nvq", "explain", "-"], given=file, out=text)

    for record, text in EXPLAINED:
        explains(spelled(record), text)
    for asked, done, units, wrong in SHAPELESS:
        run.keep("explained", spelled(one(asked, done)))
        run.expect(["nvq", "explain", "explained"], out=shapeless(one(asked, done), units, wrong))
    run.keep("explained", spelled(REFUSED_WITH_PART))
    run.expect(
        ["nvq", "explain", "explained"],
        out=f"{NO_RUN}job 0 host 1 cid 1 nsid 1 read 31 2\nworker 0 job 0 status 0/80\nworker 0 job 0 unit 3 point 0 looked\n"
        "a check refuses the job: status 0/80\na part is recorded in unit 3, where none is due\n",
    )
    file = spelled(recorded(SPACE, [file_of(SPOILED_LIST)]))
    explains(file, lawful_explanation(record_of(file)))
    explains(file[:-1] + b"\x01", SPOILED_EXPLAINED)
    many = with_data_of(recorded(SPACE, [file_of(MANY)]), 5, bytes(512))
    run.keep("explained", spelled(many))
    run.expect(
        ["nvq", "explain", "explained"],
        out="unlawful DataWrong job 5 unit 0 place 5\nDataWrong: the Read's data isn't what the unit held at the part's point.\n"
        "job 5 host 1 cid 6 nsid 1 read 0 1\nworker 0 job 5 status 0/00\nworker 0 job 5 unit 0 point 5 looked\n"
        "worker 0 job 5 data 512*00\npart: unit 0 point 5 read 0 1\nrecorded: status 0/00 data 512*00\n"
        "the step gives: status 0/00 data 512*04\nfirst difference: LBA 0 byte 0 recorded 00 given 04\n"
        f"last change of LBA 0: unit 0 place 4 worker 0 job 4 write 0 1 512*04\n{ROUND}",
    )
    for given, fault, hint in (
        (b"NVR3", "unknown version", VERSIONS),
        (file + b"\0", f"trailing at {len(file)}", ""),
        (b"NVQ1", "bad name", no_record("wrong", b"NVQ1")),
    ):
        run.keep("wrong", given)
        run.expect(["nvq", "explain", "wrong"], 1, err=told(f"nvq: wrong: {fault}", hint))
    run.expect(["nvq", "explain", "missing"], 1, err=told("nvq: cannot read missing", MISSING))
    for words in ("explain", "explain --block 512 a"):
        run.refuse(["nvq", *words.split()])
    bytes_told(run)
    stories(run)
