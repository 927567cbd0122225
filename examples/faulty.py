"""Records with faults in several units: what `nvq audit --all` must print of them, by hand and by the model of an auditor."""

import random
from dataclasses import replace

from auditor import all_faults, verdict
from hints import of_record
from hints import told as hinted
from host_files import file_of, read, write
from model import Namespace
from recorded import recorded
from records import FULL, LOOKED, RecordFault, record_of, spelled

SPACE = Namespace(nabsn=7)
# A Write of the first block of each unit, a Read of it by the job of the number that is 4 above, and a Read over the first boundary.
ASKED = [*(write(8 * unit, 0x41 + unit) for unit in range(4)), *(read(8 * unit, 1) for unit in range(4)), read(7, 2)]
ALONE = recorded(SPACE, [file_of(ASKED)])
JOBS = ALONE.done[0]
# Of two workers one did nothing.
LAWFUL = replace(ALONE, workers=2, done=(JOBS, ()))
WRONG = b"\x55" * 512
LAWFUL_LINE = "lawful jobs 9 units 4 changes 4 refused 0"
# So many spoiled records, each with up to so many bytes that are other ones.
SPOILED, BYTES = 400, 6


def with_done(record, **jobs):
    """The record with other things done of some jobs: `job5={"data": WRONG}`."""
    changed = {int(name[3:]): what for name, what in jobs.items()}
    return replace(record, done=(tuple(replace(it, **changed.get(it.job, {})) for it in record.done[0]), *record.done[1:]))


def with_entry(record, unit, **changed):
    """The record with another entry in a unit."""
    units = list(record.units)
    units[unit] = (replace(units[unit][0], **changed),)
    return replace(record, units=tuple(units))


def without_entry(record, unit):
    return replace(record, units=(*record.units[:unit], (), *record.units[unit + 1 :]))


# Records, and their lines without the last, which counts them.
FAULTY = [
    (LAWFUL, [LAWFUL_LINE]),
    # in the first unit, in the last, and in two of them
    (with_done(LAWFUL, job4={"data": WRONG}), ["unlawful DataWrong job 4 unit 0 place 1"]),
    (with_entry(LAWFUL, 3, data=WRONG), ["unlawful EntryWrong job 3 unit 3 place 0"]),
    (
        with_entry(with_done(LAWFUL, job5={"data": WRONG}), 3, data=WRONG),
        ["unlawful DataWrong job 5 unit 1 place 1", "unlawful EntryWrong job 3 unit 3 place 0"],
    ),
    # a fault of each kind, each in its unit; of unit 3 the first of two
    (
        with_done(
            with_entry(without_entry(LAWFUL, 1), 2, worker=1),
            job4={"parts": ((0, 9, LOOKED),)},
            job7={"parts": ((3, 0, LOOKED),), "data": WRONG},
        ),
        [
            "unlawful PointPast job 4 unit 0 place 9",
            "unlawful PointPast job 1 unit 1 place 0",
            "unlawful EntryUnclaimed job 2 unit 2 place 0",
            "unlawful PointBack job 7 unit 3 place 0",
        ],
    ),
    (
        with_done(LAWFUL, job5={"statuses": ((2, 0x81),), "data": None}, job6={"parts": ((2, 1, LOOKED),), "data": WRONG}),
        ["unlawful StatusWrong job 5 unit 1 place 1", "unlawful DataWrong job 6 unit 2 place 1"],
    ),
    # one Read over two units, wrong in both, and in the second alone
    (with_done(LAWFUL, job8={"data": WRONG * 2}), ["unlawful DataWrong job 8 unit 0 place 1", "unlawful DataWrong job 8 unit 1 place 1"]),
    (with_done(LAWFUL, job8={"data": bytes(512) + WRONG}), ["unlawful DataWrong job 8 unit 1 place 1"]),
    # Where a job is wrong by itself, units aren't looked at.
    (
        with_done(with_entry(LAWFUL, 3, data=WRONG), job1={"parts": ((1, 0, FULL),)}),
        ["unlawful StatusWrong job 1 unit - place -"],
    ),
    (replace(with_entry(LAWFUL, 3, data=WRONG), done=(JOBS[:8], ())), ["unlawful JobMissing job 8 unit - place -"]),
    (replace(with_entry(LAWFUL, 3, data=WRONG), done=(JOBS, JOBS[2:3])), ["unlawful JobTwice job 2 unit - place -"]),
]


def text_of(lines):
    """What is printed of these faults, or of the line of a lawful record."""
    count = [] if lines == [LAWFUL_LINE] else [f"faults {len(lines)}"]
    return "".join(f"{line}\n" for line in [*lines, *count])


def listed(run, file, lines=None):
    """Holds all faults of a file's record to the model, and to the lines that were worked out by hand, and the first of them to the audit's."""
    run.keep("faulty", file)
    words = ["nvq", "audit", "--all", "faulty"]
    try:
        record = record_of(file)
    except RecordFault as fault:
        hint = f"it is {fault.field}" if fault.field else of_record(f"nvmu: record: {fault}", "faulty", file)
        run.expect(words, 1, err=hinted(f"nvq: faulty: {fault}", hint))
        return
    text, first = all_faults(record), verdict(record)
    if lines is not None:
        run.hold("the model of all faults", text, text_of(lines))
    run.hold("the first of all faults", text.splitlines()[0], first)
    run.expect(words, 0 if first.startswith("lawful") else 2, out=text, files={"faulty": file})


def faulty(run):
    for record, lines in FAULTY:
        for version in (1, 2):
            listed(run, spelled(replace(record, version=version)), lines)
    spoiled(run)
    run.keep("faulty", spelled(LAWFUL))
    run.expect(["nvq", "audit", "--all", "-"], given=spelled(LAWFUL), out=f"{LAWFUL_LINE}\n")
    for words in (["audit", "--all"], ["audit", "--all", "--json", "faulty"], ["audit", "--all=yes", "faulty"], ["audit", "--all", "--all", "faulty"]):
        run.refuse(["nvq", *words])
    run.refuse(["nvmu", "audit", "--all", "faulty"])


def spoiled(run):
    """Spoiled in a few places behind the jobs, the same ones each time."""
    file = spelled(LAWFUL)
    # A name, a head of 30 bytes, and each job in 67 bytes and a Write's data.
    behind = 34 + 9 * 67 + 4 * 512
    chance = random.Random(20)
    for _ in range(SPOILED):
        spoilt = bytearray(file)
        for _ in range(chance.randint(1, BYTES)):
            spoilt[chance.randrange(behind, len(file))] ^= 1 << chance.randrange(3)
        listed(run, bytes(spoilt))
