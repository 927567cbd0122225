"""Records as nvq lists them: rows that were worked out by hand, each with all that is listed of it.

The namespace has 32 blocks of 512 bytes in units of eight, and pairs have up to four blocks.
"""

from dataclasses import replace

from forged import FORGED, OLD, OTHER, SPACE, TWO, WRITTEN
from hints import VERSIONS, no_host_file
from hints import told as hinted
from host_files import compare, dataset, file_of, pair, read, uncorrectable, unknown, write, zeroes
from record_listing import record_listing
from recorded import recorded
from recording import ran
from records import LOOKED, NO_MEMORY, Done, spelled

OPTIONS = {"nsze": 32, "block": 512, "nabsn": 7, "nabo": 0, "nawun": 7, "nacwu": 3, "workers": 1, "limit": 100}
NAMESPACE = "namespace nsze 32 block 512 nabsn 7 nabo 0 nawun 7 nacwu 3\n"

# What both versions hold: a Write into two units, a pair that holds and one that fails, a Read of two units, marks, and commands
# that are refused.
ASKED = [
    write(6, 0x41, 0x41, 0x42),
    *pair(compare(6, 0x41), write(6, 0x43, end=b"\x00\x01")),
    *pair(compare(6, 0x41), write(6, 0x44)),
    read(5, 4),
    zeroes(31, 1),
    uncorrectable(24, 2),
    read(24, 1),
    compare(0, 0, fuse=1, nsid=2**32 - 1, cid=65_535),
    unknown(2**64 - 1, 65_536, fuse=3),
    read(0, 1, fuse=2),
]
LISTED = f"""{NAMESPACE}limit 100 workers 1 jobs 10 units 4
job 0 host 1 cid 1 nsid 1 write 6 3 1024*41,512*42
job 1 host 1 cid 2 nsid 1 compare 6 1 512*41 first
job 1 host 1 cid 3 nsid 1 write 6 1 510*43,1*00,1*01 second
job 2 host 1 cid 4 nsid 1 compare 6 1 512*41 first
job 2 host 1 cid 5 nsid 1 write 6 1 512*44 second
job 3 host 1 cid 6 nsid 1 read 5 4
job 4 host 1 cid 7 nsid 1 zeroes 31 1
job 5 host 1 cid 8 nsid 1 uncorrectable 24 2
job 6 host 1 cid 9 nsid 1 read 24 1
job 7 host 1 cid 65535 nsid 4294967295 compare 0 1 512*00 first
job 8 host 1 cid 11 nsid 1 op-7f 18446744073709551615 65536 reserved
job 9 host 1 cid 12 nsid 1 read 0 1 second
unit 0 place 0 worker 0 job 0 write 6 2 1024*41
unit 0 place 1 worker 0 job 1 pair 6 1 512*41 510*43,1*00,1*01
unit 1 place 0 worker 0 job 0 write 8 1 512*42
unit 3 place 0 worker 0 job 4 zeroes 31 1
unit 3 place 1 worker 0 job 5 uncorrectable 24 2
worker 0 job 0 status 0/00
worker 0 job 0 unit 0 point 0 done
worker 0 job 0 unit 1 point 0 done
worker 0 job 1 status 0/00 0/00
worker 0 job 1 unit 0 point 1 done
worker 0 job 2 status 2/85 0/09
worker 0 job 2 unit 0 point 2 failed
worker 0 job 3 status 0/00
worker 0 job 3 unit 0 point 2 looked
worker 0 job 3 unit 1 point 1 looked
worker 0 job 3 data 512*00,510*43,1*00,1*01,512*41,512*42
worker 0 job 4 status 0/00
worker 0 job 4 unit 3 point 0 done
worker 0 job 5 status 0/00
worker 0 job 5 unit 3 point 1 done
worker 0 job 6 status 2/81
worker 0 job 6 unit 3 point 2 looked
worker 0 job 7 status 0/0a
worker 0 job 8 status 0/01
worker 0 job 9 status 0/0a
"""

# A Deallocate in two units, one without the bit, and a Write into a unit that is full.
DEALLOCATED = [dataset((7, 2), (0, 1)), dataset((7, 2), deallocate=False), write(0, 0x41)]
DEALLOCATED_LISTED = f"""record version 2
{NAMESPACE}limit 1 workers 1 jobs 3 units 4
job 0 host 1 cid 1 nsid 1 dataset 7+2,0+1 deallocate
job 1 host 1 cid 2 nsid 1 dataset 7+2
job 2 host 1 cid 3 nsid 1 write 0 1 512*41
unit 0 place 0 worker 0 job 0 deallocate 7+1,0+1
unit 1 place 0 worker 0 job 0 deallocate 8+1
worker 0 job 0 status 0/00
worker 0 job 0 unit 0 point 0 done
worker 0 job 0 unit 1 point 0 done
worker 0 job 1 status 0/00
worker 0 job 2 status 0/06
worker 0 job 2 unit 0 point 1 full
"""

# What no run made, of two hosts and two workers: a job that was done twice, a point above all, a status of no name.
ODD = replace(
    TWO,
    done=(
        (replace(WRITTEN, parts=((3, 2**32 - 1, NO_MEMORY), (0, 7, LOOKED)), statuses=((255, 255),)), WRITTEN),
        (OTHER, Done(2, (), ((0, 0),), b"\x01" + bytes(511))),
    ),
)
ODD_LISTED = f"""record version 2
{NAMESPACE}limit 100 workers 2 jobs 3 units 4
job 0 host 1 cid 1 nsid 1 write 0 1 512*41
job 1 host 2 cid 1 nsid 1 write 0 1 512*42
job 2 host 1 cid 2 nsid 1 read 0 1
unit 0 place 0 worker 1 job 1 write 0 1 512*42
unit 0 place 1 worker 0 job 0 write 0 1 512*41
worker 0 job 0 status 255/ff
worker 0 job 0 unit 3 point 4294967295 no-memory
worker 0 job 0 unit 0 point 7 looked
worker 0 job 0 status 0/00
worker 0 job 0 unit 0 point 1 done
worker 1 job 1 status 0/00
worker 1 job 1 unit 0 point 0 done
worker 1 job 2 status 0/00
worker 1 job 2 data 1*01,511*00
"""
OLD_LISTED = f"""record version 1
{NAMESPACE}limit 100 workers 1 jobs 1 units 4
job 0 host 1 cid 1 nsid 1 op-09 0 1
worker 0 job 0 status 0/01
"""


def listings(run):
    def listed(record, told):
        run.hold("the model of a listing", record_listing(record), told)
        run.keep("listed", spelled(record))
        run.expect(["nvq", "list", "listed"], out=told)

    run.keep("asked.nvq", file_of(ASKED))
    run.keep("deallocated.nvq", file_of(DEALLOCATED))
    ran(run, OPTIONS, "asked.nvq")
    run.expect(["nvq", "list", "record"], out=f"record version 2\n{LISTED}")
    record = recorded(SPACE, [file_of(ASKED)])
    for version in (1, 2):
        listed(replace(record, version=version), f"record version {version}\n{LISTED}")
    ran(run, {**OPTIONS, "limit": 1}, "deallocated.nvq")
    run.expect(["nvq", "list", "record"], out=DEALLOCATED_LISTED)
    listed(recorded(replace(SPACE, limit=1), [file_of(DEALLOCATED)]), DEALLOCATED_LISTED)
    listed(ODD, ODD_LISTED)
    listed(OLD, OLD_LISTED)
    for forged, _line in FORGED:
        for version in (1, 2):
            it = replace(forged, version=version)
            listed(it, record_listing(it))
    faults_of_records(run)


def faults_of_records(run):
    file = spelled(TWO)
    # A record says by itself how long its blocks are.
    run.expect(["nvq", "list", "--block", "4096", "-"], given=file, out=record_listing(TWO))
    for given, fault in (
        (b"NVR", "unknown version"),
        (b"NVR3" + file[4:], "unknown version"),
        (b"NVR1", "truncated at 4"),
        (file[:-1], f"truncated at {len(file) - 1}"),
        (file + b"\0", f"trailing at {len(file)}"),
        (file[:28] + bytes(2) + file[30:], "bad value at 28"),
        # None of these begins as a record.
        (b"NV", "bad name"),
        (b"NVS2" + file[4:], "bad name"),
        (b"nvr2" + file[4:], "bad name"),
    ):
        run.keep("wrong", given)
        for path in ("wrong", "-"):
            hints = {"bad name": no_host_file(path, given), "unknown version": VERSIONS, "bad value at 28": "it is the number of workers"}
            hint = hints.get(fault, "")
            run.expect(["nvq", "list", path], 1, given=given, err=hinted(f"nvq: {path}: {fault}", hint))
