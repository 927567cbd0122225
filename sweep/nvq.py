"""The runs of the program nvq that are swept: a host file as a list of commands, and back; the listing of a record and its explanation; and
lists that are run."""

import os
import re
from dataclasses import replace

from auditor import verdict
from audits import spoiled
from cases import Recording, Run
from hints import FOLDER, GEOMETRY, IS_LIST, IS_OTHER_LIST, MISSING, VERSIONS, no_host_file, no_list, other_block, the_line, told
from host_files import compare, dataset, file_of, pair, read, uncorrectable, unknown, write, zeroes
from listing_objects import listing_objects
from loads import Load, generated
from model import COMPARE, DATASET, WRITE, Namespace, commands
from record_explaining import lawful_explanation
from record_listing import record_listing
from record_objects import spelled_object, verdict_object
from recorded import recorded
from records import spelled
from witnesses import certified, explained, judged, of_text

# What is expected at the front of a list's line.
NO_COMMAND = "expected write, read, compare, zeroes, uncorrectable, dataset, or op- and another opcode in two hexadecimal digits"
FUSES = ["", " first", " second", " reserved"]
# Commands that are refused before they take memory, and what is told of them.
EXPECTING = "read 99 1 expect 0/80\nop-7f 0 1 expect 0/00\n"
UNMET = """1 1 read 0/80
  read 99 1: LBA Out of Range (0x80)
1 2 op-7f 0/01
  op-7f 0 1: Invalid Command Opcode (0x1)
lawful jobs 2 units 4 changes 0 refused 0
unmet 1 2 op-7f expected 0/00 got 0/01
expectations 2 unmet 1
"""


def listing(file, block):
    """The list of a host file's commands, as it is printed."""

    def line(place, it):
        runs = re.finditer(rb"(?s)(.)\1*", b"".join(it.data))
        data = " " + ",".join(f"{len(run[0])}*{run[1].hex()}" for run in runs) if it.opcode in (WRITE, COMPARE) else ""
        cid = "" if it.cid == place % 65_536 else f" cid={it.cid}"
        nsid = "" if it.nsid == 1 else f" nsid={it.nsid}"
        ranges = ",".join(f"{first}+{blocks}" for first, blocks in it.ranges) + " deallocate" * it.deallocate
        place = ranges if it.opcode == DATASET else f"{it.first} {it.blocks}{data}"
        return f"{it.name()} {place}{FUSES[it.fuse]}{cid}{nsid}\n"

    return "".join(line(place, it) for place, it in enumerate(commands(file, block), 1))


JOB_0 = "job 0 host 1 cid 1 nsid 1 write 0 1 512*41\nworker 0 job 0 status 0/00\nworker 0 job 0 unit 0 point 0 done\n"
WRONG_DATA = """unlawful DataWrong job 1 unit 0 place 1
DataWrong: the Read's data isn't what the unit held at the part's point.
job 1 host 1 cid 2 nsid 1 read 0 1
worker 0 job 1 status 0/00
worker 0 job 1 unit 0 point 1 looked
worker 0 job 1 data 511*41,1*01
part: unit 0 point 1 read 0 1
recorded: status 0/00 data 511*41,1*01
the step gives: status 0/00 data 512*41
first difference: LBA 0 byte 511 recorded 01 given 41
last change of LBA 0: unit 0 place 0 worker 0 job 0 write 0 1 512*41
unit 0 first 0 blocks 8 entries 1 limit 100
unit 0 place 0 worker 0 job 0 write 0 1 512*41
unit 0 point 1 rests job 1
"""
WRONG_COMPARISON = """unlawful StatusWrong job 1 unit 0 place 1
StatusWrong: at its point the part doesn't end as it is recorded.
job 1 host 1 cid 2 nsid 1 compare 0 1 512*42
worker 0 job 1 status 0/00
worker 0 job 1 unit 0 point 1 looked
part: unit 0 point 1 compare 0 1 512*42
recorded: status 0/00
the step gives: status 2/85
first difference: LBA 0 byte 0 compared 42 held 41
last change of LBA 0: unit 0 place 0 worker 0 job 0 write 0 1 512*41
unit 0 first 0 blocks 8 entries 1 limit 100
unit 0 place 0 worker 0 job 0 write 0 1 512*41
unit 0 point 1 rests job 1
"""
WRONG_ENTRY = f"""unlawful EntryWrong job 0 unit 0 place 0
EntryWrong: the entry isn't its job's part in the unit, or it doesn't succeed after the entries before it.
{JOB_0}recorded: unit 0 place 0 worker 0 job 0 write 0 1 511*41,1*01
the job's part: write 0 1 512*41
first difference: LBA 0 byte 511 recorded 01 sent 41
the step gives: status 0/00
unit 0 first 0 blocks 8 entries 1 limit 100
unit 0 place 0 worker 0 job 0 write 0 1 511*41,1*01
"""


def asked():
    return [
        write(0, 0x41, 0x42),
        read(2**64 - 1, 65_536),
        *pair(compare(4, 0), write(4, 0xFF, end=b"\x00\x01")),
        unknown(0, 1, fuse=3, cid=258, nsid=0),
        zeroes(7, 18, nsid=2**32 - 1),
        uncorrectable(9, 4, cid=0),
        dataset((7, 2), (0, 0), (2**64 - 1, 2**32 - 1), fuse=1, nsid=7),
        dataset((7, 2), deallocate=False),
        write(0, *range(40)),
    ]


def runs(folder):
    def kept(name, content):
        path = os.path.join(folder, name)
        with open(path, "wb") as it:
            it.write(content)
        return path

    def done(name, given, out="", **more):
        return Run(name, "nvq", given, out=out, **more)

    def objects(record):
        return listing_objects(record) + spelled_object(verdict_object(verdict(record)))

    def fault(name, line, *given, hint="", **more):
        return Run(name, "nvq", list(given), 1, err=told(f"nvq: {line}", hint), **more)

    def refused(name, given, status=1):
        return Run(name, "nvq", given, status)

    def in_large(word):
        return [word, "--block", "4096"]

    def ran(name, hosts, *told, err=None, **more):
        """A run of the lists of these host files by one worker, in units of eight blocks. Told as objects its record is audited twice."""
        space = Namespace(nsze=32, nabsn=7, nacwu=7, limit=3)
        lists = [f"# {name}\n\n {listing(file, 512)}" for file in hosts]
        paths = [kept(f"{name}-{host}".replace(" ", "-"), it.encode()) for host, it in enumerate(lists, 1)]
        given = ["run", "--nsze", "32", "--limit", "3", "--workers", "1", "--record", Recording.name, *told, *paths]
        model = Recording(space, hosts, lists=lists, objects="--json" in told)
        return Run(name, "nvq", given, err=err, before=more, model=model, rounds=1 + model.objects)

    def not_ran(name, line, *given, hint="", **more):
        return Run(name, "nvq", ["run", "--nsze", "32", "--workers", "1", *given], 1, err=told(f"nvq: {line}", hint), **more)

    # A record of one unit is audited without a thread.
    one_unit = ["--nabsn", "0"]
    # It goes to standard output, where the sweep reads text, so all its bytes are of it.
    plain = file_of([write(0, 0x41), read(0, 1), *pair(compare(0, 0x41), write(0, 0x42)), zeroes(1, 2)])
    host, large = file_of(asked()), file_of(asked(), 4096)
    file, list_ = kept("host.nvq", host), kept("host.list", listing(host, 512).encode())
    large_file, large_list = kept("large.nvq", large), kept("large.list", listing(large, 4096).encode())
    plain_list = kept("plain.list", b"# a comment\r\n\n" + listing(plain, 512).encode())
    wrong, several = kept("wrong.list", b"read 0 1\n\nwrite 0 1 511*41\n"), kept("several.list", b"walk\nwalk\nread 0 1\n")
    cut, empty, small = kept("cut.nvq", host[:700]), kept("empty.nvq", b""), kept("small.nvq", file_of([write(0, 0x41)]))
    many = kept("many.nvq", b"NVQ1" + file_of([unknown(0, 1)])[4:] * 65_536 + b"0")
    expecting, unexpected = kept("expecting.list", EXPECTING.encode()), kept("unexpected.list", b"read 0 1 expect 2\n")
    missing = os.path.join(folder, "missing")
    of_hosts = recorded(Namespace(nabsn=7, limit=2), [host, file_of([read(6, 4)]), plain])
    of_nobody = replace(recorded(Namespace(), [file_of([])], workers=3), version=1)
    of_one = recorded(Namespace(), [file_of([unknown(0, 1)])])
    of_crowd = replace(of_one, jobs=of_one.jobs * 65_537)
    crowd = kept("crowd", spelled(of_crowd))
    spelled_record = spelled(of_hosts)
    record, first = kept("record", spelled_record), kept("first", spelled(of_nobody))
    of_one_unit = spoiled(spelled(recorded(Namespace(nabsn=7), [plain])))
    cut_record, more = kept("cut-record", spelled_record[:-1]), kept("more", spelled_record + b"0")
    no_workers, later = kept("no-workers", spelled_record[:28] + bytes(2) + spelled_record[30:]), kept("later", b"NVR3")
    short = spelled(recorded(Namespace(nabsn=7), [file_of([write(0, 0x41), read(0, 1)])]))
    # The last byte is the last of the Read's data, and the last of the entry's stands before three units without one.
    wrong_data = kept("wrong-data", short[:-1] + b"\x01")
    wrong_entry = kept("wrong-entry", short[:1214] + b"\x01" + short[1215:])
    compared = recorded(Namespace(nabsn=7), [file_of([write(0, 0x41), compare(0, 0x42)])])
    found_equal = replace(compared, done=((compared.done[0][0], replace(compared.done[0][1], statuses=((0, 0),))),))
    wrong_comparison = kept("wrong-comparison", spelled(found_equal))
    wrong_kind, wrong_count = kept("wrong-kind", short[:36] + b"\x09" + short[37:]), kept("wrong-count", short[:1215] + b"\xee" + short[1216:])
    trace = kept("a-trace.nvt", b"NVT1")
    loads = {f"out-{host}": generated(Load(commands=30), host).encode() for host in (1, 2)}
    return [
        done("a list is assembled", ["assemble", list_, "out.nvq"], files={"out.nvq": host}),
        done("a list of large blocks is assembled", [*in_large("assemble"), large_list, "out"], files={"out": large}),
        done("a list is assembled to standard output", ["assemble", plain_list, "-"], plain.decode()),
        done("standard input is assembled", ["assemble", "-", "out.nvq"], input=list_, files={"out.nvq": host}),
        done("an empty list is assembled", ["assemble", empty, "out.nvq"], files={"out.nvq": b"NVQ1"}),
        done("a host file is listed", ["list", file], listing(host, 512)),
        done("a host file of large blocks is listed", [*in_large("list"), large_file], listing(large, 4096)),
        done("standard input is listed", ["list", "-"], listing(host, 512), input=file),
        done("a record is listed", ["list", record], record_listing(of_hosts)),
        done("a record of the first version is listed", [*in_large("list"), first], record_listing(of_nobody)),
        done("a record on standard input is listed", ["list", "-"], record_listing(of_hosts), input=record),
        done("a record of 65,537 jobs is listed", ["list", crowd], record_listing(of_crowd), every=4),
        done("a record is listed as objects", ["list", "--json", record], objects(of_hosts), units=len(of_hosts.units)),
        done("a record of no jobs is listed as objects", ["list", "--json", "-"], objects(of_nobody), input=first, units=len(of_nobody.units)),
        fault("a cut record to list as objects", f"{cut_record}: truncated at {len(spelled_record) - 1}", "list", "--json", cut_record),
        done("a record is explained", ["explain", record], lawful_explanation(of_hosts), units=len(of_hosts.units)),
        done("a record of no jobs is explained", ["explain", "-"], lawful_explanation(of_nobody), input=first, units=len(of_nobody.units)),
        done("a spoiled record is explained", ["explain", wrong_data], WRONG_DATA, units=4),
        done("a record with a wrong entry is explained", ["explain", wrong_entry], WRONG_ENTRY, units=4),
        done("a record with a wrong comparison is explained", ["explain", wrong_comparison], WRONG_COMPARISON, units=4),
        fault("a cut record to explain", f"{cut_record}: truncated at {len(spelled_record) - 1}", "explain", cut_record),
        fault("a wrong line", "line 3: expected data of 512 bytes and not of 511", "assemble", wrong, "out", hint=the_line("write 0 1 511*41")),
        fault("a record for a list", f"line 1: {NO_COMMAND}", "assemble", record, "out", hint=no_list(record, spelled_record)),
        fault("a trace for a list", f"line 1: {NO_COMMAND}", "assemble", trace, "out", hint=f"{trace} is a trace: nvq list {trace} shows it"),
        fault("a missing list", f"cannot read {missing}", "assemble", missing, "out", hint=MISSING),
        fault("a host file for a list", f"line 1: {NO_COMMAND}", "assemble", file, "out", hint=no_list(file, host)),
        fault("a list that is written over", f"cannot write {list_}", "assemble", list_, list_, hint=IS_LIST),
        fault("a folder for the host file", f"cannot write {folder}", "assemble", list_, folder, hint=FOLDER),
        fault("an empty file", f"{empty}: bad name", "list", empty, hint=no_host_file(empty, b"")),
        fault("blocks of another size", f"{small}: truncated at 68", *in_large("list"), small, hint=other_block(512)),
        fault("a truncated file", f"{cut}: truncated at 68", "list", cut, hides_wants=True),
        fault("too many commands", f"{many}: too many commands", "list", many, hides_wants=True),
        fault("a cut record", f"{cut_record}: truncated at {len(spelled_record) - 1}", "list", cut_record),
        fault("a byte more than a record", f"{more}: trailing at {len(spelled_record)}", "list", more),
        fault("no workers", f"{no_workers}: bad value at 28", "list", no_workers, hint="it is the number of workers"),
        fault("a job of no kind", f"{wrong_kind}: bad value at 36", "list", wrong_kind, hint="it is the kind of job 0"),
        fault("too many entries", f"{wrong_count}: bad value at 1215", "list", wrong_count, hint="it is the number of entries of unit 1"),
        fault("a record of a later version", f"{later}: unknown version", "list", later, hint=VERSIONS),
        fault("a missing file", f"cannot read {missing}", "list", missing, hint=MISSING),
        *of_text(kept),
        *certified(kept),
        *explained(kept),
        *judged(kept),
        done("lists are generated", ["generate", "--commands", "30", "out-1", "out-2"], files=loads),
        fault("two lists in one file", "cannot write out", "generate", "out", "out", hint=IS_OTHER_LIST),
        fault("numbers of no namespace to generate for", "geometry: Size", "generate", "--nsze", "0", "out", hint=GEOMETRY["Size"]),
        ran("lists that are run", [plain, file_of([read(0, 2), dataset((0, 1))])]),
        ran("a list that is run and a record before", [plain], **{Recording.name: b"old"}),
        ran("lists that are run and told as objects", [plain, file_of([read(0, 2), dataset((0, 1))])], "--json"),
        Run("what lists expect", "nvq", ["run", "--nsze", "32", "--workers", "1", "--check", expecting], 2, out=UNMET, units=4),
        not_ran("wrong lines of a run", f"{several}: line 1: {NO_COMMAND}", several, hint=the_line("walk", f"line 2: {NO_COMMAND}")),
        not_ran("a wrong expectation", f"{unexpected}: line 1: expected a status after expect, as in 2/85", unexpected, hint=the_line("read 0 1 expect 2")),
        ran("no commands that are run", [file_of([])], err="nvq: the lists have no command\n"),
        not_ran("a wrong line of a run", f"{wrong}: line 3: expected data of 512 bytes and not of 511", plain_list, wrong, hint=the_line("write 0 1 511*41")),
        not_ran("a missing list of a run", f"cannot read {missing}", plain_list, missing, hint=MISSING),
        not_ran("standard input twice", "standard input is named twice", "-", "-"),
        not_ran("no boundary for a pair", "geometry: PairUnitAboveBoundary", "--nacwu", "8", plain_list, hint=GEOMETRY["PairUnitAboveBoundary"]),
        not_ran("a record that can't be written", "cannot write missing/record", *one_unit, "--record", "missing/record", plain_list, hides_wants=True, hint=MISSING),
        refused("no words", []),
        refused("an unknown option", ["list", "--bogus", "1"]),
        refused("an unknown word", ["walk"]),
        refused("a missing file name", ["assemble", list_]),
        refused("no size", ["list", "--block", "1024", file]),
        refused("a word that isn't UTF-8", [b"\xff"]),
        refused("help", ["--help"], 0),
        refused("help on assemble", ["assemble", "--help"], 0),
        refused("help on a run", ["run", "--help"], 0),
        refused("workers out of range", ["run", "--workers", "65", plain_list]),
        refused("no record to explain", ["explain"]),
    ]
