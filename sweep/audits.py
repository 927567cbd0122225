"""The audits of the program nvmu that are swept: of lawful records, of spoiled ones, and of files that are none."""

from dataclasses import replace

from auditor import verdict
from cases import Run
from model import Namespace
from recorded import recorded
from records import record_of, spelled


def spoiled(file):
    """The record with another byte at the end of the last unit with data. What is refused to the audit of a unit behind the
    first fault's wouldn't be told."""
    record = record_of(file)
    *_, (unit, place) = ((unit, place) for unit, it in enumerate(record.units) for place, entry in enumerate(it) if entry.data)
    entries = list(record.units[unit])
    entries[place] = replace(entries[place], data=entries[place].data[:-1] + b"\xee")
    return spelled(replace(record, units=(*record.units[:unit], tuple(entries), *record.units[unit + 1 :])))


def audits(kept, missing, files, none):
    """The cases, of the records of runs of these host files. `kept` makes a file and gives its path."""

    def audited(name, file, fault=None):
        """The audit of a record, or of a file that is none."""
        path = kept(f"record-{name}", file)
        if fault:
            return Run(name, "nvmu", ["audit", path], 1, err=f"nvmu: record: {fault}\n")
        record = record_of(file)
        line = verdict(record)
        status, units = 0 if line.startswith("lawful") else 2, len(record.namespace.units())
        return Run(name, "nvmu", ["audit", path], status, out=f"{line}\n", units=units)

    done = spelled(recorded(Namespace(nabsn=7, limit=5), files))
    old = spelled(recorded(Namespace(limit=5), files[1:2]))
    old = b"NVR1" + old[4:24] + (4).to_bytes(2, "little") + old[28:]
    return [
        audited("an audit of many jobs", done),
        Run(
            "an object of an audit",
            "nvmu",
            ["audit", "--json", kept("record-in-an-object", spelled(recorded(Namespace(limit=5), [none])))],
            out='{"verdict":"lawful","jobs":0,"units":1,"changes":0,"refused":0}\n',
            units=1,
        ),
        audited("an audit of one unit", spelled(recorded(Namespace(), files[:1]))),
        audited("an audit of the first version", old),
        audited("an audit of no jobs", spelled(recorded(Namespace(nabsn=7), [none]))),
        audited("an audit of a spoiled record", spoiled(done)),
        audited("a cut record", done[:-1], f"truncated at {len(done) - 1}"),
        audited("a byte more than a record", done + b"0", f"trailing at {len(done)}"),
        audited("no record", files[0], "bad name"),
        audited("a record of a later version", b"NVR3", "unknown version"),
        audited("no workers", done[:28] + bytes(2) + done[30:], "bad value at 28"),
        Run("a missing record", "nvmu", ["audit", missing], 1, err=f"nvmu: cannot read {missing}\n"),
    ]
