//! The plain engine: what an engineer writes in a week where nothing is proved. It takes the words of `nvmu`, reads the same files, writes
//! the same record, and prints the same lines, to the byte. bench/plainly builds it by `rustc` and measures `nvmu` beside it:
//!
//!     rustc -C opt-level=3 -C codegen-units=1 --edition 2021 -o plain bench/plain.rs
//!     plain run --nsze N --block N --nabsn N --nabo N --nawun N --nacwu N --workers N --limit N --out REC FILE..
//!     plain audit REC
//!
//! Commands are slices of the files, which are read once. The blocks are one zeroed allocation, cut into units, each behind a mutex.
//! Workers draw jobs from a counter, and keep lists of what they did. A history's entry is a worker's number and a job's, since the job
//! says the rest. The record and the lines are streams. Nothing is freed at the end.
//!
//! It does what `nvmu` does, in the same order: a run is audited before its record is written. `run --unaudited` leaves that out and
//! counts what the last line tells, as a program would that takes itself at its word. It differs in this:
//!
//! - Its faults begin with `plain`, and no hint stands below them. Words that aren't understood are told in its own words.
//! - No progress is shown on a terminal.
//! - Where standard input is closed, it is an empty file.
//! - Where memory is refused, it is aborted. So it never answers 0/06 for want of memory, only for a full history.

use std::cmp::Ordering::{Equal, Greater, Less};
use std::fs::{self, File, OpenOptions};
use std::io::{self, BufWriter, Read, Write};
use std::ops::Range;
use std::os::fd::AsFd;
use std::os::unix::fs::{fchown, MetadataExt};
use std::path::{Path, PathBuf};
use std::process::exit;
use std::sync::atomic::{AtomicUsize, Ordering::Relaxed};
use std::sync::Mutex;
use std::thread;

const VERSION: &str = "0.1.0";
const MOST_HOSTS: usize = 64;
const MOST_COMMANDS: usize = 65_536;
const MOST_JOBS: u64 = 4_194_304;
const MOST_UNITS: usize = 4_096;
/// So many bytes are gathered before the system is asked to write them.
const GATHERED: usize = 1 << 18;
/// The data of Reads is kept in pieces of at least so many bytes.
const PIECE: usize = 1 << 20;

const WRITE: u8 = 0x01;
const READ: u8 = 0x02;
const UNCORRECTABLE: u8 = 0x04;
const COMPARE: u8 = 0x05;
const ZEROES: u8 = 0x08;
const DATASET: u8 = 0x09;

const NORMAL: u8 = 0;
const FIRST: u8 = 1;
const SECOND: u8 = 2;
const RESERVED: u8 = 3;

/// A status: its type, and below that its code.
type Status = u16;

const SUCCESS: Status = 0x000;
const INVALID_OPCODE: Status = 0x001;
const INVALID_FIELD: Status = 0x002;
const INTERNAL_ERROR: Status = 0x006;
const FUSED_ABORTED: Status = 0x009;
const FUSED_MISSING: Status = 0x00a;
const INVALID_NAMESPACE: Status = 0x00b;
const UNIT_EXCEEDED: Status = 0x014;
const OUT_OF_RANGE: Status = 0x080;
const UNREADABLE: Status = 0x281;
const COMPARE_FAILURE: Status = 0x285;

// The results of a part, as a record has them.
const DONE: u8 = 1;
const FAILED: u8 = 2;
const LOOKED: u8 = 3;
const NO_MEMORY: u8 = 4;
const FULL: u8 = 5;

// The kinds of entries, as a record has them.
const KIND_WRITE: u8 = 1;
const KIND_ZEROES: u8 = 2;
const KIND_UNCORRECTABLE: u8 = 3;
const KIND_PAIR: u8 = 4;
const KIND_DEALLOCATE: u8 = 5;

// ---------------------------------------------------------------- the namespace

/// The numbers of a namespace, and the most changes that a unit may have.
#[derive(Clone, Copy)]
struct Namespace {
    nsze: u64,
    block: usize,
    nabsn: u16,
    nabo: u16,
    nawun: u16,
    nacwu: u16,
    limit: u32,
}

impl Namespace {
    /// What is wrong with the numbers, if anything is.
    fn fault(&self) -> Option<&'static str> {
        let bounded = self.nabsn != 0;
        if self.nsze == 0 || self.nsze > 65_536 {
            Some("Size")
        } else if self.block != 512 && self.block != 4096 {
            Some("BlockSize")
        } else if !bounded && self.nabo != 0 {
            Some("OffsetWithoutBoundary")
        } else if bounded && self.nabo > self.nabsn {
            Some("OffsetAboveBoundary")
        } else if bounded && self.nawun > self.nabsn {
            Some("WriteUnitAboveBoundary")
        } else if bounded && self.nacwu > self.nabsn {
            Some("PairUnitAboveBoundary")
        } else if self.units() > MOST_UNITS {
            Some("TooManyUnits")
        } else {
            None
        }
    }

    /// The blocks of a unit between two boundaries, and of the first one.
    fn sizes(&self) -> (u64, u64) {
        let size = u64::from(self.nabsn) + 1;
        (size, if self.nabo == 0 { size } else { u64::from(self.nabo) })
    }

    /// The unit of an LBA.
    fn unit(&self, lba: u64) -> usize {
        let (size, lead) = self.sizes();
        if self.nabsn == 0 || lba < lead {
            0
        } else {
            ((lba - lead) as u32 / size as u32) as usize + 1
        }
    }

    fn units(&self) -> usize {
        self.unit(self.nsze - 1) + 1
    }

    /// The LBAs of a unit.
    fn span(&self, unit: usize) -> Range<u64> {
        if self.nabsn == 0 {
            return 0..self.nsze;
        }
        let (size, lead) = self.sizes();
        let end = lead + unit as u64 * size;
        let begin = if unit == 0 { 0 } else { end - size };
        begin..end.min(self.nsze)
    }
}

// ---------------------------------------------------------------- commands and jobs

#[derive(Clone, Copy)]
struct Command {
    /// What a Write or a Compare has, and the ranges of a Dataset Management.
    data: &'static [u8],
    first: u64,
    blocks: u32,
    nsid: u32,
    cid: u16,
    opcode: u8,
    fuse: u8,
    /// Whether the opcode is one that is served. Records of the first version know no Dataset Management.
    is_known: bool,
    deallocates: bool,
}

impl Command {
    /// The command of an entry of 64 bytes, still without its data, and how many bytes of data follow it.
    fn of_entry(entry: &[u8], block: usize, knows_dataset: bool) -> (Command, usize) {
        let opcode = entry[0];
        let is_dataset = opcode == DATASET && knows_dataset;
        let is_known = matches!(opcode, WRITE | READ | UNCORRECTABLE | COMPARE | ZEROES) || is_dataset;
        let blocks = if is_dataset { 1 } else { u32::from(u16_at(entry, 48)) + 1 };
        let data = match opcode {
            WRITE | COMPARE => blocks as usize * block,
            DATASET if is_dataset => 16 * (usize::from(entry[40]) + 1),
            _ => 0,
        };
        let command = Command {
            data: &[],
            first: if is_dataset { 0 } else { u64_at(entry, 40) },
            blocks,
            nsid: u32_at(entry, 4),
            cid: u16_at(entry, 2),
            opcode,
            fuse: entry[1] & 3,
            is_known,
            deallocates: is_dataset && entry[44] & 4 != 0,
        };
        (command, data)
    }

    fn is_dataset(&self) -> bool {
        self.opcode == DATASET && self.is_known
    }

    fn changes(&self) -> bool {
        self.is_known && matches!(self.opcode, WRITE | UNCORRECTABLE | ZEROES | DATASET)
    }

    /// The ranges of a Dataset Management.
    fn ranges(&self) -> impl Iterator<Item = Range<u64>> {
        self.data.chunks_exact(16).map(|range| {
            let first = u64_at(range, 8);
            first..first.saturating_add(u64::from(u32_at(range, 4)))
        })
    }

    /// The end of the command's range, or of the one of its ranges that ends last.
    fn end(&self) -> u64 {
        if self.is_dataset() {
            self.ranges().map(|range| range.end).max().unwrap_or(0)
        } else {
            self.first.saturating_add(u64::from(self.blocks))
        }
    }

    /// The entry, with every bit 0 that has no name.
    fn entry(&self) -> [u8; 64] {
        let mut entry = [0; 64];
        entry[0] = self.opcode;
        entry[1] = self.fuse;
        entry[2..4].copy_from_slice(&self.cid.to_le_bytes());
        entry[4..8].copy_from_slice(&self.nsid.to_le_bytes());
        if self.is_dataset() {
            entry[40] = (self.data.len() / 16 - 1) as u8;
            entry[44] = if self.deallocates { 4 } else { 0 };
        } else {
            entry[40..48].copy_from_slice(&self.first.to_le_bytes());
            entry[48..50].copy_from_slice(&((self.blocks - 1) as u16).to_le_bytes());
        }
        entry
    }
}

fn u16_at(bytes: &[u8], at: usize) -> u16 {
    u16::from_le_bytes(bytes[at..at + 2].try_into().unwrap())
}

fn u32_at(bytes: &[u8], at: usize) -> u32 {
    u32::from_le_bytes(bytes[at..at + 4].try_into().unwrap())
}

fn u64_at(bytes: &[u8], at: usize) -> u64 {
    u64::from_le_bytes(bytes[at..at + 8].try_into().unwrap())
}

/// Where a job's one or two commands are, and whose they are.
#[derive(Clone, Copy)]
struct Job {
    at: u32,
    host: u8,
    is_pair: bool,
}

/// The commands of a host file.
fn read_host(host: usize, file: &'static [u8], block: usize) -> Result<Vec<Command>, String> {
    if !file.starts_with(b"NVQ1") {
        return Err(format!("host {host}: bad name"));
    }
    let truncated = |at: usize| format!("host {host}: truncated at {at}");
    let mut commands = Vec::with_capacity((file.len() / 64).min(MOST_COMMANDS));
    let mut at = 4;
    while at < file.len() {
        if commands.len() == MOST_COMMANDS {
            return Err(format!("host {host}: too many commands"));
        }
        let entry = file.get(at..at + 64).ok_or_else(|| truncated(at))?;
        let (mut command, length) = Command::of_entry(entry, block, true);
        at += 64;
        command.data = file.get(at..at + length).ok_or_else(|| truncated(at))?;
        at += length;
        commands.push(command);
    }
    Ok(commands)
}

/// The jobs of the hosts' commands: one of each host in turn. The commands are put in the order of the jobs.
fn jobs_of(mut hosts: Vec<Vec<Command>>) -> (Vec<Command>, Vec<Job>) {
    let count = hosts.iter().map(Vec::len).sum();
    let mut jobs = Vec::with_capacity(count);
    let is_pair = |lead: &Command, next: Option<&Command>| match next {
        Some(next) => lead.fuse == FIRST && next.fuse == SECOND && lead.is_known && next.is_known,
        None => false,
    };
    if let [commands] = hosts.as_mut_slice() {
        let commands = std::mem::take(commands);
        let mut at = 0;
        while at < count {
            let is_pair = is_pair(&commands[at], commands.get(at + 1));
            jobs.push(Job { at: at as u32, host: 1, is_pair });
            at += 1 + usize::from(is_pair);
        }
        return (commands, jobs);
    }
    let mut commands = Vec::with_capacity(count);
    let mut next = vec![0; hosts.len()];
    while commands.len() < count {
        for (host, own) in hosts.iter().enumerate() {
            let at = next[host];
            if at < own.len() {
                let is_pair = is_pair(&own[at], own.get(at + 1));
                jobs.push(Job { at: commands.len() as u32, host: host as u8 + 1, is_pair });
                next[host] = at + 1 + usize::from(is_pair);
                commands.extend_from_slice(&own[at..next[host]]);
            }
        }
    }
    (commands, jobs)
}

/// The statuses of the first check that refuses a job. `body` is its one or two commands.
fn refusal(space: &Namespace, body: &[Command]) -> Option<[Status; 2]> {
    match body {
        [one] => {
            let status = if !one.is_known {
                INVALID_OPCODE
            } else if one.fuse == RESERVED {
                INVALID_FIELD
            } else if one.fuse != NORMAL {
                FUSED_MISSING
            } else if one.nsid != 1 {
                INVALID_NAMESPACE
            } else if one.end() > space.nsze {
                OUT_OF_RANGE
            } else {
                return None;
            };
            Some([status, SUCCESS])
        }
        [compare, write] => {
            if (compare.opcode, write.opcode) != (COMPARE, WRITE) {
                Some([INVALID_FIELD, INVALID_FIELD])
            } else if compare.nsid != 1 || write.nsid != 1 {
                Some([INVALID_NAMESPACE, FUSED_ABORTED])
            } else if (compare.first, compare.blocks) != (write.first, write.blocks) {
                Some([INVALID_FIELD, INVALID_FIELD])
            } else if compare.end() > space.nsze {
                Some([OUT_OF_RANGE, FUSED_ABORTED])
            } else if compare.blocks > u32::from(space.nacwu) + 1 || space.unit(compare.first) != space.unit(compare.end() - 1) {
                Some([UNIT_EXCEEDED, FUSED_ABORTED])
            } else {
                None
            }
        }
        _ => unreachable!(),
    }
}

/// Puts the LBAs that a Deallocate clears into `cleared`, in ascending order and each once.
fn cleared_lbas(command: &Command, cleared: &mut Vec<Range<u64>>) {
    cleared.clear();
    if command.deallocates {
        cleared.extend(command.ranges().filter(|range| !range.is_empty()));
        merge(cleared);
    }
}

fn merge(ranges: &mut Vec<Range<u64>>) {
    ranges.sort_unstable_by_key(|range| range.start);
    ranges.dedup_by(|next, kept| {
        let meets = next.start <= kept.end;
        if meets {
            kept.end = kept.end.max(next.end);
        }
        meets
    });
}

/// The units that these ranges meet, in ascending order.
fn units_met<'a>(space: &'a Namespace, ranges: &'a [Range<u64>]) -> impl Iterator<Item = usize> + 'a {
    let mut next = 0;
    ranges.iter().flat_map(move |range| {
        let first = space.unit(range.start).max(next);
        next = space.unit(range.end - 1) + 1;
        first..next
    })
}

/// A range's part in a span.
fn cut(range: &Range<u64>, span: &Range<u64>) -> Range<u64> {
    range.start.max(span.start)..range.end.min(span.end)
}

// ---------------------------------------------------------------- the step

/// The blocks of a unit, and which are marked.
struct Medium<'a> {
    bytes: &'a mut [u8],
    marks: &'a mut [bool],
    /// Whether any may be marked.
    has_marks: bool,
    block: usize,
    begin: u64,
}

impl Medium<'_> {
    fn places(&self, lbas: &Range<u64>) -> Range<usize> {
        (lbas.start - self.begin) as usize..(lbas.end - self.begin) as usize
    }

    /// The bytes of these blocks.
    fn bytes(&self, lbas: &Range<u64>) -> &[u8] {
        let places = self.places(lbas);
        &self.bytes[places.start * self.block..places.end * self.block]
    }

    fn bytes_mut(&mut self, lbas: &Range<u64>) -> &mut [u8] {
        let places = self.places(lbas);
        &mut self.bytes[places.start * self.block..places.end * self.block]
    }

    fn is_marked(&self, lbas: &Range<u64>) -> bool {
        self.has_marks && self.marks[self.places(lbas)].contains(&true)
    }

    fn mark(&mut self, lbas: &Range<u64>, is_marked: bool) {
        if is_marked || self.has_marks {
            let places = self.places(lbas);
            self.marks[places].fill(is_marked);
            self.has_marks = true;
        }
    }

    /// What the command is told that looks at these blocks.
    fn look(&self, command: &Command, lbas: &Range<u64>) -> Status {
        let looks = matches!(command.opcode, READ | COMPARE);
        if looks && self.is_marked(lbas) {
            UNREADABLE
        } else if command.opcode == COMPARE && self.bytes(lbas) != data_of(command, lbas, self.block) {
            COMPARE_FAILURE
        } else {
            SUCCESS
        }
    }

    /// Changes these blocks as the command says. It is no Deallocate.
    fn change(&mut self, command: &Command, lbas: &Range<u64>) {
        match command.opcode {
            WRITE => {
                let data = data_of(command, lbas, self.block);
                self.bytes_mut(lbas).copy_from_slice(data);
            }
            ZEROES => self.bytes_mut(lbas).fill(0),
            _ => {}
        }
        self.mark(lbas, command.opcode == UNCORRECTABLE);
    }

    /// Clears these blocks.
    fn clear(&mut self, lbas: &Range<u64>) {
        self.bytes_mut(lbas).fill(0);
        self.mark(lbas, false);
    }
}

/// What a command's data has for these blocks.
fn data_of(command: &Command, lbas: &Range<u64>, block: usize) -> &'static [u8] {
    let at = (lbas.start - command.first) as usize * block;
    &command.data[at..at + (lbas.end - lbas.start) as usize * block]
}

// ---------------------------------------------------------------- the record

/// One change in a unit's history. All else of it is its job's part in the unit.
#[derive(Clone, Copy, PartialEq)]
struct Entry {
    job: u32,
    worker: u8,
}

/// What was done of a job in a unit.
#[derive(Clone, Copy)]
struct Part {
    point: u32,
    unit: u16,
    result: u8,
}

/// What a worker did of a job. Its parts stand in its worker's list.
struct Done {
    data: Option<&'static [u8]>,
    parts_at: u32,
    job: u32,
    /// The second is 0/00 where there is one command.
    statuses: [Status; 2],
    parts: u16,
    worker: u8,
}

impl Done {
    /// Whether memory or room was wanted.
    fn is_refused(&self) -> bool {
        self.statuses.contains(&INTERNAL_ERROR)
    }
}

#[derive(Default)]
struct Worker {
    done: Vec<Done>,
    parts: Vec<Part>,
}

impl Worker {
    fn parts(&self, done: &Done) -> &[Part] {
        &self.parts[done.parts_at as usize..][..usize::from(done.parts)]
    }
}

/// What a record says of each unit's history.
struct History {
    entries: Vec<Entry>,
    /// In a record that was read, the bytes of each entry from its kind on.
    spelled: Option<Vec<&'static [u8]>>,
}

struct Record {
    space: Namespace,
    commands: Vec<Command>,
    jobs: Vec<Job>,
    histories: Vec<History>,
    workers: Vec<Worker>,
}

impl Record {
    /// The one or two commands of a job.
    fn body(&self, job: u32) -> &[Command] {
        body(&self.commands, self.jobs[job as usize])
    }

    /// The done job of which a part is.
    fn done(&self, part: &Listed) -> &Done {
        &self.workers[usize::from(part.worker)].done[part.done as usize]
    }

    /// The done job of each job, if every job was done once.
    fn done_jobs(&self) -> Result<Vec<&Done>, Fault> {
        let mut found: Vec<Option<&Done>> = vec![None; self.jobs.len()];
        let mut twice = usize::MAX;
        for done in self.workers.iter().flat_map(|worker| &worker.done) {
            let job = done.job as usize;
            if found[job].replace(done).is_some() {
                twice = twice.min(job);
            }
        }
        let missing = found.iter().position(Option::is_none).unwrap_or(usize::MAX);
        match missing.cmp(&twice) {
            Less => Err(Fault::of_job("JobMissing", missing as u32)),
            Greater => Err(Fault::of_job("JobTwice", twice as u32)),
            Equal => Ok(found.into_iter().flatten().collect()),
        }
    }

    fn changes(&self) -> usize {
        self.histories.iter().map(|it| it.entries.len()).sum()
    }

    fn refused(&self) -> usize {
        let done = self.workers.iter().flat_map(|worker| &worker.done);
        done.filter(|it| it.is_refused()).count()
    }

    /// The line of a lawful record.
    fn lawful(&self) -> String {
        let (jobs, units, changes, refused) = (self.jobs.len(), self.histories.len(), self.changes(), self.refused());
        format!("lawful jobs {jobs} units {units} changes {changes} refused {refused}\n")
    }

    fn lawful_object(&self) -> String {
        let (jobs, units, changes, refused) = (self.jobs.len(), self.histories.len(), self.changes(), self.refused());
        format!("{{\"verdict\":\"lawful\",\"jobs\":{jobs},\"units\":{units},\"changes\":{changes},\"refused\":{refused}}}\n")
    }
}

fn body(commands: &[Command], job: Job) -> &[Command] {
    let at = job.at as usize;
    &commands[at..at + 1 + usize::from(job.is_pair)]
}

// ---------------------------------------------------------------- the run

/// A unit: its blocks, and who changed them.
struct Unit<'a> {
    medium: Medium<'a>,
    entries: Vec<Entry>,
}

/// A mutex that has its own line of the processor's cache.
#[repr(align(64))]
struct Shared<'a>(Mutex<Unit<'a>>);

/// Memory that is kept until the program ends.
#[derive(Default)]
struct Kept {
    left: &'static mut [u8],
}

impl Kept {
    fn take(&mut self, length: usize) -> &'static mut [u8] {
        if self.left.len() < length {
            self.left = vec![0; length.max(PIECE)].leak();
        }
        let (taken, left) = std::mem::take(&mut self.left).split_at_mut(length);
        self.left = left;
        taken
    }
}

/// What all workers share.
struct Engine<'a, 'u> {
    space: Namespace,
    commands: &'a [Command],
    jobs: &'a [Job],
    units: &'a [Shared<'u>],
    next: AtomicUsize,
}

/// One worker at its work.
struct Working<'a, 'u> {
    engine: &'a Engine<'a, 'u>,
    number: u8,
    worker: Worker,
    kept: Kept,
    cleared: Vec<Range<u64>>,
}

impl Working<'_, '_> {
    fn work(mut self) -> Worker {
        loop {
            let number = self.engine.next.fetch_add(1, Relaxed);
            let Some(job) = self.engine.jobs.get(number) else {
                return self.worker;
            };
            self.do_job(number as u32, body(self.engine.commands, *job));
        }
    }

    fn do_job(&mut self, number: u32, body: &[Command]) {
        let parts_at = self.worker.parts.len();
        let (statuses, data) = match refusal(&self.engine.space, body) {
            Some(statuses) => (statuses, None),
            None if body[0].is_dataset() => (self.deallocate(number, &body[0]), None),
            None => self.do_parts(number, body),
        };
        self.worker.done.push(Done {
            data,
            parts_at: u32::try_from(parts_at).expect("fewer than 4,294,967,296 parts"),
            job: number,
            statuses,
            parts: (self.worker.parts.len() - parts_at) as u16,
            worker: self.number,
        });
    }

    fn note(&mut self, unit: usize, point: usize, result: u8) {
        self.worker.parts.push(Part { point: point as u32, unit: unit as u16, result });
    }

    /// Does a command or a pair, part by part, up to the first that fails.
    fn do_parts(&mut self, number: u32, body: &[Command]) -> ([Status; 2], Option<&'static [u8]>) {
        let engine = self.engine;
        let (lead, last) = (&body[0], &body[body.len() - 1]);
        let lbas = lead.first..lead.end();
        let mut data: &'static mut [u8] = &mut [];
        for number_of_unit in engine.space.unit(lbas.start)..=engine.space.unit(lbas.end - 1) {
            let part = cut(&lbas, &engine.space.span(number_of_unit));
            let mut guard = engine.units[number_of_unit].0.lock().unwrap();
            let unit = &mut *guard;
            let point = unit.entries.len();
            let status = unit.medium.look(lead, &part);
            if status != SUCCESS {
                drop(guard);
                let (result, second) = if body.len() == 2 { (FAILED, FUSED_ABORTED) } else { (LOOKED, SUCCESS) };
                self.note(number_of_unit, point, result);
                return ([status, second], None);
            }
            let mut result = LOOKED;
            if last.changes() {
                if point == engine.space.limit as usize {
                    drop(guard);
                    self.note(number_of_unit, point, FULL);
                    let statuses = if body.len() == 2 { [SUCCESS, INTERNAL_ERROR] } else { [INTERNAL_ERROR, SUCCESS] };
                    return (statuses, None);
                }
                unit.medium.change(last, &part);
                unit.entries.push(Entry { job: number, worker: self.number });
                result = DONE;
            } else if lead.opcode == READ {
                if data.is_empty() {
                    data = self.kept.take(lead.blocks as usize * engine.space.block);
                }
                let at = (part.start - lead.first) as usize * engine.space.block;
                let found = unit.medium.bytes(&part);
                data[at..at + found.len()].copy_from_slice(found);
            }
            drop(guard);
            self.note(number_of_unit, point, result);
        }
        ([SUCCESS; 2], (lead.opcode == READ).then_some(data))
    }

    /// Does a Dataset Management.
    fn deallocate(&mut self, number: u32, command: &Command) -> [Status; 2] {
        let engine = self.engine;
        let mut cleared = std::mem::take(&mut self.cleared);
        cleared_lbas(command, &mut cleared);
        let mut statuses = [SUCCESS; 2];
        let mut next = 0;
        for number_of_unit in units_met(&engine.space, &cleared) {
            let span = engine.space.span(number_of_unit);
            let mut guard = engine.units[number_of_unit].0.lock().unwrap();
            let unit = &mut *guard;
            let point = unit.entries.len();
            if point == engine.space.limit as usize {
                drop(guard);
                self.note(number_of_unit, point, FULL);
                statuses = [INTERNAL_ERROR, SUCCESS];
                break;
            }
            while next < cleared.len() && cleared[next].start < span.end {
                unit.medium.clear(&cut(&cleared[next], &span));
                if cleared[next].end > span.end {
                    break;
                }
                next += 1;
            }
            unit.entries.push(Entry { job: number, worker: self.number });
            drop(guard);
            self.note(number_of_unit, point, DONE);
        }
        self.cleared = cleared;
        statuses
    }
}

/// Does the jobs on a namespace of zero bytes, by so many workers.
fn run(space: Namespace, commands: Vec<Command>, jobs: Vec<Job>, workers: usize) -> Record {
    let mut bytes = vec![0u8; space.nsze as usize * space.block];
    let mut marks = vec![false; space.nsze as usize];
    let (mut bytes_left, mut marks_left) = (bytes.as_mut_slice(), marks.as_mut_slice());
    let mut units = Vec::with_capacity(space.units());
    for unit in 0..space.units() {
        let span = space.span(unit);
        let blocks = (span.end - span.start) as usize;
        let (own_bytes, rest) = bytes_left.split_at_mut(blocks * space.block);
        bytes_left = rest;
        let (own_marks, rest) = marks_left.split_at_mut(blocks);
        marks_left = rest;
        let medium = Medium { bytes: own_bytes, marks: own_marks, has_marks: false, block: space.block, begin: span.start };
        units.push(Shared(Mutex::new(Unit { medium, entries: Vec::new() })));
    }
    let engine = Engine { space, commands: &commands, jobs: &jobs, units: &units, next: AtomicUsize::new(0) };
    let share = jobs.len() / workers + 1;
    let working = |number: usize| Working {
        engine: &engine,
        number: number as u8,
        worker: Worker { done: Vec::with_capacity(share), parts: Vec::with_capacity(share) },
        kept: Kept::default(),
        cleared: Vec::new(),
    };
    let workers = thread::scope(|scope| {
        let others: Vec<_> = (1..workers)
            .map(|number| {
                let other = working(number);
                scope.spawn(move || other.work())
            })
            .collect();
        let mut ended = vec![working(0).work()];
        ended.extend(others.into_iter().map(|other| other.join().unwrap()));
        ended
    });
    let histories =
        units.into_iter().map(|unit| History { entries: unit.0.into_inner().unwrap().entries, spelled: None }).collect();
    Record { space, commands, jobs, histories, workers }
}

// ---------------------------------------------------------------- the audit

/// What is first found wrong in a record.
struct Fault {
    name: &'static str,
    job: u32,
    /// The unit, and the place or the point.
    spot: Option<(usize, u32)>,
}

impl Fault {
    fn of_job(name: &'static str, job: u32) -> Fault {
        Fault { name, job, spot: None }
    }

    fn line(&self) -> String {
        let (name, job) = (self.name, self.job);
        match self.spot {
            Some((unit, place)) => format!("unlawful {name} job {job} unit {unit} place {place}\n"),
            None => format!("unlawful {name} job {job} unit - place -\n"),
        }
    }

    fn object(&self) -> String {
        let (name, job) = (self.name, self.job);
        let (unit, place) = match self.spot {
            Some((unit, place)) => (unit.to_string(), place.to_string()),
            None => ("null".to_string(), "null".to_string()),
        };
        format!("{{\"verdict\":\"unlawful\",\"fault\":\"{name}\",\"job\":{job},\"unit\":{unit},\"place\":{place}}}\n")
    }
}

/// A part of a done job, where it is listed by its unit.
#[derive(Clone, Copy, Default)]
struct Listed {
    point: u32,
    /// Which done job of its worker.
    done: u32,
    /// Which part of the done job.
    place: u16,
    worker: u8,
    result: u8,
}

/// What one thread of an audit uses again and again.
#[derive(Default)]
struct Room {
    bytes: Vec<u8>,
    marks: Vec<bool>,
    is_used: bool,
    claimed: Vec<bool>,
    order: Vec<u32>,
    cuts: Vec<Range<u64>>,
}

impl Room {
    /// A unit of zero bytes.
    fn medium<'a>(
        bytes: &'a mut Vec<u8>,
        marks: &'a mut Vec<bool>,
        is_used: bool,
        span: &Range<u64>,
        block: usize,
    ) -> Medium<'a> {
        let blocks = (span.end - span.start) as usize;
        if bytes.len() < blocks * block {
            *bytes = vec![0; blocks * block];
            *marks = vec![false; blocks];
        } else if is_used {
            bytes[..blocks * block].fill(0);
            marks[..blocks].fill(false);
        }
        let (bytes, marks) = (&mut bytes[..blocks * block], &mut marks[..blocks]);
        Medium { bytes, marks, has_marks: false, block, begin: span.start }
    }
}

/// Audits a record. Where it is lawful, gives the done job of each job.
fn audit(record: &Record) -> Result<Vec<&Done>, Fault> {
    let found = record.done_jobs()?;
    let mut is_refused = vec![false; record.jobs.len()];
    let mut cleared = Vec::new();
    for done in &found {
        let body = record.body(done.job);
        let refused = refusal(&record.space, body);
        is_refused[done.job as usize] = refused.is_some();
        let parts = record.workers[usize::from(done.worker)].parts(done);
        if !has_shape(&record.space, body, refused, done, parts, &mut cleared) {
            return Err(Fault::of_job("StatusWrong", done.job));
        }
    }
    let (listed, begins) = parts_by_unit(record);
    let units = record.histories.len();
    let next = AtomicUsize::new(0);
    let lowest = AtomicUsize::new(usize::MAX);
    let find = || {
        let mut room = Room::default();
        loop {
            let unit = next.fetch_add(1, Relaxed);
            if unit >= units || unit > lowest.load(Relaxed) {
                return None;
            }
            let parts = &listed[begins[unit]..begins[unit + 1]];
            if let Some(fault) = unit_fault(record, &is_refused, unit, parts, &mut room) {
                lowest.fetch_min(unit, Relaxed);
                return Some((unit, fault));
            }
        }
    };
    let threads = thread::available_parallelism().map_or(1, usize::from).min(units);
    let first = thread::scope(|scope| {
        let others: Vec<_> = (1..threads).map(|_| scope.spawn(find)).collect();
        let own = find();
        let faults = others.into_iter().filter_map(|other| other.join().unwrap()).chain(own);
        faults.min_by_key(|(unit, _)| *unit)
    });
    match first {
        Some((_, fault)) => Err(fault),
        None => Ok(found),
    }
}

/// Whether what is recorded of a job has the shape of an outcome.
fn has_shape(
    space: &Namespace,
    body: &[Command],
    refused: Option<[Status; 2]>,
    done: &Done,
    parts: &[Part],
    cleared: &mut Vec<Range<u64>>,
) -> bool {
    if let Some(statuses) = refused {
        return parts.is_empty() && done.statuses == statuses && done.data.is_none();
    }
    let (lead, last, is_pair) = (&body[0], &body[body.len() - 1], body.len() == 2);
    let meets = |units: &mut dyn Iterator<Item = usize>| parts.iter().all(|part| units.next() == Some(usize::from(part.unit)));
    let (begins_well, pieces) = if lead.is_dataset() {
        cleared_lbas(lead, cleared);
        (meets(&mut units_met(space, cleared)), units_met(space, cleared).count())
    } else {
        let units = space.unit(lead.first)..space.unit(lead.end() - 1) + 1;
        (meets(&mut units.clone()), units.len())
    };
    let fits = |result: u8| match result {
        DONE | FULL => last.changes(),
        FAILED => is_pair,
        LOOKED => !last.changes(),
        _ => true,
    };
    let goes_on = |part: &Part| matches!(part.result, DONE | LOOKED);
    if !begins_well || !parts.iter().all(|part| fits(part.result)) {
        return false;
    }
    let is_whole = parts.len() == pieces;
    let wanted = match parts.split_last() {
        None if pieces == 0 => [SUCCESS; 2],
        None => [INTERNAL_ERROR, if is_pair { FUSED_ABORTED } else { SUCCESS }],
        Some((_, before)) if !before.iter().all(goes_on) => return false,
        Some((end, _)) => match end.result {
            NO_MEMORY | FULL if is_pair => [SUCCESS, INTERNAL_ERROR],
            NO_MEMORY | FULL => [INTERNAL_ERROR, SUCCESS],
            DONE if is_whole => [SUCCESS; 2],
            DONE => return false,
            _ => done.statuses,
        },
    };
    let succeeded = done.statuses == [SUCCESS; 2];
    let has_data = !is_pair && lead.opcode == READ && succeeded;
    done.statuses == wanted && (is_whole || !succeeded) && done.data.is_some() == has_data
}

/// The parts of all workers by their units, those of a unit worker by worker and in each one's order; and where each unit's begin.
fn parts_by_unit(record: &Record) -> (Vec<Listed>, Vec<usize>) {
    let mut begins = vec![0; record.histories.len() + 1];
    for part in record.workers.iter().flat_map(|worker| &worker.parts) {
        begins[usize::from(part.unit) + 1] += 1;
    }
    for unit in 1..begins.len() {
        begins[unit] += begins[unit - 1];
    }
    let mut next = begins.clone();
    let mut listed = vec![Listed::default(); begins[begins.len() - 1]];
    for (number, worker) in record.workers.iter().enumerate() {
        for (done, it) in worker.done.iter().enumerate() {
            for (place, part) in worker.parts(it).iter().enumerate() {
                let at = &mut next[usize::from(part.unit)];
                let (point, result) = (part.point, part.result);
                listed[*at] = Listed { point, done: done as u32, place: place as u16, worker: number as u8, result };
                *at += 1;
            }
        }
    }
    (listed, begins)
}

/// What is first found wrong in a unit: an entry, by its place, or else a part, in the order of the list.
fn unit_fault(record: &Record, is_refused: &[bool], unit: usize, parts: &[Listed], room: &mut Room) -> Option<Fault> {
    let History { entries, spelled } = &record.histories[unit];
    if entries.is_empty() && parts.is_empty() {
        return None;
    }
    let space = &record.space;
    let span = space.span(unit);
    let mut medium = Room::medium(&mut room.bytes, &mut room.marks, room.is_used, &span, space.block);
    room.is_used = true;

    let made_by = |part: &Listed| Entry { job: record.done(part).job, worker: part.worker };
    let is_claim = |part: &Listed| part.result == DONE && entries.get(part.point as usize) == Some(&made_by(part));
    room.claimed.clear();
    room.claimed.resize(entries.len(), false);
    for part in parts.iter().filter(|part| is_claim(part)) {
        room.claimed[part.point as usize] = true;
    }

    // The parts by their points. By one worker they are listed so.
    room.order.clear();
    room.order.extend(0..parts.len() as u32);
    if !parts.is_sorted_by_key(|part| part.point) {
        room.order.sort_by_key(|number| parts[*number as usize].point);
    }
    let mut order = room.order.iter().copied().peekable();
    let mut wrong: Option<(u32, &'static str)> = None;
    for place in 0..=entries.len() {
        while let Some(number) = order.next_if(|number| parts[*number as usize].point as usize == place) {
            if wrong.is_none_or(|(earlier, _)| number < earlier) {
                let name = part_fault(record, &medium, &span, &parts[number as usize]);
                wrong = name.map(|name| (number, name)).or(wrong);
            }
        }
        let Some(entry) = entries.get(place) else {
            break;
        };
        let fault = |name| Some(Fault { name, job: entry.job, spot: Some((unit, place as u32)) });
        let body = record.body(entry.job);
        let (lead, last) = (&body[0], &body[body.len() - 1]);
        if is_refused[entry.job as usize] || !last.changes() {
            return fault("EntryWrong");
        }
        if lead.is_dataset() {
            room.cuts.clear();
            if lead.deallocates {
                room.cuts.extend(lead.ranges().map(|range| cut(&range, &span)).filter(|range| range.start < range.end));
            }
            let is_spelled = |bytes: &[&[u8]]| is_deallocate(bytes[place], &room.cuts);
            if room.cuts.is_empty() || !spelled.as_deref().is_none_or(is_spelled) {
                return fault("EntryWrong");
            }
            merge(&mut room.cuts);
        } else {
            let part = cut(&(lead.first..lead.end()), &span);
            let is_spelled = |bytes: &[&[u8]]| is_change(bytes[place], body, &part, space.block);
            if part.start >= part.end || !spelled.as_deref().is_none_or(is_spelled) {
                return fault("EntryWrong");
            }
            if medium.look(lead, &part) != SUCCESS {
                return fault("EntryWrong");
            }
        }
        if !room.claimed[place] {
            return fault("EntryUnclaimed");
        }
        if lead.is_dataset() {
            room.cuts.iter().for_each(|lbas| medium.clear(lbas));
        } else {
            medium.change(last, &cut(&(lead.first..lead.end()), &span));
        }
    }

    let (mut worker, mut earlier, mut own) = (0, 0, None);
    for (number, part) in parts.iter().enumerate() {
        if part.worker != worker {
            (worker, earlier, own) = (part.worker, 0, None);
        }
        let name = if part.point as usize > entries.len() || part.result == DONE && !is_claim(part) {
            Some("PointPast")
        } else if part.point < earlier || own.is_some_and(|own| part.point <= own) {
            Some("PointBack")
        } else {
            wrong.filter(|(at, _)| *at == number as u32).map(|(_, name)| name)
        };
        if let Some(name) = name {
            return Some(Fault { name, job: record.done(part).job, spot: Some((unit, part.point)) });
        }
        earlier = part.point;
        if part.result == DONE {
            own = Some(part.point);
        }
    }
    None
}

/// What is wrong with a part where the unit is as it was at the part's point.
fn part_fault(record: &Record, medium: &Medium, span: &Range<u64>, part: &Listed) -> Option<&'static str> {
    if part.result == DONE {
        return None;
    }
    let done = record.done(part);
    let body = record.body(done.job);
    let lead = &body[0];
    let lbas = if lead.is_dataset() { span.clone() } else { cut(&(lead.first..lead.end()), span) };
    let status = medium.look(lead, &lbas);
    let is_last = part.place + 1 == done.parts;
    let limit = record.space.limit;
    let is_right = match part.result {
        FAILED => status != SUCCESS && done.statuses == [status, FUSED_ABORTED],
        LOOKED => status == if is_last { done.statuses[0] } else { SUCCESS },
        NO_MEMORY => !body[body.len() - 1].changes() || part.point < limit && status == SUCCESS,
        _ => part.point == limit && status == SUCCESS,
    };
    if !is_right {
        return Some("StatusWrong");
    }
    let data = done.data?;
    let at = (lbas.start - lead.first) as usize * medium.block;
    let found = medium.bytes(&lbas);
    (data[at..at + found.len()] != *found).then_some("DataWrong")
}

/// Whether an entry's bytes, from its kind on, are those of the job's part in these blocks.
fn is_change(bytes: &[u8], body: &[Command], lbas: &Range<u64>, block: usize) -> bool {
    let (head, mut data) = bytes.split_at_checked(13).unwrap_or((&[], &[]));
    head == change_head(body, lbas)
        && body.iter().filter(|command| !command.data.is_empty()).all(|command| {
            let own = data_of(command, lbas, block);
            let (front, rest) = data.split_at(own.len());
            data = rest;
            front == own
        })
}

/// The kind of a job's change, its first LBA and its blocks, as an entry has them.
fn change_head(body: &[Command], lbas: &Range<u64>) -> [u8; 13] {
    let kind = match body {
        [_, _] => KIND_PAIR,
        [one] if one.opcode == WRITE => KIND_WRITE,
        [one] if one.opcode == ZEROES => KIND_ZEROES,
        _ => KIND_UNCORRECTABLE,
    };
    let mut head = [kind; 13];
    head[1..9].copy_from_slice(&lbas.start.to_le_bytes());
    head[9..13].copy_from_slice(&((lbas.end - lbas.start) as u32).to_le_bytes());
    head
}

/// Whether an entry's bytes, from its kind on, are those of a Deallocate of these ranges.
fn is_deallocate(bytes: &[u8], ranges: &[Range<u64>]) -> bool {
    bytes[0] == KIND_DEALLOCATE
        && usize::from(u16_at(bytes, 1)) == ranges.len()
        && bytes[3..].chunks_exact(12).zip(ranges).all(|(bytes, range)| bytes == range_bytes(range))
}

/// A range as the entry of a Deallocate has it.
fn range_bytes(range: &Range<u64>) -> [u8; 12] {
    let mut bytes = [0; 12];
    bytes[..8].copy_from_slice(&range.start.to_le_bytes());
    bytes[8..].copy_from_slice(&((range.end - range.start) as u32).to_le_bytes());
    bytes
}

// ---------------------------------------------------------------- records as files

/// Why a file is no record.
enum RecordFault {
    BadName,
    Version,
    Truncated(usize),
    Trailing(usize),
    BadValue(usize),
}

impl RecordFault {
    fn told(&self) -> String {
        match self {
            RecordFault::BadName => "record: bad name".to_string(),
            RecordFault::Version => "record: unknown version".to_string(),
            RecordFault::Truncated(at) => format!("record: truncated at {at}"),
            RecordFault::Trailing(at) => format!("record: trailing at {at}"),
            RecordFault::BadValue(at) => format!("record: bad value at {at}"),
        }
    }
}

/// Reads a record from its front.
struct Reader {
    file: &'static [u8],
    at: usize,
    is_first_version: bool,
}

impl Reader {
    fn bytes(&mut self, length: usize) -> Result<&'static [u8], RecordFault> {
        match self.file[self.at..].get(..length) {
            Some(bytes) => {
                self.at += length;
                Ok(bytes)
            }
            None => Err(RecordFault::Truncated(self.at)),
        }
    }

    /// A field that holds a number, from the least to the most that are allowed.
    fn number(&mut self, length: usize, least: u64, most: u64) -> Result<u64, RecordFault> {
        let at = self.at;
        let mut bytes = [0; 8];
        bytes[..length].copy_from_slice(self.bytes(length)?);
        let number = u64::from_le_bytes(bytes);
        if least <= number && number <= most {
            Ok(number)
        } else {
            Err(RecordFault::BadValue(at))
        }
    }

    fn any(&mut self, length: usize) -> Result<u64, RecordFault> {
        self.number(length, 0, u64::MAX)
    }

    /// Room for so many items, of which each has at least so many bytes in what is left of the file.
    fn room<T>(&self, count: u64, least: usize) -> Vec<T> {
        Vec::with_capacity((count as usize).min((self.file.len() - self.at) / least))
    }

    fn record(&mut self) -> Result<Record, RecordFault> {
        let mut space = Namespace {
            nsze: self.any(8)?,
            block: self.any(4)? as usize,
            nabsn: self.any(2)? as u16,
            nabo: self.any(2)? as u16,
            nawun: self.any(2)? as u16,
            nacwu: self.any(2)? as u16,
            limit: 0,
        };
        if space.fault().is_some() {
            return Err(RecordFault::BadValue(4));
        }
        space.limit = match self.is_first_version {
            true => self.any(2)? as u32 + 1,
            false => self.number(4, 1, 4_194_304)? as u32,
        };
        let workers = self.number(2, 1, 64)?;
        let count = self.number(4, 0, MOST_JOBS)?;
        let mut jobs = self.room(count, 67);
        let mut commands = self.room(count, 67);
        for _ in 0..count {
            let host = self.number(2, 1, 64)? as u8;
            let is_pair = self.number(1, 0, 1)? == 1;
            jobs.push(Job { at: commands.len() as u32, host, is_pair });
            if is_pair {
                commands.push(self.command(space.block, Some(FIRST))?);
                commands.push(self.command(space.block, Some(SECOND))?);
            } else {
                commands.push(self.command(space.block, None)?);
            }
        }
        let mut histories = Vec::with_capacity(space.units());
        for unit in 0..space.units() {
            histories.push(self.history(&space, unit, workers, jobs.len() as u64)?);
        }
        let mut record = Record { space, commands, jobs, histories, workers: Vec::new() };
        for number in 0..workers {
            let worker = self.worker(&record, number as u8)?;
            record.workers.push(worker);
        }
        if self.at < self.file.len() {
            return Err(RecordFault::Trailing(self.at));
        }
        Ok(record)
    }

    /// A command; of a pair, the one with these FUSE bits.
    fn command(&mut self, block: usize, fuse: Option<u8>) -> Result<Command, RecordFault> {
        let at = self.at;
        let entry = self.bytes(64)?;
        let (mut command, length) = Command::of_entry(entry, block, !self.is_first_version);
        if command.is_dataset() {
            // Its entry says how many ranges there are.
            command.data = &ZERO_RANGES[..length];
        }
        let is_of_pair = fuse.is_none_or(|fuse| command.fuse == fuse && command.is_known);
        if command.entry() != *entry || !is_of_pair {
            return Err(RecordFault::BadValue(at));
        }
        let at = self.at;
        command.data = self.bytes(length)?;
        if command.is_dataset() && command.data.chunks_exact(16).any(|range| range[..4] != [0; 4]) {
            return Err(RecordFault::BadValue(at));
        }
        Ok(command)
    }

    /// A range that lies in the unit: its number of blocks.
    fn range_in(&mut self, span: &Range<u64>) -> Result<usize, RecordFault> {
        let first = self.any(8)?;
        let at = self.at;
        let blocks = self.number(4, 1, u64::MAX)?;
        if first < span.start || first.saturating_add(blocks) > span.end {
            return Err(RecordFault::BadValue(at));
        }
        Ok(blocks as usize)
    }

    fn history(&mut self, space: &Namespace, unit: usize, workers: u64, jobs: u64) -> Result<History, RecordFault> {
        let span = space.span(unit);
        let count = self.number(4, 0, u64::from(space.limit))?;
        let mut entries = self.room(count, 19);
        let mut spelled = self.room(count, 19);
        for _ in 0..count {
            let worker = self.number(2, 0, workers - 1)? as u8;
            // Without jobs no number is one.
            let job = self.number(4, if jobs == 0 { 1 << 32 } else { 0 }, jobs.wrapping_sub(1))? as u32;
            let begin = self.at;
            let most = if self.is_first_version { KIND_PAIR } else { KIND_DEALLOCATE };
            let kind = self.number(1, 1, u64::from(most))? as u8;
            if kind == KIND_DEALLOCATE {
                for _ in 0..self.number(2, 1, 256)? {
                    self.range_in(&span)?;
                }
            } else {
                let blocks = self.range_in(&span)?;
                let runs = match kind {
                    KIND_WRITE => 1,
                    KIND_PAIR => 2,
                    _ => 0,
                };
                self.bytes(runs * blocks * space.block)?;
            }
            entries.push(Entry { job, worker });
            spelled.push(&self.file[begin..self.at]);
        }
        Ok(History { entries, spelled: Some(spelled) })
    }

    fn worker(&mut self, record: &Record, number: u8) -> Result<Worker, RecordFault> {
        let jobs = record.jobs.len() as u64;
        let units = record.histories.len() as u64;
        let count = self.number(4, 0, MOST_JOBS)?;
        let mut done = self.room(count, 9);
        let mut parts = self.room(count, 16);
        for _ in 0..count {
            let job = self.number(4, if jobs == 0 { 1 << 32 } else { 0 }, jobs.wrapping_sub(1))? as u32;
            let body = record.body(job);
            let own = self.number(2, 0, units)?;
            let parts_at = parts.len();
            for _ in 0..own {
                let unit = self.unit(units)?;
                let point = self.any(4)? as u32;
                parts.push(Part { point, unit, result: self.number(1, 1, 5)? as u8 });
            }
            let mut statuses = [SUCCESS; 2];
            for status in &mut statuses[..body.len()] {
                *status = (self.any(1)? as u16) << 8;
                *status |= self.any(1)? as u16;
            }
            let may_have = body.len() == 1 && body[0].opcode == READ && refusal(&record.space, body).is_none();
            let data = match self.number(1, 0, u64::from(may_have))? {
                0 => None,
                _ => Some(self.bytes(body[0].blocks as usize * record.space.block)?),
            };
            done.push(Done { data, parts_at: parts_at as u32, job, statuses, parts: own as u16, worker: number });
        }
        Ok(Worker { done, parts })
    }

    fn unit(&mut self, units: u64) -> Result<u16, RecordFault> {
        Ok(self.number(2, 0, units - 1)? as u16)
    }
}

static ZERO_RANGES: [u8; 16 * 256] = [0; 16 * 256];

/// The record that a file has.
fn read_record(file: &'static [u8]) -> Result<Record, RecordFault> {
    if !file.starts_with(b"NVR") {
        return Err(RecordFault::BadName);
    }
    match file.get(3) {
        Some(version @ (b'1' | b'2')) => Reader { file, at: 4, is_first_version: *version == b'1' }.record(),
        _ => Err(RecordFault::Version),
    }
}

/// Writes the file of a run's record.
fn write_record(out: &mut impl Write, record: &Record) -> io::Result<()> {
    let space = &record.space;
    out.write_all(b"NVR2")?;
    out.write_all(&space.nsze.to_le_bytes())?;
    out.write_all(&(space.block as u32).to_le_bytes())?;
    for number in [space.nabsn, space.nabo, space.nawun, space.nacwu] {
        out.write_all(&number.to_le_bytes())?;
    }
    out.write_all(&space.limit.to_le_bytes())?;
    out.write_all(&(record.workers.len() as u16).to_le_bytes())?;
    out.write_all(&(record.jobs.len() as u32).to_le_bytes())?;
    for job in &record.jobs {
        out.write_all(&[job.host, 0, u8::from(job.is_pair)])?;
        for command in body(&record.commands, *job) {
            out.write_all(&command.entry())?;
            if command.is_dataset() {
                for range in command.data.chunks_exact(16) {
                    out.write_all(&[0; 4])?;
                    out.write_all(&range[4..])?;
                }
            } else {
                out.write_all(command.data)?;
            }
        }
    }
    let mut ranges = Vec::new();
    for (unit, history) in record.histories.iter().enumerate() {
        let span = space.span(unit);
        out.write_all(&(history.entries.len() as u32).to_le_bytes())?;
        for entry in &history.entries {
            let mut head = [0; 6];
            head[0] = entry.worker;
            head[2..].copy_from_slice(&entry.job.to_le_bytes());
            out.write_all(&head)?;
            let body = record.body(entry.job);
            let lead = &body[0];
            if lead.is_dataset() {
                ranges.clear();
                let cuts = lead.ranges().map(|range| cut(&range, &span)).filter(|range| range.start < range.end);
                ranges.extend(cuts.flat_map(|range| range_bytes(&range)));
                out.write_all(&[KIND_DEALLOCATE])?;
                out.write_all(&((ranges.len() / 12) as u16).to_le_bytes())?;
                out.write_all(&ranges)?;
            } else {
                let lbas = cut(&(lead.first..lead.end()), &span);
                out.write_all(&change_head(body, &lbas))?;
                for command in body.iter().filter(|command| !command.data.is_empty()) {
                    out.write_all(data_of(command, &lbas, space.block))?;
                }
            }
        }
    }
    for worker in &record.workers {
        out.write_all(&(worker.done.len() as u32).to_le_bytes())?;
        for done in &worker.done {
            out.write_all(&done.job.to_le_bytes())?;
            out.write_all(&done.parts.to_le_bytes())?;
            for part in worker.parts(done) {
                let mut bytes = [part.result; 7];
                bytes[..2].copy_from_slice(&part.unit.to_le_bytes());
                bytes[2..6].copy_from_slice(&part.point.to_le_bytes());
                out.write_all(&bytes)?;
            }
            for status in &done.statuses[..record.body(done.job).len()] {
                out.write_all(&status.to_be_bytes())?;
            }
            out.write_all(&[u8::from(done.data.is_some())])?;
            out.write_all(done.data.unwrap_or_default())?;
        }
    }
    Ok(())
}

// ---------------------------------------------------------------- lines

/// Text for standard output, which is handed over in large pieces.
struct Text {
    out: File,
    gathered: Vec<u8>,
}

impl Text {
    fn new() -> io::Result<Text> {
        let out = File::from(io::stdout().as_fd().try_clone_to_owned()?);
        Ok(Text { out, gathered: Vec::with_capacity(GATHERED + 4_096) })
    }

    fn flush(&mut self) -> io::Result<()> {
        self.out.write_all(&self.gathered)?;
        self.gathered.clear();
        Ok(())
    }

    fn flush_if_full(&mut self) -> io::Result<()> {
        if self.gathered.len() >= GATHERED {
            self.flush()?;
        }
        Ok(())
    }

    fn number(&mut self, number: usize) {
        let mut digits = [0; 20];
        let mut at = digits.len();
        let mut left = number;
        loop {
            at -= 1;
            digits[at] = b'0' + (left % 10) as u8;
            left /= 10;
            if left == 0 {
                break;
            }
        }
        self.gathered.extend_from_slice(&digits[at..]);
    }

    fn hexadecimal(&mut self, byte: u8) {
        const DIGITS: &[u8; 16] = b"0123456789abcdef";
        self.gathered.extend([DIGITS[usize::from(byte >> 4)], DIGITS[usize::from(byte & 15)]]);
    }

    /// The longest runs of equal bytes.
    fn runs(&mut self, mut data: &[u8]) -> io::Result<()> {
        let mut before = b' ';
        while let Some(byte) = data.first() {
            let count = run_length(data);
            self.gathered.push(before);
            self.number(count);
            self.gathered.push(b'*');
            self.hexadecimal(*byte);
            before = b',';
            data = &data[count..];
            self.flush_if_full()?;
        }
        Ok(())
    }

    fn command(&mut self, host: u8, command: &Command, status: Status, data: Option<&[u8]>) -> io::Result<()> {
        self.number(usize::from(host));
        self.gathered.push(b' ');
        self.number(usize::from(command.cid));
        self.gathered.push(b' ');
        let name: &[u8] = match command.opcode {
            WRITE => b"write",
            READ => b"read",
            UNCORRECTABLE => b"uncorrectable",
            COMPARE => b"compare",
            ZEROES => b"zeroes",
            DATASET => b"dataset",
            _ => b"op-",
        };
        self.gathered.extend_from_slice(name);
        if !command.is_known {
            self.hexadecimal(command.opcode);
        }
        self.gathered.push(b' ');
        self.number(usize::from(status >> 8));
        self.gathered.push(b'/');
        self.hexadecimal(status as u8);
        self.runs(data.unwrap_or_default())?;
        self.gathered.push(b'\n');
        self.flush_if_full()
    }
}

/// How many bytes at the front are equal.
fn run_length(data: &[u8]) -> usize {
    const STEP: usize = 32;
    let first = data[0];
    let whole = data.chunks_exact(STEP).take_while(|chunk| **chunk == [first; STEP]).count() * STEP;
    whole + data[whole..].iter().take_while(|byte| **byte == first).count()
}

/// Prints the lines of a run. `found` is the done job of each job.
fn print_lines(record: &Record, found: &[&Done], last: &str) -> io::Result<()> {
    let mut text = Text::new()?;
    for (job, done) in record.jobs.iter().zip(found) {
        for (command, status) in body(&record.commands, *job).iter().zip(done.statuses) {
            text.command(job.host, command, status, done.data)?;
        }
    }
    text.gathered.extend_from_slice(last.as_bytes());
    text.flush()
}

// ---------------------------------------------------------------- words and files

/// What the words after the program's name ask for.
enum Asked {
    Run { space: Namespace, workers: usize, out: String, files: Vec<String>, is_audited: bool },
    Audit { path: String, is_object: bool },
    Told(String),
}

const USAGE: &str = "\
The plain engine beside nvmu, without a proof.

  plain run --nsze N --block N --nabsn N --nabo N --nawun N --nacwu N --workers N --limit N --out REC [--unaudited] FILE..
  plain audit [--json] REC

FILE and REC are those of nvmu; - is standard input, and --record another name of --out. --unaudited counts what the last line tells, and audits nothing.
";

const OPTIONS: [&str; 9] = ["nsze", "block", "nabsn", "nabo", "nawun", "nacwu", "workers", "limit", "out"];

fn asked(words: &[String]) -> Result<Asked, String> {
    let (name, rest) = words.split_first().ok_or("expected run or audit; --help says more")?;
    match name.as_str() {
        "--help" | "-h" | "help" => return Ok(Asked::Told(USAGE.to_string())),
        "--version" | "-V" => return Ok(Asked::Told(format!("plain {VERSION}\n"))),
        "run" | "audit" => {}
        _ => return Err(format!("expected run or audit, not {name}")),
    }
    let mut given: [Option<String>; OPTIONS.len()] = Default::default();
    let (mut files, mut is_audited, mut is_object, mut is_option) = (Vec::new(), true, false, true);
    let mut left = rest.iter();
    while let Some(word) = left.next() {
        let option = match word.strip_prefix("--") {
            Some(option) if is_option => option,
            _ if is_option && word.starts_with('-') && word != "-" && word != "-h" => return Err(format!("{word} is no option")),
            _ => {
                files.push(word.clone());
                continue;
            }
        };
        let (option, value) = match option.split_once('=') {
            Some((option, value)) => (option, Some(value.to_string())),
            None => (option, None),
        };
        match option {
            "" => is_option = false,
            "help" => return Ok(Asked::Told(USAGE.to_string())),
            "unaudited" if name == "run" && is_audited && value.is_none() => is_audited = false,
            "json" if name == "audit" && !is_object && value.is_none() => is_object = true,
            _ => {
                let option = if option == "record" { "out" } else { option };
                let place = OPTIONS.iter().position(|known| *known == option && name == "run");
                let place = place.ok_or(format!("{word} is no option"))?;
                let value = value.or_else(|| left.next().cloned()).ok_or(format!("{word} has no value"))?;
                if given[place].replace(value).is_some() {
                    return Err(format!("--{option} is given twice"));
                }
            }
        }
    }
    if name == "audit" {
        return match <[String; 1]>::try_from(files) {
            Ok([path]) => Ok(Asked::Audit { path, is_object }),
            Err(_) => Err("audit takes one record".to_string()),
        };
    }
    if files.is_empty() {
        return Err("run takes one host file or more".to_string());
    }
    let value = |name: &str| {
        let place = OPTIONS.iter().position(|known| *known == name).unwrap();
        given[place].clone().ok_or(format!("--{name} isn't given"))
    };
    let number = |name: &str, least: u64, most: u64| -> Result<u64, String> {
        let text = value(name)?;
        let number = number_of(&text).filter(|number| (least..=most).contains(number));
        number.ok_or(format!("--{name} is {least} to {most}, not {text}"))
    };
    let sixteen = |name: &str| number(name, 0, 65_535).map(|number| number as u16);
    let space = Namespace {
        nsze: number("nsze", 0, u64::MAX)?,
        block: number("block", 0, u64::from(u32::MAX))? as usize,
        nabsn: sixteen("nabsn")?,
        nabo: sixteen("nabo")?,
        nawun: sixteen("nawun")?,
        nacwu: sixteen("nacwu")?,
        limit: number("limit", 1, 4_194_304)? as u32,
    };
    let workers = number("workers", 1, 64)? as usize;
    Ok(Asked::Run { space, workers, out: value("out")?, files, is_audited })
}

/// What a word says, decimal or hexadecimal after `0x`, times 2^10, 2^20 or 2^30 with `k`, `m` or `g` at its end.
fn number_of(text: &str) -> Option<u64> {
    let (body, shift) = match text.as_bytes().last()?.to_ascii_lowercase() {
        b'k' => (&text[..text.len() - 1], 10),
        b'm' => (&text[..text.len() - 1], 20),
        b'g' => (&text[..text.len() - 1], 30),
        _ => (text, 0),
    };
    let body = body.strip_prefix('+').unwrap_or(body);
    let (digits, radix) = match body.strip_prefix("0x").or(body.strip_prefix("0X")) {
        Some(digits) => (digits, 16),
        None => (body, 10),
    };
    if !digits.starts_with(|first: char| first.is_ascii_hexdigit()) {
        return None;
    }
    u64::from_str_radix(digits, radix).ok()?.checked_mul(1 << shift)
}

/// The bytes of a file, which are kept until the program ends.
fn read_file(path: &str) -> Result<&'static [u8], String> {
    let bytes = if path == "-" {
        let mut bytes = Vec::new();
        io::stdin().lock().read_to_end(&mut bytes).map(|_| bytes)
    } else {
        fs::read(path)
    };
    match bytes {
        Ok(bytes) => Ok(bytes.leak()),
        Err(error) if error.kind() == io::ErrorKind::OutOfMemory => Err("no memory".to_string()),
        Err(_) => Err(format!("cannot read {path}")),
    }
}

/// The bytes of each host's file. Standard input is one host's file, and no second one's.
fn read_files(paths: &[String]) -> Result<Vec<&'static [u8]>, String> {
    let mut is_taken = false;
    let mut files = Vec::new();
    for path in paths {
        if path == "-" || path == "/dev/stdin" {
            if is_taken {
                return Err(format!("cannot read {path}"));
            }
            is_taken = true;
        }
        files.push(read_file(path)?);
    }
    Ok(files)
}

/// Whether one regular file stands at both paths.
fn is_one_file(path: &str, other: &str) -> bool {
    match (fs::metadata(path), fs::metadata(other)) {
        (Ok(path), Ok(other)) => path.is_file() && (path.dev(), path.ino()) == (other.dev(), other.ino()),
        _ => false,
    }
}

/// Refuses a path for the record of what is read, and of what standard output goes to.
fn check_out(out: &str, files: &[String]) -> Result<(), String> {
    let read = |path: &String| is_one_file(out, if path == "-" { "/dev/stdin" } else { path });
    if out == "-" || files.iter().any(read) || is_one_file(out, "/dev/stdout") {
        return Err(format!("cannot write {out}"));
    }
    Ok(())
}

/// Writes a record beside its path, and gives it its path once it is on the disk. What is no regular file, and what stands in a
/// folder that takes no other file, is written as it stands.
fn write_file(path: &str, record: &Record) -> io::Result<()> {
    let standing = fs::symlink_metadata(path).ok();
    if standing.as_ref().is_some_and(|standing| standing.is_file()) {
        OpenOptions::new().write(true).open(path)?;
    }
    let beside = match &standing {
        Some(standing) if !standing.is_file() => None,
        _ => beside(path)?,
    };
    let Some((name, file)) = beside else {
        let mut out = BufWriter::with_capacity(GATHERED, File::create(path)?);
        write_record(&mut out, record)?;
        return out.flush();
    };
    let written = write_beside(file, standing, record).and_then(|()| fs::rename(&name, path));
    if written.is_err() {
        let _ = fs::remove_file(&name);
    }
    written
}

fn write_beside(file: File, standing: Option<fs::Metadata>, record: &Record) -> io::Result<()> {
    if let Some(standing) = standing {
        let made = file.metadata()?;
        if (made.uid(), made.gid()) != (standing.uid(), standing.gid()) {
            fchown(&file, Some(standing.uid()), Some(standing.gid()))?;
        }
        file.set_permissions(standing.permissions())?;
    }
    let mut out = BufWriter::with_capacity(GATHERED, file);
    write_record(&mut out, record)?;
    out.flush()?;
    out.get_ref().sync_all()
}

/// A new file in the folder of a path, where that takes one.
fn beside(path: &str) -> io::Result<Option<(PathBuf, File)>> {
    for number in 0..65_536 {
        let name = Path::new(path).with_file_name(format!(".plain-unfinished-{number}"));
        match OpenOptions::new().write(true).create_new(true).open(&name) {
            Ok(file) => return Ok(Some((name, file))),
            Err(error) => match error.kind() {
                io::ErrorKind::AlreadyExists => {}
                io::ErrorKind::PermissionDenied | io::ErrorKind::ReadOnlyFilesystem | io::ErrorKind::NotFound => return Ok(None),
                _ => return Err(error),
            },
        }
    }
    Err(io::Error::from(io::ErrorKind::AlreadyExists))
}

// ---------------------------------------------------------------- the program

fn record_of(space: Namespace, workers: usize, paths: &[String]) -> Result<Record, String> {
    let files = read_files(paths)?;
    if files.len() > MOST_HOSTS {
        return Err("too many hosts".to_string());
    }
    if let Some(fault) = space.fault() {
        return Err(format!("geometry: {fault}"));
    }
    let hosts = files.iter().enumerate().map(|(place, file)| read_host(place + 1, file, space.block));
    let (commands, jobs) = jobs_of(hosts.collect::<Result<Vec<_>, _>>()?);
    Ok(run(space, commands, jobs, workers))
}

/// Does what is asked, and gives the exit status.
fn done(asked: Asked) -> Result<i32, String> {
    let told = |written: io::Result<()>| written.map_err(|_| "cannot write standard output".to_string());
    let print = |line: &str| told(Text::new().and_then(|mut text| text.out.write_all(line.as_bytes())));
    match asked {
        Asked::Told(text) => print(&text).map(|()| 0),
        Asked::Audit { path, is_object } => {
            let record = read_record(read_file(&path)?).map_err(|fault| fault.told())?;
            let (line, status) = match audit(&record) {
                Ok(_) if is_object => (record.lawful_object(), 0),
                Ok(_) => (record.lawful(), 0),
                Err(fault) if is_object => (fault.object(), 2),
                Err(fault) => (fault.line(), 2),
            };
            print(&line)?;
            std::mem::forget(record);
            Ok(status)
        }
        Asked::Run { space, workers, out, files, is_audited } => {
            let record = record_of(space, workers, &files)?;
            let found = if is_audited { audit(&record) } else { record.done_jobs() };
            let found = found.unwrap_or_else(|fault| panic!("the run isn't lawful: {}", fault.line()));
            check_out(&out, &files)?;
            write_file(&out, &record).map_err(|_| format!("cannot write {out}"))?;
            told(print_lines(&record, &found, &record.lawful()))?;
            exit(0)
        }
    }
}

fn main() {
    let words: Result<Vec<String>, _> = std::env::args_os().skip(1).map(|word| word.into_string()).collect();
    let words = words.map_err(|_| "a word isn't UTF-8".to_string());
    match words.and_then(|words| asked(&words)).and_then(done) {
        Ok(status) => exit(status),
        Err(told) => {
            eprintln!("plain: {told}");
            exit(1)
        }
    }
}
