//! A plain judge of a trace's file: by docs/STANDARD.md it looks for an order with Wing, Gong and Lowe's search, which
//! remembers the states that it has met. Written from that page and docs/FORMATS.md alone, to be measured beside
//! `nvq certify`. `rustc -O bench/standard/plain_judge.rs`
//!
//!     plain_judge [--reads WORD] [--deallocated WORD] [--seconds N] TRACE
//!
//! prints `explained`, `contradicted` or `gave up` and ends with 0, 2 or 3. The blocks that a point of several blocks
//! joins are searched apart from others. States are remembered by hashes of 128 bits, at most 20,000,000 of them.
use std::collections::{HashMap, HashSet};
use std::hash::{BuildHasherDefault, Hasher};

const NEVER: u64 = u64::MAX;
const NONE: u32 = u32::MAX;
const STATES: usize = 20_000_000;
const SEVERAL: u32 = 1 << 31;

/// The nanoseconds of a processor that this program took.
fn spent() -> u64 {
    let said = std::fs::read_to_string("/proc/self/schedstat").expect("this system doesn't say what time was spent");
    said.split(' ').next().unwrap().parse().unwrap()
}

/// Mixes words by multiplying: quick, and good enough for what isn't made to collide.
#[derive(Default)]
struct Mixed(u64);
type Map<K, V> = HashMap<K, V, BuildHasherDefault<Mixed>>;
impl Hasher for Mixed {
    fn finish(&self) -> u64 {
        self.0 ^ self.0 >> 29
    }
    fn write(&mut self, bytes: &[u8]) {
        for part in bytes.chunks(8) {
            let mut word = [0; 8];
            word[..part.len()].copy_from_slice(part);
            self.write_u64(u64::from_le_bytes(word));
        }
    }
    fn write_u64(&mut self, word: u64) {
        self.0 = (self.0.rotate_left(23) ^ word).wrapping_mul(0x9e37_79b9_7f4a_7c15);
    }
    fn write_u32(&mut self, word: u32) {
        self.write_u64(word.into());
    }
    fn write_usize(&mut self, word: usize) {
        self.write_u64(word as u64);
    }
}

fn mixed(mut word: u64) -> u64 {
    word = (word ^ word >> 30).wrapping_mul(0xbf58_476d_1ce4_e5b9);
    word = (word ^ word >> 27).wrapping_mul(0x94d0_49bb_1331_11eb);
    word ^ word >> 31
}

fn key(kind: u64, one: u32, two: u32) -> u128 {
    let word = kind << 60 ^ u64::from(one) << 32 ^ u64::from(two);
    u128::from(mixed(word)) << 64 | u128::from(mixed(word.wrapping_add(0x9e37_79b9_7f4a_7c15)))
}

/// What a block may hold: a content by its number, or a set of them, or all but those of a set.
struct Contents<'a> {
    known: Map<&'a [u8], u32>,
    sets: Vec<(bool, Vec<u32>)>,
    numbers: HashMap<(bool, Vec<u32>), u32>,
    meets: Map<(u32, u32), Option<u32>>,
}

const ZEROES: u32 = 0;
const ONES: u32 = 1;
const MARK: u32 = 2;
const ANYTHING: u32 = SEVERAL;
const ANY_BYTES: u32 = SEVERAL + 1;

impl<'a> Contents<'a> {
    fn of(&mut self, block: &'a [u8]) -> u32 {
        let next = self.known.len() as u32 + 3;
        *self.known.entry(block).or_insert_with(|| match block {
            _ if block.iter().all(|byte| *byte == 0) => ZEROES,
            _ if block.iter().all(|byte| *byte == 0xff) => ONES,
            _ => next,
        })
    }

    fn set(&mut self, but: bool, mut values: Vec<u32>) -> u32 {
        values.sort();
        values.dedup();
        if !but && values.len() == 1 {
            return values[0];
        }
        let next = SEVERAL + self.sets.len() as u32;
        let sets = &mut self.sets;
        *self.numbers.entry((but, values)).or_insert_with_key(|made| {
            sets.push(made.clone());
            next
        })
    }

    fn said(&self, one: u32) -> (bool, Vec<u32>) {
        if one < SEVERAL { (false, vec![one]) } else { self.sets[(one - SEVERAL) as usize].clone() }
    }

    /// What is in both.
    fn meet(&mut self, one: u32, two: u32) -> Option<u32> {
        if one == two || one < SEVERAL && two < SEVERAL {
            return (one == two).then_some(one);
        }
        if let Some(known) = self.meets.get(&(one, two)) {
            return *known;
        }
        let ((but, left), (also, right)) = (self.said(one), self.said(two));
        let (but, values) = match (but, also) {
            (true, true) => (true, left.into_iter().chain(right).collect()),
            (true, false) => (false, right.into_iter().filter(|it| !left.contains(it)).collect()),
            (false, also) => (false, left.into_iter().filter(|it| right.contains(it) != also).collect::<Vec<_>>()),
        };
        let found = (but || !values.is_empty()).then(|| self.set(but, values));
        self.meets.insert((one, two), found);
        found
    }
}

#[derive(Clone, Copy, PartialEq)]
enum Kind {
    Plain,
    Read,
    Deallocate,
    /// Puts, as often as it likes.
    Any,
    /// Finds at one of its blocks, whichever it is.
    OneOf,
}

/// `over` is when the command was over, `ended` when the point's time was. `after` must be done before this one. Of a
/// `group` either none is done, or all that find are.
#[derive(Clone)]
struct Point {
    job: u32,
    began: u64,
    ended: u64,
    over: u64,
    sure: bool,
    kind: Kind,
    after: u32,
    group: u32,
    finds: Vec<(u32, u32)>,
    puts: Vec<(u32, u32)>,
}

struct Command<'a> {
    opcode: u8,
    here: bool,
    first: u64,
    count: u64,
    data: &'a [u8],
    deallocates: bool,
}

#[derive(Clone, Copy, PartialEq)]
enum Told {
    Done,
    Host,
    Before,
    Error,
}

fn told(status: Option<(u8, u8)>) -> Told {
    match status {
        Some((0, 0)) => Told::Done,
        None | Some((3, _) | (0, 7 | 8)) => Told::Host,
        Some((0, 1 | 2 | 9 | 0x0a | 0x0b | 0x14 | 0x80)) => Told::Before,
        _ => Told::Error,
    }
}

#[derive(Clone, Copy, PartialEq, PartialOrd)]
enum Reads {
    ByBlocks,
    Atomic,
    AtomicAll,
    Whole,
}

struct File<'a> {
    bytes: &'a [u8],
    at: usize,
}

impl<'a> File<'a> {
    fn take(&mut self, count: usize) -> &'a [u8] {
        self.at += count;
        self.bytes.get(self.at - count..self.at).unwrap_or_else(|| panic!("the file ends before {}", self.at))
    }
    fn number(&mut self, bytes: usize) -> u64 {
        self.take(bytes).iter().rev().fold(0, |sum, byte| sum << 8 | u64::from(*byte))
    }
    fn command(&mut self, size: u64) -> Command<'a> {
        let mut entry = File { bytes: self.take(64), at: 0 };
        let (opcode, _, nsid) = (entry.number(1) as u8, entry.number(3), entry.number(4));
        entry.at = 40;
        let (mut first, mut count) = (entry.number(8), entry.number(2) + 1);
        let deallocates = first >> 34 & 1 == 1;
        let data = match opcode {
            1 | 5 => self.take((count * size) as usize),
            9 => self.take(16 * ((first as usize & 0xff) + 1)),
            _ => &[],
        };
        if opcode == 9 {
            (first, count) = (0, 0);
        }
        Command { opcode, here: nsid == 1, first, count, data, deallocates }
    }
}

/// The page's table.
struct Table<'a> {
    size: usize,
    nsze: u64,
    nabsn: u64,
    nabo: u64,
    nawun: u64,
    nacwu: u64,
    reads: Reads,
    deallocated: u32,
    contents: Contents<'a>,
    points: Vec<Point>,
    groups: u32,
}

impl<'a> Table<'a> {
    fn unit(&self, block: u64) -> u64 {
        if self.nabsn == 0 || block < self.nabo { 0 } else { 1 + (block - self.nabo) / (self.nabsn + 1) }
    }

    fn within(&self, it: &Command, limit: u64) -> bool {
        it.count <= limit + 1 && it.first + it.count <= self.nsze && self.unit(it.first) == self.unit(it.first + it.count - 1)
    }

    /// Each block of a command that exists, with the content that it names.
    fn values(&mut self, it: &Command<'a>, data: &'a [u8]) -> Vec<(u32, u32)> {
        let blocks = it.first..(it.first + it.count).min(self.nsze);
        let content = |at: u64| match it.opcode {
            4 => MARK,
            8 => ZEROES,
            2 if data.is_empty() => ANY_BYTES,
            _ => self.contents.of(&data[at as usize * self.size..][..self.size]),
        };
        let found: Vec<u32> = blocks.clone().map(|block| block - it.first).map(content).collect();
        blocks.map(|block| block as u32).zip(found).collect()
    }

    fn each(&mut self, like: &Point, values: &[(u32, u32)], puts: bool) -> std::ops::Range<u32> {
        let from = self.points.len() as u32;
        for value in values {
            let mut point = like.clone();
            if puts { point.puts.push(*value) } else { point.finds.push(*value) }
            self.points.push(point);
        }
        from..self.points.len() as u32
    }

    fn found(&mut self, like: &Point, values: &[(u32, u32)], held: bool) {
        if held && self.reads == Reads::Whole {
            let parts = values.chunk_by(|one, two| self.unit(one.0.into()) == self.unit(two.0.into()));
            let made: Vec<_> = parts.map(|part| Point { finds: part.to_vec(), ..like.clone() }).collect();
            self.points.extend(made);
        } else {
            let kind = if held && self.reads > Reads::ByBlocks { Kind::Read } else { Kind::Plain };
            self.each(&Point { kind, ..like.clone() }, values, false);
        }
    }

    fn differs(&mut self, like: &Point, it: &Command<'a>) {
        let values = self.values(it, it.data);
        if values.len() as u64 == it.count {
            let finds = values.iter().map(|(block, content)| (*block, self.contents.set(true, vec![*content, MARK])));
            self.points.push(Point { finds: finds.collect(), kind: Kind::OneOf, ..like.clone() });
        }
    }

    fn single(&mut self, like: &Point, it: &Command<'a>, status: Option<(u8, u8)>, read: &'a [u8], named: &[u32]) {
        let said = told(status);
        let (optional, late) = (Point { sure: false, ..like.clone() }, Point { sure: false, ended: NEVER, ..like.clone() });
        let refused = matches!(status, Some((0, 1 | 0x0b)));
        match it.opcode {
            _ if !it.here => {}
            1 | 4 | 8 if said == Told::Done => {
                let values = self.values(it, it.data);
                let entry = it.opcode == 1 || self.reads >= Reads::AtomicAll;
                if entry && self.within(it, self.nawun) {
                    self.points.push(Point { puts: values, ..like.clone() });
                } else {
                    self.each(like, &values, true);
                }
            }
            1 | 4 | 8 if said == Told::Before => {}
            1 | 4 | 8 => {
                let values = self.values(it, it.data);
                self.each(if said == Told::Host { &late } else { &optional }, &values, true);
            }
            2 if said == Told::Done => {
                let values = self.values(it, read);
                self.found(like, &values, true);
            }
            5 if said == Told::Done => {
                let values = self.values(it, it.data);
                self.found(like, &values, self.reads >= Reads::AtomicAll);
            }
            5 if status == Some((2, 0x85)) => self.differs(like, it),
            9 if it.deallocates && !refused => {
                let over = if said == Told::Host { NEVER } else { like.ended };
                for range in it.data.chunks(16) {
                    let mut range = File { bytes: range, at: 4 };
                    let (count, first) = (range.number(4), range.number(8));
                    let values: Vec<_> =
                        (first..first.saturating_add(count).min(self.nsze)).map(|block| (block as u32, self.deallocated)).collect();
                    self.each(&Point { kind: Kind::Deallocate, over, ..late.clone() }, &values, true);
                }
            }
            2 | 5 | 9 | 0 | 0x0c | 0x0d | 0x0e | 0x11 | 0x15 => {}
            _ if refused => {}
            _ => {
                let values: Vec<_> = named.iter().map(|block| (*block, ANYTHING)).collect();
                let like = if it.opcode != 0x19 || said == Told::Host { &late } else { &optional };
                self.each(&Point { kind: Kind::Any, ..like.clone() }, &values, true);
            }
        }
    }

    /// Whether some order may explain such a reply.
    fn pair(&mut self, like: &Point, pair: &[Command<'a>], first: Option<(u8, u8)>, second: Option<(u8, u8)>) -> bool {
        let (compared, then) = (told(first), told(second));
        let (finds, puts) = (self.values(&pair[0], pair[0].data), self.values(&pair[1], pair[1].data));
        if compared != Told::Done && compared != Told::Host && then == Told::Done || (first, second) == (Some((0, 0)), Some((0, 9))) {
            return false;
        }
        if compared == Told::Done && then == Told::Done && self.within(&pair[1], self.nacwu) {
            self.points.push(Point { finds, puts, ..like.clone() });
            return true;
        }
        if first == Some((2, 0x85)) {
            self.differs(like, &pair[0]);
            return true;
        }
        let (sure, mut late, mut group) = (then == Told::Done, then == Told::Host, NONE);
        if compared != Told::Done && then != Told::Done {
            if first == Some((2, 0x81)) || then == Told::Before || compared == Told::Before && first != Some((0, 9)) {
                return true;
            }
            late |= compared == Told::Host;
            (group, self.groups) = (self.groups, self.groups + 1);
        }
        let ended = if late { NEVER } else { like.ended };
        let finding = Point { sure: group == NONE, ended: if group == NONE { like.ended } else { ended }, group, ..like.clone() };
        let found = self.each(&finding, &finds, false);
        if then != Told::Before {
            let put = self.each(&Point { sure, ended, group, ..like.clone() }, &puts, true);
            for (one, after) in put.zip(found) {
                self.points[one as usize].after = after;
            }
        }
        true
    }
}

/// The points of a trace's file, what was there at first, and whether some order may explain each reply.
fn read<'a>(bytes: &'a [u8], reads: Option<Reads>, deallocated: Option<u32>) -> (Table<'a>, u32, bool) {
    let mut file = File { bytes, at: 0 };
    assert!(file.take(4) == b"NVT1", "this isn't a trace");
    let [nsze, size] = [8, 4].map(|it| file.number(it));
    let [nabsn, nabo, nawun, nacwu] = [2; 4].map(|it| file.number(it));
    file.take(8);
    let [unknown, held, count] = [1, 1, 4].map(|it| file.number(it));
    let mut contents = Contents { known: Map::default(), sets: vec![], numbers: HashMap::new(), meets: Map::default() };
    contents.set(true, vec![]);
    contents.set(true, vec![MARK]);
    let reads = reads.unwrap_or(if held % 3 == 1 { Reads::ByBlocks } else { Reads::Atomic });
    let either = contents.set(false, vec![ZEROES, ONES]);
    let deallocated = match deallocated {
        Some(word) => word,
        None => [either, ZEROES, ONES][held as usize / 3],
    };
    let deallocated = if deallocated == NONE { either } else { deallocated };
    let mut jobs = vec![];
    let mut named = HashSet::new();
    for _ in 0..count {
        file.take(2);
        let commands: Vec<_> = (0..=file.number(1)).map(|_| file.command(size)).collect();
        let (began, ended) = (file.number(8), file.number(8));
        let (mut statuses, mut data) = (vec![None; commands.len()], &bytes[..0]);
        if ended != NEVER {
            for status in &mut statuses {
                *status = Some((file.number(1) as u8, file.number(1) as u8));
            }
            if file.number(1) == 1 {
                data = file.take((commands[0].count * size) as usize);
            }
        }
        for it in &commands {
            if matches!(it.opcode, 1 | 2 | 4 | 5 | 8) {
                named.extend(it.first..(it.first + it.count).min(nsze));
            }
        }
        jobs.push((commands, began, ended, statuses, data));
    }
    let named: Vec<u32> = named.into_iter().map(|block| block as u32).collect();
    let (points, size) = (vec![], size as usize);
    let mut table = Table { size, nsze, nabsn, nabo, nawun, nacwu, reads, deallocated, contents, points, groups: 0 };
    let mut is_right = true;
    for (job, (commands, began, ended, statuses, data)) in jobs.into_iter().enumerate() {
        let job = 2 * job as u32;
        let (finds, puts) = (vec![], vec![]);
        let like = Point { job, began, ended, over: ended, sure: true, kind: Kind::Plain, after: NONE, group: NONE, finds, puts };
        let is_pair = |one: &Command, two: &Command| {
            (one.opcode, two.opcode, one.first, one.count) == (5, 1, two.first, two.count) && one.here && two.here
        };
        if commands.len() == 2 && is_pair(&commands[0], &commands[1]) {
            is_right &= table.pair(&like, &commands, statuses[0], statuses[1]);
            continue;
        }
        for (half, it) in commands.iter().enumerate() {
            table.single(&Point { job: job + half as u32, ..like.clone() }, it, statuses[half], data, &named);
        }
    }
    (table, if unknown == 1 { ANYTHING } else { ZEROES }, is_right)
}

enum Undo {
    Gone(u32),
    Block(u32, u32),
}

const OPEN: u8 = 0;
const DONE: u8 = 1;
const DEAD: u8 = 2;

/// The search for an order of points whose blocks no other point meets.
struct Search<'c, 'a> {
    contents: &'c mut Contents<'a>,
    points: Vec<Point>,
    // The open points by their beginnings: a ring through the place after the last.
    next: Vec<u32>,
    back: Vec<u32>,
    states: Vec<u8>,
    now: Vec<u32>,
    latest: u64,
    hash: u128,
    // What finds, of each group.
    groups: Map<u32, Vec<u32>>,
    // Of each point, those of its Read, or it alone.
    reads: Vec<std::ops::Range<u32>>,
    // For a content in a block: its number, how many open points find it surely, and how many put it. Of a block: how many put anything.
    cells: Map<(u32, u32), u32>,
    wanted: Vec<u32>,
    givers: Vec<u32>,
    givers_of_any: Vec<u32>,
    undo: Vec<Undo>,
}

impl<'c, 'a> Search<'c, 'a> {
    fn new(contents: &'c mut Contents<'a>, points: Vec<Point>, blocks: usize, start: u32) -> Self {
        let end = points.len() as u32;
        let mut order: Vec<u32> = (0..end).collect();
        order.sort_by_key(|one| (points[*one as usize].began, points[*one as usize].ended));
        let (mut next, mut back) = (vec![end; points.len() + 1], vec![end; points.len() + 1]);
        let mut last = end;
        for one in order {
            (next[last as usize], back[one as usize]) = (one, last);
            last = one;
        }
        (next[last as usize], back[end as usize]) = (end, last);
        let (mut groups, mut reads): (Map<_, Vec<u32>>, Vec<_>) = (Map::default(), (0..end).map(|it| it..it + 1).collect());
        for (at, it) in points.iter().enumerate() {
            if it.group != NONE && !it.finds.is_empty() {
                groups.entry(it.group).or_default().push(at as u32);
            }
        }
        let mut at = 0;
        for part in points.chunk_by(|one, two| one.kind == Kind::Read && two.kind == Kind::Read && one.job == two.job) {
            let to = at + part.len();
            reads[at..to].fill(at as u32..to as u32);
            at = to;
        }
        let (states, now, undo, latest, hash) = (vec![OPEN; points.len()], vec![start; blocks], vec![], 0, 0);
        let (cells, wanted, givers, givers_of_any) = (Map::default(), vec![], vec![], vec![0; blocks]);
        let mut made =
            Search { contents, points, next, back, states, now, latest, hash, groups, reads, cells, wanted, givers, givers_of_any, undo };
        (0..end).for_each(|one| made.count(one, 1));
        made
    }

    /// Counts a point among those that are open, or no longer.
    fn count(&mut self, one: u32, more: i32) {
        let it = &self.points[one as usize];
        let sets = &self.contents.sets;
        let mut cell = |block: u32, content: u32, wants: bool| {
            let next = self.wanted.len() as u32;
            let at = *self.cells.entry((block, content)).or_insert(next) as usize;
            if at == next as usize {
                self.wanted.push(0);
                self.givers.push(0);
            }
            let counted = if wants { &mut self.wanted[at] } else { &mut self.givers[at] };
            *counted = counted.wrapping_add_signed(more);
        };
        for (block, content) in it.finds.iter().filter(|find| it.sure && it.kind != Kind::OneOf && find.1 < SEVERAL) {
            cell(*block, *content, true);
        }
        for (block, content) in &it.puts {
            if *content < SEVERAL {
                cell(*block, *content, false);
                continue;
            }
            match &sets[(*content - SEVERAL) as usize] {
                (false, values) => values.iter().for_each(|value| cell(*block, *value, false)),
                _ => self.givers_of_any[*block as usize] = self.givers_of_any[*block as usize].wrapping_add_signed(more),
            }
        }
    }

    /// Whether some open point surely finds a content in a block that can't be there any more.
    fn is_lost(&self, block: u32, content: u32) -> bool {
        let Some(cell) = self.cells.get(&(block, content)) else { return false };
        let (wanted, givers) = (self.wanted[*cell as usize], self.givers[*cell as usize]);
        let is_there = self.now[block as usize] == content || self.now[block as usize] >= SEVERAL;
        wanted > 0 && givers == 0 && self.givers_of_any[block as usize] == 0 && !is_there
    }

    fn end(&self) -> u32 {
        self.points.len() as u32
    }

    fn is_sure(&self, one: u32) -> bool {
        let it = &self.points[one as usize];
        it.sure || it.group != NONE && !it.finds.is_empty() && self.groups[&it.group].iter().any(|it| self.states[*it as usize] == DONE)
    }

    /// The open points that don't begin after the end of an open one that is sure: those that may come next are among them.
    fn window(&self) -> Vec<u32> {
        let (mut found, mut limit, mut one) = (vec![], NEVER, self.next[self.points.len()]);
        while one != self.end() && self.points[one as usize].began <= limit {
            if self.is_sure(one) {
                limit = limit.min(self.points[one as usize].ended);
            }
            found.push(one);
            one = self.next[one as usize];
        }
        found
    }

    fn go(&mut self, one: u32, how: u8) {
        let (next, back) = (self.next[one as usize], self.back[one as usize]);
        (self.next[back as usize], self.back[next as usize]) = (next, back);
        self.states[one as usize] = how;
        // Of a group one has to know whether a point was done; else only that it won't be.
        self.hash ^= key(if how == DEAD && self.points[one as usize].group != NONE { 3 } else { 1 }, one, 0);
        self.count(one, -1);
        self.undo.push(Undo::Gone(one));
    }

    fn put(&mut self, block: u32, content: u32) {
        let old = std::mem::replace(&mut self.now[block as usize], content);
        if old != content {
            self.hash ^= key(2, block, old) ^ key(2, block, content);
            self.undo.push(Undo::Block(block, old));
        }
    }

    fn back_to(&mut self, length: usize) {
        while self.undo.len() > length {
            match self.undo.pop().unwrap() {
                Undo::Block(block, old) => {
                    let new = std::mem::replace(&mut self.now[block as usize], old);
                    self.hash ^= key(2, block, old) ^ key(2, block, new);
                }
                Undo::Gone(one) => {
                    let at = one as usize;
                    let dead = self.states[at] == DEAD && self.points[at].group != NONE;
                    self.hash ^= key(if dead { 3 } else { 1 }, one, 0);
                    self.states[at] = OPEN;
                    self.count(one, 1);
                    let (next, back) = (self.next[at], self.back[at]);
                    (self.next[back as usize], self.back[next as usize]) = (one, one);
                }
            }
        }
    }

    /// Whether a point finds what may be there; `exactly`: without saying more of it than is known.
    fn fits(&mut self, one: u32, exactly: bool) -> bool {
        let it = &self.points[one as usize];
        let mut each = it.finds.iter().map(|(block, finds)| {
            let now = self.now[*block as usize];
            self.contents.meet(now, *finds).is_some_and(|met| !exactly || met == now)
        });
        if it.kind == Kind::OneOf { each.any(|it| it) } else { each.all(|it| it) }
    }

    /// Whether a point finds a content in a block in which it doesn't find what is there.
    fn wants(&mut self, one: u32, block: u32, content: u32) -> bool {
        let now = self.now[block as usize];
        let wanting = self.points[one as usize].finds.iter().filter(|find| find.0 == block);
        wanting.into_iter().any(|find| self.contents.meet(content, find.1).is_some() && self.contents.meet(now, find.1) != Some(now))
    }

    /// Does what finds what is there and can't be in the way of others: one block, or all that is left of a Read. Answers whether a sure point is left.
    fn looks(&mut self) -> bool {
        loop {
            let (window, before) = (self.window(), self.undo.len());
            let soonest = window.iter().filter(|one| !self.is_sure(**one)).map(|one| self.points[*one as usize].ended).min();
            for one in window {
                let it = &self.points[one as usize];
                let kills = it.began > self.latest && soonest.is_some_and(|ended| ended < it.began);
                if self.states[one as usize] != OPEN || !it.puts.is_empty() || kills || !self.is_sure(one) {
                    continue;
                }
                let left: Vec<_> = self.reads[one as usize].clone().filter(|it| self.states[*it as usize] == OPEN).collect();
                if left.iter().all(|it| self.fits(*it, true)) {
                    self.latest = self.latest.max(self.points[one as usize].began);
                    left.into_iter().for_each(|it| self.go(it, DONE));
                }
            }
            if self.undo.len() == before {
                return self.window().iter().any(|one| self.is_sure(*one));
            }
        }
    }

    /// Whether an entry would stand between two blocks of a Read.
    fn parts_a_read(&self, one: u32, window: &[u32]) -> bool {
        let puts = &self.points[one as usize].puts;
        let met = |it: u32| puts.iter().any(|put| put.0 == self.points[it as usize].finds[0].0);
        let is_parted = |it: u32| met(it) && self.reads[it as usize].clone().any(|it| self.states[it as usize] == DONE && met(it));
        puts.len() > 1 && window.iter().any(|it| self.points[*it as usize].kind == Kind::Read && is_parted(*it))
    }

    fn may_come(&mut self, one: u32, window: &[u32]) -> bool {
        let it = &self.points[one as usize];
        if it.ended < self.latest || it.after != NONE && self.states[it.after as usize] != DONE || self.parts_a_read(one, window) {
            return false;
        }
        if !it.finds.is_empty() && it.group != NONE && self.groups[&it.group].iter().any(|it| self.states[*it as usize] == DEAD) {
            return false;
        }
        self.fits(one, false)
    }

    /// What may come next. What puts and need not be done is left for later until a point wants it, or would end its time.
    fn moves(&mut self, found: &mut Vec<(u32, u32)>) {
        let window = self.window();
        let newest = window.iter().map(|one| self.points[*one as usize].began).max().unwrap_or(0);
        let from = found.len();
        for one in &window {
            let it = &self.points[*one as usize];
            let (kind, is_put, ended) = (it.kind, it.finds.is_empty(), it.ended);
            if is_put && !it.sure && ended >= newest {
                let (block, content) = it.puts[0];
                if self.now[block as usize] == content || !window.iter().any(|other| self.wants(*other, block, content)) {
                    continue;
                }
            }
            if !self.may_come(*one, &window) {
                continue;
            }
            for (at, (block, finds)) in self.points[*one as usize].finds.iter().enumerate().filter(|_| kind == Kind::OneOf) {
                if self.contents.meet(self.now[*block as usize], *finds).is_some() {
                    found.push((*one, at as u32));
                }
            }
            if kind != Kind::OneOf {
                found.push((*one, 0));
            }
        }
        // The last is tried first.
        found[from..].sort_by_key(|(one, _)| {
            let it = &self.points[*one as usize];
            (self.is_sure(*one), it.puts.is_empty(), std::cmp::Reverse(it.ended))
        });
    }

    /// Does a point. Answers whether what is left may still be done.
    fn take(&mut self, one: u32, choice: u32) -> bool {
        let (it, from) = (self.points[one as usize].clone(), self.undo.len());
        let found = if it.kind == Kind::OneOf { &it.finds[choice as usize..][..1] } else { &it.finds[..] };
        for (block, finds) in found {
            let content = self.contents.meet(self.now[*block as usize], *finds).unwrap();
            self.put(*block, content);
        }
        for (block, content) in &it.puts {
            self.put(*block, *content);
        }
        if it.kind != Kind::Any {
            self.go(one, DONE);
        }
        let is_late = self.latest < it.began;
        self.latest = self.latest.max(it.began);
        if is_late || !it.puts.is_empty() {
            for other in self.window() {
                let that = &self.points[other as usize];
                let writes = it.sure && it.kind == Kind::Plain && it.puts.iter().any(|put| that.puts.first().is_some_and(|it| it.0 == put.0));
                let too_late = that.kind == Kind::Deallocate && writes && that.over < it.began;
                if !self.is_sure(other) && (that.ended < self.latest || too_late) {
                    self.go(other, DEAD);
                }
            }
        }
        let lost = |did: &Undo| match *did {
            Undo::Block(block, old) => self.is_lost(block, old),
            Undo::Gone(one) if self.states[one as usize] == DEAD => self.points[one as usize].puts.iter().any(|put| self.is_lost(put.0, put.1)),
            _ => false,
        };
        !self.undo[from..].iter().any(lost)
    }

    /// Whether there is an order; `None` where more than `bound` states were met, or too much time was spent.
    fn order(&mut self, bound: usize, until: u64) -> Option<bool> {
        let mut seen: HashSet<u128, BuildHasherDefault<Mixed>> = HashSet::default();
        let mut moves = vec![];
        // Where the moves of a state begin, what to undo to leave it, and the latest beginning before it.
        let mut states = vec![];
        let (mut turns, mut from, mut may_go_on) = (0u64, (0, 0), true);
        loop {
            if may_go_on && !self.looks() {
                return Some(true);
            }
            if may_go_on && seen.insert(self.hash) {
                states.push((moves.len(), from));
                self.moves(&mut moves);
            } else {
                self.back_to(from.0);
                self.latest = from.1;
            }
            turns += 1;
            if seen.len() > bound || turns % 4096 == 0 && spent() > until {
                return None;
            }
            loop {
                let Some((begin, left)) = states.last().copied() else { return Some(false) };
                if moves.len() > begin {
                    break;
                }
                states.pop();
                self.back_to(left.0);
                self.latest = left.1;
            }
            let (one, choice) = moves.pop().unwrap();
            from = (self.undo.len(), self.latest);
            may_go_on = self.take(one, choice);
        }
    }
}

/// The root of a block's component.
fn root(parents: &mut Map<u32, u32>, block: u32) -> u32 {
    let mut at = block;
    while let Some(up) = parents.get(&at).copied().filter(|up| *up != at) {
        let above = parents.get(&up).copied().unwrap_or(up);
        parents.insert(at, above);
        at = above;
    }
    at
}

struct Judge<'a> {
    contents: Contents<'a>,
    points: Vec<Point>,
    start: u32,
    until: u64,
}

impl<'a> Judge<'a> {
    fn order(&mut self, part: &[u32], bound: usize) -> Option<bool> {
        let mut places: Map<u32, u32> = Map::default();
        let numbers: Map<u32, u32> = part.iter().enumerate().map(|(at, one)| (*one, at as u32)).collect();
        let mut points: Vec<Point> = part.iter().map(|one| self.points[*one as usize].clone()).collect();
        for it in &mut points {
            for cell in it.finds.iter_mut().chain(&mut it.puts) {
                let next = places.len() as u32;
                cell.0 = *places.entry(cell.0).or_insert(next);
            }
            it.after = numbers.get(&it.after).copied().unwrap_or(NONE);
        }
        Search::new(&mut self.contents, points, places.len(), self.start).order(bound, self.until)
    }

    /// The points by components: those that a point of several blocks, or a choice of a pair's, joins.
    fn parts(&self) -> Vec<Vec<u32>> {
        let (mut parents, mut groups): (Map<u32, u32>, Map<u32, u32>) = Default::default();
        let blocks_of = |it: &Point| it.finds.iter().chain(&it.puts).map(|cell| cell.0).collect::<Vec<_>>();
        for it in &self.points {
            let mut blocks = blocks_of(it);
            if it.group != NONE {
                blocks.push(*groups.entry(it.group).or_insert(blocks[0]));
            }
            let first = root(&mut parents, blocks[0]);
            for block in blocks {
                let other = root(&mut parents, block);
                parents.insert(other, first);
            }
        }
        let mut parts: Map<u32, Vec<u32>> = Map::default();
        for (at, it) in self.points.iter().enumerate() {
            parts.entry(root(&mut parents, blocks_of(it)[0])).or_default().push(at as u32);
        }
        parts.into_values().collect()
    }

    /// Each part gets a short try before any gets a long one.
    fn verdict(&mut self) -> Option<bool> {
        let mut left = self.parts();
        for bound in [50_000, STATES] {
            let mut unsaid = vec![];
            for part in left {
                match self.order(&part, bound) {
                    Some(false) => return Some(false),
                    None => unsaid.push(part),
                    Some(true) => {}
                }
            }
            left = unsaid;
        }
        left.is_empty().then_some(true)
    }
}

fn main() {
    let (mut reads, mut deallocated, mut seconds, mut path) = (None, None, 10.0, None);
    let mut words = std::env::args().skip(1);
    while let Some(word) = words.next() {
        let mut after = || words.next().expect("a word is missing");
        match &word[..] {
            "--reads" => {
                let known = [("by-blocks", Reads::ByBlocks), ("atomic", Reads::Atomic), ("atomic-all", Reads::AtomicAll), ("whole", Reads::Whole)];
                let word = after();
                reads = Some(known.iter().find(|it| it.0 == word).expect("no such word").1);
            }
            "--deallocated" => {
                let word = after();
                let known = [("either", NONE), ("zeroes", ZEROES), ("ones", ONES)];
                deallocated = Some(known.iter().find(|it| it.0 == word).expect("no such word").1);
            }
            "--seconds" => seconds = after().parse().expect("seconds"),
            _ => path = Some(word),
        }
    }
    let until = (seconds * 1e9) as u64;
    let path = path.expect("a trace is missing");
    let bytes = std::fs::read(if path == "-" { "/dev/stdin" } else { &path }).expect("the file can't be read");
    let (table, start, is_right) = read(&bytes, reads, deallocated);
    let Table { contents, points, .. } = table;
    let said = if is_right { Judge { contents, points, start, until }.verdict() } else { Some(false) };
    let (word, status) = match said {
        Some(true) => ("explained", 0),
        Some(false) => ("contradicted", 2),
        None => ("gave up", 3),
    };
    println!("{word}");
    std::process::exit(status);
}
