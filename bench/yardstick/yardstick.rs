//! A yardstick for covcollect's speed: `yardstick merge FILE..` and `yardstick summary FILE..` print the same bytes as
//! covcollect does, and nothing in it is proved. It is written to be as fast and as small as one thread can be without
//! keeping anything that the output doesn't need, so it is a bound from below and no model to copy.
//!
//! What covcollect does and this program doesn't:
//! - it keeps no history: a file's text and records are gone as soon as they are added up;
//! - it holds no checksum against another one: of two that differ it keeps one and says nothing;
//! - it reads a total line (`LF:`, `LH:`, ..) for its form alone and doesn't compare the number;
//! - it stops at the first bad file and says less about it: `<file>: bad tracefile at line <line>`, status 1;
//! - it has no session, no patterns, no gcov text and no jobs;
//! - the names and checksums that it holds have at most 4 GiB in all; a file that is cut short while it is read kills it.
//!
//! A file is mapped and read once, by words of eight bytes. A section's records of one kind are a sorted list of small fixed
//! records. A section that was seen before usually brings the same points in the same order, so a cursor walks the list
//! and adds in place. Every other record goes to a list of its own, which is sorted where it has to be and merged into the
//! section's list at `end_of_record`. Numbers that don't fit into a small record are kept in maps beside the list (`Large`).

use std::collections::BTreeMap;
use std::fs::File;
use std::io::{self, Read, Write};
use std::os::fd::{AsRawFd, FromRawFd};
use std::process::ExitCode;
use std::{env, mem, ptr, slice};

/// Bytes after the end of every text that may be read, though they mean nothing.
const PADDING: usize = 32;
const LONGEST_TEXT: usize = 67_108_864;

// ---- texts ----

extern "C" {
    fn mmap(address: *mut u8, length: usize, protection: i32, flags: i32, file: i32, offset: i64) -> *mut u8;
    fn munmap(address: *mut u8, length: usize) -> i32;
}

const PROT_READ: i32 = 1;
const MAP_PRIVATE: i32 = 2;
const MAP_POPULATE: i32 = 0x8000;
const PAGE: usize = 4096;

/// A text that is empty or ends in a line feed, with `PADDING` readable bytes after it.
enum Text {
    Mapped(*mut u8, usize),
    Owned(Vec<u8>, usize),
}

impl Text {
    fn of(name: &str) -> io::Result<Text> {
        let file = File::open(name)?;
        let about = file.metadata()?;
        let length = about.len() as usize;
        // The rest of the last page reads as zeros; it is the padding if it is large enough.
        if about.is_file() && length > 0 && length <= LONGEST_TEXT && (1..=PAGE - PADDING).contains(&(length % PAGE)) {
            let at = unsafe { mmap(ptr::null_mut(), length, PROT_READ, MAP_PRIVATE | MAP_POPULATE, file.as_raw_fd(), 0) };
            if at as isize != -1 {
                let text = Text::Mapped(at, length);
                if unsafe { *at.add(length - 1) } == b'\n' {
                    return Ok(text);
                }
            }
        }
        let mut bytes = Vec::with_capacity(length.min(LONGEST_TEXT) + PADDING + 2);
        file.take(LONGEST_TEXT as u64 + 1).read_to_end(&mut bytes)?;
        if bytes.last().is_some_and(|&last| last != b'\n') && bytes.len() <= LONGEST_TEXT {
            bytes.push(b'\n');
        }
        let length = bytes.len();
        bytes.resize(length + PADDING, 0);
        Ok(Text::Owned(bytes, length))
    }

    fn range(&self) -> (*const u8, usize) {
        match self {
            Text::Mapped(at, length) => (*at, *length),
            Text::Owned(bytes, length) => (bytes.as_ptr(), *length),
        }
    }
}

impl Drop for Text {
    fn drop(&mut self) {
        if let Text::Mapped(at, length) = self {
            unsafe { munmap(*at, *length) };
        }
    }
}

#[inline(always)]
unsafe fn word(at: *const u8) -> u64 {
    u64::from_le((at as *const u64).read_unaligned())
}

const ONES: u64 = 0x0101_0101_0101_0101;
const HIGH: u64 = 0x8080_8080_8080_8080;

/// The first line feed at or after a place; a text has one at its end.
#[inline(always)]
unsafe fn line_feed(mut at: *const u8) -> *const u8 {
    loop {
        let differs = word(at) ^ (ONES * b'\n' as u64);
        let equal = differs.wrapping_sub(ONES) & !differs & HIGH;
        if equal != 0 {
            return at.add(equal.trailing_zeros() as usize / 8);
        }
        at = at.add(8);
    }
}

/// The value and number of digits at a place, at most eight of them; 0 digits and 8 digits need the slow way.
#[inline(always)]
unsafe fn few_digits(at: *const u8) -> (u32, usize) {
    let digits = word(at) ^ (ONES * b'0' as u64);
    let other = (digits.wrapping_add(ONES * 0x76) | digits) & HIGH;
    let count = other.trailing_zeros() as usize / 8;
    // the digits move to the end of the word, zeros before them
    let value = (digits << 1) << (63 - 8 * count.min(7));
    let value = value.wrapping_mul(2561) >> 8;
    let value = (value & 0x00ff_00ff_00ff_00ff).wrapping_mul(6_553_601) >> 16;
    let value = (value & 0x0000_ffff_0000_ffff).wrapping_mul(42_949_672_960_001) >> 32;
    (value as u32, count)
}

/// A number below 2^64 at the beginning of some bytes, and what follows it.
fn number(bytes: &[u8]) -> Option<(u64, &[u8])> {
    let count = bytes.iter().take_while(|byte| byte.is_ascii_digit()).count();
    let mut value = 0u64;
    for byte in &bytes[..count] {
        value = value.checked_mul(10)?.checked_add((byte - b'0') as u64)?;
    }
    (count > 0).then_some((value, &bytes[count..]))
}

/// A number and the comma after it.
fn field(bytes: &[u8]) -> Option<(u64, &[u8])> {
    let (value, rest) = number(bytes)?;
    Some((value, rest.strip_prefix(b",")?))
}

/// An execution count, which is 0 if it is negative.
fn count(bytes: &[u8]) -> Option<(u64, &[u8])> {
    match bytes.strip_prefix(b"-") {
        None => number(bytes),
        Some(rest) => {
            let digits = rest.iter().take_while(|byte| byte.is_ascii_digit()).count();
            (digits > 0).then_some((0, &rest[digits..]))
        }
    }
}

fn is_checksum(bytes: &[u8]) -> bool {
    !bytes.is_empty() && !bytes.iter().any(|byte| matches!(byte, b',' | b' ' | b'\t' | b'\r'))
}

// ---- interned names ----

/// Ids by hash: open addressing, a slot holds the hash and the id plus one.
#[derive(Default)]
struct Ids {
    slots: Vec<u64>,
    used: usize,
}

impl Ids {
    /// The id of which `is` holds, else `Err` with the slot that a new one takes.
    #[inline]
    fn find(&mut self, hash: u32, is: impl Fn(u32) -> bool) -> Result<u32, usize> {
        if self.used * 3 >= self.slots.len() * 2 {
            self.grow();
        }
        let mask = self.slots.len() - 1;
        let mut at = hash as usize & mask;
        loop {
            let slot = self.slots[at];
            if slot == 0 {
                return Err(at);
            }
            if (slot >> 32) as u32 == hash && is(slot as u32 - 1) {
                return Ok(slot as u32 - 1);
            }
            at = (at + 1) & mask;
        }
    }

    fn put(&mut self, at: usize, hash: u32, id: usize) {
        self.slots[at] = (hash as u64) << 32 | (id as u64 + 1);
        self.used += 1;
    }

    fn grow(&mut self) {
        let size = (self.slots.len() * 2).max(64);
        let old = mem::replace(&mut self.slots, vec![0; size]);
        for slot in old.into_iter().filter(|&slot| slot != 0) {
            let mut at = (slot >> 32) as usize & (size - 1);
            while self.slots[at] != 0 {
                at = (at + 1) & (size - 1);
            }
            self.slots[at] = slot;
        }
    }
}

/// The hash of a name that stands in a text, so up to seven bytes after it may be read.
#[inline]
fn hash_of(name: &[u8], seed: u64) -> u32 {
    const FACTOR: u64 = 0x9e37_79b9_7f4a_7c15;
    let mut hash = (seed ^ name.len() as u64).wrapping_mul(FACTOR);
    let mut mix = |part: u64| hash = (hash.rotate_left(23) ^ part).wrapping_mul(FACTOR);
    let whole = name.len() / 8;
    for place in 0..whole {
        mix(unsafe { word(name.as_ptr().add(8 * place)) });
    }
    if name.len() % 8 > 0 {
        mix(unsafe { word(name.as_ptr().add(8 * whole)) } & !(u64::MAX << (8 * (name.len() % 8))));
    }
    ((hash ^ hash >> 29).wrapping_mul(FACTOR) >> 32) as u32
}

/// Where a name or checksum stands among all that are held.
#[derive(Clone, Copy)]
struct Span {
    at: u32,
    len: u32,
}

#[derive(Default)]
struct Names {
    bytes: Vec<u8>,
}

impl Names {
    #[inline(always)]
    fn get(&self, span: Span) -> &[u8] {
        &self.bytes[span.at as usize..][..span.len as usize]
    }

    fn put(&mut self, name: &[u8]) -> Span {
        let span = Span { at: self.bytes.len() as u32, len: name.len() as u32 };
        self.bytes.extend_from_slice(name);
        assert!(self.bytes.len() <= u32::MAX as usize, "names and checksums of more than 4 GiB");
        span
    }
}

/// The files, or the tests.
#[derive(Default)]
struct Interned {
    ids: Ids,
    spans: Vec<Span>,
}

impl Interned {
    fn id(&mut self, name: &[u8], names: &mut Names) -> u32 {
        let hash = hash_of(name, 0);
        let spans = &self.spans;
        match self.ids.find(hash, |id| names.get(spans[id as usize]) == name) {
            Ok(id) => id,
            Err(slot) => {
                self.ids.put(slot, hash, self.spans.len());
                self.spans.push(names.put(name));
                self.spans.len() as u32 - 1
            }
        }
    }
}

// ---- points ----

/// What a section holds of points whose numbers don't fit into a small record, and what didn't fit into one's sum.
#[derive(Default)]
struct Large {
    lines: BTreeMap<u64, u128>,
    branches: BTreeMap<[u64; 3], Option<u128>>,
}

impl Large {
    fn add_line(this: &mut Option<Box<Large>>, line: u64, count: u64) {
        *this.get_or_insert_default().lines.entry(line).or_default() += count as u128;
    }

    fn add_branch(this: &mut Option<Box<Large>>, key: [u64; 3], taken: Option<u64>) {
        let held = this.get_or_insert_default().branches.entry(key).or_default();
        *held = sum(*held, taken.map(u128::from));
    }
}

fn sum(first: Option<u128>, second: Option<u128>) -> Option<u128> {
    match (first, second) {
        (Some(first), Some(second)) => Some(first + second),
        (first, second) => first.or(second),
    }
}

trait Point: Copy {
    fn key(self) -> u64;
    /// Adds another record of the same point; what doesn't fit goes to `large`.
    fn add(&mut self, other: Self, large: &mut Option<Box<Large>>);
}

/// A line number and its count, of 32 bits each.
#[derive(Clone, Copy)]
struct Line(u64);

impl Line {
    #[inline(always)]
    fn of(line: u32, count: u32) -> Line {
        Line((line as u64) << 32 | count as u64)
    }

    fn count(self) -> u32 {
        self.0 as u32
    }
}

impl Point for Line {
    #[inline(always)]
    fn key(self) -> u64 {
        self.0 >> 32
    }

    #[inline(always)]
    fn add(&mut self, other: Line, large: &mut Option<Box<Large>>) {
        if self.count().checked_add(other.count()).is_some() {
            self.0 += other.count() as u64;
        } else {
            Large::add_line(large, self.key(), other.count() as u64);
        }
    }
}

/// Line, block and branch number in one key, and how often it was taken.
#[derive(Clone, Copy)]
#[repr(C, packed(4))]
struct Branch {
    key: u64,
    taken: u32,
}

/// The `-` of a branch whose block was never executed.
const NEVER: u32 = u32::MAX;

impl Branch {
    #[inline(always)]
    fn of(line: u32, block: u32, branch: u32, taken: u32) -> Branch {
        Branch { key: (line as u64) << 32 | (block as u64) << 16 | branch as u64, taken }
    }

    fn numbers(self) -> [u64; 3] {
        [self.key >> 32, self.key >> 16 & 0xffff, self.key & 0xffff]
    }
}

impl Point for Branch {
    #[inline(always)]
    fn key(self) -> u64 {
        self.key
    }

    #[inline(always)]
    fn add(&mut self, other: Branch, large: &mut Option<Box<Large>>) {
        if self.taken == NEVER {
            self.taken = other.taken;
        } else if other.taken != NEVER {
            match self.taken.checked_add(other.taken) {
                Some(sum) if sum != NEVER => self.taken = sum,
                _ => Large::add_branch(large, self.numbers(), Some(other.taken as u64)),
            }
        }
    }
}

/// A line's checksum: in the text while its section is read, and among the held names once it is added.
#[derive(Clone, Copy)]
struct Check {
    line: u64,
    span: Span,
}

impl Point for Check {
    fn key(self) -> u64 {
        self.line
    }

    fn add(&mut self, _: Check, _: &mut Option<Box<Large>>) {}
}

/// The records of one kind in the section that is read: a cursor into those that are held, and the new ones.
struct Column<P> {
    held: Vec<P>,
    at: usize,
    fresh: Vec<P>,
    is_sorted: bool,
}

impl<P: Point> Column<P> {
    fn new() -> Column<P> {
        Column { held: Vec::new(), at: 0, fresh: Vec::new(), is_sorted: true }
    }

    #[inline(always)]
    fn put(&mut self, point: P, large: &mut Option<Box<Large>>) {
        if let Some(held) = self.held.get_mut(self.at) {
            if held.key() == point.key() {
                held.add(point, large);
                self.at += 1;
                return;
            }
            if held.key() < point.key() {
                return self.seek(point, large);
            }
        }
        self.put_fresh(point, large);
    }

    /// Moves the cursor forward to the point, or to where it would stand.
    #[inline(never)]
    fn seek(&mut self, point: P, large: &mut Option<Box<Large>>) {
        self.at = lower_bound(&self.held, self.at, point.key());
        match self.held.get_mut(self.at) {
            Some(held) if held.key() == point.key() => {
                held.add(point, large);
                self.at += 1;
            }
            _ => self.put_fresh(point, large),
        }
    }

    #[inline(always)]
    fn put_fresh(&mut self, point: P, large: &mut Option<Box<Large>>) {
        match self.fresh.last_mut() {
            Some(last) if last.key() == point.key() => return last.add(point, large),
            Some(last) => self.is_sorted &= last.key() < point.key(),
            None => {}
        }
        self.fresh.push(point);
    }

    /// Adds the new points to those that are held, and gives the list back; `settle` changes a point that stays.
    fn close(&mut self, large: &mut Option<Box<Large>>, mut settle: impl FnMut(&mut P)) -> Vec<P> {
        self.at = 0;
        let (mut held, fresh) = (mem::take(&mut self.held), &mut self.fresh);
        if !mem::replace(&mut self.is_sorted, true) {
            fresh.sort_unstable_by_key(|point| point.key());
            fresh.dedup_by(|later, point| {
                let is_same = later.key() == point.key();
                if is_same {
                    point.add(*later, large);
                }
                is_same
            });
        }
        if held.is_empty() {
            fresh.iter_mut().for_each(settle);
            if fresh.len() * mem::size_of::<P>() < 1 << 18 {
                held.extend_from_slice(fresh);
                fresh.clear();
                return held;
            }
            fresh.shrink_to_fit();
            return mem::take(fresh);
        }
        let mut at = 0;
        fresh.retain_mut(|point| {
            at = lower_bound(&held, at, point.key());
            match held.get_mut(at) {
                Some(held) if held.key() == point.key() => {
                    held.add(*point, large);
                    false
                }
                _ => {
                    settle(point);
                    true
                }
            }
        });
        if !fresh.is_empty() {
            // both lists merge from their ends
            let (mut rest, mut to) = (held.len(), held.len() + fresh.len());
            held.resize(to, fresh[0]);
            for point in fresh.drain(..).rev() {
                let from = held[..rest].partition_point(|held| held.key() < point.key());
                let moved = rest - from;
                held.copy_within(from..rest, to - moved);
                to -= moved + 1;
                held[to] = point;
                rest = from;
            }
        }
        held
    }
}

/// The first place, not before `from`, whose key isn't below this one. Near places are tried first.
fn lower_bound<P: Point>(points: &[P], from: usize, key: u64) -> usize {
    let (mut from, mut step) = (from, 1);
    while from + step <= points.len() && points[from + step - 1].key() < key {
        from += step;
        step *= 2;
    }
    let end = (from + step).min(points.len());
    from + points[from..end].partition_point(|point| point.key() < key)
}

/// A function of one section.
#[derive(Clone, Copy)]
#[repr(C, packed(4))]
struct Function {
    count: u128,
    start: u64,
    name: Span,
    section: u32,
    /// its place among its section's functions
    place: u32,
    /// the number of the section of a text that had a start line of it last
    seen: u32,
}

#[derive(Default)]
struct Section {
    file: u32,
    test: u32,
    lines: Vec<Line>,
    branches: Vec<Branch>,
    checks: Vec<Check>,
    functions: Vec<u32>,
    large: Option<Box<Large>>,
}

impl Section {
    fn is_empty(&self) -> bool {
        self.lines.is_empty() && self.branches.is_empty() && self.functions.is_empty() && self.large.is_none()
    }
}

#[derive(Default)]
struct Store {
    names: Names,
    files: Interned,
    tests: Interned,
    sections: Vec<Section>,
    section_ids: Ids,
    functions: Vec<Function>,
    function_ids: Ids,
    /// sections of texts that were opened
    opened: u32,
}

/// Room that every section uses in turn.
struct Room {
    lines: Column<Line>,
    branches: Column<Branch>,
    checks: Column<Check>,
    /// counts of functions whose start line may follow
    waiting: Vec<(Span, u64)>,
}

/// Where a text has its first bad line.
struct Bad(usize);

/// The bytes from one place in a text to another.
unsafe fn between<'a>(from: *const u8, to: *const u8) -> &'a [u8] {
    slice::from_raw_parts(from, to.offset_from(from) as usize)
}

impl Store {
    fn section(&mut self, file: &[u8], test: u32) -> usize {
        let file = self.files.id(file, &mut self.names);
        let hash = (file ^ test.rotate_left(16)).wrapping_mul(0x9e37_79b1);
        let hash = hash ^ hash >> 15;
        let sections = &self.sections;
        match self.section_ids.find(hash, |id| (sections[id as usize].file, sections[id as usize].test) == (file, test)) {
            Ok(id) => id as usize,
            Err(slot) => {
                self.section_ids.put(slot, hash, self.sections.len());
                self.sections.push(Section { file, test, ..Section::default() });
                self.sections.len() - 1
            }
        }
    }

    /// A section's function by its name; `guess` is where it may stand among the section's functions.
    #[inline]
    fn function(&mut self, section: usize, list: &[u32], guess: usize, name: &[u8]) -> Result<u32, (usize, u32)> {
        if let Some(&id) = list.get(guess) {
            if self.names.get(self.functions[id as usize].name) == name {
                return Ok(id);
            }
        }
        let hash = hash_of(name, section as u64 + 1);
        let (functions, names) = (&self.functions, &self.names);
        self.function_ids
            .find(hash, |id| {
                let function = functions[id as usize];
                function.section == section as u32 && names.get(function.name) == name
            })
            .map_err(|slot| (slot, hash))
    }

    fn add(&mut self, text: &Text, room: &mut Room) -> Result<(), Bad> {
        let (begin, length) = text.range();
        if length > LONGEST_TEXT {
            return Err(Bad(length));
        }
        let mut at = begin;
        let mut test = None;
        unsafe {
            let end = begin.add(length);
            while at < end {
                let feed = line_feed(at);
                let line = trimmed(between(at, feed));
                let next = feed.add(1);
                if let Some(name) = line.strip_prefix(b"TN:") {
                    test = Some(self.tests.id(name, &mut self.names));
                } else if let Some(path) = line.strip_prefix(b"SF:") {
                    if path.is_empty() {
                        return Err(Bad(at.offset_from(begin) as usize));
                    }
                    let test = test.unwrap_or_else(|| self.tests.id(b"", &mut self.names));
                    let section = self.section(path, test);
                    at = self.add_section(section, begin, next, end, room)?;
                    continue;
                } else if is_record(line) {
                    return Err(Bad(at.offset_from(begin) as usize));
                }
                at = next;
            }
        }
        Ok(())
    }

    /// Adds the section whose lines begin at `at`, and tells where the line after its `end_of_record` begins.
    unsafe fn add_section(&mut self, section: usize, begin: *const u8, mut at: *const u8, end: *const u8, room: &mut Room) -> Result<*const u8, Bad> {
        self.opened += 1;
        let seen = self.opened;
        let held = &mut self.sections[section];
        let Room { lines, branches, checks, waiting } = room;
        (lines.held, branches.held, checks.held) = (mem::take(&mut held.lines), mem::take(&mut held.branches), mem::take(&mut held.checks));
        let (mut large, mut list) = (held.large.take(), mem::take(&mut held.functions));
        let (mut next_start, mut next_count) = (0, 0);
        let span = |name: &[u8]| Span { at: name.as_ptr().offset_from(begin) as u32, len: name.len() as u32 };
        let named = |span: Span| slice::from_raw_parts(begin.add(span.at as usize), span.len as usize);
        while at < end {
            let head = word(at);
            // `DA:<line>,<count>` with few digits
            if head & 0xff_ffff == 0x3a_4144 {
                let (line, digits) = few_digits(at.add(3));
                let after = at.add(3 + digits);
                if digits.wrapping_sub(1) < 7 && *after == b',' {
                    let (count, digits) = few_digits(after.add(1));
                    let after = after.add(1 + digits);
                    if digits.wrapping_sub(1) < 7 && *after == b'\n' {
                        lines.put(Line::of(line, count), &mut large);
                        at = after.add(1);
                        continue;
                    }
                }
            } else if head & 0xff_ffff_ffff == 0x3a_4144_5242 {
                // `BRDA:<line>,<block>,<branch>,<taken>` with few digits
                if let Some((branch, next)) = small_branch(at.add(5)) {
                    branches.put(branch, &mut large);
                    at = next;
                    continue;
                }
            }
            let feed = line_feed(at);
            let line = trimmed(between(at, feed));
            let bad = Bad(at.offset_from(begin) as usize);
            at = feed.add(1);
            match line {
                [b'D', b'A', b':', rest @ ..] => {
                    let Some((line, rest)) = field(rest) else { return Err(bad) };
                    let Some((count, rest)) = count(rest) else { return Err(bad) };
                    match (u32::try_from(line), u32::try_from(count)) {
                        (Ok(line), Ok(count)) => lines.put(Line::of(line, count), &mut large),
                        _ => Large::add_line(&mut large, line, count),
                    }
                    if let [b',', checksum @ ..] = rest {
                        if !is_checksum(checksum) {
                            return Err(bad);
                        }
                        checks.put(Check { line, span: span(checksum) }, &mut large);
                    } else if !rest.is_empty() {
                        return Err(bad);
                    }
                }
                [b'B', b'R', b'D', b'A', b':', rest @ ..] => {
                    let Some((line, rest)) = field(rest) else { return Err(bad) };
                    let Some((block, rest)) = field(rest) else { return Err(bad) };
                    let Some((branch, rest)) = field(rest) else { return Err(bad) };
                    let taken = match number(rest) {
                        Some((taken, [])) => Some(taken),
                        _ if rest == b"-" => None,
                        _ => return Err(bad),
                    };
                    match (u32::try_from(line), u16::try_from(block), u16::try_from(branch), taken) {
                        (Ok(line), Ok(block), Ok(branch), None) => branches.put(Branch::of(line, block as u32, branch as u32, NEVER), &mut large),
                        (Ok(line), Ok(block), Ok(branch), Some(taken)) if taken < NEVER as u64 => {
                            branches.put(Branch::of(line, block as u32, branch as u32, taken as u32), &mut large)
                        }
                        _ => Large::add_branch(&mut large, [line, block, branch], taken),
                    }
                }
                [b'F', b'N', b':', rest @ ..] => {
                    let Some((start, name)) = field(rest) else { return Err(bad) };
                    if name.is_empty() {
                        return Err(bad);
                    }
                    match self.function(section, &list, next_start, name) {
                        Ok(id) => {
                            let function = &mut self.functions[id as usize];
                            function.start = { function.start }.min(start);
                            function.seen = seen;
                            next_start = function.place as usize + 1;
                        }
                        Err((slot, hash)) => {
                            let (id, place) = (self.functions.len(), list.len());
                            self.function_ids.put(slot, hash, id);
                            let name = self.names.put(name);
                            self.functions.push(Function { count: 0, start, name, section: section as u32, place: place as u32, seen });
                            list.push(id as u32);
                            next_start = place + 1;
                        }
                    }
                }
                [b'F', b'N', b'D', b'A', b':', rest @ ..] => {
                    let Some((calls, [b',', name @ ..])) = count(rest) else { return Err(bad) };
                    if name.is_empty() {
                        return Err(bad);
                    }
                    match self.function(section, &list, next_count, name) {
                        Ok(id) if self.functions[id as usize].seen == seen => {
                            let function = &mut self.functions[id as usize];
                            function.count += calls as u128;
                            next_count = function.place as usize + 1;
                        }
                        _ => waiting.push((span(name), calls)),
                    }
                }
                [b'e', ..] if line.starts_with(b"end_of_record") => {
                    // a count whose function has no start line in this section of the text says nothing
                    for (name, calls) in waiting.drain(..) {
                        if let Ok(id) = self.function(section, &list, next_count, named(name)) {
                            let function = &mut self.functions[id as usize];
                            if function.seen == seen {
                                function.count += calls as u128;
                            }
                            next_count = function.place as usize + 1;
                        }
                    }
                    let held = &mut self.sections[section];
                    held.lines = lines.close(&mut large, |_| {});
                    held.branches = branches.close(&mut large, |_| {});
                    held.checks = checks.close(&mut large, |check| check.span = self.names.put(named(check.span)));
                    (held.large, held.functions) = (large, list);
                    return Ok(at);
                }
                [b'T', b'N', b':', ..] | [b'S', b'F', b':', ..] => return Err(bad),
                _ if is_record(line) && !is_total(line) => return Err(bad),
                _ => {}
            }
        }
        Err(Bad(end.offset_from(begin) as usize))
    }
}

/// A branch after its key, where its numbers are small, and the beginning of the next line.
#[inline(always)]
unsafe fn small_branch(at: *const u8) -> Option<(Branch, *const u8)> {
    let (line, digits) = few_digits(at);
    let mut at = at.add(digits);
    if digits.wrapping_sub(1) >= 7 || *at != b',' {
        return None;
    }
    at = at.add(1);
    let (block, branch);
    (block, at) = small_field(at)?;
    (branch, at) = small_field(at)?;
    if *at == b'-' && *at.add(1) == b'\n' {
        return Some((Branch::of(line, block, branch, NEVER), at.add(2)));
    }
    let (taken, digits) = few_digits(at);
    at = at.add(digits);
    (digits.wrapping_sub(1) < 7 && *at == b'\n').then(|| (Branch::of(line, block, branch, taken), at.add(1)))
}

/// A number of at most four digits and the comma after it.
#[inline(always)]
unsafe fn small_field(at: *const u8) -> Option<(u32, *const u8)> {
    let first = (*at).wrapping_sub(b'0');
    if first < 10 && *at.add(1) == b',' {
        return Some((first as u32, at.add(2)));
    }
    let (value, digits) = few_digits(at);
    let after = at.add(digits);
    (digits.wrapping_sub(1) < 4 && *after == b',').then(|| (value, after.add(1)))
}

fn trimmed(mut line: &[u8]) -> &[u8] {
    while let [rest @ .., b'\r'] = line {
        line = rest;
    }
    line
}

const TOTALS: [&[u8]; 6] = [b"FNF:", b"FNH:", b"BRF:", b"BRH:", b"LF:", b"LH:"];

/// Whether a line has a key that only a section may have, whatever follows it.
fn is_record(line: &[u8]) -> bool {
    let keys: [&[u8]; 5] = [b"DA:", b"BRDA:", b"FN:", b"FNDA:", b"end_of_record"];
    matches!(line.first(), Some(b'D' | b'B' | b'F' | b'L' | b'e')) && keys.iter().chain(&TOTALS).any(|key| line.starts_with(key))
}

fn is_total(line: &[u8]) -> bool {
    TOTALS.iter().any(|key| line.strip_prefix(*key).is_some_and(|rest| number(rest).is_some_and(|(_, rest)| rest.is_empty())))
}

// ---- what is printed ----

/// The digits of 0 to 9999, without zeros before them and with.
struct Digits {
    plain: [[u8; 4]; 10_000],
    padded: [[u8; 4]; 10_000],
}

static DIGITS: Digits = Digits::new();

impl Digits {
    const fn new() -> Digits {
        let mut digits = Digits { plain: [[0; 4]; 10_000], padded: [[0; 4]; 10_000] };
        let mut value = 0;
        while value < 10_000 {
            let (length, mut rest, mut place) = (length_of(value as u64), value, 4);
            while place > 0 {
                place -= 1;
                digits.padded[value][place] = b'0' + (rest % 10) as u8;
                rest /= 10;
            }
            while place < length {
                digits.plain[value][place] = digits.padded[value][4 - length + place];
                place += 1;
            }
            value += 1;
        }
        digits
    }
}

#[inline(always)]
const fn length_of(value: u64) -> usize {
    1 + (value > 9) as usize + (value > 99) as usize + (value > 999) as usize
}

/// Standard output, by large writes. What is written between two calls of `room` is less than a kilobyte.
struct Output {
    bytes: Vec<u8>,
    used: usize,
}

const FULL: usize = 1 << 17;

impl Output {
    fn new() -> Output {
        Output { bytes: vec![0; FULL + 1024], used: 0 }
    }

    #[inline(always)]
    fn room(&mut self) -> io::Result<()> {
        if self.used >= FULL {
            self.flush()?;
        }
        Ok(())
    }

    #[inline(never)]
    fn flush(&mut self) -> io::Result<()> {
        let used = mem::replace(&mut self.used, 0);
        write_all(&self.bytes[..used])
    }

    #[inline(always)]
    fn put(&mut self, bytes: &[u8]) {
        debug_assert!(self.used + bytes.len() <= self.bytes.len());
        unsafe { ptr::copy_nonoverlapping(bytes.as_ptr(), self.bytes.as_mut_ptr().add(self.used), bytes.len()) };
        self.used += bytes.len();
    }

    #[inline(always)]
    fn number(&mut self, value: u64) {
        if value < 10_000 {
            let four = DIGITS.plain[value as usize];
            self.put(&four);
            self.used -= 4 - length_of(value);
        } else if value < 100_000_000 {
            let (high, low) = (value / 10_000, value % 10_000);
            let four = DIGITS.plain[high as usize];
            self.put(&four);
            self.used -= 4 - length_of(high);
            let four = DIGITS.padded[low as usize];
            self.put(&four);
        } else {
            self.large(value as u128);
        }
    }

    #[inline(never)]
    fn large(&mut self, value: u128) {
        let mut to = &mut self.bytes[self.used..];
        let room = to.len();
        write!(to, "{value}").expect("room for a number");
        self.used += room - to.len();
    }

    /// Bytes of any length, such as names.
    fn text(&mut self, bytes: &[u8]) -> io::Result<()> {
        if bytes.len() > 512 {
            self.flush()?;
            return write_all(bytes);
        }
        self.room()?;
        self.put(bytes);
        Ok(())
    }

    /// A line of a key and a number.
    fn total(&mut self, key: &[u8], value: usize) -> io::Result<()> {
        self.room()?;
        self.put(key);
        self.number(value as u64);
        self.put(b"\n");
        Ok(())
    }
}

/// `io::stdout` would look for line feeds in what it is given.
fn write_all(bytes: &[u8]) -> io::Result<()> {
    // it isn't closed here
    let mut output = mem::ManuallyDrop::new(unsafe { File::from_raw_fd(1) });
    output.write_all(bytes)
}

impl Store {
    /// The sections with something in them, by file and then by test.
    fn in_order(&self) -> Vec<u32> {
        let mut order: Vec<u32> = (0..self.sections.len() as u32).filter(|&place| !self.sections[place as usize].is_empty()).collect();
        order.sort_by(|&first, &second| {
            let (first, second) = (&self.sections[first as usize], &self.sections[second as usize]);
            let file = |section: &Section| self.names.get(self.files.spans[section.file as usize]);
            let test = |section: &Section| self.names.get(self.tests.spans[section.test as usize]);
            if first.file == second.file {
                test(first).cmp(test(second))
            } else {
                file(first).cmp(file(second))
            }
        });
        order
    }

    fn print(&self, out: &mut Output) -> io::Result<()> {
        let mut functions = Vec::new();
        for place in self.in_order() {
            let section = &self.sections[place as usize];
            out.text(b"TN:")?;
            out.text(self.names.get(self.tests.spans[section.test as usize]))?;
            out.text(b"\nSF:")?;
            out.text(self.names.get(self.files.spans[section.file as usize]))?;
            out.text(b"\n")?;
            functions.clear();
            functions.extend(section.functions.iter().map(|&id| (self.functions[id as usize].start, id)));
            self.print_functions(&mut functions, out)?;
            match &section.large {
                Some(large) if !large.branches.is_empty() => print_large_branches(section, large, out)?,
                _ => print_branches(&section.branches, out)?,
            }
            match &section.large {
                Some(large) if !large.lines.is_empty() => self.print_large_lines(section, large, out)?,
                _ => self.print_lines(section, out)?,
            }
            out.text(b"end_of_record\n")?;
        }
        out.flush()
    }

    /// Functions by their start lines and ids.
    fn print_functions(&self, functions: &mut [(u64, u32)], out: &mut Output) -> io::Result<()> {
        if functions.is_empty() {
            return Ok(());
        }
        let name = |id: u32| self.names.get(self.functions[id as usize].name);
        let order = |first: &(u64, u32), second: &(u64, u32)| first.0.cmp(&second.0).then_with(|| name(first.1).cmp(name(second.1)));
        if !functions.is_sorted_by(|first, second| order(first, second).is_lt()) {
            functions.sort_unstable_by(order);
        }
        for &(start, id) in &*functions {
            out.room()?;
            out.put(b"FN:");
            out.number(start);
            out.put(b",");
            out.text(name(id))?;
            out.put(b"\n");
        }
        let mut hit = 0;
        for &(_, id) in &*functions {
            let count = self.functions[id as usize].count;
            out.room()?;
            out.put(b"FNDA:");
            match u64::try_from(count) {
                Ok(count) => out.number(count),
                Err(_) => out.large(count),
            }
            out.put(b",");
            out.text(name(id))?;
            out.put(b"\n");
            hit += (count > 0) as usize;
        }
        out.total(b"FNF:", functions.len())?;
        out.total(b"FNH:", hit)
    }

    fn print_lines(&self, section: &Section, out: &mut Output) -> io::Result<()> {
        let (mut hit, mut checks) = (0, section.checks.iter().peekable());
        for line in &section.lines {
            out.room()?;
            out.put(b"DA:");
            out.number(line.key());
            out.put(b",");
            out.number(line.count() as u64);
            if let Some(check) = checks.next_if(|check| check.line == line.key()) {
                out.put(b",");
                out.text(self.names.get(check.span))?;
            }
            out.put(b"\n");
            hit += (line.count() > 0) as usize;
        }
        out.total(b"LF:", section.lines.len())?;
        out.total(b"LH:", hit)
    }

    fn print_large_lines(&self, section: &Section, large: &Large, out: &mut Output) -> io::Result<()> {
        let mut all = large.lines.clone();
        for line in &section.lines {
            *all.entry(line.key()).or_default() += line.count() as u128;
        }
        let mut checks = section.checks.iter().peekable();
        for (&line, &count) in &all {
            out.room()?;
            out.put(b"DA:");
            out.number(line);
            out.put(b",");
            out.large(count);
            if let Some(check) = checks.next_if(|check| check.line == line) {
                out.put(b",");
                out.text(self.names.get(check.span))?;
            }
            out.put(b"\n");
        }
        out.total(b"LF:", all.len())?;
        out.total(b"LH:", all.values().filter(|&&count| count > 0).count())
    }
}

fn print_branches(branches: &[Branch], out: &mut Output) -> io::Result<()> {
    if branches.is_empty() {
        return Ok(());
    }
    let mut hit = 0;
    for branch in branches {
        let [line, block, number] = branch.numbers();
        out.room()?;
        out.put(b"BRDA:");
        out.number(line);
        out.put(b",");
        out.number(block);
        out.put(b",");
        out.number(number);
        if branch.taken == NEVER {
            out.put(b",-\n");
        } else {
            out.put(b",");
            out.number(branch.taken as u64);
            out.put(b"\n");
            hit += (branch.taken > 0) as usize;
        }
    }
    out.total(b"BRF:", branches.len())?;
    out.total(b"BRH:", hit)
}

/// A section's branches where some have numbers that are large.
fn all_branches(section: &Section, large: &Large) -> BTreeMap<[u64; 3], Option<u128>> {
    let mut all = large.branches.clone();
    for branch in &section.branches {
        let held = all.entry(branch.numbers()).or_default();
        *held = sum(*held, (branch.taken != NEVER).then_some(branch.taken as u128));
    }
    all
}

fn print_large_branches(section: &Section, large: &Large, out: &mut Output) -> io::Result<()> {
    let all = all_branches(section, large);
    for ([line, block, number], taken) in &all {
        out.room()?;
        out.put(b"BRDA:");
        for part in [line, block, number] {
            out.number(*part);
            out.put(b",");
        }
        match taken {
            Some(taken) => out.large(*taken),
            None => out.put(b"-"),
        }
        out.put(b"\n");
    }
    out.total(b"BRF:", all.len())?;
    out.total(b"BRH:", all.values().filter(|taken| taken.is_some_and(|taken| taken > 0)).count())
}

// ---- the summary ----

impl Store {
    fn summary(&self) -> String {
        let order = self.in_order();
        let mut totals = [(0, 0); 3];
        let (mut lines, mut functions, mut branches) = (Vec::new(), Vec::new(), Vec::new());
        for file in order.chunk_by(|&first, &second| self.sections[first as usize].file == self.sections[second as usize].file) {
            for &place in file {
                let section = &self.sections[place as usize];
                lines.extend(section.lines.iter().map(|line| (line.key(), line.count() > 0)));
                functions.extend(section.functions.iter().map(|&id| {
                    let function = self.functions[id as usize];
                    (self.names.get(function.name), function.count > 0)
                }));
                branches.extend(section.branches.iter().map(|branch| (branch.numbers(), branch.taken != NEVER && branch.taken > 0)));
                if let Some(large) = &section.large {
                    lines.extend(large.lines.iter().map(|(&line, &count)| (line, count > 0)));
                    branches.extend(large.branches.iter().map(|(&key, taken)| (key, taken.is_some_and(|taken| taken > 0))));
                }
            }
            for (total, (found, hit)) in totals.iter_mut().zip([points(&mut lines), points(&mut functions), points(&mut branches)]) {
                *total = (total.0 + found, total.1 + hit);
            }
        }
        let [lines, functions, branches] = totals;
        format!(
            "Summary coverage rate:\n  lines......: {}\n  functions..: {}\n  branches...: {}\n",
            rate(lines, "line", "lines"),
            rate(functions, "function", "functions"),
            rate(branches, "branch", "branches")
        )
    }
}

/// How many different points there are, and how many of them are hit in some test. Empties the list.
fn points<K: Ord>(all: &mut Vec<(K, bool)>) -> (u128, u128) {
    if !all.is_sorted() {
        // the sections of several tests are runs in order, which this sort uses
        all.sort();
    }
    let told = all.chunk_by(|first, second| first.0 == second.0).fold((0, 0), |(found, hit), same| (found + 1, hit + same.iter().any(|point| point.1) as u128));
    all.clear();
    told
}

fn rate((found, hit): (u128, u128), one: &str, more: &str) -> String {
    if found == 0 {
        return String::from("no data found");
    }
    let tenths = (2000 * hit + found) / (2 * found);
    let tenths = tenths.min(if hit < found { 999 } else { 1000 }).max((hit > 0) as u128);
    format!("{}.{}% ({hit} of {found} {})", tenths / 10, tenths % 10, if found == 1 { one } else { more })
}

// ---- the program ----

fn main() -> ExitCode {
    let words: Vec<String> = env::args().collect();
    let (subcommand, files) = match &words[..] {
        [_, subcommand, files @ ..] if !files.is_empty() && matches!(&subcommand[..], "merge" | "summary") => (&subcommand[..], files),
        _ => {
            eprintln!("yardstick merge FILE.. | yardstick summary FILE..");
            return ExitCode::from(2);
        }
    };
    let mut store = Store::default();
    let mut room = Room { lines: Column::new(), branches: Column::new(), checks: Column::new(), waiting: Vec::new() };
    for name in files {
        let text = match Text::of(name) {
            Ok(text) => text,
            Err(fault) => {
                eprintln!("{name}: {fault}");
                return ExitCode::FAILURE;
            }
        };
        if let Err(Bad(at)) = store.add(&text, &mut room) {
            let (begin, length) = text.range();
            let before = unsafe { slice::from_raw_parts(begin, at.min(length)) };
            eprintln!("{name}: bad tracefile at line {}", before.iter().filter(|&&byte| byte == b'\n').count() + 1);
            return ExitCode::FAILURE;
        }
    }
    drop(room);
    let written = match subcommand {
        "summary" => write_all(store.summary().as_bytes()),
        _ => store.print(&mut Output::new()),
    };
    // what is held needn't be given back piece by piece
    mem::forget(store);
    match written {
        Ok(()) => ExitCode::SUCCESS,
        Err(fault) => {
            eprintln!("write: {fault}");
            ExitCode::FAILURE
        }
    }
}
