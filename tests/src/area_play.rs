//! Calls over an area played through a host, and every byte that comes back compared with the model.
//!
//!   Arena       a buffer with guard bytes before and behind it, and by how much it is unaligned
//!   Case        a call with both arenas as they are lent, and what is due
//!   Host        what plays calls: `Program`, which is tests/area_host.c over the static library, or `Wrong`, the model with a slip
//!   first_difference   the first case that a host answers otherwise, if there is one
//!   Difference  the case, and what was found; it is shown for a person
//!   Counts      what was compared: calls by number, and bytes; `missing` names what never came
//!
//! A host keeps nothing from call to call, so one call shows a difference by itself.

use crate::area::{answer, has_the_form, Call, Slip, ADDRESS, DONE, HEAD, WORD};
use crate::area::{length_of, MOST_ENTRIES};
use crate::draw::Draw;
use std::fmt;
use std::io::{Read, Write};
use std::process::{Command, Stdio};
use std::thread;

/// As many guard bytes, and the offset before the buffer more.
pub const GUARD: usize = 64;
/// Offsets from an address that 8 divides.
pub const OFFSETS: usize = 8;

/// A run of the host gets no more cases than these, and not many more bytes.
const MOST_CASES: usize = 4_000;
const MOST_BYTES: usize = 8 << 20;

#[derive(Clone, Debug, PartialEq, Eq)]
pub struct Arena {
    pub offset: usize,
    bytes: Vec<u8>,
}

impl Arena {
    /// A buffer of these bytes, with guard bytes that are drawn.
    pub fn new(buffer: &[u8], offset: usize, draw: &mut Draw) -> Arena {
        let (before, behind) = (drawn(GUARD + offset, draw), drawn(GUARD, draw));
        Arena { offset, bytes: [&before, buffer, &behind].concat() }
    }

    fn start(&self) -> usize {
        GUARD + self.offset
    }

    fn length(&self) -> usize {
        self.bytes.len() - self.start() - GUARD
    }

    pub fn buffer(&self) -> &[u8] {
        &self.bytes[self.start()..self.bytes.len() - GUARD]
    }

    fn buffer_mut(&mut self) -> &mut [u8] {
        let (start, end) = (self.start(), self.bytes.len() - GUARD);
        &mut self.bytes[start..end]
    }

    /// Where a byte of the arena lies, in words.
    fn place(&self, at: usize, name: &str) -> String {
        let (start, length) = (self.start(), self.length());
        if at < start {
            return format!("guard byte {} before the {name}", start - at);
        }
        match at - start {
            within if within < length => format!("byte {within} of the {name}"),
            past => format!("guard byte {} behind the {name}", past - length + 1),
        }
    }
}

/// So many bytes, drawn.
pub fn drawn(length: usize, draw: &mut Draw) -> Vec<u8> {
    let mut bytes: Vec<u8> = (0..length.div_ceil(WORD)).flat_map(|_| draw.word().to_le_bytes()).collect();
    bytes.truncate(length);
    bytes
}

/// The number of a call, and both arenas as it leaves them.
#[derive(Clone, Debug)]
struct Answer {
    number: u64,
    area: Arena,
    result: Arena,
}

impl Answer {
    fn bytes(&self) -> Vec<u8> {
        [&self.number.to_le_bytes(), &self.area.bytes[..], &self.result.bytes[..]].concat()
    }
}

#[derive(Clone, Debug)]
pub struct Case {
    pub call: Call,
    area: Arena,
    result: Arena,
    due: Answer,
}

/// What the model with a slip makes of a call.
fn answered(call: &Call, area: &Arena, result: &Arena, slip: Slip) -> Answer {
    let mut after = Answer { number: DONE, area: area.clone(), result: result.clone() };
    after.number = answer(call, after.area.buffer_mut(), after.result.buffer_mut(), slip);
    let (start, end) = (area.start(), area.bytes.len() - GUARD);
    match slip {
        Slip::GuardBefore if after.number == DONE => after.area.bytes[start - 1] ^= 1,
        Slip::GuardBehind if after.number == DONE => after.area.bytes[end] ^= 1,
        _ => {}
    }
    after
}

impl Case {
    pub fn new(call: Call, area: Arena, result: Arena) -> Case {
        let due = answered(&call, &area, &result, Slip::None);
        Case { call, area, result, due }
    }

    /// The area's bytes after the call, as they are due.
    pub fn left(&self) -> &[u8] {
        self.due.area.buffer()
    }

    /// The address that an accepted allocation is to put into the result.
    pub fn address(&self) -> Option<u64> {
        let bytes = self.due.result.buffer().get(..ADDRESS)?;
        let is_allocation = matches!(self.call, Call::Allocate { .. });
        (is_allocation && self.number() == DONE).then(|| u64::from_le_bytes(bytes.try_into().expect("8 bytes")))
    }

    pub fn number(&self) -> u64 {
        self.due.number
    }

    fn answer_length(&self) -> usize {
        WORD + self.area.bytes.len() + self.result.bytes.len()
    }

    /// The case as tests/area_host.c reads it.
    fn request(&self) -> Vec<u8> {
        let (call, words) = numbers_of(&self.call);
        let lent = [self.area.length(), self.area.offset, self.result.length(), self.result.offset].map(|number| number as u64);
        let head = [&[call], &words[..], &lent].concat();
        [&crate::area::bytes_of(&head), &self.area.bytes[..], &self.result.bytes[..]].concat()
    }
}

/// Which call, and its numbers; what it has not is 0.
fn numbers_of(call: &Call) -> (u64, [u64; 3]) {
    match *call {
        Call::Open { page, limit } => (0, [page, limit, 0]),
        Call::Allocate { code, size } => (1, [code, size, 0]),
        Call::Release { address, size } => (2, [address, size, 0]),
        Call::Extend { address, size, by } => (3, [address, size, by]),
        Call::Shorten { address, size, by } => (4, [address, size, by]),
    }
}

pub trait Host {
    /// The answers to these cases, one behind the other as far as they come, and how the host ended where they do not all come.
    fn answers(&self, cases: &[Case]) -> (Vec<u8>, String);
}

/// A command that speaks as tests/area_host.c does.
pub struct Program {
    pub command: Vec<String>,
}

impl Host for Program {
    fn answers(&self, cases: &[Case]) -> (Vec<u8>, String) {
        let (name, args) = self.command.split_first().expect("a command");
        let pipes = |command: &mut Command| command.stdin(Stdio::piped()).stdout(Stdio::piped()).spawn();
        let mut child = pipes(Command::new(name).args(args)).unwrap_or_else(|why| panic!("cannot start {name}: {why}"));
        let (mut input, mut output) = (child.stdin.take().expect("a pipe"), child.stdout.take().expect("a pipe"));
        let mut found = Vec::with_capacity(cases.iter().map(Case::answer_length).sum());
        thread::scope(|both| {
            // A host that ends early closes its input: what could not be written then has no answer, and that is seen. So are answers that
            // cannot be read.
            both.spawn(move || cases.iter().all(|case| input.write_all(&case.request()).is_ok()));
            let _ = output.read_to_end(&mut found);
        });
        let ended = child.wait().map_or_else(|why| why.to_string(), |status| status.to_string());
        (found, ended)
    }
}

/// The model with a slip in the place of the host.
pub struct Wrong(pub Slip);

impl Host for Wrong {
    fn answers(&self, cases: &[Case]) -> (Vec<u8>, String) {
        let answer = |case: &Case| answered(&case.call, &case.area, &case.result, self.0).bytes();
        (cases.iter().flat_map(answer).collect(), String::new())
    }
}

/// A case, and the answer that was found in the place of the one that is due, as far as it came.
pub struct Difference {
    pub case: Case,
    found: Vec<u8>,
    ended: String,
}

pub fn first_difference(host: &impl Host, cases: impl IntoIterator<Item = Case>, counts: &mut Counts) -> Option<Difference> {
    let mut cases = cases.into_iter();
    loop {
        let batch = next_batch(&mut cases);
        if batch.is_empty() {
            return None;
        }
        let difference = compare(host, batch, counts);
        if difference.is_some() {
            return difference;
        }
    }
}

fn next_batch(cases: &mut impl Iterator<Item = Case>) -> Vec<Case> {
    let mut bytes = 0;
    let mut batch = Vec::new();
    while batch.len() < MOST_CASES && bytes < MOST_BYTES {
        let Some(case) = cases.next() else { break };
        bytes += case.answer_length();
        batch.push(case);
    }
    batch
}

/// A host that ends within a batch may have kept answers to itself: the call that ended it is found by playing what is left one by one.
fn compare(host: &impl Host, batch: Vec<Case>, counts: &mut Counts) -> Option<Difference> {
    let (found, ended) = host.answers(&batch);
    let mut rest = &found[..];
    for (i, case) in batch.iter().enumerate() {
        let (this, behind) = rest.split_at(rest.len().min(case.answer_length()));
        if this.len() < case.answer_length() && batch.len() > 1 {
            let by_itself = batch[i..].iter().find_map(|case| compare(host, vec![case.clone()], &mut Counts::default()));
            return by_itself.or(Some(Difference { case: case.clone(), found: this.to_vec(), ended }));
        }
        if this != case.due.bytes() {
            return Some(Difference { case: case.clone(), found: this.to_vec(), ended });
        }
        counts.count(case);
        rest = behind;
    }
    None
}

impl fmt::Display for Call {
    fn fmt(&self, f: &mut fmt::Formatter) -> fmt::Result {
        match self {
            Call::Open { page, limit } => write!(f, "filespace_open: page {page}, limit {limit}"),
            Call::Allocate { code, size } => write!(f, "filespace_allocate: type {code}, size {size}"),
            Call::Release { address, size } => write!(f, "filespace_release: address {address}, size {size}"),
            Call::Extend { address, size, by } => write!(f, "filespace_extend: address {address}, size {size}, by {by}"),
            Call::Shorten { address, size, by } => write!(f, "filespace_shorten: address {address}, size {size}, by {by}"),
        }
    }
}

/// Bytes in hex, a word to a group, and the zeros at their end left out.
fn hex(bytes: &[u8]) -> String {
    let shown = bytes.iter().rposition(|byte| *byte != 0).map_or(0, |last| (last + 1).next_multiple_of(WORD).min(bytes.len()));
    let word = |bytes: &[u8]| bytes.iter().map(|byte| format!("{byte:02x}")).collect::<String>();
    let words: Vec<String> = bytes[..shown].chunks(WORD).map(word).collect();
    let zeros = if shown < bytes.len() { format!(" and {} bytes 0", bytes.len() - shown) } else { String::new() };
    format!("{}{zeros}", words.join(" "))
}

impl Difference {
    /// The first byte of the arenas that differs: where it lies, and what is there.
    fn first_byte(&self) -> Option<String> {
        let due = self.case.due.bytes();
        let at = (WORD..due.len()).find(|at| self.found.get(*at) != due.get(*at))?;
        let in_area = at - WORD < self.case.area.bytes.len();
        let place = if in_area {
            self.case.area.place(at - WORD, "area")
        } else {
            self.case.result.place(at - WORD - self.case.area.bytes.len(), "result")
        };
        Some(format!("{place}: expected {:02x}, found {:02x}", due[at], self.found[at]))
    }
}

impl fmt::Display for Difference {
    fn fmt(&self, f: &mut fmt::Formatter) -> fmt::Result {
        let Case { call, area, result, due } = &self.case;
        writeln!(f, "A difference, shown by this call:\n\n    {call}")?;
        writeln!(f, "    area of {} bytes at offset {}: {}", area.length(), area.offset, hex(area.buffer()))?;
        writeln!(f, "    result of {} bytes at offset {}: {}\n", result.length(), result.offset, hex(result.buffer()))?;
        if self.found.len() < due.bytes().len() {
            return writeln!(f, "expected: {}\nfound:    no whole answer; the host ended by {}", due.number, self.ended);
        }
        let number = u64::from_le_bytes(self.found[..WORD].try_into().expect("8 bytes"));
        writeln!(f, "expected: {}\nfound:    {number}", due.number)?;
        writeln!(f, "{}", self.first_byte().unwrap_or("no byte of the arenas differs".to_string()))
    }
}

/// The calls with the refusals of each, in its order. Not here: 6 for release, which cannot come (docs/DECISIONS.md, 9).
pub const CALLS: [(&str, &[u64]); 5] = [
    ("open", &[1]),
    ("allocate", &[10, 2, 3, 4, 5, 6]),
    ("release", &[2, 13, 14, 15, 16]),
    ("extend", &[2, 4, 13, 14, 15, 16, 8, 5, 6]),
    ("shorten", &[2, 4, 13, 14, 15, 16, 9, 6]),
];
const LAST_NUMBER: usize = 16;

/// By a case.
type IsMet = fn(&Case) -> bool;

pub const SITUATIONS: [(&str, IsMet); 6] = [
    ("accepted on an unaligned area", |case| case.number() == DONE && case.area.offset > 0),
    ("accepted with all entries of 4 taken", |case| case.has_taken(4)),
    ("accepted with all entries of 1,024 taken", |case| case.has_taken(MOST_ENTRIES)),
    ("a length that no area has", |case| !has_the_form(case.area.length())),
    ("a result of exactly 8 bytes written", |case| case.address().is_some() && case.result.length() == ADDRESS),
    ("a longer result written", |case| case.address().is_some() && case.result.length() > ADDRESS),
];

impl Case {
    /// The call was accepted, and left an area with room for so many entries and as many entries.
    fn has_taken(&self, entries: usize) -> bool {
        let count = (entries as u64).to_le_bytes();
        self.number() == DONE && self.left().len() == length_of(entries) && self.left()[HEAD - WORD..HEAD] == count
    }
}

#[derive(Clone, Debug, Default)]
pub struct Counts {
    pub bytes: u64,
    of: [[u64; LAST_NUMBER + 1]; CALLS.len()],
    situations: [u64; SITUATIONS.len()],
}

impl Counts {
    fn count(&mut self, case: &Case) {
        let (call, _) = numbers_of(&case.call);
        self.bytes += case.answer_length() as u64;
        self.of[call as usize][case.number() as usize] += 1;
        for (count, (_, is_met)) in self.situations.iter_mut().zip(&SITUATIONS) {
            *count += u64::from(is_met(case));
        }
    }

    pub fn calls(&self) -> u64 {
        self.of.iter().flatten().sum()
    }

    /// A line for each call, with how often it was accepted and refused, and one for each situation.
    pub fn lines(&self) -> Vec<String> {
        let mut lines = vec![format!("{:<10}{:>9}   {}", "call", "accepted", "refused")];
        for ((name, refusals), of) in CALLS.iter().zip(&self.of) {
            let refused: Vec<String> = refusals.iter().map(|number| format!("{number}: {}", of[*number as usize])).collect();
            lines.push(format!("{name:<10}{:>9}   {}", of[DONE as usize], refused.join(", ")));
        }
        lines.extend(SITUATIONS.iter().zip(self.situations).map(|((name, _), count)| format!("{count:>19}   {name}")));
        lines
    }

    /// What never came.
    pub fn missing(&self) -> Vec<String> {
        let mut missing = Vec::new();
        for ((name, refusals), of) in CALLS.iter().zip(&self.of) {
            let never = [DONE].iter().chain(*refusals).filter(|number| of[**number as usize] == 0);
            missing.extend(never.map(|number| format!("{name} answered {number}")));
        }
        let never = SITUATIONS.iter().zip(self.situations).filter(|(_, count)| *count == 0);
        missing.extend(never.map(|((name, _), _)| name.to_string()));
        missing
    }
}
