//! Calls over an area: sweeps, and random runs.
//!
//!   documents_run   document 01's run over an area of 12 entries, with each answer, and with the bytes after steps 5 and 12 as they must be
//!   sweeps     lengths of area and result, the order of refusals, each byte of a sound area changed, the largest area full
//!   Runs       random scripts played over an area; each call gets the bytes that the one before left
//!
//! The sweeps are the same in every run but for the guard bytes.

use crate::area::{area_of, bytes_of, has_the_form, length_of, Call, ADDRESS, HEAD, LEAST_ENTRIES, MOST_ENTRIES, WORD};
use crate::area_play::{drawn, Arena, Case, OFFSETS};
use crate::draw::Draw;
use crate::generate::{script_of, Sort};
use crate::model::{table_of, Entry, State, DEFAULT_LIMIT, DEFAULT_PAGE, ENTRY_WORDS, FREE_LARGE, LARGEST_LIMIT, LARGEST_PAGE, LIVE_LARGE};
use crate::model::{METADATA, RAW};
use crate::script::MOST_ENTRIES as MOST_OF_A_SCRIPT;

/// A call with the bytes that are lent to it. What the result holds is drawn.
struct Plan {
    call: Call,
    area: Vec<u8>,
    offset: usize,
    result_length: usize,
    result_offset: usize,
}

impl Plan {
    fn case(self, draw: &mut Draw) -> Case {
        let result = drawn(self.result_length, draw);
        let area = Arena::new(&self.area, self.offset % OFFSETS, draw);
        Case::new(self.call, area, Arena::new(&result, self.result_offset % OFFSETS, draw))
    }
}

// Document 01's run.

/// Each call of the run with its number and, of an allocation, the address.
const RUN: [(Call, u64, Option<u64>); 13] = [
    (Call::Open { page: 512, limit: 5_120 }, 0, None),
    (Call::Allocate { code: METADATA, size: 96 }, 0, Some(0)),
    (Call::Allocate { code: RAW, size: 100 }, 0, Some(512)),
    (Call::Allocate { code: METADATA, size: 416 }, 0, Some(96)),
    (Call::Allocate { code: RAW, size: 700 }, 0, Some(1_024)),
    (Call::Allocate { code: METADATA, size: 10 }, 0, Some(2_048)),
    (Call::Release { address: 1_024, size: 700 }, 0, None),
    (Call::Allocate { code: RAW, size: 512 }, 0, Some(1_024)),
    (Call::Extend { address: 1_024, size: 512, by: 512 }, 0, None),
    (Call::Shorten { address: 1_024, size: 1_024, by: 600 }, 9, None),
    (Call::Shorten { address: 1_024, size: 1_024, by: 300 }, 0, None),
    (Call::Release { address: 2_048, size: 10 }, 0, None),
    (Call::Release { address: 1_024, size: 724 }, 0, None),
];
const STEP_5: usize = 5;

/// The bytes after step 5, a line for P, M, E and n and one for each entry; those behind them are 0.
const AFTER_STEP_5: [&str; 9] = [
    "0002000000000000 0014000000000000 000a000000000000 0800000000000000",
    "0000000000000000 6000000000000000 0100000000000000",
    "6000000000000000 a001000000000000 0100000000000000",
    "0002000000000000 6400000000000000 0200000000000000",
    "6402000000000000 9c01000000000000 0500000000000000",
    "0004000000000000 bc02000000000000 0300000000000000",
    "bc06000000000000 4401000000000000 0600000000000000",
    "0008000000000000 0a00000000000000 0100000000000000",
    "0a08000000000000 f601000000000000 0400000000000000",
];

/// The bytes after step 12, in the same way.
const AFTER_STEP_12: [&str; 5] = [
    "0002000000000000 0014000000000000 0004000000000000 0400000000000000",
    "0000000000000000 6000000000000000 0100000000000000",
    "6000000000000000 a001000000000000 0100000000000000",
    "0002000000000000 6400000000000000 0200000000000000",
    "6402000000000000 9c01000000000000 0500000000000000",
];

/// The bytes of lines of hex, and zeros behind them up to the length of an area of so many entries.
fn bytes_said(lines: &[&str], entries: usize) -> Vec<u8> {
    let digits: Vec<u8> = lines.concat().bytes().filter(|byte| *byte != b' ').collect();
    let byte = |two: &[u8]| u8::from_str_radix(std::str::from_utf8(two).expect("two digits"), 16).expect("two digits");
    let mut bytes: Vec<u8> = digits.chunks(2).map(byte).collect();
    bytes.resize(length_of(entries), 0);
    bytes
}

/// The run's cases, and whether what is due in them is what the document states.
pub fn documents_run() -> (Vec<Case>, bool) {
    const ENTRIES: usize = 12;
    let mut draw = Draw::new(0);
    let mut area = drawn(length_of(ENTRIES), &mut draw);
    let mut cases: Vec<Case> = Vec::new();
    for (i, (call, ..)) in RUN.into_iter().enumerate() {
        let case = Plan { call, area, offset: i, result_length: ADDRESS + i % 3, result_offset: i + 1 }.case(&mut draw);
        area = case.left().to_vec();
        cases.push(case);
    }
    let answers_hold = RUN.iter().zip(&cases).all(|((_, number, address), case)| (case.number(), case.address()) == (*number, *address));
    let bytes_hold = cases[STEP_5].left() == bytes_said(&AFTER_STEP_5, ENTRIES) && area == bytes_said(&AFTER_STEP_12, ENTRIES);
    (cases, answers_hold && bytes_hold)
}

// Sweeps.

/// Calls that the area after step 12 accepts, even with no room for another entry.
const SENSIBLE: [Call; 5] = [
    Call::Open { page: 512, limit: 5_120 },
    Call::Allocate { code: RAW, size: 412 },
    Call::Release { address: 512, size: 100 },
    Call::Extend { address: 512, size: 100, by: 411 },
    Call::Shorten { address: 512, size: 100, by: 99 },
];

pub fn sweeps(seed: u64) -> impl Iterator<Item = Case> {
    let mut draw = Draw::new(seed);
    let plans = lengths().chain(orders()).chain(changed_bytes()).chain(largest_full());
    plans.map(move |plan| plan.case(&mut draw))
}

/// The area after step 12, cut, or with zeros behind it, to this length: sound where the length has the form, and full with 4 entries.
fn sound(length: usize) -> Vec<u8> {
    let mut area = bytes_said(&AFTER_STEP_12, LEAST_ENTRIES);
    area.resize(length, 0);
    area
}

/// What an area of this length is filled with: zeros, drawn bytes, the bytes of a sound area, and the same with drawn bytes behind them.
fn fills(length: usize) -> [Vec<u8>; 4] {
    let any = drawn(length, &mut Draw::new(length as u64));
    let whole = length.min(length_of(LEAST_ENTRIES));
    [vec![0; length], any.clone(), sound(length), [&sound(whole), &any[whole..]].concat()]
}

/// Each length of the area up to 200 and around the largest. Small areas, and those whose length has the form, are lent at each offset, the others
/// at one.
fn lengths() -> impl Iterator<Item = Plan> {
    const SMALL: usize = 200;
    let largest = length_of(MOST_ENTRIES);
    let areas = (0..=SMALL).chain(largest - 30..largest + 30).flat_map(fills).enumerate();
    areas.flat_map(|(i, area)| {
        let offsets = if area.len() <= SMALL || has_the_form(area.len()) { 0..OFFSETS } else { i..i + 1 };
        offsets.flat_map(move |offset| each_result(&area, offset))
    })
}

/// The five calls, the allocation with each length of the result up to 10.
fn each_result(area: &[u8], offset: usize) -> Vec<Plan> {
    let plan = |call: Call, result_length: usize| {
        let result_offset = offset + result_length + area.len();
        Plan { call, area: area.to_vec(), offset, result_length, result_offset }
    };
    let with_result = |call: Call| match call {
        Call::Allocate { .. } => (0..=10).map(|length| plan(call, length)).collect(),
        _ => vec![plan(call, offset % OFFSETS)],
    };
    SENSIBLE.into_iter().flat_map(with_result).collect()
}

/// Several things wrong at once, so that their order shows.
fn orders() -> impl Iterator<Item = Plan> {
    let (least, largest) = (length_of(LEAST_ENTRIES), length_of(MOST_ENTRIES));
    let lengths = [0, 1, HEAD - 1, HEAD, length_of(3), least - 1, least, least + 1, largest + 1, length_of(MOST_ENTRIES + 1)];
    let areas = lengths.into_iter().flat_map(|length| [sound(length), more_entries(length)]);
    areas.flat_map(|area| {
        let calls = wrong_calls().into_iter().flat_map(|call| results_for(&call).iter().map(move |length| (call, *length)));
        let plans = calls.enumerate();
        plans.map(move |(i, (call, result_length))| Plan { call, area: area.clone(), offset: i, result_length, result_offset: i / OFFSETS })
    })
}

/// Only an allocation looks at the result.
fn results_for(call: &Call) -> &'static [usize] {
    if matches!(call, Call::Allocate { .. }) { &[0, 7, 8, 9, 10] } else { &[ADDRESS] }
}

/// The sound area's bytes of this length with an entry more than it has, so that it is not sound.
fn more_entries(length: usize) -> Vec<u8> {
    let mut area = sound(length);
    area.iter_mut().skip(HEAD - WORD).take(1).for_each(|byte| *byte += 1);
    area
}

/// Each call with good numbers and with wrong ones.
fn wrong_calls() -> Vec<Call> {
    const MOST: u64 = u64::MAX;
    let pages = [0, 511, 512, 1_000, LARGEST_PAGE, LARGEST_PAGE + 1, MOST];
    let limits = |page: u64| [0, page.wrapping_sub(1), page, page.wrapping_add(1), LARGEST_LIMIT, LARGEST_LIMIT + 1, MOST];
    let opens = pages.into_iter().flat_map(move |page| limits(page).map(|limit| Call::Open { page, limit }));
    let sizes = [0, 1, 412, 413, 5_121, MOST];
    let allocates = [0, METADATA, RAW, 3, MOST].into_iter().flat_map(|code| sizes.map(|size| Call::Allocate { code, size }));
    let names = [(0, 96), (512, 100), (0, 0), (0, 95), (1, 95), (612, 412), (1_024, 1), (MOST, MOST)];
    let changes = [0, 1, 96, 412, MOST];
    let releases = names.map(|(address, size)| Call::Release { address, size });
    let extends = names.into_iter().flat_map(|(address, size)| changes.map(|by| Call::Extend { address, size, by }));
    let shortens = names.into_iter().flat_map(|(address, size)| changes.map(|by| Call::Shorten { address, size, by }));
    opens.chain(allocates).chain(releases).chain(extends).chain(shortens).collect()
}

/// Two sound areas, one of them full, with each byte changed in turn, in several ways.
fn changed_bytes() -> impl Iterator<Item = Plan> {
    let areas = [bytes_said(&AFTER_STEP_5, 12), sound(length_of(LEAST_ENTRIES))];
    areas.into_iter().flat_map(|area| (0..area.len()).flat_map(move |at| each_change(&area, at)))
}

fn each_change(area: &[u8], at: usize) -> Vec<Plan> {
    let byte = area[at];
    let mut changes = vec![byte ^ 1, byte ^ 2, byte ^ 0x80, !byte, byte.wrapping_add(1), byte.wrapping_sub(1), 0, 1, 3, 6, 7, u8::MAX];
    changes.sort();
    changes.dedup();
    let changed = |to: u8| [&area[..at], &[to], &area[at + 1..]].concat();
    let plan = |to: u8, call: Call| Plan { call, area: changed(to), offset: at + usize::from(to), result_length: ADDRESS, result_offset: at };
    changes.into_iter().flat_map(|to| SENSIBLE.map(|call| plan(to, call))).collect()
}

/// The largest area with all entries taken, live and free ones of a page each: entries at its edges and in its middle are named, and pieces
/// are placed.
fn largest_full() -> impl Iterator<Item = Plan> {
    const PAGE: u64 = 512;
    let count = MOST_ENTRIES as u64;
    let kind = |i: u64| if i % 3 == 1 { FREE_LARGE } else { LIVE_LARGE };
    let entries: Vec<Entry> = (0..count).map(|i| Entry { address: i * PAGE, size: PAGE, kind: kind(i) }).collect();
    let state = State { page: PAGE, limit: LARGEST_LIMIT, end: count * PAGE, count };
    let area = area_of(&state, &table_of(&entries, MOST_ENTRIES * ENTRY_WORDS));
    let edges = [0, 1, 2, 3, 4, 510, 511, 512, 513, count - 3, count - 2, count - 1, count];
    let named = edges.into_iter().flat_map(|i| {
        let (address, size) = (i * PAGE, PAGE);
        [Call::Release { address, size }, Call::Extend { address, size, by: size }, Call::Shorten { address, size, by: size }]
    });
    let placed = [1, PAGE, PAGE + 1, PAGE * count].map(|size| Call::Allocate { code: RAW, size });
    let calls: Vec<Call> = named.chain(placed).collect();
    calls.into_iter().enumerate().map(move |(i, call)| Plan { call, area: area.clone(), offset: i, result_length: ADDRESS, result_offset: i })
}

// Random runs.

/// Random scripts (generate.rs) over an area. A script's lines that set a state or words set the area's bytes. Now and then a call is first
/// tried with a byte changed, another length, or too short a result. A call that the script knows to be refused for its summary, which no area
/// has, may be accepted: the script then knows less of the area, until it sets words anew.
pub struct Runs {
    draw: Draw,
    lines: Vec<String>,
    area: Vec<u8>,
}

impl Runs {
    pub fn new(seed: u64) -> Runs {
        Runs { draw: Draw::new(seed), lines: Vec::new(), area: Vec::new() }
    }

    /// Mostly calls on a space; the model takes long over wide tables, so they are few.
    fn next_script(&mut self) {
        let sort = match self.draw.below(600) {
            0 => Sort::WideTable,
            1..=12 => Sort::Openings,
            _ => Sort::Space,
        };
        self.lines = script_of(sort, &mut self.draw);
        self.lines.reverse();
    }

    /// The call of a line; a line that sets bytes sets them, and is no call.
    fn call_of(&mut self, line: &str) -> Option<Call> {
        let mut words = line.split_ascii_whitespace();
        let said = words.next()?;
        let numbers: Vec<u64> = words.map(number).collect::<Option<_>>()?;
        match (said, &numbers[..]) {
            ("open", &[page, limit, entries]) => self.opened(page, limit, entries),
            ("default", &[entries]) => self.opened(DEFAULT_PAGE, DEFAULT_LIMIT, entries),
            ("allocate", &[code, size]) => Some(Call::Allocate { code, size }),
            ("release", &[address, size]) => Some(Call::Release { address, size }),
            ("extend", &[address, size, by]) => Some(Call::Extend { address, size, by }),
            ("shorten", &[address, size, by]) => Some(Call::Shorten { address, size, by }),
            ("state", state) => self.set(bytes_of(state), self.area[HEAD..].to_vec()),
            ("words", table) => self.set(self.area[..HEAD].to_vec(), bytes_of(table)),
            _ => None,
        }
    }

    /// An opening gets an area of any bytes, now and then the largest one.
    fn opened(&mut self, page: u64, limit: u64, entries: u64) -> Option<Call> {
        let entries = usize::try_from(entries).ok().filter(|_| entries <= MOST_OF_A_SCRIPT)?;
        let entries = if self.draw.once_in(40) { MOST_ENTRIES } else { entries };
        self.area = drawn(length_of(entries), &mut self.draw);
        Some(Call::Open { page, limit })
    }

    fn set(&mut self, head: Vec<u8>, table: Vec<u8>) -> Option<Call> {
        self.area = [head, table].concat();
        None
    }

    /// The area with something wrong: a byte changed, or another length.
    fn damaged(&mut self) -> Vec<u8> {
        let mut area = self.area.clone();
        let length = area.len() as u64;
        match self.draw.below(3) {
            0 => area.truncate(self.draw.below(length) as usize),
            1 => area.extend(drawn(1 + self.draw.below(30) as usize, &mut Draw::new(length))),
            _ => {
                // Bytes of the head and of the first entries matter most.
                let below = self.draw.pick(&[HEAD as u64, length_of(LEAST_ENTRIES) as u64, length]).min(length);
                area[self.draw.below(below) as usize] ^= 1 << self.draw.below(8);
            }
        }
        area
    }

    fn with_a_short_result(&mut self, call: Call) -> Case {
        let short = self.draw.below(ADDRESS as u64) as usize;
        self.case(call, self.area.clone(), short)
    }

    fn on_a_damaged_area(&mut self, call: Call) -> Case {
        let damaged = self.damaged();
        self.case(call, damaged, ADDRESS)
    }

    /// A call with an area, at any offsets; so many bytes are lent for the result.
    fn case(&mut self, call: Call, area: Vec<u8>, result_length: usize) -> Case {
        let (offset, result_offset) = (self.draw.below(8) as usize, self.draw.below(8) as usize);
        Plan { call, area, offset, result_length, result_offset }.case(&mut self.draw)
    }
}

/// A number of a script, or a type's name.
fn number(word: &str) -> Option<u64> {
    match word {
        "metadata" => Some(METADATA),
        "raw" => Some(RAW),
        _ => word.parse().ok(),
    }
}

impl Iterator for Runs {
    type Item = Case;

    fn next(&mut self) -> Option<Case> {
        loop {
            let Some(line) = self.lines.pop() else {
                self.next_script();
                continue;
            };
            let Some(call) = self.call_of(&line) else { continue };
            let tried = self.draw.below(40);
            if tried < 3 {
                self.lines.push(line);
                return Some(if tried == 0 { self.with_a_short_result(call) } else { self.on_a_damaged_area(call) });
            }
            let result_length = ADDRESS + self.draw.below(3) as usize;
            let case = self.case(call, self.area.clone(), result_length);
            self.area = case.left().to_vec();
            return Some(case);
        }
    }
}

#[cfg(test)]
mod tests {
    #[test]
    fn the_model_leaves_the_bytes_that_document_01_states() {
        assert!(super::documents_run().1);
    }
}
