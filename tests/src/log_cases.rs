//! Logs that a recorder writes, and every kind of damage in them.
//!
//!   sweeps       the same logs in every run: as recorded, with bytes, fields, blocks and counts changed, cut, and with the check's blind spots
//!   Random       random runs of calls, recorded, and changed in up to two places
//!   long_logs    logs whose block numbers pass 2^16
//!
//! Where it is said that the check is right, it was made right again after the change.

use crate::draw::Draw;
use crate::generate::{script_of, Sort};
use crate::log::{block_of, in_portions, log_of, recorded, set_check, sums, Record};
use crate::log::{BLOCK, CHECK, COUNT_AT, HEAD, MODULUS, MOST_RECORDS, NO_ADDRESS, RECORD};
use crate::log_judge::Verdict;
use crate::log_long::{write_long, Opening};
use crate::log_play::Case;
use crate::log_script::{call_of, calls_of};
use crate::model::{LARGEST_LIMIT, LARGEST_PAGE};

const RUN: &str = include_str!("../../examples/run.script");
/// Twenty-six calls.
const RULES: &str = include_str!("../../examples/rules.script");

/// Each refusal of a call on an open space, with each operation.
const REFUSALS: &str = "
    open 512 1024 4
    allocate 3 96
    allocate metadata 0
    allocate raw 1025
    allocate metadata 96
    allocate metadata 96
    allocate metadata 96
    allocate metadata 96
    extend 0 96 1
    shorten 0 96 96
    release 512 96
    extend 288 96 1
    shorten 1 96 1
    release 0 95
";

/// A refused opening, and calls of which each would be answered otherwise on an open space.
const NOT_OPEN: &str = "
    open 512 5120 3
    allocate raw 700
    allocate 7 0
    release 0 700
    extend 0 0 0
    shorten 0 700 1
    allocate metadata 18446744073709551615
    allocate raw 1
    release 0 1
    extend 0 1 1
    shorten 0 1 1
    release 18446744073709551615 1
    allocate raw 2
    allocate raw 3
";

fn records_of(script: &str) -> Vec<Record> {
    recorded(calls_of(script).expect("a script"))
}

/// A random run of exactly so many records. What no log can tell is left out of its script.
fn random_run(records: usize, draw: &mut Draw) -> Vec<Record> {
    let lines = script_of(Sort::Calls(2 * records as u64), draw);
    recorded(lines.iter().filter_map(|line| call_of(line).ok().flatten()).take(records))
}

/// The log with a change in one of its blocks, and that block's check right.
fn with_block(log: &[u8], block: usize, change: impl FnOnce(&mut [u8])) -> Vec<u8> {
    let mut log = log.to_vec();
    let bytes = &mut log[block * BLOCK..][..BLOCK];
    change(bytes);
    set_check(bytes);
    log
}

/// The log of records with one of them changed: each check is right.
fn with_record(records: &[Record], at: usize, change: impl FnOnce(&mut Record)) -> Vec<u8> {
    let mut records = records.to_vec();
    change(&mut records[at]);
    log_of(&records)
}

pub fn sweeps() -> impl Iterator<Item = Case> {
    let recorded = as_recorded().chain(openings()).chain(in_pieces());
    let changed = changed_bytes().chain(checked_bytes()).chain(blind_spots()).chain(stored_sums()).chain(fields()).chain(counts());
    let whole = cuts().chain(blocks()).chain(opens()).chain(few_records()).chain(both());
    recorded.chain(changed).chain(whole)
}

// As recorded.

/// The scripts, all types, and a run of each length from 1 to 61.
fn as_recorded() -> impl Iterator<Item = Case> {
    let scripts = [RUN, RULES, REFUSALS, NOT_OPEN].map(records_of);
    let types = recorded([Record::open(512, LARGEST_LIMIT, 1_024)].into_iter().chain((0..=u8::MAX).map(|code| Record::allocate(code, 1))));
    let run = random_run(61, &mut Draw::new(6));
    let lengths = (1..=61).map(move |length| run[..length].to_vec());
    let wide = wide_run(&mut Draw::new(5));
    let logs = scripts.into_iter().chain([types, wide]).chain(lengths);
    logs.map(|records| Case::new("as recorded", format!("{} records", records.len()), log_of(&records)))
}

/// A run with a table of many entries.
fn wide_run(draw: &mut Draw) -> Vec<Record> {
    recorded(script_of(Sort::WideTable, draw).iter().filter_map(|line| call_of(line).ok().flatten()))
}

/// C, P and M at their edges, each with calls behind the open; and with the other refusal recorded for the open.
fn openings() -> impl Iterator<Item = Case> {
    const MOST: u64 = u64::MAX;
    let entries = [0, 1, 3, 4, 5, 12, 1_023, 1_024, 1_025, 2_048, (1 << 8) + 1, (1 << 16) + 12, (1 << 32) + 12, (1 << 61) + 12, 1 << 63, MOST];
    let pages = [0, 1, 511, 512, 1_000, LARGEST_PAGE, LARGEST_PAGE + 1, MOST];
    let limits = |page: u64| [0, page.wrapping_sub(1), page, page.wrapping_add(1), LARGEST_LIMIT, LARGEST_LIMIT + 1, MOST];
    let of_entries = entries.into_iter().map(|entries| Record::open(512, 5_120, entries));
    let of_pages = pages.into_iter().flat_map(move |page| limits(page).map(|limit| Record::open(page, limit, 12)));
    of_entries.chain(of_pages).flat_map(|open| {
        let calls =
            [open, Record::allocate(2, 700), Record::allocate(0, 0), Record::release(0, 700), Record::extend(0, 0, 1), Record::shorten(9, 9, 9)];
        let (records, Record { size, change, address, .. }) = (recorded(calls), open);
        let other = with_record(&records, 0, |open| open.refusal = 1 - open.refusal);
        let shows = format!("page {size}, limit {change}, {address} entries");
        [Case::new("openings", shows.clone(), log_of(&records)), Case::new("openings", shows + ", the other refusal recorded", other)]
    })
}

/// A program may read less at a time than it asks for.
fn in_pieces() -> impl Iterator<Item = Case> {
    let logs = [log_of(&records_of(RUN)), log_of(&records_of(RULES)), log_of(&records_of(RULES))[..1_100].to_vec()];
    logs.into_iter().flat_map(|log| {
        let case = move |piece: usize| Case { piece: Some(piece), ..Case::new("in pieces", format!("of {piece} bytes"), log.clone()) };
        [1, 7, 40, 508, 511, 512, 513, 700].map(case)
    })
}

// Bytes.

/// Each byte changed, and the check as it was.
fn changed_bytes() -> impl Iterator<Item = Case> {
    let log = log_of(&records_of(RUN));
    (0..log.len()).flat_map(move |at| {
        let flips: &[u8] = if at < BLOCK { &[0x01, 0xff] } else { &[0x80] };
        let changed = |flip: &u8| [&log[..at], &[log[at] ^ flip], &log[at + 1..]].concat();
        flips.iter().map(|flip| Case::new("a byte changed", format!("byte {at} by {flip:#04x}"), changed(flip))).collect::<Vec<_>>()
    })
}

/// Each byte before the check changed, in a block with many operations, in one with many refusals, and in one with a single record.
fn checked_bytes() -> impl Iterator<Item = Case> {
    let places: [(&str, usize, &[u8]); 3] = [(RULES, 1, &[0x01, 0x82]), (REFUSALS, 0, &[0xff]), (RUN, 1, &[0x01])];
    places.into_iter().flat_map(|(script, block, flips)| {
        let log = log_of(&records_of(script));
        let changes = (0..CHECK).flat_map(|at| flips.iter().map(move |flip| (at, *flip)));
        changes.map(move |(at, flip)| {
            let changed = with_block(&log, block, |bytes| bytes[at] ^= flip);
            Case::new("a byte changed, the check right", format!("byte {at} of block {block} by {flip:#04x}"), changed)
        })
    })
}

/// Each word 0 changed to 65,535, and the other way round: the check stays the same, and is right.
pub fn blind_spots() -> impl Iterator<Item = Case> {
    [(RUN, 0), (RUN, 1), (REFUSALS, 0)].into_iter().flat_map(|(script, block)| {
        let log = log_of(&records_of(script));
        let words = (0..CHECK).step_by(2).filter_map(move |at| {
            let at = block * BLOCK + at;
            let to = match log[at..at + 2] {
                [0, 0] => [0xff; 2],
                [0xff, 0xff] => [0; 2],
                _ => return None,
            };
            Some((at, [&log[..at], &to, &log[at + 2..]].concat()))
        });
        words.map(|(at, log)| Case::new("a word 0 for 65,535, the check the same", format!("bytes {at} and {}", at + 1), log))
    })
}

/// Blocks whose a, b or both are 0, as recorded and with 65,535 stored in the place of a 0; and with a and b exchanged.
fn stored_sums() -> impl Iterator<Item = Case> {
    [(Some(0), None), (None, Some(0)), (Some(0), Some(0)), (Some(1), Some(0)), (Some(65_534), Some(65_534))].into_iter().flat_map(|(a, b)| {
        let log = tuned(a, b);
        let (due_a, due_b) = sums(&log, MODULUS);
        let with = move |a: u16, b: u16| [&log[..CHECK], &a.to_le_bytes(), &b.to_le_bytes()].concat();
        let stored = [(due_a, due_b), (due_a, 65_535), (65_535, due_b), (65_535, 65_535), (due_b, due_a), (due_a, 0), (0, due_b)];
        stored.map(|(a, b)| Case::new("stored sums", format!("{a} {b} for {due_a} {due_b}"), with(a, b)))
    })
}

/// A block with these sums where they are given. In an empty table releases are refused whatever they name, so that the words of names are free.
fn tuned(a: Option<u16>, b: Option<u16>) -> Vec<u8> {
    let log = log_of(&recorded([Record::open(512, 5_120, 12), Record::release(0, 1), Record::release(0, 1)]));
    let with = |first: u32, second: u32| {
        let mut log = log.clone();
        log[HEAD + RECORD + 8..][..2].copy_from_slice(&(first as u16).to_le_bytes());
        // This word stands 22 words further on: 22 and 65,535 have no common divisor, so that each b can be had with each a.
        log[HEAD + 2 * RECORD + 12..][..2].copy_from_slice(&(second as u16).to_le_bytes());
        set_check(&mut log);
        log
    };
    // The first word is tried, and the second makes a what it is to be.
    let logs = (0..MODULUS).map(|first| {
        let has_a = u32::from(sums(&with(first, 0), MODULUS).0);
        with(first, (MODULUS + a.map_or(has_a, u32::from) - has_a) % MODULUS)
    });
    logs.into_iter().find(|log| b.is_none_or(|b| b == sums(log, MODULUS).1)).expect("sums can be had")
}

// Fields.

/// Each field of each record of three logs changed.
fn fields() -> impl Iterator<Item = Case> {
    [RUN, REFUSALS, NOT_OPEN].into_iter().flat_map(|script| {
        let records = records_of(script);
        let places = (0..records.len()).flat_map(|at| changes_of(&records_of(script)[at]).into_iter().map(move |change| (at, change)));
        places.map(move |(at, (field, changed))| {
            let log = with_record(&records, at, |record| *record = changed);
            Case::new("a field changed, the check right", format!("{field} of record {at}"), log)
        })
    })
}

/// The record with one of its fields changed, in several ways.
fn changes_of(record: &Record) -> Vec<(&'static str, Record)> {
    let bytes = |byte: u8| [byte.wrapping_add(1), byte ^ 0x80, if byte == 0 { 7 } else { 0 }];
    let words = |word: u64| [word.wrapping_sub(1), word.wrapping_add(1 << 32), if word == NO_ADDRESS { 0 } else { NO_ADDRESS }];
    let operations = (0..=6).chain([0x81, 0xff]).filter(|operation| *operation != record.operation);
    let operations = operations.map(|operation| ("operation", Record { operation, ..*record }));
    let types = bytes(record.code).map(|code| ("type", Record { code, ..*record }));
    let refusals = bytes(record.refusal).map(|refusal| ("refusal", Record { refusal, ..*record }));
    let zeros = [0, 4].map(|at| ("zeros", Record { zeros: std::array::from_fn(|i| u8::from(i == at)), ..*record }));
    let addresses = words(record.address).map(|address| ("address", Record { address, ..*record }));
    let sizes = words(record.size).map(|size| ("size", Record { size, ..*record }));
    let changes = words(record.change).map(|change| ("change", Record { change, ..*record }));
    let answers = words(record.answer).map(|answer| ("answer", Record { answer, ..*record }));
    operations.chain(types).chain(refusals).chain(zeros).chain(addresses).chain(sizes).chain(changes).chain(answers).collect()
}

/// The count of the first, a middle and the last block; and refusal numbers, possible or not, of two accepted calls and of a refused one.
fn counts() -> impl Iterator<Item = Case> {
    let log = log_of(&records_of(RULES));
    let counts = (0..=15).chain([16, 127, 128, 254, 255]).flat_map(|count| (0..3).map(move |block| (count, block)));
    let counted = counts.map(move |(count, block)| {
        let changed = with_block(&log, block, |bytes| bytes[COUNT_AT] = count);
        Case::new("a count changed, the check right", format!("{count} in block {block}"), changed)
    });
    let records = records_of(RUN);
    let numbers = (0..=20).chain([127, 128, 255]).flat_map(|refusal| [1, 8, 9].map(|at| (refusal, at)));
    counted.chain(numbers.map(move |(refusal, at)| {
        let changed = with_record(&records, at, |record| record.refusal = refusal);
        Case::new("a refusal changed, the check right", format!("{refusal} in record {at}"), changed)
    }))
}

// Whole blocks.

/// Each length of the run's log, some more bytes behind it, and another log around the borders of its blocks; and a log without its first bytes.
fn cuts() -> impl Iterator<Item = Case> {
    let (run, rules) = (log_of(&records_of(RUN)), log_of(&records_of(RULES)));
    let ends: Vec<Vec<u8>> = (0..=run.len()).map(|length| run[..length].to_vec()).collect();
    let next = block_of(2, &[Record::release(0, 1)]);
    let behind: Vec<Vec<u8>> = [1, 2, 40, 255, 256, 508, 511, 512].map(|length| [&run, &next[..length]].concat()).into();
    let zeros = [1, 511, 512, 513, 1_024].map(|length| [&run[..], &vec![0; length]].concat());
    let borders = (500..=524).chain(1_010..=1_040).chain(1_500..=1_536).map(|length| rules[..length].to_vec()).collect::<Vec<_>>();
    let starts = [1, 8, 40, 511, 512, 513, 1_024].map(|length| rules[length..].to_vec());
    let logs = ends.into_iter().chain(behind).chain(zeros).chain(borders).chain(starts);
    logs.map(|log| Case::new("cut, or with bytes behind", format!("{} bytes", log.len()), log))
}

/// Five blocks, one of them lost, doubled, exchanged with another or put in the place of another, or out of another log; and the same with the
/// numbers made right again.
fn blocks() -> impl Iterator<Item = Case> {
    let mut draw = Draw::new(7);
    let (log, other) = (log_of(&random_run(57, &mut draw)), log_of(&random_run(60, &mut draw)));
    let parts: Vec<&[u8]> = log.chunks(BLOCK).collect();
    let mut orders: Vec<(String, Vec<&[u8]>)> = vec![("backwards".to_string(), parts.iter().rev().copied().collect())];
    for i in 0..parts.len() {
        orders.push((format!("block {i} lost"), [&parts[..i], &parts[i + 1..]].concat()));
        orders.push((format!("block {i} doubled"), [&parts[..=i], &parts[i..]].concat()));
        orders.push((format!("block {i} of another log"), [&parts[..i], &[&other[i * BLOCK..][..BLOCK]], &parts[i + 1..]].concat()));
        for j in (0..parts.len()).filter(|j| *j != i) {
            orders.push((format!("block {j} in the place of {i}"), [&parts[..i], &[parts[j]], &parts[i + 1..]].concat()));
            let mut exchanged = parts.clone();
            exchanged.swap(i, j);
            orders.push((format!("blocks {i} and {j} exchanged"), exchanged));
        }
    }
    let cases = orders.into_iter().flat_map(|(shows, blocks)| {
        let log = blocks.concat();
        let numbered = numbered(&log);
        [Case::new("blocks in another order", shows.clone(), log), Case::new("blocks in another order, the numbers right", shows, numbered)]
    });
    cases.collect::<Vec<_>>().into_iter()
}

/// The blocks with their places for numbers, and the checks right.
fn numbered(log: &[u8]) -> Vec<u8> {
    let mut log = log.to_vec();
    for (block, number) in log.chunks_exact_mut(BLOCK).zip(0u32..) {
        block[..COUNT_AT].copy_from_slice(&number.to_le_bytes());
        set_check(block);
    }
    log
}

/// A second open at each place, the first one's again or another; no open at all; and one that comes later.
fn opens() -> impl Iterator<Item = Case> {
    let records = records_of(RULES);
    let put = |at: usize, open: Record| [&records[..at], &[open], &records[at..]].concat();
    let again = (1..=records.len()).map(|at| (format!("again as record {at}"), put(at, records[0])));
    let refused =
        (1..=records.len()).map(|at| (format!("and a refused one as record {at}"), put(at, Record { refusal: 1, ..Record::open(0, 0, 0) })));
    let late = (1..records.len()).map(|at| (format!("as record {at} alone"), [&records[1..=at], &records[..1], &records[at + 1..]].concat()));
    let none = [("nowhere".to_string(), records[1..].to_vec()), ("nowhere".to_string(), records[1..2].to_vec())];
    let logs: Vec<_> = again.chain(refused).chain(late).chain(none).collect();
    logs.into_iter().map(|(shows, records)| Case::new("opens", shows, log_of(&records)))
}

/// Blocks of fewer than 12 records at each place, alone, before whole blocks, before short ones.
fn few_records() -> impl Iterator<Item = Case> {
    let records = random_run(60, &mut Draw::new(8));
    let tails = [0, 1, 511];
    (1..=MOST_RECORDS).flat_map(move |few| {
        let portions =
            [vec![few], vec![few, 12], vec![12, few], vec![12, few, 12], vec![12, few, few], vec![few, few, 12], vec![12, few, 12 - few.min(11), 12]];
        let logs: Vec<Vec<u8>> = portions.iter().map(|counts| in_portions(&records, counts)).collect();
        let cases = logs.iter().zip(&portions).flat_map(|(log, counts)| {
            let short =
                |tail: usize| Case::new("few records in a block", format!("{counts:?}, and {tail} bytes"), [&log[..], &vec![0; tail]].concat());
            tails.map(short)
        });
        cases.collect::<Vec<_>>()
    })
}

/// Damage of a block, some of it at a record, and whether the check is made right again.
type Damage = (fn(&mut [u8], usize), bool);

const DAMAGES: [Damage; 5] = [
    (|block, _| block[CHECK] ^= 1, false),
    (|block, _| block[3] = 1, true),
    (|block, record| block[HEAD + RECORD * record] = 9, true),
    (|block, record| block[HEAD + RECORD * record] = 9, false),
    (|block, record| block[HEAD + RECORD * record + 5] = 1, true),
];

fn damaged(log: &[u8], block: usize, record: usize, (damage, is_checked): Damage) -> Vec<u8> {
    let mut log = log.to_vec();
    let bytes = &mut log[block * BLOCK..][..BLOCK];
    damage(bytes, record);
    if is_checked {
        set_check(bytes);
    }
    log
}

/// A difference in one block and damage in one, for each pair of blocks, at the first and the last record; two differences; damage in two blocks.
fn both() -> impl Iterator<Item = Case> {
    const BLOCKS: usize = 4;
    const KIND: &str = "two things wrong";
    let log = log_of(&random_run(BLOCKS * MOST_RECORDS, &mut Draw::new(9)));
    let differ = |log: &[u8], block: usize, record: usize| with_block(log, block, |bytes| bytes[HEAD + RECORD * record + 2] ^= 0x40);
    let mut cases = Vec::new();
    for (i, j) in (0..BLOCKS).flat_map(|i| (0..BLOCKS).map(move |j| (i, j))) {
        for (first, second) in [(0, 11), (11, 0)] {
            let shows = |what: &str| format!("{what}, in record {first} of block {i} and in record {second} of block {j}");
            let differs = differ(&log, i, first);
            cases.push(Case::new(KIND, shows("two differences"), differ(&differs, j, second)));
            let with = |damage: Damage| Case::new(KIND, shows("a difference and damage"), damaged(&differs, j, second, damage));
            cases.extend(DAMAGES.map(with));
        }
        let twice = damaged(&damaged(&log, i, 3, DAMAGES[2]), j, 4, DAMAGES[4]);
        cases.push(Case::new(KIND, format!("damage in blocks {i} and {j}"), twice));
    }
    cases.into_iter()
}

// Random logs.

/// Random runs, recorded: some as they are, the others changed in one or two places.
pub struct Random {
    draw: Draw,
}

impl Random {
    pub fn new(seed: u64) -> Random {
        Random { draw: Draw::new(seed) }
    }

    /// Mostly few records, so that many logs are short; now and then exactly whole blocks.
    fn records(&mut self) -> Vec<Record> {
        let most = self.draw.pick(&[4, 12, 25, 49, 100]);
        let records = if self.draw.once_in(6) { 12 * (1 + self.draw.below(4)) } else { 1 + self.draw.below(most) };
        let mut records = random_run(records as usize, &mut self.draw);
        if self.draw.once_in(12) {
            records[0] = Record { address: self.draw.pick(&[0, 3, 4, 1_024, 1_025, u64::MAX]), ..records[0] };
            records = recorded(records);
        }
        records
    }

    /// A record with a field changed, so that the log is still in its form or not.
    fn change_a_record(&mut self, records: &mut [Record]) {
        let at = self.draw.below(records.len() as u64) as usize;
        let changes = changes_of(&records[at]);
        records[at] = changes[self.draw.below(changes.len() as u64) as usize].1;
    }

    /// The bytes with something wrong.
    fn damage(&mut self, log: &mut Vec<u8>) {
        let blocks = (log.len() / BLOCK) as u64;
        let at = self.draw.below(log.len().max(1) as u64) as usize;
        let block = self.draw.below(blocks.max(1)) as usize * BLOCK;
        match self.draw.below(7) {
            _ if blocks == 0 => log.push(0),
            0 => log[at] ^= 1 << self.draw.below(8),
            1 => log.truncate(at),
            2 => log.extend(vec![0; 1 + at % 600]),
            3 => drop(log.drain(block..block + BLOCK)),
            4 => log.extend_from_within(block..block + BLOCK),
            5 => log[block..][..BLOCK].swap(at % CHECK, (at + 40) % CHECK),
            _ => {
                log[block + at % CHECK] = self.draw.pick(&[0, 1, 2, 12, 0x80, 0xff]);
                set_check(&mut log[block..][..BLOCK]);
            }
        }
    }
}

impl Iterator for Random {
    type Item = Case;

    fn next(&mut self) -> Option<Case> {
        let mut records = self.records();
        let (changes, damages) = self.draw.pick(&[(0, 0), (1, 0), (1, 0), (2, 0), (0, 1), (1, 1), (0, 2)]);
        (0..changes).for_each(|_| self.change_a_record(&mut records));
        let mut log = log_of(&records);
        (0..damages).for_each(|_| self.damage(&mut log));
        let shows = format!("{} records, {changes} of them changed, and damage in {damages} places", records.len());
        Some(Case::new("random runs", shows, log))
    }
}

// Long logs.

/// A log of more than 2^16 blocks, the same with a difference in its last record, and with the last block's number cut to 2 bytes.
pub fn long_logs() -> impl Iterator<Item = Case> {
    const BLOCKS: u32 = (1 << 16) + 2;
    const KIND: &str = "more than 65,536 blocks";
    let mut log = Vec::new();
    let due = write_long(BLOCKS, 4, 1, Opening::Done, &mut log).expect("a log in memory");
    let last = BLOCKS as usize - 1;
    let with = move |due: Verdict, shows: &str, log: Vec<u8>| Case { kind: KIND, shows: shows.to_string(), log, due, piece: None };
    let differs = with_block(&log, last, |block| block[HEAD + RECORD * 11 + 2] ^= 0x40);
    let cut = with_block(&log, last, |block| block[2] = 0);
    let records = u64::from(BLOCKS) * MOST_RECORDS as u64;
    [
        with(due, "as recorded", log),
        with(Verdict::Differs(records - 1), "a difference in the last record", differs),
        with(Verdict::Damaged(last as u64), "the last block's number cut to 2 bytes", cut),
    ]
    .into_iter()
}
