//! Request E6's judgement of any bytes, read literally: each rule stands beside the sentence that decides it.
//!
//!   Verdict        `agrees R E`, `differs R` or `damaged B`
//!   judged         what is to be said of these bytes
//!   BLOCK_RULES    the rules of a block of 512 bytes at a place of the log, each with the words for one that breaks it
//!   RECORD_RULES   the rules of a record that is used, in the same way
//!   broken         the first rule that a block breaks, in words
//!   Slip           an error in the judgement, or a rule left out; `Slip::None` is the judgement
//!
//! Written from the request's words, as issue 18 decides their corners; the crates that replay a log were not read. Not here: the layout and what a
//! call answers (log.rs).

use crate::log::{sums, Record, Recorder, BLOCK, CHECK, COUNT_AT, HEAD, MODULUS, MOST_RECORDS, RECORD, RECORDS_END};
use crate::log::{ALLOCATE, NO_ADDRESS, OPEN, RELEASE, SHORTEN};
use std::fmt;

/// "Output is one line".
#[derive(Clone, Copy, Debug, PartialEq, Eq)]
pub enum Verdict {
    Agrees { records: u64, end: u64 },
    Differs(u64),
    Damaged(u64),
}

impl fmt::Display for Verdict {
    fn fmt(&self, f: &mut fmt::Formatter) -> fmt::Result {
        match self {
            Verdict::Agrees { records, end } => write!(f, "agrees {records} {end}"),
            Verdict::Differs(record) => write!(f, "differs {record}"),
            Verdict::Damaged(block) => write!(f, "damaged {block}"),
        }
    }
}

/// Where a block stands: how many are before it, and whether nothing is behind it, "a short one counted".
#[derive(Clone, Copy, Debug)]
pub struct Place {
    pub index: usize,
    pub is_last: bool,
}

/// The 512 bytes of a block, whatever they are.
#[derive(Clone, Copy, Debug)]
pub struct Block<'b>(pub &'b [u8]);

impl Block<'_> {
    pub fn number(&self) -> u32 {
        u32::from_le_bytes(self.0[..COUNT_AT].try_into().expect("4 bytes"))
    }

    pub fn count(&self) -> usize {
        usize::from(self.0[COUNT_AT])
    }

    /// The twelve records, used or not.
    fn records(&self) -> impl Iterator<Item = Record> + '_ {
        self.0[HEAD..RECORDS_END].chunks_exact(RECORD).map(Record::of_bytes)
    }

    /// The records that the count says are used; there are no more than twelve.
    pub fn used(&self) -> impl Iterator<Item = Record> + '_ {
        self.records().take(self.count())
    }

    /// The stored a and b.
    pub fn check(&self) -> (u16, u16) {
        let word = |at: usize| u16::from_le_bytes([self.0[at], self.0[at + 1]]);
        (word(CHECK), word(CHECK + 2))
    }
}

/// What is said of a block that breaks the rule, and whether one keeps it.
pub type BlockRule = (&'static str, fn(&Block, Place) -> bool);

pub const SHORT: &str = "it has fewer than 512 bytes";
const OTHER_NUMBER: &str = "its number is not its place in the log";
const OTHER_A: &str = "the check's a is not the sum";
const OTHER_B: &str = "the check's b is not the sum";

/// Of a block with all its bytes. A count above 12 uses all records.
pub const BLOCK_RULES: [BlockRule; 8] = [
    // "number from 0 (4 bytes)"
    (OTHER_NUMBER, |block, place| u64::from(block.number()) == place.index as u64),
    // "record count 1 to 12 (1 byte)"
    ("its record count is not 1 to 12", |block, _| (1..=MOST_RECORDS).contains(&block.count())),
    // "3 zero bytes"
    ("a byte behind the count is not zero", |block, _| is_zero(&block.0[COUNT_AT + 1..HEAD])),
    // "Every block but the last, a short one counted, has 12 records; one with fewer is itself bad."
    ("it has fewer than 12 records, and is not the last block", |block, place| place.is_last || block.count() >= MOST_RECORDS),
    // "Unused .. records are zero"
    ("a record behind the count is not zero", |block, _| block.records().skip(block.count()).all(|record| record == Record::default())),
    // "zeros to byte 507"
    ("a byte between the records and the check is not zero", |block, _| is_zero(&block.0[RECORDS_END..CHECK])),
    // "a is their sum .. modulo 65,535 from 0": so 65,535 itself is none.
    (OTHER_A, |block, _| block.check().0 == sums(block.0, MODULUS).0),
    // "b the sum of a's successive values"
    (OTHER_B, |block, _| block.check().1 == sums(block.0, MODULUS).1),
];

/// What is said of a record that breaks the rule, and whether one keeps it, with its number in the log.
pub type RecordRule = (&'static str, fn(&Record, usize) -> bool);

pub const RECORD_RULES: [RecordRule; 8] = [
    // "operation (0 open, 1 allocate, 2 release, 3 extend, 4 shorten)"
    ("no operation has this number", |record, _| record.operation <= SHORTEN),
    // "5 zero bytes"
    ("a byte behind the refusal is not zero", |record, _| is_zero(&record.zeros)),
    // "Unused fields .. are zero": the type of all but an allocation, its address, and the change of what changes no size.
    ("a type, and no allocation", |record, _| record.code == 0 || record.operation == ALLOCATE),
    ("an address in an allocation", |record, _| record.address == 0 || record.operation != ALLOCATE),
    ("a change in an allocation or a release", |record, _| record.change == 0 || ![ALLOCATE, RELEASE].contains(&record.operation)),
    // "recorded answer is allocate's address answer .. and 0 otherwise". What is recorded for an allocation is compared.
    ("an answer, and no allocation", |record, _| record.answer == 0 || record.operation == ALLOCATE),
    // Open "is the first record and occurs once".
    ("the first record is no open", |record, number| record.operation == OPEN || number != 0),
    ("an open that is not the first record", |record, number| record.operation != OPEN || number == 0),
];

fn is_zero(bytes: &[u8]) -> bool {
    bytes.iter().all(|byte| *byte == 0)
}

/// Errors to see that the tests find each.
#[derive(Clone, Copy, Debug, Default, PartialEq, Eq)]
pub enum Slip {
    #[default]
    None,
    /// The rule with these words is not looked at.
    Without(&'static str),
    /// The rule of a record is not looked at where the record has this operation.
    WithoutFor(&'static str, u8),
    SumsModulo65536,
    ZeroAnd65535AreOne,
    BigEndianNumber,
    EmptyLogAgrees,
    ShortBlockNotCounted,
    UnknownTypeIsDamage,
    ImpossibleRefusalIsDamage,
    AddressOfARefusalIsDamage,
    DamageBeforeAnEarlierDifference,
    DifferencePastADamagedBlock,
    DifferenceBeforeDamageInOneBlock,
    DifferenceCountedInItsBlock,
    RefusalNotCompared,
    AnswerNotCompared,
    RefusedAllocationAnswersZero,
    EntriesCutTo32Bits,
    CallsAfterARefusedOpenPlayed,
}

pub fn slips() -> Vec<Slip> {
    let left_out = BLOCK_RULES.iter().map(|rule| rule.0).chain(RECORD_RULES.iter().map(|rule| rule.0)).chain([SHORT]);
    let for_one = (OPEN..=SHORTEN).flat_map(breakable);
    let others = [
        Slip::SumsModulo65536,
        Slip::ZeroAnd65535AreOne,
        Slip::BigEndianNumber,
        Slip::EmptyLogAgrees,
        Slip::ShortBlockNotCounted,
        Slip::UnknownTypeIsDamage,
        Slip::ImpossibleRefusalIsDamage,
        Slip::AddressOfARefusalIsDamage,
        Slip::DamageBeforeAnEarlierDifference,
        Slip::DifferencePastADamagedBlock,
        Slip::DifferenceBeforeDamageInOneBlock,
        Slip::DifferenceCountedInItsBlock,
        Slip::RefusalNotCompared,
        Slip::AnswerNotCompared,
        Slip::RefusedAllocationAnswersZero,
        Slip::EntriesCutTo32Bits,
        Slip::CallsAfterARefusedOpenPlayed,
    ];
    left_out.map(Slip::Without).chain(for_one).chain(others).collect()
}

/// The rules of a record that one of this operation, not the first, can break, each left out for it.
fn breakable(operation: u8) -> impl Iterator<Item = Slip> {
    let full = Record { operation, code: 1, refusal: 1, zeros: [1; 5], address: 1, size: 1, change: 1, answer: 1 };
    let broken = RECORD_RULES.iter().filter(move |(_, is_kept)| !is_kept(&full, 1));
    broken.map(move |(words, _)| Slip::WithoutFor(words, operation))
}

/// "`damaged B` with the first bad block from 0"; "an empty log prints `damaged 0`"; "A difference in an earlier block is the one reported."
pub fn judged(log: &[u8], slip: Slip) -> Verdict {
    let blocks: Vec<&[u8]> = log.chunks(BLOCK).filter(|bytes| bytes.len() == BLOCK || slip != Slip::Without(SHORT)).collect();
    if blocks.is_empty() {
        return if slip == Slip::EmptyLogAgrees { Verdict::Agrees { records: 0, end: 0 } } else { Verdict::Damaged(0) };
    }
    let bad = (0..blocks.len()).find(|index| broken(&blocks, *index, slip).is_some());
    let played = replayed(&played_blocks(&blocks, bad, slip), slip);
    match (bad, played) {
        (Some(block), Verdict::Agrees { .. }) => Verdict::Damaged(block as u64),
        (Some(block), _) if slip == Slip::DamageBeforeAnEarlierDifference => Verdict::Damaged(block as u64),
        _ => played,
    }
}

/// Those before the first bad one; a slip plays others too.
fn played_blocks<'b>(blocks: &[&'b [u8]], bad: Option<usize>, slip: Slip) -> Vec<Block<'b>> {
    let is_played = |index: usize| match slip {
        Slip::DifferencePastADamagedBlock => bad != Some(index),
        Slip::DifferenceBeforeDamageInOneBlock => bad.is_none_or(|bad| index <= bad),
        _ => bad.is_none_or(|bad| index < bad),
    };
    let whole = blocks.iter().enumerate().filter(|(index, bytes)| is_played(*index) && bytes.len() == BLOCK);
    whole.map(|(_, bytes)| Block(bytes)).collect()
}

/// The first rule that this block of a log breaks, in words. "A short block or any broken rule is damage".
pub fn broken(blocks: &[&[u8]], index: usize, slip: Slip) -> Option<&'static str> {
    let counted = match slip {
        Slip::ShortBlockNotCounted => blocks.iter().filter(|bytes| bytes.len() == BLOCK).count(),
        _ => blocks.len(),
    };
    if blocks[index].len() < BLOCK {
        return Some(SHORT);
    }
    let (block, place) = (Block(blocks[index]), Place { index, is_last: index + 1 == counted });
    if let Some(is_kept) = other_rule(&block, place, slip) {
        return (!is_kept).then_some("the rule of a slip");
    }
    let of_block = BLOCK_RULES.iter().find(|(words, is_kept)| slip != Slip::Without(words) && !is_kept(&block, place));
    let of_record = || RECORD_RULES.iter().find(|rule| slip != Slip::Without(rule.0) && !records_keep(&block, place, rule, slip));
    of_block.map(|rule| rule.0).or_else(|| of_record().map(|rule| rule.0))
}

/// The blocks before have 12 records each.
fn records_keep(block: &Block, place: Place, (words, is_kept): &RecordRule, slip: Slip) -> bool {
    let mut numbered = block.used().zip(place.index * MOST_RECORDS..);
    numbered.all(|(record, number)| slip == Slip::WithoutFor(words, record.operation) || is_kept(&record, number))
}

/// Whether a block is good by the rules of a slip that has others: the rules without some, and something in their place.
fn other_rule(block: &Block, place: Place, slip: Slip) -> Option<bool> {
    let but = |left_out: &[&str]| {
        let kept = BLOCK_RULES.iter().all(|(words, is_kept)| left_out.contains(words) || is_kept(block, place));
        kept && RECORD_RULES.iter().all(|rule| records_keep(block, place, rule, slip))
    };
    let (due, stored) = (sums(block.0, MODULUS), block.check());
    let is_possible = |record: &Record| record.refusal <= 16 && ![7, 10, 11, 12].contains(&record.refusal);
    let has_no_address = |record: &Record| record.refusal == 0 || record.answer == NO_ADDRESS || record.operation != ALLOCATE;
    Some(match slip {
        Slip::SumsModulo65536 => but(&[OTHER_A, OTHER_B]) && stored == sums(block.0, MODULUS + 1),
        Slip::ZeroAnd65535AreOne => but(&[OTHER_A, OTHER_B]) && (stored.0 % 65_535, stored.1 % 65_535) == due,
        Slip::BigEndianNumber => but(&[OTHER_NUMBER]) && u64::from(block.number().swap_bytes()) == place.index as u64,
        Slip::UnknownTypeIsDamage => but(&[]) && block.used().all(|record| record.operation != ALLOCATE || [1, 2].contains(&record.code)),
        Slip::ImpossibleRefusalIsDamage => but(&[]) && block.used().all(|record| is_possible(&record)),
        Slip::AddressOfARefusalIsDamage => but(&[]) && block.used().all(|record| has_no_address(&record)),
        _ => return None,
    })
}

/// "`agrees` .. (records, final E)", or "`differs R` with the first disagreeing record from 0".
fn replayed(blocks: &[Block], slip: Slip) -> Verdict {
    let mut recorder = Recorder::default();
    let records = || blocks.iter().flat_map(Block::used);
    let differs = records().position(|record| record != repeated(&mut recorder, record, slip));
    match (differs, slip) {
        (Some(record), Slip::DifferenceCountedInItsBlock) => Verdict::Differs((record % MOST_RECORDS) as u64),
        (Some(record), _) => Verdict::Differs(record as u64),
        (None, _) => Verdict::Agrees { records: records().count() as u64, end: recorder.end() },
    }
}

/// The record as it would be written of this call; a slip writes another one.
fn repeated(recorder: &mut Recorder, record: Record, slip: Slip) -> Record {
    let call = match (slip, record.operation) {
        (Slip::EntriesCutTo32Bits, OPEN) => Record { address: record.address & 0xffff_ffff, ..record },
        _ => record,
    };
    let due = recorder.record(call);
    match slip {
        Slip::EntriesCutTo32Bits => Record { address: record.address, ..due },
        Slip::RefusalNotCompared => Record { refusal: record.refusal, ..due },
        Slip::AnswerNotCompared => Record { answer: record.answer, ..due },
        Slip::RefusedAllocationAnswersZero if due.answer == NO_ADDRESS => Record { answer: 0, ..due },
        Slip::CallsAfterARefusedOpenPlayed if due.operation == OPEN && due.refusal != 0 => {
            recorder.record(Record::open(512, 5_120, 12));
            due
        }
        _ => due,
    }
}

#[cfg(test)]
mod tests {
    use super::*;

    #[test]
    fn a_verdict_is_one_line() {
        let verdicts = [Verdict::Agrees { records: 13, end: 1_024 }, Verdict::Differs(7), Verdict::Damaged(0)];
        assert_eq!(verdicts.map(|verdict| verdict.to_string()), ["agrees 13 1024", "differs 7", "damaged 0"]);
    }
}
