//! A log as text for a person: a line for each block, and one for each record that it uses, with what is damaged in words.
//!
//!   shown      the lines of a log
//!
//! It tells what stands in the log, not whether the recorded answers are those of the calls: that is what `replay` says.

use crate::log::{sums, Record, ALLOCATE, BLOCK, EXTEND, MODULUS, MOST_RECORDS, NO_ADDRESS, OPEN, RELEASE, SHORTEN};
use crate::log_judge::{Block, Place, BLOCK_RULES, RECORD_RULES};
use crate::script::TYPES;

pub fn shown(log: &[u8]) -> impl Iterator<Item = String> + '_ {
    let blocks = log.len().div_ceil(BLOCK);
    let lines = log.chunks(BLOCK).enumerate().flat_map(move |(index, bytes)| block_lines(bytes, Place { index, is_last: index + 1 == blocks }));
    let empty = log.is_empty().then(|| "damaged: the log is empty".to_string());
    empty.into_iter().chain(lines)
}

fn block_lines(bytes: &[u8], place: Place) -> Vec<String> {
    if bytes.len() < BLOCK {
        return vec![format!("block {}: damaged: it has {} bytes, and not 512", place.index, bytes.len())];
    }
    let block = Block(bytes);
    let records = block.used().zip(place.index * MOST_RECORDS..);
    let lines = records.map(|(record, number)| record_line(&record, number));
    [block_line(&block, place)].into_iter().chain(lines).collect()
}

fn block_line(block: &Block, place: Place) -> String {
    let broken = BLOCK_RULES.iter().filter(|(_, is_kept)| !is_kept(block, place)).map(|rule| rule.0);
    let (stored, due) = (block.check(), sums(block.0, MODULUS));
    let check = if stored == due {
        format!("check {} {} is right", due.0, due.1)
    } else {
        format!("check {} {} is not {} {}", stored.0, stored.1, due.0, due.1)
    };
    let plural = if block.count() == 1 { "" } else { "s" };
    format!("block {}: number {}, {} record{plural}, {check}{}", place.index, block.number(), block.count(), damage(broken))
}

fn record_line(record: &Record, number: usize) -> String {
    let broken = RECORD_RULES.iter().filter(|(_, is_kept)| !is_kept(record, number)).map(|rule| rule.0);
    format!("  {number:>5}  {:<40}  {}{}", call(record), answer(record), damage(broken))
}

/// The call as a script has it.
fn call(record: &Record) -> String {
    let Record { operation, code, address, size, change, .. } = *record;
    let kind = TYPES.get(usize::from(code).wrapping_sub(1)).map_or(code.to_string(), |name| name.to_string());
    match operation {
        OPEN => format!("open {size} {change} {address}"),
        ALLOCATE => format!("allocate {kind} {size}"),
        RELEASE => format!("release {address} {size}"),
        EXTEND => format!("extend {address} {size} {change}"),
        SHORTEN => format!("shorten {address} {size} {change}"),
        _ => format!("operation {operation}: {address} {size} {change}"),
    }
}

/// What is recorded of the answer. A refused allocation has no address, and another call none at all; where one is recorded all the same it is
/// shown.
fn answer(record: &Record) -> String {
    let Record { operation, refusal, answer, .. } = *record;
    match (operation, refusal, answer) {
        (ALLOCATE, 0, _) => format!("at {answer}"),
        (ALLOCATE, _, NO_ADDRESS) => format!("refused {refusal}"),
        (ALLOCATE, ..) => format!("refused {refusal}, at {answer}"),
        (_, 0, 0) => "done".to_string(),
        (_, 0, _) => format!("done, answer {answer}"),
        (_, _, 0) => format!("refused {refusal}"),
        _ => format!("refused {refusal}, answer {answer}"),
    }
}

fn damage(broken: impl Iterator<Item = &'static str>) -> String {
    let broken: Vec<&str> = broken.collect();
    if broken.is_empty() {
        String::new()
    } else {
        format!("; damaged: {}", broken.join("; "))
    }
}

#[cfg(test)]
mod tests {
    use super::*;
    use crate::log::{log_of, recorded, set_check, CHECK};

    fn log() -> Vec<u8> {
        log_of(&recorded([Record::open(512, 5_120, 12), Record::allocate(2, 700), Record::release(1, 2), Record::allocate(9, 1)]))
    }

    #[test]
    fn a_good_log_is_its_calls_with_their_answers() {
        let (a, b) = sums(&log(), MODULUS);
        let lines: Vec<String> = shown(&log()).collect();
        assert_eq!(lines[0], format!("block 0: number 0, 4 records, check {a} {b} is right"));
        let columns: Vec<Vec<&str>> =
            lines[1..].iter().map(|line| line.split("  ").map(str::trim).filter(|word| !word.is_empty()).collect()).collect();
        let due = [
            ["0", "open 512 5120 12", "done"],
            ["1", "allocate raw 700", "at 0"],
            ["2", "release 1 2", "refused 15"],
            ["3", "allocate 9 1", "refused 3"],
        ];
        assert_eq!(columns, due);
    }

    #[test]
    fn damage_is_told_in_words() {
        let mut damaged = log();
        damaged[8 + 40] = 7;
        damaged[8 + 80 + 32] = 1;
        damaged[CHECK] ^= 1;
        damaged.extend([0; 100]);
        let lines: Vec<String> = shown(&damaged).collect();
        assert!(lines[0].ends_with(
            "; damaged: it has fewer than 12 records, and is not the last block; the check's a is not the sum; the check's b is not the sum"
        ));
        assert!(lines[2].contains("  operation 7: 0 700 0 ") && lines[2].contains("; damaged: no operation has this number; "));
        assert!(lines[3].ends_with("refused 15, answer 1; damaged: an answer, and no allocation"));
        assert_eq!(lines[5], "block 1: damaged: it has 100 bytes, and not 512");
        assert_eq!(shown(&[]).collect::<Vec<_>>(), ["damaged: the log is empty"]);
    }

    #[test]
    fn a_count_above_twelve_shows_twelve_records() {
        let mut damaged = log();
        damaged[4] = 255;
        set_check(&mut damaged);
        assert_eq!(shown(&damaged).count(), 1 + MOST_RECORDS);
    }
}
