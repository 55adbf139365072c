//! The sentences of request E6, as issue 18 decides their corners: logs with the line that the sentence states, not the one that the model works
//! out.
//!
//!   Claim      a sentence, a log that shows it, and the line
//!   CLAIMS     each claim

use crate::log::{in_portions, log_of, recorded, set_check, Record, BLOCK, CHECK, COUNT_AT, HEAD, MOST_RECORDS, NO_ADDRESS, OPEN, RECORD};
use crate::log_script::log_of_script;

pub struct Claim {
    pub says: &'static str,
    pub log: fn() -> Vec<u8>,
    pub line: &'static str,
}

const RUN: &str = include_str!("../../examples/run.script");

/// Where the first byte of a record of the first block stands.
const fn at(record: usize) -> usize {
    HEAD + record * RECORD
}

/// The log of document 01's run: 12 records in block 0, and 1 in block 1.
fn run() -> Vec<u8> {
    log_of_script(RUN).expect("a script")
}

/// The run's log with a change in its bytes, and every check right again.
fn changed(change: impl Fn(&mut [u8])) -> Vec<u8> {
    let mut log = run();
    change(&mut log);
    log.chunks_exact_mut(BLOCK).for_each(set_check);
    log
}

/// The run's log with a change in the check of block 0.
fn with_check(change: impl Fn(&mut [u8])) -> Vec<u8> {
    let mut log = run();
    change(&mut log[CHECK..BLOCK]);
    log
}

/// An opening that is refused or not, and one call each, with these refusal numbers.
fn opened(entries: u64, refusals: [u8; 3]) -> Vec<u8> {
    let allocation = Record { answer: if refusals[1] == 0 { 0 } else { NO_ADDRESS }, ..Record::allocate(2, 700) };
    let calls = [Record::open(512, 5_120, entries), allocation, Record::extend(0, 700, 1)];
    log_of(&std::array::from_fn::<Record, 3, _>(|i| Record { refusal: refusals[i], ..calls[i] }))
}

/// A log of blocks of so many records each; all but the open are releases in an empty table.
fn portions(counts: &[usize]) -> Vec<u8> {
    in_portions(&recorded([Record::open(512, 5_120, 12)].into_iter().chain((1..100).map(|i| Record::release(i, 1)))), counts)
}

pub const CLAIMS: &[Claim] = &[
    Claim { says: "the log of document 01's run", log: run, line: "agrees 13 1024" },
    Claim { says: "an empty log", log: Vec::new, line: "damaged 0" },
    Claim { says: "a log of its open alone", log: || log_of(&[Record::open(512, 5_120, 12)]), line: "agrees 1 0" },
    Claim { says: "the run without its last block", log: || run()[..BLOCK].to_vec(), line: "agrees 12 2048" },
    Claim { says: "a short block is damage of its number", log: || run()[..2 * BLOCK - 1].to_vec(), line: "damaged 1" },
    Claim { says: "one byte is a short block", log: || vec![0], line: "damaged 0" },
    Claim { says: "a block of zeros", log: || vec![0; BLOCK], line: "damaged 0" },
    Claim { says: "the number is the place of the block", log: || changed(|log| log[BLOCK] = 2), line: "damaged 1" },
    Claim { says: "the number has 4 bytes", log: || changed(|log| log[BLOCK + 3] = 1), line: "damaged 1" },
    Claim { says: "a count of 0", log: || changed(|log| log[BLOCK + COUNT_AT] = 0), line: "damaged 1" },
    Claim { says: "a count of 13", log: || changed(|log| log[COUNT_AT] = 13), line: "damaged 0" },
    Claim { says: "3 zero bytes behind the count", log: || changed(|log| log[7] = 1), line: "damaged 0" },
    Claim { says: "zeros to byte 507", log: || changed(|log| log[CHECK - 1] = 1), line: "damaged 0" },
    Claim { says: "unused records are zero", log: || changed(|log| log[BLOCK + at(11)] = 1), line: "damaged 1" },
    Claim { says: "operation 5", log: || changed(|log| log[at(6)] = 5), line: "damaged 0" },
    Claim { says: "5 zero bytes behind the refusal", log: || changed(|log| log[at(6) + 7] = 1), line: "damaged 0" },
    Claim { says: "a type in a release", log: || changed(|log| log[at(6) + 1] = 1), line: "damaged 0" },
    Claim { says: "an address in an allocation", log: || changed(|log| log[at(1) + 8] = 1), line: "damaged 0" },
    Claim { says: "a change in an allocation", log: || changed(|log| log[at(1) + 24] = 1), line: "damaged 0" },
    Claim { says: "a change in a release", log: || changed(|log| log[at(6) + 24] = 1), line: "damaged 0" },
    Claim { says: "an answer in a release", log: || changed(|log| log[at(6) + 32] = 1), line: "damaged 0" },
    Claim { says: "an answer in an open", log: || changed(|log| log[at(0) + 32] = 1), line: "damaged 0" },
    Claim { says: "a second open", log: || changed(|log| log[BLOCK + HEAD] = OPEN), line: "damaged 1" },
    Claim { says: "the first record is an open", log: || log_of(&[Record::release(0, 1)]), line: "damaged 0" },
    Claim { says: "an unknown type is compared", log: || changed(|log| log[at(1) + 1] = 3), line: "differs 1" },
    Claim { says: "an impossible refusal is compared", log: || changed(|log| log[at(9) + 2] = 7), line: "differs 9" },
    Claim { says: "the answer of an allocation is compared", log: || changed(|log| log[at(7) + 39] = 1), line: "differs 7" },
    Claim { says: "a refusal in an open is compared", log: || changed(|log| log[at(0) + 2] = 1), line: "differs 0" },
    Claim { says: "a check of zeros", log: || with_check(|check| check.fill(0)), line: "damaged 0" },
    Claim { says: "a check with another a", log: || with_check(|check| check[0] ^= 1), line: "damaged 0" },
    Claim { says: "a check with another b", log: || with_check(|check| check[2] ^= 1), line: "damaged 0" },
    Claim { says: "a then b", log: || with_check(|check| check.rotate_left(2)), line: "damaged 0" },
    Claim { says: "both little-endian", log: || with_check(|check| check.chunks_mut(2).for_each(|sum| sum.reverse())), line: "damaged 0" },
    Claim { says: "an open with C = 12, and calls that it accepts", log: || opened(12, [0, 0, 0]), line: "agrees 3 1024" },
    Claim { says: "an open with C = 3 is refused 1, and every call answers 2", log: || opened(3, [1, 2, 2]), line: "agrees 3 0" },
    Claim { says: "so is one with C = 1,025", log: || opened(1_025, [1, 2, 2]), line: "agrees 3 0" },
    Claim { says: "and one with C = 2^64 - 1", log: || opened(u64::MAX, [1, 2, 2]), line: "agrees 3 0" },
    Claim { says: "one with C = 4 is accepted", log: || opened(4, [0, 0, 0]), line: "agrees 3 1024" },
    Claim { says: "and one with C = 1,024", log: || opened(1_024, [0, 0, 0]), line: "agrees 3 1024" },
    Claim { says: "so that a refusal is another answer", log: || opened(1_024, [1, 2, 2]), line: "differs 0" },
    Claim { says: "after a refused open no call is done", log: || opened(3, [1, 0, 0]), line: "differs 1" },
    Claim { says: "nor refused otherwise", log: || opened(3, [1, 2, 13]), line: "differs 2" },
    Claim { says: "the last block may have fewer than 12 records", log: || portions(&[12, 12, 5]), line: "agrees 29 0" },
    Claim { says: "or all of them", log: || portions(&[MOST_RECORDS, MOST_RECORDS]), line: "agrees 24 0" },
    Claim { says: "another block with fewer is itself the bad one", log: || portions(&[12, 11, 12]), line: "damaged 1" },
    Claim { says: "and so it is before a short block", log: || [portions(&[12, 11]), vec![0; 1]].concat(), line: "damaged 1" },
    Claim { says: "a block of 12 before a short block is not", log: || [portions(&[12, 12]), vec![0; 1]].concat(), line: "damaged 2" },
    Claim {
        says: "a difference in an earlier block is the one reported",
        log: || changed(|log| (log[at(11) + 2], log[BLOCK + at(0)]) = (1, 5)),
        line: "differs 11",
    },
    Claim {
        says: "in one block damage comes before a difference in it",
        log: || changed(|log| (log[at(2) + 2], log[at(11)]) = (1, 5)),
        line: "damaged 0",
    },
    Claim {
        says: "damage in an earlier block comes before a difference",
        log: || changed(|log| (log[at(11)], log[BLOCK + at(0) + 2]) = (5, 1)),
        line: "damaged 0",
    },
];

#[cfg(test)]
mod tests {
    use super::*;
    use crate::log_judge::{judged, Slip};

    #[test]
    fn the_judgement_is_as_the_request_says() {
        for claim in CLAIMS {
            assert_eq!(judged(&(claim.log)(), Slip::None).to_string(), claim.line, "{}", claim.says);
        }
    }
}
