//! Scripts of calls as `filespace` plays them (examples/), and the log that a recorder would write of one.
//!
//!   call_of     the call of a line; None for a line that calls nothing, or only looks at the space
//!   calls_of    the calls of a script, or what is wrong with it
//!   log_of_script   the log of a script
//!
//! A log has one open, its first record, and no record for what sets a state or a table by hand.

use crate::log::{log_of, recorded, Record, OPEN};
use crate::script::{code, exactly, narrow, number, numbers, Wrong, NO_CALL, TYPES};

const NOT_IN_A_LOG: Wrong = "a log has no record for this call";
const OPEN_FIRST: Wrong = "the first call of a log is an open";
const ONE_OPEN: Wrong = "a log has one open";
const NO_CALLS: &str = "the script has no call";

/// They change nothing, and leave nothing in a log.
const LOOKS: [&str; 5] = ["table", "map", "sheet", "list", "show"];
/// Calls of a script that no log can tell.
const OTHERS: [&str; 7] = ["default", "state", "words", "summary", "fresh", "read", "write"];

pub fn call_of(line: &str) -> Result<Option<Record>, Wrong> {
    let words: Vec<&str> = line.split('#').next().unwrap_or("").split_ascii_whitespace().collect();
    let Some((call, words)) = words.split_first() else {
        return Ok(None);
    };
    Ok(Some(match *call {
        "open" => three(words).map(|[page, limit, entries]| Record::open(page, limit, entries))?,
        "allocate" => allocation(words)?,
        "release" => {
            exactly(2, words)?;
            Record::release(number(words[0])?, number(words[1])?)
        }
        "extend" => three(words).map(|[address, size, by]| Record::extend(address, size, by))?,
        "shorten" => three(words).map(|[address, size, by]| Record::shorten(address, size, by))?,
        look if LOOKS.contains(&look) => return Ok(None),
        other if OTHERS.contains(&other) => return Err(NOT_IN_A_LOG),
        _ => return Err(NO_CALL),
    }))
}

fn three(words: &[&str]) -> Result<[u64; 3], Wrong> {
    exactly(3, words)?;
    Ok(numbers(words)?.try_into().expect("three numbers"))
}

/// The type has one byte in a log.
fn allocation(words: &[&str]) -> Result<Record, Wrong> {
    exactly(2, words)?;
    Ok(Record::allocate(narrow(code(words[0], &TYPES)?)?, number(words[1])?))
}

pub fn calls_of(script: &str) -> Result<Vec<Record>, String> {
    let mut calls: Vec<Record> = Vec::new();
    for (line, text) in script.lines().enumerate() {
        let wrong = |what: Wrong| format!("line {}: {what}", line + 1);
        let Some(call) = call_of(text).map_err(wrong)? else { continue };
        match (calls.is_empty(), call.operation == OPEN) {
            (true, false) => return Err(wrong(OPEN_FIRST)),
            (false, true) => return Err(wrong(ONE_OPEN)),
            _ => calls.push(call),
        }
    }
    if calls.is_empty() {
        Err(NO_CALLS.to_string())
    } else {
        Ok(calls)
    }
}

pub fn log_of_script(script: &str) -> Result<Vec<u8>, String> {
    calls_of(script).map(|calls| log_of(&recorded(calls)))
}

#[cfg(test)]
mod tests {
    use super::*;

    #[test]
    fn the_words_of_a_line_are_the_fields_of_a_record() {
        let call = |line| call_of(line).map(|call| call.expect("a call"));
        assert_eq!(call("open 1 2 3"), Ok(Record { operation: 0, size: 1, change: 2, address: 3, ..Record::default() }));
        assert_eq!(call("  allocate raw 7 # seven"), Ok(Record { operation: 1, code: 2, size: 7, ..Record::default() }));
        assert_eq!(call("allocate 255 7"), Ok(Record { operation: 1, code: 255, size: 7, ..Record::default() }));
        assert_eq!(call("release 8 9"), Ok(Record { operation: 2, address: 8, size: 9, ..Record::default() }));
        assert_eq!(call("extend 8 9 1"), Ok(Record { operation: 3, address: 8, size: 9, change: 1, ..Record::default() }));
        assert_eq!(call("shorten 8 9 1"), Ok(Record { operation: 4, address: 8, size: 9, change: 1, ..Record::default() }));
    }

    #[test]
    fn what_has_no_record_is_passed_over_or_told() {
        assert_eq!(["", "# table", "table", "map", "list raw 2", "show words"].map(call_of), [Ok(None); 6]);
        let told = |script| calls_of(script).expect_err("something is wrong");
        assert_eq!(told("open 512 5120 12\nstate 1 2 3 4\n"), "line 2: a log has no record for this call");
        assert_eq!(told("# first\nallocate raw 1\n"), "line 2: the first call of a log is an open");
        assert_eq!(told("open 512 5120 12\n\nopen 512 5120 12\n"), "line 3: a log has one open");
        assert_eq!(told("open 512 5120 12\nallocate 256 1\n"), "line 2: number too large");
        assert_eq!(told("open 512 5120\n"), "line 1: wrong count of words");
        assert_eq!(told("open 512 5120 12\nrelease 0\n"), "line 2: wrong count of words");
        assert_eq!(told("freed 1\n"), "line 1: no call");
        assert_eq!(told("table\n"), "the script has no call");
    }
}
