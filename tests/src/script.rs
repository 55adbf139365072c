//! The script language of the program `filespace`, answered by the model: one call to a line, one line for an answer.
//!
//!   Machine    the model with a count of lines; `answer` takes a line and gives what the program must print, if anything
//!   state_line, words_line, summary_line   lines that set a state, a table or a summary
//!   show_words, show_summary, fresh   lines that show every word, show every number of the summary, and work it out afresh
//!   read_line, write_line   lines that read a message out of lent bytes, and write one into a room
//!   six        six numbers, as the addresses of small or of large managers
//!   number, numbers, code, narrow, exactly   what the words of a line say, or what is wrong with them
//!   TYPES      the words for the types of an allocation
//!
//! Not here: `table`, `map` and `sheet`, whose answers are pictures for a person.

use crate::message::{self, Fields};
use crate::model::{Model, Refusal, State, ENTRY_WORDS};
use crate::summary::{Summary, Totals, MOVED, TOTALS};

pub const LONGEST_LINE: usize = 100_000;
pub const MOST_ENTRIES: u64 = 2_048;
pub const MOST_WORDS: usize = MOST_ENTRIES as usize * ENTRY_WORDS;
pub const MOST_ROOM: u64 = 4_096;
pub const TYPES: [&str; 2] = ["metadata", "raw"];
const LENT_BYTE: u8 = 0xaa;

#[derive(Clone, Debug, Default)]
pub struct Machine {
    pub model: Model,
    lines: u64,
}

/// What is wrong with a line.
pub type Wrong = &'static str;

pub const NO_CALL: Wrong = "no call";
const NOT_A_NUMBER: Wrong = "not a number";
const NUMBER_TOO_LARGE: Wrong = "number too large";
const WRONG_COUNT: Wrong = "wrong count of words";
const TOO_LONG: Wrong = "too long";
const TOO_MANY: Wrong = "too many";
const NOT_HEX: Wrong = "not hex";

pub fn number(word: &str) -> Result<u64, Wrong> {
    if word.is_empty() || !word.bytes().all(|b| b.is_ascii_digit()) {
        return Err(NOT_A_NUMBER);
    }
    word.parse().map_err(|_| NUMBER_TOO_LARGE)
}

pub fn numbers(words: &[&str]) -> Result<Vec<u64>, Wrong> {
    words.iter().map(|w| number(w)).collect()
}

/// A number that may be negative: a minus sign, and its digits right behind it.
fn signed(word: &str) -> Result<i64, Wrong> {
    let number = match word.strip_prefix('-') {
        Some(digits) => 0i64.checked_sub_unsigned(number(digits)?),
        None => 0i64.checked_add_unsigned(number(word)?),
    };
    number.ok_or(NUMBER_TOO_LARGE)
}

/// A number, or a word that stands for one: the first name for 1, the second for 2, and so on.
pub fn code(word: &str, names: &[&str]) -> Result<u64, Wrong> {
    match names.iter().position(|name| *name == word) {
        Some(i) => Ok(i as u64 + 1),
        None => number(word),
    }
}

pub fn narrow<T: TryFrom<u64>>(number: u64) -> Result<T, Wrong> {
    T::try_from(number).map_err(|_| NUMBER_TOO_LARGE)
}

pub fn exactly(count: usize, words: &[&str]) -> Result<(), Wrong> {
    if words.len() == count { Ok(()) } else { Err(WRONG_COUNT) }
}

fn at_most(most: u64, number: u64) -> Result<usize, Wrong> {
    if number <= most { Ok(number as usize) } else { Err(TOO_MANY) }
}

fn bytes_of_hex(hex: &str) -> Result<Vec<u8>, Wrong> {
    if !hex.len().is_multiple_of(2) || !hex.bytes().all(|b| b.is_ascii_hexdigit()) {
        return Err(NOT_HEX);
    }
    Ok((0..hex.len()).step_by(2).map(|i| u8::from_str_radix(&hex[i..i + 2], 16).expect("two hex digits")).collect())
}

fn hex_of(bytes: &[u8]) -> String {
    bytes.iter().map(|b| format!("{b:02x}")).collect()
}

fn joined(numbers: &[u64]) -> String {
    numbers.iter().map(u64::to_string).collect::<Vec<_>>().join(" ")
}

pub fn state_line(state: &State) -> String {
    format!("state {}", joined(&state.numbers()))
}

pub fn words_line(table: &[u64]) -> String {
    format!("words {}", joined(table))
}

/// The 29 numbers of a summary, the signed one last.
fn joined_summary(summary: &Summary) -> String {
    format!("{} {}", joined(&summary.totals.numbers()), summary.moved)
}

pub fn summary_line(summary: &Summary) -> String {
    format!("summary {}", joined_summary(summary))
}

pub fn show_words() -> String {
    "show words".to_string()
}

pub fn show_summary() -> String {
    "show summary".to_string()
}

pub fn fresh() -> String {
    "fresh".to_string()
}

pub fn read_line(lent: &[u8]) -> String {
    format!("read {}", hex_of(lent))
}

pub fn write_line(fields: &Fields, room: u64) -> String {
    format!("write {} {room}", joined(&fields.numbers()))
}

/// A head, and behind it each word with a space in front.
fn with_words(head: &str, words: &[String]) -> String {
    let mut line = head.to_string();
    for word in words {
        line.push(' ');
        line.push_str(word);
    }
    line
}

fn refused(why: Refusal) -> String {
    format!("refused {why}")
}

/// Done or refused, by what a call answers.
fn told(result: Result<(), Refusal>) -> String {
    result.map_or_else(refused, |()| "done".to_string())
}

impl Machine {
    pub fn new(model: Model) -> Machine {
        Machine { model, lines: 0 }
    }

    /// The answer to a line without its newline; None for a comment or a blank line.
    pub fn answer(&mut self, line: &str) -> Option<String> {
        self.lines += 1;
        if line.len() > LONGEST_LINE {
            return Some(self.wrong(TOO_LONG));
        }
        let line = line.split('#').next().unwrap_or("");
        let words: Vec<&str> = line.split_ascii_whitespace().collect();
        let (call, rest) = words.split_first()?;
        Some(self.call(call, rest).unwrap_or_else(|what| self.wrong(what)))
    }

    fn wrong(&self, what: Wrong) -> String {
        format!("line {}: {}", self.lines, what)
    }

    fn call(&mut self, call: &str, words: &[&str]) -> Result<String, Wrong> {
        match call {
            "open" => self.open(words),
            "default" => self.open_default(words),
            "allocate" => self.allocate(words),
            "release" => self.named(2, words, |m, n| m.release(n[0], n[1])),
            "extend" => self.named(3, words, |m, n| m.extend(n[0], n[1], n[2])),
            "shorten" => self.named(3, words, |m, n| m.shorten(n[0], n[1], n[2])),
            "list" => self.list(words),
            "state" => self.set_state(words),
            "words" => self.set_words(words),
            "summary" => self.set_summary(words),
            "fresh" => self.fresh(words),
            "show" => self.show(words),
            "read" => read(words),
            "write" => write(words),
            _ => Err(NO_CALL),
        }
    }

    /// The end of every answer of a call on a space.
    fn with_state(&self, said: String) -> String {
        format!("{said}; end {}; {} entries", self.model.state.end, self.model.state.count)
    }

    fn done(&self, result: Result<(), Refusal>) -> String {
        self.with_state(told(result))
    }

    /// An opening over a new table of so many entries.
    fn opened(&mut self, entries: u64, opening: impl Fn(&mut Model) -> Result<(), Refusal>) -> Result<String, Wrong> {
        self.model.table = vec![0; at_most(MOST_ENTRIES, entries)? * ENTRY_WORDS];
        let result = opening(&mut self.model);
        Ok(self.done(result))
    }

    fn open(&mut self, words: &[&str]) -> Result<String, Wrong> {
        exactly(3, words)?;
        let n = numbers(words)?;
        self.opened(n[2], |model| model.open(n[0], n[1]))
    }

    fn open_default(&mut self, words: &[&str]) -> Result<String, Wrong> {
        exactly(1, words)?;
        self.opened(number(words[0])?, Model::open_default)
    }

    fn allocate(&mut self, words: &[&str]) -> Result<String, Wrong> {
        exactly(2, words)?;
        let kind = code(words[0], &TYPES)?;
        let size = number(words[1])?;
        let said = match self.model.allocate(kind, size) {
            Ok(at) => format!("at {at}"),
            Err(why) => refused(why),
        };
        Ok(self.with_state(said))
    }

    /// A call that names a piece by numbers.
    fn named(&mut self, count: usize, words: &[&str], call: fn(&mut Model, &[u64]) -> Result<(), Refusal>) -> Result<String, Wrong> {
        exactly(count, words)?;
        let result = call(&mut self.model, &numbers(words)?);
        Ok(self.done(result))
    }

    fn list(&mut self, words: &[&str]) -> Result<String, Wrong> {
        exactly(2, words)?;
        let manager = code(words[0], &["metadata", "raw", "large"])?;
        let room = at_most(MOST_ROOM, number(words[1])?)?;
        Ok(match self.model.list(manager, room) {
            Ok(sections) => {
                let pairs: Vec<String> = sections.iter().map(|(a, s)| format!("{a}+{s}")).collect();
                with_words(&format!("{} sections:", pairs.len()), &pairs)
            }
            Err(why) => refused(why),
        })
    }

    fn set_state(&mut self, words: &[&str]) -> Result<String, Wrong> {
        exactly(4, words)?;
        let n = numbers(words)?;
        self.model.state = State::of([n[0], n[1], n[2], n[3]]);
        Ok("set".to_string())
    }

    fn set_words(&mut self, words: &[&str]) -> Result<String, Wrong> {
        if words.len() > MOST_WORDS {
            return Err(TOO_MANY);
        }
        self.model.table = numbers(words)?;
        Ok("set".to_string())
    }

    fn set_summary(&mut self, words: &[&str]) -> Result<String, Wrong> {
        exactly(TOTALS + 1, words)?;
        let totals = Totals::with(&numbers(&words[..TOTALS])?);
        self.model.summary = Summary { totals, moved: signed(words[MOVED])? };
        Ok("set".to_string())
    }

    /// The state stays as it is, so the answer does not say it.
    fn fresh(&mut self, words: &[&str]) -> Result<String, Wrong> {
        exactly(0, words)?;
        Ok(told(self.model.fresh()))
    }

    fn show(&mut self, words: &[&str]) -> Result<String, Wrong> {
        exactly(1, words)?;
        match words[0] {
            "words" => Ok(with_words("words:", &self.model.table.iter().map(u64::to_string).collect::<Vec<_>>())),
            "summary" => Ok(format!("summary: {}", joined_summary(&self.model.summary))),
            _ => Err(NO_CALL),
        }
    }
}

fn read(words: &[&str]) -> Result<String, Wrong> {
    let lent = match words {
        [] => Vec::new(),
        [hex] => bytes_of_hex(hex)?,
        _ => return Err(WRONG_COUNT),
    };
    let said = match message::read(&lent) {
        Ok(f) => format!(
            "strategy {}; persist {}; threshold {}; page {}; page-end {}; eoa {}; small {}; large {}",
            f.strategy,
            f.persist,
            f.threshold,
            f.page,
            f.page_end,
            f.eoa,
            joined(&f.small),
            joined(&f.large)
        ),
        Err(why) => refused(why),
    };
    Ok(format!("{said}; {} bytes follow", message::rest(&lent)))
}

pub fn six(numbers: &[u64]) -> [u64; 6] {
    numbers.try_into().expect("six numbers")
}

fn write(words: &[&str]) -> Result<String, Wrong> {
    exactly(19, words)?;
    let n = numbers(words)?;
    let fields = Fields {
        strategy: narrow(n[0])?,
        persist: narrow(n[1])?,
        threshold: n[2],
        page: n[3],
        page_end: narrow(n[4])?,
        eoa: n[5],
        small: six(&n[6..12]),
        large: six(&n[12..18]),
    };
    let mut lent = vec![LENT_BYTE; at_most(MOST_ROOM, n[18])?];
    Ok(match message::write(&fields, &mut lent) {
        Ok(()) => with_words("wrote", &[hex_of(&lent)]),
        Err(why) => refused(why),
    })
}
