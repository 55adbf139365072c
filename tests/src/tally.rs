//! What was compared: calls by name and answer, situations, names of pieces, words, summaries. A long run that lacks one of the refusals, a
//! situation, an edge of a name or a decade of sections is no good run.
//!
//!   CALLS        document 01's calls and `fresh`, each with the refusals that it can give
//!   SITUATIONS   what calls are to meet
//!   NAMING       the calls that name a piece
//!   EDGES        where the address and the size of a name are to lie, in each of those calls
//!   Name         a name, and the entry in which its address lies
//!   Met          what a call met, before it and after it
//!   Tally        the counts; `missing` names what never came

use crate::message::HEAD_LENGTH;
use crate::model::{is_sound, Entry, Model, ENTRY_WORDS, LARGEST_PAGE, NOT_SOUND, NO_BYTES, SLICE_TOO_SHORT};
use crate::model::{BEYOND_END, INSIDE_LIVE, IN_FREE, OTHER_SIZE};
use crate::summary::{Summary, Totals, COUNTS};

/// The refusals in the order of each call. Not here: 6 for release, which cannot come (docs/DECISIONS.md, 9).
pub const CALLS: [(&str, &[u64]); 10] = [
    ("open", &[1]),
    ("default", &[1]),
    ("allocate", &[2, 3, 4, 5, 6]),
    ("release", &[2, 13, 14, 15, 16]),
    ("extend", &[2, 4, 13, 14, 15, 16, 8, 5, 6]),
    ("shorten", &[2, 4, 13, 14, 15, 16, 9, 6]),
    ("list", &[2, 3, 10]),
    ("read", &[10, 11, 12]),
    ("write", &[12, 10]),
    ("fresh", &[2]),
];

const ACCEPTED: usize = 0;
const REFUSALS: usize = 16;

/// The address and the size by which a call names a piece, the end that it meets, and the entry in which the address lies, if it lies in one.
#[derive(Clone, Copy, Debug)]
pub struct Name {
    pub address: u64,
    pub size: u64,
    pub end: u64,
    pub entry: Option<Entry>,
}

/// What a call met: the space after it, the summary before and after it, the name that it gives, and whether it names a number near 2^64.
#[derive(Clone, Debug, Default)]
pub struct Met {
    pub call: String,
    pub page: u64,
    pub capacity: u64,
    pub count: u64,
    pub is_near_the_largest: bool,
    pub before: Summary,
    pub name: Option<Name>,
    pub after: Summary,
    /// The summary after the call disagrees with a sound table.
    pub disagrees: bool,
}

/// By what a call met, and by its answer.
type IsMet = fn(&Met, &str) -> bool;

pub const SITUATIONS: [(&str, IsMet); 30] = [
    ("P = 512", |m, a| is_past_2(a) && m.page == 512),
    ("P = 1,000", |m, a| is_past_2(a) && m.page == 1_000),
    ("P = 4,096", |m, a| is_past_2(a) && m.page == 4_096),
    ("P = 65,536", |m, a| is_past_2(a) && m.page == 65_536),
    ("P = 2^30", |m, a| is_past_2(a) && m.page == LARGEST_PAGE),
    ("C = 4", |m, a| is_past_2(a) && m.capacity == 4),
    ("C = 4, all taken", |m, a| is_past_2(a) && m.capacity == 4 && m.count == 4),
    ("C = 1,024, all taken", |m, a| is_past_2(a) && m.capacity == 1_024 && m.count == 1_024),
    ("a number within 1,000 of 2^64", |m, a| is_past_2(a) && m.is_near_the_largest),
    ("a head cut short", |_, a| cut_short(a).is_some_and(|lent| lent < HEAD_LENGTH)),
    ("addresses cut short", |_, a| cut_short(a).is_some_and(|lent| lent >= HEAD_LENGTH)),
    ("a message of 29 bytes read", |_, a| read_with(a, "persist 0").is_some()),
    ("bytes that follow a message of 29 bytes", |_, a| read_with(a, "persist 0").is_some_and(|follow| follow > 0)),
    ("a message of 125 bytes read", |_, a| read_with(a, "persist 1").is_some()),
    ("a message of 29 bytes written", |_, a| wrote_with(a, "00")),
    ("a message of 125 bytes written", |_, a| wrote_with(a, "01")),
    ("a summary that disagrees, refused", |m, a| m.disagrees && !is_past_2(a)),
    ("a summary that disagrees, listed", |m, a| m.disagrees && is_past_2(a) && m.call == "list"),
    ("a signed number that no call leaves, accepted", |m, a| is_change(m, a) && m.before.moved % m.page as i64 != 0),
    ("the largest metadata section gone", |m, a| is_change(m, a) && m.largest_falls(0)),
    ("the largest raw section gone", |m, a| is_change(m, a) && m.largest_falls(1)),
    ("the largest large section gone", |m, a| is_change(m, a) && m.largest_falls(2)),
    ("an end moved up", |m, a| is_change(m, a) && m.after.moved > 0),
    ("an end moved down", |m, a| is_change(m, a) && m.after.moved < 0),
    ("a summary that an opening sets to 0", |m, a| m.is_opening() && refusal_in(a).is_none() && m.before != Summary::default()),
    ("a summary that a refused opening leaves", |m, a| m.is_opening() && refusal_in(a).is_some() && m.before != Summary::default()),
    ("a summary worked out afresh to another one", |m, a| m.call == "fresh" && is_past_2(a) && m.before.totals != m.after.totals),
    ("a summary that a refused fresh leaves", |m, a| m.call == "fresh" && !is_past_2(a) && m.before != Summary::default()),
    ("size 0 at a live piece's start, refused as a name", |m, a| m.has_name(|n| n.size == 0) && refusal_in(a) == Some(OTHER_SIZE)),
    ("a name where there is no entry", |m, a| m.has_name(|n| n.end == 0) && refusal_in(a) == Some(BEYOND_END)),
];

pub const NAMING: [&str; 3] = ["release", "extend", "shorten"];

/// By a name and the entry in which it lies.
type IsAt = fn(&Name) -> bool;

/// Each edge with the refusal that is due there; none is due where the name is a live piece's.
pub const EDGES: [(&str, IsAt, Option<u64>); 10] = [
    ("E, which is not 0", |n| n.end > 0 && n.address == n.end, Some(BEYOND_END)),
    ("E - 1, free", |n| n.is_before_the_end(), Some(IN_FREE)),
    ("E - 1, live", |n| n.is_before_the_end(), Some(INSIDE_LIVE)),
    ("the first byte of a free entry", |n| n.is_byte(0), Some(IN_FREE)),
    ("the last byte of a free entry", |n| n.is_last_byte(), Some(IN_FREE)),
    ("the second byte of a live piece", |n| n.is_byte(1), Some(INSIDE_LIVE)),
    ("the last byte of a live piece", |n| n.is_last_byte(), Some(INSIDE_LIVE)),
    ("a live piece's start with a byte less", |n| n.is_first_byte_of(n.size.checked_add(1)), Some(OTHER_SIZE)),
    ("a live piece's start with a byte more", |n| n.is_first_byte_of(n.size.checked_sub(1)), Some(OTHER_SIZE)),
    ("a live piece's start with its size", |n| n.is_first_byte_of(Some(n.size)), None),
];

impl Name {
    /// The name that a line gives to a piece of this model, if it is a call that names one.
    fn given(line: &str, model: &Model) -> Option<Name> {
        let mut words = line.split_ascii_whitespace();
        words.next().filter(|call| NAMING.contains(call))?;
        let mut number = || words.next()?.parse().ok();
        let (address, size) = (number()?, number()?);
        let entry = model.entries().into_iter().find(|entry| entry.holds(address));
        Some(Name { address, size, end: model.state.end, entry })
    }

    fn is_before_the_end(&self) -> bool {
        self.address.checked_add(1) == Some(self.end)
    }

    /// The address is so many bytes behind the start of its entry.
    fn is_byte(&self, behind: u64) -> bool {
        self.entry.is_some_and(|entry| self.address - entry.address == behind)
    }

    fn is_last_byte(&self) -> bool {
        self.entry.is_some_and(|entry| u128::from(self.address) + 1 == entry.end())
    }

    /// The address is the start of its entry, which has this size.
    fn is_first_byte_of(&self, size: Option<u64>) -> bool {
        self.is_byte(0) && self.entry.map(|entry| entry.size) == size
    }
}

impl Met {
    /// What a line meets that this model is to answer.
    pub fn before(line: &str, model: &Model) -> Met {
        let near = |word: &str| word.parse::<u64>().is_ok_and(|n| n > u64::MAX - 1_000);
        let mut words = line.split_ascii_whitespace();
        let is_near_the_largest = words.clone().any(near);
        let call = words.next().unwrap_or_default().to_string();
        Met { call, is_near_the_largest, before: model.summary, name: Name::given(line, model), ..Met::default() }
    }

    /// The same, with what the line left in the model.
    pub fn and_after(self, model: &Model) -> Met {
        let disagrees = Totals::of(&model.entries()) != model.summary.totals && is_sound(&model.state, &model.table);
        Met {
            page: model.state.page,
            capacity: (model.table.len() / ENTRY_WORDS) as u64,
            count: model.state.count,
            after: model.summary,
            disagrees,
            ..self
        }
    }

    fn has_name(&self, is: IsAt) -> bool {
        self.name.as_ref().is_some_and(is)
    }

    /// The largest section of the manager at this place is gone, and what is left is smaller.
    fn largest_falls(&self, manager: usize) -> bool {
        self.after.totals.managers[manager].largest < self.before.totals.managers[manager].largest
    }

    fn is_opening(&self) -> bool {
        self.call == "open" || self.call == "default"
    }
}

/// The call got past refusal 2, whatever it answers then.
fn is_past_2(answer: &str) -> bool {
    refusal_in(answer) != Some(NOT_SOUND)
}

/// The refusals of a call that names a piece, up to those of its name.
const UP_TO_THE_NAME: [u64; 6] = [NOT_SOUND, NO_BYTES, BEYOND_END, IN_FREE, INSIDE_LIVE, OTHER_SIZE];

/// The call was refused for its name with the number that is due; where none is due, it got past its name.
fn is_judged(due: Option<u64>, answer: &str) -> bool {
    let refusal = refusal_in(answer);
    if due.is_some() { refusal == due } else { refusal.is_none_or(|number| !UP_TO_THE_NAME.contains(&number)) }
}

/// An accepted call that may change a table.
fn is_change(met: &Met, answer: &str) -> bool {
    refusal_in(answer).is_none() && ["allocate", "release", "extend", "shorten"].contains(&met.call.as_str())
}

#[derive(Clone, Debug, Default)]
pub struct Tally {
    /// Answers of any sort.
    pub answers: u64,
    /// Words of tables seen by `show words`.
    pub words: u64,
    /// Summaries seen by `show summary`.
    pub summaries: u64,
    /// Lines that are no call.
    pub wrong_lines: u64,
    /// Calls by name and refusal; those that were accepted come first.
    of: [[u64; REFUSALS + 1]; CALLS.len()],
    situations: [u64; SITUATIONS.len()],
    /// Names at each edge, by the call that gives them.
    names: [[u64; NAMING.len()]; EDGES.len()],
    /// Changes that left a section in each count of a summary.
    decades: [u64; COUNTS],
}

/// The number of the refusal that an answer says.
fn refusal_in(answer: &str) -> Option<u64> {
    let number = answer.strip_prefix("refused ")?;
    number.split(';').next()?.parse().ok()
}

/// How many bytes an answer to `read` says to follow.
fn follow_in(answer: &str) -> Option<usize> {
    answer.strip_suffix(" bytes follow")?.rsplit(' ').next()?.parse().ok()
}

/// How many bytes were lent to a `read` that found too few: all of them follow.
fn cut_short(answer: &str) -> Option<usize> {
    follow_in(answer).filter(|_| refusal_in(answer) == Some(SLICE_TOO_SHORT))
}

/// How many bytes follow a message that was read with this persist.
fn read_with(answer: &str, persist: &str) -> Option<usize> {
    follow_in(answer).filter(|_| answer.contains(persist))
}

/// A message was written with this persist, its third byte.
fn wrote_with(answer: &str, persist: &str) -> bool {
    answer.strip_prefix("wrote ").is_some_and(|hex| &hex[4..6] == persist)
}

impl Tally {
    pub fn count(&mut self, answer: &str, met: &Met) {
        self.answers += 1;
        if let Some(words) = answer.strip_prefix("words:") {
            self.words += words.split_ascii_whitespace().count() as u64;
        }
        self.summaries += u64::from(answer.starts_with("summary:"));
        if answer.starts_with("line ") {
            self.wrong_lines += 1;
            return;
        }
        let Some(of) = CALLS.iter().position(|(name, _)| *name == met.call) else {
            return;
        };
        self.of[of][refusal_in(answer).map_or(ACCEPTED, |number| number as usize)] += 1;
        for (count, (_, is_met)) in self.situations.iter_mut().zip(&SITUATIONS) {
            *count += u64::from(is_met(met, answer));
        }
        if let Some(call) = NAMING.iter().position(|name| *name == met.call) {
            for (counts, (_, is_at, due)) in self.names.iter_mut().zip(&EDGES) {
                counts[call] += u64::from(met.has_name(*is_at) && is_judged(*due, answer));
            }
        }
        for (count, sections) in self.decades.iter_mut().zip(met.after.totals.counts) {
            *count += u64::from(is_change(met, answer) && sections > 0);
        }
    }

    /// The calls, accepted or refused.
    pub fn calls(&self) -> u64 {
        self.of.iter().flatten().sum()
    }

    /// A line for each call, with how often it was accepted and refused, and one each for the situations, the names and the decades.
    pub fn lines(&self) -> Vec<String> {
        let mut lines = vec![format!("{:<10}{:>9}   {}", "call", "accepted", "refused")];
        for ((name, refusals), of) in CALLS.iter().zip(&self.of) {
            let refused: Vec<String> = refusals.iter().map(|r| format!("{r}: {}", of[*r as usize])).collect();
            lines.push(format!("{name:<10}{:>9}   {}", of[ACCEPTED], refused.join(", ")));
        }
        let met: Vec<String> = SITUATIONS.iter().zip(self.situations).map(|((name, _), count)| format!("{name}: {count}")).collect();
        lines.push(format!("calls with {}", met.join("; ")));
        let counts = |of: &[u64]| of.iter().map(u64::to_string).collect::<Vec<_>>().join(" ");
        let named: Vec<String> = EDGES.iter().zip(&self.names).map(|((edge, ..), of)| format!("{edge}: {}", counts(of))).collect();
        lines.push(format!("names given to {} at {}", NAMING.join(", "), named.join("; ")));
        lines.push(format!("changes that left a section under 10 bytes, and in each decade: {}", counts(&self.decades)));
        lines
    }

    /// What never came.
    pub fn missing(&self) -> Vec<String> {
        let mut missing = Vec::new();
        for ((name, refusals), of) in CALLS.iter().zip(&self.of) {
            if of[ACCEPTED] == 0 {
                missing.push(format!("{name} accepted"));
            }
            missing.extend(refusals.iter().filter(|r| of[**r as usize] == 0).map(|r| format!("{name} refused with {r}")));
        }
        let never = SITUATIONS.iter().zip(self.situations).filter(|(_, count)| *count == 0);
        missing.extend(never.map(|((name, _), _)| format!("a call with {name}")));
        for ((edge, ..), of) in EDGES.iter().zip(&self.names) {
            let never = NAMING.iter().zip(of).filter(|(_, count)| **count == 0);
            missing.extend(never.map(|(call, _)| format!("{call} at {edge}")));
        }
        let empty = (0..COUNTS).filter(|decade| self.decades[*decade] == 0);
        missing.extend(empty.map(|decade| format!("a change that left a section in count {decade} of the summary")));
        missing
    }
}

#[cfg(test)]
mod tests {
    use super::*;
    use crate::message::bytes_of;
    use crate::script::{read_line, write_line, Machine};
    use crate::sweep::messages;

    #[test]
    fn what_never_came_is_named() {
        let (of, situations, names, decades) =
            ([[1; REFUSALS + 1]; CALLS.len()], [1; SITUATIONS.len()], [[1; NAMING.len()]; EDGES.len()], [1; COUNTS]);
        let mut tally = Tally { of, situations, names, decades, ..Tally::default() };
        assert!(tally.missing().is_empty());
        tally.of[4][6] = 0;
        tally.of[7][ACCEPTED] = 0;
        tally.situations[1] = 0;
        tally.names[1][2] = 0;
        tally.decades[18] = 0;
        let never = ["extend refused with 6", "read accepted", "a call with P = 1,000", "shorten at E - 1, free"];
        assert_eq!(tally.missing(), [&never[..], &["a change that left a section in count 18 of the summary"]].concat());
    }

    #[test]
    fn a_call_is_counted_by_its_answer() {
        let mut tally = Tally::default();
        let met = |call: &str| Met { call: call.to_string(), page: 512, ..Met::default() };
        tally.count("refused 4; end 0; 0 entries", &met("allocate"));
        tally.count("refused 2; end 0; 0 entries", &met("allocate"));
        tally.count("line 3: wrong count of words", &met("allocate"));
        tally.count("words: 0 0 0", &met("show"));
        tally.count("summary: 0", &met("show"));
        assert_eq!((tally.calls(), tally.answers, tally.words, tally.summaries, tally.wrong_lines), (2, 5, 3, 1, 1));
        assert_eq!((tally.of[2][4], tally.of[2][2], tally.situations[0]), (1, 1, 1));
    }

    /// The situations that the model's answer to a line meets, by their names.
    fn met_by(line: &str) -> Vec<&'static str> {
        let answer = Machine::default().answer(line).expect("an answer");
        SITUATIONS.iter().filter(|(_, is_met)| is_met(&Met::default(), &answer)).map(|(name, _)| *name).collect()
    }

    #[test]
    fn a_message_is_counted_by_its_length() {
        let [persistent, plain] = messages();
        assert_eq!(met_by(&write_line(&plain, 29)), ["a message of 29 bytes written"]);
        assert_eq!(met_by(&write_line(&persistent, 130)), ["a message of 125 bytes written"]);
        assert!(met_by(&write_line(&persistent, 29)).is_empty());
        assert_eq!(met_by(&read_line(&bytes_of(&plain))), ["a message of 29 bytes read"]);
        assert_eq!(met_by(&read_line(&bytes_of(&persistent))), ["a message of 125 bytes read"]);
        assert_eq!(met_by(&read_line(&bytes_of(&plain)[..28])), ["a head cut short"]);
        assert_eq!(met_by(&read_line(&bytes_of(&persistent)[..29])), ["addresses cut short"]);
        let followed = [bytes_of(&plain), vec![0]].concat();
        assert_eq!(met_by(&read_line(&followed)), ["a message of 29 bytes read", "bytes that follow a message of 29 bytes"]);
    }

    /// The last of these lines, answered: what it met, and its answer.
    fn last_of(lines: &[&str]) -> (Met, String) {
        let (last, first) = lines.split_last().expect("a line");
        let mut machine = Machine::default();
        first.iter().for_each(|line| drop(machine.answer(line)));
        let before = Met::before(last, &machine.model);
        let answer = machine.answer(last).expect("an answer");
        (before.and_after(&machine.model), answer)
    }

    /// The situations that the last of these lines meets, by their names.
    fn met_by_the_last(lines: &[&str]) -> Vec<&'static str> {
        let (met, answer) = last_of(lines);
        SITUATIONS.iter().filter(|(_, is_met)| is_met(&met, &answer)).map(|(name, _)| *name).filter(|name| !name.contains('=')).collect()
    }

    /// The edges at which the last of these lines names a piece.
    fn named_by_the_last(lines: &[&str]) -> Vec<&'static str> {
        let (met, answer) = last_of(lines);
        let mut tally = Tally::default();
        tally.count(&answer, &met);
        let call = NAMING.iter().position(|call| *call == met.call).expect("a call that names a piece");
        let at = EDGES.iter().zip(tally.names).filter(|(_, of)| of[call] > 0);
        at.map(|((edge, ..), _)| *edge).collect()
    }

    #[test]
    fn a_name_is_counted_by_where_it_lies() {
        let first = ["open 512 5120 12", "allocate raw 512", "allocate metadata 10"];
        let by = |line| named_by_the_last(&[&first[..], &[line]].concat());
        assert_eq!(by("release 1024 1"), ["E, which is not 0"]);
        assert_eq!(by("extend 1023 1 1"), ["E - 1, free", "the last byte of a free entry"]);
        assert_eq!(by("shorten 522 502 1"), ["the first byte of a free entry"]);
        assert_eq!(by("release 1 511"), ["the second byte of a live piece"]);
        assert_eq!(by("extend 521 1 1"), ["the last byte of a live piece"]);
        assert_eq!(by("shorten 512 9 1"), ["a live piece's start with a byte less"]);
        assert_eq!(by("release 512 11"), ["a live piece's start with a byte more"]);
        assert_eq!(by("extend 512 10 1"), ["a live piece's start with its size"]);
        assert_eq!(by("shorten 512 10 10"), ["a live piece's start with its size"]);
        for other in ["release 1025 1", "release 18446744073709551615 1", "release 523 1", "release 2 1", "release 512 12", "extend 512 10 0"] {
            assert!(by(other).is_empty(), "{other}");
        }
        let live_last = ["open 512 5120 12", "allocate raw 512", "release 511 1"];
        assert_eq!(named_by_the_last(&live_last), ["E - 1, live", "the last byte of a live piece"]);
        assert!(named_by_the_last(&["open 512 5120 12", "release 0 1"]).is_empty());
        assert!(named_by_the_last(&["open 512 5120 12", "words 1", "release 0 1"]).is_empty());
    }

    #[test]
    fn a_name_of_size_0_and_a_name_without_an_entry_are_counted() {
        let opening = "open 512 5120 12";
        assert_eq!(met_by_the_last(&[opening, "release 0 0"]), ["a name where there is no entry"]);
        assert_eq!(met_by_the_last(&[opening, "shorten 9 1 1"]), ["a name where there is no entry"]);
        let refused = "size 0 at a live piece's start, refused as a name";
        assert_eq!(met_by_the_last(&[opening, "allocate raw 9", "release 0 0"]), [refused]);
        assert!(met_by_the_last(&[opening, "allocate raw 9", "extend 0 0 1"]).is_empty());
        assert!(met_by_the_last(&[opening, "allocate raw 9", "release 9 0"]).is_empty());
    }

    #[test]
    fn a_summary_is_counted_by_what_a_call_makes_of_it() {
        let first = ["open 512 5120 12", "allocate raw 512", "allocate raw 512"];
        let then = |lines: &[&'static str]| met_by_the_last(&[&first, lines].concat());
        assert_eq!(then(&["release 512 512"]), ["an end moved down"]);
        assert_eq!(then(&["release 0 512", "allocate raw 512"]), ["the largest large section gone"]);
        assert_eq!(then(&["default 4"]), ["a summary that an opening sets to 0"]);
        assert_eq!(then(&["default 3"]), ["a summary that a refused opening leaves"]);
        let other = "words 0 512 6 512 512 3 0 0 0 0 0 0";
        assert_eq!(then(&[other, "allocate raw 1"]), ["a summary that disagrees, refused"]);
        assert_eq!(then(&[other, "list large 2"]), ["a summary that disagrees, listed"]);
        assert_eq!(then(&[other, "fresh"]), ["a summary worked out afresh to another one"]);
        assert_eq!(then(&["words", "fresh"]), ["a summary that a refused fresh leaves"]);
        let signed = "summary 0 0 0 0 0 0 0 0 0 0 0 0 0 0 0 0 0 0 0 0 0 0 0 0 0 0 0 0 -5";
        assert_eq!(then(&[signed, "allocate raw 512"]), ["a signed number that no call leaves, accepted", "an end moved up"]);
    }
}
