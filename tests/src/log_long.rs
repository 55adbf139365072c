//! Long logs, whose table hovers about so many entries, written as they are made.
//!
//!   Turn         calls with their answers that start and end with an empty table, so that they can be recorded again and again
//!   Opening      whether the file is opened, or the opening is refused, so that every call is
//!   write_long   a log of so many blocks, and what is to be said of it
//!
//! The model looks at each pair of entries, so a long log is one turn of many calls, repeated: each time round the answers are the same, since the
//! table is.

use crate::draw::Draw;
use crate::log::{block_of, Record, Recorder, BLOCK, MOST_RECORDS};
use crate::log_judge::Verdict;
use crate::model::{Entry, LARGEST_LIMIT};
use std::io::{self, Write};

const PAGE: u64 = 512;
/// Calls of a turn, before all is released.
const TURN: usize = 12_000;

#[derive(Clone, Copy, PartialEq, Eq)]
pub enum Opening {
    Done,
    Refused,
}

/// The open, and calls with their answers, each with the E that it leaves.
struct Turn {
    open: Record,
    recorder: Recorder,
    calls: Vec<(Record, u64)>,
}

impl Turn {
    fn new(entries: u64, draw: &mut Draw) -> Turn {
        let mut recorder = Recorder::default();
        let open = recorder.record(Record::open(PAGE, LARGEST_LIMIT, (2 * entries).clamp(4, 1_024)));
        let mut turn = Turn { open, recorder, calls: Vec::new() };
        while turn.calls.len() < TURN {
            turn.any_call(entries, draw);
        }
        while let Some(piece) = turn.live().last().copied() {
            turn.say(Record::release(piece.address, piece.size));
        }
        assert_eq!(turn.recorder.end(), 0, "an empty table");
        turn
    }

    /// The same calls behind an opening for no entries, which is refused.
    fn unopened(&self) -> Turn {
        let mut recorder = Recorder::default();
        let open = recorder.record(Record::open(PAGE, LARGEST_LIMIT, 0));
        let calls = self.calls.iter().map(|(call, _)| (recorder.record(*call), recorder.end())).collect();
        Turn { open, recorder, calls }
    }

    fn say(&mut self, call: Record) {
        let record = self.recorder.record(call);
        self.calls.push((record, self.recorder.end()));
    }

    fn live(&self) -> Vec<Entry> {
        self.recorder.model.entries().into_iter().filter(Entry::is_live).collect()
    }

    /// Allocations mostly below so many entries, and releases mostly above; now and then a name that no piece has.
    fn any_call(&mut self, entries: u64, draw: &mut Draw) {
        let live = self.live();
        let wants_more = self.recorder.model.state.count < entries;
        if live.is_empty() || draw.below(10) < if wants_more { 6 } else { 2 } {
            let size = if draw.once_in(6) { PAGE + draw.below(3 * PAGE) } else { 1 + draw.below(PAGE - 1) };
            return self.say(Record::allocate(1 + draw.below(2) as u8, size));
        }
        let Entry { address, size, .. } = draw.pick(&live);
        match draw.below(10) {
            0 => self.say(Record::release(address, size + 1)),
            1 | 2 => self.say(Record::extend(address, size, 1 + draw.below(64))),
            3 | 4 => self.say(Record::shorten(address, size, 1 + draw.below(size))),
            _ => self.say(Record::release(address, size)),
        }
    }
}

/// Block after block; the verdict is known by the way the log is made.
pub fn write_long(blocks: u32, entries: u64, seed: u64, opening: Opening, output: &mut impl Write) -> io::Result<Verdict> {
    let opened = Turn::new(entries, &mut Draw::new(seed));
    let turn = if opening == Opening::Done { opened } else { opened.unopened() };
    let mut records = [(turn.open, 0)].into_iter().chain(turn.calls.iter().copied().cycle());
    let mut left = 0;
    for number in 0..blocks {
        let block: Vec<(Record, u64)> = records.by_ref().take(MOST_RECORDS).collect();
        left = block.last().map_or(0, |(_, end)| *end);
        let block: [u8; BLOCK] = block_of(number, &block.into_iter().map(|(record, _)| record).collect::<Vec<_>>());
        output.write_all(&block)?;
    }
    Ok(Verdict::Agrees { records: u64::from(blocks) * MOST_RECORDS as u64, end: left })
}

#[cfg(test)]
mod tests {
    use super::*;
    use crate::log_judge::{judged, Slip};

    #[test]
    fn the_table_hovers_about_so_many_entries() {
        let turn = Turn::new(40, &mut Draw::new(1));
        let mut recorder = Recorder::default();
        recorder.record(turn.open);
        let entries = turn.calls.iter().map(|(call, _)| {
            assert_eq!(recorder.record(*call), *call);
            recorder.model.state.count
        });
        let mean = entries.sum::<u64>() / turn.calls.len() as u64;
        assert!((36..=44).contains(&mean), "{mean}");
    }

    #[test]
    fn a_log_of_more_than_one_turn_agrees() {
        for opening in [Opening::Done, Opening::Refused] {
            let mut log = Vec::new();
            let verdict = write_long(1_100, 12, 1, opening, &mut log).expect("written");
            assert_eq!(log.len(), 1_100 * BLOCK);
            assert_eq!(judged(&log, Slip::None), verdict);
        }
    }
}
