//! Random scripts for `filespace`. The model plays along, so that a script can name live pieces, sizes at every edge of the present
//! table, and tables, states and summaries that are damaged in one place.
//!
//!   script     a script from a seed: calls on a space, on a wide table, on messages, or openings at the edges of their ranges
//!   Sort       which of these a script has, or calls alone, so many; `script_of` makes one of a sort
//!
//! Every call on a space is followed by `show words` and `show summary`; those that fill a wide table by the summary alone. Where a state or
//! a table is set by hand, the summary of before would be refused whatever they are: it is mostly set to that of the entries, or worked out
//! afresh.

use crate::draw::Draw;
use crate::message::{bytes_of, Fields, ABSENT, FULL_LENGTH, HEAD_LENGTH, UNDEFINED};
use crate::model::{self, table_of, Entry, Model, State, ENTRY_WORDS, FREE_LARGE, LARGEST_LIMIT, LARGEST_PAGE};
use crate::script::{fresh, read_line, show_summary, show_words, state_line, summary_line, words_line, write_line, Machine, MOST_WORDS};
use crate::summary::{Summary, Totals, MOVED, TOTALS};

const PAGES: [u64; 9] = [512, 512, 513, 1_000, 1_000, 1_023, 4_096, 65_536, LARGEST_PAGE];

/// Lines that are no call, each with something else wrong, and lines that say nothing.
const WRONG_LINES: [&str; 20] = [
    "",
    "# a comment",
    "  # allocate raw 1",
    "allocated raw 1",
    "open 512 5120",
    "allocate raw",
    "release 0 1 2",
    "allocate raw ten",
    "release -1 1",
    "extend 0 1 18446744073709551616",
    "open 512 5120 2049",
    "list raw 4097",
    "read 0g",
    "read 012",
    "summary",
    "summary 0 0 0",
    "fresh 1",
    "show",
    "show sections",
    "show summary words",
];

struct Author<'d> {
    draw: &'d mut Draw,
    machine: Machine,
    lines: Vec<String>,
}

#[derive(Clone, Copy, Debug)]
pub enum Sort {
    WideTable,
    Openings,
    Messages,
    Space,
    /// An opening and calls, so many together, and looks at the table between them.
    Calls(u64),
}

pub fn script(draw: &mut Draw) -> Vec<String> {
    let sort = match draw.below(100) {
        0 => Sort::WideTable,
        1..=3 => Sort::Openings,
        4..=11 => Sort::Messages,
        _ => Sort::Space,
    };
    script_of(sort, draw)
}

pub fn script_of(sort: Sort, draw: &mut Draw) -> Vec<String> {
    let mut author = Author { draw, machine: Machine::default(), lines: Vec::new() };
    match sort {
        Sort::WideTable => author.wide_table(),
        Sort::Openings => author.openings(),
        Sort::Messages => author.messages(),
        Sort::Space => author.space(),
        Sort::Calls(count) => author.calls(count),
    }
    author.lines
}

impl Author<'_> {
    fn model(&self) -> &Model {
        &self.machine.model
    }

    fn state(&self) -> State {
        self.machine.model.state
    }

    /// Adds a line, and has the model play it.
    fn say(&mut self, line: String) -> String {
        let answer = self.machine.answer(&line).unwrap_or_default();
        self.lines.push(line);
        answer
    }

    /// Adds a call on a space, and a look at every word and at the summary.
    fn call(&mut self, line: String) {
        self.say(line);
        self.say(show_words());
        self.say(show_summary());
    }

    // Sorts of scripts.

    fn space(&mut self) {
        self.open();
        let calls = 20 + self.draw.below(60);
        for _ in 0..calls {
            match self.draw.below(100) {
                0..=3 => self.damaged_state(),
                4..=10 => self.damaged_words(),
                11 => self.wrong_line(),
                12..=16 => self.damaged_summary(),
                _ => self.any_call(),
            }
        }
    }

    fn calls(&mut self, count: u64) {
        self.open();
        for _ in 1..count {
            match self.draw.below(10) {
                0..=4 => self.allocate(),
                5 | 6 => self.release(),
                7 | 8 => self.extend(),
                _ => self.shorten(),
            }
        }
    }

    /// A table with many entries, mostly small ones, up to the largest legal one; all are taken.
    fn wide_table(&mut self) {
        let page = self.draw.pick(&[512, 1_000]);
        let entries = self.draw.pick(&[64, 100, 341, 1_024]);
        self.say(format!("open {page} {LARGEST_LIMIT} {entries}"));
        while self.state().count < entries {
            let (kind, size) = (1 + self.draw.below(2), 1 + self.draw.below(page));
            self.say(format!("allocate {kind} {size}"));
            self.say(show_summary());
        }
        for _ in 0..40 {
            self.any_call();
        }
        self.damaged_words();
    }

    fn openings(&mut self) {
        for _ in 0..8 {
            let page = self.draw.pick(&[0, 1, 511, 512, 1_000, LARGEST_PAGE, LARGEST_PAGE + 1, u64::MAX]);
            let limit = self.draw.pick(&[0, page.wrapping_sub(1), page, page.wrapping_add(1), LARGEST_LIMIT, LARGEST_LIMIT + 1, u64::MAX]);
            let entries = self.draw.pick(&[0, 1, 3, 4, 5, 12, 1_024, 1_025, 2_048]);
            let summary = self.any_summary();
            self.say(summary_line(&summary));
            self.call(format!("open {page} {limit} {entries}"));
            self.any_call();
            self.call(format!("default {entries}"));
            self.any_call();
        }
    }

    fn messages(&mut self) {
        for _ in 0..12 {
            let fields = self.fields();
            let (lent, room) = (self.lent_message(&fields), self.room(&fields));
            self.say(read_line(&lent));
            self.say(write_line(&fields, room));
        }
    }

    // Calls.

    fn open(&mut self) {
        let page = self.draw.pick(&PAGES);
        let limit = match self.draw.below(8) {
            0 => page,
            1 => LARGEST_LIMIT,
            2 => page * (2 + self.draw.below(40)),
            _ => page * (2 + self.draw.below(20)) + self.draw.below(page),
        };
        let entries = if self.draw.once_in(8) { 13 + self.draw.below(40) } else { 4 + self.draw.below(9) };
        self.say(format!("open {page} {limit} {entries}"));
    }

    fn any_call(&mut self) {
        match self.draw.below(100) {
            0 | 1 => self.call(fresh()),
            2..=44 => self.allocate(),
            45..=64 => self.release(),
            65..=79 => self.extend(),
            80..=91 => self.shorten(),
            _ => self.list(),
        }
    }

    fn allocate(&mut self) {
        let size = self.size();
        let kind = match self.draw.below(40) {
            0 => self.draw.pick(&["0", "3", "4", "18446744073709551615"]),
            1 => "1",
            2 => "2",
            n if n % 2 == 0 => "metadata",
            _ => "raw",
        };
        self.call(format!("allocate {kind} {size}"));
    }

    fn release(&mut self) {
        let (address, size) = self.name();
        self.call(format!("release {address} {size}"));
    }

    fn extend(&mut self) {
        // A piece that ends at the end of the file is the one that can make it grow.
        let last = self.model().entries().last().copied().filter(Entry::is_live);
        let (address, size) = match last {
            Some(piece) if self.draw.once_in(3) => (piece.address, piece.size),
            _ => self.name(),
        };
        let by = self.extension(address, size);
        self.call(format!("extend {address} {size} {by}"));
    }

    fn shorten(&mut self) {
        let (address, size) = self.name();
        let by = self.cut(size);
        self.call(format!("shorten {address} {size} {by}"));
    }

    fn list(&mut self) {
        let manager = self.draw.pick(&["metadata", "raw", "large", "1", "2", "3", "0", "4"]);
        let sections = self.model().entries().iter().filter(|e| e.is_free()).count() as u64;
        let room = match self.draw.below(4) {
            0 => self.draw.below(2 * sections + 2),
            1 => 2 * sections / 3,
            _ => 2 * sections,
        };
        self.call(format!("list {manager} {room}"));
    }

    fn wrong_line(&mut self) {
        let line = self.draw.pick(&WRONG_LINES);
        self.say(line.to_string());
    }

    // Numbers at the edges.

    /// A number near another one: one less, the same, one more.
    fn near(&mut self, number: u64) -> u64 {
        match self.draw.below(3) {
            0 => number.saturating_sub(1),
            1 => number,
            _ => number.saturating_add(1),
        }
    }

    fn any_size(&mut self, sizes: &[Entry]) -> u64 {
        if sizes.is_empty() {
            return 1;
        }
        self.draw.pick(sizes).size
    }

    /// P, or a legal page size near it where the state is damaged.
    fn legal_page(&self) -> u64 {
        self.state().page.clamp(1, LARGEST_PAGE)
    }

    /// A request's size.
    fn size(&mut self) -> u64 {
        let State { limit, end, .. } = self.state();
        let page = self.legal_page();
        let free: Vec<Entry> = self.model().entries().into_iter().filter(Entry::is_free).collect();
        match self.draw.below(23) {
            0 => self.draw.below(2),
            1 => self.near(page),
            2 => {
                let pages = 1 + self.draw.below(4);
                self.near(page * pages)
            }
            3 | 4 => self.any_size(&free),
            5 => {
                let size = self.any_size(&free);
                self.near(size)
            }
            6 => self.near(limit.saturating_sub(end)),
            7 => u64::MAX - self.draw.below(3),
            8 => u64::MAX - self.draw.below(2 * page),
            9 => self.near(1 << 62),
            10 => page * (1 + self.draw.below(4)),
            11 => page + self.draw.below(3 * page),
            12..=14 => 1 + self.draw.below(16),
            15 => self.edge_of_a_decade(),
            16 | 17 => {
                let section = if self.draw.once_in(2) { page } else { self.any_size(&free) };
                section.saturating_sub(self.edge_of_a_decade())
            }
            _ => 1 + self.draw.below(page),
        }
    }

    /// The first size of a decade of a summary, or one near it; mostly a low one.
    fn edge_of_a_decade(&mut self) -> u64 {
        let decades = self.draw.pick(&[4, 4, 4, 19]);
        let power = self.draw.below(decades);
        self.near(10u64.pow(power as u32))
    }

    /// The name of a live piece mostly, and now and then one that no live piece has.
    fn name(&mut self) -> (u64, u64) {
        let entries = self.model().entries();
        if entries.is_empty() {
            return (self.draw.pick(&[0, 0, 1, u64::MAX]), self.draw.below(2));
        }
        let live: Vec<Entry> = entries.iter().copied().filter(Entry::is_live).collect();
        if live.is_empty() || self.draw.once_in(8) {
            return self.wrong_name(&entries);
        }
        let piece = self.draw.pick(&live);
        (piece.address, piece.size)
    }

    /// A name at the edges of an entry, inside it, or at the end. A wrong name may be a live piece's all the same.
    fn wrong_name(&mut self, entries: &[Entry]) -> (u64, u64) {
        let e = self.draw.pick(entries);
        let behind = e.address.wrapping_add(e.size);
        let inside = e.address.wrapping_add(self.draw.below(e.size.max(1)));
        match self.draw.below(9) {
            0 => (e.address, 0),
            1 => (e.address, self.near(e.size)),
            2 => (self.near(e.address), e.size),
            3 => (u64::MAX, e.size),
            4 => (e.address, u64::MAX),
            5 => (behind.wrapping_sub(1), self.near(1)),
            6 => (inside, e.size),
            7 => (inside, behind.wrapping_sub(inside)),
            _ => (self.near(self.state().end), e.size),
        }
    }

    /// By how much a piece is to be extended.
    fn extension(&mut self, address: u64, size: u64) -> u64 {
        let State { page, limit, end, .. } = self.state();
        let behind = address.wrapping_add(size);
        let next = self.model().entries().into_iter().find(|e| e.address == behind);
        let room = next.map_or(page, |e| e.size);
        match self.draw.below(12) {
            0 => self.draw.below(2),
            1 => self.near(page.saturating_sub(size)),
            2 => self.near(page),
            3 => self.near(limit.saturating_sub(end)),
            4 => u64::MAX - self.draw.below(2),
            5 => (u64::MAX - size).saturating_add(self.draw.below(2)),
            6 | 7 => self.near(room),
            8 | 9 => room,
            _ => 1 + self.draw.below(room.max(1)),
        }
    }

    /// By how much a piece is to be shortened.
    fn cut(&mut self, size: u64) -> u64 {
        let page = self.state().page;
        match self.draw.below(10) {
            0 => self.draw.below(2),
            1 => self.near(size),
            2 | 3 => self.near(size.saturating_sub(page)),
            4 => self.near(size.saturating_sub(1)),
            5 => u64::MAX - self.draw.below(2),
            6 => self.near(page),
            _ => 1 + self.draw.below(size.max(1)),
        }
    }

    // Damage.

    /// A call on the damaged space, and then the space as it was; a damaged one that is still sound may go on.
    fn try_and_restore(&mut self, before: Model) {
        let still_sound = model::is_sound(&self.state(), &self.model().table);
        self.sum_up();
        self.any_call();
        if still_sound && self.draw.once_in(2) {
            self.call(fresh());
            return;
        }
        self.say(words_line(&before.table));
        self.say(state_line(&before.state));
        self.say(summary_line(&before.summary));
    }

    /// The summary of a space that was set by hand: that of its entries, so that it can be refused for itself alone; the one that `fresh`
    /// gives, if any; or the one of before.
    fn sum_up(&mut self) {
        match self.draw.below(4) {
            0 => {}
            1 => self.call(fresh()),
            _ => {
                let Model { summary, .. } = self.model();
                let summed = Summary { totals: Totals::of(&self.model().entries()), ..*summary };
                self.say(summary_line(&summed));
            }
        }
    }

    /// A number of a summary, changed.
    fn other(&mut self, number: u64) -> u64 {
        let (down, up) = (number.wrapping_sub(1), number.wrapping_add(1));
        self.draw.pick(&[down, up, 0, u64::MAX])
    }

    /// The summary with one of its numbers changed: any of them, the signed one as any other.
    fn with_one_changed(&mut self, summary: &Summary) -> Summary {
        let place = self.draw.below(TOTALS as u64 + 1) as usize;
        if place == MOVED {
            return Summary { moved: self.other(summary.moved as u64) as i64, ..*summary };
        }
        let mut numbers = summary.totals.numbers();
        numbers[place] = self.other(numbers[place]);
        Summary { totals: Totals::with(&numbers), ..*summary }
    }

    /// Any numbers, as a caller may lend them to an opening.
    fn any_summary(&mut self) -> Summary {
        let numbers: Vec<u64> = (0..TOTALS).map(|_| self.address()).collect();
        Summary { totals: Totals::with(&numbers), moved: self.draw.word() as i64 }
    }

    /// A call with a damaged summary, and then one that agrees; one that still agrees goes on.
    fn damaged_summary(&mut self) {
        let before = self.model().summary;
        let damaged = self.with_one_changed(&before);
        self.say(summary_line(&damaged));
        self.any_call();
        if damaged.totals != before.totals {
            let line = if self.draw.once_in(2) { fresh() } else { summary_line(&before) };
            self.say(line);
        }
    }

    fn damaged_state(&mut self) {
        let before = self.model().clone();
        let mut s = before.state;
        match self.draw.below(8) {
            0 => s.page = self.near(s.page),
            1 => s.page = self.draw.pick(&[0, 511, 512, 1_000, LARGEST_PAGE + 1, u64::MAX]),
            2 => s.limit = self.near(s.end),
            3 => s.limit = self.draw.pick(&[0, s.page.wrapping_sub(1), LARGEST_LIMIT, LARGEST_LIMIT + 1, u64::MAX]),
            4 => s.end = self.near(s.end),
            5 => s.end = self.draw.pick(&[0, s.end.wrapping_sub(s.page), s.end.wrapping_add(s.page), u64::MAX]),
            6 => s.count = self.near(s.count),
            _ => s.count = self.draw.pick(&[0, (before.table.len() / ENTRY_WORDS) as u64, 1 << 62, (1 << 63) + s.count, u64::MAX]),
        }
        self.say(state_line(&s));
        self.try_and_restore(before);
    }

    fn damaged_words(&mut self) {
        let before = self.model().clone();
        let mut damaged = before.clone();
        match self.draw.below(4) {
            0 => self.damage_a_word(&mut damaged.table),
            1 => self.damage_the_length(&mut damaged.table),
            _ => self.damage_an_entry(&mut damaged),
        }
        self.say(words_line(&damaged.table));
        if damaged.state != before.state {
            self.say(state_line(&damaged.state));
        }
        self.try_and_restore(before);
    }

    fn damage_a_word(&mut self, table: &mut [u64]) {
        if table.is_empty() {
            return;
        }
        let i = self.draw.below(table.len() as u64) as usize;
        table[i] = match self.draw.below(6) {
            0 => table[i] ^ (1 << self.draw.below(64)),
            1 => self.draw.below(8),
            2 => u64::MAX,
            3 => 0u64.wrapping_sub(table[i]),
            _ => self.near(table[i]),
        };
    }

    fn damage_the_length(&mut self, table: &mut Vec<u64>) {
        let length = table.len();
        let length = match self.draw.below(4) {
            0 => length.saturating_sub(1),
            1 => length + 1,
            2 => length.saturating_sub(ENTRY_WORDS),
            _ => {
                let whole = [3, 4, 1_024, 1_025].map(|entries| entries * ENTRY_WORDS);
                self.draw.pick(&[0, whole[0], whole[1], length + ENTRY_WORDS, length + 2 * ENTRY_WORDS, whole[2], whole[3], MOST_WORDS])
            }
        };
        table.resize(length, 0);
    }

    /// Changes the entries so that they still tile the file, where they did: the other rules are to be broken, or just kept.
    fn damage_an_entry(&mut self, model: &mut Model) {
        let mut entries = model.entries();
        if entries.is_empty() {
            return;
        }
        let i = self.draw.below(entries.len() as u64) as usize;
        match self.draw.below(6) {
            0 | 1 => entries[i].kind = 1 + self.draw.below(6),
            2 => self.move_the_border(&mut entries, i),
            3 => self.split(&mut entries, i),
            4 => join(&mut entries, i),
            _ => {
                entries.push(Entry { address: model.state.end, size: model.state.page, kind: 1 + self.draw.below(6) });
                model.state.end = model.state.end.wrapping_add(model.state.page);
            }
        }
        let capacity = model.table.len() / ENTRY_WORDS;
        entries.truncate(capacity);
        model.state.count = entries.len() as u64;
        model.table = table_of(&entries, model.table.len());
    }

    /// The border between an entry and the next one moves.
    fn move_the_border(&mut self, entries: &mut [Entry], i: usize) {
        if i + 1 == entries.len() {
            return;
        }
        let both = entries[i].size.wrapping_add(entries[i + 1].size);
        let first = if self.draw.once_in(2) { self.near(entries[i].size) } else { self.draw.below(both.max(1)) };
        entries[i].size = first;
        entries[i + 1].address = entries[i].address.wrapping_add(first);
        entries[i + 1].size = both.wrapping_sub(first);
    }

    /// An entry becomes two; one kind may change.
    fn split(&mut self, entries: &mut Vec<Entry>, i: usize) {
        let whole = entries[i];
        if whole.size < 2 {
            return;
        }
        let first = 1 + self.draw.below(whole.size - 1);
        entries[i].size = first;
        let kind = if self.draw.once_in(2) { whole.kind } else { self.draw.pick(&[1, 2, 3, 4, 5, FREE_LARGE]) };
        entries.insert(i + 1, Entry { address: whole.address.wrapping_add(first), size: whole.size - first, kind });
    }

    // Messages.

    fn address(&mut self) -> u64 {
        match self.draw.below(3) {
            0 => UNDEFINED,
            1 => self.draw.below(1 << 20),
            _ => self.draw.word(),
        }
    }

    /// Fields that keep their rules, but for one in a third of the cases.
    fn fields(&mut self) -> Fields {
        let persist = self.draw.below(2) as u8;
        let mut addresses = || if persist == 1 { std::array::from_fn(|_| self.address()) } else { ABSENT };
        let (small, large) = (addresses(), addresses());
        let mut fields = Fields {
            strategy: self.draw.below(4) as u8,
            persist,
            threshold: self.address(),
            page: self.draw.pick(&PAGES),
            page_end: self.draw.word() as u16,
            eoa: self.address(),
            small,
            large,
        };
        if self.draw.once_in(3) {
            self.break_a_rule(&mut fields);
        }
        fields
    }

    fn break_a_rule(&mut self, fields: &mut Fields) {
        match self.draw.below(4) {
            0 => fields.strategy = self.draw.pick(&[4, 5, 128, 255]),
            1 => fields.persist = self.draw.pick(&[0, 1, 2, 128, 255]),
            2 => fields.page = self.draw.pick(&[0, 511, 512, LARGEST_PAGE, LARGEST_PAGE + 1, u64::MAX]),
            _ => {
                let i = self.draw.below(6) as usize;
                let address = UNDEFINED ^ (1 << self.draw.below(64));
                if self.draw.once_in(2) {
                    fields.small[i] = address;
                } else {
                    fields.large[i] = address;
                }
            }
        }
    }

    /// A message's bytes in a lent part: whole or cut short, with ones or any bytes behind it; a byte is changed in a third of the cases.
    fn lent_message(&mut self, fields: &Fields) -> Vec<u8> {
        let mut lent = bytes_of(fields);
        let (length, ones) = (self.room(fields), self.draw.once_in(2));
        lent.resize_with(length as usize, || if ones { u8::MAX } else { self.draw.word() as u8 });
        if self.draw.once_in(3) {
            self.damage_a_byte(&mut lent);
        }
        lent
    }

    /// Changes any byte, or one of the first three: one bit takes persist from 0 to 1, or back.
    fn damage_a_byte(&mut self, lent: &mut [u8]) {
        let any = self.draw.below(lent.len() as u64 + 1) as usize;
        let i = self.draw.pick(&[0, 1, 2, 2, any]);
        let change = if self.draw.once_in(2) { 1 } else { self.draw.word() as u8 };
        if let Some(byte) = lent.get_mut(i) {
            *byte ^= change;
        }
    }

    /// How many bytes are lent: as many as the message has, near one of the two lengths, fewer than the full one, or more.
    fn room(&mut self, fields: &Fields) -> u64 {
        let (head, full) = (HEAD_LENGTH as u64, FULL_LENGTH as u64);
        match self.draw.below(6) {
            0 => self.near(head),
            1 => self.near(full),
            2 => self.draw.below(full),
            3 => full + self.draw.below(300),
            _ => fields.length() as u64,
        }
    }
}

/// An entry and the next one become one, of the first one's kind.
fn join(entries: &mut Vec<Entry>, i: usize) {
    if i + 1 < entries.len() {
        entries[i].size = entries[i].size.wrapping_add(entries[i + 1].size);
        entries.remove(i + 1);
    }
}
