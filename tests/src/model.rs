//! Document 01's rules for a space, with request E2's summary, request E3's refusals and request E7's default, read literally: each rule stands
//! beside the sentence that decides it.
//!
//!   State      the four numbers P, M, E, n
//!   Entry      a piece with its kind, one of the six
//!   Slip       one of the errors that document 01 says a builder will be drawn to, a refusal that writes, an error in the summary, one in
//!              what is wrong with a name or in the way to it, or the default page size of before request E7; `Slip::None` is the model
//!   is_sound   whether a state and a table keep every rule of a sound table
//!   Model      a state over a lent table of words with a lent summary, and the calls `open`, `open_default`, `allocate`, `release`, `extend`,
//!              `shorten`, `list`, `fresh`
//!   Draft      the entries and the E that a call would leave; a refused call drops its draft, so it changes nothing
//!
//! What is document 01's was written from it, and from decisions handed to the writer where it leaves a corner open; the library and its specs
//! were not read. What is the summary's was written from request E2's words, before the library had a summary; what is wrong with a name, from
//! request E3's words, and again the library was not read. Only the two slips by halves follow the library's loop, each with one error in it; the
//! model itself looks at every entry. Sums that could pass 2^64 are over u128. Not here: the numbers of a summary (summary.rs), and the File Space
//! Info message.

use crate::summary::{Summary, Totals};

pub const LEAST_PAGE: u64 = 512;
pub const LARGEST_PAGE: u64 = 1 << 30;
pub const LARGEST_LIMIT: u64 = 1 << 62;
pub const DEFAULT_PAGE: u64 = 65_536;
pub const DEFAULT_LIMIT: u64 = LARGEST_LIMIT;
pub const ENTRY_WORDS: usize = 3;
const LEAST_TABLE: usize = 4 * ENTRY_WORDS;
pub const LARGEST_TABLE: usize = 1_024 * ENTRY_WORDS;

pub const METADATA: u64 = 1;
pub const RAW: u64 = 2;

pub const LIVE_METADATA: u64 = 1;
pub const LIVE_RAW: u64 = 2;
pub const LIVE_LARGE: u64 = 3;
pub const FREE_METADATA: u64 = 4;
pub const FREE_RAW: u64 = 5;
pub const FREE_LARGE: u64 = 6;

pub const OPENING_OUT_OF_RANGE: u64 = 1;
pub const NOT_SOUND: u64 = 2;
pub const UNKNOWN_CODE: u64 = 3;
pub const NO_BYTES: u64 = 4;
pub const BEYOND_LIMIT: u64 = 5;
pub const TABLE_FULL: u64 = 6;
pub const NO_ROOM_BEHIND: u64 = 8;
pub const TOO_LITTLE_LEFT: u64 = 9;
pub const SLICE_TOO_SHORT: u64 = 10;
pub const BEYOND_END: u64 = 13;
pub const IN_FREE: u64 = 14;
pub const INSIDE_LIVE: u64 = 15;
pub const OTHER_SIZE: u64 = 16;

/// A refusal's number.
pub type Refusal = u64;

#[derive(Clone, Copy, Debug, Default, PartialEq, Eq)]
pub struct State {
    pub page: u64,
    pub limit: u64,
    pub end: u64,
    pub count: u64,
}

impl State {
    pub fn of([page, limit, end, count]: [u64; 4]) -> State {
        State { page, limit, end, count }
    }

    pub fn numbers(&self) -> [u64; 4] {
        [self.page, self.limit, self.end, self.count]
    }
}

#[derive(Clone, Copy, Debug, PartialEq, Eq)]
pub struct Entry {
    pub address: u64,
    pub size: u64,
    pub kind: u64,
}

/// The errors of document 01's list, errors in a summary, in what is wrong with a name, and in the way to the named piece, to see that the runner
/// finds each.
#[derive(Clone, Copy, Debug, Default, PartialEq, Eq)]
pub enum Slip {
    #[default]
    None,
    FirstFit,
    SmallInAMisalignedRest,
    MergedOverABorder,
    CutIntoAPartPage,
    BorderByMask,
    EmptiedPageStaysSmall,
    RefusalWritesAWord,
    SummaryNotCompared,
    OneManagerCompared,
    SignedNumberCompared,
    RefusalWritesTheSummary,
    BytesNotMovedDown,
    LargestNotFoundAnew,
    DecadeStartsTooLate,
    OpeningKeepsTheDecades,
    FreshKeepsTheSignedNumber,
    FreeToldAsInside,
    EndToldAsFree,
    OtherSizeToldAsInside,
    BeyondTheEndAByteLate,
    HalfPassesOverAnEntry,
    HalfLeavesOutTheLastEntry,
    DefaultPageAsBefore,
}

/// Every slip with the name by which `model_filespace` takes it.
pub const SLIPS: [(&str, Slip); 23] = [
    ("first-fit", Slip::FirstFit),
    ("small-in-a-misaligned-rest", Slip::SmallInAMisalignedRest),
    ("merged-over-a-border", Slip::MergedOverABorder),
    ("cut-into-a-part-page", Slip::CutIntoAPartPage),
    ("border-by-mask", Slip::BorderByMask),
    ("emptied-page-stays-small", Slip::EmptiedPageStaysSmall),
    ("refusal-writes-a-word", Slip::RefusalWritesAWord),
    ("summary-not-compared", Slip::SummaryNotCompared),
    ("one-manager-compared", Slip::OneManagerCompared),
    ("signed-number-compared", Slip::SignedNumberCompared),
    ("refusal-writes-the-summary", Slip::RefusalWritesTheSummary),
    ("bytes-not-moved-down", Slip::BytesNotMovedDown),
    ("largest-not-found-anew", Slip::LargestNotFoundAnew),
    ("decade-starts-too-late", Slip::DecadeStartsTooLate),
    ("opening-keeps-the-decades", Slip::OpeningKeepsTheDecades),
    ("fresh-keeps-the-signed-number", Slip::FreshKeepsTheSignedNumber),
    ("free-told-as-inside", Slip::FreeToldAsInside),
    ("end-told-as-free", Slip::EndToldAsFree),
    ("other-size-told-as-inside", Slip::OtherSizeToldAsInside),
    ("beyond-the-end-a-byte-late", Slip::BeyondTheEndAByteLate),
    ("half-passes-over-an-entry", Slip::HalfPassesOverAnEntry),
    ("half-leaves-out-the-last-entry", Slip::HalfLeavesOutTheLastEntry),
    ("default-page-as-before", Slip::DefaultPageAsBefore),
];

/// The code of the manager for large pieces; `METADATA` and `RAW` are those of the small ones.
pub const LARGE: u64 = 3;

/// The kind of a free entry of a class: small metadata, small raw or large.
pub fn free_kind(class: u64) -> u64 {
    match class {
        METADATA => FREE_METADATA,
        RAW => FREE_RAW,
        _ => FREE_LARGE,
    }
}

impl Entry {
    fn of(words: &[u64]) -> Entry {
        Entry { address: words[0], size: words[1], kind: words[2] }
    }

    fn words(&self) -> [u64; ENTRY_WORDS] {
        [self.address, self.size, self.kind]
    }

    /// Where the entry ends: the first address behind it.
    pub fn end(&self) -> u128 {
        u128::from(self.address) + u128::from(self.size)
    }

    pub fn is_live(&self) -> bool {
        [LIVE_METADATA, LIVE_RAW, LIVE_LARGE].contains(&self.kind)
    }

    pub fn is_free(&self) -> bool {
        [FREE_METADATA, FREE_RAW, FREE_LARGE].contains(&self.kind)
    }

    pub fn is_small(&self) -> bool {
        self.class() != LARGE
    }

    fn class(&self) -> u64 {
        match self.kind {
            LIVE_METADATA | FREE_METADATA => METADATA,
            LIVE_RAW | FREE_RAW => RAW,
            _ => LARGE,
        }
    }

    /// Whether the byte at an address is one of the entry's.
    pub fn holds(&self, address: u64) -> bool {
        self.address <= address && u128::from(address) < self.end()
    }

    /// Whether a byte of the entry lies in the page of `page` bytes at `border`.
    fn touches(&self, border: u64, page: u64) -> bool {
        u128::from(self.address) < u128::from(border) + u128::from(page) && u128::from(border) < self.end()
    }
}

/// The entries that a table's first words name, or None where the table has too few words.
pub fn entries_of(table: &[u64], count: u64) -> Option<Vec<Entry>> {
    let words = usize::try_from(count).ok()?.checked_mul(ENTRY_WORDS)?;
    let entries = table.get(..words)?.chunks_exact(ENTRY_WORDS);
    Some(entries.map(Entry::of).collect())
}

/// A table of so many words that has these entries, and 0 in every word after them.
pub fn table_of(entries: &[Entry], words: usize) -> Vec<u64> {
    let mut table: Vec<u64> = entries.iter().flat_map(Entry::words).collect();
    table.resize(words, 0);
    table
}

/// "A table is sound when all of this holds", in the document's order.
pub fn is_sound(state: &State, table: &[u64]) -> bool {
    let page = state.page;
    let in_one_page = |pair: &[Entry]| pair[0].address / page == pair[1].address / page;
    let Some(entries) = entries_of(table, state.count) else {
        return false;
    };
    is_in_range(page, state.limit, table.len())
        && numbers_agree(state, table)
        && entries_tile(state, &entries)
        && entries.iter().all(|entry| is_small_sound(entry, &entries, page))
        && entries.iter().all(|entry| is_large_sound(entry, page))
        && entries.windows(2).all(|pair| !must_be_one(&pair[0], &pair[1], in_one_page(pair)))
        && entries.last().is_none_or(|last| !(last.kind == FREE_LARGE && last.size >= page))
}

/// "512 <= P <= 1,073,741,824"; "P <= M <= 2^62"; the slice's length is "a multiple of 3 from 12 to 3,072".
fn is_in_range(page: u64, limit: u64, words: usize) -> bool {
    (LEAST_PAGE..=LARGEST_PAGE).contains(&page)
        && (page..=LARGEST_LIMIT).contains(&limit)
        && (LEAST_TABLE..=LARGEST_TABLE).contains(&words)
        && words.is_multiple_of(ENTRY_WORDS)
}

/// "E is a multiple of P and E <= M; n <= C"; "every word after the first 3n is 0".
fn numbers_agree(state: &State, table: &[u64]) -> bool {
    let count = state.count as usize;
    state.end.is_multiple_of(state.page)
        && state.end <= state.limit
        && count <= table.len() / ENTRY_WORDS
        && table[ENTRY_WORDS * count..].iter().all(|word| *word == 0)
}

/// "Kinds are 1 to 6 and sizes at least 1. The first entry starts at 0, each next one starts where the former ends, the last ends
/// at E. n = 0 exactly when E = 0."
fn entries_tile(state: &State, entries: &[Entry]) -> bool {
    entries.iter().all(|entry| (entry.is_live() || entry.is_free()) && entry.size >= 1)
        && entries.first().is_none_or(|first| first.address == 0)
        && entries.windows(2).all(|pair| u128::from(pair[1].address) == pair[0].end())
        && entries.last().is_none_or(|last| last.end() == u128::from(state.end))
        && (state.count == 0) == (state.end == 0)
}

/// "Entries of kinds 1, 2, 4, 5 are smaller than P and lie within one page. A page touched by one of them holds only kinds 1 and 4,
/// or only 2 and 5, and holds at least one live entry." An entry of another kind keeps this rule.
fn is_small_sound(entry: &Entry, entries: &[Entry], page: u64) -> bool {
    let border = entry.address / page * page;
    let held = || entries.iter().filter(|other| other.touches(border, page));
    let is_within = entry.size < page && entry.end() <= u128::from(border) + u128::from(page);
    !entry.is_small() || (is_within && held().all(|other| other.class() == entry.class()) && held().any(Entry::is_live))
}

/// "Kind 3 starts at a multiple of P and has at least P bytes." An entry of another kind keeps this rule.
fn is_large_sound(entry: &Entry, page: u64) -> bool {
    entry.kind != LIVE_LARGE || (entry.address.is_multiple_of(page) && entry.size >= page)
}

/// "No two neighbouring entries are both kind 6. No two neighbouring entries in one page are both kind 4 or both kind 5."
fn must_be_one(former: &Entry, next: &Entry, in_one_page: bool) -> bool {
    former.is_free() && former.kind == next.kind && (former.kind == FREE_LARGE || in_one_page)
}

/// A state over a lent table, and the summary that is lent beside it.
#[derive(Clone, Debug, Default)]
pub struct Model {
    pub state: State,
    pub table: Vec<u64>,
    pub summary: Summary,
    pub slip: Slip,
}

impl Model {
    /// The entries of the state's count, none where the table has too few words.
    pub fn entries(&self) -> Vec<Entry> {
        entries_of(&self.table, self.state.count).unwrap_or_default()
    }

    /// Opens the space over the words in `table`: "Success zeroes every word and gives E = 0, n = 0." "An accepted opening sets all to 0
    /// whatever it held." A refused opening leaves the words and the summary as they were and gives a state of four zeros.
    pub fn open(&mut self, page: u64, limit: u64) -> Result<(), Refusal> {
        if !is_in_range(page, limit, self.table.len()) {
            self.state = State::default();
            return self.answered(Err(OPENING_OUT_OF_RANGE));
        }
        let kept = if self.slip == Slip::OpeningKeepsTheDecades { self.summary.totals.counts } else { Totals::default().counts };
        self.state = State::of([page, limit, 0, 0]);
        self.table.fill(0);
        self.summary = Summary { totals: Totals { counts: kept, ..Totals::default() }, moved: 0 };
        Ok(())
    }

    /// "The default opening becomes P = 65,536, M as before." (Request E7.)
    pub fn open_default(&mut self) -> Result<(), Refusal> {
        let page = if self.slip == Slip::DefaultPageAsBefore { 4_096 } else { DEFAULT_PAGE };
        self.open(page, DEFAULT_LIMIT)
    }

    /// "A request names metadata (1) or raw (2) and a size s." Answers the piece's address. "Order: allocate 2, 3, 4, 5, 6."
    pub fn allocate(&mut self, code: u64, size: u64) -> Result<u64, Refusal> {
        self.call(|draft| match (code, size) {
            (METADATA | RAW, 0) => Err(NO_BYTES),
            (METADATA | RAW, _) if size >= draft.state.page => draft.place_large(size),
            (METADATA | RAW, _) => draft.place_small(code, size),
            _ => Err(UNKNOWN_CODE),
        })
    }

    /// "The piece becomes free of its class". Order: 2, 13 to 16, 6.
    pub fn release(&mut self, address: u64, size: u64) -> Result<(), Refusal> {
        self.call(|draft| draft.live(address, size).map(|index| draft.free(index, size)))
    }

    /// "Extend by m": the piece takes m bytes of the room behind it. Order: 2, 4, 13 to 16, 8, 5, 6.
    pub fn extend(&mut self, address: u64, size: u64, by: u64) -> Result<(), Refusal> {
        self.call(|draft| {
            let index = draft.live_to_change(address, size, by)?;
            let behind = draft.room_behind(index, by)?;
            let kind = draft.entries[index].kind;
            draft.divide(index, 2, &[(size + by, kind), (behind.size - by, behind.kind)]);
            Ok(())
        })
    }

    /// "At least 1 byte must remain of a small piece, at least P of a large one. The cut part is freed as in a release." Order: 2, 4, 13 to
    /// 16, 9, 6.
    pub fn shorten(&mut self, address: u64, size: u64, by: u64) -> Result<(), Refusal> {
        self.call(|draft| {
            let index = draft.live_to_change(address, size, by)?;
            let least = if draft.entries[index].is_small() { 1 } else { draft.state.page };
            if u128::from(least) + u128::from(by) > u128::from(size) {
                return Err(TOO_LITTLE_LEFT);
            }
            draft.free(index, by);
            Ok(())
        })
    }

    /// "address and size of each free entry in address order", for a list slice of `room` words. "List 2, 3, 10." "Listing and the message
    /// don't take" the summary.
    pub fn list(&self, manager: u64, room: usize) -> Result<Vec<(u64, u64)>, Refusal> {
        let draft = self.draft()?;
        if ![METADATA, RAW, LARGE].contains(&manager) {
            return Err(UNKNOWN_CODE);
        }
        let free = draft.entries.iter().filter(|entry| entry.kind == free_kind(manager));
        let pairs: Vec<(u64, u64)> = free.map(|entry| (entry.address, entry.size)).collect();
        if room < 2 * pairs.len() {
            return Err(SLICE_TOO_SHORT);
        }
        Ok(pairs)
    }

    /// Works the summary out afresh, for a caller that kept a table and no summary; nothing moved the end. Refused 2 where state and table
    /// are not sound, and the summary is then as it was.
    pub fn fresh(&mut self) -> Result<(), Refusal> {
        let answer = self.draft().map(|draft| {
            let moved = if self.slip == Slip::FreshKeepsTheSignedNumber { self.summary.moved } else { 0 };
            self.summary = Summary { totals: self.totals_of(&draft.entries), moved };
        });
        self.answered(answer)
    }

    /// A call on a space: refusal 2 comes first, of a table or of a summary, then those of `change`, then 6; only then is a word written.
    fn call<T>(&mut self, change: impl FnOnce(&mut Draft) -> Result<T, Refusal>) -> Result<T, Refusal> {
        let answer = self.draft().and_then(|mut draft| {
            self.agree(&draft.entries)?;
            let answer = change(&mut draft)?;
            self.write(&draft)?;
            Ok(answer)
        });
        self.answered(answer)
    }

    /// "One that disagrees with the table at entry is refused as 2": in any number but the signed one, which says nothing of the table.
    fn agree(&self, entries: &[Entry]) -> Result<(), Refusal> {
        let (held, due) = (self.summary.totals, Totals::of(entries));
        let agrees = match self.slip {
            Slip::SummaryNotCompared => true,
            Slip::OneManagerCompared => held.managers[0] == due.managers[0],
            Slip::SignedNumberCompared => held == due && self.summary.moved == 0,
            _ => held == due,
        };
        if agrees { Ok(()) } else { Err(NOT_SOUND) }
    }

    /// "the summary worked out afresh from the new table", but for the signed number; a slip leaves something of the former one.
    fn totals_of(&self, entries: &[Entry]) -> Totals {
        let (former, mut totals) = (self.summary.totals, Totals::of(entries));
        let managers = totals.managers.iter_mut().zip(former.managers);
        match self.slip {
            Slip::BytesNotMovedDown => managers.for_each(|(new, old)| new.bytes = new.bytes.max(old.bytes)),
            Slip::LargestNotFoundAnew => managers.for_each(|(new, old)| new.largest = new.largest.max(old.largest)),
            Slip::DecadeStartsTooLate => {
                let a_byte_less: Vec<Entry> = entries.iter().map(|entry| Entry { size: entry.size - 1, ..*entry }).collect();
                totals.counts = Totals::of(&a_byte_less).counts;
            }
            _ => {}
        }
        totals
    }

    /// The entries as they are, for a call to change; refused when "state and table are not sound together".
    fn draft(&self) -> Result<Draft, Refusal> {
        if !is_sound(&self.state, &self.table) {
            return Err(NOT_SOUND);
        }
        let (state, entries, slip) = (self.state, self.entries(), self.slip);
        Ok(Draft { state, entries, slip })
    }

    /// Writes the draft, and 0 in every word after it, with the summary of it and "by how much" the call "moved the end of file"; refused
    /// when "the resulting table needs more than C entries".
    fn write(&mut self, draft: &Draft) -> Result<(), Refusal> {
        if draft.entries.len() > self.table.len() / ENTRY_WORDS {
            return Err(TABLE_FULL);
        }
        let moved = draft.state.end as i64 - self.state.end as i64;
        self.summary = Summary { totals: self.totals_of(&draft.entries), moved };
        self.state = draft.state;
        self.state.count = draft.entries.len() as u64;
        self.table = table_of(&draft.entries, self.table.len());
        Ok(())
    }

    /// Hands the answer on. A refused call "writes nothing", and "leaves" the summary "unchanged", but for the slips, which `list` cannot
    /// make: it has no table to write.
    fn answered<T>(&mut self, answer: Result<T, Refusal>) -> Result<T, Refusal> {
        match self.slip {
            Slip::RefusalWritesAWord if answer.is_err() => self.table.iter_mut().take(1).for_each(|word| *word = word.wrapping_add(1)),
            Slip::RefusalWritesTheSummary if answer.is_err() => self.summary.moved = 0,
            _ => {}
        }
        answer
    }
}

/// The entries and the E that a call would leave. They start sound, so each end is within 2^62 and only a request can pass 2^64.
struct Draft {
    state: State,
    entries: Vec<Entry>,
    slip: Slip,
}

impl Draft {
    /// "s >= P, large." The piece goes to the first border of the best entry; "what lies before and after it stays kind 6. If none
    /// fits, the piece goes to E", and what remains of the grown pages is kind 6. Answers the piece's address.
    fn place_large(&mut self, size: u64) -> Result<u64, Refusal> {
        // "It fits when b + s <= a + z."
        let fits = |entry: &Entry| u128::from(self.first_border(entry.address)) + u128::from(size) <= entry.end();
        let (index, b) = match self.best(|entry| entry.kind == FREE_LARGE && fits(entry)) {
            Some(index) => (index, self.first_border(self.entries[index].address)),
            None => (self.entries.len(), self.grow(size)?.address),
        };
        let Entry { address: a, size: z, .. } = self.entries[index];
        self.divide(index, 1, &[(b - a, FREE_LARGE), (size, LIVE_LARGE), (a + z - b - size, FREE_LARGE)]);
        Ok(b)
    }

    /// "s < P, small. Among free small entries of the request's type with at least s bytes take the smallest, then the lowest. The
    /// piece goes to its start; the rest stays free." Answers the piece's address.
    fn place_small(&mut self, code: u64, size: u64) -> Result<u64, Refusal> {
        let fitting = self.best(|entry| entry.kind == free_kind(code) && entry.size >= size);
        if let Some(index) = fitting.or_else(|| self.misaligned_rest(size)) {
            let Entry { address, size: room, kind } = self.entries[index];
            self.divide(index, 1, &[(size, code), (room - size, kind)]);
            return Ok(address);
        }
        // "If none fits, one page is obtained by the large rule for a request of P."
        let address = self.place_large(self.state.page)?;
        let index = self.live(address, self.state.page)?;
        self.divide(index, 1, &[(size, code), (self.state.page - size, free_kind(code))]);
        Ok(address)
    }

    /// With the slip, a free large entry that starts at no border and has room for a small request.
    fn misaligned_rest(&self, size: u64) -> Option<usize> {
        let is_rest = |entry: &Entry| entry.kind == FREE_LARGE && self.border(entry.address) != entry.address;
        self.best(|entry| self.slip == Slip::SmallInAMisalignedRest && is_rest(entry) && entry.size >= size)
    }

    /// "Among fitting entries take the smallest z, then the lowest a."
    fn best(&self, fits: impl Fn(&Entry) -> bool) -> Option<usize> {
        let mut fitting = (0..self.entries.len()).filter(|index| fits(&self.entries[*index]));
        match self.slip {
            Slip::FirstFit => fitting.next(),
            _ => fitting.min_by_key(|index| (self.entries[*index].size, self.entries[*index].address)),
        }
    }

    /// "E grows by the fewest whole pages that hold s"; "That growth must leave E <= M." The grown pages are one free large entry,
    /// the last, which is the answer.
    fn grow(&mut self, size: u64) -> Result<Entry, Refusal> {
        let page = u128::from(self.state.page);
        let growth = u128::from(size).div_ceil(page) * page;
        if u128::from(self.state.end) + growth > u128::from(self.state.limit) {
            return Err(BEYOND_LIMIT);
        }
        let grown = Entry { address: self.state.end, size: growth as u64, kind: FREE_LARGE };
        self.entries.push(grown);
        self.state.end += grown.size;
        Ok(grown)
    }

    /// The index of the piece that a call names, or what is wrong with the name.
    fn live(&self, address: u64, size: u64) -> Result<usize, Refusal> {
        self.named(address, size).map_err(|why| self.told(why, address))
    }

    /// By the entry in which the address lies: "13 the address is at or beyond E; 14 it lies in free space; 15 it lies inside a live piece and
    /// isn't its start; 16 it is a live piece's start and the size differs."
    fn named(&self, address: u64, size: u64) -> Result<usize, Refusal> {
        if address >= self.state.end {
            return Err(BEYOND_END);
        }
        let index = self.holder(address);
        match self.entries[index] {
            entry if entry.is_free() => Err(IN_FREE),
            entry if entry.address != address => Err(INSIDE_LIVE),
            entry if entry.size != size => Err(OTHER_SIZE),
            _ => Ok(index),
        }
    }

    /// The index of the entry in which an address below E lies; a slip looks for it by halves, as request E4 has it, and gets an end of the range
    /// wrong by one.
    fn holder(&self, address: u64) -> usize {
        let count = self.entries.len();
        match self.slip {
            Slip::HalfPassesOverAnEntry => self.last_by_halves(address, count, 2),
            Slip::HalfLeavesOutTheLastEntry => self.last_by_halves(address, count - 1, 1),
            _ => self.entries.iter().position(|entry| entry.holds(address)).expect("entries hold every byte below E"),
        }
    }

    /// Of the first `high` entries the last that starts at or before the address, where the upper half begins so far behind the middle entry.
    fn last_by_halves(&self, address: u64, mut high: usize, behind: usize) -> usize {
        let mut low = 0;
        while low < high {
            let middle = low + (high - low) / 2;
            if address < self.entries[middle].address {
                high = middle;
            } else {
                low = middle + behind;
            }
        }
        low.min(self.entries.len()).saturating_sub(1)
    }

    /// What is told of a name at an address that is refused for this; a slip tells something else.
    fn told(&self, why: Refusal, address: u64) -> Refusal {
        let is_at_end = address == self.state.end;
        match (self.slip, why) {
            (Slip::FreeToldAsInside, IN_FREE) | (Slip::OtherSizeToldAsInside, OTHER_SIZE) => INSIDE_LIVE,
            (Slip::EndToldAsFree, BEYOND_END) if is_at_end => IN_FREE,
            (Slip::BeyondTheEndAByteLate, BEYOND_END) if is_at_end => {
                self.entries.last().map_or(why, |last| if last.is_free() { IN_FREE } else { INSIDE_LIVE })
            }
            _ => why,
        }
    }

    /// The index of the piece that an extend or a shorten names: refusal 4, then 13 to 16.
    fn live_to_change(&self, address: u64, size: u64, by: u64) -> Result<usize, Refusal> {
        match (size, by) {
            (0, _) | (_, 0) => Err(NO_BYTES),
            _ => self.live(address, size),
        }
    }

    /// "A small piece needs a free entry directly behind it in the page with at least m bytes, and its new size must stay below P. A
    /// large piece with an entry behind it needs that entry to be kind 6 with at least m bytes. A large piece ending at E grows the
    /// file by the fewest pages that hold m". Answers the entry behind the piece.
    fn room_behind(&mut self, index: usize, by: u64) -> Result<Entry, Refusal> {
        let piece = self.entries[index];
        let stays_small = piece.is_small() && u128::from(piece.size) + u128::from(by) < u128::from(self.state.page);
        match self.entries.get(index + 1) {
            None if !piece.is_small() => self.grow(by),
            Some(behind) if !piece.is_small() && behind.kind == FREE_LARGE && behind.size >= by => Ok(*behind),
            Some(behind) if stays_small && behind.is_free() && self.share_a_page(&piece, behind) && behind.size >= by => Ok(*behind),
            _ => Err(NO_ROOM_BEHIND),
        }
    }

    /// Puts parts of these sizes and kinds, one behind the other, in the place of `count` entries; a part of 0 bytes is no entry.
    fn divide(&mut self, index: usize, count: usize, parts: &[(u64, u64)]) {
        let mut address = self.entries[index].address;
        let mut entries = Vec::new();
        for &(size, kind) in parts.iter().filter(|(size, _)| *size > 0) {
            entries.push(Entry { address, size, kind });
            address += size;
        }
        self.entries.splice(index..index + count, entries);
    }

    /// Frees the last `bytes` of a piece: merge, hand an emptied page over, merge again, cut the end.
    fn free(&mut self, index: usize, bytes: u64) {
        let piece = self.entries[index];
        self.divide(index, 1, &[(piece.size - bytes, piece.kind), (bytes, free_kind(piece.class()))]);
        self.merge();
        self.hand_over();
        self.merge();
        self.cut_the_end();
    }

    /// "merges with free neighbours as the sound table demands".
    fn merge(&mut self) {
        let mut merged: Vec<Entry> = Vec::new();
        for entry in &self.entries {
            let in_one_page = |former: &Entry| self.slip == Slip::MergedOverABorder || self.share_a_page(former, entry);
            match merged.last_mut() {
                Some(former) if must_be_one(former, entry, in_one_page(former)) => former.size += entry.size,
                _ => merged.push(*entry),
            }
        }
        self.entries = merged;
    }

    /// "A small page with nothing live left becomes kind 6."
    fn hand_over(&mut self) {
        let page = self.state.page;
        for index in 0..self.entries.len() {
            let border = self.border(self.entries[index].address);
            let holds_live = self.entries.iter().any(|other| other.is_live() && other.touches(border, page));
            if self.entries[index].is_small() && !holds_live && self.slip != Slip::EmptiedPageStaysSmall {
                self.entries[index].kind = FREE_LARGE;
            }
        }
    }

    /// "If kind 6 then ends at E, as many whole pages as it contains at the end are cut from the file; a part page stays."
    fn cut_the_end(&mut self) {
        if let Some(last) = self.entries.last_mut().filter(|last| last.kind == FREE_LARGE) {
            let (size, whole_pages) = (last.size, last.size / self.state.page * self.state.page);
            let cut = if self.slip == Slip::CutIntoAPartPage { size } else { whole_pages };
            last.size -= cut;
            self.state.end -= cut;
            self.entries.retain(|entry| entry.size > 0);
        }
    }

    /// Whether two entries start in one page.
    fn share_a_page(&self, former: &Entry, next: &Entry) -> bool {
        self.border(former.address) == self.border(next.address)
    }

    /// The page border at or below an address.
    fn border(&self, address: u64) -> u64 {
        match self.slip {
            Slip::BorderByMask => address & !(self.state.page - 1),
            _ => address / self.state.page * self.state.page,
        }
    }

    /// "the first multiple of P not below a".
    fn first_border(&self, address: u64) -> u64 {
        self.border(address + self.state.page - 1)
    }
}
