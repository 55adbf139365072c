//! Request E2's summary of a table's free sections, read literally: what a caller lends beside the table.
//!
//!   Manager      of one manager: the number of free sections, their bytes and the largest one
//!   Totals       of the three managers, and over all of them the counts by decades; `of` works them out afresh from entries
//!   Summary      the totals, and by how much the last accepted call moved the end of file
//!   TOTALS       how many numbers the totals have
//!   MOVED        the place of the signed number, the last one: a summary has so many numbers before it
//!
//! Written from document 02's words before the library had a summary. Not here: when a summary is looked at and when it is written
//! (model.rs).

use crate::model::{free_kind, Entry, LARGE, METADATA, RAW};

const MANAGERS: [u64; 3] = [METADATA, RAW, LARGE];
const MANAGER_NUMBERS: usize = 3;

/// "the count of sections under 10 bytes and in each of eighteen decades, 10 to 99 first and 10^18 upward last".
pub const COUNTS: usize = 19;
pub const TOTALS: usize = MANAGERS.len() * MANAGER_NUMBERS + COUNTS;
pub const MOVED: usize = TOTALS;

/// "for each manager the number of free sections, their bytes and the largest one", which is 0 where there is none.
#[derive(Clone, Copy, Debug, Default, PartialEq, Eq)]
pub struct Manager {
    pub number: u64,
    pub bytes: u64,
    pub largest: u64,
}

#[derive(Clone, Copy, Debug, Default, PartialEq, Eq)]
pub struct Totals {
    pub managers: [Manager; MANAGERS.len()],
    pub counts: [u64; COUNTS],
}

/// All that a caller lends. The signed number is the one "by how much the last accepted call moved the end of file".
#[derive(Clone, Copy, Debug, Default, PartialEq, Eq)]
pub struct Summary {
    pub totals: Totals,
    pub moved: i64,
}

impl Manager {
    /// The free sections of these sizes. Sums go round at 2^64, which those of a sound table never reach.
    fn of(sizes: &[u64]) -> Manager {
        let bytes = sizes.iter().fold(0u64, |bytes, size| bytes.wrapping_add(*size));
        Manager { number: sizes.len() as u64, bytes, largest: sizes.iter().copied().max().unwrap_or(0) }
    }
}

/// Which of the counts has sections of this size: 0 for those under 10 bytes, then one for each further digit of the size.
pub fn count_with(size: u64) -> usize {
    (1..COUNTS).rev().find(|decade| size >= 10u64.pow(*decade as u32)).unwrap_or(0)
}

impl Totals {
    /// The totals of these entries. A live entry is no free section.
    pub fn of(entries: &[Entry]) -> Totals {
        let sizes = |manager: u64| entries.iter().filter(move |entry| entry.kind == free_kind(manager)).map(|entry| entry.size);
        let managers = MANAGERS.map(|manager| Manager::of(&sizes(manager).collect::<Vec<u64>>()));
        let mut counts = [0; COUNTS];
        MANAGERS.iter().flat_map(|manager| sizes(*manager)).for_each(|size| counts[count_with(size)] += 1);
        Totals { managers, counts }
    }

    /// Number, bytes and largest of each manager, then the counts.
    pub fn numbers(&self) -> Vec<u64> {
        let managers = self.managers.iter().flat_map(|manager| [manager.number, manager.bytes, manager.largest]);
        managers.chain(self.counts).collect()
    }

    /// The totals with these numbers, of which there are `TOTALS`.
    pub fn with(numbers: &[u64]) -> Totals {
        let (managers, counts) = numbers.split_at(TOTALS - COUNTS);
        let mut of = managers.chunks_exact(MANAGER_NUMBERS).map(|n| Manager { number: n[0], bytes: n[1], largest: n[2] });
        let managers = std::array::from_fn(|_| of.next().expect("numbers for each manager"));
        Totals { managers, counts: counts.try_into().expect("a number for each count") }
    }
}

#[cfg(test)]
mod tests {
    use super::*;

    #[test]
    fn a_decade_starts_at_its_power_of_ten_and_the_last_has_no_end() {
        assert_eq!([1, 9, 10, 99, 100, 999, 1_000].map(count_with), [0, 0, 1, 1, 2, 2, 3]);
        assert_eq!([10u64.pow(18) - 1, 10u64.pow(18), u64::MAX].map(count_with), [17, 18, 18]);
    }

    #[test]
    fn totals_are_worked_out_by_hand_for_step_5() {
        let free = [(412, 5), (324, 6), (502, 4), (9, 4)];
        let entries = free.map(|(size, kind)| Entry { address: 0, size, kind });
        let live = Entry { address: 0, size: 700, kind: 3 };
        let totals = Totals::of(&[&entries[..], &[live]].concat());
        assert_eq!(totals.numbers()[..9], [2, 511, 502, 1, 412, 412, 1, 324, 324]);
        assert_eq!(totals.numbers()[9..13], [1, 0, 3, 0]);
        assert_eq!(Totals::with(&totals.numbers()), totals);
    }
}
