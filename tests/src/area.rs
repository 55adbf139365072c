//! Request E5's area of bytes, read literally: the five calls as C sees them, over the model of a space.
//!
//!   Call       one of the five calls, with its numbers
//!   answer     what a call answers, and what it leaves in the area and in the result
//!   area_of    the bytes of a state and a table
//!   length_of  the bytes of an area of so many entries
//!   Slip       one of the errors that the request has us refuse, or another at the edge of the bytes; `Slip::None` is the model
//!
//! Written from the request's words; the crate `area` was not read. Not here: what a call means on a state and a table of words (model.rs).

use crate::model::{Model, Refusal, State, ENTRY_WORDS, NOT_SOUND, OPENING_OUT_OF_RANGE, SLICE_TOO_SHORT};
use crate::summary::{Summary, Totals};

/// "every word little-endian in 8 bytes".
pub const WORD: usize = 8;
/// "P, M, E and n, then the table".
pub const HEAD: usize = 4 * WORD;
pub const ENTRY: usize = ENTRY_WORDS * WORD;
/// "C from 4 to 1,024".
pub const LEAST_ENTRIES: usize = 4;
pub const MOST_ENTRIES: usize = 1_024;
/// "Allocation puts the address into the first 8 bytes of the second buffer".
pub const ADDRESS: usize = WORD;

pub const DONE: u64 = 0;

/// A call with its numbers; the area and, for an allocation, the result are lent beside it.
#[derive(Clone, Copy, Debug, PartialEq, Eq)]
pub enum Call {
    Open { page: u64, limit: u64 },
    Allocate { code: u64, size: u64 },
    Release { address: u64, size: u64 },
    Extend { address: u64, size: u64, by: u64 },
    Shorten { address: u64, size: u64, by: u64 },
}

/// Errors at the edge between bytes and words, to see that the test finds each.
#[derive(Clone, Copy, Debug, Default, PartialEq, Eq)]
pub enum Slip {
    #[default]
    None,
    BigEndianWords,
    BigEndianAddress,
    EndAndCountExchanged,
    NinthByteOfTheResult,
    ResultOnARefusal,
    ThreeEntriesAccepted,
    MoreThanTheMostAccepted,
    BytesBehindTheTableAccepted,
    TwoAtAnOpening,
    ZerosAtARefusedOpening,
    OpeningLeavesTheLastByte,
    TwoBeforeTen,
    SevenBytesAreEnough,
    GuardBefore,
    GuardBehind,
}

pub const SLIPS: [Slip; 15] = [
    Slip::BigEndianWords,
    Slip::BigEndianAddress,
    Slip::EndAndCountExchanged,
    Slip::NinthByteOfTheResult,
    Slip::ResultOnARefusal,
    Slip::ThreeEntriesAccepted,
    Slip::MoreThanTheMostAccepted,
    Slip::BytesBehindTheTableAccepted,
    Slip::TwoAtAnOpening,
    Slip::ZerosAtARefusedOpening,
    Slip::OpeningLeavesTheLastByte,
    Slip::TwoBeforeTen,
    Slip::SevenBytesAreEnough,
    Slip::GuardBefore,
    Slip::GuardBehind,
];

pub fn length_of(entries: usize) -> usize {
    HEAD + ENTRY * entries
}

/// "32 + 24C with C from 4 to 1,024".
pub fn has_the_form(length: usize) -> bool {
    (length_of(LEAST_ENTRIES)..=length_of(MOST_ENTRIES)).contains(&length) && (length - HEAD).is_multiple_of(ENTRY)
}

/// The bytes of these words, one behind the other.
pub fn bytes_of(words: &[u64]) -> Vec<u8> {
    words.iter().flat_map(|word| word.to_le_bytes()).collect()
}

pub fn area_of(state: &State, table: &[u64]) -> Vec<u8> {
    [bytes_of(&state.numbers()), bytes_of(table)].concat()
}

/// The words of an area's bytes, as far as they are whole.
fn words_of(area: &[u8]) -> Vec<u64> {
    area.chunks_exact(WORD).map(|bytes| u64::from_le_bytes(bytes.try_into().expect("8 bytes"))).collect()
}

/// What an accepted call leaves: the area's bytes, and the address of an allocation.
type Left = (Vec<u8>, Option<u64>);

/// "The answer is the refusal number, 0 for done." "After a refusal both buffers are as they came, byte for byte".
pub fn answer(call: &Call, area: &mut [u8], result: &mut [u8], slip: Slip) -> u64 {
    match carried_out(call, area, result.len(), slip) {
        Ok((after, address)) => {
            let kept = area.last().copied();
            area.copy_from_slice(&after);
            if let Some(address) = address {
                put_address(result, address, slip);
            }
            if let (Slip::OpeningLeavesTheLastByte, Call::Open { .. }, Some(byte)) = (slip, call, kept) {
                area[after.len() - 1] = byte;
            }
            DONE
        }
        Err(why) => {
            match (slip, call) {
                (Slip::ResultOnARefusal, Call::Allocate { .. }) if result.len() >= ADDRESS => result[..ADDRESS].fill(u8::MAX),
                (Slip::ZerosAtARefusedOpening, Call::Open { .. }) => area.fill(0),
                _ => {}
            }
            why
        }
    }
}

/// "Allocation puts the address into the first 8 bytes of the second buffer and touches no later one".
fn put_address(result: &mut [u8], address: u64, slip: Slip) {
    let bytes = if slip == Slip::BigEndianAddress { address.to_be_bytes() } else { address.to_le_bytes() };
    result.iter_mut().zip(bytes).for_each(|(to, byte)| *to = byte);
    if let (Slip::NinthByteOfTheResult, Some(ninth)) = (slip, result.get_mut(ADDRESS)) {
        *ninth = 0;
    }
}

/// "a second buffer under 8 bytes is refused 10 before anything else. A length of the area that is not 32 + 24C with C from 4 to 1,024 is refused
/// 1 at opening and 2 elsewhere." Then the call's own refusals.
fn carried_out(call: &Call, area: &[u8], result_length: usize, slip: Slip) -> Result<Left, Refusal> {
    let is_short = matches!(call, Call::Allocate { .. }) && result_length < if slip == Slip::SevenBytesAreEnough { 7 } else { ADDRESS };
    if is_short && slip != Slip::TwoBeforeTen {
        return Err(SLICE_TOO_SHORT);
    }
    if !is_taken(area.len(), slip) {
        let at_opening = matches!(call, Call::Open { .. }) && slip != Slip::TwoAtAnOpening;
        return Err(if at_opening { OPENING_OUT_OF_RANGE } else { NOT_SOUND });
    }
    let mut model = decoded(area, slip);
    let address = on_words(call, &mut model)?;
    if is_short {
        return Err(SLICE_TOO_SHORT);
    }
    Ok((encoded(&model, area, slip), address))
}

/// The length has the form; a slip takes others too.
fn is_taken(length: usize, slip: Slip) -> bool {
    has_the_form(length)
        || match slip {
            Slip::ThreeEntriesAccepted => length == length_of(LEAST_ENTRIES - 1),
            Slip::MoreThanTheMostAccepted => length == length_of(MOST_ENTRIES + 1),
            Slip::BytesBehindTheTableAccepted => length > HEAD && has_the_form(length / WORD * WORD),
            _ => false,
        }
}

/// The state and the table of an area's bytes, with the summary of its entries: no area has one, so none can disagree.
fn decoded(area: &[u8], slip: Slip) -> Model {
    let mut words = words_of(area);
    undo(&mut words, slip);
    let mut table = words.split_off(HEAD / WORD);
    // Of a length that only a slip takes, the model gets a table that it takes.
    table.resize(table.len().clamp(LEAST_ENTRIES * ENTRY_WORDS, MOST_ENTRIES * ENTRY_WORDS), 0);
    let mut model = Model { state: State::of([words[0], words[1], words[2], words[3]]), table, ..Model::default() };
    model.summary = Summary { totals: Totals::of(&model.entries()), moved: 0 };
    model
}

/// The bytes of the model's state and table in the place of an area's.
fn encoded(model: &Model, area: &[u8], slip: Slip) -> Vec<u8> {
    let mut words = [&model.state.numbers(), &model.table[..]].concat();
    undo(&mut words, slip);
    let mut after = bytes_of(&words);
    after.truncate(area.len());
    after.extend_from_slice(&area[after.len()..]);
    after
}

/// A slip reads and writes other words: done twice, it is undone.
fn undo(words: &mut [u64], slip: Slip) {
    match slip {
        Slip::BigEndianWords => words.iter_mut().for_each(|word| *word = word.swap_bytes()),
        Slip::EndAndCountExchanged => words.swap(2, 3),
        _ => {}
    }
}

/// The call on the state and the table: the address of an allocation.
fn on_words(call: &Call, model: &mut Model) -> Result<Option<u64>, Refusal> {
    match *call {
        Call::Open { page, limit } => model.open(page, limit).map(|()| None),
        Call::Allocate { code, size } => model.allocate(code, size).map(Some),
        Call::Release { address, size } => model.release(address, size).map(|()| None),
        Call::Extend { address, size, by } => model.extend(address, size, by).map(|()| None),
        Call::Shorten { address, size, by } => model.shorten(address, size, by).map(|()| None),
    }
}

#[cfg(test)]
mod tests {
    use super::*;

    const OPEN: Call = Call::Open { page: 512, limit: 5_120 };
    const ALLOCATE: Call = Call::Allocate { code: 2, size: 258 };

    /// The number, the area and the result after a call on an area of these bytes and a result of so many bytes 0xaa.
    fn after(call: Call, area: &[u8], result_length: usize) -> (u64, Vec<u8>, Vec<u8>) {
        let (mut area, mut result) = (area.to_vec(), vec![0xaa; result_length]);
        let number = answer(&call, &mut area, &mut result, Slip::None);
        (number, area, result)
    }

    #[test]
    fn p_m_e_and_n_then_the_table_every_word_little_endian() {
        let (number, area, _) = after(OPEN, &[0xaa; 128], 0);
        assert_eq!((number, &area[..16]), (0, &[0, 2, 0, 0, 0, 0, 0, 0, 0, 20, 0, 0, 0, 0, 0, 0][..]));
        assert!(area[16..].iter().all(|byte| *byte == 0));
        let (number, area, _) = after(ALLOCATE, &area, 8);
        let words = [512, 5_120, 512, 2, 0, 258, 2, 258, 254, 5, 0, 0, 0, 0, 0, 0];
        assert_eq!((number, area), (0, bytes_of(&words)));
        assert_eq!(bytes_of(&words)[40..48], [2, 1, 0, 0, 0, 0, 0, 0]);
    }

    #[test]
    fn the_first_8_bytes_of_the_result_and_no_later_one() {
        let (_, opened, _) = after(OPEN, &[0; 152], 0);
        let (_, area, first) = after(ALLOCATE, &opened, 10);
        let (_, _, second) = after(ALLOCATE, &area, 9);
        assert_eq!(first, [0, 0, 0, 0, 0, 0, 0, 0, 0xaa, 0xaa]);
        assert_eq!(second, [0, 2, 0, 0, 0, 0, 0, 0, 0xaa]);
    }

    #[test]
    fn a_result_under_8_bytes_is_refused_10_before_anything_else() {
        let unknown = Call::Allocate { code: 3, size: 0 };
        let (_, opened, _) = after(OPEN, &[0; 128], 0);
        for area in [&[][..], &[1; 127], &[1; 128], &opened] {
            assert_eq!(after(unknown, area, 7), (10, area.to_vec(), vec![0xaa; 7]));
        }
        assert_eq!([&[][..], &[1; 128], &opened].map(|area| after(unknown, area, 8).0), [2, 2, 3]);
    }

    #[test]
    fn a_length_that_is_not_32_and_24_c_is_1_at_opening_and_2_elsewhere() {
        for length in [0, 31, 32, 104, 127, 129, 24_607, 24_609, 24_632] {
            let area = vec![1; length];
            assert_eq!(after(OPEN, &area, 0), (1, area.clone(), vec![]));
            assert_eq!(after(ALLOCATE, &area, 8), (2, area.clone(), vec![0xaa; 8]));
            let name = Call::Release { address: 0, size: 1 };
            assert_eq!(after(name, &area, 0), (2, area, vec![]));
        }
        assert_eq!([128, 152, 24_608].map(|length| after(OPEN, &vec![1; length], 0).0), [0, 0, 0]);
    }

    #[test]
    fn a_refused_opening_leaves_every_byte() {
        let call = Call::Open { page: 511, limit: 5_120 };
        assert_eq!(after(call, &[7; 128], 0), (1, vec![7; 128], vec![]));
    }

    #[test]
    fn decoding_and_encoding_again_is_the_identity() {
        let area: Vec<u8> = (0..128u32).map(|i| (i * 37 + 11) as u8).collect();
        let decoded = decoded(&area, Slip::None);
        assert_eq!(encoded(&decoded, &area, Slip::None), area);
        assert_eq!(area_of(&decoded.state, &decoded.table), area);
    }
}
