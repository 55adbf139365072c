//! Document 01's File Space Info message, version 1, in the two lengths of request E1: with persist 0 it is its head alone.
//!
//!   HEAD_LENGTH   the bytes of the head: the version and the fields up to the EOA
//!   FULL_LENGTH   the bytes of a message with persistence: the head, and twelve addresses behind it
//!   UNDEFINED     the undefined address, all ones
//!   ABSENT        what six absent addresses read as
//!   Fields        every field but the version
//!   read          the fields of a message at the start of the lent bytes
//!   rest          how many of the lent bytes follow the message
//!   bytes_of      the bytes of a message, whether its fields keep the rules or not
//!   write         the bytes of a message, at the start of the lent bytes

use crate::model::{LARGEST_PAGE, LEAST_PAGE, SLICE_TOO_SHORT};

pub const HEAD_LENGTH: usize = 29;
pub const FULL_LENGTH: usize = 125;
pub const UNDEFINED: u64 = u64::MAX;
pub const ABSENT: [u64; 6] = [UNDEFINED; 6];
const VERSION: u8 = 1;

const WRONG_VERSION: u64 = 11;
const BROKEN_FIELD: u64 = 12;

#[derive(Clone, Debug, PartialEq, Eq)]
pub struct Fields {
    pub strategy: u8,
    pub persist: u8,
    pub threshold: u64,
    pub page: u64,
    pub page_end: u16,
    pub eoa: u64,
    pub small: [u64; 6],
    pub large: [u64; 6],
}

impl Fields {
    /// Every field in the message's order, each address by itself.
    pub fn numbers(&self) -> Vec<u64> {
        let head = [self.strategy.into(), self.persist.into(), self.threshold, self.page, self.page_end.into(), self.eoa];
        [head, self.small, self.large].concat()
    }

    /// Whether the message has addresses behind its head. One with a persist that breaks its rule has them too.
    fn has_addresses(&self) -> bool {
        self.persist != 0
    }

    /// How many bytes the message has.
    pub fn length(&self) -> usize {
        if self.has_addresses() { FULL_LENGTH } else { HEAD_LENGTH }
    }

    fn keep_the_rules(&self) -> bool {
        let mut addresses = self.small.iter().chain(&self.large);
        self.strategy <= 3
            && self.persist <= 1
            && (LEAST_PAGE..=LARGEST_PAGE).contains(&self.page)
            && (self.has_addresses() || addresses.all(|a| *a == UNDEFINED))
    }
}

/// Takes the next eight bytes of a message.
fn take_number(bytes: &mut &[u8]) -> u64 {
    let (number, rest) = bytes.split_at(8);
    *bytes = rest;
    u64::from_le_bytes(number.try_into().expect("eight bytes"))
}

fn take_addresses(bytes: &mut &[u8]) -> [u64; 6] {
    std::array::from_fn(|_| take_number(bytes))
}

/// The fields up to the EOA, with every address absent.
fn head_of(lent: &[u8]) -> Fields {
    let mut bytes = &lent[3..HEAD_LENGTH];
    let threshold = take_number(&mut bytes);
    let page = take_number(&mut bytes);
    let page_end = u16::from_le_bytes([bytes[0], bytes[1]]);
    bytes = &bytes[2..];
    let eoa = take_number(&mut bytes);
    Fields { strategy: lent[1], persist: lent[2], threshold, page, page_end, eoa, small: ABSENT, large: ABSENT }
}

/// The fields of a head with the addresses behind it.
fn with_addresses(head: Fields, mut behind: &[u8]) -> Fields {
    let small = take_addresses(&mut behind);
    let large = take_addresses(&mut behind);
    Fields { small, large, ..head }
}

pub fn read(lent: &[u8]) -> Result<Fields, u64> {
    if lent.len() < HEAD_LENGTH {
        return Err(SLICE_TOO_SHORT);
    }
    if lent[0] != VERSION {
        return Err(WRONG_VERSION);
    }
    // Absent addresses break no rule, so this looks at the fields up to the EOA alone.
    let head = head_of(lent);
    if !head.keep_the_rules() {
        return Err(BROKEN_FIELD);
    }
    if lent.len() < head.length() {
        return Err(SLICE_TOO_SHORT);
    }
    Ok(if head.has_addresses() { with_addresses(head, &lent[HEAD_LENGTH..FULL_LENGTH]) } else { head })
}

/// The whole lent part where the message is refused.
pub fn rest(lent: &[u8]) -> usize {
    match read(lent) {
        Ok(fields) => lent.len() - fields.length(),
        Err(_) => lent.len(),
    }
}

pub fn bytes_of(fields: &Fields) -> Vec<u8> {
    let mut bytes = vec![VERSION, fields.strategy, fields.persist];
    bytes.extend(fields.threshold.to_le_bytes());
    bytes.extend(fields.page.to_le_bytes());
    bytes.extend(fields.page_end.to_le_bytes());
    bytes.extend(fields.eoa.to_le_bytes());
    if fields.has_addresses() {
        bytes.extend(fields.small.iter().chain(&fields.large).flat_map(|address| address.to_le_bytes()));
    }
    bytes
}

pub fn write(fields: &Fields, lent: &mut [u8]) -> Result<(), u64> {
    if !fields.keep_the_rules() {
        return Err(BROKEN_FIELD);
    }
    let length = fields.length();
    if lent.len() < length {
        return Err(SLICE_TOO_SHORT);
    }
    lent[..length].copy_from_slice(&bytes_of(fields));
    Ok(())
}

#[cfg(test)]
mod tests {
    use super::*;

    fn persistent() -> Fields {
        let small = [1, 2, 3, 4, 5, 6];
        Fields { strategy: 1, persist: 1, threshold: 7, page: 4096, page_end: 9, eoa: 10, small, large: small }
    }

    fn without_persistence() -> Fields {
        Fields { persist: 0, small: ABSENT, large: ABSENT, ..persistent() }
    }

    #[test]
    fn a_message_reads_back_from_29_or_125_bytes() {
        for (fields, length) in [(without_persistence(), 29), (persistent(), 125)] {
            let bytes = bytes_of(&fields);
            assert_eq!((bytes.len(), fields.length(), rest(&bytes)), (length, length, 0));
            assert_eq!(read(&bytes), Ok(fields));
        }
    }

    #[test]
    fn the_first_bytes_stand_where_the_document_says() {
        let bytes = bytes_of(&persistent());
        assert_eq!(bytes[..3], [1, 1, 1]);
        assert_eq!((bytes[3], bytes[11], bytes[12], bytes[19], bytes[21], bytes[29], bytes[77]), (7, 0, 16, 9, 10, 1, 1));
    }

    #[test]
    fn ones_or_addresses_behind_a_message_without_persistence_follow_it() {
        let addresses = bytes_of(&persistent()).split_off(29);
        for behind in [vec![0xff; 96], addresses] {
            let lent = [bytes_of(&without_persistence()), behind].concat();
            assert_eq!(read(&lent), Ok(without_persistence()));
            assert_eq!(rest(&lent), 96);
        }
    }

    #[test]
    fn refusals_come_in_the_order_10_11_12_10() {
        let mut lent = bytes_of(&persistent());
        lent[0] = 2;
        lent[1] = 4;
        assert_eq!(read(&lent[..28]), Err(SLICE_TOO_SHORT));
        assert_eq!(read(&lent[..29]), Err(WRONG_VERSION));
        lent[0] = 1;
        assert_eq!(read(&lent[..29]), Err(BROKEN_FIELD));
        lent[1] = 1;
        assert_eq!(read(&lent[..29]), Err(SLICE_TOO_SHORT));
        assert_eq!(read(&lent[..124]), Err(SLICE_TOO_SHORT));
        assert_eq!(rest(&lent[..124]), 124);
        assert_eq!(read(&lent), Ok(persistent()));
    }

    #[test]
    fn a_broken_field_of_the_head_is_12_where_the_addresses_are_cut_short() {
        for broken in [Fields { page: 511, ..persistent() }, Fields { persist: 2, ..persistent() }] {
            let lent = &bytes_of(&broken)[..60];
            assert_eq!(read(lent), Err(BROKEN_FIELD));
            assert_eq!(rest(lent), 60);
        }
    }

    #[test]
    fn a_writer_refuses_12_before_10_and_then_writes_nothing() {
        let mut lent = [0xaa; 124];
        assert_eq!(write(&Fields { persist: 0, ..persistent() }, &mut lent), Err(BROKEN_FIELD));
        assert_eq!(write(&Fields { page: 511, ..without_persistence() }, &mut lent[..28]), Err(BROKEN_FIELD));
        assert_eq!(write(&without_persistence(), &mut lent[..28]), Err(SLICE_TOO_SHORT));
        assert_eq!(write(&persistent(), &mut lent), Err(SLICE_TOO_SHORT));
        assert_eq!(lent, [0xaa; 124]);
    }

    #[test]
    fn a_writer_changes_nothing_behind_29_or_125_bytes() {
        for fields in [without_persistence(), persistent()] {
            let mut lent = [0xaa; 127];
            assert_eq!(write(&fields, &mut lent), Ok(()));
            let behind = vec![0xaa; lent.len() - fields.length()];
            assert_eq!(lent[..], [bytes_of(&fields), behind].concat());
        }
    }
}
