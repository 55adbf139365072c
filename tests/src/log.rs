//! Request E6's log, read literally: blocks of 512 bytes, each with up to twelve records of 40 bytes and a check over them.
//!
//!   Record     a call with its recorded refusal and answer; `bytes` and `of_bytes` are its 40 bytes
//!   sums       the two sums of a check
//!   block_of   the 512 bytes of a block of records
//!   log_of     the bytes of all blocks of records; `in_portions` those of blocks with fewer, as no recorder writes them
//!   set_check  makes the check of a block right
//!   Recorder   the model of a space, and what a recorder writes down of each call on it
//!
//! In a block, by byte:      0 number   4 count   5 zeros   8 twelve records   488 zeros   508 a   510 b
//! In a record, by byte:     0 operation   1 type   2 refusal   3 zeros   8 address   16 size   24 change   32 answer
//!
//! Written from the request's words; the crates that replay a log were not read. Not here: whether any bytes are such a log, and what is to be
//! said of them (log_judge.rs).

use crate::model::{Model, Refusal, ENTRY_WORDS, NOT_SOUND};

pub const BLOCK: usize = 512;
pub const COUNT_AT: usize = 4;
pub const HEAD: usize = 8;
pub const MOST_RECORDS: usize = 12;
pub const RECORD: usize = 40;
/// Behind the twelve records: "zeros to byte 507".
pub const RECORDS_END: usize = HEAD + MOST_RECORDS * RECORD;
/// "check in bytes 508 to 511".
pub const CHECK: usize = 508;
/// "both modulo 65,535".
pub const MODULUS: u32 = 65_535;

/// "operation (0 open, 1 allocate, 2 release, 3 extend, 4 shorten)".
pub const OPEN: u8 = 0;
pub const ALLOCATE: u8 = 1;
pub const RELEASE: u8 = 2;
pub const EXTEND: u8 = 3;
pub const SHORTEN: u8 = 4;

/// "2^64 - 1 when refused".
pub const NO_ADDRESS: u64 = u64::MAX;

/// "operation, type, recorded refusal number, 5 zero bytes, then address, size, change and recorded answer, 8 bytes each".
#[derive(Clone, Copy, Debug, Default, PartialEq, Eq)]
pub struct Record {
    pub operation: u8,
    pub code: u8,
    pub refusal: u8,
    pub zeros: [u8; 5],
    pub address: u64,
    pub size: u64,
    pub change: u64,
    pub answer: u64,
}

/// Calls, of which nothing is recorded yet. "Unused fields .. are zero."
impl Record {
    /// "Open carries P in size, M in change and C in address".
    pub fn open(page: u64, limit: u64, entries: u64) -> Record {
        Record { operation: OPEN, address: entries, size: page, change: limit, ..Record::default() }
    }

    pub fn allocate(code: u8, size: u64) -> Record {
        Record { operation: ALLOCATE, code, size, ..Record::default() }
    }

    pub fn release(address: u64, size: u64) -> Record {
        Record { operation: RELEASE, address, size, ..Record::default() }
    }

    pub fn extend(address: u64, size: u64, change: u64) -> Record {
        Record { operation: EXTEND, address, size, change, ..Record::default() }
    }

    pub fn shorten(address: u64, size: u64, change: u64) -> Record {
        Record { operation: SHORTEN, address, size, change, ..Record::default() }
    }
}

impl Record {
    pub fn bytes(&self) -> [u8; RECORD] {
        let mut bytes = [0; RECORD];
        bytes[..3].copy_from_slice(&[self.operation, self.code, self.refusal]);
        bytes[3..8].copy_from_slice(&self.zeros);
        for (to, word) in bytes[8..].chunks_exact_mut(8).zip([self.address, self.size, self.change, self.answer]) {
            to.copy_from_slice(&word.to_le_bytes());
        }
        bytes
    }

    /// The record of these 40 bytes, whatever they are.
    pub fn of_bytes(bytes: &[u8]) -> Record {
        let word = |at: usize| u64::from_le_bytes(bytes[at..at + 8].try_into().expect("8 bytes"));
        let zeros = bytes[3..8].try_into().expect("5 bytes");
        let [operation, code, refusal] = [bytes[0], bytes[1], bytes[2]];
        Record { operation, code, refusal, zeros, address: word(8), size: word(16), change: word(24), answer: word(32) }
    }
}

/// "bytes 0 to 507 as 254 little-endian 16-bit words: a is their sum, b the sum of a's successive values, both modulo 65,535 from 0".
pub fn sums(block: &[u8], modulus: u32) -> (u16, u16) {
    let words = block[..CHECK].chunks_exact(2).map(|two| u32::from(u16::from_le_bytes([two[0], two[1]])));
    let (a, b) = words.fold((0, 0), |(a, b), word| {
        let a = (a + word) % modulus;
        (a, (b + a) % modulus)
    });
    (a as u16, b as u16)
}

/// "a then b, little-endian".
pub fn set_check(block: &mut [u8]) {
    let (a, b) = sums(block, MODULUS);
    block[CHECK..CHECK + 2].copy_from_slice(&a.to_le_bytes());
    block[CHECK + 2..BLOCK].copy_from_slice(&b.to_le_bytes());
}

/// "number from 0 (4 bytes), record count 1 to 12 (1 byte), 3 zero bytes, twelve records of 40 bytes, zeros to byte 507, check". "Unused .. records
/// are zero."
pub fn block_of(number: u32, records: &[Record]) -> [u8; BLOCK] {
    let mut block = [0; BLOCK];
    block[..COUNT_AT].copy_from_slice(&number.to_le_bytes());
    block[COUNT_AT] = records.len() as u8;
    for (to, record) in block[HEAD..RECORDS_END].chunks_exact_mut(RECORD).zip(records) {
        to.copy_from_slice(&record.bytes());
    }
    set_check(&mut block);
    block
}

/// "Every block but the last .. has 12 records".
pub fn log_of(records: &[Record]) -> Vec<u8> {
    of_blocks(records.chunks(MOST_RECORDS))
}

/// The first of these records in blocks of so many each.
pub fn in_portions(records: &[Record], counts: &[usize]) -> Vec<u8> {
    let starts = counts.iter().scan(0, |from, count| Some(std::mem::replace(from, *from + count)));
    of_blocks(starts.zip(counts).map(|(from, count)| &records[from..from + count]))
}

fn of_blocks<'r>(blocks: impl Iterator<Item = &'r [Record]>) -> Vec<u8> {
    blocks.zip(0..).flat_map(|(records, number)| block_of(number, records)).collect()
}

/// The space that the calls of a log are made on. `is_open` is false before an open and after a refused one.
#[derive(Clone, Debug, Default)]
pub struct Recorder {
    pub model: Model,
    pub is_open: bool,
}

impl Recorder {
    /// The call with its "recorded refusal number", 0 for done, and its "recorded answer": "allocate's address answer (2^64 - 1 when refused) and
    /// 0 otherwise".
    pub fn record(&mut self, call: Record) -> Record {
        let answer = self.answer(&call);
        let refused = if call.operation == ALLOCATE { NO_ADDRESS } else { 0 };
        Record { refusal: answer.err().map_or(0, |why| why as u8), answer: answer.unwrap_or(refused), ..call }
    }

    /// "after a refused open .. every call answers 2".
    fn answer(&mut self, call: &Record) -> Result<u64, Refusal> {
        let Record { operation, code, address, size, change, .. } = *call;
        match operation {
            OPEN => self.open(size, change, address).map(|()| 0),
            _ if !self.is_open => Err(NOT_SOUND),
            ALLOCATE => self.model.allocate(u64::from(code), size),
            RELEASE => self.model.release(address, size).map(|()| 0),
            EXTEND => self.model.extend(address, size, change).map(|()| 0),
            _ => self.model.shorten(address, size, change).map(|()| 0),
        }
    }

    /// "An open with C outside 4 to 1,024 is refused 1": the model refuses a table of no entries so.
    fn open(&mut self, page: u64, limit: u64, entries: u64) -> Result<(), Refusal> {
        let entries = if (4..=1_024).contains(&entries) { entries as usize } else { 0 };
        self.model = Model { table: vec![0; entries * ENTRY_WORDS], ..Model::default() };
        let opened = self.model.open(page, limit);
        self.is_open = opened.is_ok();
        opened
    }

    /// "final E"; "after a refused open, E counts as 0".
    pub fn end(&self) -> u64 {
        if self.is_open {
            self.model.state.end
        } else {
            0
        }
    }
}

/// Calls one after the other, each as it is recorded.
pub fn recorded(calls: impl IntoIterator<Item = Record>) -> Vec<Record> {
    let mut recorder = Recorder::default();
    calls.into_iter().map(|call| recorder.record(call)).collect()
}

#[cfg(test)]
mod tests {
    use super::*;

    #[test]
    fn the_check_of_small_sums_is_worked_out_by_hand() {
        let mut block = [0; BLOCK];
        assert_eq!(sums(&block, MODULUS), (0, 0));
        block[CHECK - 2] = 5;
        assert_eq!(sums(&block, MODULUS), (5, 5));
        block[CHECK - 3] = 1;
        assert_eq!(sums(&block, MODULUS), (256 + 5, 256 + 256 + 5));
        block[0] = 2;
        assert_eq!(sums(&block, MODULUS), (2 + 256 + 5, 254 * 2 + 256 + 256 + 5));
    }

    #[test]
    fn the_sums_go_round_at_65_535() {
        let mut block = [0; BLOCK];
        block[..2].fill(0xff);
        assert_eq!(sums(&block, MODULUS), (0, 0));
        block[2] = 1;
        assert_eq!(sums(&block, MODULUS), (1, 253));
        block[..2].copy_from_slice(&65_534u16.to_le_bytes());
        assert_eq!(sums(&block, MODULUS), (0, 65_534));
    }

    #[test]
    fn a_block_has_its_fields_where_the_request_puts_them() {
        let records = recorded([Record::open(0x0102, 0x0304_0506, 7), Record::allocate(2, 9), Record::extend(1, 2, 3)]);
        let block = block_of(0x0a0b_0c0d, &records);
        assert_eq!(block[..8], [0x0d, 0x0c, 0x0b, 0x0a, 3, 0, 0, 0]);
        assert_eq!(block[8..24], [0, 0, 1, 0, 0, 0, 0, 0, 7, 0, 0, 0, 0, 0, 0, 0]);
        assert_eq!(block[24..48], [2, 1, 0, 0, 0, 0, 0, 0, 6, 5, 4, 3, 0, 0, 0, 0, 0, 0, 0, 0, 0, 0, 0, 0]);
        assert_eq!(block[48..64], [1, 2, 2, 0, 0, 0, 0, 0, 0, 0, 0, 0, 0, 0, 0, 0]);
        assert_eq!(block[64..88], [9, 0, 0, 0, 0, 0, 0, 0, 0, 0, 0, 0, 0, 0, 0, 0, 255, 255, 255, 255, 255, 255, 255, 255]);
        assert_eq!(block[88..105], [3, 0, 2, 0, 0, 0, 0, 0, 1, 0, 0, 0, 0, 0, 0, 0, 2]);
        assert!(block[128..CHECK].iter().all(|byte| *byte == 0));
    }

    #[test]
    fn a_record_read_and_written_again_is_the_same() {
        let bytes: [u8; RECORD] = std::array::from_fn(|i| (i * 37 + 11) as u8);
        assert_eq!(Record::of_bytes(&bytes).bytes(), bytes);
    }
}
