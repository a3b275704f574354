//! A log read record by record.

use crate::{part, raw, refused, Refused, BLOCK, UNSET};

/// The type of a record: its type byte.
#[derive(Clone, Copy, Debug, PartialEq, Eq)]
#[repr(u8)]
pub enum Type {
    Truncate = 1,
    Touch = 2,
    Delete = 3,
    Append = 4,
}

/// A record of the log; only an append has items, each a position and a payload.
#[derive(Clone, Debug, PartialEq, Eq)]
pub struct Record {
    pub kind: Type,
    pub position: u64,
    pub name: Vec<u8>,
    pub items: Vec<(u64, Vec<u8>)>,
}

/// A shift mark: its number, and the desk's clock reading, carried and not interpreted.
#[derive(Clone, Copy, Debug, PartialEq, Eq)]
pub struct Mark {
    pub shift: u64,
    pub body: [u8; 8],
}

/// Why a read gave no record: kinds 5 to 8.
#[derive(Clone, Copy, Debug, PartialEq, Eq)]
#[repr(u64)]
pub enum Corruption {
    Checksum = 5,
    FrameType = 6,
    Length = 7,
    Record = 8,
}

/// The answer of one read.
#[derive(Clone, Debug, PartialEq, Eq)]
pub enum Reading {
    End,
    Record(Record),
    Mark(Mark),
    Corrupt(Corruption),
}

/// Where a reader stands: all 0 when fresh.
#[derive(Clone, Copy, Debug, Default, PartialEq, Eq)]
pub struct Reader {
    pub block: usize,
    pub cursor: usize,
    pub spoilt: bool,
}

impl Reader {
    /// The place in the log where a writer resumes.
    pub fn place(&self) -> u64 {
        (self.block * BLOCK + self.cursor) as u64
    }
}

/// One read of a log with a reader that moves on in place; the record's bytes are left in the scratch.
pub fn read(log: &[u8], scratch: &mut [u8], reader: &mut Reader) -> Result<Reading, Refused> {
    let mut spoilt = reader.spoilt as u64;
    let answer = read_by(log, scratch, &mut reader.block, &mut reader.cursor, &mut spoilt);
    reader.spoilt = spoilt != 0;
    answer
}

/// The numbers that a read gives: its refusal; kind, position, and the places of name and items in the scratch.
pub fn read_numbers(log: &[u8], scratch: &mut [u8], block: &mut usize, cursor: &mut usize, spoilt: &mut u64) -> (u64, [u64; 6]) {
    let [mut kind, mut position, mut name_start, mut name_len, mut items_start, mut items_len] = [UNSET; 6];
    // Safety: each slice is given by its own pointer and length, and none overlaps another.
    #[rustfmt::skip]
    let number = unsafe {
        raw::mrecordlog_read(
            log.as_ptr(), log.len(), scratch.as_mut_ptr(), scratch.len(), block, cursor, spoilt,
            &mut kind, &mut position, &mut name_start, &mut name_len, &mut items_start, &mut items_len,
        )
    };
    (number, [kind, position, name_start, name_len, items_start, items_len])
}

/// `read` with the reader as the entry takes it: any number but 0 is a spoilt block.
pub fn read_by(log: &[u8], scratch: &mut [u8], block: &mut usize, cursor: &mut usize, spoilt: &mut u64) -> Result<Reading, Refused> {
    let (number, numbers) = read_numbers(log, scratch, block, cursor, spoilt);
    refused(number, &numbers)?;
    let [kind, position, name_start, name_len, items_start, items_len] = numbers;
    let values = [position, name_start, name_len, items_start, items_len];
    if matches!(kind, 1..=4) {
        let name = part(scratch, name_start, name_len)?.to_vec();
        let items = items_of(part(scratch, items_start, items_len)?).ok_or(Refused::WithValues(0))?;
        let of = |kind| Ok(Reading::Record(Record { kind, position, name, items }));
        return match kind {
            4 => of(Type::Append),
            _ if values[3..] != [0, 0] => Err(Refused::WithValues(0)),
            1 => of(Type::Truncate),
            2 => of(Type::Touch),
            _ => of(Type::Delete),
        };
    }
    if kind == 9 {
        return match (values, part(scratch, items_start, items_len)?.try_into()) {
            ([_, 0, 0, 11, 8], Ok(body)) => Ok(Reading::Mark(Mark { shift: position, body })),
            _ => Err(Refused::WithValues(0)),
        };
    }
    match kind {
        _ if values != [0; 5] => Err(Refused::WithValues(0)),
        0 => Ok(Reading::End),
        5 => Ok(Reading::Corrupt(Corruption::Checksum)),
        6 => Ok(Reading::Corrupt(Corruption::FrameType)),
        7 => Ok(Reading::Corrupt(Corruption::Length)),
        8 => Ok(Reading::Corrupt(Corruption::Record)),
        _ => Err(Refused::WithValues(0)),
    }
}

/// The items of an append: 8-byte position, 4-byte length, data, one behind the other.
fn items_of(mut body: &[u8]) -> Option<Vec<(u64, Vec<u8>)>> {
    let mut items = vec![];
    while !body.is_empty() {
        let position = u64::from_le_bytes(body.get(..8)?.try_into().ok()?);
        let len = u32::from_le_bytes(body.get(8..12)?.try_into().ok()?) as usize;
        items.push((position, body.get(12..12 + len)?.to_vec()));
        body = &body[12 + len..];
    }
    Some(items)
}

/// The answers of a log's reads up to its end, none of them [`Reading::End`]. It ends behind a refusal: 1 for the log's size, or 11 for a record longer than the
/// scratch.
pub struct Records<'a> {
    log: &'a [u8],
    scratch: Vec<u8>,
    reader: Reader,
    ended: bool,
}

/// The records, marks and corruption answers of a log, in order, with a scratch of so many bytes.
pub fn records(log: &[u8], scratch: usize) -> Records<'_> {
    Records { log, scratch: vec![0; scratch], reader: Reader::default(), ended: false }
}

impl Iterator for Records<'_> {
    type Item = Result<Reading, Refused>;

    fn next(&mut self) -> Option<Self::Item> {
        if self.ended {
            return None;
        }
        match read(self.log, &mut self.scratch, &mut self.reader) {
            Ok(Reading::End) => {
                self.ended = true;
                None
            }
            Ok(reading) => Some(Ok(reading)),
            Err(refused) => {
                self.ended = true;
                Some(Err(refused))
            }
        }
    }
}
