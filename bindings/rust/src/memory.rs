//! The queue memory, and the entries that are lent nothing but it, or it and a log.

use crate::{part, raw, refused, Bound, Held, Refused, Sizes, UNSET};

/// Bytes of an entry of the record table.
pub const ENTRY: usize = 32;
/// Bytes of a number of the further table.
pub const NUMBER: usize = 8;
/// The most words that the table of queues has a use for: 4, and 3 for each of 64 queues.
pub const TABLE_WORDS: usize = 196;

/// The queue memory (docs/LAYOUT.md). What a call or replay left, lent again unchanged, is always arranged.
#[derive(Clone, Debug, PartialEq, Eq)]
pub struct Memory {
    pub names: Vec<u8>,
    pub payloads: Vec<u8>,
    pub entries: Vec<u8>,
    pub largest: Vec<u8>,
    pub table: Vec<u8>,
}

/// What a replay tells: the number of corruption answers, the bytes lost, and the place where a writer resumes.
#[derive(Clone, Copy, Debug, PartialEq, Eq)]
pub struct Replayed {
    pub lost: u64,
    pub lost_bytes: u64,
    pub resumed: u64,
}

impl Memory {
    /// Memory of zeros, which holds no queues; with room for 1,024 records and 64 queues.
    pub fn new(names: usize, payloads: usize) -> Self {
        Memory::of(Sizes { names, payloads, ..Sizes::default() })
    }

    /// Memory of zeros with so much room.
    pub fn of(sizes: Sizes) -> Self {
        Memory {
            names: vec![0; sizes.names],
            payloads: vec![0; sizes.payloads],
            entries: vec![0; ENTRY * sizes.records],
            largest: vec![0; NUMBER * sizes.records],
            table: vec![0; 8 * (4 + 3 * sizes.queues)],
        }
    }

    /// The first record of a range: its position, and the part of the payload memory that holds its payload.
    pub fn range(&self, name: &[u8], lower: Bound, upper: Bound) -> Result<Option<(u64, u64, u64)>, Refused> {
        let split = |bound| match bound {
            Bound::None => (0, 0),
            Bound::With(position) => (1, position),
            Bound::Without(position) => (2, position),
        };
        self.range_by(name, split(lower), split(upper))
    }

    /// `range` with each bound as the entry takes it: a kind and a position.
    pub fn range_by(&self, name: &[u8], (lower_kind, lower): (u64, u64), (upper_kind, upper): (u64, u64)) -> Result<Option<(u64, u64, u64)>, Refused> {
        let (mut found, mut position, mut start, mut length) = (UNSET, UNSET, UNSET, UNSET);
        // Safety: each slice is given by its own pointer and length, and none overlaps another.
        #[rustfmt::skip]
        let number = unsafe {
            raw::mrecordlog_range(
                self.names.as_ptr(), self.names.len(), self.payloads.as_ptr(), self.payloads.len(), self.entries.as_ptr(), self.entries.len(),
                self.largest.as_ptr(), self.largest.len(), self.table.as_ptr(), self.table.len(), name.as_ptr(), name.len(),
                lower_kind, lower, upper_kind, upper, &mut found, &mut position, &mut start, &mut length,
            )
        };
        refused(number, &[found, position, start, length])?;
        match (found, position, start, length) {
            (0, 0, 0, 0) => Ok(None),
            (1, _, _, _) => Ok(Some((position, start, length))),
            _ => Err(Refused::WithValues(0)),
        }
    }

    /// The first record of a range: its position and its payload.
    pub fn record(&self, name: &[u8], lower: Bound, upper: Bound) -> Result<Option<Held<'_>>, Refused> {
        let Some((position, start, length)) = self.range(name, lower, upper)? else { return Ok(None) };
        Ok(Some(Held { position, payload: part(&self.payloads, start, length)? }))
    }

    /// The start and the next position of a queue.
    pub fn positions(&self, name: &[u8]) -> Result<(u64, u64), Refused> {
        let (mut start, mut next) = (UNSET, UNSET);
        // Safety: as in `range_by`.
        #[rustfmt::skip]
        let number = unsafe {
            raw::mrecordlog_positions(
                self.names.as_ptr(), self.names.len(), self.payloads.as_ptr(), self.payloads.len(), self.entries.as_ptr(), self.entries.len(),
                self.largest.as_ptr(), self.largest.len(), self.table.as_ptr(), self.table.len(), name.as_ptr(), name.len(), &mut start, &mut next,
            )
        };
        refused(number, &[start, next])?;
        Ok((start, next))
    }

    /// The largest payload that a queue holds: its length and its position.
    pub fn largest(&self, name: &[u8]) -> Result<Option<(u64, u64)>, Refused> {
        let (mut found, mut length, mut position) = (UNSET, UNSET, UNSET);
        // Safety: as in `range_by`.
        #[rustfmt::skip]
        let number = unsafe {
            raw::mrecordlog_largest(
                self.names.as_ptr(), self.names.len(), self.payloads.as_ptr(), self.payloads.len(), self.entries.as_ptr(), self.entries.len(),
                self.largest.as_ptr(), self.largest.len(), self.table.as_ptr(), self.table.len(), name.as_ptr(), name.len(),
                &mut found, &mut length, &mut position,
            )
        };
        refused(number, &[found, length, position])?;
        match (found, length, position) {
            (0, 0, 0) => Ok(None),
            (1, _, _) => Ok(Some((length, position))),
            _ => Err(Refused::WithValues(0)),
        }
    }

    /// The lowest block of the log that any held record has.
    pub fn first_block(&self) -> Result<Option<u64>, Refused> {
        let (mut found, mut block) = (UNSET, UNSET);
        // Safety: as in `range_by`.
        #[rustfmt::skip]
        let number = unsafe {
            raw::mrecordlog_first_block(
                self.names.as_ptr(), self.names.len(), self.payloads.as_ptr(), self.payloads.len(), self.entries.as_ptr(), self.entries.len(),
                self.largest.as_ptr(), self.largest.len(), self.table.as_ptr(), self.table.len(), &mut found, &mut block,
            )
        };
        refused(number, &[found, block])?;
        match (found, block) {
            (0, 0) => Ok(None),
            (1, _) => Ok(Some(block)),
            _ => Err(Refused::WithValues(0)),
        }
    }
}

/// The queues that a log's records give, into queue memory, whatever it holds.
pub fn replay(log: &[u8], scratch: &mut [u8], memory: &mut Memory) -> Result<Replayed, Refused> {
    let (mut lost, mut lost_bytes, mut resumed) = (UNSET, UNSET, UNSET);
    let Memory { names, payloads, entries, largest, table } = memory;
    // Safety: each slice is given by its own pointer and length, and none overlaps another.
    #[rustfmt::skip]
    let number = unsafe {
        raw::mrecordlog_replay(
            log.as_ptr(), log.len(), scratch.as_mut_ptr(), scratch.len(), names.as_mut_ptr(), names.len(), payloads.as_mut_ptr(), payloads.len(),
            entries.as_mut_ptr(), entries.len(), largest.as_mut_ptr(), largest.len(), table.as_mut_ptr(), table.len(),
            &mut lost, &mut lost_bytes, &mut resumed,
        )
    };
    refused(number, &[lost, lost_bytes, resumed])?;
    Ok(Replayed { lost, lost_bytes, resumed })
}

/// What the queue memory holds, copied into a target; where the last frame ends, or 0.
pub fn copy(target: &mut [u8], scratch: &mut [u8], memory: &Memory) -> Result<u64, Refused> {
    let mut end = UNSET;
    let Memory { names, payloads, entries, largest, table } = memory;
    // Safety: each slice is given by its own pointer and length, and none overlaps another.
    #[rustfmt::skip]
    let number = unsafe {
        raw::mrecordlog_copy(
            target.as_mut_ptr(), target.len(), scratch.as_mut_ptr(), scratch.len(), names.as_ptr(), names.len(), payloads.as_ptr(), payloads.len(),
            entries.as_ptr(), entries.len(), largest.as_ptr(), largest.len(), table.as_ptr(), table.len(), &mut end,
        )
    };
    refused(number, &[end])?;
    Ok(end)
}
