//! A safe wrapper over `libmrecordlog.a`, the exported entries of a write-ahead queue log (include/mrecordlog.h). It owns all that the entries are lent.
//!
//! A [`MultiRecordLog`] is a log of whole blocks with the queues that it gives. [`MultiRecordLog::new`] starts an empty one, [`MultiRecordLog::open`] takes the bytes of
//! one that stands; then `create`, `append`, `truncate` and `delete` write to it, and `range`, `positions`, `largest` and `first_block` ask. [`records`] reads any log,
//! a damaged one too, record by record.
//!
//! ```
//! use mrecordlog_port::{Bound, MultiRecordLog, Sizes, BLOCK};
//!
//! let mut log = MultiRecordLog::new(BLOCK, Sizes::default());
//! log.create(b"rings")?;
//! log.append(b"rings", None, &[b"ring 1", b"ring 2"])?;
//! let first = log.range(b"rings", Bound::None, Bound::None)?.unwrap();
//! assert_eq!((first.position, first.payload), (0, &b"ring 1"[..]));
//! log.truncate(b"rings", 0)?;
//!
//! let again = MultiRecordLog::open(log.log().to_vec(), Sizes::default())?.0;
//! assert_eq!(again.positions(b"rings")?, (1, 2));
//! # Ok::<(), mrecordlog_port::Refused>(())
//! ```

mod memory;
pub mod raw;
mod reading;
mod tools;

use std::error::Error;
use std::fmt;

pub use memory::{copy, replay, Memory, Replayed, ENTRY, NUMBER, TABLE_WORDS};
pub use reading::{read, read_by, read_numbers, records, Corruption, Mark, Reader, Reading, Record, Records, Type};
pub use tools::{checksum, from_planes, to_planes, Mean, Report};

/// The length of a block. A log has 1 to 4,096 whole ones; a shorter tail is never touched.
pub const BLOCK: usize = 32_768;

/// A refusal, by the number of docs/REFUSALS.md. Nothing was changed, but for the two exceptions that are named there.
#[derive(Clone, Copy, Debug, PartialEq, Eq)]
pub enum Refused {
    Number(u64),
    /// An entry gave this number (0: none) with values that do not belong to it. The archive does not do so.
    WithValues(u64),
}

impl fmt::Display for Refused {
    fn fmt(&self, f: &mut fmt::Formatter) -> fmt::Result {
        let number = match self {
            Refused::Number(number) => number,
            Refused::WithValues(number) => return write!(f, "{number} with values that do not belong to it"),
        };
        let why = match number {
            1 => "the log is under one block or over 4,096",
            2 => "a name is over 65,535 bytes",
            3 => "a name is not UTF-8",
            4 => "position 2^64-1 is named",
            5 => "over 128 payloads, or lengths that do not sum to the bytes given",
            6 => "the memory, the reader, the report or the write position is not arranged",
            7 => "the queue is held already",
            8 => "no queue of that name is held",
            9 => "the position is past",
            10 => "a payload would take position 2^64-1",
            11 => "a record is longer than the scratch",
            12 => "the queue memory is full",
            13 => "the log is full",
            14 => "replay meets a position that cannot be taken",
            15 => "the target is too short for the whole copy",
            17 => "the report has counted 65,535 logs",
            18 => "a width that does not fit",
            _ => "a number without a meaning",
        };
        write!(f, "refused {number}: {why}")
    }
}

impl Error for Refused {}

/// The refusal of a number where it is one; `values` must be 0 then.
fn refused(number: u64, values: &[u64]) -> Result<(), Refused> {
    match number {
        0 => Ok(()),
        n if values.iter().all(|&v| v == 0) => Err(Refused::Number(n)),
        n => Err(Refused::WithValues(n)),
    }
}

/// The part of a slice that an entry points to, which must lie in it.
fn part(slice: &[u8], start: u64, length: u64) -> Result<&[u8], Refused> {
    let end = start.checked_add(length).ok_or(Refused::WithValues(0))?;
    slice.get(start as usize..end as usize).ok_or(Refused::WithValues(0))
}

/// What the values that an entry gives by pointers hold before the call.
const UNSET: u64 = 0xA5A5_A5A5_A5A5_A5A5;

/// A bound of a range of positions: none, with the position, or without it.
#[derive(Clone, Copy, Debug, PartialEq, Eq)]
pub enum Bound {
    None,
    With(u64),
    Without(u64),
}

/// The bytes that a call wrote, in two counts: headers and data of its record's frames, and the zeros that filled the block before the first of them. Their sum is how
/// far the write position moved.
#[derive(Clone, Copy, Debug, Default, PartialEq, Eq)]
pub struct Counts {
    pub frame: u64,
    pub padding: u64,
}

/// A record that a queue holds.
#[derive(Clone, Copy, Debug, PartialEq, Eq)]
pub struct Held<'a> {
    pub position: u64,
    pub payload: &'a [u8],
}

/// How much is held and lent: records and queues, bytes of their names and payloads, and of the scratch, which is as long as the longest record.
#[derive(Clone, Copy, Debug, PartialEq, Eq)]
pub struct Sizes {
    pub records: usize,
    pub queues: usize,
    pub names: usize,
    pub payloads: usize,
    pub scratch: usize,
}

impl Default for Sizes {
    /// 1,024 records and 64 queues, the most there can be; 64 KiB of names, 1 MiB of payloads, records of up to 128 KiB.
    fn default() -> Self {
        Sizes { records: 1_024, queues: 64, names: 1 << 16, payloads: 1 << 20, scratch: 1 << 17 }
    }
}

/// All that a call is lent: the log, the write position, the scratch, and the queue memory.
#[derive(Clone, Debug, PartialEq, Eq)]
pub struct MultiRecordLog {
    pub log: Vec<u8>,
    pub write_position: usize,
    pub scratch: Vec<u8>,
    pub memory: Memory,
}

/// Calls an entry with what every call that writes is lent, then the further arguments.
macro_rules! lend {
    ($log:expr, $entry:ident, $name:expr $(, $more:expr)*) => {{
        let MultiRecordLog { log, write_position, scratch, memory: Memory { names, payloads, entries, largest, table } } = $log;
        // Safety: each slice is given by its own pointer and length, and none overlaps another.
        unsafe {
            raw::$entry(
                log.as_mut_ptr(), log.len(), write_position, scratch.as_mut_ptr(), scratch.len(), names.as_mut_ptr(), names.len(),
                payloads.as_mut_ptr(), payloads.len(), entries.as_mut_ptr(), entries.len(), largest.as_mut_ptr(), largest.len(),
                table.as_mut_ptr(), table.len(), $name.as_ptr(), $name.len() $(, $more)*
            )
        }
    }};
}

impl MultiRecordLog {
    /// A log of so many zeroed bytes, with no queues.
    pub fn new(log: usize, sizes: Sizes) -> Self {
        MultiRecordLog { log: vec![0; log], write_position: 0, scratch: vec![0; sizes.scratch], memory: Memory::of(sizes) }
    }

    /// A log that stands, with the queues that its records give, what was lost, and the write position where a writer resumes.
    pub fn open(log: Vec<u8>, sizes: Sizes) -> Result<(Self, Replayed), Refused> {
        let mut opened = MultiRecordLog { log, write_position: 0, scratch: vec![0; sizes.scratch], memory: Memory::of(sizes) };
        let replayed = opened.replay()?;
        opened.write_position = replayed.resumed as usize;
        Ok((opened, replayed))
    }

    /// The bytes of the log.
    pub fn log(&self) -> &[u8] {
        &self.log
    }

    /// An empty queue with start 0; the bytes written.
    pub fn create(&mut self, name: &[u8]) -> Result<Counts, Refused> {
        let (mut frame, mut padding) = (UNSET, UNSET);
        let number = lend!(self, mrecordlog_create, name, &mut frame, &mut padding);
        refused(number, &[frame, padding])?;
        Ok(Counts { frame, padding })
    }

    /// A queue and its records taken away; the bytes written.
    pub fn delete(&mut self, name: &[u8]) -> Result<Counts, Refused> {
        let (mut frame, mut padding) = (UNSET, UNSET);
        let number = lend!(self, mrecordlog_delete, name, &mut frame, &mut padding);
        refused(number, &[frame, padding])?;
        Ok(Counts { frame, padding })
    }

    /// The records of a queue up to and with a position evicted: how many, and the bytes written.
    pub fn truncate(&mut self, name: &[u8], through: u64) -> Result<(u64, Counts), Refused> {
        let (mut evicted, mut frame, mut padding) = (UNSET, UNSET, UNSET);
        let number = lend!(self, mrecordlog_truncate, name, through, &mut evicted, &mut frame, &mut padding);
        refused(number, &[evicted, frame, padding])?;
        Ok((evicted, Counts { frame, padding }))
    }

    /// Payloads behind the records of a queue, the first at the position that is named or at the next one; the last position, where a payload took one, and the bytes
    /// written.
    pub fn append(&mut self, name: &[u8], position: Option<u64>, payloads: &[&[u8]]) -> Result<(Option<u64>, Counts), Refused> {
        let lens: Vec<u64> = payloads.iter().map(|payload| payload.len() as u64).collect();
        self.append_run(name, position, &payloads.concat(), &lens)
    }

    /// `append` with the payloads end to end in one run, each as long as its length says.
    pub fn append_run(&mut self, name: &[u8], position: Option<u64>, run: &[u8], lens: &[u64]) -> Result<(Option<u64>, Counts), Refused> {
        self.append_by(name, position.is_some() as u64, position.unwrap_or(0), run, lens)
    }

    /// `append_run` with the position as the entry takes it: named by any number but 0.
    pub fn append_by(&mut self, name: &[u8], named: u64, at: u64, run: &[u8], lens: &[u64]) -> Result<(Option<u64>, Counts), Refused> {
        let (mut has_last, mut last, mut frame, mut padding) = (UNSET, UNSET, UNSET, UNSET);
        #[rustfmt::skip]
        let number = lend!(
            self, mrecordlog_append, name, named, at, run.as_ptr(), run.len(), lens.as_ptr(), lens.len(), &mut has_last, &mut last, &mut frame, &mut padding
        );
        refused(number, &[has_last, last, frame, padding])?;
        let counts = Counts { frame, padding };
        match (has_last, last) {
            (0, 0) => Ok((None, counts)),
            (1, _) => Ok((Some(last), counts)),
            _ => Err(Refused::WithValues(0)),
        }
    }

    /// A shift mark with the desk's clock reading; the bytes written. It changes no queue.
    pub fn mark(&mut self, shift: u64, clock: u64) -> Result<Counts, Refused> {
        let (mut frame, mut padding) = (UNSET, UNSET);
        // Safety: each slice is given by its own pointer and length, and none overlaps another.
        #[rustfmt::skip]
        let number = unsafe {
            raw::mrecordlog_mark(
                self.log.as_mut_ptr(), self.log.len(), &mut self.write_position, self.scratch.as_mut_ptr(), self.scratch.len(), shift, clock,
                &mut frame, &mut padding,
            )
        };
        refused(number, &[frame, padding])?;
        Ok(Counts { frame, padding })
    }

    /// The first record of a range of positions of a queue; the next one is the first without this one's position as lower bound.
    pub fn range(&self, name: &[u8], lower: Bound, upper: Bound) -> Result<Option<Held<'_>>, Refused> {
        self.memory.record(name, lower, upper)
    }

    /// The start and the next position of a queue.
    pub fn positions(&self, name: &[u8]) -> Result<(u64, u64), Refused> {
        self.memory.positions(name)
    }

    /// The largest payload that a queue holds: its length and its position, the lowest among equals.
    pub fn largest(&self, name: &[u8]) -> Result<Option<(u64, u64)>, Refused> {
        self.memory.largest(name)
    }

    /// The first block of the log, counted from 0, that is still needed: the lowest that any held record has.
    pub fn first_block(&self) -> Result<Option<u64>, Refused> {
        self.memory.first_block()
    }

    /// The queues of the log into the queue memory. The write position stays: take `resumed`.
    pub fn replay(&mut self) -> Result<Replayed, Refused> {
        replay(&self.log, &mut self.scratch, &mut self.memory)
    }

    /// What is held, written into a fresh log of so many bytes without history, which is handed back with the same queues. Until it is replayed their records keep the
    /// blocks of the old log.
    pub fn copy(&self, log: usize) -> Result<MultiRecordLog, Refused> {
        let mut fresh = MultiRecordLog { log: vec![0; log], write_position: 0, scratch: vec![0; self.scratch.len()], memory: self.memory.clone() };
        fresh.write_position = copy(&mut fresh.log, &mut fresh.scratch, &self.memory)? as usize;
        Ok(fresh)
    }
}
