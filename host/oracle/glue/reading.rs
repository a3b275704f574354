//! The reference's `RecordReader` over the whole blocks of a log in memory: read by read, with the state that each read leaves.

use std::io;

use crate::frame::{FrameReader, HEADER_LEN};
use crate::record::MultiPlexedRecord;
use crate::recordlog::RecordReader;
use crate::{BlockRead, BLOCK_NUM_BYTES};

/// The whole blocks of a log, and the one that is read.
struct Blocks<'a> {
    log: &'a [u8],
    block: usize,
}

impl BlockRead for Blocks<'_> {
    fn next_block(&mut self) -> io::Result<bool> {
        let there = (self.block + 2) * BLOCK_NUM_BYTES <= self.log.len();
        if there {
            self.block += 1;
        }
        Ok(there)
    }

    fn block(&self) -> &[u8; BLOCK_NUM_BYTES] {
        self.log[self.block * BLOCK_NUM_BYTES..][..BLOCK_NUM_BYTES].try_into().unwrap()
    }
}

/// Where a reader stands.
#[derive(Clone, Copy, Debug, Default, PartialEq, Eq)]
pub struct State {
    pub block: usize,
    pub cursor: usize,
    pub spoilt: bool,
}

/// The type of a record.
#[derive(Clone, Copy, Debug, PartialEq, Eq)]
pub enum Type {
    Truncate,
    Touch,
    Delete,
    Append,
}

/// One answer of `read_record`, its one corruption told apart by what the reader met.
#[derive(Clone, Debug, PartialEq, Eq)]
pub enum Read {
    End,
    Record { kind: Type, position: u64, name: Vec<u8>, items: Vec<(u64, Vec<u8>)> },
    WrongChecksum,
    UnknownType,
    LengthPastBlock,
    RecordCorruption,
}

/// An answer of `read_record`, and of a record its position alone.
#[derive(Clone, Copy, Debug, PartialEq, Eq)]
pub enum Passed {
    End,
    Record(u64),
    Corrupt,
}

pub struct Reader<'a>(RecordReader<Blocks<'a>>);

impl<'a> Reader<'a> {
    /// A reader of a log of at least one block.
    pub fn at(log: &'a [u8], state: State) -> Self {
        Reader(RecordReader::at(Blocks { log, block: state.block }, state.cursor, state.spoilt))
    }

    pub fn state(&self) -> State {
        let (cursor, spoilt) = self.0.state();
        State { block: self.0.read().block, cursor, spoilt }
    }

    /// `read_record`, of which only the position is kept.
    pub fn pass(&mut self) -> Passed {
        match self.0.read_record::<MultiPlexedRecord>() {
            Err(_) => Passed::Corrupt,
            Ok(None) => Passed::End,
            Ok(Some(record)) => Passed::Record(match record {
                MultiPlexedRecord::Truncate { truncate_range, .. } => truncate_range.end,
                MultiPlexedRecord::RecordPosition { position, .. }
                | MultiPlexedRecord::DeleteQueue { position, .. }
                | MultiPlexedRecord::AppendRecords { position, .. } => position,
            }),
        }
    }

    /// `read_record`, its two steps taken one by one to tell corruptions of frame and record apart.
    pub fn read(&mut self) -> Read {
        let before = self.state();
        match self.0.go_next() {
            Err(_) => corruption(self.0.read().log, before),
            Ok(false) => Read::End,
            Ok(true) => match self.0.record::<MultiPlexedRecord>() {
                None => Read::RecordCorruption,
                Some(record) => taken(record),
            },
        }
    }
}

fn taken(record: MultiPlexedRecord) -> Read {
    let given = |kind, queue: &str, position, items| Read::Record { kind, position, name: queue.as_bytes().to_vec(), items };
    match record {
        MultiPlexedRecord::AppendRecords { queue, position, records } => {
            let items = records.map(|item| item.map(|(position, data)| (position, data.to_vec())).unwrap()).collect();
            given(Type::Append, queue, position, items)
        }
        MultiPlexedRecord::Truncate { queue, truncate_range } => given(Type::Truncate, queue, truncate_range.end, vec![]),
        MultiPlexedRecord::RecordPosition { queue, position } => given(Type::Touch, queue, position, vec![]),
        MultiPlexedRecord::DeleteQueue { queue, position } => given(Type::Delete, queue, position, vec![]),
    }
}

/// The corruption that a reader from this state meets, by how the reference's `read_frame` moves on it.
fn corruption(log: &[u8], from: State) -> Read {
    let mut frames = FrameReader::at(Blocks { log, block: from.block }, from.cursor, from.spoilt);
    loop {
        let (cursor, spoilt) = frames.state();
        let fresh = spoilt || BLOCK_NUM_BYTES - cursor < HEADER_LEN;
        let header = if fresh { 0 } else { cursor };
        if frames.read_frame().is_err() {
            return match frames.state() {
                (cursor, true) if cursor == header => Read::UnknownType,
                (_, true) => Read::LengthPastBlock,
                (_, false) => Read::WrongChecksum,
            };
        }
    }
}
