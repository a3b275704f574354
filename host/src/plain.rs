//! Calls, answers, records and queues as plain values; those that the port's wrapper has are its own.

use std::collections::BTreeMap;

pub use mrecordlog_port::{Bound, Corruption, Counts, Mark, Reader, Reading, Record, Type, BLOCK};

/// The length of a frame's header.
pub const HEADER: usize = 7;
/// The position that no record may take.
pub const LAST: u64 = u64::MAX;

/// A queue: its start, its next position, and its records (position and payload) by position.
#[derive(Clone, Debug, Default, PartialEq, Eq)]
pub struct Queue {
    pub start: u64,
    pub next: u64,
    pub records: Vec<(u64, Vec<u8>)>,
}

/// Queues by name, in byte order.
pub type Queues = BTreeMap<Vec<u8>, Queue>;

/// Held records by queue and position, each with "the block, counted from 0, in which its log record's first frame header stands" (02, Ticket 10).
pub type Blocks = BTreeMap<(Vec<u8>, u64), u64>;

/// The Rust's answer: "An old desk, and the Rust, give one corruption answer for it and go on."
pub fn seen_before(reading: Reading) -> Reading {
    match reading {
        Reading::Mark(_) => Reading::Corrupt(Corruption::Record),
        other => other,
    }
}

/// A call that writes. An append's payloads are one run of bytes and their lengths, which need not agree.
#[derive(Clone, Debug, PartialEq, Eq)]
pub enum Call {
    Create { name: Vec<u8> },
    Delete { name: Vec<u8> },
    Truncate { name: Vec<u8>, through: u64 },
    Append { name: Vec<u8>, position: Option<u64>, run: Vec<u8>, lens: Vec<u64> },
}

impl Call {
    pub fn name(&self) -> &[u8] {
        match self {
            Call::Create { name } | Call::Delete { name } | Call::Truncate { name, .. } | Call::Append { name, .. } => name,
        }
    }
}

/// The payloads of a run whose lengths add up to it.
pub fn payloads<'a>(run: &'a [u8], lens: &[u64]) -> Vec<&'a [u8]> {
    let mut rest = run;
    lens.iter()
        .map(|&len| {
            let (payload, behind) = rest.split_at(len as usize);
            rest = behind;
            payload
        })
        .collect()
}

/// What a call answers where it is not refused. The bytes written are two counts, or their sum, which is what the Rust answers.
#[derive(Clone, Copy, Debug, PartialEq, Eq)]
pub enum Done<Bytes = Counts> {
    Created { bytes: Bytes },
    Deleted { bytes: Bytes },
    Truncated { evicted: u64, bytes: Bytes },
    Appended { last: Option<u64>, bytes: Bytes },
}

impl Done {
    pub fn counts(self) -> Counts {
        match self {
            Done::Created { bytes } | Done::Deleted { bytes } | Done::Truncated { bytes, .. } | Done::Appended { bytes, .. } => bytes,
        }
    }

    /// "The sum is the bytes written."
    pub fn summed(self) -> Done<u64> {
        let bytes = self.counts().frame + self.counts().padding;
        match self {
            Done::Created { .. } => Done::Created { bytes },
            Done::Deleted { .. } => Done::Deleted { bytes },
            Done::Truncated { evicted, .. } => Done::Truncated { evicted, bytes },
            Done::Appended { last, .. } => Done::Appended { last, bytes },
        }
    }
}

/// What a replay gives.
#[derive(Clone, Debug, PartialEq, Eq)]
pub struct Replayed {
    pub queues: Queues,
    pub lost: u64,
    pub resumed: u64,
}
