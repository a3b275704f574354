//! mem/mod.rs, absent in the reference.

mod queue;
mod queues;
mod rolling_buffer;

use std::collections::BTreeMap;

pub(crate) use self::queue::MemQueue;
pub(crate) use self::queues::MemQueues;

#[derive(Clone, Debug, Default, PartialEq, Eq)]
pub struct QueueSummary {
    pub start: u64,
    pub end: Option<u64>,
    pub file_number: Option<u64>,
}

#[derive(Clone, Debug, Default, PartialEq, Eq)]
pub struct QueuesSummary {
    pub queues: BTreeMap<String, QueueSummary>,
}
