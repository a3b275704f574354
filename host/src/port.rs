//! The port, through its safe wrapper (`bindings/rust`), in the host's words.

use crate::plain::{Call, Done};

pub use mrecordlog_port::{checksum, copy, raw, read, read_by, read_numbers, Memory, MultiRecordLog as Port, Refused, ENTRY};
use mrecordlog_port::{Sizes, NUMBER, TABLE_WORDS};

/// The most records that the record table has a use for.
pub const RECORDS: usize = 1_024;
/// Bytes of the record table: as many entries.
pub const ENTRIES: usize = RECORDS * ENTRY;
/// Bytes of the further table: as many numbers.
pub const LARGEST: usize = RECORDS * NUMBER;
/// Bytes of the table of queues.
pub const TABLE: usize = 8 * TABLE_WORDS;

/// A zeroed log, write position 0, a zeroed scratch and no queues.
pub fn fresh(log: usize, scratch: usize, names: usize, payloads: usize) -> Port {
    Port::new(log, Sizes { scratch, names, payloads, ..Sizes::default() })
}

/// The queues of a log's records into queue memory, with corruption count, bytes lost and resume point.
pub fn replay(log: &[u8], scratch: &mut [u8], memory: &mut Memory) -> Result<(u64, u64, u64), Refused> {
    mrecordlog_port::replay(log, scratch, memory).map(|told| (told.lost, told.lost_bytes, told.resumed))
}

/// The queues of a port's log into its queue memory.
pub fn replay_own(port: &mut Port) -> Result<(u64, u64, u64), Refused> {
    replay(&port.log, &mut port.scratch, &mut port.memory)
}

/// A call of the host's list.
pub fn call(port: &mut Port, call: &Call) -> Result<Done, Refused> {
    match call {
        Call::Create { name } => port.create(name).map(|bytes| Done::Created { bytes }),
        Call::Delete { name } => port.delete(name).map(|bytes| Done::Deleted { bytes }),
        Call::Truncate { name, through } => port.truncate(name, *through).map(|(evicted, bytes)| Done::Truncated { evicted, bytes }),
        Call::Append { name, position, run, lens } => port.append_run(name, *position, run, lens).map(|(last, bytes)| Done::Appended { last, bytes }),
    }
}
