//! The Rust: `MultiRecordLog` on one file in a folder of its own, and its reader over bytes in memory.

use std::fs::{self, File, OpenOptions};
use std::ops::Bound as RustBound;
use std::os::unix::fs::FileExt;
use std::path::{Path, PathBuf};
use std::sync::atomic::{AtomicU64, Ordering};

use mrecordlog::error::{AppendError, CreateQueueError, DeleteQueueError, TruncateError};
use mrecordlog::reading;
pub use mrecordlog::reading::Passed;
use mrecordlog::{MultiRecordLog, PersistAction, PersistPolicy};

use crate::plain::{payloads, Bound, Call, Corruption, Done, Queue, Queues, Reader, Reading, Record, Type};

/// A folder with the log's one file, on a memory file system where there is one; taken away when dropped.
pub struct Folder {
    path: PathBuf,
    file: File,
}

static FOLDERS: AtomicU64 = AtomicU64::new(0);

impl Folder {
    pub fn new() -> Self {
        let memory = Path::new("/dev/shm");
        let root = if memory.is_dir() { memory.to_path_buf() } else { std::env::temp_dir() };
        let path = root.join(format!("mrecordlog-{}-{}", std::process::id(), FOLDERS.fetch_add(1, Ordering::Relaxed)));
        fs::create_dir_all(&path).unwrap();
        let name = path.join("wal-00000000000000000000");
        let file = OpenOptions::new().read(true).write(true).create(true).truncate(true).open(name).unwrap();
        Folder { path, file }
    }

    /// Makes the file these bytes.
    pub fn fill(&self, bytes: &[u8]) {
        self.file.set_len(0).unwrap();
        self.file.set_len(bytes.len() as u64).unwrap();
        let used = bytes.iter().rposition(|&b| b != 0).map_or(0, |last| last + 1);
        self.file.write_all_at(&bytes[..used], 0).unwrap();
    }

    /// Makes the file these bytes, each of its pages written.
    pub fn fill_whole(&self, bytes: &[u8]) {
        self.file.set_len(bytes.len() as u64).unwrap();
        self.file.write_all_at(bytes, 0).unwrap();
    }

    /// The first bytes of the file, as many as the slice has.
    pub fn read(&self, bytes: &mut [u8]) {
        self.file.read_exact_at(bytes, 0).unwrap();
    }

    /// The file's length.
    pub fn len(&self) -> u64 {
        self.file.metadata().unwrap().len()
    }
}

impl Default for Folder {
    fn default() -> Self {
        Folder::new()
    }
}

impl Drop for Folder {
    fn drop(&mut self) {
        let _ = fs::remove_dir_all(&self.path);
    }
}

/// A refusal of the Rust, by the port's number: 7, 8 or 9.
pub type Refused = u64;

/// The Rust's log, opened on a folder.
pub struct Oracle(MultiRecordLog);

impl Oracle {
    /// Opens what the folder holds, written out after each call; none where the Rust refuses it.
    pub fn open(folder: &Folder) -> Option<Self> {
        Self::open_with(folder, PersistPolicy::Always(PersistAction::Flush))
    }

    pub fn open_with(folder: &Folder, policy: PersistPolicy) -> Option<Self> {
        MultiRecordLog::open_with_prefs(&folder.path, policy).ok().map(Oracle)
    }

    pub fn create(&mut self, name: &str) -> Result<u64, Refused> {
        match self.0.create_queue(name) {
            Ok(outcome) => Ok(outcome.wal_bytes_written),
            Err(CreateQueueError::AlreadyExists) => Err(7),
            Err(e) => panic!("{e}"),
        }
    }

    pub fn delete(&mut self, name: &str) -> Result<u64, Refused> {
        match self.0.delete_queue(name) {
            Ok(outcome) => Ok(outcome.wal_bytes_written),
            Err(DeleteQueueError::MissingQueue(_)) => Err(8),
            Err(e) => panic!("{e}"),
        }
    }

    pub fn truncate(&mut self, name: &str, through: u64) -> Result<(u64, u64), Refused> {
        match self.0.truncate(name, ..=through) {
            Ok(outcome) => Ok((outcome.evicted_records as u64, outcome.wal_bytes_written)),
            Err(TruncateError::MissingQueue(_)) => Err(8),
            Err(e) => panic!("{e}"),
        }
    }

    pub fn append<'a>(&mut self, name: &str, position: Option<u64>, payloads: impl Iterator<Item = &'a [u8]>) -> Result<(Option<u64>, u64), Refused> {
        match self.0.append_records(name, position, payloads) {
            Ok(outcome) => Ok((outcome.last_position, outcome.wal_bytes_written)),
            Err(AppendError::MissingQueue(_)) => Err(8),
            Err(AppendError::Past) => Err(9),
            Err(e) => panic!("{e}"),
        }
    }

    /// A call whose name is UTF-8 and whose lengths agree.
    pub fn call(&mut self, call: &Call) -> Result<Done<u64>, Refused> {
        let name = std::str::from_utf8(call.name()).unwrap();
        match call {
            Call::Create { .. } => self.create(name).map(|bytes| Done::Created { bytes }),
            Call::Delete { .. } => self.delete(name).map(|bytes| Done::Deleted { bytes }),
            Call::Truncate { through, .. } => self.truncate(name, *through).map(|(evicted, bytes)| Done::Truncated { evicted, bytes }),
            Call::Append { position, run, lens, .. } => {
                let payloads = payloads(run, lens);
                self.append(name, *position, payloads.into_iter()).map(|(last, bytes)| Done::Appended { last, bytes })
            }
        }
    }

    /// All queues with all their records.
    pub fn queues(&self) -> Queues {
        let summary = self.0.summary();
        let whole = |name: &str| self.0.range(name, ..).unwrap().map(|record| (record.position, record.payload.into_owned())).collect();
        let queue = |name: &str, start, end: Option<u64>| Queue { start, next: end.map_or(0, |end| end + 1), records: whole(name) };
        summary.queues.iter().map(|(name, q)| (name.as_bytes().to_vec(), queue(name, q.start, q.end))).collect()
    }

    /// The first record of a range.
    pub fn range(&self, name: &str, lower: Bound, upper: Bound) -> Result<Option<(u64, Vec<u8>)>, Refused> {
        let bound = |bound| match bound {
            Bound::None => RustBound::Unbounded,
            Bound::With(position) => RustBound::Included(position),
            Bound::Without(position) => RustBound::Excluded(position),
        };
        let mut records = self.0.range(name, (bound(lower), bound(upper))).map_err(|_| 8u64)?;
        Ok(records.next().map(|record| (record.position, record.payload.into_owned())))
    }

    /// The last position of a queue.
    pub fn last_position(&self, name: &str) -> Result<Option<u64>, Refused> {
        self.0.last_position(name).map_err(|_| 8)
    }
}

/// The Rust's reader over a log of at least one block.
pub struct LogReader<'a>(reading::Reader<'a>);

impl<'a> LogReader<'a> {
    pub fn at(log: &'a [u8], reader: Reader) -> Self {
        let Reader { block, cursor, spoilt } = reader;
        LogReader(reading::Reader::at(log, reading::State { block, cursor, spoilt }))
    }

    pub fn state(&self) -> Reader {
        let reading::State { block, cursor, spoilt } = self.0.state();
        Reader { block, cursor, spoilt }
    }

    /// A read of which only the position is kept.
    pub fn pass(&mut self) -> Passed {
        self.0.pass()
    }

    pub fn read(&mut self) -> Reading {
        match self.0.read() {
            reading::Read::End => Reading::End,
            reading::Read::WrongChecksum => Reading::Corrupt(Corruption::Checksum),
            reading::Read::UnknownType => Reading::Corrupt(Corruption::FrameType),
            reading::Read::LengthPastBlock => Reading::Corrupt(Corruption::Length),
            reading::Read::RecordCorruption => Reading::Corrupt(Corruption::Record),
            reading::Read::Record { kind, position, name, items } => {
                let kind = match kind {
                    reading::Type::Truncate => Type::Truncate,
                    reading::Type::Touch => Type::Touch,
                    reading::Type::Delete => Type::Delete,
                    reading::Type::Append => Type::Append,
                };
                Reading::Record(Record { kind, position, name, items })
            }
        }
    }
}
