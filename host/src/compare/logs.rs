//! Logs of any bytes: every read with the reader it leaves, and the replay with the call that follows it.

use super::{in_blocks, means, number, same, same_bytes, zero, Checked, Tally};
use crate::frames;
use crate::layout;
use crate::machine::{self, Machine, Room};
use crate::oracle::{Folder, LogReader, Oracle};
use crate::plain::{seen_before, Blocks, Call, Queues, Reader, Reading, Type, BLOCK, LAST};
use crate::port::{self, Memory, Port, RECORDS};
use crate::random::Random;

/// A log, and how much is lent with it.
#[derive(Clone, Debug)]
pub struct Log {
    pub log: Vec<u8>,
    pub scratch: usize,
    pub names: usize,
    pub payloads: usize,
    pub seed: u64,
}

impl Log {
    /// Mostly enough memory for all that the log can hold; now and then less.
    pub fn new(random: &mut Random, log: Vec<u8>) -> Self {
        let longest = longest(&log);
        let scratch = match random.below(20) {
            0 => random.below(longest + 1),
            1 => longest.saturating_sub(1),
            2 => longest,
            _ => longest + random.below(100),
        };
        let names = if random.once_in(12) { random.below(12) } else { log.len() };
        let payloads = if random.once_in(12) { random.below(60) } else { log.len() };
        Log { log, scratch, names, payloads, seed: random.next() }
    }

    fn room(&self) -> Room {
        Room { log: self.log.len(), scratch: self.scratch, names: self.names, payloads: self.payloads, queues: 64, records: RECORDS }
    }
}

/// The most bytes that a record being read ever has.
fn longest(log: &[u8]) -> usize {
    let (mut low, mut high) = (0, log.len());
    while low < high {
        let middle = (low + high) / 2;
        if frames::read_all(log, middle).0.is_ok() {
            high = middle;
        } else {
            low = middle + 1;
        }
    }
    low
}

pub fn run(case: &Log, folder: &Folder, tally: &mut Tally) -> Checked {
    tally.count("logs");
    read_from(case, Reader::default(), tally).map_err(|difference| format!("reading: {difference}"))?;
    let mut random = Random::new(case.seed ^ 2);
    for _ in 0..2 {
        let blocks = case.log.len() / BLOCK;
        let cursor = if random.once_in(3) { BLOCK - random.below(9) } else { random.below(BLOCK + 1) };
        let cursor = if random.once_in(2) { cursor.min(random.below(200)) } else { cursor };
        let reader = Reader { block: random.below(blocks), cursor, spoilt: random.once_in(4) };
        read_from(case, reader, tally).map_err(|difference| format!("reading from {reader:?}: {difference}"))?;
    }
    replay(case, folder, tally).map_err(|difference| format!("replay: {difference}"))
}

/// Read after read up to end of log, refusal 11, or far enough for a reader that did not start fresh.
fn read_from(case: &Log, from: Reader, tally: &mut Tally) -> Checked {
    let mut rust = LogReader::at(&case.log, from);
    let mut plain = from;
    let mut reader = from;
    let mut spoilt = if from.spoilt { case.seed | 1 << 40 } else { 0 };
    let mut scratch = Random::new(case.seed).bytes(case.scratch);
    let most = if from == Reader::default() { 4_681 * (case.log.len() / BLOCK) } else { 20 };
    for _ in 0..=most {
        tally.count("reads");
        let before = (reader, spoilt);
        let answer = number(port::read_by(&case.log, &mut scratch, &mut reader.block, &mut reader.cursor, &mut spoilt));
        reader.spoilt = spoilt != 0;
        let (reading, record) = match frames::read(&case.log, case.scratch, &mut plain) {
            Ok(given) => given,
            Err(refusal) => {
                tally.refusal(refusal);
                tally.count("reads set aside");
                same("answer", &answer, &Err(refusal.to_string()))?;
                same("reader", &(reader, spoilt), &before)?;
                return zero("scratch after 11", &scratch);
            }
        };
        same("answer", &answer, &Ok(reading.clone()))?;
        same("answer of the Rust", &rust.read(), &seen_before(reading.clone()))?;
        same("reader", &reader, &plain)?;
        same("reader of the Rust", &rust.state(), &plain)?;
        same_bytes("record in the scratch", &scratch[..record.len()], &record)?;
        zero("scratch behind the record", &scratch[record.len()..])?;
        if reading == Reading::End {
            return Ok(());
        }
    }
    if from == Reader::default() {
        return Err(format!("over {most} answers"));
    }
    Ok(())
}

/// Whether the Rust's `position + 1` would wrap on this log (docs/DIFFERENCES.md).
fn wraps(log: &[u8]) -> bool {
    let (readings, _) = frames::read_all(log, log.len());
    readings.unwrap_or_default().iter().any(|reading| match reading {
        Reading::Record(record) => record.items.iter().any(|item| item.0 == LAST) || (record.kind == Type::Truncate && record.position == LAST),
        _ => false,
    })
}

fn replay(case: &Log, folder: &Folder, tally: &mut Tally) -> Checked {
    tally.count("replays");
    let mut random = Random::new(case.seed ^ 3);
    let mut memory = Memory { names: random.bytes(case.names), payloads: random.bytes(case.payloads), ..Memory::new(0, 0) };
    random.fill(&mut memory.entries);
    random.fill(&mut memory.largest);
    random.fill(&mut memory.table);
    let mut port = Port { log: case.log.clone(), write_position: 0, scratch: random.bytes(case.scratch), memory };
    let answer = number(port::replay_own(&mut port));
    same_bytes("log", &port.log, &case.log)?;
    zero("scratch", &port.scratch)?;
    let expected = machine::replay_log(&case.log, &case.room());
    let wraps = wraps(&case.log);
    let (queues, lost, bytes, resumed) = match expected {
        Ok(given) => given,
        Err(refusal) => {
            tally.refusal(refusal);
            same("answer", &answer, &Err(refusal.to_string()))?;
            means("queues after a refusal", &port.memory, &Queues::new())?;
            if refusal != 14 || wraps {
                tally.count("replays set aside");
                return Ok(());
            }
            folder.fill(&case.log);
            return same("whether the Rust opens the log", &Oracle::open(folder).is_some(), &false);
        }
    };
    same("answer", &answer, &Ok((lost, bytes, resumed)))?;
    if bytes > 0 {
        tally.count("logs with bytes lost");
    }
    if bytes > 0 && lost == 0 {
        tally.count("of them with no corruption answer");
    }
    means("queues", &port.memory, &queues)?;
    let begun = frames::begun(&case.log);
    let blocks = machine::blocks_left(&queues, Blocks::new(), &begun);
    in_blocks("queues", &port.memory, &blocks)?;
    if wraps {
        tally.count("replays set aside");
        return Ok(());
    }
    let marks = marks(&case.log, case.scratch);
    if marks > 0 {
        tally.count("logs with marks");
    }
    same("count and resume point of the Rust, each mark counted", &rust_counts(&case.log), &(lost + marks, resumed))?;
    folder.fill(&case.log);
    let mut rust = Oracle::open(folder).ok_or("the Rust does not open the log")?;
    same("queues of the Rust", &rust.queues(), &queues)?;
    port.write_position = resumed as usize;
    follow(&mut port, &mut rust, folder, Machine { list: vec![], queues, place: resumed as usize }, blocks, case, tally)
}

/// The marks of a log whose reading meets no 11.
fn marks(log: &[u8], scratch: usize) -> u64 {
    let readings = frames::read_all(log, scratch).0.unwrap_or_default();
    readings.iter().filter(|reading| matches!(reading, Reading::Mark(_))).count() as u64
}

/// Corruption count and resume point by the Rust's reader.
fn rust_counts(log: &[u8]) -> (u64, u64) {
    let mut reader = LogReader::at(log, Reader::default());
    let mut lost = 0;
    loop {
        match reader.read() {
            Reading::End => return (lost, reader.state().place()),
            Reading::Corrupt(_) => lost += 1,
            Reading::Record(_) | Reading::Mark(_) => (),
        }
    }
}

/// A create behind the replay and an append to it, so that the place where the Rust resumes shows in their bytes.
fn follow(port: &mut Port, rust: &mut Oracle, folder: &Folder, mut machine: Machine, blocks: Blocks, case: &Log, tally: &mut Tally) -> Checked {
    let name = b"zz".to_vec();
    let append = Call::Append { name: name.clone(), position: None, run: b"behind".to_vec(), lens: vec![6] };
    for call in [Call::Create { name }, append] {
        let arranged = layout::place_arranged(port.write_position, case.log.len());
        if let Some(refusal) = machine.refusal(&call, &case.room(), arranged) {
            tally.refusal(refusal);
            same("answer of a call behind it", &number(port::call(port, &call)), &Err(refusal.to_string()))?;
            tally.count("calls set aside");
            return Ok(());
        }
        tally.count("calls");
        let done = machine.feed(&call);
        same("answer of a call behind it", &number(port::call(port, &call)), &Ok(done))?;
        same("answer of the Rust's call behind it, the counts' sum", &rust.call(&call), &Ok(done.summed()))?;
        let mut file = vec![0; case.log.len()];
        folder.read(&mut file);
        same_bytes("log after a call behind it", &port.log, &file)?;
        same("queues of the Rust after it", &rust.queues(), &machine.queues)?;
        means("queues after it", &port.memory, &machine.queues)?;
        in_blocks("queues after it", &port.memory, &machine.blocks(blocks.clone()))?;
    }
    Ok(())
}
