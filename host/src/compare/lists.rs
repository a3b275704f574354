//! Call lists: every answer, log byte, queue and record, of the port, the Rust and the plain machine.

use super::{in_blocks, means, number, same, same_bytes, zero, Checked, Tally};
use crate::cases::{self, List, Step};
use crate::frames;
use crate::machine::{question_refusal, Machine};
use crate::oracle::{Folder, LogReader, Oracle};
use crate::plain::{Blocks, Bound, Call, Done, Reader, Reading};
use crate::port::{self, Memory, Port, Refused};
use crate::random::Random;

/// One list on its way: the port with all it is lent, the Rust, the machine and the log that it predicts.
struct Run<'a> {
    list: &'a List,
    folder: &'a Folder,
    port: Port,
    rust: Oracle,
    machine: Machine,
    log: Vec<u8>,
    file: Vec<u8>,
}

/// A port with a zeroed log and no queues, its memory otherwise filled from the seed.
pub fn lent(list: &List) -> Port {
    let mut random = Random::new(list.seed);
    let memory = cases::memory(&mut random, list.names, list.payloads);
    Port { log: vec![0; list.log], write_position: 0, scratch: random.bytes(list.scratch), memory }
}

pub fn run(list: &List, folder: &Folder, tally: &mut Tally) -> Checked {
    let log = vec![0; list.log];
    folder.fill(&log);
    let rust = Oracle::open(folder).ok_or("the Rust does not open zeros")?;
    let mut run = Run { list, folder, port: lent(list), rust, machine: Machine::default(), file: log.clone(), log };
    for (k, step) in list.steps.iter().enumerate() {
        run.step(step, tally).map_err(|difference| format!("step {k}: {difference}"))?;
    }
    run.walk(tally).map_err(|difference| format!("records by range at the end: {difference}"))?;
    run.replayed(tally).map_err(|difference| format!("replay at the end: {difference}"))?;
    run.read(tally).map_err(|difference| format!("reading at the end: {difference}"))
}

impl Run<'_> {
    fn step(&mut self, step: &Step, tally: &mut Tally) -> Checked {
        match step {
            Step::Call(call) => self.call(call, tally),
            Step::Range { name, lower, upper } => self.range(name, *lower, *upper, tally),
            Step::Positions { name } => self.positions(name, tally),
            Step::Reopen => self.reopen(tally),
        }
    }

    fn call(&mut self, call: &Call, tally: &mut Tally) -> Checked {
        tally.count("calls");
        let before = self.port.clone();
        let refusal = self.machine.refusal(call, &self.list.room(), true);
        let answer = number(call_oddly(&mut self.port, call, self.list.seed));
        if let Some(refusal) = refusal {
            tally.refusal(refusal);
            same("answer", &answer, &Err(refusal.to_string()))?;
            unchanged(&self.port, &before)?;
            if !(7..=9).contains(&refusal) {
                tally.count("calls set aside");
                return Ok(());
            }
            same("answer of the Rust", &self.rust.call(call), &Err(refusal))?;
            return self.same_log();
        }
        self.put(call);
        let done = self.machine.feed(call);
        if done.counts().padding > 0 {
            tally.count("calls that pad");
        }
        same("answer, each count", &answer, &Ok(done))?;
        same("answer of the Rust, the counts' sum", &self.rust.call(call).map_err(|refusal| refusal.to_string()), &answer.map(Done::summed))?;
        zero("scratch", &self.port.scratch)?;
        same("write position", &self.port.write_position, &self.machine.place)?;
        self.same_log()?;
        same("queues of the Rust", &self.rust.queues(), &self.machine.queues)?;
        self.held()
    }

    /// The queues that the port's memory holds, each record in its block.
    fn held(&self) -> Checked {
        means("queues", &self.port.memory, &self.machine.queues)?;
        in_blocks("queues", &self.port.memory, &self.machine.blocks(Blocks::new()))
    }

    /// The frames that a call will write, into the predicted log.
    fn put(&mut self, call: &Call) {
        if let Some(record) = self.machine.record(call) {
            let bytes = frames::encode(&record);
            let frames = frames::frames(self.machine.place, bytes.len());
            frames::put(&mut self.log, self.machine.place, &frames, &bytes);
        }
    }

    fn same_log(&mut self) -> Checked {
        same("length of the Rust's file", &self.folder.len(), &(self.log.len() as u64))?;
        self.folder.read(&mut self.file);
        same_bytes("log", &self.port.log, &self.file)?;
        same_bytes("log of the Rust", &self.file, &self.log)
    }

    fn range(&mut self, name: &[u8], lower: Bound, upper: Bound, tally: &mut Tally) -> Checked {
        tally.count("questions");
        let before = self.port.memory.clone();
        let found = number(self.port.memory.record(name, lower, upper)).map(|found| found.map(|held| (held.position, held.payload.to_vec())));
        memory_unchanged(&self.port.memory, &before)?;
        same("answer with odd kinds", &self.port.memory.range_by(name, odd(lower), odd(upper)), &self.port.memory.range(name, lower, upper))?;
        if let Some(refusal) = question_refusal(&self.machine.queues, name, true) {
            tally.refusal(refusal);
            same("answer", &found, &Err(refusal.to_string()))?;
            if refusal != 8 {
                tally.count("questions set aside");
                return Ok(());
            }
            return same("answer of the Rust", &self.rust.range(text(name), lower, upper), &Err(8));
        }
        let expected = self.machine.queues[name].first(lower, upper).cloned();
        same("answer", &found, &Ok(expected.clone()))?;
        same("answer of the Rust", &self.rust.range(text(name), lower, upper), &Ok(expected))
    }

    fn positions(&mut self, name: &[u8], tally: &mut Tally) -> Checked {
        tally.count("questions");
        let answer = number(self.port.memory.positions(name));
        if let Some(refusal) = question_refusal(&self.machine.queues, name, true) {
            tally.refusal(refusal);
            same("answer", &answer, &Err(refusal.to_string()))?;
            if refusal != 8 {
                tally.count("questions set aside");
                return Ok(());
            }
            same("largest payload", &number(self.port.memory.largest(name)), &Err(refusal.to_string()))?;
            return same("answer of the Rust", &self.rust.last_position(text(name)), &Err(8));
        }
        let queue = &self.machine.queues[name];
        same("answer", &answer, &Ok((queue.start, queue.next)))?;
        same("largest payload", &number(self.port.memory.largest(name)), &Ok(queue.largest()))?;
        same("last position of the Rust", &self.rust.last_position(text(name)), &Ok(queue.next.checked_sub(1)))
    }

    /// All records of all queues, the first of each range asked behind the one before; of long queues the first 40.
    fn walk(&mut self, tally: &mut Tally) -> Checked {
        for (name, queue) in &self.machine.queues {
            let mut lower = Bound::None;
            for record in queue.records.iter().map(Some).chain([None]).take(40) {
                tally.count("questions");
                let found = number(self.port.memory.record(name, lower, Bound::None))?;
                same("answer", &found.map(|held| (held.position, held.payload)), &record.map(|(position, payload)| (*position, &payload[..])))?;
                lower = record.map_or(lower, |record| Bound::Without(record.0));
            }
        }
        Ok(())
    }

    /// The log opened again by both, in the memory lent so far; the calls go on from there.
    fn reopen(&mut self, tally: &mut Tally) -> Checked {
        tally.count("replays");
        let state = resumed(&self.log);
        same("answer of replay", &number(port::replay_own(&mut self.port)), &Ok((0, 0, state.place())))?;
        self.rust = Oracle::open(self.folder).ok_or("the Rust does not open the log")?;
        zero("scratch", &self.port.scratch)?;
        self.port.write_position = state.place() as usize;
        self.machine.place = state.place() as usize;
        self.same_log()?;
        same("queues of the Rust", &self.rust.queues(), &self.machine.queues)?;
        self.held()
    }

    /// The log replayed into other memory of the same sizes, whatever it holds.
    fn replayed(&mut self, tally: &mut Tally) -> Checked {
        tally.count("replays");
        let mut random = Random::new(self.list.seed ^ 1);
        let mut memory = Memory { names: random.bytes(self.list.names), payloads: random.bytes(self.list.payloads), ..Memory::new(0, 0) };
        random.fill(&mut memory.entries);
        random.fill(&mut memory.largest);
        random.fill(&mut memory.table);
        let mut scratch = random.bytes(self.list.scratch);
        let answer = number(port::replay(&self.port.log, &mut scratch, &mut memory));
        same("answer", &answer, &Ok((0, 0, resumed(&self.log).place())))?;
        zero("scratch", &scratch)?;
        same_bytes("log", &self.port.log, &self.log)?;
        means("queues", &memory, &self.machine.queues)?;
        in_blocks("queues", &memory, &self.machine.blocks(Blocks::new()))?;
        let rust = Oracle::open(self.folder).ok_or("the Rust does not open the log")?;
        same("queues of the Rust", &rust.queues(), &self.machine.queues)
    }

    /// The records come back as they were listed.
    fn read(&mut self, tally: &mut Tally) -> Checked {
        let mut reader = Reader::default();
        let expected = self.machine.list.iter().map(|listed| Reading::Record(listed.record.clone())).chain([Reading::End]);
        for reading in expected {
            tally.count("reads");
            same("answer", &number(port::read(&self.port.log, &mut self.port.scratch, &mut reader)), &Ok(reading))?;
        }
        Ok(())
    }
}

/// A call, an append's "named" given by any number but 0.
fn call_oddly(port: &mut Port, call: &Call, seed: u64) -> Result<Done, Refused> {
    match call {
        Call::Append { name, position: Some(position), run, lens } => {
            let named = *Random::new(seed ^ position).pick(&[1, 2, 256, 1 << 32, u64::MAX]);
            port.append_by(name, named, *position, run, lens).map(|(last, bytes)| Done::Appended { last, bytes })
        }
        _ => port::call(port, call),
    }
}

/// A bound as the entry takes it; none is any kind but 1 and 2.
fn odd(bound: Bound) -> (u64, u64) {
    match bound {
        Bound::None => (u64::MAX, 5),
        Bound::With(position) => (1, position),
        Bound::Without(position) => (2, position),
    }
}

fn text(name: &[u8]) -> &str {
    std::str::from_utf8(name).unwrap()
}

/// Where the Rust's reader stands at end of log.
fn resumed(log: &[u8]) -> Reader {
    let mut reader = LogReader::at(log, Reader::default());
    while reader.read() != Reading::End {}
    reader.state()
}

/// "A refusal returns its number and counts of 0; all lent memory is unchanged."
pub fn unchanged(port: &Port, before: &Port) -> Checked {
    same_bytes("log after a refusal", &port.log, &before.log)?;
    same("write position after a refusal", &port.write_position, &before.write_position)?;
    same_bytes("scratch after a refusal", &port.scratch, &before.scratch)?;
    memory_unchanged(&port.memory, &before.memory)
}

pub fn memory_unchanged(memory: &Memory, before: &Memory) -> Checked {
    same_bytes("names after a refusal", &memory.names, &before.names)?;
    same_bytes("payloads after a refusal", &memory.payloads, &before.payloads)?;
    same_bytes("record table after a refusal", &memory.entries, &before.entries)?;
    same_bytes("further table after a refusal", &memory.largest, &before.largest)?;
    same_bytes("table of queues after a refusal", &memory.table, &before.table)
}
