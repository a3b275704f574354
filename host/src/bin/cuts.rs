//! Power lost during a record (02, Ticket 6): cuts at random places of the record that a call writes, zeros behind them. What Ticket 6 promises of reading, replay and
//! writing on is worked out from the frames alone; the port answers by its exported entries, and the Rust opens each cut log and writes on too.
//! Arguments: `--cuts NUMBER` (50,000), `--seed NUMBER` (1).

use std::time::Instant;

use host::cases::{self, List};
use host::compare::lists::lent;
use host::compare::{in_blocks, means, number, same, same_bytes, zero, Checked, Tally};
use host::frames::{self, Frame};
use host::layout;
use host::machine::Machine;
use host::oracle::{Folder, LogReader, Oracle};
use host::plain::{Blocks, Call, Corruption, Reader, Reading, BLOCK, HEADER};
use host::port::{self, Memory, Port};
use host::random::Random;

/// What the cut left of a record.
#[derive(Clone, Copy, Debug, PartialEq)]
enum Left {
    Complete,
    Headed,
    Nothing,
    Torn(usize),
}

impl Left {
    fn given(self, record: &Reading) -> Option<Reading> {
        match self {
            Left::Complete => Some(record.clone()),
            Left::Headed => Some(Reading::Corrupt(Corruption::Checksum)),
            Left::Nothing => None,
            Left::Torn(_) => Some(Reading::Corrupt(Corruption::FrameType)),
        }
    }
}

/// "A frame whose missing bytes are all zeros counts as stored." None where a cut frame's checksum fits the zeros.
fn left(cut: usize, log: &[u8], frames: &[Frame]) -> Option<Left> {
    let zeros = |part: &[u8]| part.iter().all(|&byte| byte == 0);
    let Some(frame) = frames.iter().find(|frame| !zeros(&log[cut.clamp(frame.at, frame.end())..frame.end()])) else { return Some(Left::Complete) };
    if cut >= frame.at + HEADER {
        let data = frame.at + HEADER;
        let mut now = log[data..frame.end()].to_vec();
        now[cut - data..].fill(0);
        let fits = frames::checksum(frame.kind, &now) == frames::checksum(frame.kind, &log[data..frame.end()]);
        return (!fits).then_some(Left::Headed);
    }
    let stored = &log[frame.at..cut.max(frame.at)];
    Some(if zeros(stored) { Left::Nothing } else { Left::Torn(frame.at) })
}

/// A cut from one place to another, most often near a header, a block's end or the record's end.
fn place(random: &mut Random, from: usize, to: usize, frames: &[Frame]) -> usize {
    let frame = *random.pick(frames);
    let near = match random.below(8) {
        0..=2 => frame.at + random.below(HEADER + 2),
        3 => (frame.at / BLOCK + 1) * BLOCK - random.below(9),
        4 => frame.end().saturating_sub(random.below(9)),
        _ => random.from_to(from, to),
    };
    near.clamp(from, to)
}

/// All reads of a log, by the port and by the Rust; answers where the reader is left.
fn read(log: &[u8], scratch: &mut [u8], expected: &[Reading], tally: &mut Tally) -> Result<u64, String> {
    let mut reader = Reader::default();
    let mut rust = LogReader::at(log, Reader::default());
    for (k, reading) in expected.iter().chain([&Reading::End]).enumerate() {
        tally.count("reads");
        same(&format!("answer {k}"), &number(port::read(log, scratch, &mut reader)), &Ok(reading.clone()))?;
        same(&format!("answer {k} of the Rust"), &rust.read(), reading)?;
        same(&format!("reader of the Rust after answer {k}"), &rust.state(), &reader)?;
    }
    Ok(reader.place())
}

/// Replay in other memory of the same sizes, whatever it holds; `blocks` of the records that were held before the machine's list.
fn replayed(list: &List, random: &mut Random, log: Vec<u8>, lost: u64, resumed: u64, machine: &Machine, blocks: Blocks) -> Result<Port, String> {
    let mut memory = Memory { names: random.bytes(list.names), payloads: random.bytes(list.payloads), ..Memory::new(0, 0) };
    random.fill(&mut memory.entries);
    random.fill(&mut memory.largest);
    random.fill(&mut memory.table);
    let mut port = Port { log, write_position: 0, scratch: random.bytes(list.scratch), memory };
    let bytes = frames::lost_bytes(&port.log);
    same("answer of replay", &number(port::replay_own(&mut port)), &Ok((lost, bytes, resumed)))?;
    zero("scratch after replay", &port.scratch)?;
    means("queues of replay", &port.memory, &machine.queues)?;
    in_blocks("queues of replay", &port.memory, &machine.blocks(blocks))?;
    port.write_position = resumed as usize;
    Ok(port)
}

/// A call after reopening, by the port and the Rust.
fn write_on(port: &mut Port, rust: &mut Oracle, folder: &Folder, list: &List, machine: &mut Machine, call: &Call, tally: &mut Tally) -> Checked {
    tally.count("calls after");
    let arranged = layout::place_arranged(port.write_position, list.log);
    if let Some(refusal) = machine.refusal(call, &list.room(), arranged) {
        tally.refusal(refusal);
        same("answer of a call after", &number(port::call(port, call)), &Err(refusal.to_string()))?;
        if (7..=9).contains(&refusal) {
            same("answer of the Rust to a call after", &rust.call(call), &Err(refusal))?;
        }
        return Ok(());
    }
    let done = machine.feed(call);
    same("answer of a call after", &number(port::call(port, call)), &Ok(done))?;
    same("answer of the Rust to a call after, the counts' sum", &rust.call(call), &Ok(done.summed()))?;
    let mut file = vec![0; list.log];
    folder.read(&mut file);
    same_bytes("log after a call after", &port.log, &file)
}

/// One cut: the log before and after the call, the machine before it and after it.
struct Cut<'a> {
    list: &'a List,
    at: usize,
    old: &'a [u8],
    new: &'a [u8],
    before: &'a Machine,
    after: &'a Machine,
}

impl Cut<'_> {
    fn run(&self, random: &mut Random, folder: &Folder, tally: &mut Tally) -> Checked {
        let listed = self.after.list.last().unwrap();
        let Some(kind) = left(self.at, self.new, &listed.frames) else {
            tally.count("cuts whose checksum fits");
            return Ok(());
        };
        tally.count("cuts");
        tally.count(match kind {
            Left::Complete => "complete",
            Left::Headed => "headed",
            Left::Nothing => "nothing",
            Left::Torn(_) => "torn",
        });
        let mut log = self.new.to_vec();
        log[self.at..].copy_from_slice(&self.old[self.at..]);
        let earlier = self.before.list.iter().map(|listed| Reading::Record(listed.record.clone()));
        let given = kind.given(&Reading::Record(listed.record.clone()));
        let expected: Vec<Reading> = earlier.clone().chain(given.clone()).collect();
        let mut scratch = random.bytes(self.after.longest());
        let resumed = read(&log, &mut scratch, &expected, tally)?;

        let kept = if kind == Left::Complete { self.after } else { self.before };
        folder.fill(&log);
        let mut port = replayed(self.list, random, log, matches!(given, Some(Reading::Corrupt(_))) as u64, resumed, kept, Blocks::new())?;
        let mut rust = Oracle::open(folder).ok_or("the Rust does not open the cut log")?;
        same("queues of the Rust", &rust.queues(), &kept.queues)?;

        let mut machine = Machine { list: vec![], queues: kept.queues.clone(), place: resumed as usize };
        for _ in 0..random.from_to(1, 3) {
            let names: Vec<Vec<u8>> = machine.queues.keys().cloned().chain([b"zz".to_vec()]).collect();
            let most = *random.pick(&[40, 2_000, self.list.log]);
            let name = random.pick(&names).clone();
            let call = cases::call(random, &machine, name, most);
            write_on(&mut port, &mut rust, folder, self.list, &mut machine, &call, tally)?;
        }
        // A header without its type in the last block is covered by what is written next.
        let covered = matches!(kind, Left::Torn(at) if at / BLOCK + 1 == self.list.log / BLOCK) && !machine.list.is_empty();
        if covered {
            tally.count("covered");
        }
        let given = given.filter(|_| !covered);
        let lost = matches!(given, Some(Reading::Corrupt(_))) as u64;
        let later = machine.list.iter().map(|listed| Reading::Record(listed.record.clone()));
        let expected: Vec<Reading> = earlier.chain(given).chain(later).collect();
        let mut scratch = random.bytes(self.after.longest().max(machine.longest()));
        let resumed = read(&port.log, &mut scratch, &expected, tally).map_err(|difference| format!("after writing on: {difference}"))?;
        same("queues of the Rust after writing on", &rust.queues(), &machine.queues)?;
        drop(rust);
        let rust = Oracle::open(folder).ok_or("the Rust does not open the log written on")?;
        same("queues of the Rust, opened again", &rust.queues(), &machine.queues)?;
        let blocks = kept.blocks(Blocks::new());
        replayed(self.list, random, port.log, lost, resumed, &machine, blocks).map_err(|difference| format!("after writing on: {difference}")).map(drop)
    }
}

/// The calls of a list by the port; a few cuts of each record that they write.
fn run(list: &List, random: &mut Random, folder: &Folder, tally: &mut Tally) -> Checked {
    let mut port = lent(list);
    let mut machine = Machine::default();
    for call in list.calls() {
        let mut call = call.clone();
        if let Call::Append { run, .. } = &mut call {
            if random.once_in(4) {
                let from = random.from_to(run.len().saturating_sub(40), run.len());
                run[from..].fill(0);
            }
        }
        if machine.refusal(&call, &list.room(), true).is_some() {
            continue;
        }
        let (old, before) = (port.log.clone(), machine.clone());
        same("answer while writing", &number(port::call(&mut port, &call)), &Ok(machine.feed(&call)))?;
        if machine.list.len() == before.list.len() {
            continue;
        }
        for _ in 0..random.from_to(1, 4) {
            let at = place(random, before.place, machine.place, &machine.list.last().unwrap().frames);
            let cut = Cut { list, at, old: &old, new: &port.log, before: &before, after: &machine };
            cut.run(random, folder, tally).map_err(|difference| format!("record {}, cut at {at}: {difference}", before.list.len()))?;
        }
    }
    Ok(())
}

fn argument(name: &str, default: u64) -> u64 {
    let given: Vec<String> = std::env::args().collect();
    given.windows(2).find(|pair| pair[0] == name).map_or(default, |pair| pair[1].parse().expect("a number"))
}

fn main() {
    let (count, seed) = (argument("--cuts", 50_000), argument("--seed", 1));
    let folder = Folder::new();
    let mut random = Random::new(seed);
    let mut tally = Tally::default();
    let started = Instant::now();
    while tally.counts.get("cuts").copied().unwrap_or(0) < count {
        let list = cases::list(&mut random);
        if let Err(difference) = run(&list, &mut random, &folder, &mut tally) {
            println!("DIFFERENCE (seed {seed}): {difference}\n  case: {}", host::compare::shrink::list_text(&list));
            drop(folder);
            std::process::exit(1);
        }
    }
    let counts: Vec<String> = tally.counts.iter().map(|(what, count)| format!("{count} {what}")).collect();
    println!("cuts: {}; seed {seed}; {:.1} s\nno differences", counts.join(", "), started.elapsed().as_secs_f64());
}
