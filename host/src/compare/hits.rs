//! Demand 3: every frame of a run hit in both ways, against the plain machine's prediction and the Rust's reader.

use super::lists::lent;
use super::{in_blocks, means, number, same, zero, Checked, Tally};
use crate::cases::{self, List};
use crate::frames::{self, Begun, Frame};
use crate::machine::{self, Listed, Machine, Room};
use crate::oracle::{Folder, LogReader, Oracle};
use crate::plain::{Blocks, Queues, Reader, Reading};
use crate::port::{self, Port};
use crate::random::Random;

/// The calls of a list by the port; the machine is fed whether each was refused.
pub fn written(list: &List) -> Result<(Port, Machine), String> {
    let mut port = lent(list);
    let mut machine = Machine::default();
    for call in list.calls() {
        let refusal = machine.refusal(call, &list.room(), true);
        let answer = number(port::call(&mut port, call));
        let expected = refusal.map_or_else(|| Ok(machine.feed(call)), |refusal| Err(refusal.to_string()));
        same("answer while writing", &answer, &expected)?;
    }
    Ok((port, machine))
}

/// All hits of one list, each frame in both ways.
pub fn run(list: &List, folder: &Folder, tally: &mut Tally) -> Checked {
    let (mut port, machine) = written(list)?;
    let mut random = Random::new(list.seed ^ 4);
    tally.count("runs");
    port.scratch = random.bytes(machine.longest());
    for (owner, listed) in machine.list.iter().enumerate() {
        for (k, &frame) in listed.frames.iter().enumerate() {
            for of_checksum in [true, false] {
                let kept = port.log[frame.at..frame.end()].to_vec();
                cases::hit(&mut random, &mut port.log, frame, of_checksum);
                let what = || format!("record {owner}, frame {k} at {}, {}", frame.at, if of_checksum { "checksum" } else { "type and data" });
                one(&mut port, list, &machine, owner, frame, folder, tally)
                    .map_err(|difference| format!("{}, bytes now {}: {difference}", what(), super::hex(&port.log[frame.at..frame.end().min(frame.at + 48)])))?;
                port.log[frame.at..frame.end()].copy_from_slice(&kept);
            }
        }
    }
    Ok(())
}

fn one(port: &mut Port, list: &List, machine: &Machine, owner: usize, frame: Frame, folder: &Folder, tally: &mut Tally) -> Checked {
    tally.count("hits");
    let kind = port.log[frame.at + 6];
    tally.count(if (1..=4).contains(&kind) { "type 1 to 4" } else { "type lost" });
    let (before, after) = machine.spared(owner, frame, kind);
    read(port, before, &after, tally)?;
    let room = Room { scratch: port.scratch.len(), ..list.room() };
    let kept: Vec<Begun> = before.iter().chain(after.iter().copied()).map(Listed::begun).collect();
    same("bytes lost, by the frames and by the text", &machine.cost(owner, frame, kind), &frames::lost_bytes(&port.log))?;
    replay(port, &kept, &room, machine.cost(owner, frame, kind), folder, tally)
}

/// "The records listed before the hit frame's owner, one corruption, the records listed after the owner that own no struck frame, end of log."
fn read(port: &mut Port, before: &[Listed], after: &[&Listed], tally: &mut Tally) -> Checked {
    let mut reader = Reader::default();
    let mut rust = LogReader::at(&port.log, Reader::default());
    let record = |listed: &Listed| Some(Reading::Record(listed.record.clone()));
    let expected = before.iter().map(record).chain([None]).chain(after.iter().map(|listed| record(listed))).chain([Some(Reading::End)]);
    for (k, expected) in expected.enumerate() {
        tally.count("reads");
        let answer = number(port::read(&port.log, &mut port.scratch, &mut reader))?;
        match expected {
            Some(reading) => same(&format!("answer {k}"), &answer, &reading)?,
            None => same(&format!("answer {k} a corruption"), &matches!(answer, Reading::Corrupt(_)), &true)?,
        }
        same(&format!("answer {k} against the Rust's"), &answer, &rust.read())?;
        same(&format!("reader after answer {k} against the Rust's"), &reader, &rust.state())?;
    }
    Ok(())
}

/// "Replay .. gives the queues or the refusal that .. give for these records alone in that memory." 02, Ticket 10: "each entry that replay makes has the block in which
/// 01's list puts its log record's first frame header".
fn replay(port: &mut Port, kept: &[Begun], room: &Room, cost: u64, folder: &Folder, tally: &mut Tally) -> Checked {
    tally.count("replays");
    let expected = machine::replay(kept.iter().map(|begun| &begun.record), room);
    let mut memory = port.memory.clone();
    let answer = number(port::replay(&port.log, &mut port.scratch, &mut memory));
    zero("scratch after replay", &port.scratch)?;
    let rust = || {
        folder.fill(&port.log);
        Oracle::open(folder)
    };
    match expected {
        Ok(queues) => {
            same("lost by replay", &answer.map(|(lost, bytes, _)| (lost, bytes)), &Ok((1, cost)))?;
            means("queues of replay", &memory, &queues)?;
            in_blocks("queues of replay", &memory, &machine::blocks_left(&queues, Blocks::new(), kept))?;
            let rust = rust().ok_or("the Rust does not open the log")?;
            same("queues of the Rust", &rust.queues(), &queues)
        }
        Err(refusal) => {
            tally.refusal(refusal);
            same("replay", &answer, &Err(refusal.to_string()))?;
            means("queues after a refused replay", &memory, &Queues::new())?;
            if refusal == 14 {
                return same("whether the Rust opens the log", &rust().is_some(), &false);
            }
            tally.count("replays set aside");
            Ok(())
        }
    }
}
