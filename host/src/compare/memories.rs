//! Refusal 6: sound memory changed in one place or at random, tables of any length, places and readers out of bounds. LAYOUT.md and 01 decide.

use super::lists::{memory_unchanged, unchanged};
use super::{in_blocks, means, number, same, same_bytes, zero, Checked, Tally};
use crate::cases::{self, List};
use crate::frames;
use crate::layout;
use crate::machine::{self, blocks_left, question_refusal, Machine, Room};
use crate::plain::{Blocks, Bound, Queues, Reader, BLOCK};
use crate::port::{self, Memory, Port, ENTRIES, ENTRY, LARGEST, TABLE};
use crate::random::Random;

/// Changed memories from what one list leaves: of tables of other lengths, or changed otherwise.
pub fn run(list: &List, times: usize, lengths: bool, tally: &mut Tally) -> Checked {
    let (sound, machine) = super::hits::written(list)?;
    let names: Vec<Vec<u8>> = machine.queues.keys().cloned().chain([b"a".to_vec(), b"new".to_vec()]).collect();
    for k in 0..times {
        let mut random = Random::new(list.seed.wrapping_add(k as u64));
        let mut port = sound.clone();
        let what = if lengths { lengthen(&mut random, &mut port) } else { change(&mut random, &mut port) };
        port.scratch = random.bytes(port.scratch.len().min(3_000));
        let name = random.pick(&names).clone();
        one(&mut random, port, name, tally).map_err(|difference| format!("change {k} ({what}): {difference}"))?;
    }
    Ok(())
}

/// What is counted for memory that is not arranged, by the first of LAYOUT's conditions that fails.
#[rustfmt::skip]
const AGAINST: [&str; 15] = [
    "against 1", "against 2", "against 3", "against 4", "against 5", "against 6", "against 7", "against 8", "against 9", "against 10", "against 11", "against 12",
    "against 13", "against 14", "against 15",
];

/// Gives some of the tables another length; what they gain holds any bytes.
fn lengthen(random: &mut Random, port: &mut Port) -> &'static str {
    let resize = |random: &mut Random, table: &mut Vec<u8>, len: usize| {
        table.truncate(len);
        let more = random.bytes(len - table.len());
        table.extend(more);
    };
    let which = random.below(5);
    if which != 1 {
        let any = random.below(2 * TABLE);
        let len = *random.pick(&[0, 1, 8, 24, 31, 32, 55, 56, TABLE - 8, TABLE - 1, TABLE + 1, TABLE + 8, any, any]);
        resize(random, &mut port.memory.table, len);
    }
    if which < 3 {
        let any = random.below(2 * ENTRIES);
        let len = *random.pick(&[0, ENTRY - 1, ENTRY, ENTRIES - ENTRY, ENTRIES - 1, ENTRIES + 1, ENTRIES + ENTRY, 48_000, any, any]);
        resize(random, &mut port.memory.entries, len);
    }
    if random.once_in(2) {
        let records = layout::entries(&port.memory);
        let any = random.below(2 * LARGEST);
        let len = *random.pick(&[0, 8 * records, (8 * records).saturating_sub(1), (8 * records).saturating_sub(8), 8 * records + 8, LARGEST - 8, LARGEST + 8, any]);
        resize(random, &mut port.memory.largest, len);
    }
    "length of a table"
}

/// Changes what is lent, but not the lengths of the tables.
fn change(random: &mut Random, port: &mut Port) -> &'static str {
    let whole = port.log.len() / BLOCK * BLOCK;
    match random.below(20) {
        0 => "nothing",
        1 => {
            port.write_position = *random.pick(&[whole + 1, whole + 7, usize::MAX, port.log.len() + 1, port.log.len()]);
            "write position"
        }
        2 => {
            port.write_position = random.below(whole + 1);
            "write position in the log"
        }
        3 => {
            let names = random.below(port.memory.names.len() + 1);
            port.memory.names.truncate(names);
            "length of names"
        }
        4 => {
            let payloads = random.below(port.memory.payloads.len() + 1);
            port.memory.payloads.truncate(payloads);
            "length of payloads"
        }
        5 => {
            port.log.truncate(random.below(BLOCK));
            "length of the log"
        }
        6 | 7 => {
            cases::disarrange(random, &mut port.memory);
            cases::disarrange(random, &mut port.memory);
            "two changes"
        }
        8 | 9 => {
            cases::other_blocks(random, &mut port.memory);
            "other blocks"
        }
        _ => {
            cases::disarrange(random, &mut port.memory);
            "one change"
        }
    }
}

fn one(random: &mut Random, mut port: Port, name: Vec<u8>, tally: &mut Tally) -> Checked {
    tally.count("memories");
    let fails = layout::fails(&port.memory);
    if fails.is_none() && fall(&port.memory) {
        tally.count("arranged with falling blocks");
    }
    tally.count(fails.map_or("arranged", |condition| AGAINST[condition as usize - 1]));
    let queues = if fails.is_none() { layout::meaning(&port.memory) } else { Queues::new() };
    question(random, &port.memory, &queues, fails.is_none(), &name, tally)?;
    let arranged = fails.is_none() && layout::place_arranged(port.write_position, port.log.len());
    let mut machine = Machine { list: vec![], queues, place: port.write_position.min(port.log.len()) };
    let call = cases::call(random, &machine, name, 1_000);
    let before = port.clone();
    let refusal = machine.refusal(&call, &room(&port), arranged);
    let answer = number(port::call(&mut port, &call));
    if let Some(refusal) = refusal {
        tally.refusal(refusal);
        same(&format!("answer of {call:?} (condition {fails:?})"), &answer, &Err(refusal.to_string()))?;
        unchanged(&port, &before)?;
    } else {
        let mut log = before.log.clone();
        if let Some(record) = machine.record(&call) {
            let bytes = frames::encode(&record);
            frames::put(&mut log, machine.place, &frames::frames(machine.place, bytes.len()), &bytes);
        }
        let done = machine.feed(&call);
        same(&format!("answer of {call:?}"), &answer, &Ok(done))?;
        same_bytes("log", &port.log, &log)?;
        means("queues", &port.memory, &machine.queues)?;
        in_blocks("queues", &port.memory, &machine.blocks(layout::blocks(&before.memory)))?;
        same("bytes behind the tables", &layout::behind(&port.memory), &layout::behind(&before.memory))?;
        zero("scratch", &port.scratch)?;
        same("write position", &port.write_position, &machine.place)?;
    }
    reader(random, &mut port, tally)?;
    replay(&mut port, tally)
}

/// Whether the blocks of a queue fall somewhere.
fn fall(memory: &Memory) -> bool {
    let blocks: Vec<_> = layout::blocks(memory).into_iter().collect();
    blocks.windows(2).any(|two| two[0].0 .0 == two[1].0 .0 && two[0].1 > two[1].1)
}

fn room(port: &Port) -> Room {
    let memory = &port.memory;
    let (queues, records) = (layout::rows(memory), layout::entries(memory));
    Room { log: port.log.len(), scratch: port.scratch.len(), names: memory.names.len(), payloads: memory.payloads.len(), queues, records }
}

fn question(random: &mut Random, memory: &Memory, queues: &Queues, arranged: bool, name: &[u8], tally: &mut Tally) -> Checked {
    let before = memory.clone();
    let refusal = question_refusal(queues, name, arranged);
    let lower = *random.pick(&[Bound::None, Bound::With(3), Bound::Without(1)]);
    let found = number(memory.record(name, lower, Bound::None)).map(|found| found.map(|held| (held.position, held.payload.to_vec())));
    let positions = number(memory.positions(name));
    let largest = number(memory.largest(name));
    let lowest = number(memory.first_block());
    memory_unchanged(memory, &before)?;
    let expected = if arranged { Ok(machine::first_block(&layout::blocks(memory))) } else { Err("6".to_string()) };
    same("first block", &lowest, &expected)?;
    match refusal {
        Some(refusal) => {
            tally.refusal(refusal);
            same("range", &found, &Err(refusal.to_string()))?;
            same("positions", &positions, &Err(refusal.to_string()))?;
            same("largest payload", &largest, &Err(refusal.to_string()))
        }
        None => {
            let queue = &queues[name];
            same("range", &found, &Ok(queue.first(lower, Bound::None).cloned()))?;
            same("positions", &positions, &Ok((queue.start, queue.next)))?;
            same("largest payload", &largest, &Ok(queue.largest()))
        }
    }
}

/// A read with a reader in or out of bounds.
fn reader(random: &mut Random, port: &mut Port, tally: &mut Tally) -> Checked {
    let blocks = port.log.len() / BLOCK;
    let block = *random.pick(&[0, blocks.saturating_sub(1), blocks, blocks + 1, usize::MAX, usize::MAX / BLOCK + 1]);
    let cursor = *random.pick(&[0, 7, BLOCK - 7, BLOCK - 6, BLOCK, BLOCK + 1, usize::MAX, usize::MAX - 6]);
    let mut reader = Reader { block, cursor, spoilt: random.once_in(2) };
    let before = reader;
    let scratch = port.scratch.clone();
    let answer = number(port::read(&port.log, &mut port.scratch, &mut reader));
    let refusal = if blocks < 1 { Some(1) } else { (!layout::reader_arranged(&before, port.log.len())).then_some(6) };
    if let Some(refusal) = refusal {
        tally.refusal(refusal);
        tally.count("readers refused");
        same(&format!("read with {before:?}"), &answer, &Err(refusal.to_string()))?;
        same("reader", &reader, &before)?;
        return same_bytes("scratch", &port.scratch, &scratch);
    }
    let mut plain = before;
    let expected = frames::read(&port.log, port.scratch.len(), &mut plain).map(|given| given.0).map_err(|refusal| refusal.to_string());
    same(&format!("read with {before:?}"), &answer, &expected)?;
    same("reader", &reader, &plain)
}

/// Replay starts from no queues whatever the queue memory and the further table hold, and meets 6 exactly where that table is short. "What open or a call left, lent
/// again unchanged, always is" arranged: looked at after it, and a question on it is never 6.
fn replay(port: &mut Port, tally: &mut Tally) -> Checked {
    let before = port.clone();
    let expected = machine::replay_log(&port.log, &room(port));
    let answer = number(port::replay_own(port));
    same_bytes("log after replay", &port.log, &before.log)?;
    same("bytes behind the tables", &layout::behind(&port.memory), &layout::behind(&before.memory))?;
    let queues = match expected {
        Err(1) => {
            tally.refusal(1);
            same("replay", &answer, &Err("1".to_string()))?;
            return unchanged(port, &before);
        }
        _ if layout::short(&before.memory) => {
            tally.refusal(6);
            tally.count("replays with a short further table");
            same("replay", &answer, &Err("6".to_string()))?;
            return unchanged(port, &before);
        }
        Err(refusal) => {
            tally.refusal(refusal);
            same("replay", &answer, &Err(refusal.to_string()))?;
            Queues::new()
        }
        Ok((queues, lost, bytes, resumed)) => {
            same("replay", &answer, &Ok((lost, bytes, resumed)))?;
            queues
        }
    };
    zero("scratch after replay", &port.scratch)?;
    means("queues of replay", &port.memory, &queues)?;
    if !queues.is_empty() {
        let begun = frames::begun(&port.log);
        in_blocks("queues of replay", &port.memory, &blocks_left(&queues, Blocks::new(), &begun))?;
    }
    let name = queues.keys().next().cloned().unwrap_or(b"none".to_vec());
    let positions = queues.get(&name).map(|queue| (queue.start, queue.next)).ok_or("8".to_string());
    same("positions after replay", &number(port.memory.positions(&name)), &positions)
}
