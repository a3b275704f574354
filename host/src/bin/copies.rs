//! A log cut down to what is held (02, Ticket 1): copies of the queues that random lists of calls left. What 02 asks of the target, the answer, the scratch and the
//! refusals is worked out from the plain machine's queues; the port answers by its exported entries, and the Rust opens each copy.
//! Arguments: `--copies NUMBER` (10,000, refused ones not counted), `--seed NUMBER` (1).

use std::time::Instant;

use host::cases::{self, List};
use host::compare::lists::{lent, memory_unchanged};
use host::compare::{in_blocks, means, number, same, same_bytes, zero, Checked, Tally};
use host::frames;
use host::layout;
use host::machine::{blocks_left, Machine, Room};
use host::oracle::{Folder, Oracle};
use host::plain::{Blocks, Call, Queues, Reader, Reading, Record, Type, BLOCK};
use host::port::{self, Memory, Port, RECORDS};
use host::random::Random;

/// "Queues go out in byte order of their names: a touch at the start, then one append record for each held record, its position also in the header."
fn records(queues: &Queues) -> Vec<Record> {
    let mut records = vec![];
    for (name, queue) in queues {
        records.push(Record { kind: Type::Touch, position: queue.start, name: name.clone(), items: vec![] });
        for (position, payload) in &queue.records {
            records.push(Record { kind: Type::Append, position: *position, name: name.clone(), items: vec![(*position, payload.clone())] });
        }
    }
    records
}

/// Where the last frame of records written from the first byte ends, or 0.
fn end_of(records: &[Record]) -> usize {
    records.iter().fold(0, |place, record| frames::frames(place, frames::encoded_len(record)).last().unwrap().end())
}

/// 1, 6, 11, 15: the lowest that applies.
fn refusal(target: usize, arranged: bool, scratch: usize, records: &[Record]) -> Option<u64> {
    let blocks = target / BLOCK;
    if !(1..=4096).contains(&blocks) {
        return Some(1);
    }
    if !arranged {
        return Some(6);
    }
    if records.iter().any(|record| frames::encoded_len(record) > scratch) {
        return Some(11);
    }
    (end_of(records) > blocks * BLOCK).then_some(15)
}

/// "The copy first zeroes the target's whole blocks, then writes from the first byte."; "a shorter tail is never touched".
fn written(target: &[u8], records: &[Record]) -> Vec<u8> {
    let mut log = target.to_vec();
    log[..target.len() / BLOCK * BLOCK].fill(0);
    let mut place = 0;
    for record in records {
        let bytes = frames::encode(record);
        let frames = frames::frames(place, bytes.len());
        frames::put(&mut log, place, &frames, &bytes);
        place = frames.last().unwrap().end();
    }
    log
}

/// One copy: the answer and all lent memory by 02. Answers the target left and the end, where it is taken.
fn copy(target: &[u8], scratch: &[u8], memory: &Memory, tally: &mut Tally) -> Result<Option<(Vec<u8>, usize)>, String> {
    let arranged = layout::arranged(memory);
    let records = if arranged { records(&layout::meaning(memory)) } else { vec![] };
    let (mut target_left, mut scratch_left, memory_left) = (target.to_vec(), scratch.to_vec(), memory.clone());
    let answer = number(port::copy(&mut target_left, &mut scratch_left, &memory_left));
    memory_unchanged(&memory_left, memory)?;
    if let Some(refusal) = refusal(target.len(), arranged, scratch.len(), &records) {
        tally.count(match refusal {
            1 => "refused 1",
            6 => "refused 6",
            11 => "refused 11",
            _ => "refused 15",
        });
        same("answer", &answer, &Err(refusal.to_string()))?;
        same_bytes("target after a refusal", &target_left, target)?;
        same_bytes("scratch after a refusal", &scratch_left, scratch)?;
        return Ok(None);
    }
    let end = end_of(&records);
    same("answer", &answer, &Ok(end as u64))?;
    same_bytes("target", &target_left, &written(target, &records))?;
    zero("scratch", &scratch_left)?;
    if end > 0 && frames::padded(end) != end {
        tally.count("ends that leave under 7 bytes");
    }
    Ok(Some((target_left, end)))
}

/// Memory of the same sizes, whatever it holds.
fn other(random: &mut Random, memory: &Memory) -> Memory {
    let Memory { names, payloads, entries, largest, table } = memory;
    let mut any = |bytes: &Vec<u8>| random.bytes(bytes.len());
    Memory { names: any(names), payloads: any(payloads), entries: any(entries), largest: any(largest), table: any(table) }
}

/// A copy that was taken: the Rust has the same queues, replay gives them, their copy has the same bytes, and writing goes on at its end.
fn taken(log: &[u8], end: usize, scratch: usize, queues: &Queues, memory: &Memory, random: &mut Random, folder: &Folder, tally: &mut Tally) -> Checked {
    tally.count("copies");
    let whole = log.len() / BLOCK * BLOCK;
    folder.fill(&log[..whole]);
    let rust = Oracle::open(folder).ok_or("the Rust does not open the copy")?;
    same("queues of the Rust", &rust.queues(), queues)?;
    drop(rust);

    let mut again = other(random, memory);
    let mut own = random.bytes(scratch);
    let resumed = frames::padded(end) as u64;
    let answer = number(port::replay(log, &mut own, &mut again));
    if answer != Ok((0, 0, end as u64)) {
        same("answer of replay", &answer, &Ok((0, 0, resumed)))?;
    }
    means("queues of replay", &again, queues)?;
    in_blocks("queues of replay", &again, &blocks_left(queues, Blocks::new(), &frames::begun(&log[..whole])))?;
    let garbage = random.bytes(log.len());
    let Some((second, second_end)) = copy(&garbage, &random.bytes(scratch), &again, tally)? else { return Err("the copy of a replayed copy is refused".to_string()) };
    tally.count("copies of replayed copies");
    same("end of the copy of a replayed copy", &second_end, &end)?;
    same_bytes("the copy of a replayed copy", &second[..whole], &log[..whole])?;

    let mut machine = Machine { list: vec![], queues: queues.clone(), place: end };
    let mut port = Port { log: log.to_vec(), write_position: end, scratch: random.bytes(scratch), memory: memory.clone() };
    let room = Room { log: log.len(), scratch, names: memory.names.len(), payloads: memory.payloads.len(), queues: 64, records: RECORDS };
    for _ in 0..random.from_to(1, 2) {
        let names: Vec<Vec<u8>> = queues.keys().cloned().chain([b"zz".to_vec()]).collect();
        let name = random.pick(&names).clone();
        let most = *random.pick(&[40, 2_000, log.len()]);
        let call = cases::call(random, &machine, name, most);
        if machine.refusal(&call, &room, true).is_some() {
            continue;
        }
        tally.count("calls after");
        same("answer of a call after", &number(port::call(&mut port, &call)), &Ok(machine.feed(&call)))?;
    }
    in_blocks("queues after them", &port.memory, &machine.blocks(layout::blocks(memory)))?;
    let mut reader = Reader::default();
    let mut own = random.bytes(machine.longest().max(scratch));
    let later = machine.list.iter().map(|listed| listed.record.clone());
    for (k, record) in records(queues).into_iter().chain(later).enumerate() {
        same(&format!("answer {k} of reading on"), &number(port::read(&port.log, &mut own, &mut reader)), &Ok(Reading::Record(record)))?;
    }
    same("the last answer of reading on", &number(port::read(&port.log, &mut own, &mut reader)), &Ok(Reading::End))
}

/// A length of the target around what the copy needs.
fn target_len(random: &mut Random, end: usize) -> usize {
    let blocks = end.div_ceil(BLOCK).max(1);
    match random.below(12) {
        0 => random.below(BLOCK),
        1 | 2 => blocks * BLOCK - 1,
        3 => blocks.saturating_sub(1).max(1) * BLOCK + random.below(BLOCK),
        4 | 5 => blocks * BLOCK + random.below(BLOCK),
        6 => (blocks + random.from_to(1, 3)) * BLOCK,
        _ => blocks * BLOCK,
    }
}

/// The calls of a list by the port; a few copies on the way and at the end.
fn run(list: &List, random: &mut Random, folder: &Folder, tally: &mut Tally) -> Checked {
    let mut port = lent(list);
    let mut machine = Machine::default();
    let mut calls: Vec<Call> = list.calls().cloned().collect();
    calls.retain(|call| machine.refusal(call, &list.room(), true).is_none() && { machine.feed(call); true });
    machine = Machine::default();
    for (k, call) in calls.iter().enumerate() {
        same("answer while writing", &number(port::call(&mut port, call)), &Ok(machine.feed(call)))?;
        if k + 1 < calls.len() && !random.once_in(5) {
            continue;
        }
        let records = records(&machine.queues);
        let longest = records.iter().map(frames::encoded_len).max().unwrap_or(0);
        for _ in 0..random.from_to(1, 3) {
            let scratch = match random.below(8) {
                0 => longest.saturating_sub(1),
                1 => longest,
                2 => random.below(longest + 1),
                _ => list.scratch.max(longest),
            };
            let len = target_len(random, end_of(&records));
            let target = if random.once_in(3) { vec![0; len] } else { random.bytes(len) };
            let mut memory = port.memory.clone();
            if random.once_in(6) {
                cases::disarrange(random, &mut memory);
            }
            let Some((log, end)) = copy(&target, &random.bytes(scratch), &memory, tally)? else { continue };
            let queues = layout::meaning(&memory);
            taken(&log, end, scratch, &queues, &memory, random, folder, tally)?;
        }
    }
    Ok(())
}

/// Targets of 4,096 blocks, the most that a log may have, and of 4,097.
fn largest(random: &mut Random, tally: &mut Tally) -> Checked {
    let mut port = port::fresh(2 * BLOCK, 2 * BLOCK, 100, BLOCK);
    port::call(&mut port, &Call::Create { name: b"a".to_vec() }).map_err(|_| "a create is refused")?;
    port::call(&mut port, &Call::Append { name: b"a".to_vec(), position: Some(7), run: random.bytes(20_000), lens: vec![20_000] }).map_err(|_| "an append is refused")?;
    for (blocks, tail, taken) in [(4096, 0, true), (4096, BLOCK - 1, true), (4097, 0, false)] {
        tally.count("copies of 4,096 or 4,097 blocks");
        let mut target = vec![0xA5; blocks * BLOCK + tail];
        target[..100].copy_from_slice(&random.bytes(100));
        same("taken", &copy(&target, &random.bytes(2 * BLOCK), &port.memory, tally)?.is_some(), &taken)?;
    }
    Ok(())
}

fn argument(name: &str, default: u64) -> u64 {
    let given: Vec<String> = std::env::args().collect();
    given.windows(2).find(|pair| pair[0] == name).map_or(default, |pair| pair[1].parse().expect("a number"))
}

fn main() {
    let (count, seed) = (argument("--copies", 10_000), argument("--seed", 1));
    let folder = Folder::new();
    let mut random = Random::new(seed);
    let mut tally = Tally::default();
    let started = Instant::now();
    let mut checked = largest(&mut random, &mut tally);
    while checked.is_ok() && tally.counts.get("copies").copied().unwrap_or(0) < count {
        let list = cases::list(&mut random);
        checked = run(&list, &mut random, &folder, &mut tally).map_err(|difference| format!("{difference}\n  case: {}", host::compare::shrink::list_text(&list)));
    }
    if let Err(difference) = checked {
        println!("DIFFERENCE (seed {seed}): {difference}");
        drop(folder);
        std::process::exit(1);
    }
    let counts: Vec<String> = tally.counts.iter().map(|(what, count)| format!("{count} {what}")).collect();
    println!("copies: {}; seed {seed}; {:.1} s\nno differences", counts.join(", "), started.elapsed().as_secs_f64());
}
