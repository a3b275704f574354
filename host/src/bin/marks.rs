//! Marks among the calls (02, "Shift marks, seen by old and new desks"): random lists on the port, each answer and every byte by the plain machine; then the log, whole,
//! hit and cut, read and replayed by the port and the Rust, an old desk. Arguments: `--lists NUMBER` (5,000) and `--seed NUMBER` (1).

use host::cases;
use host::compare::logs::{self, Log};
use host::compare::{in_blocks, means, number, same, same_bytes, zero, Checked, Tally};
use host::frames::{self, Frame};
use host::machine::{Machine, Room};
use host::oracle::Folder;
use host::plain::{Blocks, Counts, Mark, Reading, BLOCK, LAST};
use host::port::{self, Port, RECORDS};
use host::random::Random;

/// The list of what was written, with the frames of each.
type Written = Vec<(Reading, Vec<Frame>)>;

/// 02: "it can meet 1, 6, 11 and 13".
fn refusal(port: &Port) -> Option<u64> {
    let blocks = port.log.len() / BLOCK;
    if !(1..=4096).contains(&blocks) {
        return Some(1);
    }
    if port.write_position > blocks * BLOCK {
        return Some(6);
    }
    if port.scratch.len() < frames::MARK_LEN {
        return Some(11);
    }
    let end = frames::frames(port.write_position, frames::MARK_LEN).last().unwrap().end();
    (end > blocks * BLOCK).then_some(13)
}

/// One mark: its answer, every byte of the log, place and scratch; the queue memory, which it isn't lent, stays.
fn mark(port: &mut Port, mark: Mark, written: &mut Written, tally: &mut Tally) -> Checked {
    let before = port.clone();
    let answer = number(port.mark(mark.shift, u64::from_le_bytes(mark.body)));
    if let Some(refusal) = refusal(&before) {
        tally.refusal(refusal);
        same("answer of a mark", &answer, &Err(refusal.to_string()))?;
        return same("all that is lent after a refused mark", port, &before);
    }
    tally.count("marks");
    let bytes = frames::encode_mark(mark);
    let frames = frames::frames(before.write_position, bytes.len());
    let end = frames.last().unwrap().end();
    let frame: usize = frames.iter().map(|frame| frame.end() - frame.at).sum();
    let padding = end - before.write_position - frame;
    same("answer of a mark", &answer, &Ok(Counts { frame: frame as u64, padding: padding as u64 }))?;
    let mut log = before.log.clone();
    frames::put(&mut log, before.write_position, &frames, &bytes);
    same_bytes("log after a mark", &port.log, &log)?;
    same("write position after a mark", &port.write_position, &end)?;
    same("length of the scratch after a mark", &port.scratch.len(), &before.scratch.len())?;
    zero("scratch after a mark", &port.scratch)?;
    same("queue memory after a mark", &port.memory, &before.memory)?;
    written.push((Reading::Mark(mark), frames));
    Ok(())
}

/// A list of calls with marks between them, on a port and on the machine.
fn list(random: &mut Random, tally: &mut Tally) -> Result<(Port, Machine, Written), String> {
    let blocks = *random.pick(&[1, 1, 2, 3]);
    let tail = if random.once_in(4) { random.below(BLOCK) } else { 0 };
    let log = blocks * BLOCK + tail;
    let scratch = if random.once_in(8) { random.below(40) } else { log };
    let room = Room { log, scratch, names: 4_000, payloads: log, queues: 64, records: RECORDS };
    let mut port = port::fresh(log, scratch, room.names, room.payloads);
    let mut machine = Machine::default();
    let mut written = vec![];
    for _ in 0..random.from_to(1, 40) {
        if random.once_in(3) {
            mark(&mut port, cases::mark(random), &mut written, tally)?;
            machine.place = port.write_position;
            continue;
        }
        let name = random.pick(&[&b"a"[..], b"b", b"", b"long name"]).to_vec();
        let call = cases::call(random, &machine, name, log);
        let answer = number(port::call(&mut port, &call));
        if let Some(refusal) = machine.refusal(&call, &room, true) {
            tally.refusal(refusal);
            same("answer of a call", &answer, &Err(refusal.to_string()))?;
            continue;
        }
        tally.count("calls");
        let listed = machine.list.len();
        same("answer of a call", &answer, &Ok(machine.feed(&call)))?;
        same("write position after a call", &port.write_position, &machine.place)?;
        written.extend(machine.list[listed..].iter().map(|listed| (Reading::Record(listed.record.clone()), listed.frames.clone())));
    }
    means("queues", &port.memory, &machine.queues)?;
    in_blocks("queues", &port.memory, &machine.blocks(Blocks::new()))?;
    Ok((port, machine, written))
}

/// Reading gives what was written, marks with their bodies; replay gives the queues, and nothing is lost.
fn read_back(port: &Port, machine: &Machine, written: &Written) -> Checked {
    let mut reader = Default::default();
    let mut scratch = vec![0; port.log.len()];
    for (k, (reading, _)) in written.iter().enumerate() {
        same(&format!("answer {k} of reading"), &number(port::read(&port.log, &mut scratch, &mut reader)), &Ok(reading.clone()))?;
    }
    same("the last answer of reading", &number(port::read(&port.log, &mut scratch, &mut reader)), &Ok(Reading::End))?;
    let mut memory = port::Memory::new(port.memory.names.len(), port.memory.payloads.len());
    let answer = number(port::replay(&port.log, &mut scratch, &mut memory)).map(|(lost, bytes, _)| (lost, bytes));
    same("corruption answers and bytes lost of a replay", &answer, &Ok((0, 0)))?;
    means("queues of a replay", &memory, &machine.queues)?;
    in_blocks("queues of a replay", &memory, &machine.blocks(Blocks::new()))
}

/// The log hit in one frame, and cut behind so many of its bytes.
fn harmed(random: &mut Random, port: &Port, written: &Written) -> Vec<Vec<u8>> {
    let mut logs = vec![];
    if let Some((_, frames)) = (!written.is_empty()).then(|| &written[random.below(written.len())]) {
        let mut hit = port.log.clone();
        let of_checksum = random.once_in(3);
        let frame = frames[random.below(frames.len())];
        cases::hit(random, &mut hit, frame, of_checksum);
        logs.push(hit);
        let (first, last) = (frames[0].at, frames.last().unwrap().end());
        let mut cut = port.log.clone();
        cut[random.from_to(first, last)..].fill(0);
        logs.push(cut);
    }
    logs
}

fn case(random: &mut Random, folder: &Folder, tally: &mut Tally) -> Checked {
    let (port, machine, written) = list(random, tally)?;
    read_back(&port, &machine, &written)?;
    tally.count("lists");
    for log in [vec![port.log.clone()], harmed(random, &port, &written)].concat() {
        logs::run(&Log::new(random, log), folder, tally)?;
    }
    Ok(())
}

/// Places and sizes at their ends: 1, 6, 11 and 13, the lowest first.
fn edges(tally: &mut Tally) -> Checked {
    for log in [0, BLOCK - 1, BLOCK, 2 * BLOCK - 1, 4096 * BLOCK, 4097 * BLOCK] {
        for place in [0, BLOCK - 27, BLOCK - 26, BLOCK - 25, BLOCK - 7, BLOCK - 6, BLOCK, BLOCK + 1, 2 * BLOCK, usize::MAX] {
            for scratch in [0, 18, 19, 20] {
                if log > 2 * BLOCK && (place != 0 || scratch != 19) {
                    continue;
                }
                let mut port = Port { write_position: place, ..port::fresh(log, scratch, 0, 0) };
                port.scratch.fill(0xAA);
                mark(&mut port, Mark { shift: LAST, body: [1, 2, 3, 4, 5, 6, 7, 8] }, &mut vec![], tally)?;
            }
        }
    }
    Ok(())
}

fn main() {
    let given: Vec<String> = std::env::args().skip(1).collect();
    let of = |name: &str, or: u64| given.chunks(2).find(|pair| pair[0] == name).map_or(or, |pair| pair[1].parse().unwrap());
    let (lists, seed) = (of("--lists", 5_000), of("--seed", 1));
    let folder = Folder::new();
    let mut tally = Tally::default();
    let mut differences = 0;
    let mut told = |checked: Checked, which: String| {
        if let Err(difference) = checked {
            differences += 1;
            println!("DIFFERENCE in {which}: {difference}");
        }
        differences < 3
    };
    told(edges(&mut tally), "an edge".to_string());
    for k in 0..lists {
        let mut random = Random::new(seed.wrapping_mul(1_000_003).wrapping_add(k));
        if !told(case(&mut random, &folder, &mut tally), format!("list {k} of seed {seed}")) {
            break;
        }
    }
    let counts: Vec<String> = tally.counts.iter().map(|(what, count)| format!("{count} {what}")).collect();
    let refused = tally.refusals.iter().enumerate().filter(|(_, &count)| count > 0);
    let refused: Vec<String> = refused.map(|(number, count)| format!("{number}: {count}")).collect();
    println!("{}; refused {{{}}}; seed {seed}", counts.join(", "), refused.join(", "));
    println!("{}", if differences == 0 { "no differences".to_string() } else { format!("{differences} differences") });
    std::process::exit((differences > 0) as i32);
}
