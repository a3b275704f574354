//! A report over a box of cards: the port's two entries beside a plain sum, worked out here from the text of 01's "Frames" and 02's Ticket 12, over random and
//! damaged logs; then feeding beside replay by the clock, on logs of 4,096 blocks.
//! `host/run report [LOGS [SEED]]`: 20,000 logs from seed 1 by default. The exit code is 1 where a case differs.

use std::hint::black_box;
use std::process::ExitCode;
use std::time::Instant;

use host::frames::{checksum, encode, frame_bytes, frames, put};
use host::plain::{Record, Type};
use host::port::raw::{mrecordlog_report_feed, mrecordlog_report_mean};
use host::port::{replay, Memory};
use host::random::Random;

#[rustfmt::skip]
const BLOCK: usize = 32_768;
const HEADER: usize = 7;
const BLOCKS: usize = 4_096;

fn feed(report: &mut [u8], log: &[u8]) -> u64 {
    // Safety: each slice is given by its own pointer and length, and the two do not overlap.
    unsafe { mrecordlog_report_feed(report.as_mut_ptr(), report.len(), log.as_ptr(), log.len()) }
}

/// The refusal's number, and what is told: found, whole, remainder, count.
fn mean(report: &[u8]) -> (u64, [u64; 4]) {
    let [mut found, mut whole, mut remainder, mut count] = [0xA5A5_A5A5_A5A5_A5A5_u64; 4];
    // Safety: the slice is given by its pointer and length, and the four numbers are apart from it and from each other.
    let number = unsafe { mrecordlog_report_mean(report.as_ptr(), report.len(), &mut found, &mut whole, &mut remainder, &mut count) };
    (number, [found, whole, remainder, count])
}

// ---- the plain sum

/// The twelve numbers: logs; right and wrong of Full, First, Middle, Last; unreadable; over-long; bytes of data.
type Numbers = [u64; 12];

/// What the frames of a log add, by 01's "Reading, in this order".
fn tally(log: &[u8], numbers: &mut Numbers) {
    let blocks = log.len() / BLOCK;
    let (mut block, mut cursor, mut spoilt) = (0, 0, false);
    numbers[0] += 1;
    loop {
        if spoilt || BLOCK - cursor < HEADER {
            if block + 1 == blocks {
                return;
            }
            (block, cursor, spoilt) = (block + 1, 0, false);
        }
        let bytes = &log[block * BLOCK..(block + 1) * BLOCK];
        let header = &bytes[cursor..cursor + HEADER];
        if header.iter().all(|&b| b == 0) {
            return;
        }
        let (kind, len) = (header[6], u16::from_le_bytes([header[4], header[5]]) as usize);
        if !(1..=4).contains(&kind) {
            numbers[9] += 1;
            spoilt = true;
        } else if cursor + HEADER + len > BLOCK {
            numbers[10] += 1;
            (spoilt, cursor) = (true, cursor + HEADER);
        } else {
            let data = &bytes[cursor + HEADER..cursor + HEADER + len];
            let row = 2 * kind as usize - 1;
            if checksum(kind, data).to_le_bytes() == header[..4] {
                numbers[row] += 1;
                numbers[11] += len as u64;
            } else {
                numbers[row + 1] += 1;
            }
            cursor += HEADER + len;
        }
    }
}

/// docs/LAYOUT.md: the numbers of a report that is arranged.
fn arranged(report: &[u8]) -> Option<Numbers> {
    if report.len() != 96 {
        return None;
    }
    let mut numbers = [0; 12];
    for (number, bytes) in numbers.iter_mut().zip(report.chunks(8)) {
        *number = u64::from_le_bytes(bytes.try_into().unwrap());
    }
    let logs = numbers[0];
    let sound = logs <= 65_535 && numbers[1..11].iter().all(|&n| n <= logs * 19_173_376) && numbers[11] <= logs * 134_217_728;
    sound.then_some(numbers)
}

fn bytes_of(numbers: &Numbers) -> Vec<u8> {
    numbers.iter().flat_map(|n| n.to_le_bytes()).collect()
}

fn plain_feed(report: &mut Vec<u8>, log: &[u8]) -> u64 {
    if log.len() < BLOCK || log.len() / BLOCK > BLOCKS {
        return 1;
    }
    let Some(mut numbers) = arranged(report) else { return 6 };
    if numbers[0] == 65_535 {
        return 17;
    }
    tally(log, &mut numbers);
    *report = bytes_of(&numbers);
    0
}

fn plain_mean(report: &[u8]) -> (u64, [u64; 4]) {
    let Some(n) = arranged(report) else { return (6, [0; 4]) };
    let count = n[1] + n[3] + n[5] + n[7];
    (0, if count == 0 { [0; 4] } else { [1, n[11] / count, n[11] % count, count] })
}

// ---- cases

/// A frame, now and then of a wrong checksum, type or length.
fn some_frame(random: &mut Random) -> Vec<u8> {
    let len = match random.below(10) {
        0 => 0,
        1 => random.from_to(0, 32_761),
        2 => random.from_to(1000, 5000),
        _ => random.from_to(0, 300),
    };
    let mut bytes = frame_bytes(random.from_to(1, 4) as u8, &random.bytes(len));
    match random.below(12) {
        0 => bytes[random.below(4)] ^= 1 << random.below(8),
        1 if len > 0 => bytes[HEADER + random.below(len)] ^= 1 << random.below(8),
        2 if random.once_in(3) => bytes[6] = random.next() as u8,
        3 if random.once_in(3) => bytes[4..6].copy_from_slice(&(random.from_to(30_000, 65_535) as u16).to_le_bytes()),
        4 if random.once_in(3) => bytes[..HEADER].fill(0),
        _ => {}
    }
    bytes
}

/// Blocks of frames, of random bytes, of zeros; a shorter tail; then some bytes changed.
fn some_log(random: &mut Random) -> Vec<u8> {
    let blocks = if random.once_in(20) { random.from_to(0, 12) } else { random.from_to(1, 3) };
    let mut log = vec![0; blocks * BLOCK];
    for block in log.chunks_mut(BLOCK) {
        if random.once_in(30) {
            random.fill(block);
            continue;
        }
        let mut at = 0;
        let most = if random.once_in(4) { BLOCK } else { random.below(BLOCK) };
        while at < most {
            let frame = some_frame(random);
            let end = (at + frame.len()).min(BLOCK);
            block[at..end].copy_from_slice(&frame[..end - at]);
            at = if BLOCK - end < HEADER { BLOCK } else { end };
        }
    }
    for _ in 0..[0, 0, 0, 1, 5][random.below(5)] {
        if !log.is_empty() {
            let at = random.below(log.len());
            log[at] = random.next() as u8;
        }
    }
    let tail = if random.once_in(4) { random.below(BLOCK) } else { 0 };
    log.extend(random.bytes(tail));
    log
}

/// A report to go on with: empty, full or nearly, at or over a bound, of another length.
fn some_report(random: &mut Random) -> Vec<u8> {
    let logs = *random.pick(&[0, 1, 2, 65_533, 65_534, 65_535, 65_536, u64::MAX]);
    let most = logs.saturating_mul(19_173_376);
    let mut numbers = [most; 12];
    (numbers[0], numbers[11]) = (logs, logs.saturating_mul(134_217_728));
    for number in &mut numbers[1..] {
        if random.once_in(2) {
            *number = random.next() % number.saturating_add(1).max(1);
        }
    }
    if random.once_in(3) {
        let at = random.from_to(1, 11);
        numbers[at] = numbers[at].wrapping_add(1);
    }
    let mut report = bytes_of(if random.once_in(3) { &[0; 12] } else { &numbers });
    if random.once_in(8) {
        report.resize(random.below(200), random.next() as u8);
    }
    report
}

/// Feeds one log to both and compares number, report and mean; the number answered.
fn case(report: &mut Vec<u8>, log: &[u8]) -> Result<u64, String> {
    let before = report.clone();
    let mut ours = [vec![0xA5; 8], before.clone(), vec![0xA5; 8]].concat();
    let lent = log.to_vec();
    let end = ours.len() - 8;
    let number = feed(&mut ours[8..end], &lent);
    let plain = plain_feed(report, log);
    if (number, &ours[8..end]) != (plain, &report[..]) || ours[..8] != [0xA5; 8] || ours[end..] != [0xA5; 8] || lent != log {
        return Err(format!("fed: report {before:02x?} log of {} answers {number}, not {plain}, leaves {:02x?}, not {report:02x?}", log.len(), &ours[8..end]));
    }
    if mean(&ours[8..end]) != plain_mean(report) {
        return Err(format!("mean: report {report:02x?} answers {:?}, not {:?}", mean(report), plain_mean(report)));
    }
    if number != 0 && *report != before {
        return Err(format!("refused, but stored: report {before:02x?}"));
    }
    Ok(number)
}

fn compared(logs: usize, seed: u64) -> Result<(), String> {
    let mut random = Random::new(seed);
    let mut counts = [0; 4];
    let mut sums = [0; 12];
    let mut report = vec![0; 96];
    for _ in 0..logs {
        if random.once_in(40) {
            report = some_report(&mut random);
        }
        let log = some_log(&mut random);
        let number = case(&mut report, &log)?;
        counts[[0, 1, 6, 17].iter().position(|&n| n == number).ok_or_else(|| format!("answers {number}"))?] += 1;
        if number == 0 {
            tally(&log, &mut sums);
        }
    }
    let over = vec![0; (BLOCKS + 1) * BLOCK];
    for log in [&over[..], &over[..BLOCKS * BLOCK], &over[..BLOCKS * BLOCK + 5]] {
        case(&mut vec![0; 96], log)?;
    }
    println!("seed {seed}: {logs} logs, {} fed, refused {} by 1, {} by 6, {} by 17; the sums over those fed: {sums:?}", counts[0], counts[1], counts[2], counts[3]);
    println!("no differences\n");
    Ok(())
}

// ---- by the clock

/// A log of 4,096 blocks: a touch, then appends of one payload, each truncated away again.
fn appends(payload: usize) -> Vec<u8> {
    let mut log = vec![0; BLOCKS * BLOCK];
    let name = b"q".to_vec();
    let (mut place, mut position) = (0, 0);
    let record = |kind, position, items| encode(&Record { kind, position, name: name.clone(), items });
    let mut next = record(Type::Touch, 0, vec![]);
    loop {
        let parts = frames(place, next.len());
        let end = parts.last().unwrap().end();
        if end > log.len() {
            return log;
        }
        put(&mut log, place, &parts, &next);
        place = end;
        next = if position % 2 == 0 {
            record(Type::Append, 0, vec![(position / 2, vec![position as u8; payload])])
        } else {
            record(Type::Truncate, position / 2, vec![])
        };
        position += 1;
    }
}

/// A log of 4,096 blocks of the shortest frames: 4,681 a block, none with data.
fn shortest() -> Vec<u8> {
    let mut log = vec![0; BLOCKS * BLOCK];
    let frame = frame_bytes(2, b"");
    for block in log.chunks_mut(BLOCK) {
        for at in (0..BLOCK - HEADER + 1).step_by(HEADER) {
            block[at..at + HEADER].copy_from_slice(&frame);
        }
    }
    log
}

/// Seconds of feeding and of replay, the median of five rounds each, in turns.
fn clocked(log: &[u8]) -> [f64; 2] {
    let (mut scratch, mut memory) = (vec![0; 1 << 20], Memory::new(32_768, 1 << 20));
    let mut rounds = [vec![], vec![]];
    for _ in 0..5 {
        let mut report = vec![0; 96];
        let start = Instant::now();
        assert_eq!(feed(black_box(&mut report), black_box(log)), 0);
        rounds[0].push(start.elapsed().as_secs_f64());
        let start = Instant::now();
        let answer = replay(black_box(log), black_box(&mut scratch), black_box(&mut memory));
        rounds[1].push(start.elapsed().as_secs_f64());
        assert!(answer.is_ok(), "{answer:?}");
    }
    rounds.map(|mut times| {
        times.sort_by(f64::total_cmp);
        times[times.len() / 2]
    })
}

fn main() -> ExitCode {
    let mut arguments = std::env::args().skip(1).map(|a| a.parse().expect("a number"));
    let logs = arguments.next().unwrap_or(20_000);
    let seed = arguments.next().unwrap_or(1);
    if let Err(what) = compared(logs as usize, seed) {
        println!("differs: {what}");
        return ExitCode::FAILURE;
    }
    println!("| log of 4,096 blocks | frames | fed in | replayed in | replay's time / feeding's |\n|---|---|---|---|---|");
    for (what, log) in [
        ("frames of no data", shortest()),
        ("appends of 10 bytes, truncated", appends(10)),
        ("appends of 1,000 bytes, truncated", appends(1_000)),
        ("appends of 60,000 bytes, truncated", appends(60_000)),
    ] {
        let mut numbers = [0; 12];
        tally(&log, &mut numbers);
        let [ours, theirs] = clocked(&log);
        let frames: u64 = numbers[1..11].iter().sum();
        println!("| {what} | {frames} | {:.3} s | {:.3} s | {:.2} |", ours, theirs, theirs / ours);
    }
    ExitCode::SUCCESS
}
