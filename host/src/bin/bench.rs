//! The benchmark: the port through its exported entries and the Rust, in one run, on the same bytes. Each figure is the median of five rounds; the sides take turns.
//!
//! State of the buffers. The port's log and the Rust's file (on a memory file system) have all their pages before the clock starts, and 4,096 blocks where calls are
//! timed. The Rust's persist policy is to do nothing. The port's scratch is as long as the longest record; its queue memory has 1,024 record entries, and payload
//! bytes for what is held. One queue with a name of 8 bytes.

use std::hint::black_box;
use std::time::Instant;

use host::oracle::{Folder, LogReader, Oracle, Passed};
use host::plain::{Reader, BLOCK};
use host::port::{self, Memory, Port};
use mrecordlog::PersistPolicy;

const NAME: &str = "rings-01";
const ROUNDS: usize = 5;
/// The blocks of the log that calls are timed on: as many as the Rust's file has.
const BLOCKS: usize = 4096;
/// The bytes of a record beside its payloads, and of an item beside its payload.
const HEAD: usize = 11 + NAME.len();
const ITEM: usize = 12;

/// What one side did in a round: seconds, calls, bytes.
#[derive(Clone, Copy)]
struct Timed {
    seconds: f64,
    calls: f64,
    bytes: f64,
}

/// The round of the middle by seconds a call, of several.
fn median(mut rounds: Vec<Timed>) -> Timed {
    rounds.sort_by(|a, b| (a.seconds / a.calls).total_cmp(&(b.seconds / b.calls)));
    rounds[rounds.len() / 2]
}

/// A count with three digits and a unit.
fn short(x: f64) -> String {
    let (x, unit) = match x {
        x if x >= 1e9 => (x / 1e9, "G"),
        x if x >= 1e6 => (x / 1e6, "M"),
        x if x >= 1e3 => (x / 1e3, "k"),
        x => (x, ""),
    };
    let digits = if x >= 100.0 { 0 } else if x >= 10.0 { 1 } else { 2 };
    format!("{x:.digits$}{unit}")
}

/// So many blocks, in words.
fn counted(blocks: usize) -> String {
    if blocks == 1 { "1 block".to_string() } else { format!("{blocks} blocks") }
}

/// Runs both sides by turns and prints a line of the table.
fn line(what: &str, state: &str, mut port: impl FnMut() -> Timed, mut rust: impl FnMut() -> Timed) -> f64 {
    let (mut ours, mut theirs) = (vec![], vec![]);
    for _ in 0..ROUNDS {
        ours.push(port());
        theirs.push(rust());
    }
    let (a, b) = (median(ours), median(theirs));
    let ratio = (b.seconds / b.calls) / (a.seconds / a.calls);
    let side = |t: Timed| format!("{} | {} | {}", short(t.calls / t.seconds), short(t.bytes / t.seconds), nanoseconds(t.seconds / t.calls));
    println!("| {what} | {state} | {} | {} | {ratio:.2} |", side(a), side(b));
    a.seconds / a.calls
}

fn nanoseconds(seconds: f64) -> String {
    format!("{} ns", short(seconds * 1e9))
}

/// Seconds that something takes.
fn clock(f: impl FnOnce()) -> f64 {
    let start = Instant::now();
    f();
    start.elapsed().as_secs_f64()
}

/// A port with the queue, whose payload memory holds so many bytes.
fn port_with(size: usize, held: usize) -> Port {
    let mut port = port::fresh(BLOCKS * BLOCK, HEAD + ITEM + size, 64, held * size);
    port.log.fill(1);
    port.log.fill(0);
    port.create(NAME.as_bytes()).unwrap();
    port
}

/// The Rust with the queue.
fn rust_with(folder: &Folder) -> Oracle {
    folder.fill_whole(&vec![0; BLOCKS * BLOCK]);
    let mut rust = Oracle::open_with(folder, PersistPolicy::DoNothing).unwrap();
    rust.create(NAME).unwrap();
    rust
}

/// Appends of one payload, `held` times and then a truncate of all that is held; the seconds of the appends and of the truncates.
fn appends(calls: usize, held: usize, mut append: impl FnMut() -> u64, mut truncate: impl FnMut(u64)) -> (f64, f64) {
    let (mut appending, mut truncating) = (0.0, 0.0);
    for _ in 0..calls / held {
        let mut last = 0;
        appending += clock(|| {
            for _ in 0..held {
                last = append();
            }
        });
        truncating += clock(|| truncate(last));
    }
    (appending, truncating)
}

/// Both kinds of calls on the port: the appends, then the truncates.
fn port_calls(size: usize, calls: usize, held: usize) -> (Timed, Timed) {
    let payload = vec![b'x'; size];
    let port = std::cell::RefCell::new(port_with(size, held));
    let (appending, truncating) = appends(
        calls,
        held,
        || port.borrow_mut().append_run(NAME.as_bytes(), None, &payload, &[size as u64]).unwrap().0.unwrap(),
        |last| {
            port.borrow_mut().truncate(NAME.as_bytes(), last).unwrap();
        },
    );
    both(size, calls, held, appending, truncating)
}

/// The same on the Rust.
fn rust_calls(size: usize, calls: usize, held: usize) -> (Timed, Timed) {
    let payload = vec![b'x'; size];
    let folder = Folder::new();
    let rust = std::cell::RefCell::new(rust_with(&folder));
    let (appending, truncating) = appends(
        calls,
        held,
        || rust.borrow_mut().append(NAME, None, std::iter::once(&payload[..])).unwrap().0.unwrap(),
        |last| {
            rust.borrow_mut().truncate(NAME, last).unwrap();
        },
    );
    both(size, calls, held, appending, truncating)
}

fn both(size: usize, calls: usize, held: usize, appending: f64, truncating: f64) -> (Timed, Timed) {
    let rounds = (calls / held) as f64;
    (
        Timed { seconds: appending, calls: rounds * held as f64, bytes: rounds * (held * size) as f64 },
        Timed { seconds: truncating, calls: rounds, bytes: rounds * (HEAD + 7) as f64 },
    )
}

/// A log of so many blocks, full of appends of 1,000 bytes with a truncate after each 500.
fn full_log(blocks: usize) -> Vec<u8> {
    let size = 1000;
    let mut port = port::fresh(blocks * BLOCK, HEAD + ITEM + size, 64, 501 * size);
    port.create(NAME.as_bytes()).unwrap();
    let mut payload: Vec<u8> = (0..size).map(|i| (i * 7) as u8).collect();
    for n in 0u64.. {
        payload[..8].copy_from_slice(&n.to_le_bytes());
        let Ok((last, _)) = port.append_run(NAME.as_bytes(), None, &payload, &[size as u64]) else { break };
        if n % 500 == 499 && port.truncate(NAME.as_bytes(), last.unwrap()).is_err() {
            break;
        }
    }
    port.log
}

/// How often a log of so many blocks is gone through in a round.
fn turns(blocks: usize) -> usize {
    (4096 / blocks).clamp(2, 400)
}

fn whole(seconds: f64, turns: usize, log: &[u8]) -> Timed {
    Timed { seconds, calls: turns as f64, bytes: (turns * log.len()) as f64 }
}

fn replays(blocks: usize) -> f64 {
    let log = full_log(blocks);
    let turns = turns(blocks);
    let folder = Folder::new();
    folder.fill_whole(&log);
    let mut scratch = vec![0; HEAD + ITEM + 1000];
    let mut memory = Memory::new(64, 501 * 1000);
    line(
        "replay",
        &counted(blocks),
        || {
            let seconds = clock(|| {
                for _ in 0..turns {
                    black_box(port::replay(&log, &mut scratch, &mut memory).unwrap());
                }
            });
            whole(seconds, turns, &log)
        },
        || {
            let seconds = clock(|| {
                for _ in 0..turns {
                    black_box(Oracle::open_with(&folder, PersistPolicy::DoNothing).unwrap());
                }
            });
            whole(seconds, turns, &log)
        },
    )
}

fn reads(blocks: usize) -> f64 {
    let log = full_log(blocks);
    let turns = turns(blocks);
    let mut scratch = vec![0; HEAD + ITEM + 1000];
    line(
        "read, to the end of log",
        &counted(blocks),
        || {
            let mut calls = 0;
            let seconds = clock(|| {
                for _ in 0..turns {
                    let (mut block, mut cursor, mut spoilt) = (0, 0, 0);
                    loop {
                        let (number, values) = port::read_numbers(&log, &mut scratch, &mut block, &mut cursor, &mut spoilt);
                        assert_eq!(number, 0);
                        calls += 1;
                        if values[0] == 0 {
                            break;
                        }
                    }
                }
            });
            Timed { seconds, calls: calls as f64, bytes: (turns * log.len()) as f64 }
        },
        || {
            let mut calls = 0;
            let seconds = clock(|| {
                for _ in 0..turns {
                    let mut reader = LogReader::at(&log, Reader::default());
                    loop {
                        calls += 1;
                        if black_box(reader.pass()) == Passed::End {
                            break;
                        }
                    }
                }
            });
            Timed { seconds, calls: calls as f64, bytes: (turns * log.len()) as f64 }
        },
    )
}

fn checksums(size: usize) {
    let data: Vec<u8> = (0..size).map(|i| (i * 7) as u8).collect();
    let calls = (20_000_000 / (size + 100)).max(10);
    let timed = |seconds| Timed { seconds, calls: calls as f64, bytes: (calls * size) as f64 };
    line(
        "checksum alone",
        &format!("{size} bytes"),
        || {
            timed(clock(|| {
                (0..calls).for_each(|_| {
                    black_box(port::checksum(4, black_box(&data)));
                })
            }))
        },
        || {
            timed(clock(|| {
                (0..calls).for_each(|_| {
                    let mut hasher = crc32fast::Hasher::new();
                    hasher.update(&[4]);
                    hasher.update(black_box(&data));
                    black_box(hasher.finalize());
                })
            }))
        },
    );
}

/// What crossing the boundary costs: the question for positions on memory with so many records, which unpacks the tables, tests the arrangement and looks a name up.
fn boundary(held: usize) {
    let mut port = port::fresh(64 * BLOCK, HEAD + ITEM, 64, 0);
    port.create(NAME.as_bytes()).unwrap();
    for _ in 0..held {
        port.append_run(NAME.as_bytes(), None, &[], &[0]).unwrap();
    }
    let calls = 20_000;
    let round = || {
        clock(|| {
            (0..calls).for_each(|_| {
                let _ = black_box(port.memory.positions(NAME.as_bytes()));
            })
        })
    };
    let mut rounds: Vec<f64> = (0..ROUNDS).map(|_| round() / calls as f64).collect();
    rounds.sort_by(f64::total_cmp);
    println!("boundary: the question for positions with {held} records held takes {}", nanoseconds(rounds[ROUNDS / 2]));
}

fn main() {
    println!("| what | state | port: calls/s | bytes/s | a call | Rust: calls/s | bytes/s | a call | Rust's time / port's |");
    println!("|---|---|---|---|---|---|---|---|---|");
    for (size, name, calls, held) in [
        (16, "16 B", 40_000, 16),
        (16, "16 B", 40_000, 1000),
        (1 << 10, "1 KiB", 40_000, 16),
        (1 << 10, "1 KiB", 40_000, 1000),
        (1 << 16, "64 KiB", 1_600, 16),
    ] {
        line(&format!("append of {name}"), &format!("up to {held} held"), || port_calls(size, calls, held).0, || rust_calls(size, calls, held).0);
    }
    for held in [1, 16, 1000] {
        let calls = if held == 1000 { 400_000 } else { 40_000 };
        line("truncate of all", &format!("{held} held, 16 B each"), || port_calls(16, calls, held).1, || rust_calls(16, calls, held).1);
    }
    let times: Vec<f64> = [1, 64, 1024, 4096].into_iter().map(replays).collect();
    for blocks in [1, 64, 4096] {
        reads(blocks);
    }
    [16, 64, 256, 1 << 10, 1 << 12, 32_761].into_iter().for_each(checksums);
    println!();
    println!("replay, time of 4,096 blocks / time of 64 blocks: {:.1} (64 times the bytes)", times[3] / times[1]);
    println!("replay, time of 4,096 blocks / time of 1,024 blocks: {:.2} (4 times the bytes)", times[3] / times[2]);
    [0, 16, 1000].into_iter().for_each(boundary);
}
