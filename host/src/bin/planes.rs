//! Readings by byte planes: the port's two entries beside the same loops in Rust, on random cases and then by the clock.
//! `host/run planes [CASES [SEED]]`: 200,000 cases from seed 1 by default. The exit code is 1 where a case differs.

use std::hint::black_box;
use std::process::ExitCode;
use std::time::Instant;

use host::port::raw::{mrecordlog_from_planes, mrecordlog_to_planes};
use host::random::Random;

#[derive(Clone, Copy, Debug)]
enum Way {
    To,
    From,
}

/// The port's entry.
fn port(way: Way, payload: &[u8], width: u64, target: &mut [u8]) -> u64 {
    let entry = match way {
        Way::To => mrecordlog_to_planes,
        Way::From => mrecordlog_from_planes,
    };
    // Safety: each slice is given by its own pointer and length, and the two do not overlap.
    unsafe { entry(payload.as_ptr(), payload.len(), width, target.as_mut_ptr(), target.len()) }
}

/// The same in Rust: byte j of reading i is at i * width + j of the readings and at j * n + i of the planes.
fn rust(way: Way, payload: &[u8], width: u64, target: &mut [u8]) -> u64 {
    if width == 0 || width > 64 || payload.len() % width as usize != 0 || target.len() != payload.len() {
        return 18;
    }
    let width = width as usize;
    let n = payload.len() / width;
    match way {
        Way::To => {
            for j in 0..width {
                for i in 0..n {
                    target[j * n + i] = payload[i * width + j];
                }
            }
        }
        Way::From => {
            for i in 0..n {
                for j in 0..width {
                    target[i * width + j] = payload[j * n + i];
                }
            }
        }
    }
    0
}

fn total(bytes: &[u8]) -> u64 {
    bytes.iter().map(|&b| b as u64).sum()
}

/// A width, mostly from 0 to 66.
fn some_width(random: &mut Random) -> u64 {
    match random.below(20) {
        0 => random.next(),
        1 => u64::MAX,
        2 => random.from_to(0, 300) as u64,
        _ => random.from_to(0, 66) as u64,
    }
}

/// One case, both ways: numbers, all bytes lent and those beside them; then there and back, and the total. The number answered, or what differs.
fn case(random: &mut Random) -> Result<u64, String> {
    let width = some_width(random);
    let most = if random.once_in(50) { 1000 } else { 80 };
    let readings = random.from_to(0, most);
    let odd = if random.once_in(5) { random.from_to(1, 70) } else { 0 };
    let payload = random.bytes(readings * (width.min(66) as usize) + odd);
    let len = match random.below(8) {
        0 => payload.len() + 1,
        1 => payload.len().saturating_sub(1),
        2 => random.below(5000),
        _ => payload.len(),
    };
    let mut answered = 0;
    for way in [Way::To, Way::From] {
        let before = random.bytes(len + 16);
        let (mut ours, mut theirs) = (before.clone(), before.clone());
        let told = || format!("{way:?} width {width} payload {payload:02x?} target {len}");
        let lent = payload.clone();
        answered = port(way, &lent, width, &mut ours[8..8 + len]);
        if (answered, &ours, &lent) != (rust(way, &payload, width, &mut theirs[8..8 + len]), &theirs, &payload) {
            return Err(told());
        }
        if answered == 0 {
            let back = if let Way::To = way { Way::From } else { Way::To };
            let made = &ours[8..8 + len];
            let mut again = vec![0; len];
            if port(back, made, width, &mut again) != 0 || again != payload || total(made) != total(&payload) {
                return Err(format!("there and back: {}", told()));
            }
        } else if ours != before {
            return Err(format!("refused, but stored: {}", told()));
        }
    }
    Ok(answered)
}

/// Seconds a call, the median of five rounds; the sides take turns.
fn clocked(way: Way, payload: &[u8], width: u64) -> [f64; 2] {
    let calls = 40_000_000 / payload.len();
    let mut target = vec![0; payload.len()];
    let mut rounds = [vec![], vec![]];
    for _ in 0..5 {
        for (side, f) in [port, rust].into_iter().enumerate() {
            let start = Instant::now();
            for _ in 0..calls {
                assert_eq!(f(way, black_box(payload), black_box(width), black_box(&mut target)), 0);
            }
            rounds[side].push(start.elapsed().as_secs_f64() / calls as f64);
        }
    }
    rounds.map(|mut times| {
        times.sort_by(f64::total_cmp);
        times[times.len() / 2]
    })
}

fn main() -> ExitCode {
    let mut arguments = std::env::args().skip(1).map(|a| a.parse().expect("a number"));
    let cases = arguments.next().unwrap_or(200_000);
    let seed = arguments.next().unwrap_or(1);
    let mut random = Random::new(seed);
    let (mut done, mut refused) = (0, 0);
    for _ in 0..cases {
        match case(&mut random) {
            Ok(0) => done += 1,
            Ok(_) => refused += 1,
            Err(what) => {
                println!("differs: {what}");
                return ExitCode::FAILURE;
            }
        }
    }
    println!("seed {seed}: {cases} cases, both ways, {done} done, {refused} refused, no differences\n");
    println!("| way | width | payload | port: bytes/s | Rust: bytes/s | Rust's time / port's |\n|---|---|---|---|---|---|");
    for len in [4_032, 65_472] {
        let payload = random.bytes(len);
        for way in [Way::To, Way::From] {
            for width in [1, 8, 24, 64] {
                let [ours, theirs] = clocked(way, &payload, width);
                let rate = |seconds: f64| format!("{:.2}G", len as f64 / seconds / 1e9);
                println!("| {way:?} | {width} | {len} | {} | {} | {:.2} |", rate(ours), rate(theirs), theirs / ours);
            }
        }
    }
    ExitCode::SUCCESS
}
