//! The differential host. Arguments: `--NAME NUMBER` for each name below; each kind of case starts from a seed of its own, made from `seed`.

use std::collections::BTreeMap;
use std::time::Instant;

use host::cases::{self, List};
use host::compare::shrink::{list_text, shrink, smaller_lists, smaller_logs};
use host::compare::{bytes_text, hits, lists, logs, memories, Checked, Tally};
use host::oracle::Folder;
use host::plain::{Call, BLOCK};
use host::port;
use host::random::Random;

/// How many of each are run.
const DEFAULTS: [(&str, u64); 7] =
    [("seed", 1), ("lists", 10_000), ("letters", 4), ("logs", 50_000), ("hits", 100_000), ("memories", 20_000), ("tables", 2_000)];

/// No kind goes on after so many differences.
const ENOUGH: usize = 3;

fn arguments() -> BTreeMap<&'static str, u64> {
    let mut numbers: BTreeMap<_, _> = DEFAULTS.into_iter().collect();
    let given: Vec<String> = std::env::args().skip(1).collect();
    for pair in given.chunks(2) {
        let name = DEFAULTS.iter().find(|(name, _)| pair[0] == format!("--{name}"));
        let number = pair.get(1).and_then(|text| text.parse().ok());
        let (Some((name, _)), Some(number)) = (name, number) else {
            eprintln!("arguments: --NAME NUMBER, with names and defaults {DEFAULTS:?}");
            std::process::exit(2);
        };
        numbers.insert(name, number);
    }
    numbers
}

/// One kind of case: its tally and its differences.
struct Kind {
    name: &'static str,
    seed: u64,
    started: Instant,
    tally: Tally,
    differences: usize,
}

impl Kind {
    fn new(name: &'static str, seed: u64) -> Self {
        let own = name.bytes().fold(seed, |sum, byte| sum.wrapping_mul(257).wrapping_add(byte as u64));
        Kind { name, seed: own, started: Instant::now(), tally: Tally::default(), differences: 0 }
    }

    fn differs(&mut self, difference: String, case: String) {
        self.differences += 1;
        println!("DIFFERENCE in {} (seed {}): {difference}\n  case: {case}", self.name, self.seed);
    }

    fn enough(&self) -> bool {
        self.differences >= ENOUGH
    }

    fn count(&self, what: &str) -> u64 {
        self.tally.counts.get(what).copied().unwrap_or(0)
    }

    fn done(self) -> usize {
        let counts: Vec<String> = self.tally.counts.iter().map(|(what, count)| format!("{count} {what}")).collect();
        let refused = self.tally.refusals.iter().enumerate().filter(|(_, &count)| count > 0);
        let refused: Vec<String> = refused.map(|(number, count)| format!("{number}: {count}")).collect();
        let seconds = self.started.elapsed().as_secs_f64();
        println!("{}: {}; refused {{{}}}; seed {}; {seconds:.1} s", self.name, counts.join(", "), refused.join(", "), self.seed);
        self.differences
    }

    /// Runs a list; where it differs, the smallest that does is shown.
    fn list(&mut self, list: &List, run: impl Fn(&List, &mut Tally) -> Checked) {
        self.tally.count("lists");
        let Err(first) = run(list, &mut self.tally) else { return };
        let small = shrink(list, smaller_lists, |list| run(list, &mut Tally::default()).is_err());
        let difference = run(&small, &mut Tally::default()).err().unwrap_or(first);
        self.differs(difference, list_text(&small));
    }
}

fn random_lists(seed: u64, count: u64, folder: &Folder) -> usize {
    let mut kind = Kind::new("random lists", seed);
    let mut random = Random::new(kind.seed);
    while kind.count("lists") < count && !kind.enough() {
        let list = cases::list(&mut random);
        kind.list(&list, |list, tally| lists::run(list, folder, tally));
    }
    kind.done()
}

fn short_lists(seed: u64, longest: usize, folder: &Folder) -> usize {
    let mut kind = Kind::new("all short lists", seed);
    for which in 0..3 {
        let letters = cases::alphabet(which);
        for len in 0..=longest {
            for number in 0..letters.len().pow(len as u32) {
                let log = if which == 2 { 2 * BLOCK } else { BLOCK };
                let steps = cases::spelled(&letters, len, number);
                let list = List { log, scratch: log, names: 8, payloads: log, seed: kind.seed.wrapping_add(number as u64), steps };
                if !kind.enough() {
                    kind.list(&list, |list, tally| lists::run(list, folder, tally));
                }
            }
        }
    }
    kind.done()
}

fn lists_at_block_ends(seed: u64, folder: &Folder) -> usize {
    let mut kind = Kind::new("lists at a block's end", seed);
    for list in cases::at_block_ends() {
        if !kind.enough() {
            kind.list(&list, |list, tally| lists::run(list, folder, tally));
        }
    }
    kind.done()
}

fn random_logs(seed: u64, count: u64, folder: &Folder) -> usize {
    let mut kind = Kind::new("logs", seed);
    let mut random = Random::new(kind.seed);
    let mut by_hand = if count > 0 { cases::by_hand() } else { vec![] };
    while kind.count("logs") < count + kind.count("replays set aside") && !kind.enough() {
        let log = by_hand.pop().unwrap_or_else(|| cases::log(&mut random));
        let case = logs::Log::new(&mut random, log);
        let Err(first) = logs::run(&case, folder, &mut kind.tally) else { continue };
        let run = |case: &logs::Log| logs::run(case, folder, &mut Tally::default());
        let smaller = |case: &logs::Log| smaller_logs(&case.log).into_iter().map(|log| logs::Log { log, ..case.clone() }).collect();
        let small = shrink(&case, smaller, |case| run(case).is_err());
        let lent = format!("scratch {} names {} payloads {} seed {}", small.scratch, small.names, small.payloads, small.seed);
        kind.differs(run(&small).err().unwrap_or(first), format!("{lent} log {}", bytes_text(&small.log)));
    }
    kind.done()
}

fn random_hits(seed: u64, count: u64, folder: &Folder) -> usize {
    let mut kind = Kind::new("hits", seed);
    let mut random = Random::new(kind.seed);
    while kind.count("hits") < count + kind.count("replays set aside") && !kind.enough() {
        let list = if random.once_in(8) { cases::anew(&mut random) } else { cases::list(&mut random) };
        kind.list(&list, |list, tally| hits::run(list, folder, tally));
    }
    kind.done()
}

fn changed_memories(seed: u64, count: u64, lengths: bool) -> usize {
    let mut kind = Kind::new(if lengths { "tables of other lengths" } else { "memories" }, seed);
    let mut random = Random::new(kind.seed);
    while kind.count("memories") < count && !kind.enough() {
        let list = cases::list(&mut random);
        let times = (count - kind.count("memories")).min(10) as usize;
        kind.list(&list, |list, tally| memories::run(list, times, lengths, tally));
    }
    kind.done()
}

/// Refusal 1 at both ends: logs of no block, of 4,096 blocks with a tail, and of one block more.
fn log_lengths(seed: u64) -> usize {
    let mut kind = Kind::new("log lengths", seed);
    for (log, refused) in [(0, true), (BLOCK - 1, true), (BLOCK, false), (4_096 * BLOCK + BLOCK - 1, false), (4_097 * BLOCK, true)] {
        kind.tally.count("lengths");
        let mut port = port::fresh(log, 100, 10, 10);
        let before = port.clone();
        let call = Call::Create { name: b"a".to_vec() };
        let create = port::call(&mut port, &call).is_err();
        let replay = port::replay_own(&mut port).is_err();
        if (create, replay) != (refused, refused) || (refused && port != before) {
            kind.differs(format!("create refused: {create}, replay refused: {replay}"), format!("log of {log} bytes"));
        }
    }
    kind.done()
}

fn main() {
    let numbers = arguments();
    let seed = numbers["seed"];
    let folder = Folder::new();
    println!("seed {seed}");
    let mut differences = log_lengths(seed);
    differences += random_lists(seed, numbers["lists"], &folder);
    differences += short_lists(seed, numbers["letters"] as usize, &folder);
    differences += lists_at_block_ends(seed, &folder);
    differences += random_logs(seed, numbers["logs"], &folder);
    differences += random_hits(seed, numbers["hits"], &folder);
    differences += changed_memories(seed, numbers["memories"], false);
    differences += changed_memories(seed, numbers["tables"], true);
    drop(folder);
    if differences > 0 {
        println!("{differences} differences");
        std::process::exit(1);
    }
    println!("no differences");
}
