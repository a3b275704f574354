//! Writes the stored sample of the Rust's answers: `sample [FOLDER [SEED]]` makes FOLDER/stdin, lists of commands, and FOLDER/stdout, what the Rust answers to
//! them. FOLDER is crates/test_rust_answers by default, whose program replays the list. Nothing here runs the port.
//!
//! A command is a line of words and decimals, as the head of crates/test_commands/src/lib.rt lists them.

use std::fmt::Write as _;
use std::fs;
use std::path::PathBuf;

use host::frames::{crc32, encode, frame_bytes, frames};
use host::machine::PAYLOADS;
use host::oracle::{Folder, LogReader, Oracle};
use host::plain::{payloads, Bound, Corruption, Reader, Reading, Record, Type, BLOCK, HEADER};
use host::random::Random;

/// What the program lends: more than this the sample must not ask for.
const QUEUES: usize = 64;
const RECORDS: usize = 1024;
const NAME_BYTES: usize = 32_768;

/// Bytes as a word: as they stand where they are letters and digits, else in hex.
fn plain(bytes: &[u8]) -> String {
    match std::str::from_utf8(bytes) {
        Ok(text) if text.bytes().all(|byte| byte.is_ascii_alphanumeric()) && !text.starts_with("0x") => text.to_string(),
        _ => bytes.iter().fold("0x".to_string(), |hex, byte| hex + &format!("{byte:02x}")),
    }
}

/// A name or bytes of a log as a word: `-` for none, and where a few bytes stand again and again, these and the length.
fn word(bytes: &[u8]) -> String {
    if bytes.is_empty() {
        return "-".to_string();
    }
    let repeats = |unit: &usize| bytes.len() % unit == 0 && bytes.len() / unit > 3 && bytes.chunks(*unit).all(|part| part == &bytes[..*unit]);
    match (1..=16.min(bytes.len() - 1)).find(repeats) {
        Some(unit) => format!("{}*{}", plain(&bytes[..unit]), bytes.len()),
        None => plain(bytes),
    }
}

/// The run of a seed.
fn run(len: usize, seed: u32) -> Vec<u8> {
    let mut x = seed as u64 % (1 << 31);
    let step = |_| {
        x = (x * 1_103_515_245 + 12_345) % (1 << 31);
        (x / 65_536) as u8
    };
    (0..len).map(step).collect()
}

/// The lengths of n payloads with b bytes.
fn lens(n: u32, b: u32) -> Vec<u64> {
    (0..n).map(|i| (b / n + (i < b % n) as u32) as u64).collect()
}

fn crc(bytes: &[u8]) -> String {
    format!("{:08x}", crc32(bytes.iter().copied()))
}

/// Length and CRC-32.
fn told(bytes: &[u8]) -> String {
    format!("{} {}", bytes.len(), crc(bytes))
}

fn told_record((position, payload): &(u64, Vec<u8>)) -> String {
    format!(" record {position} {}", told(payload))
}

/// The sample so far, and how many answers of each kind it has.
#[derive(Default)]
struct Sample {
    stdin: String,
    stdout: String,
    lists: u64,
    calls: u64,
    questions: u64,
    replays: u64,
    refused: u64,
    reads: u64,
    corruptions: u64,
}

/// A list: the Rust on a file of its own, and the log's bytes.
struct List<'a> {
    sample: &'a mut Sample,
    folder: Folder,
    rust: Option<Oracle>,
    log: Vec<u8>,
    place: usize,
    seed: u32,
    commands: Vec<String>,
}

impl<'a> List<'a> {
    fn new(sample: &'a mut Sample, blocks: usize) -> Self {
        sample.lists += 1;
        let number = sample.lists;
        writeln!(sample.stdout, "list {number} blocks {blocks}").unwrap();
        let log = vec![0; blocks * BLOCK];
        let folder = Folder::new();
        folder.fill(&log);
        let rust = Oracle::open(&folder);
        List { sample, folder, rust, log, place: 0, seed: number as u32 * 1000, commands: vec![] }
    }

    /// The list with its head: a zero log of so many blocks and no queues.
    fn end(self) {
        let (number, len) = (self.sample.lists, self.log.len());
        writeln!(self.sample.stdin, "line list {number} blocks {}\nlend log {len}\nstart", len / BLOCK).unwrap();
        for command in self.commands {
            writeln!(self.sample.stdin, "{command}").unwrap();
        }
    }

    fn rust(&mut self) -> &mut Oracle {
        self.rust.as_mut().expect("a log that the Rust opened")
    }

    fn line(&mut self, line: String) {
        writeln!(self.sample.stdout, "{line}").unwrap();
    }

    // ---- calls

    /// The answer of a call, with the log that it left.
    fn call(&mut self, command: String, answer: Result<(String, u64), u64>) {
        self.commands.push(command);
        self.commands.push("log".to_string());
        let answer = match answer {
            Ok((answer, bytes)) => {
                self.place += bytes as usize;
                answer
            }
            Err(number) => format!(" refused {number}"),
        };
        self.folder.read(&mut self.log);
        let line = format!("{answer} log {}", crc(&self.log));
        self.line(line);
        self.sample.calls += 1;
        self.within();
    }

    /// The queues lie within what the program lends.
    fn within(&mut self) {
        let queues = self.rust().queues();
        assert!(queues.len() <= QUEUES);
        assert!(queues.keys().map(Vec::len).sum::<usize>() <= NAME_BYTES);
        assert!(queues.values().map(|queue| queue.records.len()).sum::<usize>() <= RECORDS);
    }

    /// Whether a record of a length has room in the log.
    fn room(&self, len: usize) -> bool {
        frames(self.place, len).last().unwrap().end() <= self.log.len()
    }

    fn create(&mut self, name: &str) {
        if self.room(11 + name.len()) {
            let answer = self.rust().create(name).map(|bytes| (format!(" created {bytes}"), bytes));
            self.call(format!("create {}", word(name.as_bytes())), answer);
        }
    }

    fn delete(&mut self, name: &str) {
        if self.room(11 + name.len()) {
            let answer = self.rust().delete(name).map(|bytes| (format!(" deleted {bytes}"), bytes));
            self.call(format!("delete {}", word(name.as_bytes())), answer);
        }
    }

    fn truncate(&mut self, name: &str, position: u64) {
        if self.room(11 + name.len()) {
            let answer = self.rust().truncate(name, position).map(|(evicted, bytes)| (format!(" evicted {evicted} bytes {bytes}"), bytes));
            self.call(format!("truncate {} through {position}", word(name.as_bytes())), answer);
        }
    }

    fn append(&mut self, name: &str, position: Option<u64>, n: u32, b: u32) {
        let held: usize = self.rust().queues().values().map(|queue| queue.records.len()).sum();
        if !self.room(11 + name.len() + 12 * n as usize + b as usize) || RECORDS < held + n as usize {
            return;
        }
        assert!(n as usize <= PAYLOADS);
        self.seed += 1;
        let seed = self.seed;
        let (data, lens) = (run(b as usize, seed), lens(n, b));
        let answer = self.rust().append(name, position, payloads(&data, &lens).into_iter());
        let answer = answer.map(|(last, bytes)| match last {
            Some(last) => (format!(" last {last} bytes {bytes}"), bytes),
            None => {
                assert_eq!(bytes, 0);
                (" empty".to_string(), 0)
            }
        });
        let at = position.map_or(String::new(), |position| format!(" at {position}"));
        self.call(format!("append {} payloads {n} bytes {b} even seed {seed}{at}", word(name.as_bytes())), answer);
    }

    /// An append of one payload behind which so many bytes are left in the block, where that can be.
    fn leave(&mut self, name: &str, left: usize) {
        let end = (self.place / BLOCK + 1) * BLOCK - left;
        let fixed = self.place + HEADER + 11 + name.len() + 12;
        if fixed <= end {
            self.append(name, None, 1, (end - fixed) as u32);
        }
    }

    // ---- questions

    fn ranges(&mut self, name: &str, a: u64, b: u32) {
        self.commands.push(format!("ranges {} from {a} to {b}", word(name.as_bytes())));
        let mut line = "range".to_string();
        for lower in [Bound::None, Bound::With(a), Bound::Without(a)] {
            for upper in [Bound::None, Bound::With(b as u64), Bound::Without(b as u64)] {
                line += &match self.rust().range(name, lower, upper) {
                    Ok(Some(record)) => told_record(&record),
                    Ok(None) => " none".to_string(),
                    Err(number) => format!(" refused {number}"),
                };
                self.sample.questions += 1;
            }
        }
        self.line(line);
    }

    fn queues(&mut self) {
        self.commands.push("queues".to_string());
        self.tell_queues();
    }

    fn tell_queues(&mut self) {
        let queues = self.rust.as_ref().map(Oracle::queues).unwrap_or_default();
        for (name, queue) in queues {
            let records: String = queue.records.iter().map(told_record).collect();
            self.line(format!("queue {} start {} next {}{records}", told(&name), queue.start, queue.next));
        }
    }

    // ---- replay and reads

    /// All answers of a reader up to end of log, and where it then stands.
    fn answers(&self) -> (Vec<Reading>, u64) {
        let mut reader = LogReader::at(&self.log, Reader::default());
        let mut answers = vec![];
        loop {
            match reader.read() {
                Reading::End => return (answers, reader.state().place()),
                answer => answers.push(answer),
            }
        }
    }

    fn replay(&mut self) {
        self.commands.push("reopen".to_string());
        self.rust = None;
        self.folder.fill(&self.log);
        self.rust = Oracle::open(&self.folder);
        let (answers, resumed) = self.answers();
        let lost = answers.iter().filter(|answer| matches!(answer, Reading::Corrupt(_))).count();
        let line = match &self.rust {
            Some(rust) => {
                let queues = rust.queues().len();
                self.place = resumed as usize;
                format!("replay lost {lost} resumed {resumed} queues {queues}")
            }
            None => {
                self.sample.refused += 1;
                "replay refused 14 queues 0".to_string()
            }
        };
        self.line(line);
        self.sample.replays += 1;
        self.tell_queues();
        if self.rust.is_some() {
            self.within();
        }
    }

    fn reads(&mut self) {
        self.commands.push("reads".to_string());
        for answer in self.answers().0 {
            let line = match answer {
                Reading::End | Reading::Mark(_) => unreachable!(),
                Reading::Corrupt(Corruption::Checksum) => "read wrong checksum".to_string(),
                Reading::Corrupt(Corruption::FrameType) => "read unknown type".to_string(),
                Reading::Corrupt(Corruption::Length) => "read length past the block".to_string(),
                Reading::Corrupt(Corruption::Record) => "read no record".to_string(),
                Reading::Record(Record { kind, position, name, items }) => {
                    let kind = match kind {
                        Type::Truncate => "truncate",
                        Type::Touch => "touch",
                        Type::Delete => "delete",
                        Type::Append => "append",
                    };
                    let items: String = items.iter().map(told_record).collect();
                    format!("read {kind} {position} name {}{items}", told(&name))
                }
            };
            self.sample.corruptions += (!line.contains("name")) as u64;
            self.sample.reads += 1;
            self.line(line);
        }
        self.sample.reads += 1;
        self.line("read end".to_string());
    }

    /// Replay of the log as it is and, where asked for, its reads.
    fn look(&mut self, reads: bool) {
        self.replay();
        if reads {
            self.reads();
        }
    }

    // ---- the log changed; only a replay may follow

    fn hit(&mut self, at: usize, by: u8) {
        self.commands.push(format!("xor at {at} by {by}"));
        self.log[at] ^= by;
    }

    fn cut(&mut self, at: usize) {
        self.commands.push(format!("cut at {at}"));
        self.log[at..].fill(0);
    }

    fn bytes(&mut self, at: usize, bytes: &[u8]) {
        self.commands.push(format!("put {} at {at}", word(bytes)));
        self.log[at..][..bytes.len()].copy_from_slice(bytes);
    }

    fn run(&mut self, at: usize, len: usize, seed: u32) {
        self.commands.push(format!("fill bytes {len} at {at} seed {seed}"));
        self.log[at..][..len].copy_from_slice(&run(len, seed));
    }

    /// Where the frames of an undamaged log start, and how long their data are.
    fn frames(&self) -> Vec<(usize, usize)> {
        let mut found = vec![];
        let mut at = 0;
        loop {
            if BLOCK - at % BLOCK < HEADER {
                at = (at / BLOCK + 1) * BLOCK;
            }
            if self.log.len() <= at || self.log[at..at + HEADER] == [0; HEADER] {
                return found;
            }
            let len = u16::from_le_bytes([self.log[at + 4], self.log[at + 5]]) as usize;
            found.push((at, len));
            at += HEADER + len;
        }
    }
}

// ---- call lists

/// Names: short ones, the empty one, long ones, and some that are not ASCII.
fn name(random: &mut Random) -> String {
    match random.below(12) {
        0 => String::new(),
        1 => "z".repeat(random.from_to(2, 3000)),
        2 => "é€".to_string(),
        3 => "\u{10ffff}\u{10000}".to_string(),
        4 => "\u{7ff}\u{800}\0".to_string(),
        5 => "Zürich ".repeat(random.from_to(1, 4)),
        6 => "queue".to_string(),
        _ => ["a", "b", "c", "ab", "aa"][random.below(5)].to_string(),
    }
}

/// How many bytes an append has.
fn bytes(random: &mut Random) -> u32 {
    let most = *random.pick(&[0, 1, 12, 60, 60, 300, 3000, 20_000, 40_000]);
    random.from_to(0, most) as u32
}

fn position(random: &mut Random, next: u64) -> u64 {
    match random.below(8) {
        0 => next.saturating_sub(1),
        1 => next.saturating_sub(2),
        2 => next,
        3 => next + random.below(20) as u64,
        4 => next.saturating_sub(random.below(6) as u64),
        5 => 0,
        6 => (1 << 32) + random.below(9) as u64,
        _ => next + 1,
    }
}

fn random_call(list: &mut List, random: &mut Random, names: &[String]) {
    let name = random.pick(names).as_str();
    let next = list.rust().last_position(name).ok().flatten().map_or(0, |last| last + 1);
    match random.below(20) {
        0 => list.create(name),
        1 => list.delete(name),
        2..=5 => {
            let through = position(random, next);
            list.truncate(name, through);
        }
        6..=9 => {
            let at = position(random, next);
            let n = random.from_to(0, 3) as u32;
            let b = if n == 0 { 0 } else { bytes(random) };
            list.append(name, Some(at), n, b);
        }
        10 => {
            let left = *random.pick(&[0, 1, 5, 6, 7, 8, 9, 18, 19, 26]);
            list.leave(name, left);
        }
        _ => {
            let n = *random.pick(&[0, 1, 1, 1, 2, 3, 5, 20]);
            let b = if n == 0 { 0 } else { bytes(random) };
            list.append(name, None, n, b);
        }
    }
}

fn random_ranges(list: &mut List, random: &mut Random, names: &[String]) {
    for name in names {
        let next = list.rust().last_position(name).ok().flatten().map_or(0, |last| last + 1);
        let a = position(random, next / 2);
        let b = position(random, next).min(1 << 31) as u32;
        list.ranges(name, a, b);
    }
}

/// A hit of one frame: which byte of the log changes, and by which bits.
fn hit(list: &List, random: &mut Random) -> (usize, u8) {
    let &(at, len) = random.pick(&list.frames());
    let bit = 1 << random.below(8);
    match random.below(7) {
        0 => (at + random.below(4), bit),
        1 => (at + 4, bit),
        2 => (at + 5, bit),
        3 => (at + 6, random.from_to(1, 255) as u8),
        4 | 5 if len > 0 => (at + HEADER + random.below(len), random.from_to(1, 255) as u8),
        _ => (at + 6, 1),
    }
}

/// The log cut where a frame starts, or within it.
fn cut(list: &mut List, random: &mut Random) {
    let &(at, len) = random.pick(&list.frames());
    let from = if random.once_in(2) { 0 } else { random.below(HEADER + len) };
    list.cut(at + from);
}

/// A list of random calls, then its queues, ranges, reads, replay, and replays of the log with a hit, each taken back. At last the log is hit or cut, and with `on`
/// calls follow the replay.
fn call_list(sample: &mut Sample, random: &mut Random, calls: usize, on: bool) {
    let blocks = random.from_to(1, 3);
    let names: Vec<String> = (0..random.from_to(1, 3)).map(|_| name(random)).collect();
    let mut list = List::new(sample, blocks);
    for name in &names {
        if !random.once_in(6) {
            list.create(name);
        }
    }
    for _ in 0..calls {
        random_call(&mut list, random, &names);
    }
    list.queues();
    random_ranges(&mut list, random, &names);
    list.look(true);
    if list.frames().is_empty() {
        return list.end();
    }
    for turn in 0..3 {
        let (at, by) = hit(&list, random);
        list.hit(at, by);
        list.look(turn == 0);
        list.hit(at, by);
    }
    if random.once_in(2) {
        cut(&mut list, random);
    } else {
        let (at, by) = hit(&list, random);
        list.hit(at, by);
    }
    list.look(!on);
    if on && list.rust.is_some() {
        for _ in 0..4 {
            random_call(&mut list, random, &names);
        }
        list.look(true);
    }
    list.end();
}

/// A block filled up to `left` bytes before its end, and each kind of call from there on.
fn edge_list(sample: &mut Sample, left: usize, turn: usize) {
    let mut list = List::new(sample, 2);
    list.create("q");
    list.leave("q", left);
    match turn % 4 {
        0 => list.append("q", None, 0, 0),
        1 => list.truncate("q", 0),
        2 => list.create("other"),
        _ => list.delete("q"),
    }
    list.append("q", None, 2, 30);
    list.leave("q", left);
    list.look(true);
    list.end();
}

/// Many payloads: appends with so many each.
fn many(sample: &mut Sample, appends: u32, each: u32, b: u32) {
    let mut list = List::new(sample, 3);
    list.create("many");
    for _ in 0..appends {
        list.append("many", None, each, b);
    }
    let n = appends * each;
    list.queues();
    list.truncate("many", n as u64 / 2);
    list.ranges("many", n as u64 / 2, n - 1);
    list.append("many", Some(n as u64 + 5), 3, 5);
    list.truncate("many", n as u64 + 6);
    list.replay();
    list.end();
}

/// Queues one after the other up to as many as are lent.
fn many_queues(sample: &mut Sample) {
    let mut list = List::new(sample, 1);
    for i in 0..QUEUES {
        list.create(&format!("{}", (i * 29) % 64));
    }
    list.append("7", None, 2, 9);
    list.delete("63");
    list.create("63");
    list.look(false);
    list.end();
}

/// A queue deleted and made again whose delete is lost: an item below its next, so that replay is refused.
fn refused_list(sample: &mut Sample, lost: &[usize]) {
    let mut list = List::new(sample, 1);
    list.create("a");
    list.append("a", None, 3, 30);
    list.delete("a");
    list.create("a");
    list.append("a", None, 1, 3);
    let frames = list.frames();
    for &frame in lost {
        list.hit(frames[frame].0, 0x80);
    }
    list.look(true);
    list.end();
}

// ---- hand-made logs

fn record(kind: Type, position: u64, name: &str, items: &[(u64, &[u8])]) -> Vec<u8> {
    let items = items.iter().map(|(position, data)| (*position, data.to_vec())).collect();
    encode(&Record { kind, position, name: name.into(), items })
}

fn full(data: &[u8]) -> Vec<u8> {
    frame_bytes(1, data)
}

/// A log with these bytes at their places: replayed and read; where asked for, then two calls for the queue "a", and replayed again.
fn made_at(sample: &mut Sample, blocks: usize, parts: &[(usize, Vec<u8>)], on: bool) {
    let mut list = List::new(sample, blocks);
    for (at, bytes) in parts {
        list.bytes(*at, bytes);
    }
    list.look(true);
    if on && list.rust.is_some() {
        list.create("a");
        list.append("a", None, 1, 4);
        list.look(false);
    }
    list.end();
}

fn made(sample: &mut Sample, parts: &[Vec<u8>], on: bool) {
    made_at(sample, 1, &[(0, parts.concat())], on);
}

/// Frames that follow one another as a writer never leaves them.
fn made_frames(sample: &mut Sample) {
    let touch = record(Type::Touch, 0, "a", &[]);
    let append = record(Type::Append, 0, "a", &[(0, b"one"), (1, b"")]);
    let (head, tail) = append.split_at(13);
    let whole = full(&touch);
    let behind = full(&record(Type::Touch, 3, "b", &[]));
    let [first, middle, last] = [frame_bytes(2, head), frame_bytes(3, &tail[..4]), frame_bytes(4, &tail[4..])];
    let orders: [&[&[u8]]; 14] = [
        &[&first, &middle, &last],
        &[&middle, &last],
        &[&last],
        &[&first, &last],
        &[&first, &first, &middle, &last],
        &[&first, &behind, &middle, &last],
        &[&first, &middle, &middle, &last],
        &[&middle, &first, &middle, &last],
        &[&first, &middle],
        &[&first, &middle, &last, &last],
        &[&full(&[]), &first, &middle, &last],
        &[&frame_bytes(2, &[]), &frame_bytes(3, &[]), &frame_bytes(4, &append)],
        &[&frame_bytes(2, &append), &frame_bytes(4, &[])],
        &[&frame_bytes(2, &append), &frame_bytes(3, &[]), &behind],
    ];
    for order in orders {
        made(sample, &[whole.clone(), order.concat(), behind.clone()], false);
    }
    for (at, by) in [(0, 1), (3, 128), (4, 1), (5, 127), (6, 4), (6, 1), (6, 255), (7, 2), (19, 9)] {
        let mut bytes = [whole.clone(), full(&append), behind.clone()].concat();
        bytes[whole.len() + at] ^= by;
        made(sample, &[bytes], true);
    }
}

/// Headers of their own.
fn made_headers(sample: &mut Sample) {
    let whole = full(&record(Type::Touch, 0, "a", &[]));
    let header = |sum: u32, len: u16, kind: u8| [sum.to_le_bytes().to_vec(), len.to_le_bytes().to_vec(), vec![kind]].concat();
    for one in
        [header(0, 0, 1), header(0, 0, 4), header(1, 0, 0), header(0, 1, 0), header(0, 0, 5), header(0, 32_742, 1), header(0, 32_743, 1), header(7, 65_535, 3)]
    {
        made_at(sample, 2, &[(0, [whole.clone(), one, whole.clone()].concat()), (BLOCK, whole.clone())], true);
    }
    let filled = |left: usize| full(&record(Type::Append, 5, "a", &[(5, &vec![9; BLOCK - left - 31])]));
    for left in 0..9 {
        let mut list = List::new(sample, 2);
        let data = filled(left);
        list.run(HEADER + 24, BLOCK - HEADER - 24 - left, left as u32);
        let kept = list.log[..BLOCK - left].to_vec();
        list.bytes(0, &full(&[&data[HEADER..HEADER + 24], &kept[HEADER + 24..]].concat())[..HEADER + 24]);
        list.bytes(BLOCK, &whole);
        list.look(true);
        if left > 0 {
            list.bytes(BLOCK - left, &vec![2; left]);
            list.look(true);
        }
        list.end();
    }
    made_at(sample, 2, &[(0, whole.clone()), (whole.len() + HEADER, whole.clone()), (BLOCK, whole.clone())], true);
    made_at(sample, 3, &[(0, whole.clone()), (whole.len() + HEADER - 1, vec![3; 1]), (2 * BLOCK, whole)], true);
}

/// Sound frames whose bytes mean no record.
fn made_records(sample: &mut Sample) {
    let touch = record(Type::Touch, 0, "a", &[]);
    let append = record(Type::Append, 0, "a", &[(0, b"one"), (1, b"")]);
    let with = |at: usize, byte: u8| {
        let mut bytes = append.clone();
        bytes[at] = byte;
        bytes
    };
    let mut cases: Vec<Vec<u8>> =
        vec![with(0, 0), with(0, 5), with(0, 255), with(0, 1), with(0, 2), with(0, 3), with(9, 0), with(9, 2), with(9, 255), with(10, 1), with(11, 0x80)];
    cases.extend([with(20, 4), with(20, 2), with(20, 0), with(20, 23), with(23, 255), with(35, 1)]);
    cases.extend([0, 1, 10, 11, 12, 13, 19, 23, 24, 26, 27, 28, 38].map(|len| append[..len].to_vec()));
    for name in [&b"\xed\xa0\x80"[..], b"\xf4\x8f\xbf\xbf", b"\xf4\x90\x80\x80", b"\xc0\x80", b"\xc3\xa9", b"\xe2\x82", b"\xf0\x9f\x98\x80"] {
        let mut bytes = touch[..9].to_vec();
        bytes.extend((name.len() as u16).to_le_bytes());
        bytes.extend(name);
        cases.push(bytes);
    }
    let behind = full(&record(Type::Append, 2, "b", &[(2, b"two")]));
    for case in cases {
        made(sample, &[full(&case), behind.clone()], false);
    }
}

/// What a record does to queues at replay.
fn made_replays(sample: &mut Sample) {
    let top = u64::MAX - 1;
    let append = |position, items: &[(u64, &[u8])]| record(Type::Append, position, "a", items);
    let touch = |position| record(Type::Touch, position, "a", &[]);
    let truncate = |position| record(Type::Truncate, position, "a", &[]);
    let delete = |position| record(Type::Delete, position, "a", &[]);
    let cases: Vec<Vec<Vec<u8>>> = vec![
        vec![append(7, &[(7, b"x")])],
        vec![append(7, &[(9, b"x"), (12, b"yz")])],
        vec![append(0, &[(9, b"x")])],
        vec![append(7, &[(6, b"x")])],
        vec![append(7, &[(8, b"x"), (8, b"y")])],
        vec![append(7, &[(8, b"x"), (7, b"y")])],
        vec![append(4, &[])],
        vec![append(4, &[]), append(9, &[(4, b"at")])],
        vec![append(4, &[]), append(9, &[(3, b"below")])],
        vec![touch(0), append(5, &[(5, b"x")]), touch(6)],
        vec![touch(0), append(5, &[(5, b"x")]), touch(9)],
        vec![touch(0), append(5, &[(5, b"x")]), touch(0), append(0, &[(0, b"y")])],
        vec![touch(3), touch(3), append(3, &[(3, b"x")])],
        vec![touch(3), touch(5), append(3, &[(3, b"x")])],
        vec![touch(3), append(8, &[(8, b"x")]), truncate(2)],
        vec![touch(3), append(8, &[(8, b"x")]), truncate(3), append(9, &[(9, b"")])],
        vec![touch(0), append(3, &[(3, b"x"), (5, b"yy"), (9, b"zzz")]), truncate(4)],
        vec![touch(0), append(3, &[(3, b"x"), (5, b"yy"), (9, b"zzz")]), truncate(20)],
        vec![touch(0), truncate(0), append(0, &[(0, b"x")])],
        vec![truncate(5)],
        vec![truncate(5), touch(0)],
        vec![delete(5)],
        vec![touch(0), delete(77), append(6, &[(6, b"x")])],
        vec![delete(u64::MAX), touch(0)],
        vec![append(5, &[(5, b"x")]), delete(0), truncate(9), append(1, &[(1, b"x")])],
        vec![append(u64::MAX, &[(1, b"x")])],
        vec![append(top - 1, &[(top - 1, b"x")])],
        vec![touch(top), truncate(top - 1)],
    ];
    for case in cases {
        let parts: Vec<Vec<u8>> = case.iter().map(|record| full(record)).collect();
        made(sample, &parts, true);
    }
}

/// Random bytes, alone and behind a record.
fn random_logs(sample: &mut Sample, random: &mut Random) {
    for turn in 0..10 {
        let blocks = random.from_to(1, 3);
        let mut list = List::new(sample, blocks);
        let whole = full(&record(Type::Append, 1, "a", &[(1, b"x")]));
        let from = if turn % 2 == 0 { 0 } else { whole.len() };
        let len = random.from_to(1, blocks * BLOCK - from);
        list.run(from, len, random.next() as u32);
        if from > 0 {
            list.bytes(0, &whole);
        }
        let at = random.below(blocks) * BLOCK;
        list.bytes(at, &whole);
        list.look(true);
        list.end();
    }
    for _ in 0..20 {
        let mut list = List::new(sample, 1);
        let mut bytes = vec![];
        for _ in 0..random.from_to(1, 6) {
            let len = random.from_to(0, 30);
            let mut data = random.bytes(len);
            if data.len() > 11 {
                data[0] = random.from_to(1, 4) as u8;
                data[2..9].fill(0);
                data[9..11].copy_from_slice(&(random.below(3) as u16).to_le_bytes());
                data[11] %= 128;
            }
            bytes.extend(frame_bytes(random.from_to(1, 4) as u8, &data));
            if random.once_in(3) {
                *bytes.last_mut().unwrap() ^= 1;
            }
        }
        list.bytes(0, &bytes);
        list.look(true);
        list.end();
    }
}

/// Appends with as many items as a call may write, and with more: they are read all the same.
fn made_appends(sample: &mut Sample) {
    for count in [PAYLOADS, PAYLOADS + 1, RECORDS] {
        let data: Vec<Vec<u8>> = (0..count).map(|k| run(k % 3, k as u32)).collect();
        let items: Vec<(u64, &[u8])> = data.iter().enumerate().map(|(k, data)| (k as u64, &data[..])).collect();
        made(sample, &[full(&record(Type::Append, 0, "a", &items))], true);
    }
}

fn main() {
    let mut arguments = std::env::args().skip(1);
    let default = PathBuf::from(env!("CARGO_MANIFEST_DIR")).join("../crates/test_rust_answers");
    let folder = arguments.next().map(PathBuf::from).unwrap_or(default);
    let seed = arguments.next().map_or(1, |seed| seed.parse().expect("a seed"));
    let mut random = Random::new(seed);
    let mut sample = Sample::default();
    for turn in 0..32 {
        call_list(&mut sample, &mut random, 6 + turn % 9, turn % 2 == 0);
    }
    for (turn, left) in [0, 1, 5, 6, 7, 8, 9, 17, 18, 19, 20, 25, 26, 27].into_iter().enumerate() {
        edge_list(&mut sample, left, turn);
    }
    many(&mut sample, (RECORDS / PAYLOADS) as u32, PAYLOADS as u32, 375);
    many(&mut sample, 1, PAYLOADS as u32, 3000);
    many_queues(&mut sample);
    for lost in [&[2][..], &[3], &[2, 3], &[0, 3], &[1, 2, 3], &[4], &[0, 1, 2, 3]] {
        refused_list(&mut sample, lost);
    }
    made_frames(&mut sample);
    made_headers(&mut sample);
    made_records(&mut sample);
    made_replays(&mut sample);
    random_logs(&mut sample, &mut random);
    made_appends(&mut sample);
    fs::write(folder.join("stdin"), &sample.stdin).unwrap();
    fs::write(folder.join("stdout"), &sample.stdout).unwrap();
    let Sample { stdin, stdout, lists, calls, questions, replays, refused, reads, corruptions } = sample;
    println!("seed {seed}: {lists} lists with {calls} calls, {questions} questions of a range, {replays} replays ({refused} refused 14), {reads} reads ({corruptions} corruptions)");
    println!("stdin {} bytes, stdout {} bytes", stdin.len(), stdout.len());
}
