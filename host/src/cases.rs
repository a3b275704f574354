//! Cases: call lists, logs, and changes of sound memory, from random numbers or by hand.

use crate::frames;
use crate::machine::{self, Machine, Room, PAYLOADS};
use crate::plain::{Bound, Call, Mark, Queues, Record, Type, BLOCK, HEADER, LAST};
use crate::port::{Memory, ENTRIES, ENTRY, LARGEST, RECORDS, TABLE};
use crate::random::Random;

/// A step of a list: a call, a question, or closing and opening the log again, which is a replay.
#[derive(Clone, Debug)]
pub enum Step {
    Call(Call),
    Range { name: Vec<u8>, lower: Bound, upper: Bound },
    Positions { name: Vec<u8> },
    Reopen,
}

/// A list of steps, and how much is lent: bytes of log, scratch, names, payloads. What memory may hold anything is filled from the seed.
#[derive(Clone, Debug)]
pub struct List {
    pub log: usize,
    pub scratch: usize,
    pub names: usize,
    pub payloads: usize,
    pub seed: u64,
    pub steps: Vec<Step>,
}

impl List {
    pub fn room(&self) -> Room {
        Room { log: self.log, scratch: self.scratch, names: self.names, payloads: self.payloads, queues: 64, records: RECORDS }
    }

    pub fn calls(&self) -> impl Iterator<Item = &Call> {
        self.steps.iter().filter_map(|step| match step {
            Step::Call(call) => Some(call),
            _ => None,
        })
    }
}

/// Names that are not UTF-8.
const WRONG: [&[u8]; 6] = [&[0xED, 0xA0, 0x80], &[0xC0, 0x80], &[0x61, 0xFF], &[0xF4, 0x90, 0x80, 0x80], &[0xE2, 0x82], &[0xF5, 0x80, 0x80, 0x80]];

/// A name of whole characters of 1 to 4 bytes, of exactly that length.
pub fn name(random: &mut Random, len: usize) -> Vec<u8> {
    let mut name = String::new();
    while name.len() < len {
        let widest = (len - name.len()).min(4);
        let c = match random.from_to(1, widest) {
            1 => random.from_to(0, 0x7F),
            2 => random.from_to(0x80, 0x7FF),
            3 => *random.pick(&[0x800, 0xD7FF, 0xE000, 0xFFFF]),
            _ => random.from_to(0x1_0000, 0x10_FFFF),
        };
        name.push(char::from_u32(c as u32).unwrap());
    }
    name.into_bytes()
}

/// The names that a list draws from: short ones, one the beginning of another, now and then long or wrong ones.
fn pool(random: &mut Random, blocks: usize) -> Vec<Vec<u8>> {
    let mut names = vec![b"a".to_vec(), b"ab".to_vec(), vec![]];
    for _ in 0..random.below(4) {
        let len = random.from_to(1, 40);
        names.push(name(random, len));
    }
    if random.once_in(8) {
        let len = if blocks > 2 { *random.pick(&[65_535, 65_534, 40_000, 32_743, 32_750]) } else { *random.pick(&[2_000, 32_743, 32_750]) };
        names.push(name(random, len));
    }
    if random.once_in(12) {
        names.push(random.pick(&WRONG).to_vec());
    }
    if random.once_in(40) {
        names.push(name(random, 65_536));
    }
    names
}

/// A number of data bytes, often such that a record with so much else before it ends near the end of a block.
fn size(random: &mut Random, place: usize, before: usize, most: usize) -> usize {
    let near = |random: &mut Random, blocks: usize| {
        let left = BLOCK - place % BLOCK + blocks * BLOCK;
        (left + random.below(20)).checked_sub(HEADER * (1 + blocks) + before + 10)
    };
    let size = match random.below(12) {
        0 => 0,
        1 => 1,
        2..=6 => random.below(60),
        7 => random.below(3_000),
        8 | 9 => near(random, 0).unwrap_or(3),
        10 => {
            let blocks = random.from_to(1, 2);
            near(random, blocks).unwrap_or(3)
        }
        _ => random.below(40_000),
    };
    if size > most {
        random.below(30)
    } else {
        size
    }
}

/// A position, near the next one or at an end of all numbers.
fn position(random: &mut Random, next: u64) -> u64 {
    match random.below(14) {
        0..=3 => next,
        4 | 5 => next.saturating_sub(1),
        6 => next.saturating_sub(2),
        7 => next.saturating_sub(random.below(6) as u64),
        8 | 9 => next.saturating_add(random.below(5) as u64),
        10 => next.saturating_add(1_000),
        11 => random.below(5) as u64,
        12 if random.once_in(3) => *random.pick(&[LAST, LAST - 1, LAST - 2, LAST - 3, LAST - 5, 1 << 63, 1 << 32]),
        _ => next,
    }
}

fn append(random: &mut Random, machine: &Machine, name: Vec<u8>, most: usize) -> Call {
    let next = machine.queues.get(&name).map_or(0, |queue| queue.next);
    let at = (!random.once_in(2)).then(|| position(random, next));
    let count = match random.below(20) {
        0 => 0,
        1..=9 => 1,
        10..=17 => random.from_to(2, 6),
        18 => random.from_to(7, 80),
        _ if random.once_in(3) => *random.pick(&[PAYLOADS - 1, PAYLOADS, PAYLOADS, PAYLOADS + 1, 1_024, 1_025]),
        _ => random.from_to(2, 30),
    };
    let mut lens: Vec<u64> = (0..count).map(|_| if random.once_in(3) { 0 } else { random.below(9) as u64 }).collect();
    if count > 0 && count < 100 {
        let k = random.below(count);
        let before = 11 + name.len() + 12 * count + lens.iter().sum::<u64>() as usize - lens[k] as usize;
        lens[k] = size(random, machine.place, before, most) as u64;
    }
    let mut run = random.bytes(lens.iter().sum::<u64>() as usize);
    if random.once_in(60) {
        match random.below(3) {
            0 => run.push(7),
            1 => lens.push(1),
            _ => lens.extend([LAST, 1]),
        }
    }
    Call::Append { name, position: at, run, lens }
}

fn bound(random: &mut Random, next: u64) -> Bound {
    let at = position(random, next);
    match random.below(3) {
        0 => Bound::None,
        1 => Bound::With(at),
        _ => Bound::Without(at),
    }
}

/// A call on a name, of which an append comes most often.
pub fn call(random: &mut Random, machine: &Machine, name: Vec<u8>, most: usize) -> Call {
    let held = machine.queues.get(&name);
    let next = held.map_or(0, |queue| queue.next);
    match random.below(20) {
        0 => Call::Create { name },
        1..=15 if held.is_none() => Call::Create { name },
        1 => Call::Delete { name },
        2..=5 | 16 => {
            let near = next.saturating_sub(random.below(3) as u64);
            Call::Truncate { through: position(random, near), name }
        }
        17 if held.is_none() => Call::Delete { name },
        _ => append(random, machine, name, most),
    }
}

fn step(random: &mut Random, machine: &Machine, names: &[Vec<u8>], most: usize) -> Step {
    let name = random.pick(names).clone();
    let next = machine.queues.get(&name).map_or(0, |queue| queue.next);
    match random.below(24) {
        0..=2 => Step::Range { lower: bound(random, next), upper: bound(random, next), name },
        3 => Step::Positions { name },
        4 if random.once_in(4) => Step::Reopen,
        _ => Step::Call(call(random, machine, name, most)),
    }
}

/// A queue with as many records as are lent, or a few fewer, by appends of as many payloads as one may have.
fn filled(random: &mut Random, name: &[u8]) -> Vec<Step> {
    let mut left = RECORDS - random.below(4);
    let mut steps = vec![Step::Call(Call::Create { name: name.to_vec() })];
    while left > 0 {
        let count = left.min(PAYLOADS);
        steps.push(Step::Call(Call::Append { name: name.to_vec(), position: None, run: random.bytes(count), lens: vec![1; count] }));
        left -= count;
    }
    steps
}

/// A random list on a log of one to eight blocks. The machine runs along, so that sizes and positions lie near the edges.
pub fn list(random: &mut Random) -> List {
    let blocks = if random.once_in(3) { random.from_to(1, 8) } else { *random.pick(&[1, 1, 1, 2, 2, 3]) };
    let log = blocks * BLOCK + if random.once_in(4) { random.below(BLOCK) } else { 0 };
    let scratch = match random.below(10) {
        0 => random.below(120),
        1 => random.below(2_000),
        _ => blocks * BLOCK + 70_000,
    };
    let names = match random.below(8) {
        0 => random.below(60),
        _ => 70_000,
    };
    let payloads = match random.below(8) {
        0 => random.below(200),
        1 => random.below(40_000),
        _ => blocks * BLOCK,
    };
    let mut list = List { log, scratch, names, payloads, seed: random.next(), steps: vec![] };
    let room = list.room();
    let mut machine = Machine::default();
    let mut pool = pool(random, blocks);
    if random.once_in(40) {
        pool = (0..70u32).map(|k| k.to_string().into_bytes()).collect();
        list.steps = (0..64).map(|k| Step::Call(Call::Create { name: pool[k].clone() })).collect();
    } else if random.once_in(40) {
        list.steps = filled(random, &pool[0]);
    }
    for call in list.calls() {
        if machine.refusal(call, &room, true).is_none() {
            machine.feed(call);
        }
    }
    let most = if random.once_in(2) { blocks * BLOCK } else { 2_000 };
    for _ in 0..random.from_to(3, 30) {
        let step = step(random, &machine, &pool, most);
        match &step {
            Step::Call(call) if machine.refusal(call, &room, true).is_none() => drop(machine.feed(call)),
            Step::Reopen => machine.place = frames::padded(machine.place).min(blocks * BLOCK),
            _ => (),
        }
        list.steps.push(step);
    }
    list
}

/// A list in which a queue is made anew before a block's end and appended to behind it: with those calls lost, replay refuses 14.
pub fn anew(random: &mut Random) -> List {
    let name = b"a".to_vec();
    let append = |random: &mut Random, name: &[u8], count: usize, len: usize| {
        Step::Call(Call::Append { name: name.to_vec(), position: None, run: random.bytes(count * len), lens: vec![len as u64; count] })
    };
    let mut steps = vec![Step::Call(Call::Create { name: b"b".to_vec() }), Step::Call(Call::Create { name: name.clone() })];
    let count = random.from_to(1, 60);
    steps.push(append(random, &name, count, 5));
    let before = 2 * (HEADER + 12) + HEADER + 12 + 17 * count + HEADER + 12 + 12;
    let filler = BLOCK - before - random.below(250);
    steps.push(append(random, b"b", 1, filler));
    steps.extend([Step::Call(Call::Delete { name: name.clone() }), Step::Call(Call::Create { name: name.clone() })]);
    for _ in 0..random.from_to(1, 30) {
        let count = random.from_to(1, 3);
        steps.push(append(random, &name, count, 6));
    }
    List { log: 2 * BLOCK, scratch: 2 * BLOCK, names: 8, payloads: 2 * BLOCK, seed: random.next(), steps }
}

/// The small alphabets: every list of their letters up to a length is run.
pub fn alphabet(which: usize) -> Vec<Step> {
    let name = |c: &str| c.as_bytes().to_vec();
    let append = |c, position, lens: &[u64]| {
        let run = vec![b'x'; lens.iter().sum::<u64>() as usize];
        Step::Call(Call::Append { name: name(c), position, run, lens: lens.to_vec() })
    };
    let truncate = |c, through| Step::Call(Call::Truncate { name: name(c), through });
    let create = |c| Step::Call(Call::Create { name: name(c) });
    let delete = |c| Step::Call(Call::Delete { name: name(c) });
    match which {
        0 => vec![
            create("a"),
            delete("a"),
            append("a", None, &[1]),
            append("a", Some(0), &[0, 2]),
            append("a", Some(3), &[1]),
            append("a", Some(1), &[]),
            truncate("a", 0),
            truncate("a", 4),
            Step::Reopen,
        ],
        1 => vec![
            create("a"),
            create(""),
            delete(""),
            append("", None, &[3]),
            append("a", Some(2), &[1, 1]),
            truncate("", 1),
            truncate("a", 2),
            append("", Some(LAST - 2), &[1, 1]),
        ],
        _ => vec![
            create("a"),
            append("a", None, &[32_700]),
            append("a", None, &[14]),
            append("a", None, &[3, 32_730]),
            truncate("a", 1),
            delete("a"),
            create("b"),
            Step::Reopen,
        ],
    }
}

/// Lists with 0 to 8 bytes left in the block before a call: each call, an append over three blocks, one with the empty answer, and one that is refused 9; then an
/// append more.
pub fn at_block_ends() -> Vec<List> {
    let name = b"a".to_vec();
    let append = |position, len: usize| Call::Append { name: name.clone(), position, run: vec![b'x'; len], lens: vec![len as u64] };
    let calls = [
        Call::Create { name: b"b".to_vec() },
        Call::Delete { name: name.clone() },
        Call::Truncate { name: name.clone(), through: 0 },
        append(None, 1),
        append(None, 2 * BLOCK),
        append(Some(1), 1),
        append(Some(0), 1),
    ];
    let mut lists = vec![];
    for left in 0..=8 {
        // the frames of the create and of the two appends before the call have 19, 31 and 31 bytes, and the first payload
        let filler = append(None, BLOCK - left - 19 - 31 - 31);
        for call in &calls {
            let steps = [Call::Create { name: name.clone() }, filler.clone(), append(None, 0), call.clone(), append(None, 5)];
            let steps = steps.into_iter().map(Step::Call).collect();
            lists.push(List { log: 5 * BLOCK, scratch: 3 * BLOCK, names: 8, payloads: 5 * BLOCK, seed: left as u64, steps });
        }
    }
    lists
}

/// The lists of `len` letters by number: `number` below letters to the power of `len`.
pub fn spelled(letters: &[Step], len: usize, mut number: usize) -> Vec<Step> {
    (0..len)
        .map(|_| {
            let letter = letters[number % letters.len()].clone();
            number /= letters.len();
            letter
        })
        .collect()
}

/// A random record: names from few, positions near the queue's next, small, or at an end of all numbers, now and then many or long items.
pub fn record(random: &mut Random, queues: &Queues) -> Record {
    let name = random.pick(&[&b"a"[..], b"b", b"", b"ab", b"c"]).to_vec();
    let next = queues.get(&name).map_or(0, |queue| queue.next);
    let position = match random.below(30) {
        0 => LAST,
        1 => LAST - 1,
        2..=20 => next.saturating_add(random.below(4) as u64).saturating_sub(random.below(3) as u64),
        _ => random.below(12) as u64,
    };
    let kind = *random.pick(&[Type::Truncate, Type::Touch, Type::Touch, Type::Delete, Type::Append, Type::Append, Type::Append, Type::Append]);
    let kind = if position == LAST && kind == Type::Truncate && !random.once_in(4) { Type::Touch } else { kind };
    let mut items = vec![];
    if kind == Type::Append {
        let mut at = if random.once_in(6) { random.below(12) as u64 } else { position.max(next) };
        let many = random.once_in(60);
        let count = if many { *random.pick(&[PAYLOADS, PAYLOADS + 1, 1_024]) } else { random.below(5) };
        for _ in 0..count {
            let len = if many { random.below(3) } else if random.once_in(20) { random.below(9_000) } else { random.below(12) };
            items.push((at, random.bytes(len)));
            at = if !many && random.once_in(30) { random.below(12) as u64 } else { at.saturating_add(1 + random.below(2) as u64) };
        }
    }
    Record { kind, position, name, items }
}

/// The bytes of a record, now and then wrong in one place or of a wrong length.
fn record_bytes(random: &mut Random, record: &Record) -> Vec<u8> {
    let mut bytes = frames::encode(record);
    match random.below(24) {
        0 => bytes.truncate(random.below(bytes.len() + 1)),
        1 => {
            let more = random.below(14);
            bytes.extend(random.bytes(more));
        }
        2 => {
            let k = random.below(bytes.len().min(24));
            bytes[k] = random.next() as u8;
        }
        _ => (),
    }
    bytes
}

/// A shift number, and a body.
pub fn mark(random: &mut Random) -> Mark {
    let shift = *random.pick(&[0, 1, 7, LAST - 1, LAST]);
    Mark { shift: if random.once_in(2) { shift } else { random.next() }, body: if random.once_in(4) { [0; 8] } else { random.next().to_le_bytes() } }
}

/// The bytes of a mark, now and then of another form: type, name length or body.
fn mark_bytes(random: &mut Random) -> Vec<u8> {
    let mut bytes = frames::encode_mark(mark(random));
    match random.below(10) {
        0 => bytes.truncate(random.below(bytes.len() + 1)),
        1 => {
            let more = random.from_to(1, 3);
            bytes.extend(random.bytes(more));
        }
        2 => bytes[0] = random.from_to(0, 8) as u8,
        3 => bytes[9] = random.from_to(1, 9) as u8,
        _ => (),
    }
    bytes
}

/// How a hand-made log is put together.
struct Maker<'a> {
    random: &'a mut Random,
    queues: Queues,
    log: Vec<u8>,
    place: usize,
    end: usize,
}

impl Maker<'_> {
    /// The record's frames as the writer would put them, where there is room.
    fn put(&mut self, bytes: &[u8]) {
        let frames = frames::frames(self.place, bytes.len());
        let end = frames.last().unwrap().end();
        if end <= self.end {
            frames::put(&mut self.log, self.place, &frames, bytes);
            self.place = end;
        }
    }

    /// One frame with a type, length or checksum that need not be right.
    fn odd_frame(&mut self) {
        let at = frames::padded(self.place);
        let left = (BLOCK - at % BLOCK - HEADER).min(40);
        if at + HEADER + left > self.end {
            return;
        }
        let len = self.random.below(left + 1);
        let kind = if self.random.once_in(5) { self.random.below(256) as u8 } else { self.random.from_to(1, 4) as u8 };
        let mut data = self.random.bytes(len);
        if self.random.once_in(2) {
            let made = record(self.random, &self.queues);
            let bytes = frames::encode(&made);
            if bytes.len() <= left {
                data = bytes;
            }
        }
        let mut bytes = frames::frame_bytes(kind, &data);
        match self.random.below(8) {
            0 => bytes[0] ^= 1,
            1 => bytes[4] = self.random.next() as u8,
            2 => bytes[5] = self.random.next() as u8,
            _ => (),
        }
        self.log[at..at + bytes.len()].copy_from_slice(&bytes);
        self.place = at + bytes.len();
    }
}

/// A log of records and odd frames by hand, from a place near the start or near a block's end.
fn made_log(random: &mut Random, blocks: usize, odd: bool) -> Vec<u8> {
    let end = blocks * BLOCK;
    let count = random.from_to(1, 25);
    let room = Room { log: end, scratch: end, names: end, payloads: end, queues: 64, records: end };
    let mut maker = Maker { random, queues: Queues::new(), log: vec![0; end], place: 0, end };
    if maker.random.once_in(4) {
        let left = BLOCK - HEADER - 11 - 12 - 1 - maker.random.below(60);
        let filler = Record { kind: Type::Append, position: 0, name: b"f".to_vec(), items: vec![(0, vec![b'.'; left])] };
        maker.put(&frames::encode(&filler));
    }
    for _ in 0..count {
        if odd && maker.random.once_in(3) {
            maker.odd_frame();
        } else if maker.random.once_in(6) {
            let bytes = mark_bytes(maker.random);
            maker.put(&bytes);
        } else {
            let record = record(maker.random, &maker.queues);
            let bytes = record_bytes(maker.random, &record);
            let _ = machine::replay_record(&mut maker.queues, &record, &room);
            maker.put(&bytes);
        }
        if odd && maker.random.once_in(15) {
            maker.place = (maker.place + 1 + maker.random.below(9)).min(end);
        }
        if odd && maker.random.once_in(25) {
            maker.place = ((maker.place / BLOCK + 1) * BLOCK).min(end);
        }
    }
    maker.log
}

/// The log that a random list writes.
fn written_log(random: &mut Random) -> Vec<u8> {
    let mut list = list(random);
    list.scratch = list.log + 70_000;
    let mut machine = Machine::default();
    let mut log = vec![0; list.log];
    for call in list.calls() {
        if machine.refusal(call, &list.room(), true).is_none() {
            let place = machine.place;
            let listed = machine.list.len();
            machine.feed(call);
            if let Some(put) = machine.list.get(listed) {
                frames::put(&mut log, place, &put.frames, &frames::encode(&put.record));
            }
        }
    }
    log
}

/// Changes a log in some places, mostly in its used part.
fn damage(random: &mut Random, log: &mut Vec<u8>) {
    let used = log.iter().rposition(|&b| b != 0).map_or(1, |last| last + 1);
    for _ in 0..random.from_to(1, 4) {
        let end = if random.once_in(5) { log.len() } else { used };
        let at = random.below(end);
        match random.below(7) {
            0 | 1 => log[at] ^= 1 << random.below(8),
            2 => log[at] = random.next() as u8,
            3 => {
                let to = (at + random.below(300)).min(log.len());
                log[at..to].fill(0);
            }
            4 => {
                let to = (at + random.below(64)).min(log.len());
                random.fill(&mut log[at..to]);
            }
            5 if log.len() >= 2 * BLOCK => {
                let (from, to) = (random.below(log.len() / BLOCK), random.below(log.len() / BLOCK));
                log.copy_within(from * BLOCK..(from + 1) * BLOCK, to * BLOCK);
            }
            _ => {
                let len = random.from_to(1, 50).min(log.len() - at);
                let from = random.below(log.len() - len);
                log.copy_within(from..from + len, at);
            }
        }
    }
}

/// A random, damaged or hand-made log.
pub fn log(random: &mut Random) -> Vec<u8> {
    let blocks = *random.pick(&[1, 1, 1, 2, 2, 3]);
    let mut log = match random.below(20) {
        0 => random.bytes(blocks * BLOCK),
        1 => {
            let mut log = vec![0; blocks * BLOCK];
            for _ in 0..random.below(200) {
                let at = if random.once_in(2) { random.below(60) } else { random.below(log.len()) };
                log[at] = random.from_to(1, 5) as u8;
            }
            log
        }
        2..=6 => made_log(random, blocks, false),
        7..=13 => made_log(random, blocks, true),
        14 => written_log(random),
        _ => {
            let mut log = written_log(random);
            damage(random, &mut log);
            log
        }
    };
    if random.once_in(6) {
        let tail = random.below(BLOCK);
        log.extend(random.bytes(tail));
    }
    log
}

/// Logs by hand, each at an edge of reading.
pub fn by_hand() -> Vec<Vec<u8>> {
    let touch = frames::encode(&Record { kind: Type::Touch, position: 3, name: b"a".to_vec(), items: vec![] });
    let full = frames::frame_bytes(1, &touch);
    let laid = |blocks: usize, parts: &[(usize, &[u8])]| {
        let mut log = vec![0; blocks * BLOCK];
        for (at, bytes) in parts {
            log[*at..at + bytes.len()].copy_from_slice(bytes);
        }
        log
    };
    let empty = frames::frame_bytes(1, &[]);
    let mut many = vec![];
    for block in 0..2 {
        many.extend((0..4_681).map(|k| (block * BLOCK + 7 * k, &empty[..])));
    }
    let (first, middle, last) = (frames::frame_bytes(2, &touch[..5]), frames::frame_bytes(3, &touch[5..7]), frames::frame_bytes(4, &touch[7..]));
    let filler = frames::encode(&Record { kind: Type::Append, position: 0, name: b"f".to_vec(), items: vec![(0, vec![9; BLOCK - 31])] });
    let exact = frames::frame_bytes(1, &filler);
    let mut past = exact.clone();
    past[4] += 1;
    let mut unknown = full.clone();
    unknown[6] = 5;
    let end = full.len();
    let begun: Vec<u8> = [&first[..], &middle[..]].concat();
    let filled = |left: usize| frames::frame_bytes(1, &vec![4; BLOCK - HEADER - left]);
    let mut logs = vec![
        laid(1, &[]),
        laid(2, &many),
        laid(2, &[(0, &full), (end + 7, &full), (BLOCK, &full)]),
        laid(1, &[(0, &begun)]),
        laid(1, &[(0, &begun), (begun.len(), &last)]),
        laid(1, &[(0, &begun), (begun.len(), &full), (begun.len() + end, &last)]),
        laid(1, &[(0, &last), (last.len(), &middle), (last.len() + middle.len(), &full)]),
        laid(2, &[(0, &exact), (BLOCK, &full)]),
        laid(2, &[(0, &past), (BLOCK, &full)]),
        laid(1, &[(0, &past)]),
        laid(2, &[(0, &unknown), (end, &full), (BLOCK, &full)]),
        laid(1, &[(0, &full), (end, &unknown)]),
    ];
    for left in 0..10 {
        let before = filled(left);
        let opening = frames::frame_bytes(2, &[]);
        let closing = frames::frame_bytes(4, &touch);
        logs.push(laid(2, &[(0, &before), (BLOCK, &full)]));
        logs.push(laid(1, &[(0, &before)]));
        if left >= HEADER {
            logs.push(laid(2, &[(0, &before), (BLOCK - left, &opening), (BLOCK, &closing)]));
            logs.push(laid(2, &[(0, &before), (BLOCK - left, &empty), (BLOCK, &full)]));
        }
    }
    logs
}

/// A change of a frame that is a hit: checksum bits, or bits of type and data within 32 adjacent ones.
pub fn hit(random: &mut Random, log: &mut [u8], frame: frames::Frame, of_checksum: bool) {
    let pattern = match random.below(4) {
        0 => 1 << random.below(32),
        1 => u32::MAX,
        _ => (random.next() as u32).max(1),
    };
    if of_checksum {
        for (k, byte) in pattern.to_le_bytes().into_iter().enumerate() {
            log[frame.at + k] ^= byte;
        }
        return;
    }
    let run = &mut log[frame.at + 6..frame.end()];
    let bits = 8 * run.len();
    let first = match random.below(4) {
        0 => 0,
        1 => bits.saturating_sub(32),
        _ => random.below(bits),
    };
    let flip = |run: &mut [u8], bit: usize| run[bit / 8] ^= 1 << (bit % 8);
    let inside: Vec<usize> = (0..32).filter(|k| pattern >> k & 1 == 1).map(|k| first + k).filter(|&bit| bit < bits).collect();
    for &bit in &inside {
        flip(run, bit);
    }
    if inside.is_empty() {
        flip(run, first);
    }
}

/// Queue memory in which all that may be anything is random: no queues.
pub fn memory(random: &mut Random, names: usize, payloads: usize) -> Memory {
    let (names, payloads) = (random.bytes(names), random.bytes(payloads));
    let mut memory = Memory { names, payloads, entries: random.bytes(ENTRIES), largest: random.bytes(LARGEST), table: random.bytes(TABLE) };
    memory.table[..32].fill(0);
    memory
}

/// A number that is small, near the end of all numbers, or near another.
fn number(random: &mut Random, near: u64) -> u64 {
    match random.below(8) {
        0 => random.next(),
        1 => LAST - random.below(3) as u64,
        2 => random.below(70) as u64,
        3 => 0,
        _ => near.wrapping_add(random.below(5) as u64).wrapping_sub(2),
    }
}

/// Gives some of the records that sound memory holds another block: it stays arranged.
pub fn other_blocks(random: &mut Random, memory: &mut Memory) {
    for entry in memory.entries.chunks_exact_mut(ENTRY).take(memory.table[16] as usize + 256 * memory.table[17] as usize) {
        if random.once_in(2) {
            let block = u64::from_le_bytes(entry[24..].try_into().unwrap());
            entry[24..].copy_from_slice(&number(random, block).to_le_bytes());
        }
    }
}

/// Changes sound memory: a word of the tables, two words of one kind exchanged, a byte, or all of a slice; or the length of the further table.
pub fn disarrange(random: &mut Random, memory: &mut Memory) {
    let word = |bytes: &[u8], k: usize| u64::from_le_bytes(bytes[8 * k..8 * k + 8].try_into().unwrap());
    let queues = word(&memory.table, 0).min(64) as usize;
    let names = word(&memory.table, 1).min(memory.names.len() as u64) as usize;
    let records = word(&memory.table, 2).min(RECORDS as u64) as usize;
    let table_words = 4 + 3 * queues;
    let numbers = records.min(memory.largest.len() / 8);
    match random.below(25) {
        0 => memory.table = random.bytes(TABLE),
        1 => memory.entries = random.bytes(ENTRIES),
        2..=8 => {
            let k = random.below(table_words);
            let changed = number(random, word(&memory.table, k));
            memory.table[8 * k..8 * k + 8].copy_from_slice(&changed.to_le_bytes());
        }
        9..=12 if records > 0 => {
            let k = random.below(4 * records);
            let changed = number(random, word(&memory.entries, k));
            memory.entries[8 * k..8 * k + 8].copy_from_slice(&changed.to_le_bytes());
        }
        13 if records > 1 => {
            let (i, j, field) = (random.below(records), random.below(records), random.below(4));
            let (one, other) = (word(&memory.entries, 4 * i + field), word(&memory.entries, 4 * j + field));
            memory.entries[ENTRY * i + 8 * field..][..8].copy_from_slice(&other.to_le_bytes());
            memory.entries[ENTRY * j + 8 * field..][..8].copy_from_slice(&one.to_le_bytes());
        }
        14 | 15 if queues > 1 => {
            let (i, j, field) = (random.below(queues), random.below(queues), random.below(3));
            let (one, other) = (word(&memory.table, 4 + 3 * i + field), word(&memory.table, 4 + 3 * j + field));
            memory.table[8 * (4 + 3 * i + field)..][..8].copy_from_slice(&other.to_le_bytes());
            memory.table[8 * (4 + 3 * j + field)..][..8].copy_from_slice(&one.to_le_bytes());
        }
        16 | 17 if names > 0 => {
            let k = random.below(names);
            memory.names[k] = random.next() as u8;
        }
        18 if queues > 0 => {
            let k = 5 + 3 * random.below(queues);
            memory.table[8 * k..8 * k + 8].fill(0);
        }
        19 => {
            let k = random.below(8 * table_words);
            memory.table[k] = random.next() as u8;
        }
        20 | 21 if numbers > 0 => {
            let k = random.below(numbers);
            let changed = number(random, word(&memory.largest, k));
            memory.largest[8 * k..8 * k + 8].copy_from_slice(&changed.to_le_bytes());
        }
        22 if !memory.largest.is_empty() => {
            let k = random.below((8 * records + 8).min(memory.largest.len()));
            memory.largest[k] = random.next() as u8;
        }
        23 => {
            let len = *random.pick(&[LARGEST - 1, LARGEST - 8, 8 * records, 0]);
            memory.largest.truncate(len);
        }
        _ => {
            let k = random.below((ENTRY * records + ENTRY).min(ENTRIES));
            memory.entries[k] = random.next() as u8;
        }
    }
}
