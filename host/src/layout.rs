//! docs/LAYOUT.md: when lent queue memory is arranged, and which queues it means. Of the record table the whole entries of 32 bytes count, at most 1,024, of the
//! further table the whole numbers, at most 1,024, of the table of queues the whole words, at most 196; a word that is not there counts as 0.

use crate::plain::{Blocks, Queue, Queues, Reader, BLOCK, LAST};
use crate::port::{Memory, ENTRY, LARGEST, RECORDS, TABLE};

fn word(bytes: &[u8], at: usize) -> u64 {
    u64::from_le_bytes(bytes[8 * at..8 * at + 8].try_into().unwrap())
}

/// How many words of the table of queues count.
pub fn words(memory: &Memory) -> usize {
    (memory.table.len() / 8).min(TABLE / 8)
}

/// How many entries of the record table count.
pub fn entries(memory: &Memory) -> usize {
    (memory.entries.len() / ENTRY).min(RECORDS)
}

/// How many queues the table of queues has room for.
pub fn rows(memory: &Memory) -> usize {
    (words(memory).saturating_sub(4) / 3).min(64)
}

/// How many numbers of the further table count.
fn numbers(memory: &Memory) -> usize {
    (memory.largest.len() / 8).min(LARGEST / 8)
}

/// The bytes of the tables that do not count: no call touches them.
pub fn behind(memory: &Memory) -> (&[u8], &[u8], &[u8]) {
    (&memory.entries[ENTRY * entries(memory)..], &memory.largest[8 * numbers(memory)..], &memory.table[8 * words(memory)..])
}

/// 02, Ticket 8: "a further lent table as long as the record table; a shorter one is 6, on replay too".
pub fn short(memory: &Memory) -> bool {
    numbers(memory) < entries(memory)
}

/// What is kept with each used entry: the number of the entry with the longest payload among those of its queue up to it, the earlier of equals.
fn kept(entries: &[(u64, u64, u64)]) -> Vec<u64> {
    let mut longest = std::collections::HashMap::new();
    let keep = |(i, entry): (usize, &(u64, u64, u64))| {
        let best = longest.entry(entry.0).or_insert(i);
        if entry.2 > entries[*best].2 {
            *best = i;
        }
        *best as u64
    };
    entries.iter().enumerate().map(keep).collect()
}

fn table_word(memory: &Memory, at: usize) -> u64 {
    if at < words(memory) {
        word(&memory.table, at)
    } else {
        0
    }
}

/// A row of the table: name length, start, next.
fn row(memory: &Memory, k: usize) -> (u64, u64, u64) {
    (table_word(memory, 4 + 3 * k), table_word(memory, 5 + 3 * k), table_word(memory, 6 + 3 * k))
}

/// An entry: queue, position, length. Its fourth number, the block, is no part of what arranged memory asks.
fn entry(memory: &Memory, i: usize) -> (u64, u64, u64) {
    (word(&memory.entries, 4 * i), word(&memory.entries, 4 * i + 1), word(&memory.entries, 4 * i + 2))
}

fn sum(lengths: impl Iterator<Item = u64>) -> u128 {
    lengths.map(u128::from).sum()
}

/// The first of the 15 conditions that does not hold; none where the memory is arranged.
pub fn fails(memory: &Memory) -> Option<u64> {
    let [queues, names, records, payloads] = [0, 1, 2, 3].map(|k| table_word(memory, k));
    if queues > 64 {
        return Some(1);
    }
    if queues > 0 && (words(memory) as u64) < 4 + 3 * queues {
        return Some(2);
    }
    if names > memory.names.len() as u64 || records > entries(memory) as u64 || payloads > memory.payloads.len() as u64 {
        return Some(3);
    }
    let rows: Vec<_> = (0..queues as usize).map(|k| row(memory, k)).collect();
    let entries: Vec<_> = (0..records as usize).map(|i| entry(memory, i)).collect();
    if sum(rows.iter().map(|row| row.0)) != names as u128 {
        return Some(4);
    }
    if sum(entries.iter().map(|entry| entry.2)) != payloads as u128 {
        return Some(5);
    }
    if entries.iter().any(|entry| entry.0 >= queues) {
        return Some(6);
    }
    let mut held: Vec<Vec<u64>> = vec![vec![]; rows.len()];
    for entry in &entries {
        held[entry.0 as usize].push(entry.1);
    }
    let next_holds = |(row, held): (&(u64, u64, u64), &Vec<u64>)| match held.last() {
        Some(&last) => last.checked_add(1) == Some(row.2),
        None => row.2 == row.1,
    };
    if !rows.iter().zip(&held).all(next_holds) {
        return Some(7);
    }
    let mut at = 0;
    let mut all = vec![];
    for row in &rows {
        all.push(&memory.names[at..at + row.0 as usize]);
        at += row.0 as usize;
    }
    if all.iter().any(|name| name.len() > 65_535 || std::str::from_utf8(name).is_err()) {
        return Some(8);
    }
    if all.windows(2).any(|two| two[0] >= two[1]) {
        return Some(9);
    }
    let rises = |held: &Vec<u64>| held.windows(2).all(|two| two[0] < two[1]);
    let from_start = |(row, held): (&(u64, u64, u64), &Vec<u64>)| held.first().is_none_or(|&first| first >= row.1);
    if !held.iter().all(rises) || !rows.iter().zip(&held).all(from_start) {
        return Some(11);
    }
    if entries.iter().any(|entry| entry.1 == LAST) {
        return Some(12);
    }
    if rows.iter().zip(&held).any(|(row, held)| row.1 == 0 && held.first().is_some_and(|&first| first != 0)) {
        return Some(13);
    }
    if short(memory) {
        return Some(14);
    }
    if kept(&entries).iter().enumerate().any(|(i, &number)| word(&memory.largest, i) != number) {
        return Some(15);
    }
    None
}

pub fn arranged(memory: &Memory) -> bool {
    fails(memory).is_none()
}

/// The queues that arranged memory means.
pub fn meaning(memory: &Memory) -> Queues {
    let mut at = 0;
    let mut named: Vec<(Vec<u8>, Queue)> = (0..table_word(memory, 0) as usize)
        .map(|k| {
            let (len, start, next) = row(memory, k);
            let name = memory.names[at..at + len as usize].to_vec();
            at += len as usize;
            (name, Queue { start, next, records: vec![] })
        })
        .collect();
    let mut from = 0;
    for i in 0..table_word(memory, 2) as usize {
        let (queue, position, len) = entry(memory, i);
        let payload = memory.payloads[from..from + len as usize].to_vec();
        from += len as usize;
        named[queue as usize].1.records.push((position, payload));
    }
    named.into_iter().collect()
}

/// The blocks of the records that arranged memory holds.
pub fn blocks(memory: &Memory) -> Blocks {
    let names: Vec<Vec<u8>> = meaning(memory).into_keys().collect();
    let held = |i| {
        let (queue, position, _) = entry(memory, i);
        ((names[queue as usize].clone(), position), word(&memory.entries, 4 * i + 3))
    };
    (0..table_word(memory, 2) as usize).map(held).collect()
}

/// A reader relative to the log that is lent.
pub fn reader_arranged(reader: &Reader, log: usize) -> bool {
    reader.block < log / BLOCK && reader.cursor <= BLOCK
}

/// A write position relative to the log that is lent.
pub fn place_arranged(place: usize, log: usize) -> bool {
    place <= log / BLOCK * BLOCK
}
