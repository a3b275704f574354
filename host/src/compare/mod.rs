//! The comparison: each kind of case, its count of answers, and what was set aside.

pub mod hits;
pub mod lists;
pub mod logs;
pub mod memories;
pub mod shrink;

use std::collections::BTreeMap;
use std::fmt::Debug;

use crate::layout;
use crate::machine;
use crate::plain::{Blocks, Queues};
use crate::port::{Memory, Refused};

/// What a kind of case has been through.
#[derive(Clone, Debug, Default)]
pub struct Tally {
    /// Counts by what is counted.
    pub counts: BTreeMap<&'static str, u64>,
    /// How often each number was answered.
    pub refusals: [u64; 15],
}

impl Tally {
    pub fn count(&mut self, what: &'static str) {
        *self.counts.entry(what).or_default() += 1;
    }

    pub fn refusal(&mut self, number: u64) {
        self.refusals[number as usize] += 1;
    }

    pub fn add(&mut self, other: &Tally) {
        for (what, count) in &other.counts {
            *self.counts.entry(what).or_default() += count;
        }
        for (mine, more) in self.refusals.iter_mut().zip(other.refusals) {
            *mine += more;
        }
    }
}

/// Nothing, or what differs.
pub type Checked = Result<(), String>;

/// Two values that must be equal.
pub fn same<T: PartialEq + Debug>(what: &str, port: &T, expected: &T) -> Checked {
    if port == expected {
        return Ok(());
    }
    Err(format!("{what}: {}, expected {}", short(port), short(expected)))
}

/// Two runs of bytes that must be equal.
pub fn same_bytes(what: &str, port: &[u8], expected: &[u8]) -> Checked {
    if port == expected {
        return Ok(());
    }
    if port.len() != expected.len() {
        return Err(format!("{what}: {} bytes, expected {}", port.len(), expected.len()));
    }
    let at = port.iter().zip(expected).position(|(one, other)| one != other).unwrap();
    let part = |bytes: &[u8]| hex(&bytes[at..(at + 16).min(bytes.len())]);
    Err(format!("{what}: from byte {at}: {}, expected {}", part(port), part(expected)))
}

pub fn zero(what: &str, bytes: &[u8]) -> Checked {
    match bytes.iter().position(|&b| b != 0) {
        None => Ok(()),
        Some(at) => Err(format!("{what}: byte {at} is not zero")),
    }
}

/// Memory that must be arranged and mean these queues; asked for the largest payload of each, and for the lowest block in its entries.
pub fn means(what: &str, memory: &Memory, queues: &Queues) -> Checked {
    if let Some(condition) = layout::fails(memory) {
        return Err(format!("{what}: memory left against condition {condition}"));
    }
    same(what, &layout::meaning(memory), queues)?;
    for (name, queue) in queues {
        same(&format!("{what}: largest payload of {name:?}"), &number(memory.largest(name)), &Ok(queue.largest()))?;
    }
    first_block(what, memory, &layout::blocks(memory))
}

/// The question for the lowest of these blocks.
fn first_block(what: &str, memory: &Memory, blocks: &Blocks) -> Checked {
    same(&format!("{what}: first block"), &number(memory.first_block()), &Ok(machine::first_block(blocks)))
}

/// Each held record in its block, and the question for the lowest of them. In arranged memory.
pub fn in_blocks(what: &str, memory: &Memory, blocks: &Blocks) -> Checked {
    same(&format!("{what}: blocks of what is held"), &layout::blocks(memory), blocks)?;
    first_block(what, memory, blocks)
}

/// A refusal by its number.
pub fn number<T>(answer: Result<T, Refused>) -> Result<T, String> {
    answer.map_err(|refused| match refused {
        Refused::Number(number) => format!("{number}"),
        Refused::WithValues(number) => format!("{number} with values other than 0"),
    })
}

pub fn hex(bytes: &[u8]) -> String {
    bytes.iter().map(|b| format!("{b:02x}")).collect()
}

fn short<T: Debug>(value: &T) -> String {
    let text = format!("{value:?}");
    match text.char_indices().nth(600) {
        None => text,
        Some((end, _)) => format!("{}..", &text[..end]),
    }
}

/// Bytes by their parts that are not zero: `at:hex`.
pub fn bytes_text(bytes: &[u8]) -> String {
    let mut text = format!("{} bytes", bytes.len());
    let mut at = 0;
    while let Some(from) = bytes[at..].iter().position(|&b| b != 0) {
        let from = at + from;
        let mut to = from;
        while to < bytes.len() && bytes[to..(to + 8).min(bytes.len())].iter().any(|&b| b != 0) {
            to += 1;
        }
        text += &format!(" {from}:{}", hex(&bytes[from..to]));
        at = to;
    }
    text
}
