//! A case that differs, made smaller as long as it still does, and printed.

use super::{bytes_text, hex};
use crate::cases::{List, Step};
use crate::plain::{Call, BLOCK};

/// Tries smaller cases over and over until none of them differs.
pub fn shrink<T: Clone>(case: &T, smaller: impl Fn(&T) -> Vec<T>, mut differs: impl FnMut(&T) -> bool) -> T {
    let mut case = case.clone();
    let mut tries = 0;
    'again: loop {
        for candidate in smaller(&case) {
            tries += 1;
            if tries > 2_000 {
                return case;
            }
            if differs(&candidate) {
                case = candidate;
                continue 'again;
            }
        }
        return case;
    }
}

/// A list without some of its steps, on fewer blocks, or with shorter payloads.
pub fn smaller_lists(list: &List) -> Vec<List> {
    let mut smaller = vec![];
    let mut part = list.steps.len() / 2;
    while part > 0 {
        for from in (0..list.steps.len()).step_by(part) {
            let mut fewer = list.clone();
            fewer.steps.drain(from..(from + part).min(list.steps.len()));
            smaller.push(fewer);
        }
        part /= 2;
    }
    if list.log > BLOCK {
        smaller.push(List { log: BLOCK, ..list.clone() });
        smaller.push(List { log: list.log / 2, ..list.clone() });
    }
    for (k, step) in list.steps.iter().enumerate() {
        let Step::Call(Call::Append { name, position, run, lens }) = step else { continue };
        if lens.iter().map(|&len| len as u128).sum::<u128>() != run.len() as u128 {
            continue;
        }
        let mut with = |lens: Vec<u64>| {
            let run = vec![b'x'; lens.iter().sum::<u64>() as usize];
            let mut changed = list.clone();
            changed.steps[k] = Step::Call(Call::Append { name: name.clone(), position: *position, run, lens });
            smaller.push(changed);
        };
        if lens.len() > 1 {
            with(lens[..lens.len() / 2].to_vec());
            with(lens[1..].to_vec());
        }
        if !run.is_empty() {
            with(lens.iter().map(|len| len / 2).collect());
        }
    }
    smaller
}

/// A log with parts of it zero, or of fewer blocks.
pub fn smaller_logs(log: &[u8]) -> Vec<Vec<u8>> {
    let mut smaller = vec![];
    if log.len() > BLOCK {
        smaller.push(log[..BLOCK].to_vec());
        smaller.push(log[..log.len() - log.len() % BLOCK - if log.len() % BLOCK == 0 { BLOCK } else { 0 }].to_vec());
    }
    let used = log.iter().rposition(|&b| b != 0).map_or(0, |last| last + 1);
    let mut part = used / 2;
    while part > 0 && smaller.len() < 400 {
        for from in (0..used).step_by(part).rev() {
            let to = (from + part).min(used);
            if log[from..to].iter().any(|&b| b != 0) {
                let mut zeroed = log.to_vec();
                zeroed[from..to].fill(0);
                smaller.push(zeroed);
            }
        }
        part /= 2;
    }
    smaller
}

fn name_text(name: &[u8]) -> String {
    if name.len() > 64 {
        return format!("{}..({} bytes)", hex(&name[..16]), name.len());
    }
    format!("\"{}\"", hex(name))
}

/// A list as text: what is lent, and its steps.
pub fn list_text(list: &List) -> String {
    let mut text = format!("log {} scratch {} names {} payloads {} seed {}\n", list.log, list.scratch, list.names, list.payloads, list.seed);
    for step in &list.steps {
        let line = match step {
            Step::Call(Call::Create { name }) => format!("create {}", name_text(name)),
            Step::Call(Call::Delete { name }) => format!("delete {}", name_text(name)),
            Step::Call(Call::Truncate { name, through }) => format!("truncate {} through {through}", name_text(name)),
            Step::Call(Call::Append { name, position, run, lens }) => {
                format!("append {} at {position:?} lengths {lens:?} run {}", name_text(name), bytes_text(run))
            }
            Step::Range { name, lower, upper } => format!("range {} {lower:?} {upper:?}", name_text(name)),
            Step::Positions { name } => format!("positions {}", name_text(name)),
            Step::Reopen => "reopen".to_string(),
        };
        text += &format!("    {line}\n");
    }
    text
}
