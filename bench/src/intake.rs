//! Intake of the largest table, in several shapes and orders of ids.

use std::time::Instant;

use oracle::Table;

use crate::library::Words;
use crate::workloads::{numbers, table};

const MODELS: u16 = 64;
const LINKS: usize = 256;
const REPETITIONS: usize = 200;

/// Three Coupleds, one in the other, of which the innermost in row `owner` holds all rows after it.
/// All couplings are its own, and each names the last row.
fn largest(ids: &[u16], owner: usize, kind: &str, rest: &str) -> Table {
    let row = |(at, id): (usize, &u16)| match (owner + 1).checked_sub(at) {
        None | Some(0) => format!("{kind} {id} {} {rest}", ids[owner]),
        Some(1 | 2) => format!("coupled {id} {}", ids[at - 1]),
        Some(3) => format!("coupled {id} -"),
        Some(_) => format!("{kind} {id} - {rest}"),
    };
    let (first, last) = (ids[owner], ids[ids.len() - 1]);
    let mut lines: Vec<String> = ids.iter().enumerate().map(row).collect();
    lines.resize(lines.len() + LINKS, format!("connector {last} 2 {last} 1"));
    lines.resize(lines.len() + LINKS, format!("coupling {first} input - 1 {last} 1"));
    table(&lines)
}

/// Ids upwards, downwards, from both ends by turns, mixed, and with equal low bits.
fn orders() -> Vec<(&'static str, Vec<u16>)> {
    let upwards: Vec<u16> = (1..=MODELS).collect();
    let downwards = upwards.iter().rev().copied().collect();
    let turns = upwards.iter().map(|id| if id % 2 == 0 { *id } else { u16::MAX - id }).collect();
    let mut keyed: Vec<(u64, u16)> = numbers().skip(1).zip(upwards.clone()).collect();
    keyed.sort_unstable();
    let mixed = keyed.into_iter().map(|(_, id)| id).collect();
    let apart = upwards.iter().map(|id| (id - 1) * 1024).collect();
    vec![
        ("upwards", upwards),
        ("downwards", downwards),
        ("by turns", turns),
        ("mixed", mixed),
        ("1024 apart", apart),
    ]
}

/// Microseconds of one intake, the best of many.
fn time(table: &Table) -> f64 {
    let words = Words::of(table);
    let mut state = words.buffer();
    let once = || {
        let start = Instant::now();
        assert_eq!(words.post(&mut state), 0, "the table is refused");
        start.elapsed().as_nanos() as f64 / 1000.0
    };
    std::iter::repeat_with(once).take(REPETITIONS).fold(f64::INFINITY, f64::min)
}

/// What each order and shape takes, the dearest last.
pub fn measure() -> Vec<(String, f64)> {
    let kinds =
        [("processor", "1 2 8"), ("batcher", "1 2 2 10"), ("stopwatch", "1 2 3 4 -"), ("coupled", "")];
    let mut costs = vec![];
    for (order, ids) in orders() {
        for owner in [2, 32, 62] {
            for (kind, rest) in kinds {
                let shape = format!("ids {order}, innermost Coupled in row {owner}, {kind} elsewhere");
                costs.push((shape, time(&largest(&ids, owner, kind, rest))));
            }
        }
    }
    costs.sort_by(|a, b| a.1.total_cmp(&b.1));
    costs
}
