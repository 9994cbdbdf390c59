//! What is run: tables with jobs in them, told once for both sides, in the lines of the oracle's scripts.
//! Every port in is 1 and every port out is 2.

use std::sync::OnceLock;

use oracle::Table;

/// Service times in a list.
const TIMES: usize = 4_000_000;

/// A table, the models at which jobs are injected, and the list of service times.
pub struct Workload {
    pub name: String,
    pub table: Table,
    pub jobs: Vec<u16>,
    pub services: &'static [f64],
    /// How many times as fast as the Rust's `step_n` ours should be, where that is laid down.
    pub target: Option<f64>,
}

/// Reads lines of a table.
pub fn table(lines: &[String]) -> Table {
    let mut table = Table::default();
    for line in lines {
        let words: Vec<String> = line.split_whitespace().map(String::from).collect();
        assert_eq!(table.take(&words), Ok(true), "{line}");
    }
    table
}

/// A batcher feeds a processor, and the jobs go back to the batcher.
fn line() -> Workload {
    let lines = ["batcher 1 - 1 2 2 10", "processor 2 - 1 2 8", "connector 1 2 2 1", "connector 2 2 1 1"];
    let table = table(&lines.map(String::from));
    Workload { name: "line".into(), table, jobs: vec![1; 5], services: apart(), target: Some(10.0) }
}

/// Processors in a ring; one job, or one at each. All jobs go on at once, so that every second step moves each of them.
pub fn ring(size: u16, jobs: u16) -> Workload {
    let models = (1..=size).map(|id| format!("processor {id} - 1 2 -"));
    let links = (1..=size).map(|id| format!("connector {id} 2 {} 1", id % size + 1));
    let lines: Vec<String> = models.chain(links).collect();
    Workload {
        name: format!("ring-{size}-{jobs}"),
        table: table(&lines),
        jobs: (1..=jobs).collect(),
        services: together(),
        target: None,
    }
}

/// A processor and a batcher inside three Coupleds. What leaves the outermost comes back to it. The processor feeds the batcher: what
/// it parks is handed over in the next step by the Rust too, since a processor that has just put out a job is due again.
fn nested() -> Workload {
    let lines = [
        "coupled 1 -",
        "coupled 2 1",
        "coupled 3 2",
        "batcher 4 3 1 2 1 10",
        "processor 5 3 1 2 -",
        "coupling 1 input - 1 2 1",
        "coupling 2 input - 1 3 1",
        "coupling 3 input - 1 5 1",
        "coupling 3 internal 5 2 4 1",
        "coupling 3 output 4 2 - 2",
        "coupling 2 output 3 2 - 2",
        "coupling 1 output 2 2 - 2",
        "connector 1 2 1 1",
    ];
    let table = table(&lines.map(String::from));
    Workload { name: "nested-pair".into(), table, jobs: vec![1; 4], services: apart(), target: Some(5.0) }
}

/// The five that are compared; then two rings in which hardly any two jobs go on at once.
pub fn all() -> Vec<Workload> {
    let aimed = |target, ring| Workload { target: Some(target), ..ring };
    let loose = |ring: Workload| Workload { name: format!("{}-loose", ring.name), services: apart(), ..ring };
    vec![
        line(),
        aimed(10.0, ring(16, 16)),
        aimed(10.0, ring(64, 64)),
        aimed(5.0, ring(64, 1)),
        nested(),
        loose(ring(16, 16)),
        loose(ring(64, 64)),
    ]
}

/// Rings of 2 to 64 processors, with as many jobs and with one.
pub fn sizes() -> Vec<Workload> {
    let full = (1..=6).map(|power| ring(1 << power, 1 << power));
    full.chain((1..=6).map(|power| ring(1 << power, 1))).collect()
}

/// Numbers from a small generator (xorshift64).
pub fn numbers() -> impl Iterator<Item = u64> {
    let next = |x: &u64| {
        let x = x ^ (x << 13);
        let x = x ^ (x >> 7);
        Some(x ^ (x << 17))
    };
    std::iter::successors(Some(0x9e37_79b9_7f4a_7c15), next)
}

/// Service times from 1 to 17, so that the line's batches (time 10) end in both ways. Hardly any two jobs end together.
fn apart() -> &'static [f64] {
    static TIMES_APART: OnceLock<Vec<f64>> = OnceLock::new();
    let unit = 16.0 / (1u64 << 53) as f64;
    TIMES_APART.get_or_init(|| numbers().take(TIMES).map(|x| 1.0 + (x >> 11) as f64 * unit).collect())
}

/// Service times that are all equal.
fn together() -> &'static [f64] {
    static TIMES_TOGETHER: OnceLock<Vec<f64>> = OnceLock::new();
    TIMES_TOGETHER.get_or_init(|| vec![1.0; TIMES])
}
