//! The published Rust. Records are not stored, which is its default.

use std::hint::black_box;
use std::sync::atomic::{AtomicUsize, Ordering};

use oracle::{connectors, models};
use sim::input_modeling::random_variable;
use sim::simulator::{Message as Sent, Simulation};

use crate::sides::{Message, Side, Way, STEPS_A_CALL};
use crate::workloads::Workload;

pub struct Original(Simulation);

/// Lends a list of service times, at its first. One that is lent already is not copied again.
fn lend(services: &'static [f64]) {
    static LENT: AtomicUsize = AtomicUsize::new(0);
    let list = services.as_ptr() as usize;
    if LENT.swap(list, Ordering::Relaxed) != list {
        random_variable::lend(services.to_vec());
    }
    random_variable::rewind();
}

fn words(message: &Sent) -> Message {
    let number = |text: &str| text.parse::<u64>().expect("a number");
    [
        number(message.source_id()),
        number(message.source_port()),
        number(message.target_id()),
        number(message.target_port()),
        message.time().to_bits(),
        number(message.content()),
    ]
}

impl Side for Original {
    fn post(workload: &Workload) -> Self {
        lend(workload.services);
        let rows = models(&workload.table, "-").expect("models");
        let mut sim = Simulation::post(rows, connectors(&workload.table));
        for (content, id) in workload.jobs.iter().enumerate() {
            let [none, port] = ["0", "1"].map(String::from);
            let (id, content) = (id.to_string(), content.to_string());
            sim.inject_input(Sent::new(none.clone(), none, id, port, 0.0, content));
        }
        Original(sim)
    }

    // What a call returned is freed here, and counts: a caller has to do it too.
    fn step_n(&mut self, steps: usize) -> usize {
        black_box(self.0.step_n(steps).expect("steps")).len()
    }

    fn step(&mut self) -> usize {
        black_box(self.0.step().expect("a step")).len()
    }

    fn messages(&mut self, way: Way) -> Vec<Message> {
        let sent = match way {
            Way::StepN => self.0.step_n(STEPS_A_CALL),
            Way::Step => self.0.step(),
        };
        sent.expect("steps").iter().map(words).collect()
    }

    fn clock(&self) -> u64 {
        self.0.get_global_time().to_bits()
    }
}
