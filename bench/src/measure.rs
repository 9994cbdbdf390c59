//! Times of both sides, taken by turns so that what else the machine does meets both: the processor's time in this
//! thread, which does not run while others have the processor. (Neither side waits for anything.)

use crate::library::Library;
use crate::original::Original;
use crate::sides::{Side, Way, STEPS_A_CALL};
use crate::workloads::Workload;

/// How often each side is timed, and over how many times `STEPS_A_CALL` steps.
#[derive(Clone, Copy)]
pub struct Effort {
    pub repetitions: usize,
    pub rounds: usize,
}

/// Nanoseconds a step and a message, the best of the repetitions.
#[derive(Clone, Copy)]
pub struct Cost {
    pub step: f64,
    pub message: f64,
}

/// What one repetition took, how many messages came, and the clock at its end.
struct Run {
    nanoseconds: f64,
    messages: usize,
    clock: u64,
}

/// Linux's number for the clock of a thread.
const THREAD_CLOCK: i32 = 3;

extern "C" {
    fn clock_gettime(clock: i32, time: *mut [i64; 2]) -> i32;
}

/// Nanoseconds that this thread has had the processor.
fn now() -> f64 {
    let mut time = [0; 2];
    assert_eq!(unsafe { clock_gettime(THREAD_CLOCK, &mut time) }, 0, "no clock of the thread");
    time[0] as f64 * 1e9 + time[1] as f64
}

fn run<S: Side>(workload: &Workload, way: Way, rounds: usize) -> Run {
    let mut side = S::post(workload);
    side.run(way); // memory and caches are warm after this
    let start = now();
    let messages = (0..rounds).map(|_| side.run(way)).sum();
    let nanoseconds = now() - start;
    Run { nanoseconds, messages, clock: side.clock() }
}

/// The cost of the Rust and of the library.
pub fn measure(workload: &Workload, way: Way, effort: Effort) -> [Cost; 2] {
    let (steps, mut best) = ((effort.rounds * STEPS_A_CALL) as f64, [f64::INFINITY; 2]);
    let mut messages = 0;
    for _ in 0..effort.repetitions {
        let theirs = run::<Original>(workload, way, effort.rounds);
        let ours = run::<Library>(workload, way, effort.rounds);
        assert_eq!(theirs.clock, ours.clock, "{}: the final clocks differ", workload.name);
        assert_eq!(theirs.messages, ours.messages, "{}: the messages differ", workload.name);
        messages = ours.messages;
        best = [best[0].min(theirs.nanoseconds), best[1].min(ours.nanoseconds)];
    }
    best.map(|time| Cost { step: time / steps, message: time / messages as f64 })
}
