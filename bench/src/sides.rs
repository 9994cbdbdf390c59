//! What both sides can do.

use crate::workloads::Workload;

/// How the steps are asked for: `STEPS_A_CALL` in each call, or one.
#[derive(Clone, Copy, PartialEq)]
pub enum Way {
    StepN,
    Step,
}

pub const WAYS: [Way; 2] = [Way::StepN, Way::Step];
pub const STEPS_A_CALL: usize = 10_000;

impl Way {
    pub fn name(self) -> &'static str {
        match self {
            Way::StepN => "step_n",
            Way::Step => "step",
        }
    }
}

/// A message as six words, as the library writes it out.
pub type Message = [u64; 6];

pub trait Side {
    /// A new simulation with its jobs injected, at the first of the service times.
    fn post(workload: &Workload) -> Self;
    /// Steps, by one call of `step_n`; answers how many messages came.
    fn step_n(&mut self, steps: usize) -> usize;
    /// One step, by `step`; answers how many messages came.
    fn step(&mut self) -> usize;
    /// The messages of one call, in order.
    fn messages(&mut self, way: Way) -> Vec<Message>;
    /// The bits of the clock.
    fn clock(&self) -> u64;

    /// `STEPS_A_CALL` steps; answers how many messages came.
    fn run(&mut self, way: Way) -> usize {
        match way {
            Way::StepN => self.step_n(STEPS_A_CALL),
            Way::Step => (0..STEPS_A_CALL).map(|_| self.step()).sum(),
        }
    }
}
