//! That both sides run the same thing: else their times are not worth comparing.

use crate::library::Library;
use crate::original::Original;
use crate::sides::{Side, Way};
use crate::workloads::Workload;

/// Steps that are compared one by one.
const STEPS: usize = 1_000;
/// Calls of `step_n` that are compared after that.
const CALLS: usize = 10;

/// Panics where a clock or a message differs.
pub fn check(workload: &Workload) {
    let mut original = Original::post(workload);
    let mut library = Library::post(workload);
    let ways = [Way::Step].iter().cycle().take(STEPS).chain([Way::StepN].iter().cycle().take(CALLS));
    let mut sent = 0;
    for (call, &way) in ways.enumerate() {
        let (theirs, ours) = (original.messages(way), library.messages(way));
        let place = format!("{}, call {call}, {}", workload.name, way.name());
        assert!(theirs == ours, "{place}: the messages differ");
        assert_eq!(original.clock(), library.clock(), "{place}: the clocks differ");
        sent += ours.len();
    }
    assert!(sent > STEPS, "{}: hardly any message is sent", workload.name);
}
