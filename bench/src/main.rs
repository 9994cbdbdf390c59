//! Times the published Rust and the library on the same inputs. `USAGE` says how it is called.

mod check;
mod intake;
mod library;
mod measure;
mod original;
mod sides;
mod workloads;

use std::process::ExitCode;

use library::Library;
use measure::{measure, Effort};
use original::Original;
use sides::{Side, Way, WAYS};
use workloads::Workload;

const USAGE: &str = "usage: bench/run [--sizes] [--repetitions N] [--rounds N]
  no option      the five workloads, and the intake of the largest table
  --sizes        rings of 2 to 64 processors, with as many jobs and with one
  --repetitions  how often each side is timed, by turns; the best counts (5 if left out)
  --rounds       how many times 10,000 steps are timed together (10 if left out, at most 11: the list of service times ends)";

/// The rings with 64 jobs take 32 service times a step.
const MOST_ROUNDS: usize = 11;

/// What the command line asks for.
enum Task {
    Workloads(Effort),
    Sizes(Effort),
    Names,
    Alone(Workload, bool, Way, usize),
}

/// How `gain` compares with what was asked for.
fn verdict(gain: f64, target: f64) -> String {
    if gain >= target {
        return format!("{target:>8}  met");
    }
    format!("{target:>8}  missed by {:.2}x", target / gain)
}

/// Checks a workload, and prints a line for each way of calling.
fn tell(workload: &Workload, effort: Effort) {
    check::check(workload);
    for way in WAYS {
        let [theirs, ours] = measure(workload, way, effort);
        let (name, called, gain) = (&workload.name, way.name(), theirs.step / ours.step);
        print!("{name:<17}{called:<7}{:>10.1}{:>10.1}", theirs.step, ours.step);
        print!("{:>10.1}{:>10.1}{gain:>9.2}", theirs.message, ours.message);
        // one step at a time should never be slower
        let target = workload.target.map(|target| if way == Way::StepN { target } else { 1.0 });
        println!("{}", target.map_or(String::new(), |target| verdict(gain, target)));
    }
}

fn tell_all(workloads: &[Workload], effort: Effort) {
    println!("# nanoseconds a step and a job (a message delivered), the best of {}", effort.repetitions);
    println!("#                               a step              a job            Rust/");
    println!("# workload        way        Rust    Rattle      Rust    Rattle   Rattle  target");
    for workload in workloads {
        tell(workload, effort);
    }
}

fn tell_intake() {
    let costs = intake::measure();
    let ((least, least_cost), (most, most_cost)) = (&costs[0], &costs[costs.len() - 1]);
    println!("# microseconds of jt_post: 64 models, 256 connectors, 256 couplings; the target is under 50");
    println!("intake least {least_cost:>8.1}  ({least})");
    println!("intake worst {most_cost:>8.1}  ({most})");
}

/// Runs one side, and nothing of the other.
fn alone<S: Side>(workload: &Workload, way: Way, rounds: usize) {
    let mut side = S::post(workload);
    let messages: usize = (0..rounds).map(|_| side.run(way)).sum();
    println!("{} messages, clock {:016x}", messages, side.clock());
}

/// The words after `--alone`: workload, side, way, rounds.
fn read_alone(words: &[String]) -> Option<Task> {
    let [name, side, way, rounds] = words else { return None };
    let workload = workloads::all().into_iter().find(|workload| workload.name == *name)?;
    let way = WAYS.into_iter().find(|known| known.name() == way)?;
    let original = ["rust", "rattle"].iter().position(|known| known == side)? == 0;
    Some(Task::Alone(workload, original, way, rounds.parse().ok()?))
}

fn read(words: &[String]) -> Option<Task> {
    let (mut effort, mut is_sizes) = (Effort { repetitions: 5, rounds: 10 }, false);
    let mut words = words.iter();
    while let Some(word) = words.next() {
        match word.as_str() {
            "--sizes" => is_sizes = true,
            "--repetitions" => effort.repetitions = words.next()?.parse().ok()?,
            "--rounds" => effort.rounds = words.next()?.parse().ok().filter(|&n| n <= MOST_ROUNDS)?,
            "--names" => return words.next().is_none().then_some(Task::Names),
            "--alone" => return read_alone(words.as_slice()),
            _ => return None,
        }
    }
    let is_some = effort.repetitions > 0 && effort.rounds > 0;
    is_some.then_some(if is_sizes { Task::Sizes(effort) } else { Task::Workloads(effort) })
}

fn main() -> ExitCode {
    let words: Vec<String> = std::env::args().skip(1).collect();
    let Some(task) = read(&words) else {
        eprintln!("{USAGE}");
        return ExitCode::from(2);
    };
    match task {
        Task::Workloads(effort) => {
            tell_all(&workloads::all(), effort);
            tell_intake();
        }
        Task::Sizes(effort) => tell_all(&workloads::sizes(), effort),
        Task::Names => workloads::all().iter().for_each(|workload| println!("{}", workload.name)),
        Task::Alone(workload, true, way, n) => alone::<Original>(&workload, way, n),
        Task::Alone(workload, false, way, n) => alone::<Library>(&workload, way, n),
    }
    ExitCode::SUCCESS
}
