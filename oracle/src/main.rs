//! Reads a script from standard input, makes its calls on the published Rust
//! and prints after each what it returned and what the simulation then is.
//! The README says which lines there are.

use std::io::{self, BufRead};
use std::panic::{catch_unwind, AssertUnwindSafe};

use oracle::{connectors, field, float, models, number, Answer, Table};
use serde_yaml::Value;
use sim::input_modeling::random_variable;
use sim::simulator::{Message, Simulation};
use sim::utils::errors::SimulationError;

/// The bits in hex and the number; a NaN's bits differ from machine to machine and are left out.
fn bits(x: f64) -> String {
    if x.is_nan() {
        return "NaN".into();
    }
    format!("{:016x} ({x:?})", x.to_bits())
}

/// Makes a call. A panic is told, and the run goes on with what it left behind.
fn guarded<T>(call: impl FnOnce() -> T) -> Answer<T> {
    catch_unwind(AssertUnwindSafe(call)).map_err(|cause| {
        let text = cause.downcast_ref::<String>().map(String::as_str);
        format!("PANIC {}", text.or(cause.downcast_ref::<&str>().copied()).unwrap_or("?"))
    })
}

fn tell_messages(messages: &[Message]) {
    for m in messages {
        let (time, content) = (bits(*m.time()), m.content());
        let (source_id, source_port) = (m.source_id(), m.source_port());
        println!("  {source_id}:{source_port} -> {}:{} at {time}: {content}", m.target_id(), m.target_port());
    }
}

fn tell_run(result: Answer<Result<Vec<Message>, SimulationError>>) {
    match result {
        Ok(Ok(messages)) => {
            println!("returned {} messages", messages.len());
            tell_messages(&messages);
        }
        Ok(Err(error)) => println!("returned error {error:?}"),
        Err(panic) => println!("{panic}"),
    }
}

fn plain(value: &Value) -> String {
    match value {
        Value::Null => "none".into(),
        Value::Number(n) if n.is_f64() => bits(n.as_f64().unwrap_or_default()),
        Value::Number(n) => n.to_string(),
        Value::String(text) => text.clone(),
        Value::Sequence(values) => format!("[{}]", list(values.iter().map(plain))),
        Value::Mapping(_) => format!("{{{}}}", entries(value)),
        other => format!("{other:?}"),
    }
}

fn list(texts: impl Iterator<Item = String>) -> String {
    texts.collect::<Vec<_>>().join(", ")
}

fn entries(value: &Value) -> String {
    let map = value.as_mapping().into_iter().flatten();
    list(map.map(|(key, value)| format!("{} {}", plain(key), plain(value))))
}

/// A model as it serializes itself: id, type and state (its records left out, which are always
/// empty here), and so on for its components.
fn tell_model(value: &Value, indent: usize) {
    let mut state = value["state"].clone();
    if let Value::Mapping(map) = &mut state {
        map.remove(&Value::from("records"));
    }
    let (id, kind) = (plain(&value["id"]), plain(&value["type"]));
    println!("{}{id} {kind}: {}", " ".repeat(indent), entries(&state));
    for component in value["components"].as_sequence().into_iter().flatten() {
        tell_model(component, indent + 2);
    }
}

fn tell(sim: &mut Simulation) {
    println!("clock {}", bits(sim.get_global_time()));
    println!("active {}", sim.get_messages().len());
    tell_messages(sim.get_messages());
    let (place, length) = random_variable::place();
    println!("services taken {place} of {length}");
    for model in sim.models() {
        match serde_yaml::to_value(&*model) {
            Ok(value) => tell_model(&value, 2),
            Err(error) => println!("  {error}"),
        }
    }
}

/// Takes one line. Says whether it was a call, after which the simulation is shown.
fn take(words: &[String], table: &mut Table, sim: &mut Simulation) -> Answer<bool> {
    if table.take(words)? {
        return Ok(false);
    }
    let at = |index| field(words, index);
    match words[0].as_str() {
        "services" => {
            random_variable::lend(words[1..].iter().map(|text| float(text)).collect::<Answer<_>>()?);
            return Ok(false);
        }
        "post" => {
            *sim = Simulation::post(models(table, "-")?, connectors(table));
            random_variable::rewind();
        }
        "put" => sim.put(models(table, "-")?, connectors(table)),
        "inject" => {
            let time = float(&at(5)?)?;
            sim.inject_input(Message::new(at(1)?, at(2)?, at(3)?, at(4)?, time, at(6)?));
            println!("active {}", sim.get_messages().len());
            return Ok(false);
        }
        "step" => tell_run(guarded(|| sim.step())),
        "step_n" => {
            let count = number(&at(1)?)?;
            tell_run(guarded(|| sim.step_n(count)));
        }
        "step_until" => {
            let until = float(&at(1)?)?;
            tell_run(guarded(|| sim.step_until(until)));
        }
        "status" => {
            match sim.get_status(&at(1)?) {
                Ok(status) => println!("returned {status:?}"),
                Err(error) => println!("returned error {error:?}"),
            }
            return Ok(false);
        }
        "reset" => sim.reset(),
        "reset_messages" => sim.reset_messages(),
        "reset_global_time" => sim.reset_global_time(),
        "yaml_out" => {
            print!("{}", serde_yaml::to_string(sim).map_err(|e| e.to_string())?);
            return Ok(false);
        }
        other => return Err(format!("no call {other}")),
    }
    if ["post", "put"].contains(&words[0].as_str()) {
        *table = Table::default();
    }
    Ok(true)
}

fn main() -> io::Result<()> {
    std::panic::set_hook(Box::new(|_| ()));
    let (mut table, mut sim) = (Table::default(), Simulation::default());
    for line in io::stdin().lock().lines() {
        let line = line?;
        println!("> {line}");
        let words: Vec<String> = line
            .split('#')
            .next()
            .into_iter()
            .flat_map(str::split_whitespace)
            .map(String::from)
            .collect();
        if words.is_empty() {
            continue;
        }
        match take(&words, &mut table, &mut sim) {
            Ok(true) => tell(&mut sim),
            Ok(false) => (),
            Err(error) => println!("no such line: {error}"),
        }
    }
    Ok(())
}
