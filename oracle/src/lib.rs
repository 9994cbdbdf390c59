//! The table of a script: its lines, and the models and connectors of the published Rust that they stand for.

use sim::input_modeling::ContinuousRandomVariable;
use sim::models::stopwatch::Metric;
use sim::models::{
    Batcher, Coupled, ExternalInputCoupling, ExternalOutputCoupling, InternalCoupling, Model,
    Processor, ReportableModel, Stopwatch,
};
use sim::simulator::Connector;

pub type Answer<T> = Result<T, String>;

/// "An omitted queue capacity means 32" (A7). The Rust's own default has no limit, so it is handed this.
const OMITTED_CAPACITY: usize = 32;

/// A model's line: its id, its parent's id or `-`, its kind and the rest.
pub struct Row {
    pub id: String,
    pub parent: String,
    pub kind: String,
    pub fields: Vec<String>,
}

/// The table as it has been read since the last `post` or `put`.
#[derive(Default)]
pub struct Table {
    pub rows: Vec<Row>,
    pub connectors: Vec<[String; 4]>,
    pub couplings: Vec<[String; 6]>,
}

impl Table {
    /// Takes one line. Says whether it was one of a table.
    pub fn take(&mut self, words: &[String]) -> Answer<bool> {
        let at = |index| field(words, index);
        match words[0].as_str() {
            "processor" | "batcher" | "stopwatch" | "coupled" | "yaml" => {
                let (kind, id, parent) = (at(0)?, at(1)?, at(2)?);
                self.rows.push(Row { id, parent, kind, fields: words[3..].to_vec() });
            }
            "connector" => self.connectors.push([at(1)?, at(2)?, at(3)?, at(4)?]),
            "coupling" => self.couplings.push([at(1)?, at(2)?, at(3)?, at(4)?, at(5)?, at(6)?]),
            _ => return Ok(false),
        }
        Ok(true)
    }
}

pub fn number(text: &str) -> Answer<usize> {
    text.parse().map_err(|_| format!("{text} is no number of this width"))
}

/// A decimal f64, `inf`, `NaN`, or sixteen hex digits of bits after `0x`.
pub fn float(text: &str) -> Answer<f64> {
    match text.strip_prefix("0x") {
        Some(bits) => u64::from_str_radix(bits, 16).map(f64::from_bits).ok(),
        None => text.parse().ok(),
    }
    .ok_or(format!("{text} is no f64"))
}

pub fn field(fields: &[String], index: usize) -> Answer<String> {
    fields.get(index).cloned().ok_or("a field is lacking".into())
}

/// A queue capacity; `-` is an omitted one.
fn capacity(text: &str) -> Answer<usize> {
    if text == "-" { Ok(OMITTED_CAPACITY) } else { number(text) }
}

fn model(table: &Table, row: &Row) -> Answer<Model> {
    let at = |index| field(&row.fields, index);
    let inner: Box<dyn ReportableModel> = match row.kind.as_str() {
        "processor" => Box::new(Processor::new(
            ContinuousRandomVariable::List,
            Some(capacity(&at(2)?)?),
            at(0)?,
            at(1)?,
            false,
            None,
        )),
        "batcher" => Box::new(Batcher::new(at(0)?, at(1)?, float(&at(3)?)?, number(&at(2)?)?, false)),
        "stopwatch" => Box::new(Stopwatch::new(
            at(0)?,
            at(1)?,
            at(2)?,
            at(3)?,
            match at(4)?.as_str() {
                "-" => Metric::default(),
                "min" => Metric::Minimum,
                "max" => Metric::Maximum,
                other => return Err(format!("no metric {other}")),
            },
            false,
        )),
        "coupled" => coupled(table, &row.id)?,
        "yaml" => return serde_yaml::from_str(&row.fields.join(" ")).map_err(|e| e.to_string()),
        other => return Err(format!("no kind {other}")),
    };
    Ok(Model::new(row.id.clone(), inner))
}

fn coupled(table: &Table, id: &str) -> Answer<Box<dyn ReportableModel>> {
    let (mut inputs, mut outputs, mut internals) = (vec![], vec![], vec![]);
    for [owner, kind, source_id, source_port, target_id, target_port] in table.couplings.clone() {
        match kind.as_str() {
            _ if owner != id => (),
            "input" => inputs.push(ExternalInputCoupling { target_id, source_port, target_port }),
            "output" => outputs.push(ExternalOutputCoupling { source_id, source_port, target_port }),
            "internal" => {
                internals.push(InternalCoupling { source_id, target_id, source_port, target_port })
            }
            other => return Err(format!("no kind of coupling {other}")),
        }
    }
    let components = models(table, id)?;
    Ok(Box::new(Coupled::new(vec![], vec![], components, inputs, outputs, internals)))
}

pub fn models(table: &Table, parent: &str) -> Answer<Vec<Model>> {
    table.rows.iter().filter(|row| row.parent == parent).map(|row| model(table, row)).collect()
}

pub fn connectors(table: &Table) -> Vec<Connector> {
    table
        .connectors
        .iter()
        .cloned()
        .map(|[source_id, source_port, target_id, target_port]| {
            Connector::new(String::new(), source_id, target_id, source_port, target_port)
        })
        .collect()
}
