//! Stand-in. Makes one of the four carried models from its YAML value, so
//! that a model with a state given by hand can be loaded.

use serde::de::{Deserializer, Error};
use serde_yaml::{from_value, Value};

use super::model_trait::ReportableModel;
use super::{Batcher, Coupled, Processor, Stopwatch};

pub fn create<'de, D: Deserializer<'de>>(
    model_type: &str,
    fields: Value,
) -> Result<Box<dyn ReportableModel>, D::Error> {
    Ok(match model_type {
        "Processor" => Box::new(from_value::<Processor>(fields).map_err(D::Error::custom)?),
        "Batcher" => Box::new(from_value::<Batcher>(fields).map_err(D::Error::custom)?),
        "Stopwatch" => Box::new(from_value::<Stopwatch>(fields).map_err(D::Error::custom)?),
        "Coupled" => Box::new(from_value::<Coupled>(fields).map_err(D::Error::custom)?),
        other => return Err(D::Error::custom(format!("no model type {}", other))),
    })
}
