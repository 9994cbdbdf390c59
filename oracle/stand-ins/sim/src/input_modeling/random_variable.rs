//! Stand-in. The published random variables are replaced by one list of
//! service times: each call of `Continuous::random_variate`, by whichever
//! processor, takes the next entry. Past the end it is an error.

use std::cell::RefCell;

use serde::{Deserialize, Serialize};

use super::dynamic_rng::DynRng;
use crate::utils::errors::SimulationError;

#[derive(Default)]
struct List {
    entries: Vec<f64>,
    place: usize,
}

thread_local! {
    static LIST: RefCell<List> = RefCell::new(List::default());
}

/// Lends another list; the place stays.
pub fn lend(entries: Vec<f64>) {
    LIST.with(|list| list.borrow_mut().entries = entries);
}

/// Goes back to the first entry, as a new simulation has a new generator.
pub fn rewind() {
    LIST.with(|list| list.borrow_mut().place = 0);
}

/// The place in the list (the number of entries taken) and its length.
pub fn place() -> (usize, usize) {
    LIST.with(|list| (list.borrow().place, list.borrow().entries.len()))
}

#[derive(Debug, Clone, Serialize, Deserialize)]
pub enum Continuous {
    List,
}

impl Continuous {
    pub fn random_variate(&self, _: DynRng) -> Result<f64, SimulationError> {
        LIST.with(|list| {
            let mut list = list.borrow_mut();
            let entry = list.entries.get(list.place).copied();
            list.place += entry.iter().count();
            entry.ok_or(SimulationError::PrerequisiteCalcError)
        })
    }
}

/// Used by models that are not carried over; never called here.
#[derive(Debug, Clone, Serialize, Deserialize)]
pub enum Boolean {
    Lacking,
}

impl Boolean {
    pub fn random_variate(&self, _: DynRng) -> Result<bool, SimulationError> {
        Err(SimulationError::InvalidModelConfiguration)
    }
}

/// Used by models that are not carried over; never called here.
#[derive(Debug, Clone, Serialize, Deserialize)]
pub enum Index {
    Lacking,
}

impl Index {
    pub fn random_variate(&self, _: DynRng) -> Result<usize, SimulationError> {
        Err(SimulationError::InvalidModelConfiguration)
    }
}

/// Named by input_modeling/mod.rs only.
#[derive(Debug, Clone, Serialize, Deserialize)]
pub enum Discrete {
    Lacking,
}
