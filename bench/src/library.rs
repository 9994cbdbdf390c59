//! The library, by its C calls (include/jambthrush.h, docs/LAYOUT.md).

use oracle::{float, Row, Table};

use crate::sides::{Message, Side, Way, STEPS_A_CALL};
use crate::workloads::Workload;

extern "C" {
    fn jt_state_words(models_len: usize, connectors_len: usize, couplings_len: usize) -> usize;
    fn jt_post(
        models: *const u64,
        models_len: usize,
        connectors: *const u64,
        connectors_len: usize,
        couplings: *const u64,
        couplings_len: usize,
        state: *mut u64,
        state_len: usize,
    ) -> u32;
    fn jt_inject_input(
        state: *mut u64,
        state_len: usize,
        source_id: u16,
        source_port: u16,
        target_id: u16,
        target_port: u16,
        time: f64,
        content: u32,
    ) -> u32;
    fn jt_step(
        state: *mut u64,
        state_len: usize,
        services: *const f64,
        services_len: usize,
        rows: *mut u64,
        rows_len: usize,
        report: *mut u64,
    ) -> u32;
    fn jt_step_n(
        state: *mut u64,
        state_len: usize,
        services: *const f64,
        services_len: usize,
        count: u64,
        rows: *mut u64,
        rows_len: usize,
        report: *mut u64,
    ) -> u32;
    fn jt_get_global_time(state: *const u64, state_len: usize, time: *mut f64) -> u32;
}

/// Messages of one call for which there is room: one a step from each of 64 models.
const ROOM: usize = 64 * STEPS_A_CALL;

/// A table in the words of docs/LAYOUT.md.
pub struct Words {
    pub models: Vec<u64>,
    pub connectors: Vec<u64>,
    pub couplings: Vec<u64>,
}

/// A cell of a line; `-` is 0.
fn cell(text: &str) -> u64 {
    if text == "-" {
        return 0;
    }
    text.parse().expect("a number")
}

/// Which optional fields are given, out of `-` or a value: their number where it is given.
fn given(text: &str, number: u64) -> u64 {
    if text == "-" {
        return 0;
    }
    number
}

fn model(row: &Row) -> [u64; 10] {
    let at = |index: usize| row.fields[index].as_str();
    let port = |index| cell(at(index));
    let (kind, given_here, [a, b, c, out], setting, time) = match row.kind.as_str() {
        "processor" => (1, given(at(2), 2), [port(0), 0, 0, port(1)], cell(at(2)), 0.0),
        "batcher" => (2, 0, [port(0), 0, 0, port(1)], cell(at(2)), float(at(3)).expect("a time")),
        // its metric is left out
        "stopwatch" => (3, 0, [port(0), port(1), port(2), port(3)], 0, 0.0),
        "coupled" => (4, 0, [0; 4], 0, 0.0),
        other => panic!("no kind {other}"),
    };
    let given_all = given(&row.parent, 1) + given_here;
    [cell(&row.id), kind, given_all, cell(&row.parent), a, b, c, out, setting, time.to_bits()]
}

fn coupling([owner, kind, from, from_port, to, to_port]: &[String; 6]) -> [u64; 6] {
    let kinds = ["input", "output", "internal"];
    let place = kinds.iter().position(|known| known == kind).expect("a kind of coupling");
    [cell(owner), place as u64 + 1, cell(from), cell(from_port), cell(to), cell(to_port)]
}

impl Words {
    pub fn of(table: &Table) -> Self {
        Words {
            models: table.rows.iter().flat_map(model).collect(),
            connectors: table.connectors.iter().flatten().map(|text| cell(text)).collect(),
            couplings: table.couplings.iter().flat_map(coupling).collect(),
        }
    }

    /// A buffer that is long enough for any state of the table.
    pub fn buffer(&self) -> Vec<u64> {
        let (models, connectors) = (self.models.len(), self.connectors.len());
        vec![0; unsafe { jt_state_words(models, connectors, self.couplings.len()) }]
    }

    /// Posts the table; answers the refusal.
    pub fn post(&self, state: &mut [u64]) -> u32 {
        unsafe {
            jt_post(
                self.models.as_ptr(),
                self.models.len(),
                self.connectors.as_ptr(),
                self.connectors.len(),
                self.couplings.as_ptr(),
                self.couplings.len(),
                state.as_mut_ptr(),
                state.len(),
            )
        }
    }
}

pub struct Library {
    state: Vec<u64>,
    services: &'static [f64],
    rows: Vec<u64>,
}

/// The rows that a run wrote, where nothing was refused.
fn count(refusal: u32, report: [u64; 3]) -> usize {
    assert_eq!(refusal, 0, "a run is refused after {} steps", report[0]);
    report[1] as usize
}

impl Side for Library {
    fn post(workload: &Workload) -> Self {
        let words = Words::of(&workload.table);
        let mut state = words.buffer();
        assert_eq!(words.post(&mut state), 0, "refusal of jt_post");
        for (content, &id) in workload.jobs.iter().enumerate() {
            let (at, len) = (state.as_mut_ptr(), state.len());
            let refusal = unsafe { jt_inject_input(at, len, 0, 0, id, 1, 0.0, content as u32) };
            assert_eq!(refusal, 0, "refusal of jt_inject_input");
        }
        let rows = vec![0; ROOM * 6];
        Library { state, services: workload.services, rows }
    }

    fn step_n(&mut self, steps: usize) -> usize {
        let mut report = [0; 3];
        let refusal = unsafe {
            jt_step_n(
                self.state.as_mut_ptr(),
                self.state.len(),
                self.services.as_ptr(),
                self.services.len(),
                steps as u64,
                self.rows.as_mut_ptr(),
                self.rows.len(),
                report.as_mut_ptr(),
            )
        };
        count(refusal, report)
    }

    fn step(&mut self) -> usize {
        let mut report = [0; 3];
        let refusal = unsafe {
            jt_step(
                self.state.as_mut_ptr(),
                self.state.len(),
                self.services.as_ptr(),
                self.services.len(),
                self.rows.as_mut_ptr(),
                self.rows.len(),
                report.as_mut_ptr(),
            )
        };
        count(refusal, report)
    }

    fn messages(&mut self, way: Way) -> Vec<Message> {
        let count = match way {
            Way::StepN => self.step_n(STEPS_A_CALL),
            Way::Step => self.step(),
        };
        let rows = self.rows[..count * 6].chunks(6);
        rows.map(|row| row.try_into().expect("six words")).collect()
    }

    fn clock(&self) -> u64 {
        let mut time = 0.0;
        let refusal = unsafe { jt_get_global_time(self.state.as_ptr(), self.state.len(), &mut time) };
        assert_eq!(refusal, 0, "refusal of jt_get_global_time");
        time.to_bits()
    }
}
