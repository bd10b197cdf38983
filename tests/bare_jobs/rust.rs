// The Rust's `strong_wolfe` and `central_difference_gradient`, run unchanged over an objective whose calls are recorded.
// Refusal 2 is 01's own and is decided here.

use crate::fields::{G, V};
use crate::search::Search;
use crate::tellers::Teller;
use std::panic::{catch_unwind, resume_unwind, AssertUnwindSafe};
use tsecon_optim::{central_difference_gradient, strong_wolfe, ObjectiveFn, OptimError, WolfeOptions, WolfeResult};

pub enum Start {
    Search(Search),
    Differences(Vec<f64>),
}

pub enum Outcome {
    Found(WolfeResult),
    Gradient(Vec<f64>),
    Refusal(u64, u64),
    // The job was left where it had asked as much as it may here; nothing is known of its end.
    Left,
}

// A call of the objective and what it was told: nothing in the last call of a job that was left.
pub struct Call {
    pub kind: char,
    pub point: Vec<f64>,
    pub told: Vec<f64>,
}

pub struct Run {
    pub calls: Vec<Call>,
    pub outcome: Outcome,
}

const MOST_COORDINATES: usize = 16;
const MOST_EVALS: u64 = 1000;

impl Start {
    // What refusal 2 is met by, in words of reached.rs.
    pub fn above(&self) -> Vec<&'static str> {
        let far = |list: &Vec<f64>| list.len() > 17;
        let long = |list: &Vec<f64>| list.len() > MOST_COORDINATES;
        let marks = match self {
            Start::Differences(x) => vec![(long(x), "no 2: a point of differences"), (far(x), "no 2: a list far above 16")],
            Start::Search(s) => vec![
                (long(&s.x0), "no 2: x0"),
                (long(&s.d), "no 2: a direction"),
                (long(&s.g), "no 2: a gradient"),
                (far(&s.x0) || far(&s.d) || far(&s.g), "no 2: a list far above 16"),
                (s.max_evals > MOST_EVALS, "no 2: max_evals"),
            ],
        };
        marks.into_iter().filter(|(met, _)| *met).map(|(_, name)| name).collect()
    }
}

// 01's number and detail of what the Rust refuses.
fn refusal(error: OptimError) -> Outcome {
    let (number, detail) = match error {
        OptimError::InvalidOption { name: "c1", .. } => (5, 1),
        OptimError::InvalidOption { name: "c2", .. } => (5, 2),
        OptimError::InvalidOption { name: "max_evals", .. } => (6, 0),
        OptimError::InvalidOption { name: "step_max", .. } => (7, 0),
        OptimError::EmptyInput { .. } => (9, 0),
        OptimError::DimensionMismatch { what: "direction", .. } => (10, 0),
        OptimError::DimensionMismatch { what: "g0", .. } => (11, 0),
        OptimError::NonFinite { what: "x0" } => (12, 1),
        OptimError::NonFinite { what: "direction" } => (12, 2),
        OptimError::NonFinite { what: "g0" } => (12, 3),
        OptimError::NonFinite { what: "f0" } => (12, 4),
        OptimError::InvalidOption { name: "initial_step", .. } => (13, 0),
        OptimError::Domain { name: "g0'd", .. } => (14, 0),
        other => panic!("01 has no number for {other:?}"),
    };
    Outcome::Refusal(number, detail)
}

struct Recorded<'a> {
    teller: &'a mut Teller,
    gradients: bool,
    most: usize,
    calls: Vec<Call>,
}

// What the objective unwinds with where the job is left.
struct Leave;

impl Recorded<'_> {
    fn called(&mut self, kind: char, x: &[f64]) -> Vec<f64> {
        self.calls.push(Call { kind, point: x.to_vec(), told: Vec::new() });
        if self.calls.len() > self.most {
            resume_unwind(Box::new(Leave));
        }
        let told = if kind == V { vec![self.teller.value(x)] } else { self.teller.gradient(x) };
        self.calls.last_mut().expect("a call was pushed").told = told.clone();
        told
    }
}

impl ObjectiveFn for Recorded<'_> {
    fn value(&mut self, x: &[f64]) -> f64 {
        self.called(V, x)[0]
    }

    fn gradient(&mut self, x: &[f64]) -> Option<Vec<f64>> {
        self.gradients.then(|| self.called(G, x))
    }
}

fn outcome(start: &Start, recorded: &mut Recorded) -> Outcome {
    match start {
        Start::Differences(x) => Outcome::Gradient(central_difference_gradient(recorded, x)),
        Start::Search(s) => {
            let options = WolfeOptions { c1: s.c1, c2: s.c2, max_evals: s.max_evals as usize, step_max: s.step_max };
            match strong_wolfe(recorded, &s.x0, &s.d, s.f0, &s.g, s.initial_step, &options) {
                Ok(result) => Outcome::Found(result),
                Err(error) => refusal(error),
            }
        }
    }
}

// Runs a job until it ends, or until its call after `most` calls.
pub fn run(start: &Start, teller: &mut Teller, most: usize) -> Run {
    if !start.above().is_empty() {
        return Run { calls: Vec::new(), outcome: Outcome::Refusal(2, 0) };
    }
    let gradients = matches!(start, Start::Search(s) if s.gradients);
    let mut recorded = Recorded { teller, gradients, most, calls: Vec::new() };
    let outcome = match catch_unwind(AssertUnwindSafe(|| outcome(start, &mut recorded))) {
        Ok(outcome) => outcome,
        Err(cause) if cause.is::<Leave>() => Outcome::Left,
        Err(cause) => resume_unwind(cause),
    };
    Run { calls: recorded.calls, outcome }
}
