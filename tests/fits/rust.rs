// The Rust's `nelder_mead`, `bfgs` and `lbfgs`, run unchanged over an objective whose calls are recorded. Refusal 2 is 01's own
// and is decided here.

use crate::fields::{G, V};
use std::panic::{catch_unwind, resume_unwind, AssertUnwindSafe};
use tsecon_optim::{
    bfgs, lbfgs, nelder_mead, BfgsOptions, LbfgsOptions, NelderMeadOptions, ObjectiveFn, OptimError, OptimizeResult, WolfeOptions,
};

#[derive(Clone, Copy, PartialEq, Eq, PartialOrd, Ord)]
pub enum Job {
    Simplex,
    Bfgs,
    Lbfgs,
}

pub const JOBS: [(Job, &str); 3] = [(Job::Simplex, "simplex"), (Job::Bfgs, "bfgs"), (Job::Lbfgs, "lbfgs")];

impl Job {
    pub fn name(self) -> &'static str {
        JOBS[self as usize].1
    }

    pub fn named(name: &str) -> Option<Job> {
        JOBS.iter().find(|(_, known)| *known == name).map(|(job, _)| *job)
    }
}

#[derive(Clone)]
pub struct Simplex {
    pub x_tol: f64,
    pub f_tol: f64,
    pub initial_step: f64,
    pub max_iter: Option<u64>,
    pub max_fevals: Option<u64>,
    pub restarts: u64,
    pub adaptive: bool,
    pub x0: Vec<f64>,
}

// A bfgs or lbfgs fit.
#[derive(Clone)]
pub struct Gradient {
    pub limited: bool,
    pub grad_tol: f64,
    pub f_tol: f64,
    pub x_tol: f64,
    pub c1: f64,
    pub c2: f64,
    pub step_max: f64,
    pub max_iter: Option<u64>,
    pub max_fevals: Option<u64>,
    pub max_evals: u64,
    pub memory: u64,
    pub gradients: bool,
    pub x0: Vec<f64>,
}

#[derive(Clone)]
pub enum Start {
    Simplex(Simplex),
    Gradient(Gradient),
}

pub enum Outcome {
    Result(OptimizeResult),
    Refusal(u64, u64),
    // The fit was left where it had asked as much as it may here; nothing is known of its end.
    Left,
}

// A call of the objective and what it was told: nothing in the last call of a fit that was left.
pub struct Call {
    pub kind: char,
    pub point: Vec<f64>,
    pub told: Vec<f64>,
}

pub struct Run {
    pub calls: Vec<Call>,
    pub outcome: Outcome,
}

const MOST_COORDINATES: usize = 16;
const MOST_ALLOWANCE: u64 = 1_000_000;
const MOST_RESTARTS: u64 = 100;
const MOST_EVALS: u64 = 1_000;
const MOST_MEMORY: u64 = 16;

impl Start {
    pub fn job(&self) -> Job {
        match self {
            Start::Simplex(_) => Job::Simplex,
            Start::Gradient(g) => if g.limited { Job::Lbfgs } else { Job::Bfgs },
        }
    }

    pub fn x0(&self) -> &[f64] {
        match self {
            Start::Simplex(s) => &s.x0,
            Start::Gradient(g) => &g.x0,
        }
    }

    pub fn at(mut self, x0: Vec<f64>) -> Self {
        match &mut self {
            Start::Simplex(s) => s.x0 = x0,
            Start::Gradient(g) => g.x0 = x0,
        }
        self
    }

    pub fn allowances(&self) -> [Option<u64>; 2] {
        match self {
            Start::Simplex(s) => [s.max_iter, s.max_fevals],
            Start::Gradient(g) => [g.max_iter, g.max_fevals],
        }
    }

    // What refusal 2 is met by, in words of reached.rs.
    pub fn above(&self) -> Vec<&'static str> {
        let (n, [max_iter, max_fevals]) = (self.x0().len(), self.allowances());
        let above = |given: Option<u64>| given.is_some_and(|most| most > MOST_ALLOWANCE);
        let (restarts, evals, memory) = match self {
            Start::Simplex(s) => (s.restarts, 0, 0),
            Start::Gradient(g) => (0, g.max_evals, if g.limited { g.memory } else { 0 }),
        };
        let marks = [
            (n == MOST_COORDINATES + 1, "no 2: n 17"),
            (n > MOST_COORDINATES + 1, "no 2: n far above 16"),
            (above(max_iter), "no 2: max_iter"),
            (above(max_fevals), "no 2: max_fevals"),
            (restarts > MOST_RESTARTS, "no 2: restarts"),
            (evals > MOST_EVALS, "no 2: max_evals"),
            (memory > MOST_MEMORY, "no 2: memory"),
        ];
        marks.into_iter().filter(|(met, _)| *met).map(|(_, name)| name).collect()
    }
}

// 01's number and detail of what the Rust refuses. Gradient fits have one tolerance before the two that both have.
fn refusal(job: Job, error: OptimError) -> Outcome {
    let simplex = job == Job::Simplex;
    let (number, detail) = match error {
        OptimError::InvalidOption { name: "memory", .. } => (3, 0),
        OptimError::InvalidOption { name: "grad_tol", .. } => (4, 1),
        OptimError::InvalidOption { name: "f_tol", .. } => (4, 2),
        OptimError::InvalidOption { name: "x_tol", .. } => (4, if simplex { 1 } else { 3 }),
        OptimError::InvalidOption { name: "line_search.c1/c2", .. } => (5, 1),
        OptimError::InvalidOption { name: "max_evals", .. } => (6, 0),
        OptimError::InvalidOption { name: "step_max", .. } => (7, 0),
        OptimError::InvalidOption { name: "initial_step", .. } if simplex => (8, 0),
        OptimError::EmptyInput { .. } => (9, 0),
        OptimError::NonFinite { what: "x0" } => (12, 1),
        OptimError::NonFinite { what: "f(x0)" } => (18, 0),
        OptimError::NonFinite { what: "gradient at x0" } => (19, 0),
        OptimError::NonFinite { what: "objective on the initial simplex" } => (20, 0),
        other => panic!("no fit of the Rust gives {other:?}"),
    };
    Outcome::Refusal(number, detail)
}

// What the objective is told at a point.
pub trait Told {
    fn told(&mut self, kind: char, x: &[f64]) -> Vec<f64>;
}

struct Recorded<'a> {
    told: &'a mut dyn Told,
    gradients: bool,
    most: usize,
    calls: Vec<Call>,
}

// What the objective unwinds with where the fit is left.
struct Leave;

pub fn leave() -> ! {
    resume_unwind(Box::new(Leave))
}

impl Recorded<'_> {
    fn called(&mut self, kind: char, x: &[f64]) -> Vec<f64> {
        self.calls.push(Call { kind, point: x.to_vec(), told: Vec::new() });
        if self.calls.len() > self.most {
            leave();
        }
        let told = self.told.told(kind, x);
        self.calls.last_mut().expect("a call was pushed").told = told.clone();
        told
    }
}

impl ObjectiveFn for Recorded<'_> {
    fn value(&mut self, x: &[f64]) -> f64 {
        self.called(V, x)[0]
    }

    fn gradient(&mut self, x: &[f64]) -> Option<Vec<f64>> {
        self.gradients.then(|| self.called(G, x))
    }
}

fn simplex(s: &Simplex, recorded: &mut Recorded) -> Result<OptimizeResult, OptimError> {
    let options = NelderMeadOptions {
        x_tol: s.x_tol,
        f_tol: s.f_tol,
        max_iter: s.max_iter.map(|most| most as usize),
        max_fevals: s.max_fevals.map(|most| most as usize),
        restarts: s.restarts as usize,
        adaptive: s.adaptive,
        initial_step: s.initial_step,
    };
    nelder_mead(recorded, &s.x0, &options)
}

fn gradient(g: &Gradient, recorded: &mut Recorded) -> Result<OptimizeResult, OptimError> {
    let &Gradient { grad_tol, f_tol, x_tol, c1, c2, step_max, .. } = g;
    let (max_iter, max_fevals) = (g.max_iter.map(|most| most as usize), g.max_fevals.map(|most| most as usize));
    let line_search = WolfeOptions { c1, c2, max_evals: g.max_evals as usize, step_max };
    if g.limited {
        let options = LbfgsOptions { memory: g.memory as usize, grad_tol, f_tol, x_tol, max_iter, max_fevals, line_search };
        return lbfgs(recorded, &g.x0, &options);
    }
    bfgs(recorded, &g.x0, &BfgsOptions { grad_tol, f_tol, x_tol, max_iter, max_fevals, line_search })
}

// Runs a start until it ends, or until its call after `most` calls.
pub fn run(start: &Start, told: &mut dyn Told, most: usize) -> Run {
    if !start.above().is_empty() {
        return Run { calls: Vec::new(), outcome: Outcome::Refusal(2, 0) };
    }
    let gradients = matches!(start, Start::Gradient(g) if g.gradients);
    let mut recorded = Recorded { told, gradients, most, calls: Vec::new() };
    let ended = catch_unwind(AssertUnwindSafe(|| match start {
        Start::Simplex(s) => simplex(s, &mut recorded),
        Start::Gradient(g) => gradient(g, &mut recorded),
    }));
    let outcome = match ended {
        Ok(Ok(result)) => Outcome::Result(result),
        Ok(Err(error)) => refusal(start.job(), error),
        Err(cause) if cause.is::<Leave>() => Outcome::Left,
        Err(cause) => resume_unwind(cause),
    };
    Run { calls: recorded.calls, outcome }
}
