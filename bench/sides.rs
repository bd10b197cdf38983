// The two sides: each runs a whole fit, and evaluates the objective alone.
use crate::chain::{self, Chain};
use std::hint::black_box;
use tsecon_optim::ObjectiveFn;

#[derive(Clone, Copy)]
pub struct Row {
    pub job: u64,
    pub gradients: bool,
    pub n: usize,
}

pub const JOBS: [&str; 3] = ["simplex", "bfgs", "lbfgs"];

// Simplex, and the gradient fits with gradients and without, over n 2, 4, 8, 16.
pub fn rows() -> Vec<Row> {
    let jobs = [(1, false), (2, true), (2, false), (3, true), (3, false)];
    let row = |(job, gradients)| [2, 4, 8, 16].map(|n| Row { job, gradients, n });
    jobs.into_iter().flat_map(row).collect()
}

mod archive {
    extern "C" {
        pub fn rosenbrock_fit(job: u64, n: usize, gradients: bool, list: *mut f64, count: usize) -> u64;
        pub fn rosenbrock_objective(n: usize, slope: bool, count: u64) -> f64;
    }
}

pub fn engine_fit(row: &Row, list: &mut [f64]) -> u64 {
    unsafe { archive::rosenbrock_fit(row.job, row.n, row.gradients, list.as_mut_ptr(), list.len()) }
}

pub fn engine_objective(n: usize, slope: bool, count: u64) -> f64 {
    unsafe { archive::rosenbrock_objective(n, slope, count) }
}

pub fn rust_fit(row: &Row, x: &[f64]) -> f64 {
    let mut f = Chain { gradients: row.gradients };
    chain::fit(&mut f, row.job, x).f
}

// The Vec that a gradient comes in is the objective's: it is made and freed here too, and so is taken off.
pub fn rust_objective(n: usize, slope: bool, count: u64) -> f64 {
    let mut f = Chain { gradients: true };
    let mut x = chain::start(n);
    let mut last = 0.0;
    for _ in 0..count {
        x[0] += last * 1e-300;
        last = if slope { black_box(f.gradient(&x)).expect("it has gradients")[0] } else { f.value(&x) };
    }
    last
}

// The questions of the engine's fit and its outcome: a point, then 0 for a value's, 1 for a gradient's, f for the outcome.
pub fn engine_listed(row: &Row) -> Vec<f64> {
    let questions = engine_fit(row, &mut []) as usize;
    let mut list = vec![0.0; (questions + 1) * (row.n + 1)];
    engine_fit(row, &mut list);
    list
}

// How many values and how many gradients a list of questions asks for.
pub fn asked(list: &[f64], n: usize) -> (u64, u64) {
    let marks = list.chunks(n + 1).map(|question| question[n]);
    let questions = list.len() / (n + 1) - 1;
    let slopes = marks.take(questions).filter(|mark| *mark == 1.0).count();
    ((questions - slopes) as u64, slopes as u64)
}

// The questions of a row and its outcome, asserted to be the same on both sides, bit for bit.
pub fn compared(row: &Row) -> (u64, u64) {
    let ours = engine_listed(row);
    let rust = chain::listed(row.job, row.n, row.gradients);
    let bits = |list: &[f64]| list.iter().map(|x| x.to_bits()).collect::<Vec<u64>>();
    assert!(bits(&ours) == bits(&rust), "{} n {}: the two sides differ", JOBS[row.job as usize - 1], row.n);
    for slope in [false, true] {
        let (a, b) = (engine_objective(row.n, slope, 7), rust_objective(row.n, slope, 7));
        assert_eq!(a.to_bits(), b.to_bits(), "the two objectives differ");
    }
    asked(&rust, row.n)
}
