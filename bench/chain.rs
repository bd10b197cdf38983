// Rosenbrock's chain as the Rust's optimizers take it, and their fits of it.
use tsecon_optim::{bfgs, lbfgs, nelder_mead, BfgsOptions, LbfgsOptions, NelderMeadOptions, ObjectiveFn, OptimizeResult};

pub fn value(x: &[f64]) -> f64 {
    let mut f = 0.0;
    for i in 1..x.len() {
        let a = x[i - 1];
        let b = x[i] - a * a;
        let c = 1.0 - a;
        f += 100.0 * b * b + c * c;
    }
    f
}

pub fn gradient(x: &[f64]) -> Vec<f64> {
    let mut g = vec![0.0; x.len()];
    for i in 1..x.len() {
        let a = x[i - 1];
        let b = x[i] - a * a;
        g[i - 1] -= 400.0 * a * b + 2.0 * (1.0 - a);
        g[i] += 200.0 * b;
    }
    g
}

pub fn start(n: usize) -> Vec<f64> {
    (0..n).map(|i| if i % 2 == 0 { -1.2 } else { 1.0 }).collect()
}

// The objective that is timed.
pub struct Chain {
    pub gradients: bool,
}

impl ObjectiveFn for Chain {
    fn value(&mut self, x: &[f64]) -> f64 {
        value(x)
    }

    fn gradient(&mut self, x: &[f64]) -> Option<Vec<f64>> {
        self.gradients.then(|| gradient(x))
    }
}

// The objective that keeps each question: its point, then 0 for a value's and 1 for a gradient's.
pub struct Recorded {
    pub chain: Chain,
    pub list: Vec<f64>,
}

impl ObjectiveFn for Recorded {
    fn value(&mut self, x: &[f64]) -> f64 {
        self.list.extend_from_slice(x);
        self.list.push(0.0);
        self.chain.value(x)
    }

    fn gradient(&mut self, x: &[f64]) -> Option<Vec<f64>> {
        let g = self.chain.gradient(x)?;
        self.list.extend_from_slice(x);
        self.list.push(1.0);
        Some(g)
    }
}

// A fit of job 1 (simplex), 2 (bfgs) or 3 (lbfgs) with all defaults.
pub fn fit<F: ObjectiveFn>(f: &mut F, job: u64, x: &[f64]) -> OptimizeResult {
    let ended = match job {
        1 => nelder_mead(f, x, &NelderMeadOptions::default()),
        2 => bfgs(f, x, &BfgsOptions::default()),
        _ => lbfgs(f, x, &LbfgsOptions::default()),
    };
    ended.expect("the chain's fits are not refused")
}

// The questions of a fit and its outcome, as the engine's side lists them.
pub fn listed(job: u64, n: usize, gradients: bool) -> Vec<f64> {
    let mut f = Recorded { chain: Chain { gradients }, list: Vec::new() };
    let end = fit(&mut f, job, &start(n));
    f.list.extend_from_slice(&end.x);
    f.list.push(end.f);
    f.list
}
