// The first three lines of a fit, as 01 and docs/DECISIONS.md have them.

use crate::fields::{decimal, flag, float};
use crate::rust::{Gradient, Job, Simplex, Start};

fn allowance(field: &str) -> Option<Option<u64>> {
    if field == "-" { Some(None) } else { decimal(field).map(Some) }
}

// Line 1: the job and the number of coordinates.
pub fn job(line: &str) -> Option<(Job, u64)> {
    match line.split(' ').collect::<Vec<_>>()[..] {
        [name, n] => Some((Job::named(name)?, decimal(n)?)),
        _ => None,
    }
}

// Line 2: a start that has no point yet.
pub fn options(line: &str, job: Job) -> Option<Start> {
    let fields: Vec<&str> = line.split(' ').collect();
    if job == Job::Simplex { simplex(&fields).map(Start::Simplex) } else { gradient(&fields, job).map(Start::Gradient) }
}

fn simplex(fields: &[&str]) -> Option<Simplex> {
    match *fields {
        [x_tol, f_tol, initial_step, max_iter, max_fevals, restarts, adaptive] => Some(Simplex {
            x_tol: float(x_tol)?,
            f_tol: float(f_tol)?,
            initial_step: float(initial_step)?,
            max_iter: allowance(max_iter)?,
            max_fevals: allowance(max_fevals)?,
            restarts: decimal(restarts)?,
            adaptive: flag(adaptive)?,
            x0: Vec::new(),
        }),
        _ => None,
    }
}

fn gradient(fields: &[&str], job: Job) -> Option<Gradient> {
    match *fields {
        [grad_tol, f_tol, x_tol, c1, c2, step_max, max_iter, max_fevals, max_evals, memory, gradients] => Some(Gradient {
            limited: job == Job::Lbfgs,
            grad_tol: float(grad_tol)?,
            f_tol: float(f_tol)?,
            x_tol: float(x_tol)?,
            c1: float(c1)?,
            c2: float(c2)?,
            step_max: float(step_max)?,
            max_iter: allowance(max_iter)?,
            max_fevals: allowance(max_fevals)?,
            max_evals: decimal(max_evals)?,
            memory: decimal(memory)?,
            gradients: flag(gradients)?,
            x0: Vec::new(),
        }),
        _ => None,
    }
}

// Line 3: as many words as line 1 said; of none it is empty.
pub fn point(line: &str, n: u64) -> Option<Vec<f64>> {
    if n == 0 {
        return line.is_empty().then(Vec::new);
    }
    let x = line.split(' ').map(float).collect::<Option<Vec<_>>>()?;
    (x.len() as u64 == n).then_some(x)
}
