// The first lines of a job, as crates/test_bare_jobs has them.

use crate::fields::{decimal, flag, float};
use crate::search::Search;

pub enum Job {
    Search { gradients: bool, max_evals: u64 },
    Differences,
}

pub fn job(line: &str) -> Option<Job> {
    match line.split(' ').collect::<Vec<_>>()[..] {
        ["search", gradients, max_evals] => Some(Job::Search { gradients: flag(gradients)?, max_evals: decimal(max_evals)? }),
        ["differences"] => Some(Job::Differences),
        _ => None,
    }
}

// c1 c2 step_max initial_step f0, of a search that has no list yet.
pub fn numbers(line: &str, gradients: bool, max_evals: u64) -> Option<Search> {
    match list(line)?[..] {
        [c1, c2, step_max, initial_step, f0] => {
            Some(Search { gradients, max_evals, c1, c2, step_max, initial_step, f0, ..Search::default() })
        }
        _ => None,
    }
}

// Any count of words; the line of none is empty.
pub fn list(line: &str) -> Option<Vec<f64>> {
    if line.is_empty() {
        return Some(Vec::new());
    }
    line.split(' ').map(float).collect()
}
