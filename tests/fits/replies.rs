// What the program prints, and which reply an answer gets: the Rust has no such rules, so they are 01's.

use crate::fields::{self, Answer, V};
use crate::rust::Outcome;
use tsecon_optim::OptimizeResult;

pub fn asked(number: u64, kind: char, point: &[f64]) -> String {
    format!("ask {number} {kind}{}", fields::printed(point))
}

fn ended(result: &OptimizeResult) -> String {
    let converged = if result.converged { "yes" } else { "no" };
    let counts = format!("{} {} {}", result.iterations, result.fevals, result.gevals);
    let values: Vec<f64> = [result.f].iter().chain(&result.x).copied().collect();
    format!("end {:?} {converged} {counts}{}", result.termination, fields::printed(&values))
}

pub fn outcome(outcome: &Outcome) -> String {
    match outcome {
        Outcome::Result(result) => ended(result),
        Outcome::Refusal(number, detail) => format!("no {number} {detail}"),
        Outcome::Left => unreachable!("the last question of a fit that was left is not answered"),
    }
}

#[derive(Clone, Copy, PartialEq)]
pub enum Verdict {
    Accepted,
    Repeat,
    Ended,
    Number,
    Kind,
    // The count of words that is wanted.
    Count(usize),
}

// 01: an answer meets the repeat rule, then 15 to 17; before the first acceptance no number is a repeat. `open` is the kind of the
// open question and the number of coordinates, or nothing where there is an outcome.
pub fn verdict(answer: &Answer, accepted: u64, open: Option<(char, usize)>) -> Verdict {
    if accepted > 0 && answer.number == accepted {
        return Verdict::Repeat;
    }
    let Some((kind, n)) = open else { return Verdict::Ended };
    let count = if kind == V { 1 } else { n };
    match answer {
        Answer { number, .. } if *number != accepted + 1 => Verdict::Number,
        Answer { kind: other, .. } if *other != kind => Verdict::Kind,
        Answer { words, .. } if words.len() != count => Verdict::Count(count),
        _ => Verdict::Accepted,
    }
}

// The number of the refusal that a verdict is, if it is one.
pub fn refusal(verdict: Verdict) -> Option<u64> {
    match verdict {
        Verdict::Accepted | Verdict::Repeat => None,
        Verdict::Ended => Some(15),
        Verdict::Number => Some(16),
        Verdict::Kind | Verdict::Count(_) => Some(17),
    }
}
