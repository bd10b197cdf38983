// What the fits are to reach. Every name is held against these lists, so that one that is misspelt or never met is found.

use crate::channel;
use crate::cubic;
use crate::fields::{self, V};
use crate::gradient;
use crate::lines;
use crate::models;
use crate::rust::{Gradient, Job, Run, Simplex, Start};
use crate::search;
use crate::simplex;

pub use crate::counts::Reached;

// Things of the pipe, which a sample of lines does not hold.
const OF_THE_PIPE: &[&str] = &["talked to line by line", "all lines at once", "no line feed at the end"];

const SIMPLEX_STARTS: &[&str] = &[
    "no 2: n 17",
    "no 2: n far above 16",
    "no 2: max_iter",
    "no 2: max_fevals",
    "no 2: restarts",
    "no 4 1",
    "no 4 2",
    "no 8",
    "no 9",
    "no 12 1",
    "no 2 before 4 1",
    "no 2 before 4 2",
    "no 2 before 8",
    "no 2 before 9",
    "no 2 before 12 1",
    "no 4 1 before 4 2",
    "no 4 1 before 8",
    "no 4 1 before 9",
    "no 4 1 before 12 1",
    "no 4 2 before 8",
    "no 4 2 before 9",
    "no 4 2 before 12 1",
    "no 8 before 9",
    "no 8 before 12 1",
    "start: a tolerance of -0.0",
    "start: initial_step subnormal",
    "start: initial_step above 1e15",
    "start: an allowance of 0",
    "start: an allowance of 1000000",
    "start: restarts 100",
    "start: n 3",
    "start: n 16",
];

const GRADIENT_STARTS: &[&str] = &[
    "no 2: n 17",
    "no 2: n far above 16",
    "no 2: max_iter",
    "no 2: max_fevals",
    "no 2: max_evals",
    "no 4 1",
    "no 4 2",
    "no 4 3",
    "no 5 1",
    "no 5 1: c1 not above 0",
    "no 5 1: c1 equal to c2",
    "no 5 1: c2 1",
    "no 5 1: NaN",
    "no 9",
    "no 12 1",
    "no 2 before 4 1",
    "no 2 before 4 2",
    "no 2 before 4 3",
    "no 2 before 5 1",
    "no 2 before 9",
    "no 2 before 12 1",
    "no 4 1 before 4 2",
    "no 4 1 before 4 3",
    "no 4 1 before 5 1",
    "no 4 1 before 9",
    "no 4 1 before 12 1",
    "no 4 2 before 4 3",
    "no 4 2 before 5 1",
    "no 4 2 before 9",
    "no 4 2 before 12 1",
    "no 4 3 before 5 1",
    "no 4 3 before 9",
    "no 4 3 before 12 1",
    "no 5 1 before 9",
    "no 5 1 before 12 1",
    "start: a tolerance of -0.0",
    "start: step_max subnormal",
    "start: step_max above 1e300",
    "start: max_evals 0",
    "start: max_evals 1",
    "start: max_evals 30",
    "start: max_evals 1000",
    "start: an allowance of 0",
    "start: an allowance of 1000000",
    "start: n 1",
    "start: n 16, gradients",
    "start: n 16, differences",
];

// Refusals of the memory, and what is taken of it.
const LBFGS_STARTS: &[&str] = &[
    "no 2: memory",
    "no 3",
    "no 2 before 3",
    "no 3 before 4 1",
    "no 3 before 4 2",
    "no 3 before 4 3",
    "no 3 before 5 1",
    "no 3 before 9",
    "no 3 before 12 1",
    "start: memory 1",
    "start: memory 16",
];

const BFGS_STARTS: &[&str] = &["start: memory 0", "start: memory above 16"];

const ANSWERS: &[&str] = &[
    "accepted",
    "repeat",
    "repeat: of another kind",
    "repeat: the same answer",
    "repeat: other words",
    "repeat: of another length",
    "repeat: of a question",
    "repeat: of an end",
    "repeat: of a refusal",
    "no 15",
    "no 15: after an end",
    "no 15: after a refusal",
    "no 16",
    "no 16: before the first acceptance",
    "no 17: G for V",
    "no 17: V of no word",
    "no 17: V of words",
    "no 17: V of more than 17 words",
    "bad 1",
    "bad 2",
    "bad 3",
    "bad 3: another count of words",
    "bad: an answer",
    "bad: with the repeat's number",
    "bad: after the outcome",
    "bad: an empty line",
    "bad: a carriage return",
    "bad: a tab",
    "bad: two spaces",
    "bad: a space at the end",
    "bad: a decimal above 2^64 - 1",
    "a line after the stop",
    "a decimal with leading zeros",
    "the input ends before line 3",
    "more than 1,000 answers",
];

const GRADIENT_ANSWERS: &[&str] = &[
    "no 17: V for G",
    "no 17: G of no word",
    "no 17: G of fewer words",
    "no 17: G of more words",
    "no 17: G of more than 17 words",
    "bad 2: the options of another job",
];

// What a sample is to hold.
pub fn of_a_sample(job: Job) -> Vec<&'static str> {
    let aside = [OF_THE_PIPE, channel::RATES].concat();
    all(job).into_iter().filter(|name| !aside.contains(name)).collect()
}

pub fn all(job: Job) -> Vec<&'static str> {
    let (starts, model) = match job {
        Job::Simplex => (&[][..], &[][..]),
        Job::Bfgs => (BFGS_STARTS, models::DENSE),
        Job::Lbfgs => (LBFGS_STARTS, models::LIMITED),
    };
    let search = [search::TRIALS, search::DOUBLING, search::ZOOM, cubic::WAYS, search::ENDS];
    let own = match job {
        Job::Simplex => vec![SIMPLEX_STARTS, simplex::MOVES],
        _ => [&[GRADIENT_STARTS, starts, GRADIENT_ANSWERS, gradient::ROUNDS, model][..], &search].concat(),
    };
    [OF_THE_PIPE, channel::RATES, ANSWERS].into_iter().chain(own).flatten().copied().collect()
}

fn note(reached: &mut Reached, marks: &[(bool, &'static str)]) {
    reached.extend(marks.iter().filter(|(met, _)| *met).map(|(_, name)| name));
}

pub fn note_bad(reached: &mut Reached, job: Job, number: usize, line: &str) {
    let parts: Vec<&str> = line.split(' ').collect();
    let large = |f: &str| f.len() > 19 && f.bytes().all(|b| b.is_ascii_digit()) && fields::decimal(f).is_none();
    let mended = parts.iter().map(|f| if large(f) { "1" } else { f }).collect::<Vec<_>>().join(" ");
    let mends = match number {
        1 => lines::job(&mended).is_some(),
        2 => lines::options(&mended, job).is_some(),
        3 => false,
        _ => fields::answer(&mended).is_some(),
    };
    let another = if job == Job::Simplex { Job::Bfgs } else { Job::Simplex };
    let marks = [
        (number == 1, "bad 1"),
        (number == 2, "bad 2"),
        (number == 2 && lines::options(line, another).is_some(), "bad 2: the options of another job"),
        (number == 3, "bad 3"),
        (number == 3 && lines::point(line, parts.len() as u64).is_some(), "bad 3: another count of words"),
        (line.is_empty(), "bad: an empty line"),
        (line.contains('\r'), "bad: a carriage return"),
        (line.contains('\t'), "bad: a tab"),
        (line.contains("  "), "bad: two spaces"),
        (line.ends_with(' '), "bad: a space at the end"),
        (mends, "bad: a decimal above 2^64 - 1"),
    ];
    note(reached, &marks);
}

fn tolerance(t: f64) -> bool {
    t.is_finite() && t >= 0.0
}

// Every refusal that concerns the start, in 01's order: all but the first are passed over by it.
pub fn faults(start: &Start) -> Vec<&'static str> {
    let own = match start {
        Start::Simplex(s) => vec![
            (!tolerance(s.x_tol), "4 1"),
            (!tolerance(s.f_tol), "4 2"),
            (!(s.initial_step.is_finite() && s.initial_step > 0.0), "8"),
        ],
        Start::Gradient(g) => vec![
            (g.limited && g.memory == 0, "3"),
            (!tolerance(g.grad_tol), "4 1"),
            (!tolerance(g.f_tol), "4 2"),
            (!tolerance(g.x_tol), "4 3"),
            (!(g.c1 > 0.0 && g.c1 < g.c2 && g.c2 < 1.0), "5 1"),
        ],
    };
    [(!start.above().is_empty(), "2")]
        .into_iter()
        .chain(own)
        .chain([(start.x0().is_empty(), "9"), (start.x0().iter().any(|v| !v.is_finite()), "12 1")])
        .filter(|(met, _)| *met)
        .map(|(_, name)| name)
        .collect()
}

fn note_refused(reached: &mut Reached, start: &Start) {
    let faults = faults(start);
    reached.extend(start.above());
    let alone = format!("no {}", faults[0]);
    let before: Vec<String> = faults[1..].iter().map(|next| format!("no {} before {next}", faults[0])).collect();
    let known = [SIMPLEX_STARTS, GRADIENT_STARTS, LBFGS_STARTS].into_iter().flatten();
    reached.extend(known.filter(|name| **name == alone || before.iter().any(|b| b == *name)));
    if let Start::Gradient(g) = start {
        let met = faults[0] == "5 1";
        let marks = [
            (met && g.c1 <= 0.0, "no 5 1: c1 not above 0"),
            (met && g.c1 == g.c2, "no 5 1: c1 equal to c2"),
            (met && g.c2 == 1.0, "no 5 1: c2 1"),
            (met && (g.c1.is_nan() || g.c2.is_nan()), "no 5 1: NaN"),
        ];
        note(reached, &marks);
    }
}

fn negative_zero(t: &f64) -> bool {
    *t == 0.0 && t.is_sign_negative()
}

fn note_simplex(reached: &mut Reached, s: &Simplex) {
    let n = s.x0.len();
    let marks = [
        ([s.x_tol, s.f_tol].iter().any(negative_zero), "start: a tolerance of -0.0"),
        (s.initial_step < f64::MIN_POSITIVE, "start: initial_step subnormal"),
        (s.initial_step > 1e15, "start: initial_step above 1e15"),
        (s.restarts == 100, "start: restarts 100"),
        (n == 3, "start: n 3"),
        (n == 16, "start: n 16"),
    ];
    note(reached, &marks);
}

fn note_gradient(reached: &mut Reached, g: &Gradient) {
    let n = g.x0.len();
    let marks = [
        ([g.grad_tol, g.f_tol, g.x_tol].iter().any(negative_zero), "start: a tolerance of -0.0"),
        (g.step_max.is_subnormal(), "start: step_max subnormal"),
        (g.step_max > 1e300 && g.step_max.is_finite(), "start: step_max above 1e300"),
        (g.max_evals == 0, "start: max_evals 0"),
        (g.max_evals == 1, "start: max_evals 1"),
        (g.max_evals == 30, "start: max_evals 30"),
        (g.max_evals == 1000, "start: max_evals 1000"),
        (n == 1, "start: n 1"),
        (n == 16 && g.gradients, "start: n 16, gradients"),
        (n == 16 && !g.gradients, "start: n 16, differences"),
        (g.limited && g.memory == 1, "start: memory 1"),
        (g.limited && g.memory == 16, "start: memory 16"),
        (!g.limited && g.memory == 0, "start: memory 0"),
        (!g.limited && g.memory > 16, "start: memory above 16"),
    ];
    note(reached, &marks);
}

pub fn note_start(reached: &mut Reached, start: &Start, run: &Run) {
    if run.calls.is_empty() {
        return note_refused(reached, start);
    }
    let allowed = |most: u64| start.allowances().contains(&Some(most));
    note(reached, &[(allowed(0), "start: an allowance of 0"), (allowed(1_000_000), "start: an allowance of 1000000")]);
    match start {
        Start::Simplex(s) => note_simplex(reached, s),
        Start::Gradient(g) => note_gradient(reached, g),
    }
}

pub fn wrong_count(kind: char, count: usize, right: usize) -> &'static str {
    match (kind, count) {
        (V, 0) => "no 17: V of no word",
        (V, 2..=17) => "no 17: V of words",
        (V, _) => "no 17: V of more than 17 words",
        (_, 0) => "no 17: G of no word",
        (_, 18..) => "no 17: G of more than 17 words",
        _ if count < right => "no 17: G of fewer words",
        _ => "no 17: G of more words",
    }
}
