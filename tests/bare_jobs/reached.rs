// What the jobs are to reach. Every name is held to these lists, so that one that is misspelt or never met is found.

use crate::counts::Reached;
use crate::cubic;
use crate::fields::{self, Answer, G, V};
use crate::lines;
use crate::rust::{Outcome, Run, Start};
use crate::search::{self, Search};

// Things of the pipe, which a sample of lines does not hold.
pub const OF_THE_PIPE: &[&str] =
    &["talked to line by line", "all lines at once", "no line feed at the end", "several jobs", "the input ends in a start"];

// Things of a line after which the program stops: a sample holds one such line.
pub const STOPS: &[&str] = &[
    "bad: a first line",
    "bad: five numbers",
    "bad: a list",
    "bad: an answer",
    "bad: an empty first line",
    "bad: a carriage return",
    "bad: a tab",
    "bad: two spaces",
    "bad: a space at the end",
    "bad: a decimal above 2^64 - 1",
    "a line after the stop",
];

pub const STARTS: &[&str] = &[
    "no 2: x0",
    "no 2: a direction",
    "no 2: a gradient",
    "no 2: max_evals",
    "no 2: a point of differences",
    "no 2: a list far above 16",
    "no 5 1",
    "no 5 2",
    "no 6",
    "no 7",
    "no 9",
    "no 10",
    "no 11",
    "no 12 1",
    "no 12 2",
    "no 12 3",
    "no 12 4",
    "no 13",
    "no 14",
    "no 14: slope 0",
    "no 2 before 5 1",
    "no 5 1 before 5 2",
    "no 5 2 before 6",
    "no 6 before 7",
    "no 7 before 9",
    "no 9 before 10",
    "no 10 before 11",
    "no 11 before 12 1",
    "no 12 1 before 12 2",
    "no 12 2 before 12 3",
    "no 12 3 before 12 4",
    "no 12 4 before 13",
    "no 13 before 14",
    "start: max_evals 1",
    "start: max_evals 2",
    "start: max_evals 30",
    "start: max_evals 1000",
    "start: step_max above 1.6e308",
    "start: step_max subnormal",
    "start: initial_step subnormal",
    "start: a coordinate of -0.0",
    "start: a subnormal in the direction",
    "start: f0 of -0.0",
    "start: n 1",
    "start: n 16, gradients",
    "start: n 16, differences",
    "differences: n 0",
    "differences: n 1",
    "differences: n 16",
    "differences: at a NaN coordinate",
    "differences: at an infinite coordinate",
    "differences: at -0.0",
    "differences: at a coordinate above 1",
    "differences: at a coordinate that overflows",
];

pub const ANSWERS: &[&str] = &[
    "accepted: V",
    "accepted: G",
    "repeat: of a question",
    "repeat: of a search's outcome",
    "repeat: of differences' outcome",
    "repeat: the same answer",
    "repeat: of another kind",
    "repeat: other words",
    "repeat: of another length",
    "no 1: after a refused start",
    "no 15: after a search",
    "no 15: after differences",
    "no 16",
    "no 16: before the first acceptance",
    "no 17: V for G",
    "no 17: G for V",
    "no 17: V of no word",
    "no 17: V of words",
    "no 17: V of more than 17 words",
    "no 17: G of no word",
    "no 17: G of fewer words",
    "no 17: G of more words",
    "no 17: G of more than 17 words",
    "a decimal with leading zeros",
    "told a NaN with a payload",
    "differences: told NaN",
    "differences: told an infinity",
    "left unfinished",
    "differences: ended",
    "differences: left unfinished",
    "differences: a gradient with NaN",
    "differences: a gradient with an infinity",
];

pub fn all() -> Vec<&'static str> {
    let search = [search::TRIALS, search::DOUBLING, search::ZOOM, cubic::WAYS, search::ENDS, search::BARE];
    [OF_THE_PIPE, STOPS, STARTS, ANSWERS].into_iter().chain(search).flatten().copied().collect()
}

fn note(reached: &mut Reached, marks: &[(bool, &'static str)]) {
    reached.extend(marks.iter().filter(|(met, _)| *met).map(|(_, name)| name));
}

pub fn note_bad(reached: &mut Reached, line: &str, stage: &'static str) {
    let large = |f: &str| f.len() > 19 && f.bytes().all(|b| b.is_ascii_digit()) && fields::decimal(f).is_none();
    let mended = line.split(' ').map(|f| if large(f) { "1" } else { f }).collect::<Vec<_>>().join(" ");
    let mends = match stage {
        "bad: a first line" => lines::job(&mended).is_some(),
        "bad: an answer" => fields::answer(&mended).is_some(),
        _ => false,
    };
    let marks = [
        (true, stage),
        (line.is_empty() && stage == "bad: a first line", "bad: an empty first line"),
        (line.contains('\r'), "bad: a carriage return"),
        (line.contains('\t'), "bad: a tab"),
        (line.contains("  "), "bad: two spaces"),
        (line.ends_with(' '), "bad: a space at the end"),
        (mends, "bad: a decimal above 2^64 - 1"),
    ];
    note(reached, &marks);
}

fn slope(s: &Search) -> f64 {
    s.g.iter().zip(&s.d).fold(-0.0, |sum, (g, d)| sum + g * d)
}

// Every refusal that concerns a search's start, in 01's order: all but the first are passed over by it.
fn faults(start: &Start, s: &Search) -> Vec<&'static str> {
    let positive = |v: f64| v > 0.0 && v.is_finite();
    let broken = |list: &[f64]| list.iter().any(|v| !v.is_finite());
    [
        (!start.above().is_empty(), "2"),
        (!(s.c1 > 0.0 && s.c1 < 1.0), "5 1"),
        (!(s.c2 > s.c1 && s.c2 < 1.0), "5 2"),
        (s.max_evals == 0, "6"),
        (!positive(s.step_max), "7"),
        (s.x0.is_empty(), "9"),
        (s.d.len() != s.x0.len(), "10"),
        (s.g.len() != s.x0.len(), "11"),
        (broken(&s.x0), "12 1"),
        (broken(&s.d), "12 2"),
        (broken(&s.g), "12 3"),
        (!s.f0.is_finite(), "12 4"),
        (!positive(s.initial_step), "13"),
        (slope(s) >= 0.0, "14"),
    ]
    .iter()
    .filter(|(met, _)| *met)
    .map(|(_, name)| *name)
    .collect()
}

fn note_refused(reached: &mut Reached, start: &Start) {
    reached.extend(start.above());
    if let Start::Search(s) = start {
        let faults = faults(start, s);
        let alone = format!("no {}", faults[0]);
        let before: Vec<String> = faults[1..].iter().map(|next| format!("no {} before {next}", faults[0])).collect();
        reached.extend(STARTS.iter().filter(|name| **name == alone || before.iter().any(|b| b == *name)));
        note(reached, &[(faults[0] == "14" && slope(s) == 0.0, "no 14: slope 0")]);
    }
}

fn negative_zero(v: &f64) -> bool {
    v.to_bits() == 1 << 63
}

fn note_search(reached: &mut Reached, s: &Search) {
    let n = s.x0.len();
    let marks = [
        (s.max_evals == 1, "start: max_evals 1"),
        (s.max_evals == 2, "start: max_evals 2"),
        (s.max_evals == 30, "start: max_evals 30"),
        (s.max_evals == 1000, "start: max_evals 1000"),
        (s.step_max > 1.6e308, "start: step_max above 1.6e308"),
        (s.step_max.is_subnormal(), "start: step_max subnormal"),
        (s.initial_step.is_subnormal(), "start: initial_step subnormal"),
        (s.x0.iter().any(negative_zero), "start: a coordinate of -0.0"),
        (s.d.iter().any(|v| v.is_subnormal()), "start: a subnormal in the direction"),
        (negative_zero(&s.f0), "start: f0 of -0.0"),
        (n == 1, "start: n 1"),
        (n == 16 && s.gradients, "start: n 16, gradients"),
        (n == 16 && !s.gradients, "start: n 16, differences"),
    ];
    note(reached, &marks);
}

fn note_differences(reached: &mut Reached, x: &[f64]) {
    let h = |v: &f64| f64::from_bits(0x3ED9_65FE_A53D_6E3D) * v.abs().max(1.0);
    let marks = [
        (x.is_empty(), "differences: n 0"),
        (x.len() == 1, "differences: n 1"),
        (x.len() == 16, "differences: n 16"),
        (x.iter().any(|v| v.is_nan()), "differences: at a NaN coordinate"),
        (x.iter().any(|v| v.is_infinite()), "differences: at an infinite coordinate"),
        (x.iter().any(negative_zero), "differences: at -0.0"),
        (x.iter().any(|v| v.abs() > 1.0 && v.is_finite()), "differences: at a coordinate above 1"),
        (x.iter().any(|v| v.is_finite() && (v.abs() + h(v)).is_infinite()), "differences: at a coordinate that overflows"),
    ];
    note(reached, &marks);
}

pub fn note_start(reached: &mut Reached, start: &Start, run: &Run) {
    match (&run.outcome, start) {
        (Outcome::Refusal(..), _) => note_refused(reached, start),
        (_, Start::Search(s)) => note_search(reached, s),
        (_, Start::Differences(x)) => note_differences(reached, x),
    }
}

// What a job of differences came to, as far as the program was led.
pub fn note_end(reached: &mut Reached, start: &Start, run: &Run, accepted: usize) {
    let told = || run.calls[..accepted].iter().flat_map(|call| &call.told);
    let payload = |v: &f64| v.is_nan() && v.to_bits() != 0x7FF8_0000_0000_0000;
    note(reached, &[(told().any(payload), "told a NaN with a payload")]);
    if matches!(start, Start::Search(_)) || matches!(run.outcome, Outcome::Refusal(..)) {
        return;
    }
    let over = accepted == run.calls.len();
    let of_gradient = |f: fn(f64) -> bool| matches!(&run.outcome, Outcome::Gradient(g) if g.iter().any(|v| f(*v)));
    let marks = [
        (told().any(|v| v.is_nan()), "differences: told NaN"),
        (told().any(|v| v.is_infinite()), "differences: told an infinity"),
        (over, "differences: ended"),
        (!over, "differences: left unfinished"),
        (over && of_gradient(f64::is_nan), "differences: a gradient with NaN"),
        (over && of_gradient(f64::is_infinite), "differences: a gradient with an infinity"),
    ];
    note(reached, &marks);
}

pub fn wrong_count(kind: char, count: usize, right: usize) -> &'static str {
    match (kind, count) {
        (V, 0) => "no 17: V of no word",
        (V, 2..=17) => "no 17: V of words",
        (V, _) => "no 17: V of more than 17 words",
        (_, 0) => "no 17: G of no word",
        (_, 18..) => "no 17: G of more than 17 words",
        _ if count < right => "no 17: G of fewer words",
        _ => "no 17: G of more words",
    }
}

pub fn note_repeat(reached: &mut Reached, run: &Run, accepted: usize, answer: &Answer) {
    let call = &run.calls[accepted - 1];
    let told: Vec<u64> = call.told.iter().map(|v| v.to_bits()).collect();
    let over = accepted == run.calls.len();
    let marks = [
        (!over, "repeat: of a question"),
        (over && matches!(run.outcome, Outcome::Found(_)), "repeat: of a search's outcome"),
        (over && matches!(run.outcome, Outcome::Gradient(_)), "repeat: of differences' outcome"),
        (answer.kind == call.kind && answer.words == told, "repeat: the same answer"),
        (answer.kind != call.kind, "repeat: of another kind"),
        (answer.words.len() == told.len() && answer.words != told, "repeat: other words"),
        (answer.words.len() != told.len(), "repeat: of another length"),
    ];
    note(reached, &marks);
}

// The letter that the open question has not.
pub fn other(kind: char) -> char {
    if kind == V { G } else { V }
}
