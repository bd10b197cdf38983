// A run of the Rust, and what it reached. A gradient fit is worked out anew first, by the shadow, which has what each question
// is told; the Rust is then told the same, and is asserted to put the same questions and to come to the same outcome.

use crate::fields::V;
use crate::gradient::{self, Ending, Followed};
use crate::objectives::Objective;
use crate::reached::{self, Reached};
use crate::rust::{self, Call, Outcome, Run, Start, Told};
use crate::search::same;
use crate::simplex;
use crate::tellers::Teller;

// What a gradient fit reached, each with the number of calls that it takes to reach it.
pub type Marks = Vec<(usize, &'static str)>;

impl Told for Objective {
    fn told(&mut self, kind: char, x: &[f64]) -> Vec<f64> {
        assert!(kind == V, "a simplex fit asks for values alone");
        vec![self.value(x)]
    }
}

// What the shadow's calls were told, in turn.
struct Again<'a> {
    calls: &'a [Call],
    next: usize,
}

impl Told for Again<'_> {
    fn told(&mut self, kind: char, x: &[f64]) -> Vec<f64> {
        let call = self.calls.get(self.next).expect("the Rust asks on where the shadow has ended");
        assert!(call.kind == kind && same(&call.point, x), "the Rust asks for something else");
        self.next += 1;
        call.told.clone()
    }
}

fn as_run(followed: &Followed, run: &Run) -> bool {
    let last = match (&followed.ending, &run.outcome) {
        (None, Outcome::Left) => return followed.calls.len() == run.calls.len(),
        (Some(ending), _) => ending,
        _ => return false,
    };
    let ends = match (last, &run.outcome) {
        (Ending::Refused(number, detail), Outcome::Refusal(n, d)) => (*number, *detail) == (*n, *d),
        (Ending::Reason(reason), Outcome::Result(r)) => {
            let values = same(&followed.x, &r.x) && same(&[followed.f], &[r.f]);
            let counts = [followed.iterations, followed.fevals, followed.gevals];
            values && *reason == r.termination && counts == [r.iterations as u64, r.fevals as u64, r.gevals as u64]
        }
        _ => false,
    };
    ends && followed.calls.len() == run.calls.len()
}

// Runs a start until it ends, or until its call after `most` calls.
pub fn run(start: &Start, teller: &mut Teller, most: usize) -> (Run, Marks) {
    match start {
        Start::Simplex(_) => (rust::run(start, teller.objective(), most), Marks::new()),
        Start::Gradient(_) if !reached::faults(start).is_empty() => {
            let run = rust::run(start, &mut Again { calls: &[], next: 0 }, most);
            assert!(matches!(run.outcome, Outcome::Refusal(..)), "a start that 01 refuses is taken");
            (run, Marks::new())
        }
        Start::Gradient(g) => {
            let followed = gradient::follow(g, teller, most);
            let run = rust::run(start, &mut Again { calls: &followed.calls, next: 0 }, most);
            assert!(as_run(&followed, &run), "the fit was worked out wrongly");
            (run, followed.marks)
        }
    }
}

// What was reached as far as the program was told.
pub fn note(reached: &mut Reached, start: &Start, run: &Run, marks: &Marks, told: usize) {
    match start {
        Start::Simplex(s) => simplex::note_moves(reached, s, run, told),
        Start::Gradient(_) => {
            reached.extend(marks.iter().filter(|(calls, _)| *calls <= told).map(|(_, name)| name));
            if told < run.calls.len() {
                reached.insert("left unfinished");
            }
        }
    }
    if told > 1_000 {
        reached.insert("more than 1,000 answers");
    }
}
