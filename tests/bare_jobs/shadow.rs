// Holds the way of a search, as worked out anew, to the Rust's run of it.

use crate::rust::{Call, Outcome, Run};
use crate::search::{follow, same, Search, Source};

// The recorded calls, in turn.
struct Calls<'a> {
    calls: &'a [Call],
    next: usize,
}

impl Source for Calls<'_> {
    fn ask(&mut self, kind: char, x: &[f64]) -> Option<Vec<f64>> {
        let Call { kind: asked, point, told } = &self.calls[self.next];
        assert!(*asked == kind && same(point, x), "the search asks for something else");
        self.next += 1;
        Some(told.clone()).filter(|told| !told.is_empty())
    }
}

// What the search reached, each with the number of calls that it takes to reach it.
pub fn marks(start: &Search, run: &Run) -> Vec<(usize, &'static str)> {
    let followed = follow(start, &mut Calls { calls: &run.calls, next: 0 });
    let as_run = match (&followed.found, &run.outcome) {
        (Some(found), Outcome::Found(result)) => {
            let scalars = same(&[found.end.step, found.end.value], &[result.step, result.f]);
            let lists = same(&found.end.x, &result.x) && same(&found.end.g, &result.g);
            let counts = found.success == result.success && followed.trials == result.evals as u64;
            scalars && lists && counts && followed.calls == run.calls.len()
        }
        (None, Outcome::Left) => true,
        _ => false,
    };
    assert!(as_run, "the search was worked out wrongly");
    let mut marks = followed.marks;
    if followed.found.is_none() {
        marks.push((followed.calls, "left unfinished"));
    }
    marks
}
