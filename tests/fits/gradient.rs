// A bfgs or lbfgs fit worked out anew, search by search, over what a teller tells, and which way it went. runs.rs asserts that
// the Rust, told the same, puts the same questions and comes to the same outcome.

use crate::fields::{G, V};
use crate::models::{self, Model};
use crate::rust::{Call, Gradient};
use crate::search::{self, dot, Search, Source};
use crate::tellers::Teller;
use tsecon_optim::Termination::{self, *};

pub const ROUNDS: &[&str] = &[
    "told NaN",
    "told +infinity",
    "told -infinity",
    "a gradient told with NaN",
    "a gradient told with an infinity",
    "no 18: NaN",
    "no 18: +infinity",
    "no 18: -infinity",
    "no 19: NaN, told",
    "no 19: an infinity, told",
    "no 19: by differences",
    "no 6 at the first search",
    "no 6 before 7",
    "no 7 at the first search",
    "no 12 1 in a later search",
    "an end before a search, max_evals 0",
    "an end before a search, step_max refused",
    "largest |gradient| equal to grad_tol, above 0",
    "grad_tol met with max_iter used up",
    "grad_tol met with max_fevals used up",
    "max_iter and max_fevals used up at once",
    "first step 1",
    "first step 1/|d|",
    "first step, |d| below 1e-30",
    "gives way to -g",
    "gives way to -g: slope 0 or more",
    "gives way to -g: slope NaN",
    "gives way to -g: slope -infinity",
    "gives way to -g: direction not finite",
    "-g fails",
    "-g fails: slope 0",
    "-g fails: slope -infinity",
    "-g fails in a later round",
    "a later search succeeds",
    "a later search fails",
    "a search along -g succeeds",
    "a search along -g fails",
    "a search fails: a better trial is kept",
    "a search fails: none is kept",
    "x leaves the finite range",
    "pair skipped",
    "pair skipped: sy equal to its bound",
    "pair skipped: sy infinite or NaN",
    "pair skipped: sy above 0",
    "pair skipped, then another kept",
    "pair skipped: sy just below its bound, then a search",
    "pair kept: sy just above its bound, then a search",
    "pair skipped: no move in a later round, then a search",
    "f_tol met",
    "f_tol met at an equal value",
    "f_tol met by |f| alone",
    "f_tol met, x_tol too",
    "f_tol met, grad_tol too",
    "x_tol met",
    "x_tol met at an equal value",
    "x_tol met by |x| alone",
    "x_tol met, grad_tol too",
    "GradientTolerance",
    "FunctionTolerance",
    "StepTolerance",
    "MaxIterations",
    "MaxFevals",
    "LineSearchFailed",
    "end with no round",
    "end after ten rounds",
    "end with more fevals than max_fevals",
    "MaxFevals with as many fevals as max_fevals",
    "end by the default max_iter",
    "end at an infinite coordinate",
    "by gradients: an end",
    "by differences: an end",
    "by differences: more than 1,000 answers",
    "left unfinished",
];

pub enum Ending {
    Reason(Termination),
    Refused(u64, u64),
}

pub struct Followed {
    pub calls: Vec<Call>,
    // Nothing where the fit was left.
    pub ending: Option<Ending>,
    pub x: Vec<f64>,
    pub f: f64,
    pub iterations: u64,
    pub fevals: u64,
    pub gevals: u64,
    // Each with the calls that were told before it.
    pub marks: Vec<(usize, &'static str)>,
}

struct Shadow<'a> {
    start: &'a Gradient,
    teller: &'a mut Teller,
    most: usize,
    // What is known of the fit so far.
    so: Followed,
    g: Vec<f64>,
    model: Model,
    skipped: bool,
    updates: u64,
    // What the next search shows, if it goes along the model's direction and moves x.
    pending: Vec<&'static str>,
}

impl Source for Shadow<'_> {
    fn ask(&mut self, kind: char, x: &[f64]) -> Option<Vec<f64>> {
        self.so.calls.push(Call { kind, point: x.to_vec(), told: Vec::new() });
        if self.so.calls.len() > self.most {
            return None;
        }
        let told = self.teller.tell(kind, x);
        self.so.calls.last_mut().expect("a call was pushed").told = told.clone();
        *(if kind == V { &mut self.so.fevals } else { &mut self.so.gevals }) += 1;
        if kind == V {
            self.mark(told[0].is_nan(), "told NaN");
            self.mark(told[0] == f64::INFINITY, "told +infinity");
            self.mark(told[0] == f64::NEG_INFINITY, "told -infinity");
        } else {
            self.mark(told.iter().any(|v| v.is_nan()), "a gradient told with NaN");
            self.mark(told.iter().any(|v| v.is_infinite()), "a gradient told with an infinity");
        }
        self.mark(!self.start.gradients && self.so.calls.len() > 1_000, "by differences: more than 1,000 answers");
        Some(told)
    }
}

fn largest(values: &[f64]) -> f64 {
    values.iter().fold(0.0, |most, v| if v.abs() > most { v.abs() } else { most })
}

fn finite(values: &[f64]) -> bool {
    values.iter().all(|v| v.is_finite())
}

fn less(a: &[f64], b: &[f64]) -> Vec<f64> {
    a.iter().zip(b).map(|(a, b)| a - b).collect()
}

// The fit of a start that is not refused, until it ends or until its call after `most` calls.
pub fn follow(start: &Gradient, teller: &mut Teller, most: usize) -> Followed {
    let (calls, marks, x) = (Vec::new(), Vec::new(), start.x0.clone());
    let so = Followed { calls, ending: None, x, f: 0.0, iterations: 0, fevals: 0, gevals: 0, marks };
    let model = if start.limited { Model::limited(start.memory as usize) } else { Model::dense(start.x0.len()) };
    let mut shadow = Shadow { start, teller, most, so, g: Vec::new(), model, skipped: false, updates: 0, pending: Vec::new() };
    shadow.so.ending = shadow.fit();
    shadow.note_ending();
    shadow.so
}

impl Shadow<'_> {
    fn mark(&mut self, met: bool, name: &'static str) {
        if met {
            self.so.marks.push((self.so.calls.len(), name));
        }
    }

    fn mark_all(&mut self, marks: Vec<(bool, &'static str)>) {
        marks.into_iter().for_each(|(met, name)| self.mark(met, name));
    }

    fn fit(&mut self) -> Option<Ending> {
        let x = self.so.x.clone();
        let told = self.ask(V, &x)?[0];
        self.so.f = told;
        if !told.is_finite() {
            self.mark(told.is_nan(), "no 18: NaN");
            self.mark(told == f64::INFINITY, "no 18: +infinity");
            self.mark(told == f64::NEG_INFINITY, "no 18: -infinity");
            return Some(Ending::Refused(18, 0));
        }
        self.g = if self.start.gradients { self.ask(G, &x)? } else { search::differences(self, true, &x)?.0 };
        if !finite(&self.g) {
            let (told, nan) = (self.start.gradients, self.g.iter().any(|v| v.is_nan()));
            self.mark(told && nan, "no 19: NaN, told");
            self.mark(told && !nan, "no 19: an infinity, told");
            self.mark(!told, "no 19: by differences");
            return Some(Ending::Refused(19, 0));
        }
        loop {
            if let Some(reason) = self.tests() {
                return Some(Ending::Reason(reason));
            }
            self.so.iterations += 1;
            if let Some(ending) = self.round()? {
                return Some(ending);
            }
        }
    }

    fn max_iter(&self) -> u64 {
        self.start.max_iter.unwrap_or(200 * self.start.x0.len() as u64)
    }

    fn tests(&mut self) -> Option<Termination> {
        let (steepest, tolerance) = (largest(&self.g), self.start.grad_tol);
        let flat = steepest <= tolerance;
        let (no_iter, no_fevals) = (
            self.so.iterations >= self.max_iter(),
            self.start.max_fevals.is_some_and(|most| self.so.fevals >= most),
        );
        self.mark(flat && steepest == tolerance && steepest > 0.0, "largest |gradient| equal to grad_tol, above 0");
        self.mark(flat && no_iter, "grad_tol met with max_iter used up");
        self.mark(flat && no_fevals, "grad_tol met with max_fevals used up");
        self.mark(!flat && no_iter && no_fevals, "max_iter and max_fevals used up at once");
        if flat {
            return Some(GradientTolerance);
        }
        if no_iter {
            return Some(MaxIterations);
        }
        no_fevals.then_some(MaxFevals)
    }

    // The model's direction, or minus the gradient, and whether it gave way; nothing where that fails too.
    fn direction(&mut self) -> Option<(Vec<f64>, bool)> {
        let (d, marks) = self.model.direction(&self.g);
        self.mark_all(marks);
        let slope = dot(&self.g, &d);
        if slope < 0.0 && slope.is_finite() && finite(&d) {
            return Some((d, false));
        }
        self.mark(true, "gives way to -g");
        self.mark(slope >= 0.0, "gives way to -g: slope 0 or more");
        self.mark(slope.is_nan(), "gives way to -g: slope NaN");
        self.mark(slope == f64::NEG_INFINITY && finite(&d), "gives way to -g: slope -infinity");
        self.mark(!finite(&d), "gives way to -g: direction not finite");
        let slope = -dot(&self.g, &self.g);
        if slope < 0.0 && slope.is_finite() {
            return Some((self.g.iter().map(|v| -v).collect(), true));
        }
        self.mark(true, "-g fails");
        self.mark(slope == 0.0, "-g fails: slope 0");
        self.mark(slope.is_infinite(), "-g fails: slope -infinity");
        self.mark(self.so.iterations > 1, "-g fails in a later round");
        None
    }

    fn first_step(&mut self, d: &[f64]) -> f64 {
        let most = largest(d);
        let step = 1.0 / if most > 1e-30 { most } else { 1e-30 };
        self.mark(most < 1e-30, "first step, |d| below 1e-30");
        self.mark(true, if step < 1.0 { "first step 1/|d|" } else { "first step 1" });
        if step < 1.0 { step } else { 1.0 }
    }

    // What the search refuses, of what a fit can bring before it.
    fn refused(&mut self) -> Option<Ending> {
        let positive = self.start.step_max > 0.0 && self.start.step_max.is_finite();
        if self.start.max_evals == 0 {
            self.mark(true, "no 6 at the first search");
            self.mark(!positive, "no 6 before 7");
            return Some(Ending::Refused(6, 0));
        }
        if !positive {
            self.mark(true, "no 7 at the first search");
            return Some(Ending::Refused(7, 0));
        }
        if !finite(&self.so.x) {
            self.mark(true, "no 12 1 in a later search");
            return Some(Ending::Refused(12, 1));
        }
        None
    }

    // One search and what follows it: the fit's ending, if it ends; nothing at all where it is left.
    fn round(&mut self) -> Option<Option<Ending>> {
        let Some((d, gave_way)) = self.direction() else { return Some(Some(Ending::Reason(LineSearchFailed))) };
        let initial_step = if self.so.iterations == 1 { self.first_step(&d) } else { 1.0 };
        if let Some(ending) = self.refused() {
            return Some(Some(ending));
        }
        let &Gradient { gradients, max_evals, c1, c2, step_max, .. } = self.start;
        let (x0, g, f0) = (self.so.x.clone(), self.g.clone(), self.so.f);
        let search = Search { gradients, in_a_fit: true, max_evals, c1, c2, step_max, initial_step, f0, x0, d, g };
        let shows = !gave_way && search.x0.iter().zip(&search.d).any(|(x, d)| x + initial_step * d != *x);
        std::mem::take(&mut self.pending).into_iter().for_each(|name| self.mark(shows, name));
        self.teller.begin(&search, self.so.iterations);
        let before = self.so.calls.len();
        let followed = search::follow(&search, self);
        self.so.marks.extend(followed.marks.into_iter().map(|(calls, name)| (before + calls, name)));
        let found = followed.found?;
        let later = self.so.iterations > 1;
        self.mark(later, if found.success { "a later search succeeds" } else { "a later search fails" });
        self.mark(gave_way, if found.success { "a search along -g succeeds" } else { "a search along -g fails" });
        if !found.success {
            let kept = found.end.step > 0.0 && found.end.value < self.so.f;
            self.mark(true, if kept { "a search fails: a better trial is kept" } else { "a search fails: none is kept" });
            if kept {
                (self.so.x, self.so.f) = (found.end.x, found.end.value);
            }
            return Some(Some(Ending::Reason(LineSearchFailed)));
        }
        assert!(finite(&found.end.g), "a search that succeeds has a finite slope, and so a finite gradient");
        Some(self.stepped(found.end).map(Ending::Reason))
    }

    // A step that succeeded: the pair, the move and the tests of f_tol and x_tol.
    fn stepped(&mut self, end: search::Trial) -> Option<Termination> {
        let (s, y) = (less(&end.x, &self.so.x), less(&end.g, &self.g));
        self.pair(&s, &y);
        self.mark(finite(&self.so.x) && !finite(&end.x), "x leaves the finite range");
        let fall = self.so.f - end.value;
        (self.so.x, self.so.f, self.g) = (end.x, end.value, end.g);
        let (f, x, moved) = (self.so.f.abs(), largest(&self.so.x), largest(&s));
        let (f_bound, x_bound) = (
            self.start.f_tol * if f > 1.0 { f } else { 1.0 },
            self.start.x_tol * if x > 1.0 { x } else { 1.0 },
        );
        let (level, near) = (self.start.f_tol > 0.0 && fall <= f_bound, self.start.x_tol > 0.0 && moved <= x_bound);
        let flat = largest(&self.g) <= self.start.grad_tol;
        if level {
            self.mark(true, "f_tol met");
            self.mark(fall == f_bound, "f_tol met at an equal value");
            self.mark(fall > self.start.f_tol, "f_tol met by |f| alone");
            self.mark(near, "f_tol met, x_tol too");
            self.mark(flat, "f_tol met, grad_tol too");
            return Some(FunctionTolerance);
        }
        if near {
            self.mark(true, "x_tol met");
            self.mark(moved == x_bound && moved.is_finite(), "x_tol met at an equal value");
            self.mark(moved > self.start.x_tol && x.is_finite(), "x_tol met by |x| alone");
            self.mark(flat, "x_tol met, grad_tol too");
            return Some(StepTolerance);
        }
        None
    }

    fn pair(&mut self, s: &[f64], y: &[f64]) {
        let (sy, yy, bound, large) = (dot(s, y), dot(y, y), 1e-12 * largest(s) * largest(y), s.len() > 2);
        if sy > bound {
            let marks = self.model.update(s, y);
            let dropped = marks.contains(&(true, "memory: a pair dropped"));
            self.mark_all(marks);
            self.updates += 1;
            self.mark(self.skipped, "pair skipped, then another kept");
            let [faint, one, five] = models::SHOWN[self.start.limited as usize];
            let shown = [
                (sy < 4.0 * bound, "pair kept: sy just above its bound, then a search"),
                (yy == 0.0 && (1.0 / sy).is_finite(), faint),
                (large, one),
                (large && self.updates >= 5, five),
                (large && dropped && self.start.memory > 1, "memory: one of several dropped, then a search, n above 2"),
            ];
            self.pending.extend(shown.iter().filter(|(met, _)| *met).map(|(_, name)| name));
            return;
        }
        self.skipped = true;
        self.mark(true, "pair skipped");
        self.mark(sy == bound && sy.is_finite(), "pair skipped: sy equal to its bound");
        self.mark(!sy.is_finite(), "pair skipped: sy infinite or NaN");
        self.mark(sy > 0.0 && sy.is_finite(), "pair skipped: sy above 0");
        let shown = [
            (sy > 0.25 * bound && sy.is_finite(), "pair skipped: sy just below its bound, then a search"),
            (largest(s) == 0.0 && self.updates > 0, "pair skipped: no move in a later round, then a search"),
        ];
        self.pending.extend(shown.iter().filter(|(met, _)| *met).map(|(_, name)| name));
    }

    fn note_ending(&mut self) {
        let name = match &self.so.ending {
            Some(Ending::Reason(GradientTolerance)) => "GradientTolerance",
            Some(Ending::Reason(FunctionTolerance)) => "FunctionTolerance",
            Some(Ending::Reason(StepTolerance)) => "StepTolerance",
            Some(Ending::Reason(MaxIterations)) => "MaxIterations",
            Some(Ending::Reason(MaxFevals)) => "MaxFevals",
            Some(Ending::Reason(LineSearchFailed)) => "LineSearchFailed",
            Some(Ending::Reason(other)) => unreachable!("no gradient fit ends with {other:?}"),
            _ => return,
        };
        let positive = self.start.step_max > 0.0 && self.start.step_max.is_finite();
        let (none, gradients) = (self.so.iterations == 0, self.start.gradients);
        self.mark(true, name);
        self.mark(none, "end with no round");
        self.mark(self.so.iterations > 10, "end after ten rounds");
        self.mark(none && self.start.max_evals == 0, "an end before a search, max_evals 0");
        self.mark(none && !positive, "an end before a search, step_max refused");
        self.mark(self.start.max_fevals.is_some_and(|most| self.so.fevals > most), "end with more fevals than max_fevals");
        let exact = name == "MaxFevals" && self.start.max_fevals == Some(self.so.fevals);
        self.mark(exact, "MaxFevals with as many fevals as max_fevals");
        self.mark(name == "MaxIterations" && self.start.max_iter.is_none(), "end by the default max_iter");
        self.mark(self.so.x.iter().any(|v| v.is_infinite()), "end at an infinite coordinate");
        self.mark(true, if gradients { "by gradients: an end" } else { "by differences: an end" });
    }
}
