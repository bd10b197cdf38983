// Which moves a simplex fit of the Rust made, as far as the program was told its values, worked out from the points and values of
// its calls. It classifies and compares nothing with the program; that it ends as the run did, having used every call,
// shows that it classified rightly.

use crate::reached::Reached;
use crate::rust::{Outcome, Run, Simplex};
use tsecon_optim::Termination::{self, MaxFevals, MaxIterations, ObjectiveResolution, SimplexTolerance};

pub const MOVES: &[&str] = &[
    "told NaN",
    "told +infinity",
    "told -infinity",
    "asked at an infinite coordinate",
    "asked at a NaN coordinate",
    "edge at -0.0",
    "edge at +0.0",
    "edge at a subnormal",
    "edge subtracted",
    "edge of 0.00025",
    "edge of initial_step",
    "edge that is infinite",
    "edge at an infinite coordinate",
    "edge at a NaN coordinate",
    "order: equal values",
    "order: infinite values",
    "order: -0.0 and +0.0 as they stood",
    "order: +0.0 and -0.0 changed about",
    "the best stands against an equal value",
    "the best has an infinite coordinate",
    "size met, spread not",
    "spread met, size not",
    "size equal to x_tol",
    "spread equal to f_tol, above 0",
    "size met by its floor alone",
    "spread met by its floor alone",
    "last run ends with f_tol equal to the resolution",
    "tolerances met with max_iter used up",
    "max_iter and max_fevals used up at once",
    "centroid of -0.0 alone, from a worst of +0.0",
    "round of n 1",
    "round of n 2, adaptive",
    "round of n 16, adaptive",
    "round of n 16, not adaptive",
    "expansion, n above 2, adaptive",
    "expansion, n above 2, not adaptive",
    "contraction, n above 2, adaptive",
    "contraction, n above 2, not adaptive",
    "shrink, n above 2, adaptive",
    "shrink, n above 2, not adaptive",
    "reflection below the best",
    "reflection equal to the best",
    "reflection equal to the second worst",
    "reflection equal to the worst",
    "reflection taken",
    "expansion taken",
    "expansion left",
    "expansion left at an equal value",
    "outside contraction taken",
    "outside contraction taken at an equal value",
    "shrink after an outside contraction",
    "inside contraction taken",
    "shrink after an inside contraction",
    "shrink after an inside contraction of equal value",
    "shrink that tells a new least",
    "SimplexTolerance",
    "ObjectiveResolution",
    "MaxIterations",
    "MaxFevals",
    "no 20",
    "restart",
    "SimplexTolerance within a restart",
    "ObjectiveResolution within a restart",
    "ObjectiveResolution, then a restart",
    "MaxIterations in a later run",
    "MaxFevals in a later run",
    "no 20 in a later run",
    "101 runs",
    "end with no round",
    "end with more fevals than max_fevals",
    "end by the default max_iter",
    "end by the default max_fevals",
    "end by the default max_iter, with restarts",
    "end by the default max_fevals, with restarts",
    "end with the best of an earlier run",
    "end at a NaN coordinate",
    "left unfinished",
];

struct Vertex {
    x: Vec<f64>,
    f: f64,
}

struct Shadow<'a> {
    reached: &'a mut Reached,
    start: &'a Simplex,
    run: &'a Run,
    // How many values the program was told, and how many of them were used here.
    told: usize,
    calls: usize,
    iterations: u64,
    best: Vertex,
    runs: u64,
}

enum Ending {
    Reason(Termination),
    Refused,
}

pub fn note_moves(reached: &mut Reached, start: &Simplex, run: &Run, told: usize) {
    let best = Vertex { x: start.x0.clone(), f: f64::INFINITY };
    let mut shadow = Shadow { reached, start, run, told, calls: 0, iterations: 0, best, runs: 0 };
    let ending = shadow.fit();
    shadow.note_ending(&ending);
    let as_run = match (&ending, &run.outcome) {
        (None, _) => told < run.calls.len(),
        (Some(_), _) if told < run.calls.len() => false,
        (Some(Ending::Reason(t)), Outcome::Result(r)) => *t == r.termination && shadow.iterations == r.iterations as u64,
        (Some(Ending::Refused), Outcome::Refusal(20, 0)) => true,
        _ => false,
    };
    assert!(as_run && shadow.calls == told, "the moves were worked out wrongly");
}

fn largest(values: impl Iterator<Item = f64>) -> f64 {
    values.fold(0.0, f64::max)
}

// Every two values, the one that stands first before the other.
fn pairs(values: &[f64]) -> Vec<(f64, f64)> {
    let before = |(j, b): (usize, &f64)| values[..j].iter().map(|a| (*a, *b)).collect::<Vec<_>>();
    values.iter().enumerate().flat_map(before).collect()
}

fn positive_zero(v: f64) -> bool {
    v.to_bits() == 0
}

fn negative_zero(v: f64) -> bool {
    v.to_bits() == 1 << 63
}

impl Shadow<'_> {
    fn mark(&mut self, met: bool, name: &'static str) {
        if met {
            self.reached.insert(name);
        }
    }

    // A thing by which coefficients it was done with.
    fn by_coefficients(&mut self, met: bool, names: [&'static str; 2]) {
        self.mark(met, if self.start.adaptive { names[0] } else { names[1] });
    }

    // The next call, or nothing where the program was told no more.
    fn ask(&mut self) -> Option<Vertex> {
        let call = self.run.calls[..self.told].get(self.calls)?;
        let (value, x) = (call.told[0], call.point.clone());
        self.calls += 1;
        self.mark(value.is_nan(), "told NaN");
        self.mark(value == f64::INFINITY, "told +infinity");
        self.mark(value == f64::NEG_INFINITY, "told -infinity");
        self.mark(x.iter().any(|v| v.is_infinite()), "asked at an infinite coordinate");
        self.mark(x.iter().any(|v| v.is_nan()), "asked at a NaN coordinate");
        Some(Vertex { x, f: if value.is_finite() { value } else { f64::INFINITY } })
    }

    fn fit(&mut self) -> Option<Ending> {
        loop {
            let mut simplex = self.build()?;
            if simplex.iter().all(|v| v.f == f64::INFINITY) {
                return Some(Ending::Refused);
            }
            let reason = self.rounds(&mut simplex)?;
            if matches!(reason, MaxIterations | MaxFevals) || self.runs == self.start.restarts {
                self.mark(simplex[0].f > self.best.f, "end with the best of an earlier run");
                return Some(Ending::Reason(reason));
            }
            self.runs += 1;
            self.mark(true, "restart");
            self.mark(reason == ObjectiveResolution, "ObjectiveResolution, then a restart");
            self.mark(self.runs == 100, "101 runs");
        }
    }

    fn build(&mut self) -> Option<Vec<Vertex>> {
        let seed = self.ask()?;
        for &c in &seed.x {
            let step = self.start.initial_step * c.abs();
            self.mark(negative_zero(c), "edge at -0.0");
            self.mark(positive_zero(c), "edge at +0.0");
            self.mark(c.is_subnormal(), "edge at a subnormal");
            self.mark(c < 0.0, "edge subtracted");
            self.mark(step < 0.00025, "edge of 0.00025");
            self.mark(step > 0.00025, "edge of initial_step");
            self.mark(step.is_infinite() && c.is_finite(), "edge that is infinite");
            self.mark(c.is_infinite(), "edge at an infinite coordinate");
            self.mark(c.is_nan(), "edge at a NaN coordinate");
        }
        let mut simplex = vec![seed];
        for _ in &self.start.x0 {
            simplex.push(self.ask()?);
        }
        Some(simplex)
    }

    fn rounds(&mut self, simplex: &mut [Vertex]) -> Option<Termination> {
        loop {
            self.order(simplex);
            if let Some(reason) = self.tests(simplex) {
                return Some(reason);
            }
            self.iterations += 1;
            self.round(simplex)?;
        }
    }

    fn order(&mut self, simplex: &mut [Vertex]) {
        let f: Vec<f64> = simplex.iter().map(|v| v.f).collect();
        let pairs = pairs(&f);
        self.mark(pairs.iter().any(|(a, b)| a == b && a.is_finite()), "order: equal values");
        self.mark(pairs.iter().any(|(a, b)| a == b && a.is_infinite()), "order: infinite values");
        self.mark(pairs.iter().any(|(a, b)| negative_zero(*a) && positive_zero(*b)), "order: -0.0 and +0.0 as they stood");
        self.mark(pairs.iter().any(|(a, b)| positive_zero(*a) && negative_zero(*b)), "order: +0.0 and -0.0 changed about");
        simplex.sort_by(|a, b| a.f.total_cmp(&b.f));
        let first = &simplex[0];
        let apart = first.x.iter().zip(&self.best.x).any(|(a, b)| a < b || a > b);
        let equal = apart && first.f == self.best.f;
        if first.f < self.best.f {
            self.best = Vertex { x: first.x.clone(), f: first.f };
        }
        self.mark(equal, "the best stands against an equal value");
        self.mark(first.x.iter().any(|v| v.is_infinite()), "the best has an infinite coordinate");
    }

    // Size and spread, then max_iter, then max_fevals.
    fn tests(&mut self, simplex: &[Vertex]) -> Option<Termination> {
        let (first, last) = (&simplex[0], &simplex[simplex.len() - 1]);
        let size = largest(simplex[1..].iter().map(|v| largest(v.x.iter().zip(&first.x).map(|(a, b)| (a - b).abs()))));
        let floor = 4.0 * f64::EPSILON * largest(first.x.iter().map(|v| v.abs()));
        let spread = (last.f - first.f).abs();
        let resolution = 4.0 * f64::EPSILON * first.f.abs();
        let (small, level) = (size <= self.start.x_tol.max(floor), spread <= self.start.f_tol.max(resolution));
        let (no_iter, no_fevals) = (self.iterations >= self.max_iter(), self.calls as u64 >= self.max_fevals());
        self.mark(small && !level, "size met, spread not");
        self.mark(level && !small, "spread met, size not");
        self.mark(level && size == self.start.x_tol, "size equal to x_tol");
        self.mark(small && spread == self.start.f_tol && spread > 0.0, "spread equal to f_tol, above 0");
        self.mark(small && level && size > self.start.x_tol, "size met by its floor alone");
        self.mark(small && level && spread > self.start.f_tol, "spread met by its floor alone");
        let last_run = self.runs == self.start.restarts;
        let equal = last_run && self.start.f_tol == resolution;
        self.mark(small && level && equal, "last run ends with f_tol equal to the resolution");
        self.mark(small && level && no_iter, "tolerances met with max_iter used up");
        self.mark(no_iter && no_fevals && !(small && level), "max_iter and max_fevals used up at once");
        if small && level {
            return Some(if self.start.f_tol < resolution { ObjectiveResolution } else { SimplexTolerance });
        }
        if no_iter {
            return Some(MaxIterations);
        }
        no_fevals.then_some(MaxFevals)
    }

    fn default_allowance(&self) -> u64 {
        200 * self.start.x0.len() as u64 * (1 + self.start.restarts)
    }

    fn max_iter(&self) -> u64 {
        self.start.max_iter.unwrap_or(self.default_allowance())
    }

    fn max_fevals(&self) -> u64 {
        self.start.max_fevals.unwrap_or(self.default_allowance())
    }

    fn round(&mut self, simplex: &mut [Vertex]) -> Option<()> {
        let n = simplex.len() - 1;
        let (first, second, worst) = (simplex[0].f, simplex[n - 1].f, simplex[n].f);
        let others = |i: usize| simplex[..n].iter().map(move |v| v.x[i]);
        let vanished = (0..n).any(|i| positive_zero(simplex[n].x[i]) && others(i).all(negative_zero));
        self.mark(vanished, "centroid of -0.0 alone, from a worst of +0.0");
        self.mark(n == 1, "round of n 1");
        self.mark(n == 2 && self.start.adaptive, "round of n 2, adaptive");
        self.by_coefficients(n == 16, ["round of n 16, adaptive", "round of n 16, not adaptive"]);
        let reflected = self.ask()?;
        self.mark(reflected.f == first, "reflection equal to the best");
        self.mark(reflected.f == second && second > first, "reflection equal to the second worst");
        self.mark(reflected.f == worst && worst > second, "reflection equal to the worst");
        if reflected.f < first {
            self.mark(true, "reflection below the best");
            let expanded = self.ask()?;
            self.by_coefficients(n > 2, ["expansion, n above 2, adaptive", "expansion, n above 2, not adaptive"]);
            // Where both points are one, as with infinite coordinates, it does not show which was taken.
            let apart = expanded.x.iter().zip(&reflected.x).any(|(a, b)| a < b || a > b);
            self.mark(apart && expanded.f == reflected.f, "expansion left at an equal value");
            let taken = expanded.f < reflected.f;
            self.mark(true, if taken { "expansion taken" } else { "expansion left" });
            simplex[n] = if taken { expanded } else { reflected };
        } else if reflected.f < second {
            self.mark(true, "reflection taken");
            simplex[n] = reflected;
        } else if !self.contracted(simplex, reflected.f)? {
            for vertex in &mut simplex[1..] {
                *vertex = self.ask()?;
                self.mark(vertex.f < self.best.f, "shrink that tells a new least");
            }
            self.by_coefficients(n > 2, ["shrink, n above 2, adaptive", "shrink, n above 2, not adaptive"]);
        }
        Some(())
    }

    // Whether a contraction took the worst vertex's place.
    fn contracted(&mut self, simplex: &mut [Vertex], reflected: f64) -> Option<bool> {
        let n = simplex.len() - 1;
        let worst = &mut simplex[n];
        let trial = self.ask()?;
        self.by_coefficients(n > 2, ["contraction, n above 2, adaptive", "contraction, n above 2, not adaptive"]);
        let outside = reflected < worst.f;
        let taken = if outside { trial.f <= reflected } else { trial.f < worst.f };
        self.mark(outside && trial.f == reflected, "outside contraction taken at an equal value");
        self.mark(!outside && trial.f == worst.f, "shrink after an inside contraction of equal value");
        self.mark(true, match (outside, taken) {
            (true, true) => "outside contraction taken",
            (true, false) => "shrink after an outside contraction",
            (false, true) => "inside contraction taken",
            (false, false) => "shrink after an inside contraction",
        });
        if taken {
            *worst = trial;
        }
        Some(taken)
    }

    fn note_ending(&mut self, ending: &Option<Ending>) {
        let (later, restarts) = (self.runs > 0, self.start.restarts > 0);
        let by_iter = matches!(ending, Some(Ending::Reason(MaxIterations))) && self.start.max_iter.is_none();
        let by_fevals = matches!(ending, Some(Ending::Reason(MaxFevals))) && self.start.max_fevals.is_none();
        let (name, in_later_run) = match ending {
            Some(Ending::Reason(SimplexTolerance)) => ("SimplexTolerance", "SimplexTolerance within a restart"),
            Some(Ending::Reason(ObjectiveResolution)) => ("ObjectiveResolution", "ObjectiveResolution within a restart"),
            Some(Ending::Reason(MaxIterations)) => ("MaxIterations", "MaxIterations in a later run"),
            Some(Ending::Reason(_)) => ("MaxFevals", "MaxFevals in a later run"),
            Some(Ending::Refused) => ("no 20", "no 20 in a later run"),
            None => ("left unfinished", "left unfinished"),
        };
        self.mark(true, name);
        self.mark(later, in_later_run);
        self.mark(by_iter, "end by the default max_iter");
        self.mark(by_fevals, "end by the default max_fevals");
        self.mark(by_iter && restarts, "end by the default max_iter, with restarts");
        self.mark(by_fevals && restarts, "end by the default max_fevals, with restarts");
        if matches!(ending, Some(Ending::Reason(_))) {
            self.mark(self.iterations == 0, "end with no round");
            self.mark(self.calls as u64 > self.max_fevals(), "end with more fevals than max_fevals");
            self.mark(self.best.x.iter().any(|v| v.is_nan()), "end at a NaN coordinate");
        }
    }
}
