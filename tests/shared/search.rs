// Which way a search goes, worked out anew from what it is told. The drivers assert that each point that it asks for and its
// outcome are the Rust's, bit for bit, every NaN counting as one: so the Rust is known to have gone that way.

use crate::cubic;
use crate::fields::{printed, G, V};

pub const TRIALS: &[&str] = &[
    "trial told NaN",
    "trial told +infinity",
    "trial told -infinity",
    "trial at an infinite coordinate",
    "difference told NaN or infinite",
    "Armijo met at an equal value",
    "Armijo failed just above it",
    "curvature met at an equal slope",
    "first step cut to step_max",
];

pub const DOUBLING: &[&str] = &[
    "doubling: ends by max_evals",
    "doubling: Armijo fails at the first trial",
    "doubling: Armijo fails later",
    "doubling: risen",
    "doubling: risen at an equal value",
    "doubling: curvature holds at the first trial",
    "doubling: curvature holds later",
    "doubling: slope NaN",
    "doubling: slope infinite",
    "doubling: slope not finite at the first trial",
    "doubling: slope not finite later",
    "doubling: slope not finite, by differences",
    "doubling: slope not negative at the first trial",
    "doubling: slope not negative later",
    "doubling: ends at step_max",
    "doubling: cut to step_max",
    "doubling: goes on",
];

pub const ZOOM: &[&str] = &[
    "zoom: ends by max_evals",
    "zoom: ends by max_evals before a trial",
    "zoom: ends by width",
    "zoom: ends by width before a trial",
    "zoom: ends by a width equal to its bound",
    "zoom: ends by width, both ends above 1",
    "zoom: ends by a width above 1e-14",
    "zoom: ends by curvature",
    "zoom: Armijo fails",
    "zoom: not below lo",
    "zoom: not below lo at an equal value",
    "zoom: slope NaN",
    "zoom: slope infinite",
    "zoom: slope not finite, by differences",
    "zoom: hi becomes lo",
    "zoom: hi becomes lo, a product underflowing",
    "zoom: hi stays",
];

pub const ENDS: &[&str] = &[
    "success",
    "failure: with a better trial",
    "failure: with a better trial that was not the last",
    "failure: with the first of equal trials",
    "failure: with a better trial of NaN slope",
    "failure: with no finite trial",
    "failure: with trials not below f0",
    "failure: with a trial equal to f0",
];

// What no search of a fit reaches. Its start slope is finite, and so are its direction and its point; it starts at 1 at most,
// and 1,000 trials do not double that beyond half the largest f64, so that every step is finite.
pub const BARE: &[&str] = &[
    "trial at a NaN coordinate",
    "trial at an infinite step",
    "start slope NaN",
    "start slope -infinity",
    "zoom: ends by width, hi infinite",
    "failure: with a better trial at an infinite step",
];

// The start of a search. In fits every value that is not finite is read as +infinity; else those of trials alone.
#[derive(Clone, Default)]
pub struct Search {
    pub gradients: bool,
    pub in_a_fit: bool,
    pub max_evals: u64,
    pub c1: f64,
    pub c2: f64,
    pub step_max: f64,
    pub initial_step: f64,
    pub f0: f64,
    pub x0: Vec<f64>,
    pub d: Vec<f64>,
    pub g: Vec<f64>,
}

pub trait Source {
    // What a question is told, or nothing where the job is left at it.
    fn ask(&mut self, kind: char, x: &[f64]) -> Option<Vec<f64>>;
}

#[derive(Clone)]
pub struct Trial {
    pub step: f64,
    pub value: f64,
    pub slope: f64,
    pub x: Vec<f64>,
    pub g: Vec<f64>,
}

struct Shadow<'a> {
    start: &'a Search,
    source: &'a mut dyn Source,
    slope0: f64,
    calls: usize,
    trials: u64,
    // The step of the last trial.
    last: f64,
    best: Option<Trial>,
    // Whether a later trial had the best one's value.
    equalled: bool,
    // Each mark with the calls that were told before it.
    marks: Vec<(usize, &'static str)>,
}

pub struct Found {
    pub success: bool,
    pub end: Trial,
}

// A search as far as it went: its outcome, the calls that were told and its trials, and what it reached, each with the number
// of calls that it takes to reach it.
pub struct Followed {
    pub found: Option<Found>,
    pub calls: usize,
    pub trials: u64,
    pub marks: Vec<(usize, &'static str)>,
}

pub fn same(a: &[f64], b: &[f64]) -> bool {
    printed(a) == printed(b)
}

pub fn dot(a: &[f64], b: &[f64]) -> f64 {
    let mut sum = -0.0;
    for (x, y) in a.iter().zip(b) {
        sum += x * y;
    }
    sum
}

pub fn follow(start: &Search, source: &mut dyn Source) -> Followed {
    let slope0 = dot(&start.g, &start.d);
    let (calls, trials, last, marks) = (0, 0, 0.0, Vec::new());
    let mut shadow = Shadow { start, source, slope0, calls, trials, last, best: None, equalled: false, marks };
    let found = shadow.search();
    Followed { found, calls: shadow.calls, trials: shadow.trials, marks: shadow.marks }
}

// The gradient by differences, and whether one of them was told NaN or an infinity.
pub fn differences(source: &mut dyn Source, in_a_fit: bool, x: &[f64]) -> Option<(Vec<f64>, bool)> {
    let c = f64::from_bits(0x3ED9_65FE_A53D_6E3D);
    let (mut g, mut at, mut broken) = (Vec::new(), x.to_vec(), false);
    let mut read = |at: &[f64]| {
        let told = source.ask(V, at)?[0];
        broken |= !told.is_finite();
        Some(if in_a_fit && !told.is_finite() { f64::INFINITY } else { told })
    };
    for (i, &v) in x.iter().enumerate() {
        let h = c * if v.abs() > 1.0 { v.abs() } else { 1.0 };
        let (ahead, behind) = (v + h, v - h);
        at[i] = ahead;
        let f_ahead = read(&at)?;
        at[i] = behind;
        let f_behind = read(&at)?;
        at[i] = v;
        g.push((f_ahead - f_behind) / (ahead - behind));
    }
    Some((g, broken))
}

impl Shadow<'_> {
    fn mark(&mut self, met: bool, name: &'static str) {
        if met {
            self.marks.push((self.calls, name));
        }
    }

    fn ask(&mut self, kind: char, x: &[f64]) -> Option<Vec<f64>> {
        let told = self.source.ask(kind, x)?;
        self.calls += 1;
        Some(told)
    }

    fn origin(&self) -> Trial {
        let (x, g) = (self.start.x0.clone(), self.start.g.clone());
        Trial { step: 0.0, value: self.start.f0, slope: self.slope0, x, g }
    }

    fn differences(&mut self, x: &[f64]) -> Option<Vec<f64>> {
        let (g, broken) = differences(self.source, self.start.in_a_fit, x)?;
        self.calls += 2 * x.len();
        self.mark(broken, "difference told NaN or infinite");
        Some(g)
    }

    fn trial(&mut self, step: f64) -> Option<Trial> {
        (self.trials, self.last) = (self.trials + 1, step);
        let x: Vec<f64> = self.start.x0.iter().zip(&self.start.d).map(|(v, d)| v + step * d).collect();
        let told = self.ask(V, &x)?[0];
        self.mark(told.is_nan(), "trial told NaN");
        self.mark(told == f64::INFINITY, "trial told +infinity");
        self.mark(told == f64::NEG_INFINITY, "trial told -infinity");
        self.mark(x.iter().any(|v| v.is_infinite()), "trial at an infinite coordinate");
        self.mark(x.iter().any(|v| v.is_nan()), "trial at a NaN coordinate");
        self.mark(step.is_infinite(), "trial at an infinite step");
        if !told.is_finite() {
            let g = vec![f64::NAN; x.len()];
            return Some(Trial { step, value: f64::INFINITY, slope: f64::NAN, x, g });
        }
        let g = if self.start.gradients { self.ask(G, &x)? } else { self.differences(&x)? };
        let trial = Trial { step, value: told, slope: dot(&g, &self.start.d), x, g };
        match &self.best {
            Some(best) if !(told < best.value) => self.equalled |= told == best.value,
            _ => (self.best, self.equalled) = (Some(trial.clone()), false),
        }
        Some(trial)
    }

    fn armijo(&mut self, t: &Trial) -> bool {
        let bound = self.start.f0 + self.start.c1 * t.step * self.slope0;
        self.mark(t.value == bound, "Armijo met at an equal value");
        self.mark(t.value == bound.next_up(), "Armijo failed just above it");
        t.value <= bound
    }

    fn curvature(&mut self, t: &Trial) -> bool {
        let bound = -self.start.c2 * self.slope0;
        self.mark(t.slope.abs() == bound && t.slope.is_finite(), "curvature met at an equal slope");
        t.slope.is_finite() && t.slope.abs() <= bound
    }

    fn note_slope(&mut self, slope: f64, names: [&'static str; 3]) {
        self.mark(slope.is_nan(), names[0]);
        self.mark(slope.is_infinite(), names[1]);
        self.mark(!self.start.gradients, names[2]);
    }

    // One thing by whether it happens at the first trial.
    fn by_place(&mut self, names: [&'static str; 2]) {
        self.mark(true, if self.trials == 1 { names[0] } else { names[1] });
    }

    fn first_step(&mut self) -> f64 {
        let (most, step) = (self.start.step_max, self.start.initial_step);
        self.mark(self.slope0.is_nan(), "start slope NaN");
        self.mark(self.slope0.is_infinite(), "start slope -infinity");
        self.mark(most < step, "first step cut to step_max");
        if most < step { most } else { step }
    }

    fn doubled(&mut self, step: f64) -> f64 {
        let (most, twice) = (self.start.step_max, 2.0 * step);
        self.mark(true, "doubling: goes on");
        self.mark(most < twice, "doubling: cut to step_max");
        if most < twice { most } else { twice }
    }

    // Algorithm 3.5.
    fn search(&mut self) -> Option<Found> {
        let mut before = self.origin();
        let mut step = self.first_step();
        while self.trials < self.start.max_evals {
            let t = self.trial(step)?;
            if !self.armijo(&t) {
                self.by_place(["doubling: Armijo fails at the first trial", "doubling: Armijo fails later"]);
                return self.zoom(before, t);
            }
            if self.trials > 1 && t.value >= before.value {
                self.mark(true, "doubling: risen");
                self.mark(t.value == before.value, "doubling: risen at an equal value");
                return self.zoom(before, t);
            }
            if self.curvature(&t) {
                self.by_place(["doubling: curvature holds at the first trial", "doubling: curvature holds later"]);
                return self.success(t);
            }
            if !t.slope.is_finite() {
                self.by_place(["doubling: slope not finite at the first trial", "doubling: slope not finite later"]);
                self.note_slope(t.slope, ["doubling: slope NaN", "doubling: slope infinite", "doubling: slope not finite, by differences"]);
                return self.zoom(t, before);
            }
            if t.slope >= 0.0 {
                self.by_place(["doubling: slope not negative at the first trial", "doubling: slope not negative later"]);
                return self.zoom(t, before);
            }
            if step >= self.start.step_max {
                self.mark(true, "doubling: ends at step_max");
                return self.failure();
            }
            step = self.doubled(step);
            before = t;
        }
        self.mark(true, "doubling: ends by max_evals");
        self.failure()
    }

    // Algorithm 3.6.
    fn zoom(&mut self, mut lo: Trial, mut hi: Trial) -> Option<Found> {
        let before = self.trials;
        while self.trials < self.start.max_evals {
            if self.narrow(&lo, &hi) {
                self.mark(self.trials == before, "zoom: ends by width before a trial");
                return self.failure();
            }
            let (step, way) = cubic::trial(&lo, &hi);
            self.mark(true, way);
            let t = self.trial(step)?;
            if !self.armijo(&t) {
                self.mark(true, "zoom: Armijo fails");
                hi = t;
            } else if t.value >= lo.value {
                self.mark(true, "zoom: not below lo");
                self.mark(t.value == lo.value, "zoom: not below lo at an equal value");
                hi = t;
            } else if self.curvature(&t) {
                self.mark(true, "zoom: ends by curvature");
                return self.success(t);
            } else if !t.slope.is_finite() {
                self.note_slope(t.slope, ["zoom: slope NaN", "zoom: slope infinite", "zoom: slope not finite, by differences"]);
                hi = t;
            } else {
                let turned = t.slope * (hi.step - lo.step) >= 0.0;
                self.mark(true, if turned { "zoom: hi becomes lo" } else { "zoom: hi stays" });
                self.mark(turned && (t.slope < 0.0) == (lo.step < hi.step), "zoom: hi becomes lo, a product underflowing");
                if turned {
                    hi = lo;
                }
                lo = t;
            }
        }
        self.mark(true, "zoom: ends by max_evals");
        self.mark(self.trials == before, "zoom: ends by max_evals before a trial");
        self.failure()
    }

    fn narrow(&mut self, lo: &Trial, hi: &Trial) -> bool {
        let largest = [lo.step.abs(), hi.step.abs(), 1.0].into_iter().fold(0.0, f64::max);
        let width = (hi.step - lo.step).abs();
        let met = width <= 1e-14 * largest;
        self.mark(met, "zoom: ends by width");
        self.mark(width == 1e-14 * largest && width.is_finite(), "zoom: ends by a width equal to its bound");
        self.mark(met && lo.step > 1.0 && hi.step > 1.0, "zoom: ends by width, both ends above 1");
        self.mark(met && width > 1e-14 && width.is_finite(), "zoom: ends by a width above 1e-14");
        self.mark(met && hi.step.is_infinite(), "zoom: ends by width, hi infinite");
        met
    }

    fn success(&mut self, end: Trial) -> Option<Found> {
        self.mark(true, "success");
        Some(Found { success: true, end })
    }

    // The best trial below f0, or the start.
    fn failure(&mut self) -> Option<Found> {
        let f0 = self.start.f0;
        match self.best.take() {
            Some(best) if best.value < f0 => {
                self.mark(true, "failure: with a better trial");
                self.mark(best.step != self.last, "failure: with a better trial that was not the last");
                self.mark(self.equalled, "failure: with the first of equal trials");
                self.mark(best.slope.is_nan(), "failure: with a better trial of NaN slope");
                self.mark(best.step.is_infinite(), "failure: with a better trial at an infinite step");
                Some(Found { success: false, end: best })
            }
            best => {
                self.mark(best.is_none(), "failure: with no finite trial");
                self.mark(best.is_some(), "failure: with trials not below f0");
                self.mark(best.is_some_and(|best| best.value == f0), "failure: with a trial equal to f0");
                Some(Found { success: false, end: self.origin() })
            }
        }
    }
}
