// A script of values and slopes that follows a search's own tests, so that each of them comes out both ways and by a tie.

use crate::random::Random;
use crate::search::{dot, Search};

// How often a script tells each kind of value and of slope, in turn as `valued` and `sloped` have them.
#[derive(Clone, Copy)]
pub struct Manner {
    pub values: [u64; 6],
    pub slopes: [u64; 6],
}

pub struct Script {
    start: Search,
    manner: Manner,
    random: Random,
    // What the first trials are told: value and slope.
    first: Vec<(f64, f64)>,
    // The values told to trials so far.
    told: Vec<f64>,
    // The trial in hand: its point, value and gradient, and how many difference values are still to come.
    at: Vec<f64>,
    value: f64,
    gradient: Vec<f64>,
    probes: usize,
}

fn slope0(start: &Search) -> f64 {
    dot(&start.g, &start.d)
}

fn weighed(random: &mut Random, weights: &[u64; 6]) -> usize {
    let mut left = random.below(weights.iter().sum());
    let passed = |weight: &&u64| {
        let over = left >= **weight;
        left = left.saturating_sub(**weight);
        over
    };
    weights.iter().take_while(passed).count()
}

impl Script {
    pub fn new(start: &Search, manner: Manner, random: Random, mut first: Vec<(f64, f64)>) -> Self {
        first.reverse();
        let start = start.clone();
        Script { start, manner, random, first, told: Vec::new(), at: Vec::new(), value: 0.0, gradient: Vec::new(), probes: 0 }
    }

    // The coordinate along which the direction is largest.
    fn along(&self) -> usize {
        let d = &self.start.d;
        (0..d.len()).max_by(|&i, &j| d[i].abs().total_cmp(&d[j].abs())).unwrap_or(0)
    }

    // A value near the search's own tests.
    fn valued(&mut self, step: f64) -> f64 {
        let (f0, random) = (self.start.f0, &mut self.random);
        let fall = self.start.c1 * step * slope0(&self.start);
        let bound = f0 + fall;
        let size = if fall.is_finite() { fall.abs() / self.start.c1 } else { 1.0 };
        let before = self.told.last().copied().unwrap_or(f0);
        let least = self.told.iter().copied().filter(|v| v.is_finite()).fold(bound.min(f0), f64::min);
        let unit = random.unit();
        match weighed(random, &self.manner.values) {
            0 => least - size * unit,
            1 => least + (bound - least) * unit,
            2 => random.pick(&[bound, bound, bound.next_up(), bound.next_down(), before, before, before.next_down(), f0, f0.next_down()]),
            3 => f0 + size * random.pick(&[unit, 1e-3, 1.0, 100.0]),
            4 => random.pick(&[f64::NAN, -f64::NAN, f64::INFINITY, f64::NEG_INFINITY]),
            _ => f64::from_bits(random.next()),
        }
    }

    // A slope near the search's own tests.
    fn sloped(&mut self) -> f64 {
        let (slope, c2, random) = (slope0(&self.start), self.start.c2, &mut self.random);
        let (flat, unit, any) = (c2 * slope, random.unit(), f64::from_bits(random.next()));
        match weighed(random, &self.manner.slopes) {
            0 => slope * (c2 + 3.0 * unit),
            1 => -slope * (c2 + 3.0 * unit),
            2 => flat * (2.0 * unit - 1.0),
            3 => random.pick(&[flat, -flat, flat.next_up(), flat.next_down(), -flat.next_down(), 0.0, -0.0, slope]),
            4 => random.pick(&[f64::NAN, f64::INFINITY, f64::NEG_INFINITY]),
            _ => random.pick(&[any, slope * 1e200, -slope * 1e200, slope * 1e-200, -slope * 1e-200]),
        }
    }

    // The gradient at the trial in hand.
    pub fn gradient(&self) -> Vec<f64> {
        self.gradient.clone()
    }

    pub fn value(&mut self, x: &[f64]) -> f64 {
        if self.probes > 0 {
            self.probes -= 1;
            let moved = x.iter().zip(&self.at).zip(&self.gradient).filter(|((a, b), _)| a != b);
            return moved.fold(self.value, |v, ((a, b), g)| v + g * (a - b));
        }
        let i = self.along();
        let d = self.start.d[i];
        let step = (x[i] - self.start.x0[i]) / d;
        let (value, slope) = self.first.pop().unwrap_or_else(|| (self.valued(step), self.sloped()));
        (self.at, self.value) = (x.to_vec(), value);
        self.gradient = (0..x.len()).map(|j| if i == j { slope / d } else { 0.0 }).collect();
        self.told.push(value);
        if value.is_finite() && !self.start.gradients {
            self.probes = 2 * x.len();
        }
        value
    }
}
