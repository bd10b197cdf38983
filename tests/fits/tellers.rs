// What the objective of a fit is told: values of a function and its gradient, a script that follows the tests of each search,
// or values and gradients by the call, made so that a rare thing comes about.

use crate::fields::{G, V};
use crate::gradients::{self, Gradients};
use crate::objectives::Objective;
use crate::random::Random;
use crate::script::{Manner, Script};
use crate::search::Search;

pub enum Kind {
    Function,
    Scripted(Scripted),
    // Values that fall with each call, and gradients in turn, the last of them again and again, in every coordinate.
    List(Vec<f64>),
    // Values that fall with each call, and slopes that level off by so little that the direction grows with each round. From
    // `steep` on the slope is steeper, so that the step is doubled until x leaves the finite range; there the slope is `last`.
    Drift { rate: f64, steep: f64, last: f64 },
    // Falls with slope -1 up to `top`, where it stands above all and is steep.
    Ramp { top: f64 },
}

pub struct Scripted {
    pub f0: f64,
    pub g0: Vec<f64>,
    pub manner: Manner,
    // In which round the search's first trials are told `first`, values and slopes.
    pub round: u64,
    pub first: Vec<(f64, f64)>,
    // The gradient's coordinates in which the search does not move, from a round on; before it they are 0.
    pub aside: f64,
    pub aside_from: u64,
}

pub struct Teller {
    f: Objective,
    gradients: Gradients,
    random: Random,
    kind: Kind,
    // Of the search in hand, with its direction and its round.
    script: Option<(Script, Vec<f64>, u64)>,
    values: u64,
    slopes: usize,
}

impl Teller {
    pub fn new(f: Objective, gradients: Gradients, seed: u64, kind: Kind) -> Self {
        Teller { f, gradients, random: Random::new(seed), kind, script: None, values: 0, slopes: 0 }
    }

    pub fn objective(&mut self) -> &mut Objective {
        &mut self.f
    }

    // A search begins.
    pub fn begin(&mut self, search: &Search, round: u64) {
        if let Kind::Scripted(plan) = &self.kind {
            let first = if plan.round == round { plan.first.clone() } else { Vec::new() };
            let script = Script::new(search, plan.manner, Random::new(self.random.next()), first);
            self.script = Some((script, search.d.clone(), round));
        }
    }

    pub fn tell(&mut self, kind: char, x: &[f64]) -> Vec<f64> {
        if kind == V {
            self.values += 1;
            return vec![self.value(x)];
        }
        assert_eq!(kind, G);
        self.slopes += 1;
        self.gradient(x)
    }

    fn value(&mut self, x: &[f64]) -> f64 {
        match (&self.kind, &mut self.script) {
            (Kind::Scripted(_), Some((script, ..))) => script.value(x),
            (Kind::Scripted(plan), None) => {
                // Before the first search: the start, which is 0, or its differences.
                let moved = x.iter().zip(&plan.g0).filter(|(v, _)| **v != 0.0);
                moved.fold(plan.f0, |f, (v, g)| f + g * v)
            }
            (Kind::List(_) | Kind::Drift { .. }, _) => -(self.values as f64),
            (Kind::Ramp { top }, _) => if x[0] < *top { -x[0] } else { 1.0 },
            (Kind::Function, _) => self.f.value(x),
        }
    }

    fn gradient(&mut self, x: &[f64]) -> Vec<f64> {
        match (&self.kind, &self.script) {
            (Kind::Scripted(plan), Some((script, d, round))) => {
                let aside = if *round < plan.aside_from { 0.0 } else { plan.aside };
                script.gradient().iter().zip(d).map(|(g, d)| if *d == 0.0 { aside } else { *g }).collect()
            }
            (Kind::Scripted(plan), None) => plan.g0.clone(),
            (Kind::List(list), _) => {
                let at = (self.slopes - 1).min(list.len() - 1);
                vec![list[at]; x.len()]
            }
            (Kind::Drift { rate, steep, last }, _) => {
                let level = -(1.0 - self.slopes as f64 * rate);
                let slope = |v: &f64| if v.is_infinite() { *last } else if *v >= *steep { -1.5 } else { level };
                x.iter().map(slope).collect()
            }
            (Kind::Ramp { top }, _) => vec![if x[0] < *top { -1.0 } else { 1e153 }; x.len()],
            (Kind::Function, _) => gradients::told(self.gradients, &self.f, &mut self.random, x),
        }
    }
}
