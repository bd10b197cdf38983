// What the objective of a job is told: values of a function and its gradient, or those of a script.

use crate::gradients::{self, Gradients};
use crate::objectives::Objective;
use crate::random::Random;
use crate::script::Script;

pub enum Teller {
    Function(Objective, Gradients, Random),
    Script(Script),
}

impl Teller {
    pub fn value(&mut self, x: &[f64]) -> f64 {
        match self {
            Teller::Function(f, _, _) => f.value(x),
            Teller::Script(script) => script.value(x),
        }
    }

    pub fn gradient(&mut self, x: &[f64]) -> Vec<f64> {
        match self {
            Teller::Function(f, gradients, random) => gradients::told(*gradients, f, random, x),
            Teller::Script(script) => script.gradient(),
        }
    }
}
