// Starts of simplex fits: usual, extreme and refused options and points, and starts made so that a rare thing comes about.

use crate::objectives::{self, Failing, Objective, Shape, TIED, ZEROS, ZEROS_AND_MORE};
use crate::points::{coordinates, point, REFUSED_COORDINATES};
use crate::random::Random;
use crate::rust::Simplex;

const NAN: f64 = f64::NAN;
const INF: f64 = f64::INFINITY;
const MAX: f64 = f64::MAX;
const TINY: f64 = 5e-324;

const USUAL_TOLERANCES: &[f64] = &[1e-8, 1e-8, 1e-6, 1e-4, 1e-2, 0.5, 0.0];
const EXTREME_TOLERANCES: &[f64] = &[0.0, -0.0, TINY, 1e-310, 1e-300, 1e-20, 1e-16, 1e16, 1e300, MAX];
const REFUSED_TOLERANCES: &[f64] = &[-TINY, -1e-310, -1e-8, -1.0, -MAX, NAN, -NAN, INF, -INF];
const USUAL_STEPS: &[f64] = &[0.05, 0.05, 0.01, 0.1, 0.5, 1.0, 2.0];
const EXTREME_STEPS: &[f64] = &[TINY, 1e-310, 1e-300, 1e-20, 1e16, 1e300, MAX];
const REFUSED_STEPS: &[f64] = &[0.0, -0.0, -TINY, -0.05, -MAX, NAN, -NAN, INF, -INF];
const REFUSED_ALLOWANCES: &[u64] = &[1_000_001, 1_000_001, 1 << 32, 1 << 63, u64::MAX];
const REFUSED_RESTARTS: &[u64] = &[101, 101, 1 << 32, u64::MAX];

// A start, its objective, and after how many calls the fit is left where it has not ended.
pub struct Drawn {
    pub start: Simplex,
    pub objective: Objective,
    pub most: usize,
}

fn allowance(random: &mut Random, extreme: bool) -> Option<u64> {
    match random.below(8) {
        0..=3 => None,
        4 if extreme => Some(random.pick(&[0, 1, 2, 1_000_000])),
        4..=5 => Some(random.below(40)),
        6 => Some(random.below(300)),
        _ => Some(1_000_000),
    }
}

// Options and a point that the engine takes.
fn taken(random: &mut Random) -> Simplex {
    let extreme = random.chance(35);
    let n = coordinates(random);
    let (tolerances, steps) = if extreme { (EXTREME_TOLERANCES, EXTREME_STEPS) } else { (USUAL_TOLERANCES, USUAL_STEPS) };
    Simplex {
        x_tol: random.pick(tolerances),
        f_tol: random.pick(tolerances),
        initial_step: random.pick(steps),
        max_iter: allowance(random, extreme),
        max_fevals: allowance(random, extreme),
        restarts: random.pick(&[0, 0, 0, 1, 2, 3, 100]),
        adaptive: random.chance(60),
        x0: point(random, n),
    }
}

// One to three things that are refused.
fn refused(random: &mut Random) -> Simplex {
    let mut start = taken(random);
    for _ in 0..1 + random.below(3) {
        match random.below(16) {
            0..=1 => start.x_tol = random.pick(REFUSED_TOLERANCES),
            2..=3 => start.f_tol = random.pick(REFUSED_TOLERANCES),
            4..=6 => start.initial_step = random.pick(REFUSED_STEPS),
            7..=8 => start.x0 = Vec::new(),
            9 => {
                let n = random.pick(&[17, 17, 17, 17, 18, 300]);
                start.x0 = point(random, n);
            }
            10 => start.max_iter = Some(random.pick(REFUSED_ALLOWANCES)),
            11 => start.max_fevals = Some(random.pick(REFUSED_ALLOWANCES)),
            12 => start.restarts = random.pick(REFUSED_RESTARTS),
            _ => {
                let at = random.next() as usize % start.x0.len().max(1);
                if let Some(v) = start.x0.get_mut(at) {
                    *v = random.pick(REFUSED_COORDINATES);
                }
            }
        }
    }
    start
}

fn most(random: &mut Random) -> usize {
    match random.below(20) {
        0..=11 => 20 + random.below(120) as usize,
        12..=18 => 700,
        _ => 4000,
    }
}

// A large additive constant under a fine f_tol, with restarts: the objective's resolution ends runs.
fn coarse(random: &mut Random) -> Drawn {
    let mut start = taken(random);
    start.f_tol = random.pick(&[0.0, 1e-8, 1e-300]);
    start.x_tol = random.pick(&[1e-4, 1e-2, 1.0, 1e300]);
    start.restarts = random.below(4);
    start.max_iter = None;
    start.max_fevals = random.pick(&[None, None, Some(60)]);
    let mut objective = Objective::new(random.pick(&[Shape::Sphere, Shape::Kinked, Shape::Constant]), Failing::Never, 0);
    objective.offset = random.pick(&[1e15, -1e15, 1e17, -1e300]);
    if random.chance(20) {
        objective.failing = Failing::AtRestart;
    }
    Drawn { start, objective, most: 700 }
}

// Tolerances so wide that a run ends with its build, and restarts, after which nothing is finite any more.
fn failing_later(random: &mut Random) -> Drawn {
    let mut start = taken(random);
    (start.x_tol, start.f_tol, start.restarts) = (1e300, 1e300, 1 + random.below(3));
    let mut objective = objectives::draw(random, &start.x0);
    objective.failing = Failing::AtRestart;
    Drawn { start, objective, most: 200 }
}

// As many runs as are allowed.
fn many_runs(random: &mut Random) -> Drawn {
    let mut start = taken(random);
    (start.x_tol, start.f_tol, start.restarts) = (1e300, random.pick(&[0.0, 1.0, 1.0, 2.0, 1e300]), random.pick(&[5, 100]));
    if random.chance(30) {
        start.max_iter = Some(0);
    }
    let n = 1 + random.below(2) as usize;
    start.x0 = point(random, n);
    let by_call = [Shape::FewByCall(TIED), Shape::FewByCall(TIED), Shape::NoiseByCall, Shape::FewByCall(ZEROS)];
    let shape = if random.chance(60) { random.pick(&by_call) } else { random.pick(&[Shape::Sphere, Shape::Constant]) };
    Drawn { start, objective: Objective::new(shape, Failing::Never, random.next()), most: 700 }
}

// Values of both zeros.
fn zeros(random: &mut Random) -> Drawn {
    let mut start = taken(random);
    start.f_tol = random.pick(&[0.0, 1e-8, 1e300]);
    start.x_tol = random.pick(&[0.0, 1e-8, 1e-2, 1e300]);
    let list = random.pick(&[ZEROS, ZEROS_AND_MORE]);
    let shape = random.pick(&[Shape::Few(list), Shape::FewByCall(list)]);
    Drawn { start, objective: Objective::new(shape, Failing::Never, random.next()), most: 150 }
}

// Edges and moves that leave the finite range, with values that are finite all the same.
fn infinite(random: &mut Random) -> Drawn {
    let mut start = taken(random);
    start.initial_step = random.pick(&[1.0, 2.0, 1e16, 1e300]);
    if random.chance(50) {
        // The size test passes over NaN, so that a run ends there and the next is built about it.
        (start.f_tol, start.restarts) = (random.pick(&[0.0, 1e300, 1e300]), 1 + random.below(2));
        (start.max_iter, start.max_fevals) = (None, None);
    }
    for v in start.x0.iter_mut() {
        *v = random.pick(&[1e300, -1e300, MAX, -MAX, 1.0]);
    }
    let shape = random.pick(&[Shape::Few(TIED), Shape::Noise, Shape::NoiseByCall, Shape::Constant, Shape::LeastAtNan]);
    Drawn { start, objective: Objective::new(shape, Failing::Never, random.next()), most: 100 }
}

// A fit that never settles, so that an allowance ends it, the default one too.
fn endless(random: &mut Random) -> Drawn {
    let mut start = taken(random);
    (start.x_tol, start.f_tol, start.restarts) = (random.pick(&[1e-8, 0.0, 1.0]), 1e-8, random.pick(&[0, 1, 1, 2]));
    start.max_iter = random.pick(&[None, None, Some(0), Some(7), Some(60)]);
    start.max_fevals = random.pick(&[None, Some(1_000_000), Some(1_000_000), Some(2), Some(80)]);
    if random.chance(15) {
        (start.max_iter, start.max_fevals) = (Some(0), Some(2));
    }
    let n = random.pick(&[1, 1, 2]);
    start.x0 = point(random, n);
    let shape = random.pick(&[Shape::NoiseByCall, Shape::NoiseByCall, Shape::FewByCall(TIED)]);
    Drawn { start, objective: Objective::new(shape, Failing::Never, random.next()), most: 3000 }
}

// The one way to a centroid of zeros whose sign shows: two thousand answers, so it is drawn seldom.
fn vanishing(random: &mut Random) -> Drawn {
    let mut start = taken(random);
    (start.x_tol, start.f_tol, start.restarts, start.x0) = (0.0, 0.0, 0, vec![-0.0]);
    (start.max_iter, start.max_fevals) = (Some(1_000_000), Some(2_140));
    Drawn { start, objective: Objective::new(Shape::Vanishing, Failing::Never, 0), most: 3000 }
}

pub fn draw(random: &mut Random) -> Drawn {
    if random.below(300) == 0 {
        return vanishing(random);
    }
    match random.below(40) {
        0..=2 => coarse(random),
        3..=4 => failing_later(random),
        5..=6 => many_runs(random),
        7..=8 => zeros(random),
        9..=10 => infinite(random),
        11..=12 => endless(random),
        13..=18 => {
            let start = refused(random);
            let objective = objectives::draw(random, &start.x0);
            Drawn { start, objective, most: 40 }
        }
        _ => {
            let start = taken(random);
            let objective = objectives::draw(random, &start.x0);
            Drawn { start, objective, most: most(random) }
        }
    }
}
