// Starts of bfgs and lbfgs fits: usual, extreme and refused options and points, and starts made so that a rare thing comes
// about.

use crate::gradients::Gradients;
use crate::objectives::{self, Failing, Objective, Shape};
use crate::points::{coordinates, point, REFUSED_COORDINATES};
use crate::random::Random;
use crate::rust::Gradient;
use crate::script::Manner;
use crate::tellers::{Kind, Scripted, Teller};

const NAN: f64 = f64::NAN;
const INF: f64 = f64::INFINITY;
const MAX: f64 = f64::MAX;
const TINY: f64 = 5e-324;

const TOLERANCES: &[f64] = &[0.0, 0.0, 0.0, -0.0, 1e-8, 1e-6, 1e-4, 1e-2, 0.5, 1.0];
const GRADIENT_TOLERANCES: &[f64] = &[1e-8, 1e-8, 1e-6, 1e-4, 1e-2, 0.0];
const EXTREME_TOLERANCES: &[f64] = &[0.0, -0.0, TINY, 1e-310, 1e-300, 1e-20, 1e-16, 1e16, 1e300, MAX];
const REFUSED_TOLERANCES: &[f64] = &[-TINY, -1e-310, -1e-8, -1.0, -MAX, NAN, -NAN, INF, -INF];
const CONSTANTS: &[(f64, f64)] = &[(1e-4, 0.9), (1e-4, 0.9), (1e-4, 0.9), (1e-4, 0.1), (0.1, 0.2), (0.4, 0.9)];
const EXTREME_CONSTANTS: &[(f64, f64)] =
    &[(TINY, 1e-323), (0.5, 0.5000000000000001), (0.9, 0.9999999999999999), (1e-300, 0.5), (1e-4, 0.9)];
const REFUSED_CONSTANTS: &[(f64, f64)] = &[
    (0.0, 0.9),
    (-0.0, 0.9),
    (-1e-4, 0.9),
    (NAN, 0.9),
    (INF, 0.9),
    (1e-4, 1.0),
    (1e-4, NAN),
    (1e-4, INF),
    (0.9, 0.9),
    (0.9, 0.1),
];
const STEPS_MAX: &[f64] = &[1e10, 1e10, 1e10, 1e10, 1.0, 0.5, 4.0];
const EXTREME_STEPS_MAX: &[f64] = &[1e10, 1.7e308, MAX, TINY, 1e-310, 1e-14, 1e-9];
const REFUSED_STEPS_MAX: &[f64] = &[0.0, -0.0, -TINY, -1.0, NAN, -NAN, INF, -INF];
const EVALS: &[u64] = &[30, 30, 30, 30, 1, 2, 3, 5, 100, 1000];
const REFUSED_EVALS: &[u64] = &[1001, 1001, 1 << 32, u64::MAX];
const REFUSED_ALLOWANCES: &[u64] = &[1_000_001, 1_000_001, 1 << 32, 1 << 63, u64::MAX];

const DESCENDING: Manner = Manner { values: [20, 1, 1, 0, 0, 0], slopes: [20, 1, 0, 1, 0, 0] };
// Most trials are taken, so that there are many rounds.
const TAKEN: Manner = Manner { values: [20, 1, 1, 0, 0, 0], slopes: [1, 1, 20, 1, 0, 1] };
const MANNERS: &[Manner] = &[
    DESCENDING,
    TAKEN,
    TAKEN,
    Manner { values: [1, 1, 1, 1, 1, 1], slopes: [1, 1, 1, 1, 1, 1] },
    Manner { values: [1, 0, 1, 10, 0, 0], slopes: [3, 3, 1, 1, 0, 0] },
    Manner { values: [1, 1, 0, 0, 5, 0], slopes: [2, 2, 1, 0, 5, 0] },
    Manner { values: [1, 2, 10, 1, 0, 0], slopes: [4, 2, 1, 6, 0, 0] },
    Manner { values: [1, 0, 0, 0, 0, 4], slopes: [1, 1, 1, 1, 1, 4] },
    Manner { values: [6, 2, 1, 3, 0, 0], slopes: [5, 5, 0, 1, 1, 0] },
    Manner { values: [10, 1, 0, 1, 0, 0], slopes: [3, 1, 0, 0, 6, 0] },
    Manner { values: [1, 0, 0, 2, 30, 0], slopes: [1, 1, 0, 0, 0, 0] },
];

// A start, what it is told, and after how many calls the fit is left where it has not ended.
pub struct Drawn {
    pub start: Gradient,
    pub teller: Teller,
    pub most: usize,
}

fn allowance(random: &mut Random, extreme: bool) -> Option<u64> {
    match random.below(8) {
        0..=4 => None,
        5 if extreme => Some(random.pick(&[0, 1, 2, 1_000_000])),
        5 => Some(random.below(12)),
        6 => Some(random.below(100)),
        _ => Some(1_000_000),
    }
}

fn memory(random: &mut Random, limited: bool) -> u64 {
    let any = 1 + random.below(16);
    if limited { random.pick(&[10, 1, 2, 3, 16, any]) } else { random.pick(&[10, 0, 17, u64::MAX, any]) }
}

// Options and a point that the engine takes.
fn taken(random: &mut Random, limited: bool) -> Gradient {
    let extreme = random.chance(30);
    let n = coordinates(random);
    let (c1, c2) = random.pick(if extreme { EXTREME_CONSTANTS } else { CONSTANTS });
    let tolerances = if extreme { EXTREME_TOLERANCES } else { TOLERANCES };
    Gradient {
        limited,
        grad_tol: random.pick(if extreme { EXTREME_TOLERANCES } else { GRADIENT_TOLERANCES }),
        f_tol: random.pick(tolerances),
        x_tol: random.pick(tolerances),
        c1,
        c2,
        step_max: random.pick(if extreme { EXTREME_STEPS_MAX } else { STEPS_MAX }),
        max_iter: allowance(random, extreme),
        max_fevals: allowance(random, extreme),
        max_evals: random.pick(EVALS),
        memory: memory(random, limited),
        gradients: random.chance(60),
        x0: point(random, n),
    }
}

// As the Rust's defaults have it.
fn usual(random: &mut Random, limited: bool) -> Gradient {
    let (memory, gradients, n) = (memory(random, limited), random.chance(60), coordinates(random));
    let x0 = point(random, n);
    let (grad_tol, f_tol, x_tol, c1, c2, step_max) = (1e-8, 0.0, 0.0, 1e-4, 0.9, 1e10);
    let (max_iter, max_fevals, max_evals) = (None, None, 30);
    Gradient { limited, grad_tol, f_tol, x_tol, c1, c2, step_max, max_iter, max_fevals, max_evals, memory, gradients, x0 }
}

fn most(random: &mut Random) -> usize {
    match random.below(40) {
        0..=27 => 20 + random.below(120) as usize,
        28..=38 => 500,
        _ => 2500,
    }
}

fn of_a_function(random: &mut Random, start: Gradient) -> Drawn {
    let f = objectives::draw(random, &start.x0);
    let exact = Gradients::Exact;
    let gradients = random.pick(&[exact, exact, exact, Gradients::Numeric, Gradients::Noise, Gradients::Bits]);
    let most = most(random);
    Drawn { start, teller: Teller::new(f, gradients, random.next(), Kind::Function), most }
}

fn smooth(random: &mut Random, start: Gradient) -> Drawn {
    let shape = random.pick(&[Shape::Sphere, Shape::Valley, Shape::Valley, Shape::Kinked]);
    let mut f = Objective::new(shape, Failing::Never, random.next());
    f.centre = start.x0.iter().map(|v| v + 4.0 * (random.unit() - 0.5)).collect();
    f.centre.push(0.5);
    f.scale = random.pick(&[1.0, 1.0, 1e-3, 1e6, 1e-150]);
    let most = random.pick(&[100, 300, 1500]);
    Drawn { start, teller: Teller::new(f, Gradients::Exact, random.next(), Kind::Function), most }
}

fn told(random: &mut Random, start: Gradient, kind: Kind, most: usize) -> Drawn {
    let f = Objective::new(Shape::Sphere, Failing::Never, 0);
    Drawn { start, teller: Teller::new(f, Gradients::Exact, random.next(), kind), most }
}

// The start is 0, with the gradient g0, so that the first direction is -g0.
fn scripted(random: &mut Random, mut start: Gradient, f0: f64, g0: Vec<f64>, first: Vec<(f64, f64)>) -> Drawn {
    start.x0 = g0.iter().map(|_| random.pick(&[0.0, 0.0, -0.0])).collect();
    let manner = random.pick(MANNERS);
    let round = if random.chance(80) { 1 } else { 2 + random.below(3) };
    let aside = random.pick(&[0.0, 0.0, 1e20, -1e20, 1e160, 5e11, 2e12, -1e12]);
    let most = most(random);
    told(random, start, Kind::Scripted(Scripted { f0, g0, manner, round, first, aside, aside_from: 1 }), most)
}

// The first round leaves a slope so small that the second does not move x; what is told aside then moves it.
fn standing_still(random: &mut Random, limited: bool) -> Drawn {
    let mut start = usual(random, limited);
    (start.gradients, start.grad_tol, start.x0) = (true, 0.0, vec![0.0; random.pick(&[2, 3])]);
    let mut g0 = vec![0.0; start.x0.len()];
    g0[0] = random.pick(&[4.0, -4.0, 8.0]);
    let first = vec![(-5.0, random.pick(&[1e-30, -1e-30]))];
    let (manner, aside) = (TAKEN, random.pick(&[1.0, -2.0]));
    told(random, start, Kind::Scripted(Scripted { f0: 0.0, g0, manner, round: 1, first, aside, aside_from: 2 }), 60)
}

// Powers of two, so that a trial's point gives its step and a slope is told exactly.
fn by_script(random: &mut Random, limited: bool) -> Drawn {
    let mut start = if random.chance(50) { usual(random, limited) } else { taken(random, limited) };
    start.gradients = random.chance(75);
    start.max_evals = random.pick(EVALS);
    if random.chance(70) {
        start.grad_tol = 0.0;
    }
    let n = random.pick(&[1, 1, 1, 1, 2, 3, 16]);
    let mut g0: Vec<f64> = (0..n).map(|_| random.pick(&[0.25, -0.5, 0.0, -0.0, TINY])).collect();
    g0[0] = random.pick(&[1.0, -1.0, 0.5, -4.0, 1e-20, 2f64.powi(-140), -(2f64.powi(-532)), 2f64.powi(-536), -(2f64.powi(20))]);
    if g0[0].abs() < 1e-150 && random.chance(50) {
        // Slopes of a few of the least f64.
        (start.c1, start.c2, start.gradients, start.max_evals) = (TINY, 1e-323, true, 30);
    }
    let f0 = random.pick(&[0.0, -0.0, 1.0, 1.0, -7.5, 1e16, 1e-310, 1e300, -MAX]);
    scripted(random, start, f0, g0, Vec::new())
}

// Each tolerance met by an equal value: the first step is 1, from 0 to 1 or to -1.
fn equal(random: &mut Random, limited: bool) -> Drawn {
    let mut start = usual(random, limited);
    let (value, slope) = random.pick(&[(0.5, -0.25), (0.5, 0.0), (-1.0, -0.25), (-2.0, -0.5)]);
    (start.grad_tol, start.f_tol, start.x_tol) = random.pick(&[(0.0, 0.5, 0.0), (0.0, 0.0, 1.0), (0.0, 1.0, 1.0), (1.0, 0.0, 0.0)]);
    if random.chance(30) {
        (start.grad_tol, start.f_tol, start.x_tol) = random.pick(&[(0.25, 0.0, 1.0), (0.0, 2.0, 0.0), (0.25, 0.0, 0.0)]);
    }
    if random.chance(20) {
        (start.max_iter, start.max_fevals) = (Some(random.below(2)), Some(random.below(3)));
    }
    let g0 = vec![random.pick(&[1.0, -1.0])];
    scripted(random, start, 1.0, g0, vec![(value, slope)])
}

// Values and slopes at the first trials by which the cubic is left for the midpoint in ways that chance seldom finds.
fn of_the_cubic(random: &mut Random, limited: bool) -> Drawn {
    let mut start = usual(random, limited);
    (start.gradients, start.max_evals) = (random.chance(80), random.pick(&[3, 5, 30]));
    let eighths = |list: &[f64]| list.iter().map(|v| -v / 8.0).collect::<Vec<_>>();
    // Their squares are 33 and 47 sixty-fourths, and the largest is a half.
    let (s, g) = random.pick(&[(33.0 / 64.0, eighths(&[4.0, 4.0, 1.0])), (47.0 / 64.0, eighths(&[4.0, 4.0, 3.0, 2.0, 1.0, 1.0]))]);
    let (c1, g0, first) = match random.below(9) {
        // A denominator of 0: the slopes are equal and the discriminant is 0.
        0 => (0.5, vec![-1.0; 3], vec![(-1.0, -3.0)]),
        // An infinite discriminant, and so an infinite denominator.
        1 => (1e-4, vec![-1.0], vec![(1.0, 1e200)]),
        // A discriminant of infinity less infinity.
        2 => (1e-4, vec![-(2f64.powi(17))], vec![(1.0, -1e300)]),
        // The least of a parabola, 5% from the smaller end or from the larger: rounding decides on which side.
        3..=4 => (1e-4, g, vec![(-s, -s), (8.0 * s, 19.0 * s)]),
        5 => (0.5, g, vec![((0.5 / 0.95 - 1.0) * s, (1.0 / 0.95 - 1.0) * s)]),
        // A discriminant of 0, where the slopes differ: the first step is a half.
        6 => (0.6, vec![-2.0; 3], vec![(-3.5, -27.0)]),
        // A discriminant below 0.
        7 => (0.7, vec![-1.0], vec![(-0.65, -1.0)]),
        // Differences of values that overflow, from a start at the least f64.
        _ => (1e-4, vec![-1.0], vec![(MAX, 1.0)]),
    };
    start.c1 = c1;
    let f0 = if first[0].0 == MAX { -MAX } else { 0.0 };
    scripted(random, start, f0, g0, first)
}

// Slopes so large that squares of them overflow.
fn steep(random: &mut Random, limited: bool) -> Drawn {
    let mut start = usual(random, limited);
    (start.gradients, start.grad_tol) = (true, 0.0);
    let g0 = vec![random.pick(&[3e153, -3e153, 2.9e153]); random.pick(&[1, 2, 15, 16])];
    scripted(random, start, 0.0, g0, Vec::new())
}

// Gradients in turn, so small that squares of them underflow, or such that the direction vanishes.
fn faint(random: &mut Random, limited: bool) -> Drawn {
    let mut start = usual(random, limited);
    (start.gradients, start.grad_tol, start.x0) = (true, 0.0, vec![random.pick(&[0.0, 0.0, 1.0])]);
    let (least, half) = (-(2f64.powi(-537)), -(2f64.powi(-538)));
    let list = match random.below(5) {
        // So many doublings that 1/sy is finite, and of the dense matrix its square too; yy is 0.
        4 => vec![vec![least; if limited { 60 } else { 570 }], vec![half, least, half, 0.0]].concat(),
        0 => vec![least, least, least, least, half, least],
        1 => vec![least, half, half, least],
        2 => vec![-1.0, 1e-150, random.pick(&[5e-151, 2e-150, 0.0])],
        _ => vec![-1.0, random.pick(&[1e-170, 1e-165]), 0.5],
    };
    (start.c1, start.c2) = random.pick(&[(0.1, 0.4), (TINY, 0.4)]);
    if list.len() > 60 {
        (start.max_evals, start.step_max) = (1000, 1.7e308);
    }
    if list[0] == -1.0 {
        start.step_max = random.pick(&[1e-200, 1e-200, 1e10]);
    }
    told(random, start, Kind::List(list), 1200)
}

// A direction that grows until it, or x, leaves the finite range. Of the dense matrix it grows to about 2^500, past which
// the update overflows; what is missing then is doubled.
fn drifting(random: &mut Random, limited: bool) -> Drawn {
    let mut start = usual(random, limited);
    (start.gradients, start.grad_tol, start.c1, start.c2) = (random.chance(95), 0.0, TINY, 0.9999999999999999);
    (start.max_evals, start.step_max) = (random.pick(&[200, 1000, 1000]), random.pick(&[1e10, 1.7e308, 1.7e308]));
    start.max_iter = random.pick(&[None, None, None, Some(9), Some(21), Some(25)]);
    let n = random.pick(&[1, 1, 1, 2, 15, 16]);
    start.x0 = vec![random.pick(&[0.0, 0.0, 1.0, -1.0]); n];
    let rate = (1 + random.below(900)) as f64 * 2f64.powi(-53);
    let far = if limited { 2f64.powi(960) } else { 2f64.powi(410) };
    let steep = random.pick(&[far, far, INF]);
    let last = random.pick(&[-0.5, -0.5, 0.0, NAN]);
    told(random, start, Kind::Drift { rate, steep, last }, 1600)
}

// A search that doubles its step hundreds of times: the cubic's width times its slope then overflows.
fn climbing(random: &mut Random, limited: bool) -> Drawn {
    let mut start = usual(random, limited);
    start.gradients = random.chance(60);
    (start.grad_tol, start.step_max, start.x0) = (0.0, 1.7e308, vec![0.0]);
    let top = if start.gradients { 2f64.powi(519) } else { 2f64.powi(random.pick(&[200, 330])) };
    start.max_evals = if start.gradients { 523 } else { 336 };
    told(random, start, Kind::Ramp { top }, 1100)
}

// What brings a refusal, by its place in 01's order; those of a search end the fit.
fn fault(random: &mut Random, g: &mut Gradient, which: u64) {
    let long = random.pick(&[17, 17, 17, 18, 300]);
    match which {
        0 => match random.below(5) {
            0 => g.x0 = point(random, long),
            1 => g.max_iter = Some(random.pick(REFUSED_ALLOWANCES)),
            2 => g.max_fevals = Some(random.pick(REFUSED_ALLOWANCES)),
            3 => g.memory = random.pick(&[17, 17, 1 << 32, u64::MAX]),
            _ => g.max_evals = random.pick(REFUSED_EVALS),
        },
        1 => g.memory = 0,
        2 => g.grad_tol = random.pick(REFUSED_TOLERANCES),
        3 => g.f_tol = random.pick(REFUSED_TOLERANCES),
        4 => g.x_tol = random.pick(REFUSED_TOLERANCES),
        5 => (g.c1, g.c2) = random.pick(REFUSED_CONSTANTS),
        6 => g.max_evals = 0,
        7 => g.step_max = random.pick(REFUSED_STEPS_MAX),
        8 => g.x0 = Vec::new(),
        _ => {
            let at = random.next() as usize % g.x0.len().max(1);
            if let Some(v) = g.x0.get_mut(at) {
                *v = random.pick(REFUSED_COORDINATES);
            }
        }
    }
}

// One to three things that are refused.
fn refused(random: &mut Random, limited: bool) -> Drawn {
    let mut start = if random.chance(50) { usual(random, limited) } else { taken(random, limited) };
    for _ in 0..1 + random.below(3) {
        let which = random.below(10);
        fault(random, &mut start, which);
    }
    let mut drawn = of_a_function(random, start);
    drawn.most = drawn.most.min(60);
    drawn
}

// What a search refuses, in fits that come to one and in fits that end before it.
fn refused_later(random: &mut Random, limited: bool) -> Drawn {
    let mut start = usual(random, limited);
    let which = random.pick(&[6, 7]);
    fault(random, &mut start, which);
    if random.chance(30) {
        fault(random, &mut start, 13 - which);
    }
    if random.chance(40) {
        start.grad_tol = random.pick(&[1e300, 0.0]);
        start.max_iter = random.pick(&[None, Some(0)]);
        start.max_fevals = random.pick(&[None, Some(0), Some(1)]);
    }
    of_a_function(random, start)
}

pub fn draw(random: &mut Random, limited: bool) -> Drawn {
    if random.below(250) == 0 {
        return climbing(random, limited);
    }
    match random.below(40) {
        0..=5 => refused(random, limited),
        6 => refused_later(random, limited),
        7..=15 => by_script(random, limited),
        16..=17 => equal(random, limited),
        18..=19 => of_the_cubic(random, limited),
        20 if random.chance(50) => standing_still(random, limited),
        20 => steep(random, limited),
        21 => faint(random, limited),
        22 => drifting(random, limited),
        23..=26 => {
            let start = usual(random, limited);
            smooth(random, start)
        }
        27..=28 => {
            let start = taken(random, limited);
            smooth(random, start)
        }
        29..=32 => {
            let start = usual(random, limited);
            of_a_function(random, start)
        }
        _ => {
            let start = taken(random, limited);
            of_a_function(random, start)
        }
    }
}
