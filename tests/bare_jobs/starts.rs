// Starts of searches and of differences: usual, extreme and refused, and such that a rare thing comes about.

use crate::gradients::{numeric, Gradients};
use crate::objectives;
use crate::points::{coordinates, point, REFUSED_COORDINATES};
use crate::random::Random;
use crate::rust::Start;
use crate::script::{Manner, Script};
use crate::search::Search;
use crate::tellers::Teller;

const NAN: f64 = f64::NAN;
const INF: f64 = f64::INFINITY;
const MAX: f64 = f64::MAX;
const TINY: f64 = 5e-324;

const CONSTANTS: &[(f64, f64)] = &[
    (1e-4, 0.9),
    (1e-4, 0.9),
    (1e-4, 0.1),
    (0.1, 0.2),
    (0.4, 0.9),
    (TINY, 1e-323),
    (0.5, 0.5000000000000001),
    (0.9, 0.9999999999999999),
    (1e-300, 0.5),
];
const STEPS_MAX: &[f64] = &[1e10, 1e10, 1e10, 1.0, 0.5, 4.0, 1.7e308, MAX, TINY, 1e-310];
const STEPS: &[f64] = &[1.0, 1.0, 1.0, 0.1, 10.0, 1e-3, 1e-9, 1e-14, TINY, 1e16, 1e300, MAX];
const EVALS: &[u64] = &[30, 30, 30, 1, 2, 3, 5, 100, 1000];
const REFUSED_C1: &[f64] = &[0.0, -0.0, 1.0, NAN, INF, -INF, -1e-4, MAX];
const REFUSED_STEPS: &[f64] = &[0.0, -0.0, -TINY, -1.0, NAN, -NAN, INF, -INF];
const REFUSED_EVALS: &[u64] = &[1001, 1001, 1 << 32, u64::MAX];

// A start, what it is told, and after how many calls the job is left where it has not ended.
pub struct Drawn {
    pub start: Start,
    pub teller: Teller,
    pub most: usize,
}

const DESCENDING: Manner = Manner { values: [20, 1, 1, 0, 0, 0], slopes: [20, 1, 0, 1, 0, 0] };
const MANNERS: &[Manner] = &[
    DESCENDING,
    Manner { values: [1, 1, 1, 1, 1, 1], slopes: [1, 1, 1, 1, 1, 1] },
    Manner { values: [1, 0, 1, 10, 0, 0], slopes: [3, 3, 1, 1, 0, 0] },
    Manner { values: [1, 1, 0, 0, 5, 0], slopes: [2, 2, 1, 0, 5, 0] },
    Manner { values: [1, 2, 10, 1, 0, 0], slopes: [4, 2, 1, 6, 0, 0] },
    Manner { values: [1, 0, 0, 0, 0, 4], slopes: [1, 1, 1, 1, 1, 4] },
    Manner { values: [6, 2, 1, 3, 0, 0], slopes: [5, 5, 0, 1, 1, 0] },
    Manner { values: [10, 1, 0, 1, 0, 0], slopes: [3, 1, 0, 0, 6, 0] },
    Manner { values: [1, 0, 0, 2, 30, 0], slopes: [1, 1, 0, 0, 0, 0] },
];

fn options(random: &mut Random) -> Search {
    let (c1, c2) = random.pick(CONSTANTS);
    let mut start = Search { c1, c2, gradients: random.chance(65), ..Search::default() };
    if random.chance(30) {
        (start.max_evals, start.step_max, start.initial_step) = (30, 1e10, 1.0);
        return start;
    }
    (start.max_evals, start.step_max, start.initial_step) = (random.pick(EVALS), random.pick(STEPS_MAX), random.pick(STEPS));
    start
}

fn most(random: &mut Random) -> usize {
    match random.below(20) {
        0..=15 => 20 + random.below(150) as usize,
        16..=18 => 400,
        _ => 2500,
    }
}

// A direction along which g falls, where g has a coordinate that is not 0.
fn falling(random: &mut Random, g: &[f64]) -> Vec<f64> {
    let scale = random.pick(&[1.0, 1.0, 0.01, 1e-9, 30.0]);
    let steepest = random.chance(50);
    g.iter().map(|v| -v * scale * if steepest { 1.0 } else { random.unit() }).collect()
}

// A search of a function from a point.
fn of_a_function(random: &mut Random) -> Drawn {
    let mut start = options(random);
    let n = coordinates(random);
    start.x0 = point(random, n);
    let mut f = objectives::draw(random, &start.x0);
    let noise: Vec<f64> = (0..n).map(|_| 2.0 * random.unit() - 1.0).collect();
    let finite = |list: &[f64]| list.iter().all(|v| v.is_finite());
    start.g = Some(numeric(&f, &start.x0)).filter(|g| finite(g) && random.chance(80)).unwrap_or(noise);
    start.d = Some(falling(random, &start.g)).filter(|d| finite(d)).unwrap_or(vec![1.0; n]);
    start.f0 = Some(f.value(&start.x0)).filter(|v| v.is_finite() && random.chance(90)).unwrap_or(1.0);
    let gradients = random.pick(&[Gradients::Numeric, Gradients::Numeric, Gradients::Numeric, Gradients::Noise, Gradients::Bits]);
    let most = most(random);
    Drawn { start: Start::Search(start), teller: Teller::Function(f, gradients, Random::new(random.next())), most }
}

fn scripted(random: &mut Random, start: Search, manner: Manner, first: Vec<(f64, f64)>) -> Drawn {
    let script = Script::new(&start, manner, Random::new(random.next()), first);
    let most = most(random);
    Drawn { start: Start::Search(start), teller: Teller::Script(script), most }
}

// x0 is 0 and the direction's coordinates are powers of two, so that a trial's point gives its step, and a slope is told
// exactly.
fn exact(random: &mut Random) -> Search {
    let mut start = options(random);
    let n = random.pick(&[1, 1, 1, 1, 2, 3, 16]);
    start.x0 = (0..n).map(|_| random.pick(&[0.0, 0.0, -0.0])).collect();
    start.d = (0..n).map(|_| random.pick(&[1.0, -1.0, 0.5, -2.0, 0.0, -0.0, TINY])).collect();
    start.d[0] = random.pick(&[4.0, -4.0]);
    let slope = random.pick(&[-1.0, -1.0, -1.0, -3.0, -1e-3, -1e10, -1e-300, -1e200, -1e-320]);
    start.g = start.d.iter().map(|_| 0.0).collect();
    start.g[0] = slope / start.d[0];
    start.f0 = random.pick(&[0.0, -0.0, 1.0, 1.0, -7.5, 1e16, 1e-310, 1e300, -MAX]);
    start
}

fn by_script(random: &mut Random) -> Drawn {
    let start = exact(random);
    let manner = random.pick(MANNERS);
    scripted(random, start, manner, Vec::new())
}

// One coordinate, from 0 along 1, with slope s.
fn on_a_line(random: &mut Random, s: f64) -> Search {
    let (c1, c2) = (1e-4, 0.9);
    let gradients = random.chance(70);
    let (max_evals, step_max, initial_step) = (random.pick(&[2, 5, 30]), 1.7e308, 1.0);
    let (x0, d, g) = (vec![0.0], vec![1.0], vec![s]);
    Search { gradients, max_evals, c1, c2, step_max, initial_step, x0, d, g, ..Search::default() }
}

// Start slope, c1, first step, and values and slopes by which the cubic is left for the midpoint in ways that chance seldom
// finds.
fn of_the_cubic(random: &mut Random) -> Drawn {
    let (scale, unit) = (random.pick(&[1.0, 2.0, 0.25, 1024.0]), random.unit());
    let s = random.pick(&[unit, 33.0 / 64.0, 47.0 / 64.0]);
    let (slope, c1, step, first) = match random.below(8) {
        // A denominator of 0: the slopes are equal and the discriminant is 0.
        0 => (-scale, 0.5, 3.0, vec![(-scale, -scale)]),
        // A trial that is not finite: width times slope overflows.
        1 => (-1e10 * scale, 1e-4, 1e300, vec![(1.0, 1e10)]),
        // An infinite discriminant, and so an infinite denominator.
        2 => (-1e200 * scale, 1e-4, 1.0, vec![(1.0, 1e200)]),
        // A discriminant of infinity less infinity.
        3 => (-1e200 * scale, 1e-4, 1.0, vec![(1.0, -1e200)]),
        // The least of a parabola, 5% from the smaller end or from the larger: rounding decides on which side, and leaves it
        // there with the two numbers above.
        4 => (-s, 1e-4, scale, vec![(-s * scale, -s), (8.0 * s * scale, 19.0 * s)]),
        5 => (-s, 0.5, scale, vec![((0.5 / 0.95 - 1.0) * s * scale, (1.0 / 0.95 - 1.0) * s)]),
        // A discriminant of 0, where the slopes differ.
        6 => (-4.0 * scale, 0.6, 3.0, vec![(-7.0 * scale, -9.0 * scale)]),
        // Differences of values that overflow, from a start at the least f64.
        _ => (-scale, 1e-4, 1.0, vec![(MAX, scale)]),
    };
    let mut start = on_a_line(random, slope);
    (start.c1, start.initial_step) = (c1, step);
    if first[0].0 == MAX {
        start.f0 = -MAX;
    }
    scripted(random, start, MANNERS[1], first)
}

// Steps of which two are above half the largest f64, so that their midpoint is infinite.
fn of_infinite_steps(random: &mut Random) -> Drawn {
    let mut start = on_a_line(random, -1e-300);
    start.initial_step = random.pick(&[1e308, 1.2e308]);
    start.d = vec![random.pick(&[1.0, 1e-10])];
    start.g = vec![-1e-300 / start.d[0]];
    if random.chance(50) {
        // A coordinate that does not move is NaN at an infinite step.
        start.x0.push(1.0);
        start.d.push(0.0);
        start.g.push(1.0);
    }
    let second = random.pick(&[INF, 1.0, -1e9]);
    let third = random.pick(&[-1e11, 1.0, NAN]);
    scripted(random, start, MANNERS[1], vec![(-1e10, -1e-300), (second, 1e-300), (third, 1e-300)])
}

// A start slope of NaN or -infinity, which is not refused.
fn of_no_finite_slope(random: &mut Random) -> Drawn {
    let mut start = on_a_line(random, -1e308);
    start.d = vec![10.0];
    if random.chance(50) {
        (start.x0, start.d, start.g) = (vec![0.0, 1.0], vec![10.0, 10.0], vec![-1e308, 1e308]);
    }
    start.max_evals = random.pick(&[1, 5, 100]);
    let manner = random.pick(MANNERS);
    scripted(random, start, manner, Vec::new())
}

// A search that descends as long as it may.
fn of_long_doubling(random: &mut Random) -> Drawn {
    let mut start = on_a_line(random, -1.0);
    start.initial_step = random.pick(&[1.0, 1e-5, TINY, 3e-310]);
    start.step_max = random.pick(&[1e10, 0.7, 3.0, 1.7e308]);
    start.max_evals = random.pick(&[1, 2, 7, 30, 1000]);
    scripted(random, start, DESCENDING, Vec::new())
}

fn spoil_one(random: &mut Random, list: &mut [f64]) {
    if !list.is_empty() {
        let at = random.below(list.len() as u64) as usize;
        list[at] = random.pick(REFUSED_COORDINATES);
    }
}

fn of_another_length(random: &mut Random, list: &mut Vec<f64>) {
    let n = list.len();
    let m = random.pick(&[0, 1, n.saturating_sub(1), n + 1, 16]);
    list.resize(if m == n { n + 1 } else { m }, 0.5);
}

const FAULTS: u64 = 14;

// What brings a refusal, by its place in 01's order.
fn fault(random: &mut Random, s: &mut Search, which: u64) {
    let long = random.pick(&[17, 17, 17, 18, 300]);
    match which {
        0 => match random.below(4) {
            0 => s.x0.resize(long, 0.0),
            1 => s.d.resize(long, 0.0),
            2 => s.g.resize(long, 0.0),
            _ => s.max_evals = random.pick(REFUSED_EVALS),
        },
        1 => s.c1 = random.pick(REFUSED_C1),
        2 => s.c2 = random.pick(&[s.c1, s.c1.next_down(), 0.0, 1.0, NAN, INF]),
        3 => s.max_evals = 0,
        4 => s.step_max = random.pick(REFUSED_STEPS),
        5 if random.chance(50) => (s.x0, s.d, s.g) = (Vec::new(), Vec::new(), Vec::new()),
        5 => s.x0.clear(),
        6 => of_another_length(random, &mut s.d),
        7 => of_another_length(random, &mut s.g),
        8 => spoil_one(random, &mut s.x0),
        9 => spoil_one(random, &mut s.d),
        10 => spoil_one(random, &mut s.g),
        11 => s.f0 = random.pick(REFUSED_COORDINATES),
        12 => s.initial_step = random.pick(REFUSED_STEPS),
        _ => s.g.iter_mut().for_each(|v| *v = -*v),
    }
}

// One thing that is refused; with it, now and then, the one that 01 has after it, and any other.
fn refused(random: &mut Random) -> Drawn {
    let drawn = if random.chance(50) { of_a_function(random) } else { by_script(random) };
    let Start::Search(mut start) = drawn.start else { unreachable!("searches are drawn") };
    let (which, any) = (random.below(FAULTS), random.below(FAULTS));
    fault(random, &mut start, which);
    if random.chance(50) {
        fault(random, &mut start, (which + 1) % FAULTS);
    }
    if random.chance(20) {
        fault(random, &mut start, any);
    }
    scripted(random, start, MANNERS[1], Vec::new())
}

fn differences(random: &mut Random) -> Drawn {
    let n = match random.below(12) {
        0 => 0,
        1 => random.pick(&[17, 17, 18, 300]),
        2..=3 => 16,
        _ => coordinates(random),
    };
    let mut x = point(random, n);
    if random.chance(20) {
        spoil_one(random, &mut x);
    }
    let f = objectives::draw(random, &x);
    Drawn { start: Start::Differences(x), teller: Teller::Function(f, Gradients::Numeric, Random::new(0)), most: 40 }
}

pub fn draw(random: &mut Random) -> Drawn {
    match random.below(40) {
        0..=5 => differences(random),
        6..=12 => refused(random),
        13..=23 => by_script(random),
        24..=25 => of_the_cubic(random),
        26 => of_infinite_steps(random),
        27 => of_no_finite_slope(random),
        28..=29 => of_long_doubling(random),
        _ => of_a_function(random),
    }
}
