// Points: usual, extreme and refused coordinates.

use crate::random::Random;

const NAN: f64 = f64::NAN;
const INF: f64 = f64::INFINITY;
const MAX: f64 = f64::MAX;
const TINY: f64 = 5e-324;

const EXTREME_COORDINATES: &[f64] =
    &[0.0, -0.0, TINY, -TINY, 1e-310, -1e-310, 1e-9, -1e-9, 0.00025, -0.005, 1e16, -1e16, 1e300, -1e300, MAX, -MAX];
pub const REFUSED_COORDINATES: &[f64] = &[NAN, -NAN, INF, -INF];

fn coordinate(random: &mut Random, extreme: u64) -> f64 {
    if random.chance(extreme) {
        return random.pick(EXTREME_COORDINATES);
    }
    match random.below(4) {
        0 => random.pick(&[1.0, -1.0, 0.5, 2.0, -1.2]),
        1 => 200.0 * (random.unit() - 0.5),
        _ => 4.0 * (random.unit() - 0.5),
    }
}

pub fn point(random: &mut Random, n: usize) -> Vec<f64> {
    let extreme = random.pick(&[0, 0, 0, 10, 40, 100]);
    (0..n).map(|_| coordinate(random, extreme)).collect()
}

// How many, from 1 to 16.
pub fn coordinates(random: &mut Random) -> usize {
    match random.below(20) {
        0..=4 => 1,
        5..=9 => 2,
        10..=12 => 3,
        13..=14 => 4,
        15..=17 => 5 + random.below(11) as usize,
        _ => 16,
    }
}
