// Prints the table that the program test_float replays: results of Rust's own f64 on this machine.
// `rustc -O tests/float_vectors.rs -o target/make_float_vectors && target/make_float_vectors > crates/test_float/stdin`
// A row is an operation's letter, two operands and the result, as bits: s sqrt, a abs, g signum, M max, m min,
// f is_finite (0 or 1), t total_cmp (0 less, 1 equal, 2 greater), c EPSILON.cbrt().
use std::cmp::Ordering;
use std::hint::black_box;

struct Random(u64);

impl Random {
    fn next(&mut self) -> u64 {
        self.0 ^= self.0 << 13;
        self.0 ^= self.0 >> 7;
        self.0 ^= self.0 << 17;
        self.0
    }
}

fn row(op: char, a: u64, b: u64, result: u64) {
    println!("{op} {a:016X} {b:016X} {result:016X}");
}

fn one(op: char, a: u64) {
    let x = black_box(f64::from_bits(a));
    let result = match op {
        's' => x.sqrt().to_bits(),
        'a' => x.abs().to_bits(),
        'g' => x.signum().to_bits(),
        'f' => x.is_finite() as u64,
        _ => unreachable!(),
    };
    row(op, a, 0, result);
}

fn two(op: char, a: u64, b: u64) {
    let (x, y) = (black_box(f64::from_bits(a)), black_box(f64::from_bits(b)));
    let result = match op {
        'M' => x.max(y).to_bits(),
        'm' => x.min(y).to_bits(),
        't' => match x.total_cmp(&y) {
            Ordering::Less => 0,
            Ordering::Equal => 1,
            Ordering::Greater => 2,
        },
        _ => unreachable!(),
    };
    row(op, a, b, result);
}

const SIGN: u64 = 1 << 63;
const FRACTION: u64 = (1 << 52) - 1;
const NAN: u64 = 0x7FF8_0000_0000_0000;

// Zero, subnormals, the least normal, one and its neighbours, 01's bench operands, where whole numbers
// stop being dense, the largest finite, infinity.
const EDGES: [u64; 19] = [
    0,
    1,
    2,
    3,
    FRACTION,
    1 << 52,
    (1 << 52) + 1,
    0x3FE0_0000_0000_0000,
    0x3FEF_FFFF_FFFF_FFFF,
    0x3FF0_0000_0000_0000,
    0x3FF0_0000_0000_0001,
    0x4000_0000_0000_0000,
    0x4010_0000_0000_0000,
    0x4330_0000_0000_0001,
    0x433F_FFFF_FFFF_FFFF,
    0x4340_0000_0000_0000,
    0x7FE0_0000_0000_0000,
    0x7FEF_FFFF_FFFF_FFFF,
    0x7FF0_0000_0000_0000,
];

// Quiet and signalling NaNs of both signs.
const NANS: [u64; 5] = [NAN, NAN | SIGN, 0x7FF0_0000_0000_0001, 0xFFF0_0000_0000_0001, 0x7FFF_FFFF_FFFF_FFFF];

fn signed_edges() -> Vec<u64> {
    EDGES.iter().flat_map(|&e| [e, e | SIGN]).collect()
}

// The two values about the square of a root that lies half way between two: the hardest to round.
fn half_way(random: &mut Random, exponent: u64) -> [u64; 2] {
    let q = (1u128 << 53) | (random.next() as u128 & FRACTION as u128) << 1 | 1;
    let square = q * q;
    let shift = 128 - square.leading_zeros() - 53;
    let significand = (square >> shift) as u64;
    let parity = if square >> 107 == 1 { 1 } else { 0 };
    let low = ((exponent * 2 + parity) << 52) | (significand & FRACTION);
    [low, low + 1]
}

fn main() {
    let mut random = Random(0x9E37_79B9_7F4A_7C15);
    let edges = signed_edges();

    for &x in edges.iter().chain(&NANS) {
        for op in ['s', 'a', 'g', 'f'] {
            one(op, x);
        }
    }
    for _ in 0..200 {
        let x = random.next();
        for op in ['s', 'a', 'g', 'f'] {
            one(op, x);
        }
    }
    for _ in 0..300 {
        one('s', random.next() & !SIGN);
    }
    for k in 0..52 {
        one('s', 1 << k);
        for _ in 0..4 {
            one('s', (1 << k) | (random.next() & ((1 << k) - 1)));
        }
    }
    for k in (0..2047u64).step_by(23) {
        one('s', k << 52);
        one('s', (k << 52) | FRACTION);
    }
    for k in (1..1023u64).step_by(5) {
        for x in half_way(&mut random, k) {
            one('s', x);
        }
    }
    for _ in 0..200 {
        let root = f64::from_bits(0x3FF0_0000_0000_0000 | (random.next() >> 12));
        let square = (root * root).to_bits();
        for x in [square - 1, square, square + 1] {
            one('s', x);
        }
    }

    for &a in &edges {
        for &b in edges.iter().step_by(3).chain([&a, &(a ^ SIGN)]) {
            for op in ['M', 'm', 't'] {
                two(op, a, b);
            }
        }
        for &n in &NANS {
            two('M', a, n);
            two('M', n, a);
            two('m', a, n);
            two('m', n, a);
        }
        // The engine has one NaN, ordered last as a NaN with no sign is.
        two('t', a, NAN);
        two('t', NAN, a);
    }
    two('M', NAN, NAN);
    two('m', NAN, NAN);
    two('t', NAN, NAN);
    for _ in 0..200 {
        let (a, b) = (random.next(), random.next());
        let near = a ^ (random.next() & 3);
        if f64::from_bits(a).is_nan() || f64::from_bits(b).is_nan() || f64::from_bits(near).is_nan() {
            continue;
        }
        for op in ['M', 'm', 't'] {
            two(op, a, b);
            two(op, a, near);
        }
    }

    row('c', f64::EPSILON.to_bits(), 0, black_box(f64::EPSILON).cbrt().to_bits());
}
