// Objectives: smooth, stepped, noisy, tied, and with values that are not finite. Some answer by the call and not by the
// point alone, which the engine must bear too.

use crate::random::{mix, unit, Random};

const NANS: [u64; 4] = [0x7FF8_0000_0000_0000, 0xFFF8_0000_0000_0001, 0x7FF0_0000_0000_0001, 0xFFFF_FFFF_FFFF_FFFF];

#[derive(Clone, Copy, PartialEq)]
pub enum Shape {
    Sphere,
    Valley,
    Kinked,
    Linear,
    Constant,
    // Few values, by the point or by the call: ties between vertices, and between a vertex and a trial.
    Few(&'static [f64]),
    FewByCall(&'static [f64]),
    Noise,
    NoiseByCall,
    // Least where a coordinate is NaN: moves that left the finite range lead there.
    LeastAtNan,
    // Any bits at all as the value.
    Bits,
    // Least at -0.0, and then the less the nearer to +0.0: a simplex about -0.0 halves until it underflows to +0.0.
    Vanishing,
}

#[derive(Clone, Copy, PartialEq)]
pub enum Failing {
    Never,
    Above(f64),
    Often,
    Always,
    // From the first point asked again that had the least value: so a restart's build, as a rule.
    AtRestart,
}

pub const ZEROS: &[f64] = &[0.0, -0.0];
pub const ZEROS_AND_MORE: &[f64] = &[0.0, -0.0, 0.0, -0.0, 1.0, -1.0, 5e-324, -5e-324];
pub const TIED: &[f64] = &[1.0, 2.0, 3.0];
pub const WITH_INFINITY: &[f64] = &[1.0, 2.0, f64::INFINITY, f64::INFINITY];

pub struct Objective {
    pub shape: Shape,
    pub failing: Failing,
    pub centre: Vec<f64>,
    pub scale: f64,
    pub offset: f64,
    // Values are rounded down to a whole number of these; 0 leaves them as they are.
    pub step: f64,
    pub seed: u64,
    calls: u64,
    least: f64,
    least_at: Vec<f64>,
    failed: bool,
}

fn hash(seed: u64, x: &[f64]) -> u64 {
    x.iter().fold(mix(seed), |h, v| mix(h ^ v.to_bits()))
}

impl Objective {
    pub fn new(shape: Shape, failing: Failing, seed: u64) -> Self {
        Objective {
            shape,
            failing,
            centre: vec![0.0],
            scale: 1.0,
            offset: 0.0,
            step: 0.0,
            seed,
            calls: 0,
            least: f64::INFINITY,
            least_at: Vec::new(),
            failed: false,
        }
    }

    pub fn about_centre(&self, x: &[f64]) -> Vec<f64> {
        x.iter().zip(self.centre.iter().cycle()).map(|(v, c)| v - c).collect()
    }

    // The value but for scale, offset, steps and failing.
    pub fn shaped(&self, x: &[f64]) -> f64 {
        let d = self.about_centre(x);
        let (by_point, by_call) = (hash(self.seed, x), mix(self.seed ^ mix(self.calls)));
        match self.shape {
            Shape::Sphere => d.iter().map(|v| v * v).sum(),
            Shape::Valley => {
                let bend: f64 = d.windows(2).map(|w| 100.0 * (w[1] - w[0] * w[0]) * (w[1] - w[0] * w[0])).sum();
                bend + d.iter().map(|v| (1.0 - v) * (1.0 - v)).sum::<f64>()
            }
            Shape::Kinked => d.iter().enumerate().map(|(i, v)| (i + 1) as f64 * v.abs()).sum(),
            Shape::Linear => d.iter().enumerate().map(|(i, v)| (i as f64 - 1.5) * v).sum(),
            Shape::Constant => 1.0,
            Shape::Few(list) => list[(by_point % list.len() as u64) as usize],
            Shape::FewByCall(list) => list[(by_call % list.len() as u64) as usize],
            Shape::Noise => unit(by_point),
            Shape::NoiseByCall => unit(by_call),
            Shape::LeastAtNan => if x.iter().any(|v| v.is_nan()) { -1.0 } else { 1.0 },
            Shape::Bits => f64::from_bits(by_point),
            Shape::Vanishing if x[0].to_bits() == 1 << 63 => -1.0,
            Shape::Vanishing if x[0] < 0.0 => f64::MAX,
            Shape::Vanishing => x[0].to_bits() as f64,
        }
    }

    fn fails(&self, x: &[f64]) -> bool {
        match self.failing {
            Failing::Never => false,
            Failing::Above(edge) => x[0] > edge,
            Failing::Often => hash(!self.seed, x) % 3 == 0,
            Failing::Always => true,
            Failing::AtRestart => self.failed,
        }
    }

    fn not_finite(&self) -> f64 {
        let which = mix(self.seed.wrapping_add(self.calls));
        match which % 3 {
            0 => f64::INFINITY,
            1 => f64::NEG_INFINITY,
            _ => f64::from_bits(NANS[(which >> 8) as usize % NANS.len()]),
        }
    }

    pub fn value(&mut self, x: &[f64]) -> f64 {
        self.calls += 1;
        let same = |a: &[f64], b: &[f64]| a.iter().map(|v| v.to_bits()).eq(b.iter().map(|v| v.to_bits()));
        self.failed |= self.calls as usize > x.len() + 1 && same(x, &self.least_at);
        if self.fails(x) {
            return self.not_finite();
        }
        let mut value = self.scale * self.shaped(x) + self.offset;
        if matches!(self.shape, Shape::Few(_) | Shape::FewByCall(_) | Shape::Bits) {
            // Their signs of zero and their NaNs are wanted as they are.
            value = self.shaped(x);
        }
        if self.step > 0.0 {
            value = (value / self.step).floor() * self.step;
        }
        if value < self.least {
            (self.least, self.least_at) = (value, x.to_vec());
        }
        value
    }
}

pub fn draw(random: &mut Random, x0: &[f64]) -> Objective {
    let shape = random.pick(&[
        Shape::Sphere,
        Shape::Sphere,
        Shape::Valley,
        Shape::Valley,
        Shape::Kinked,
        Shape::Linear,
        Shape::Constant,
        Shape::Few(TIED),
        Shape::Few(ZEROS_AND_MORE),
        Shape::FewByCall(WITH_INFINITY),
        Shape::Noise,
        Shape::NoiseByCall,
        Shape::Bits,
    ]);
    let first = x0.first().copied().unwrap_or(0.0);
    let failing = match random.below(12) {
        0 => Failing::Above(first),
        1 => Failing::Above(first - 0.001),
        2 => Failing::Often,
        3 => random.pick(&[Failing::Always, Failing::AtRestart]),
        _ => Failing::Never,
    };
    let mut f = Objective::new(shape, failing, random.next());
    f.centre = x0.iter().map(|v| v + 4.0 * (random.unit() - 0.5)).chain([0.5]).collect();
    f.scale = random.pick(&[1.0, 1.0, 1.0, 1e-9, 1e6, 1e-310, 1e300, -1.0]);
    f.offset = random.pick(&[0.0, 0.0, 0.0, 0.0, 1e8, -1e15, 1e17, 1e300, -3.0]);
    f.step = random.pick(&[0.0, 0.0, 0.0, 0.0, 0.25, 1.0, 1e-3]);
    f
}
