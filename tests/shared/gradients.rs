// Gradients of objectives: exact where the shape has one, numeric, or with no regard to the values.

use crate::objectives::{Objective, Shape};
use crate::random::Random;

#[derive(Clone, Copy)]
pub enum Gradients {
    Exact,
    Numeric,
    Noise,
    Bits,
}

pub fn told(gradients: Gradients, f: &Objective, random: &mut Random, x: &[f64]) -> Vec<f64> {
    match gradients {
        Gradients::Exact => exact(f, x),
        Gradients::Numeric => numeric(f, x),
        Gradients::Noise => x.iter().map(|_| 4.0 * (random.unit() - 0.5)).collect(),
        Gradients::Bits => x.iter().map(|_| f64::from_bits(random.next())).collect(),
    }
}

pub fn numeric(f: &Objective, x: &[f64]) -> Vec<f64> {
    let slope = |i: usize| {
        let (mut ahead, mut behind) = (x.to_vec(), x.to_vec());
        let h = 1e-6 * x[i].abs().max(1.0);
        ahead[i] += h;
        behind[i] -= h;
        f.scale * (f.shaped(&ahead) - f.shaped(&behind)) / (2.0 * h)
    };
    (0..x.len()).map(slope).collect()
}

// Up to rounding, and leaving out steps and values that are not finite.
fn exact(f: &Objective, x: &[f64]) -> Vec<f64> {
    let d = f.about_centre(x);
    let bend = |i: usize| d[i + 1] - d[i] * d[i];
    let slope = |i: usize| match f.shape {
        Shape::Sphere => 2.0 * d[i],
        Shape::Valley => {
            let ahead = if i + 1 < d.len() { -400.0 * d[i] * bend(i) } else { 0.0 };
            let behind = if i > 0 { 200.0 * bend(i - 1) } else { 0.0 };
            ahead + behind - 2.0 * (1.0 - d[i])
        }
        Shape::Kinked => (i + 1) as f64 * d[i].signum(),
        Shape::Linear => i as f64 - 1.5,
        _ => f64::NAN,
    };
    if matches!(f.shape, Shape::Sphere | Shape::Valley | Shape::Kinked | Shape::Linear) {
        return (0..d.len()).map(|i| f.scale * slope(i)).collect();
    }
    numeric(f, x)
}
