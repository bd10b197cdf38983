// The step that zoom tries, and how it came about. Of the ways to the midpoint one is not counted: the low end's value is
// finite, since it is f0 or met Armijo, whose bound is never above f0.

use crate::search::Trial;

pub const WAYS: &[&str] = &[
    "midpoint: value at hi not finite",
    "midpoint: slope at lo not finite",
    "midpoint: slope at hi not finite",
    "midpoint: discriminant below 0",
    "midpoint: denominator 0",
    "midpoint: denominator infinite",
    "midpoint: denominator NaN",
    "midpoint: trial not finite",
    "midpoint: within 5% of the smaller end",
    "midpoint: within 5% of the larger end",
    "midpoint: at 5% from the smaller end",
    "midpoint: at 5% from the larger end",
    "cubic: discriminant 0",
    "cubic: within 6% of the smaller end",
    "cubic: within 6% of the larger end",
    "cubic: lo below hi",
    "cubic: lo above hi",
];

pub fn trial(lo: &Trial, hi: &Trial) -> (f64, &'static str) {
    let middle = 0.5 * (lo.step + hi.step);
    match interpolated(lo, hi) {
        Ok(taken) => taken,
        Err(way) => (middle, way),
    }
}

// The cubic's step, or why it is not taken.
fn interpolated(lo: &Trial, hi: &Trial) -> Result<(f64, &'static str), &'static str> {
    if !lo.value.is_finite() {
        return Err("midpoint: value at lo not finite");
    }
    if !hi.value.is_finite() {
        return Err("midpoint: value at hi not finite");
    }
    if !lo.slope.is_finite() {
        return Err("midpoint: slope at lo not finite");
    }
    if !hi.slope.is_finite() {
        return Err("midpoint: slope at hi not finite");
    }
    let width = hi.step - lo.step;
    let d1 = lo.slope + hi.slope - 3.0 * (lo.value - hi.value) / (lo.step - hi.step);
    let discriminant = d1 * d1 - lo.slope * hi.slope;
    if discriminant < 0.0 {
        return Err("midpoint: discriminant below 0");
    }
    let d2 = if width < 0.0 { -discriminant.sqrt() } else { discriminant.sqrt() };
    let denominator = hi.slope - lo.slope + 2.0 * d2;
    if denominator == 0.0 {
        return Err("midpoint: denominator 0");
    }
    if denominator.is_nan() {
        return Err("midpoint: denominator NaN");
    }
    if denominator.is_infinite() {
        return Err("midpoint: denominator infinite");
    }
    let step = within(hi.step - width * (hi.slope + d2 - d1) / denominator, lo.step, hi.step)?;
    if discriminant == 0.0 {
        return Ok((step, "cubic: discriminant 0"));
    }
    if let Some(way) = near_an_end(step, lo.step, hi.step) {
        return Ok((step, way));
    }
    Ok((step, if width > 0.0 { "cubic: lo below hi" } else { "cubic: lo above hi" }))
}

// A step that is taken, and that a wider margin would leave.
fn near_an_end(step: f64, a: f64, b: f64) -> Option<&'static str> {
    let (smaller, larger) = if a < b { (a, b) } else { (b, a) };
    let margin = 0.06 * (larger - smaller);
    if step < smaller + margin {
        return Some("cubic: within 6% of the smaller end");
    }
    (step > larger - margin).then_some("cubic: within 6% of the larger end")
}

fn within(step: f64, a: f64, b: f64) -> Result<f64, &'static str> {
    let (smaller, larger) = if a < b { (a, b) } else { (b, a) };
    let margin = 0.05 * (larger - smaller);
    if !step.is_finite() {
        return Err("midpoint: trial not finite");
    }
    if step < smaller + margin {
        return Err("midpoint: within 5% of the smaller end");
    }
    if step > larger - margin {
        return Err("midpoint: within 5% of the larger end");
    }
    if step == smaller + margin {
        return Err("midpoint: at 5% from the smaller end");
    }
    if step == larger - margin {
        return Err("midpoint: at 5% from the larger end");
    }
    Ok(step)
}
