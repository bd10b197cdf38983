// The inverse Hessian of a gradient fit, dense or of limited memory, worked out anew, and what it reaches.

use crate::search::dot;

// What a search along the direction shows of the updates before it, dense and of limited memory.
pub const SHOWN: [[&str; 3]; 2] = [
    ["first update: yy 0, then a search", "update: n above 2, then a search", "update: five, n above 2, then a search"],
    ["memory: yy 0, then a search", "memory: n above 2, then a search", "memory: five updates, n above 2, then a search"],
];

pub const DENSE: &[&str] = &[
    "first update: scaled",
    "first update: yy 0, not scaled",
    SHOWN[0][0],
    SHOWN[0][1],
    SHOWN[0][2],
    "first update: yy infinite, scaled to 0",
    "update: a later one",
    "update: 1/sy infinite",
];

pub const LIMITED: &[&str] = &[
    "memory: a pair kept",
    "memory: a pair dropped",
    "memory: a pair dropped, memory 1",
    "memory: a pair dropped, memory 2 to 15",
    "memory: a pair dropped, memory 16",
    "memory: one of several dropped, then a search, n above 2",
    "memory: several pairs in a direction",
    "memory: yy 0, gamma as before",
    SHOWN[1][0],
    SHOWN[1][1],
    SHOWN[1][2],
    "memory: yy infinite, gamma 0",
    "memory: 1/sy infinite",
];

pub struct Pair {
    s: Vec<f64>,
    y: Vec<f64>,
    rho: f64,
}

pub enum Model {
    Dense { rows: Vec<Vec<f64>>, first: bool },
    // Oldest first.
    Limited { memory: usize, pairs: Vec<Pair>, gamma: f64 },
}

type Marks = Vec<(bool, &'static str)>;

impl Model {
    pub fn dense(n: usize) -> Self {
        let unit = |i: usize| (0..n).map(|j| if i == j { 1.0 } else { 0.0 }).collect();
        Model::Dense { rows: (0..n).map(unit).collect(), first: true }
    }

    pub fn limited(memory: usize) -> Self {
        Model::Limited { memory, pairs: Vec::new(), gamma: 1.0 }
    }

    pub fn direction(&self, g: &[f64]) -> (Vec<f64>, Marks) {
        match self {
            Model::Dense { rows, .. } => (rows.iter().map(|row| -dot(row, g)).collect(), Marks::new()),
            Model::Limited { pairs, gamma, .. } => {
                (two_loops(pairs, *gamma, g), vec![(pairs.len() > 1, "memory: several pairs in a direction")])
            }
        }
    }

    pub fn update(&mut self, s: &[f64], y: &[f64]) -> Marks {
        let (sy, yy) = (dot(s, y), dot(y, y));
        match self {
            Model::Dense { rows, first } => dense_update(rows, first, s, y, [sy, yy]),
            Model::Limited { memory, pairs, gamma } => {
                let (full, one) = (pairs.len() == *memory, *memory == 1);
                if yy > 0.0 {
                    *gamma = sy / yy;
                }
                if full {
                    pairs.remove(0);
                }
                pairs.push(Pair { s: s.to_vec(), y: y.to_vec(), rho: 1.0 / sy });
                vec![
                    (true, "memory: a pair kept"),
                    (full, "memory: a pair dropped"),
                    (full && one, "memory: a pair dropped, memory 1"),
                    (full && *memory == 16, "memory: a pair dropped, memory 16"),
                    (full && !one && *memory < 16, "memory: a pair dropped, memory 2 to 15"),
                    (yy == 0.0, "memory: yy 0, gamma as before"),
                    (yy.is_infinite() && sy.is_finite(), "memory: yy infinite, gamma 0"),
                    ((1.0 / sy).is_infinite(), "memory: 1/sy infinite"),
                ]
            }
        }
    }
}

// Algorithm 7.4.
fn two_loops(pairs: &[Pair], gamma: f64, g: &[f64]) -> Vec<f64> {
    let mut q = g.to_vec();
    let mut alphas = vec![0.0; pairs.len()];
    for (k, Pair { s, y, rho }) in pairs.iter().enumerate().rev() {
        alphas[k] = rho * dot(s, &q);
        q.iter_mut().zip(y).for_each(|(q, y)| *q -= alphas[k] * y);
    }
    q.iter_mut().for_each(|q| *q *= gamma);
    for (k, Pair { s, y, rho }) in pairs.iter().enumerate() {
        let beta = rho * dot(y, &q);
        q.iter_mut().zip(s).for_each(|(q, s)| *q += (alphas[k] - beta) * s);
    }
    q.iter().map(|q| -q).collect()
}

// Equation 6.17, after 6.20 the first time.
fn dense_update(rows: &mut [Vec<f64>], first: &mut bool, s: &[f64], y: &[f64], [sy, yy]: [f64; 2]) -> Marks {
    let rho = 1.0 / sy;
    let marks = vec![
        (*first && yy > 0.0, "first update: scaled"),
        (*first && yy == 0.0, "first update: yy 0, not scaled"),
        (*first && yy.is_infinite() && sy.is_finite(), "first update: yy infinite, scaled to 0"),
        (!*first, "update: a later one"),
        (rho.is_infinite(), "update: 1/sy infinite"),
    ];
    if *first && yy > 0.0 && sy > 0.0 {
        for (i, row) in rows.iter_mut().enumerate() {
            row.iter_mut().enumerate().for_each(|(j, h)| *h = if i == j { sy / yy } else { 0.0 });
        }
    }
    *first = false;
    let hy: Vec<f64> = rows.iter().map(|row| dot(row, y)).collect();
    let coefficient = rho * rho * dot(y, &hy) + rho;
    for (i, row) in rows.iter_mut().enumerate() {
        for (j, h) in row.iter_mut().enumerate() {
            *h += -rho * (s[i] * hy[j] + hy[i] * s[j]) + coefficient * s[i] * s[j];
        }
    }
    marks
}
