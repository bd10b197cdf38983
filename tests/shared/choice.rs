// Chooses, out of a pool, a sample that holds everything that is counted.

use crate::counts::Reached;

pub struct Candidate {
    pub seed: u64,
    pub bytes: usize,
    pub reached: Reached,
}

// Takes, again and again, the one that holds most of what is still missing for its length; what stays missing none holds.
fn covering(pool: &[Candidate], missing: &mut Reached) -> Vec<u64> {
    let mut seeds = Vec::new();
    while !missing.is_empty() {
        let worth = |c: &Candidate| c.reached.intersection(missing).count() as f64 / (200 + c.bytes) as f64;
        let best = pool.iter().max_by(|a, b| worth(a).total_cmp(&worth(b)));
        match best {
            Some(taken) if worth(taken) > 0.0 => {
                missing.retain(|name| !taken.reached.contains(name));
                seeds.push(taken.seed);
            }
            _ => break,
        }
    }
    seeds
}

// The sample by its seeds: they hold everything once, and then again what those of fewer bytes than `short` hold; or else
// what none of the pool holds.
pub fn choose(mut pool: Vec<Candidate>, all: &Reached, count: usize, short: usize) -> Result<Vec<u64>, Reached> {
    let mut missing = all.clone();
    let mut seeds = covering(&pool, &mut missing);
    if !missing.is_empty() {
        return Err(missing);
    }
    pool.retain(|c| c.bytes < short);
    while seeds.len() < count && !pool.is_empty() {
        pool.retain(|c| !seeds.contains(&c.seed));
        let more = covering(&pool, &mut all.clone());
        seeds.extend(more.into_iter().take(count - seeds.len()));
    }
    seeds.sort();
    Ok(seeds)
}
