// A sample of fits that holds everything that is counted, for a program that replays it: each line given behind `< `, each
// line due behind `> `, where it is due, and an empty line after each fit.

use crate::channel::Channel;
use crate::choice::{self, Candidate};
use crate::fits::{fit, Fit};
use crate::reached::{self, Reached};
use crate::rust::Job;

const POOL: u64 = 20_000;
const MOST_BYTES: usize = 400_000;
// Past the first time that all is held, only fits of fewer bytes are taken.
const SHORT: usize = 8_000;

fn text(fit: &Fit) -> String {
    let mut text = String::new();
    for entry in &fit.given.entries {
        text += &format!("< {}\n", entry.line);
        if let Some(due) = &entry.due {
            text += &format!("> {due}\n");
        }
    }
    text + "\n"
}

// The jobs take turns, as their seeds do.
fn drawn(seed: u64, jobs: &[Job]) -> Fit {
    fit(jobs[(seed % jobs.len() as u64) as usize], seed, Channel::clear())
}

fn choose(count: usize, seed: u64, jobs: &[Job]) -> Result<Vec<u64>, Reached> {
    let pool = (0..POOL)
        .map(|i| drawn(seed.wrapping_add(i), jobs))
        .filter(|fit| !fit.given.entries.is_empty() && jobs.contains(&fit.job))
        .map(|fit| Candidate { seed: fit.seed, bytes: text(&fit).len(), reached: fit.reached })
        .collect();
    let all = jobs.iter().flat_map(|job| reached::of_a_sample(*job)).collect();
    choice::choose(pool, &all, count, SHORT)
}

pub fn sample(count: usize, seed: u64, jobs: &[Job]) -> Result<String, String> {
    let seeds = choose(count, seed, jobs).map_err(|missing| format!("not reached: {missing:?}"))?;
    let sample: String = seeds.iter().map(|&seed| text(&drawn(seed, jobs))).collect();
    if seeds.len() < count || sample.len() > MOST_BYTES {
        return Err(format!("{} fits, {} bytes", seeds.len(), sample.len()));
    }
    Ok(sample)
}
