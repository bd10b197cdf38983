// A sample of jobs that holds everything that is counted, as one input, and what is to be printed for it. What stops the
// program can come but once: the last job is one that is stopped.

use crate::choice::{self, Candidate};
use crate::counts::Reached;
use crate::jobs;
use crate::program::Entry;
use crate::reached::{self, OF_THE_PIPE, STOPS};

const POOL: u64 = 20_000;
const MOST_BYTES: usize = 400_000;
// Past the first time that all is held, only jobs of fewer bytes are taken.
const SHORT: usize = 3_000;

pub struct Sample {
    pub stdin: String,
    pub stdout: String,
}

fn bytes(entries: &[Entry]) -> usize {
    entries.iter().map(|entry| entry.line.len() + entry.due.as_ref().map_or(0, |due| due.len())).sum()
}

fn candidate(seed: u64) -> Candidate {
    let mut session = jobs::jobs(&[seed]);
    Candidate { seed, bytes: bytes(&session.given.entries), reached: session.jobs.remove(0).1 }
}

fn stops(c: &Candidate) -> bool {
    c.reached.iter().any(|name| STOPS.contains(name))
}

fn choose(count: usize, seed: u64) -> Result<Vec<u64>, Reached> {
    let pool: Vec<Candidate> = (0..POOL).map(|i| candidate(seed.wrapping_add(i))).collect();
    let (stopped, pool): (Vec<_>, Vec<_>) = pool.into_iter().partition(stops);
    let last = ["bad: an answer", "a line after the stop"];
    let last = stopped.iter().filter(|c| last.iter().all(|name| c.reached.contains(name))).min_by_key(|c| c.bytes);
    let all = reached::all().into_iter().filter(|name| !OF_THE_PIPE.contains(name) && !STOPS.contains(name)).collect();
    let mut seeds = choice::choose(pool, &all, count - 1, SHORT)?;
    seeds.push(last.ok_or(Reached::from(["bad: an answer"]))?.seed);
    Ok(seeds)
}

pub fn sample(count: usize, seed: u64) -> Result<Sample, String> {
    let seeds = choose(count, seed).map_err(|missing| format!("not reached: {missing:?}"))?;
    let entries = jobs::jobs(&seeds).given.entries;
    let stdin: String = entries.iter().flat_map(|entry| [&entry.line, "\n"]).collect();
    let stdout: String = entries.iter().filter_map(|entry| entry.due.as_ref()).flat_map(|due| [due, "\n"]).collect();
    if seeds.len() < count || stdin.len() + stdout.len() > MOST_BYTES {
        return Err(format!("{} jobs, {} and {} bytes", seeds.len(), stdin.len(), stdout.len()));
    }
    Ok(Sample { stdin, stdout })
}
