// Compares the fit program with the Rust's `nelder_mead`, `bfgs` and `lbfgs` on random fits, line by line and bit for bit,
// every NaN counting as one. tests/README.md says how it is built and run.
//
// fits [--disturbed] PROGRAM FITS SEED [JOB] [--log FILE]: stops at the first line that differs; fit k of them has the seed
// SEED + k. Without a JOB (simplex, bfgs or lbfgs) they take turns. --disturbed disturbs the channel too (channel.rs).
// fits [--disturbed] --sum LOG..: adds up what logs hold.
// fits --sample FITS SEED JOB: prints fits with the lines that are due; JOB is simplex, or gradient for bfgs and lbfgs.

mod channel;
#[path = "../shared/choice.rs"]
mod choice;
#[path = "../shared/counts.rs"]
mod counts;
#[path = "../shared/cubic.rs"]
mod cubic;
mod dialogue;
#[path = "../shared/fields.rs"]
mod fields;
mod fits;
mod gradient;
mod gradient_starts;
#[path = "../shared/gradients.rs"]
mod gradients;
mod lines;
mod models;
#[path = "../shared/objectives.rs"]
mod objectives;
#[path = "../shared/points.rs"]
mod points;
#[path = "../shared/program.rs"]
#[allow(dead_code)]
mod program;
#[path = "../shared/random.rs"]
mod random;
#[path = "../shared/ranges.rs"]
mod ranges;
mod reached;
mod replies;
mod runs;
mod rust;
mod sample;
#[path = "../shared/script.rs"]
mod script;
#[path = "../shared/search.rs"]
#[allow(dead_code)]
mod search;
mod simplex;
mod simplex_starts;
#[path = "../shared/spoil.rs"]
mod spoil;
#[path = "../shared/tally.rs"]
mod tally;
mod tellers;

use channel::Channel;
use ranges::ALONE;
use rust::{Job, JOBS};
use std::hint::black_box;
use std::process::ExitCode;
use tally::{Known, Made};

// First of all arguments: the channel is disturbed too.
const DISTURBED: &str = "--disturbed";

// The job of a seed, where all take turns.
fn turn(seed: u64) -> Job {
    JOBS[(seed % 3) as usize].0
}

fn known(disturbed: bool) -> Known {
    let more = if disturbed { channel::KINDS } else { &[] };
    let groups = JOBS.iter().map(|(job, name)| (*name, [&reached::all(*job)[..], more].concat())).collect();
    let sums = &["lines given", "lines printed", "lines read", "of them disturbed"];
    Known { things: "fits", manner: if disturbed { ", disturbed" } else { "" }, groups, sums }
}

fn compare(program: &str, job: Option<Job>, disturbed: bool, seed: u64) -> Result<Made, String> {
    let channel = if disturbed { Channel::of(seed) } else { Channel::clear() };
    let fit = fits::fit(job.unwrap_or(turn(seed)), seed, channel);
    if program != ALONE {
        let name = format!("the fit of seed {seed}");
        program::compare(program, &fit.given).map_err(|difference| difference.text(&name, &fit.given))?;
    }
    let printed = fit.given.entries.iter().filter(|entry| entry.due.is_some()).count();
    let sums = vec![fit.given.entries.len() as u64, printed as u64, fit.lines, fit.disturbed];
    Ok(Made { group: fit.job.name(), reached: fit.reached, sums })
}

fn print_sample(count: usize, seed: u64, jobs: &[Job]) -> ExitCode {
    match sample::sample(count, seed, jobs) {
        Ok(text) => {
            print!("{text}");
            ExitCode::SUCCESS
        }
        Err(reason) => {
            eprintln!("no sample: {reason}");
            ExitCode::FAILURE
        }
    }
}

fn main() -> ExitCode {
    let c = black_box(f64::EPSILON).cbrt().to_bits();
    assert_eq!(c, 0x3ED9_65FE_A53D_6E3D, "01: where `cbrt` gives other bits, the Rust is to be run with c");
    let args: Vec<String> = std::env::args().skip(1).collect();
    let args: Vec<&str> = args.iter().map(String::as_str).collect();
    if let ["--sample", count, seed, job] = args[..] {
        let jobs: &[Job] = if job == "simplex" { &[Job::Simplex] } else { &[Job::Bfgs, Job::Lbfgs] };
        if let (Ok(count), Ok(seed), "simplex" | "gradient") = (count.parse(), seed.parse(), job) {
            return print_sample(count, seed, jobs);
        }
    }
    let (disturbed, args) = if let [DISTURBED, ref rest @ ..] = args[..] { (true, rest) } else { (false, &args[..]) };
    let known = known(disturbed);
    if let ["--sum", logs @ ..] = args {
        return ranges::sum(logs, &known);
    }
    if let Some(run) = ranges::asked(args, &known) {
        let job = run.only.as_deref().and_then(Job::named);
        return run.run(&known, &|seed| compare(&run.program, job, disturbed, seed));
    }
    eprintln!("fits [{DISTURBED}] PROGRAM FITS SEED [JOB] [--log FILE], fits [{DISTURBED}] --sum LOG..,");
    eprintln!("or fits --sample FITS SEED JOB");
    ExitCode::from(2)
}
