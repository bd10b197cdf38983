// Runs of many seeds, unattended. With a log each range of seeds is written to it once it is through, so that a run that is cut
// is not lost, and the ranges of several logs are added up.

use crate::tally::{Known, Made, Tally, EQUAL};
use std::fs::{self, OpenOptions};
use std::io::Write;
use std::process::ExitCode;
use std::time::Instant;

const RANGE: u64 = 20_000;
const PROGRAM: &str = "program";
const ALL: &str = "all";
const LOG: &str = "--log";
// In a program's place: nothing is compared with a program.
pub const ALONE: &str = "--alone";

pub struct Run {
    pub program: String,
    pub count: u64,
    pub seed: u64,
    // The one group that is run, where it is one.
    pub only: Option<String>,
    log: Option<String>,
}

// PROGRAM COUNT SEED [GROUP] [--log FILE]
pub fn asked(args: &[&str], known: &Known) -> Option<Run> {
    let (args, log) = match args {
        [rest @ .., LOG, file] => (rest, Some(file.to_string())),
        _ => (args, None),
    };
    let (program, count, seed, only) = match *args {
        [program, count, seed] => (program, count, seed, None),
        [program, count, seed, group] => (program, count, seed, Some(group.to_string())),
        _ => return None,
    };
    let group = only.as_ref().is_none_or(|group| known.groups.iter().any(|(known, _)| known == group));
    let run = Run { program: program.into(), count: count.parse().ok()?, seed: seed.parse().ok()?, only, log };
    (group && (program != ALONE || run.log.is_none())).then_some(run)
}

// The program's length and a checksum (FNV-1a), by which the ranges of a sum are of one program.
fn identity(program: &str) -> String {
    let bytes = fs::read(program).unwrap_or_else(|error| panic!("{program}: {error}"));
    let sum = bytes.iter().fold(0xCBF2_9CE4_8422_2325_u64, |sum, byte| (sum ^ *byte as u64).wrapping_mul(0x100_0000_01B3));
    format!("{PROGRAM} of {} bytes, FNV-1a {sum:016X}", bytes.len())
}

// Names the seed in hand where the driver itself panics.
struct Seed<'a>(u64, &'a Run);

impl Drop for Seed<'_> {
    fn drop(&mut self) {
        if std::thread::panicking() {
            self.1.stop(&format!("differs: the driver panicked at seed {}", self.0));
        }
    }
}

impl Run {
    fn write(&self, text: &str) {
        if let Some(log) = &self.log {
            let file = OpenOptions::new().create(true).append(true).open(log);
            let written = file.and_then(|mut file| file.write_all(text.as_bytes()));
            written.unwrap_or_else(|error| panic!("{log}: {error}"));
        }
    }

    fn stop(&self, difference: &str) {
        println!("{difference}");
        self.write(&format!("\n{difference}\n"));
    }

    fn range(&self, known: &Known, done: u64, one: &dyn Fn(u64) -> Result<Made, String>) -> Result<Tally, String> {
        let begun = Instant::now();
        let mut tally = Tally::new(self.seed.wrapping_add(done), known);
        for i in done..self.count.min(done + RANGE) {
            let seed = Seed(self.seed.wrapping_add(i), self);
            tally.add(&one(seed.0)?);
        }
        tally.seconds = begun.elapsed().as_secs_f64();
        Ok(tally)
    }

    // Stops at the first seed that differs.
    pub fn run(&self, known: &Known, one: &dyn Fn(u64) -> Result<Made, String>) -> ExitCode {
        let compared = self.program != ALONE;
        let program = if compared { identity(&self.program) } else { String::new() };
        let mut total = Tally::new(self.seed, known);
        while total.count < self.count {
            let range = self.range(known, total.count, one).and_then(|range| {
                let same = !compared || identity(&self.program) == program;
                if same { Ok(range) } else { Err("differs: the program is another one now".into()) }
            });
            match range {
                Ok(range) => {
                    let chosen = format!("{}{}", self.only.as_deref().unwrap_or(ALL), known.manner);
                    self.write(&format!("\n{program}\n{}", range.text(known, &chosen)));
                    total.merge(&range);
                }
                Err(difference) => {
                    self.stop(&difference);
                    return ExitCode::FAILURE;
                }
            }
        }
        println!("seeds {} to {}", total.first, total.last());
        let equal = if compared { EQUAL } else { "run, NOT COMPARED" };
        if total.report(known, self.only.as_deref(), equal) { ExitCode::SUCCESS } else { ExitCode::FAILURE }
    }
}

// The ranges of a log, each with its program and what was chosen. What a cut run left behind its last whole range is none.
fn ranges(file: &str, known: &Known) -> Result<Vec<(String, String, Tally)>, String> {
    let text = fs::read_to_string(file).map_err(|error| format!("{file}: {error}"))?;
    let (mut ranges, mut begun) = (Vec::new(), String::new());
    for line in text.lines() {
        if line.starts_with("differs") {
            return Err(format!("{file}: {line}"));
        }
        if line.starts_with(PROGRAM) {
            begun = format!("{line}\n");
            continue;
        }
        begun += &format!("{line}\n");
        if line.starts_with(EQUAL) {
            let (program, rest) = begun.split_once('\n').unwrap_or_default();
            let (tally, chosen) = Tally::read(rest, known).ok_or(format!("{file}: not a range that this driver wrote"))?;
            ranges.push((program.into(), chosen, tally));
        }
    }
    Ok(ranges)
}

fn added(files: &[&str], known: &Known) -> Result<Tally, String> {
    let mut all = Vec::new();
    for file in files {
        all.extend(ranges(file, known)?);
    }
    all.sort_by(|(_, a, x), (_, b, y)| (a, x.first).cmp(&(b, y.first)));
    let (first, ..) = all.first().ok_or("no whole range")?;
    println!("{first}");
    let (mut total, mut seeds) = (Tally::new(0, known), Vec::<(&str, u64, u64)>::new());
    for (program, chosen, tally) in &all {
        if program != first {
            return Err("the ranges are of different programs".into());
        }
        if !chosen.ends_with(known.manner) {
            return Err(format!("seed {} was not run in this manner", tally.first));
        }
        match seeds.last_mut() {
            Some((which, _, last)) if which == chosen && *last >= tally.first => {
                return Err(format!("seed {} stands in two ranges", tally.first));
            }
            Some((which, _, last)) if which == chosen && *last + 1 == tally.first => *last = tally.last(),
            _ => seeds.push((chosen, tally.first, tally.last())),
        }
        total.merge(tally);
    }
    seeds.iter().for_each(|(chosen, first, last)| println!("seeds {first} to {last} ({chosen})"));
    Ok(total)
}

// Adds up the ranges of logs.
pub fn sum(files: &[&str], known: &Known) -> ExitCode {
    match added(files, known) {
        Ok(total) if total.report(known, None, EQUAL) => ExitCode::SUCCESS,
        Ok(_) => ExitCode::FAILURE,
        Err(reason) => {
            eprintln!("no sum: {reason}");
            ExitCode::FAILURE
        }
    }
}
