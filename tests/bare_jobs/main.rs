// Compares the program test_bare_jobs with the Rust's `strong_wolfe` and `central_difference_gradient`, called bare, on random
// jobs, line by line and bit for bit, every NaN counting as one. tests/README.md says how it is built and run.
//
// bare_jobs PROGRAM JOBS SEED: stops at the first line that differs; job k of them has the seed SEED + k.
// bare_jobs --sample JOBS SEED STDIN STDOUT: writes jobs, and what is to be printed for them.

#[path = "../shared/choice.rs"]
mod choice;
#[path = "../shared/counts.rs"]
mod counts;
#[path = "../shared/cubic.rs"]
mod cubic;
mod dialogue;
#[path = "../shared/fields.rs"]
mod fields;
#[path = "../shared/gradients.rs"]
#[allow(dead_code)]
mod gradients;
mod jobs;
mod lines;
#[path = "../shared/objectives.rs"]
#[allow(dead_code)]
mod objectives;
#[path = "../shared/points.rs"]
mod points;
#[path = "../shared/program.rs"]
mod program;
#[path = "../shared/random.rs"]
mod random;
mod reached;
mod rust;
mod sample;
#[path = "../shared/script.rs"]
mod script;
#[path = "../shared/search.rs"]
mod search;
mod shadow;
#[path = "../shared/spoil.rs"]
mod spoil;
mod starts;
mod tellers;

use counts::Counts;
use std::fs;
use std::hint::black_box;
use std::process::ExitCode;

fn compare(program: &str, count: u64, seed: u64) -> ExitCode {
    let mut counts = Counts::default();
    let (mut compared, mut given, mut printed) = (0, 0, 0);
    while compared < count {
        let first = seed.wrapping_add(compared);
        let session = jobs::session(first);
        if let Err(difference) = program::compare(program, &session.given) {
            difference.report(&format!("the jobs from seed {first} on"), &session.given);
            return ExitCode::FAILURE;
        }
        compared += session.jobs.len() as u64;
        given += session.given.entries.len();
        printed += session.given.entries.iter().filter(|entry| entry.due.is_some()).count();
        session.jobs.iter().for_each(|(_, reached)| counts.add(reached));
    }
    let whole = counts.report(&reached::all());
    println!("{compared} jobs equal: {given} lines given, {printed} lines printed");
    if whole { ExitCode::SUCCESS } else { ExitCode::FAILURE }
}

fn write_sample(count: usize, seed: u64, stdin: &str, stdout: &str) -> ExitCode {
    match sample::sample(count, seed) {
        Ok(sample) => {
            fs::write(stdin, sample.stdin).expect("the sample's input can be written");
            fs::write(stdout, sample.stdout).expect("the sample's output can be written");
            ExitCode::SUCCESS
        }
        Err(reason) => {
            eprintln!("no sample: {reason}");
            ExitCode::FAILURE
        }
    }
}

fn main() -> ExitCode {
    let c = black_box(f64::EPSILON).cbrt().to_bits();
    assert_eq!(c, 0x3ED9_65FE_A53D_6E3D, "01: where `cbrt` gives other bits, the Rust is to be run with c");
    let args: Vec<String> = std::env::args().skip(1).collect();
    let args: Vec<&str> = args.iter().map(String::as_str).collect();
    let number = |text: &str| text.parse().ok();
    match args[..] {
        ["--sample", count, seed, stdin, stdout] => match (number(count), number(seed)) {
            (Some(count), Some(seed)) => return write_sample(count as usize, seed, stdin, stdout),
            _ => {}
        },
        [program, ref rest @ ..] if rest.len() <= 2 => {
            let numbers: Option<Vec<u64>> = rest.iter().map(|text| number(text)).collect();
            if let Some(numbers) = numbers {
                let at = |i: usize, default: u64| numbers.get(i).copied().unwrap_or(default);
                return compare(program, at(0, 20_000), at(1, 1));
            }
        }
        _ => {}
    }
    eprintln!("bare_jobs PROGRAM [JOBS [SEED]], or bare_jobs --sample JOBS SEED STDIN STDOUT");
    ExitCode::from(2)
}
