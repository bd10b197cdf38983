// Gives the fit program bad input and holds every byte that it prints to what is due, by the Rust and 01's rules (oracle.rs).
// tests/README.md says how it is built and run.
//
// fuzz PROGRAM INPUTS SEED [KIND] [--log FILE]: stops at the first input that differs; input k of them has the seed SEED + k.
// Without a KIND (one of inputs.rs) they are drawn.
// fuzz --sum LOG..: adds up what logs hold.
// fuzz --input SEED [KIND]: writes the input of a seed.
// fuzz --table PROGRAM: prints what the program says to examples of each kind.

#![allow(dead_code)]

#[path = "../fits/channel.rs"]
mod channel;
#[path = "../shared/counts.rs"]
mod counts;
#[path = "../shared/cubic.rs"]
mod cubic;
#[path = "../fits/dialogue.rs"]
mod dialogue;
mod examples;
#[path = "../shared/fields.rs"]
mod fields;
#[path = "../fits/fits.rs"]
mod fits;
#[path = "../fits/gradient.rs"]
mod gradient;
#[path = "../fits/gradient_starts.rs"]
mod gradient_starts;
#[path = "../shared/gradients.rs"]
mod gradients;
mod inputs;
#[path = "../fits/lines.rs"]
mod lines;
#[path = "../fits/models.rs"]
mod models;
#[path = "../shared/objectives.rs"]
mod objectives;
mod oracle;
#[path = "../shared/points.rs"]
mod points;
#[path = "../shared/program.rs"]
mod program;
#[path = "../shared/random.rs"]
mod random;
#[path = "../shared/ranges.rs"]
mod ranges;
#[path = "../fits/reached.rs"]
mod reached;
#[path = "../fits/replies.rs"]
mod replies;
#[path = "../fits/runs.rs"]
mod runs;
#[path = "../fits/rust.rs"]
mod rust;
#[path = "../shared/script.rs"]
mod script;
#[path = "../shared/search.rs"]
mod search;
#[path = "../fits/simplex.rs"]
mod simplex;
#[path = "../fits/simplex_starts.rs"]
mod simplex_starts;
#[path = "../shared/spoil.rs"]
mod spoil;
#[path = "../shared/tally.rs"]
mod tally;
mod talks;
#[path = "../fits/tellers.rs"]
mod tellers;

use random::Random;
use std::hint::black_box;
use std::io::Write;
use std::process::ExitCode;
use tally::{Known, Made};

fn known() -> Known {
    let groups = inputs::KINDS.iter().map(|kind| (*kind, talks::to_reach(kind))).collect();
    Known { things: "inputs", manner: "", groups, sums: &["bytes given", "lines given", "lines printed"] }
}

fn kind(name: &str) -> Option<&'static str> {
    inputs::KINDS.into_iter().find(|kind| *kind == name)
}

fn compare(program: &str, only: Option<&'static str>, seed: u64) -> Result<Made, String> {
    let random = &mut Random::new(seed);
    let (kind, bytes) = inputs::bytes(random, only);
    let by_turns = bytes.len() < 50_000 && random.chance(10);
    let (reached, replies) = talks::compare(program, &bytes, by_turns.then_some(random))
        .map_err(|difference| format!("differs: the input of seed {seed}, {kind}\n{difference}"))?;
    let reached = talks::to_reach(kind).into_iter().filter(|name| reached.contains(name)).collect();
    let lines = oracle::ends(&bytes).len();
    Ok(Made { group: kind, reached, sums: vec![bytes.len() as u64, lines as u64, replies.len() as u64] })
}

fn write_input(seed: &str, only: Option<&'static str>) -> Option<ExitCode> {
    let (_, bytes) = inputs::bytes(&mut Random::new(seed.parse().ok()?), only);
    let written = std::io::stdout().write_all(&bytes);
    Some(if written.is_ok() { ExitCode::SUCCESS } else { ExitCode::FAILURE })
}

fn asked(args: &[&str]) -> Option<ExitCode> {
    match *args {
        ["--sum", ref logs @ ..] => Some(ranges::sum(logs, &known())),
        ["--input", seed] => write_input(seed, None),
        ["--input", seed, name] => write_input(seed, Some(kind(name)?)),
        ["--table", program] => Some(examples::table(program)),
        _ => {
            let run = ranges::asked(args, &known()).filter(|run| run.program != ranges::ALONE)?;
            let only = run.only.as_deref().and_then(kind);
            Some(run.run(&known(), &|seed| compare(&run.program, only, seed)))
        }
    }
}

fn main() -> ExitCode {
    let c = black_box(f64::EPSILON).cbrt().to_bits();
    assert_eq!(c, 0x3ED9_65FE_A53D_6E3D, "01: where `cbrt` gives other bits, the Rust is to be run with c");
    let args: Vec<String> = std::env::args().skip(1).collect();
    asked(&args.iter().map(String::as_str).collect::<Vec<_>>()).unwrap_or_else(|| {
        eprintln!("fuzz PROGRAM INPUTS SEED [KIND] [--log FILE], fuzz --sum LOG..,");
        eprintln!("fuzz --input SEED [KIND], or fuzz --table PROGRAM");
        ExitCode::from(2)
    })
}
