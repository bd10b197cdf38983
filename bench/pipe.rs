// The fits of the benchmark over a pipe: crates/fit/out/fit beside the Rust's driver, each fed the same answers by one process.
use crate::chain;
use crate::sides::{asked, Row, JOBS};
use std::io::{BufRead, BufReader, Write};
use std::process::{Command, Stdio};
use std::time::Instant;

// Lines 1 to 3; then each line that is due, and behind it the line that is given.
struct Talk {
    opening: String,
    due: Vec<String>,
    given: Vec<String>,
}

fn words(values: &[f64]) -> String {
    values.iter().map(|value| format!(" {:016X}", value.to_bits())).collect()
}

// The Rust's defaults, as line 2 has them.
fn options(row: &Row) -> String {
    if row.job == 1 {
        return format!("{} - - 0 1", words(&[1e-8, 1e-8, 0.05]).trim_start());
    }
    let values = words(&[1e-8, 0.0, 0.0, 1e-4, 0.9, 1e10]);
    format!("{} - - 30 10 {}", values.trim_start(), row.gradients as u8)
}

fn ended(row: &Row) -> String {
    let mut f = chain::Chain { gradients: row.gradients };
    let end = chain::fit(&mut f, row.job, &chain::start(row.n));
    let converged = if end.converged { "yes" } else { "no" };
    let counts = format!("{} {} {}", end.iterations, end.fevals, end.gevals);
    format!("end {:?} {converged} {counts}{}{}\n", end.termination, words(&[end.f]), words(&end.x))
}

fn talk(row: &Row) -> Talk {
    let list = chain::listed(row.job, row.n, row.gradients);
    let point = words(&chain::start(row.n));
    let opening = format!("{} {}\n{}\n{}\n", JOBS[row.job as usize - 1], row.n, options(row), point.trim_start());
    let mut talk = Talk { opening, due: Vec::new(), given: Vec::new() };
    let (values, slopes) = asked(&list, row.n);
    for (i, question) in list.chunks(row.n + 1).take((values + slopes) as usize).enumerate() {
        let (x, mark) = (&question[..row.n], question[row.n]);
        let (kind, answer) = if mark == 1.0 { ('G', chain::gradient(x)) } else { ('V', vec![chain::value(x)]) };
        talk.due.push(format!("ask {} {kind}{}\n", i + 1, words(x)));
        talk.given.push(format!("{} {kind}{}\n", i + 1, words(&answer)));
    }
    talk.due.push(ended(row));
    talk
}

// All lines that a program is given for a fit.
pub fn lines(row: &Row) -> String {
    let talk = talk(row);
    talk.opening + &talk.given.concat()
}

// Nanoseconds from the first question to the end, a question. Every line is held to the one that is due.
fn passed(program: &str, talk: &Talk) -> f64 {
    let mut child = Command::new(program).stdin(Stdio::piped()).stdout(Stdio::piped()).spawn().expect(program);
    let mut to = child.stdin.take().expect("it is piped");
    let mut from = BufReader::new(child.stdout.take().expect("it is piped"));
    let mut line = String::new();
    let mut held = |due: &String| {
        line.clear();
        from.read_line(&mut line).expect("a line");
        assert_eq!(line, *due, "{program} printed another line");
    };
    to.write_all(talk.opening.as_bytes()).expect("it reads");
    held(&talk.due[0]);
    let start = Instant::now();
    for (given, due) in talk.given.iter().zip(&talk.due[1..]) {
        to.write_all(given.as_bytes()).expect("it reads");
        held(due);
    }
    let ns = start.elapsed().as_nanos() as f64;
    // the fit program goes on until its input ends
    drop(to);
    assert!(child.wait().expect("it ends").success(), "{program} failed");
    ns / talk.given.len() as f64
}

pub fn table(rows: &[Row], rounds: u64, ours: &str, rust: &str) {
    println!("job gradients n questions ours rust rust/ours");
    for row in rows {
        let talk = talk(row);
        let mut least = (f64::INFINITY, f64::INFINITY);
        for _ in 0..rounds {
            least = (least.0.min(passed(ours, &talk)), least.1.min(passed(rust, &talk)));
        }
        let (ours, rust) = least;
        let name = JOBS[row.job as usize - 1];
        let gradients = if row.gradients { "yes" } else { "no" };
        println!("{name} {gradients} {} {} {ours:.0} {rust:.0} {:.2}", row.n, talk.given.len(), rust / ours);
    }
}
