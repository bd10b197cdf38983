// The same fits through the engine and through the Rust, on one machine in one go: nanoseconds of own work a question.
// bench/run.sh builds it and runs it.
//
// main ROUNDS: the table of fits in one process. main ROUNDS FIT DRIVER: the table of fits over a pipe.
// For instructions.sh, main SIDE PART JOB GRADIENTS N: one fit, or the objective's part in it; main lines JOB GRADIENTS N:
// the lines that a program is given for it.

mod chain;
mod pipe;
mod sides;

use sides::{asked, compared, engine_fit, engine_listed, engine_objective, rows, rust_fit, rust_objective, Row, JOBS};
use std::hint::black_box;
use std::time::Instant;

// The least nanoseconds of one call, where a round makes `calls`.
struct Least(f64);

impl Least {
    fn round(&mut self, calls: u64, mut call: impl FnMut()) {
        let start = Instant::now();
        for _ in 0..calls {
            call();
        }
        self.0 = self.0.min(start.elapsed().as_nanos() as f64 / calls as f64);
    }
}

// The calls that take about two milliseconds.
fn calls(mut call: impl FnMut()) -> u64 {
    let start = Instant::now();
    call();
    (2_000_000 / start.elapsed().as_nanos().max(1)).clamp(1, 100_000) as u64
}

// Nanoseconds a fit on each side, and nanoseconds of the objective's part in it. The four take turns, and the least of all
// rounds is taken, so that what else the machine does falls on none of them alone.
fn measured(row: &Row, (values, slopes): (u64, u64), rounds: u64) -> [f64; 4] {
    let x = chain::start(row.n);
    let ours = || {
        black_box(engine_fit(black_box(row), &mut []));
    };
    let rust = || {
        black_box(rust_fit(black_box(row), black_box(&x)));
    };
    let part = |f: fn(usize, bool, u64) -> f64| {
        black_box(f(black_box(row.n), black_box(false), values));
        black_box(f(black_box(row.n), black_box(true), slopes));
    };
    let times = [calls(ours), calls(rust), calls(|| part(engine_objective)), calls(|| part(rust_objective))];
    let mut least = [(); 4].map(|()| Least(f64::INFINITY));
    for _ in 0..rounds {
        least[0].round(times[0], ours);
        least[1].round(times[1], rust);
        least[2].round(times[2], || part(engine_objective));
        least[3].round(times[3], || part(rust_objective));
    }
    least.map(|l| l.0)
}

fn table(rounds: u64) {
    println!("job gradients n questions objective_ours objective_rust ours rust rust/ours");
    for row in rows() {
        let counts = compared(&row);
        let questions = (counts.0 + counts.1) as f64;
        let [ours, rust, ours_part, rust_part] = measured(&row, counts, rounds).map(|ns| ns / questions);
        let own = (ours - ours_part, rust - rust_part);
        println!(
            "{} {} {} {} {:.0} {:.0} {:.0} {:.0} {:.2}",
            JOBS[row.job as usize - 1],
            if row.gradients { "yes" } else { "no" },
            row.n,
            questions,
            ours_part,
            rust_part,
            own.0,
            own.1,
            own.1 / own.0
        );
    }
}

// A name of its own, so that a profiler can be told to count in it alone.
#[no_mangle]
#[inline(never)]
fn collected(call: &dyn Fn() -> f64) -> f64 {
    black_box(call())
}

// One fit of a side, or the evaluations that its questions ask for; prints the count of questions.
fn once(side: &str, part: &str, row: Row) {
    let (values, slopes) = asked(&engine_listed(&row), row.n);
    let x = chain::start(row.n);
    let both = |f: fn(usize, bool, u64) -> f64| f(row.n, false, values) + f(row.n, true, slopes);
    match (side, part) {
        ("ours", "fit") => collected(&|| engine_fit(&row, &mut []) as f64),
        ("rust", "fit") => collected(&|| rust_fit(&row, &x)),
        ("ours", "objective") => collected(&|| both(engine_objective)),
        ("rust", "objective") => collected(&|| both(rust_objective)),
        _ => panic!("a side is ours or rust, a part fit or objective"),
    };
    println!("{}", values + slopes);
}

fn main() {
    let args: Vec<String> = std::env::args().skip(1).collect();
    let args: Vec<&str> = args.iter().map(String::as_str).collect();
    let number = |text: &str| text.parse::<u64>().expect("a number");
    let row = |job, gradients, n| Row { job: number(job), gradients: gradients == "yes", n: number(n) as usize };
    match args[..] {
        [rounds] => table(number(rounds)),
        [rounds, ours, rust] => pipe::table(&rows(), number(rounds), ours, rust),
        ["lines", job, gradients, n] => print!("{}", pipe::lines(&row(job, gradients, n))),
        [side, part, job, gradients, n] => once(side, part, row(job, gradients, n)),
        _ => eprintln!("main ROUNDS, main ROUNDS FIT DRIVER, main SIDE PART JOB GRADIENTS N, or main lines JOB GRADIENTS N"),
    }
}
