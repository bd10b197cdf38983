// The Rust's optimizers as a program over a pipe: it reads the lines that crates/fit/out/fit reads and prints the lines that it
// prints, for the benchmark. What it reads is taken to be of its form.
use std::fmt::Write as _;
use std::io::{stdin, stdout, BufRead, StdinLock, StdoutLock, Write as _};
use tsecon_optim::{bfgs, lbfgs, nelder_mead, BfgsOptions, LbfgsOptions, NelderMeadOptions, ObjectiveFn, WolfeOptions};

// The objective is whoever is at the other end.
struct Pipe {
    from: StdinLock<'static>,
    to: StdoutLock<'static>,
    line: String,
    number: u64,
    gradients: bool,
}

fn word(field: &str) -> f64 {
    f64::from_bits(u64::from_str_radix(field, 16).expect("a word"))
}

fn words(line: &mut String, values: &[f64]) {
    for value in values {
        write!(line, " {:016X}", value.to_bits()).expect("a string takes all");
    }
}

impl Pipe {
    fn read(&mut self) -> Vec<String> {
        self.line.clear();
        self.from.read_line(&mut self.line).expect("a line");
        self.line.split_whitespace().map(str::to_owned).collect()
    }

    fn print(&mut self) {
        self.line.push('\n');
        self.to.write_all(self.line.as_bytes()).and_then(|()| self.to.flush()).expect("the other end reads");
    }

    // Puts a question; the words of its answer are left in `line`.
    fn ask(&mut self, kind: char, x: &[f64]) {
        self.number += 1;
        self.line.clear();
        write!(self.line, "ask {} {kind}", self.number).expect("a string takes all");
        words(&mut self.line, x);
        self.print();
        self.line.clear();
        self.from.read_line(&mut self.line).expect("a line");
    }

    fn told(&self) -> impl Iterator<Item = f64> + '_ {
        self.line.split_ascii_whitespace().skip(2).map(word)
    }
}

impl ObjectiveFn for Pipe {
    fn value(&mut self, x: &[f64]) -> f64 {
        self.ask('V', x);
        self.told().next().expect("a value")
    }

    fn gradient(&mut self, x: &[f64]) -> Option<Vec<f64>> {
        if !self.gradients {
            return None;
        }
        self.ask('G', x);
        Some(self.told().collect())
    }
}

fn allowed(field: &str) -> Option<usize> {
    (field != "-").then(|| field.parse().expect("a number"))
}

fn simplex(o: &[String]) -> NelderMeadOptions {
    NelderMeadOptions {
        x_tol: word(&o[0]),
        f_tol: word(&o[1]),
        initial_step: word(&o[2]),
        max_iter: allowed(&o[3]),
        max_fevals: allowed(&o[4]),
        restarts: o[5].parse().expect("a number"),
        adaptive: o[6] == "1",
    }
}

fn gradient(o: &[String]) -> LbfgsOptions {
    let number = |i: usize| o[i].parse().expect("a number");
    let line_search = WolfeOptions { c1: word(&o[3]), c2: word(&o[4]), step_max: word(&o[5]), max_evals: number(8) };
    let (max_iter, max_fevals) = (allowed(&o[6]), allowed(&o[7]));
    LbfgsOptions { memory: number(9), grad_tol: word(&o[0]), f_tol: word(&o[1]), x_tol: word(&o[2]), max_iter, max_fevals, line_search }
}

fn dense(o: LbfgsOptions) -> BfgsOptions {
    let LbfgsOptions { grad_tol, f_tol, x_tol, max_iter, max_fevals, line_search, .. } = o;
    BfgsOptions { grad_tol, f_tol, x_tol, max_iter, max_fevals, line_search }
}

fn main() {
    let mut pipe = Pipe { from: stdin().lock(), to: stdout().lock(), line: String::new(), number: 0, gradients: false };
    let (job, options, point) = (pipe.read(), pipe.read(), pipe.read());
    let x: Vec<f64> = point.iter().map(|field| word(field)).collect();
    pipe.gradients = job[0] != "simplex" && options[10] == "1";
    let ended = match job[0].as_str() {
        "simplex" => nelder_mead(&mut pipe, &x, &simplex(&options)),
        "bfgs" => bfgs(&mut pipe, &x, &dense(gradient(&options))),
        _ => lbfgs(&mut pipe, &x, &gradient(&options)),
    };
    let end = ended.expect("a fit that is not refused");
    let converged = if end.converged { "yes" } else { "no" };
    pipe.line = format!("end {:?} {converged} {} {} {}", end.termination, end.iterations, end.fevals, end.gevals);
    words(&mut pipe.line, &[&[end.f], &end.x[..]].concat());
    pipe.print();
}
