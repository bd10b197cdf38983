// A random fit: its start, the right answers, and lines out of turn between and after them.

use crate::channel::{self, Channel};
use crate::dialogue::Dialogue;
use crate::fields::{self, G, V};
use crate::gradient_starts;
use crate::gradients::Gradients;
use crate::program::Given;
use crate::random::Random;
use crate::reached::Reached;
use crate::rust::{Job, Start};
use crate::simplex_starts;
use crate::spoil::spoilt;
use crate::tellers::{Kind, Teller};

pub struct Fit {
    pub seed: u64,
    // As the program was given it.
    pub job: Job,
    pub given: Given,
    pub reached: Reached,
    // Of the lines given: those that the program reads, and of them those that disturb.
    pub lines: u64,
    pub disturbed: u64,
}

struct Manner {
    // Out of a hundred lines: how many are preceded by one out of turn, and by a spoilt one.
    out_of_turn: u64,
    spoilt: u64,
    zeros: u64,
}

fn decimal(random: &mut Random, manner: &Manner, number: u64, reached: &mut Reached) -> String {
    if !random.chance(manner.zeros) {
        return number.to_string();
    }
    reached.insert("a decimal with leading zeros");
    format!("{}{number}", "0".repeat(1 + random.below(25) as usize))
}

fn bits(values: &[f64]) -> String {
    fields::given(&values.iter().map(|v| v.to_bits()).collect::<Vec<_>>()).trim_start().to_string()
}

fn start_lines(random: &mut Random, manner: &Manner, start: &Start, reached: &mut Reached) -> Vec<String> {
    let x0 = start.x0();
    let n = decimal(random, manner, x0.len() as u64, reached);
    let mut number = |number: u64| decimal(random, manner, number, reached);
    let mut allowance = |given: Option<u64>| given.map_or("-".into(), |most| number(most));
    let [max_iter, max_fevals] = start.allowances().map(|given| allowance(given));
    let (floats, rest, flag) = match start {
        Start::Simplex(s) => (bits(&[s.x_tol, s.f_tol, s.initial_step]), number(s.restarts), s.adaptive),
        Start::Gradient(g) => {
            let floats = bits(&[g.grad_tol, g.f_tol, g.x_tol, g.c1, g.c2, g.step_max]);
            (floats, format!("{} {}", number(g.max_evals), number(g.memory)), g.gradients)
        }
    };
    let options = format!("{floats} {max_iter} {max_fevals} {rest} {}", flag as u8);
    vec![format!("{} {n}", start.job().name()), options, bits(x0)]
}

fn right_answer(random: &mut Random, manner: &Manner, d: &mut Dialogue, told: &(char, Vec<u64>)) -> String {
    let number = decimal(random, manner, d.accepted() + 1, &mut d.reached);
    format!("{number} {}{}", told.0, fields::given(&told.1))
}

// An answer of the right form that is not accepted.
fn out_of_turn(random: &mut Random, manner: &Manner, d: &mut Dialogue) -> String {
    let last = d.accepted();
    let far = random.next();
    let number = match random.below(8) {
        0..=2 => last,
        3..=4 => last + 1,
        5 => last + 2,
        6 => last.saturating_sub(1),
        _ => random.pick(&[0, 1, u64::MAX, far]),
    };
    let (open, right) = d.told().map_or((V, 1), |(kind, words)| (kind, words.len()));
    let before = d.last_told();
    let (counts, kinds) = match d.job {
        Job::Simplex => (vec![0, 1, 1, 1, 1, 2, 3, 16, 17, 18, 40], [V, V, G]),
        _ => (vec![0, 1, 1, 2, 3, right, right, right + 1, right.saturating_sub(1), 17, 18, 40], [V, G, open]),
    };
    let count = if random.chance(1) { 1000 } else { random.pick(&counts) };
    let first = before.as_ref().map_or(0, |(_, words)| words[0]);
    let any = [random.next(), 0, 0x7FF8_0000_0000_0000, 0x3FF0_0000_0000_0000, first];
    let mut words: Vec<u64> = (0..count).map(|_| random.pick(&any)).collect();
    let mut kind = random.pick(&kinds);
    if let Some(before) = before.filter(|_| d.job != Job::Simplex && random.chance(20)) {
        (kind, words) = before;
    }
    let number = decimal(random, manner, number, &mut d.reached);
    let other = if kind == V { G } else { V };
    let line = |kind: char| format!("{number} {kind}{}", fields::given(&words));
    if d.accepts(&line(kind)) { line(other) } else { line(kind) }
}

fn give_spoilt(random: &mut Random, manner: &Manner, d: &mut Dialogue) {
    let whole = match d.told() {
        Some(told) if random.chance(50) => right_answer(random, manner, d, &told),
        _ => out_of_turn(random, manner, d),
    };
    let line = spoilt(random, &whole);
    if !d.accepts(&line) {
        d.give(line);
    }
}

fn answers(random: &mut Random, manner: &Manner, channel: &mut Channel, d: &mut Dialogue) {
    loop {
        while !d.stopped() && random.chance(manner.out_of_turn) {
            let line = out_of_turn(random, manner, d);
            d.give(line);
        }
        if !d.stopped() && random.chance(manner.spoilt) {
            give_spoilt(random, manner, d);
        }
        channel.disturb(d);
        match d.told() {
            Some(told) => {
                let line = right_answer(random, manner, d, &told);
                d.give(line);
            }
            None => return,
        }
    }
}

// Lines after the outcome, and after the stop.
fn afterwards(random: &mut Random, manner: &Manner, d: &mut Dialogue) {
    if d.has_ended() {
        for _ in 0..random.below(4) {
            let line = out_of_turn(random, manner, d);
            d.give(line);
        }
        if random.chance(10) {
            give_spoilt(random, manner, d);
        }
    }
    if d.stopped() {
        for _ in 0..random.below(3) {
            let line = out_of_turn(random, manner, d);
            d.give(if random.chance(30) { spoilt(random, &line) } else { line });
        }
    }
}

struct Drawn {
    start: Start,
    teller: Teller,
    most: usize,
}

fn draw(random: &mut Random, job: Job) -> Drawn {
    if job == Job::Simplex {
        let simplex_starts::Drawn { start, objective, most } = simplex_starts::draw(random);
        let teller = Teller::new(objective, Gradients::Exact, 0, Kind::Function);
        return Drawn { start: Start::Simplex(start), teller, most };
    }
    let gradient_starts::Drawn { start, teller, most } = gradient_starts::draw(random, job == Job::Lbfgs);
    Drawn { start: Start::Gradient(start), teller, most }
}

// Lines 1 to 3, now and then one of them spoilt or a gradient fit's job another one, and fewer of them.
fn first_lines(random: &mut Random, manner: &Manner, d: &mut Dialogue, start: &Start) -> Vec<String> {
    let mut first = start_lines(random, manner, start, &mut d.reached);
    if random.chance(10) {
        let at = random.below(3) as usize;
        first[at] = spoilt(random, &first[at]);
    }
    if d.job != Job::Simplex && random.chance(1) {
        first[0] = first[0].replacen(d.job.name(), random.pick(&["simplex", "bfgs", "lbfgs"]), 1);
    }
    if random.chance(1) {
        first.truncate(random.below(3) as usize);
        d.reached.insert("the input ends before line 3");
    }
    first
}

pub fn fit(job: Job, seed: u64, mut channel: Channel) -> Fit {
    let random = &mut Random::new(seed);
    let manner = Manner {
        out_of_turn: random.pick(&[0, 0, 3, 10, 60]),
        spoilt: random.pick(&[0, 0, 0, 0, 0, 0, 0, 0, 2, 10]),
        zeros: random.pick(&[0, 0, 5, 30]),
    };
    let drawn = draw(random, job);
    let mut d = Dialogue::new(job, drawn.teller, drawn.most);
    let first = first_lines(random, &manner, &mut d, &drawn.start);
    let whole = first.len() == 3;
    first.into_iter().for_each(|line| d.give(line));
    if whole {
        answers(random, &manner, &mut channel, &mut d);
        afterwards(random, &manner, &mut d);
    }
    d.finish();
    let line_by_line = random.chance(5);
    // An empty last line without its line feed would be no line.
    let ended = random.chance(90) || d.entries.last().is_none_or(|entry| entry.line.is_empty());
    d.reached.insert(if line_by_line { "talked to line by line" } else { "all lines at once" });
    if !ended {
        d.reached.insert("no line feed at the end");
    }
    channel::note_rate(&mut d.reached, d.lines, d.disturbed);
    let given = Given { entries: d.entries, line_by_line, ended };
    Fit { seed, job: d.job, given, reached: d.reached, lines: d.lines, disturbed: d.disturbed }
}
