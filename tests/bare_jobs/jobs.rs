// Random jobs: their first lines, the right answers, and lines out of turn between and after them; and several of them in
// one input.

use crate::counts::Reached;
use crate::dialogue::Dialogue;
use crate::fields::{self, G, V};
use crate::program::Given;
use crate::random::Random;
use crate::reached;
use crate::rust::Start;
use crate::spoil::spoilt;
use crate::starts;

pub struct Session {
    // The seeds of its jobs, and what each reached.
    pub jobs: Vec<(u64, Reached)>,
    pub given: Given,
}

struct Manner {
    // Out of a hundred lines: how many are preceded by one out of turn, and by a spoilt one.
    out_of_turn: u64,
    spoilt: u64,
    zeros: u64,
}

fn decimal(random: &mut Random, manner: &Manner, number: u64, reached: &mut Reached) -> String {
    if !random.chance(manner.zeros) {
        return number.to_string();
    }
    reached.insert("a decimal with leading zeros");
    format!("{}{number}", "0".repeat(1 + random.below(25) as usize))
}

fn first_lines(random: &mut Random, manner: &Manner, start: &Start, reached: &mut Reached) -> Vec<String> {
    let words = |list: &[f64]| fields::given(&list.iter().map(|v| v.to_bits()).collect::<Vec<_>>()).trim_start().to_string();
    match start {
        Start::Differences(x) => vec!["differences".into(), words(x)],
        Start::Search(s) => {
            let evals = decimal(random, manner, s.max_evals, reached);
            let numbers = words(&[s.c1, s.c2, s.step_max, s.initial_step, s.f0]);
            vec![format!("search {} {evals}", s.gradients as u8), numbers, words(&s.x0), words(&s.d), words(&s.g)]
        }
    }
}

fn right_answer(random: &mut Random, manner: &Manner, d: &mut Dialogue, told: &(char, Vec<u64>)) -> String {
    let number = decimal(random, manner, d.accepted() + 1, &mut d.reached);
    format!("{number} {}{}", told.0, fields::given(&told.1))
}

// An answer of the right form that is not accepted.
fn out_of_turn(random: &mut Random, manner: &Manner, d: &mut Dialogue) -> String {
    let last = d.accepted();
    let far = random.next();
    let number = match random.below(8) {
        0..=2 => last,
        3..=5 => last + 1,
        6 => random.pick(&[last + 2, last.saturating_sub(1)]),
        _ => random.pick(&[0, 1, u64::MAX, far]),
    };
    let before = d.last_told().unwrap_or((V, vec![0]));
    let open = d.told().unwrap_or((V, vec![0]));
    let right = open.1.len();
    let count = random.pick(&[0, 1, 1, 2, 3, right, right + 1, right.saturating_sub(1), 16, 17, 18, 40]);
    let any = [random.next(), 0, 0x7FF8_0000_0000_0000, 0x3FF0_0000_0000_0000];
    let mut words: Vec<u64> = (0..count).map(|_| random.pick(&any)).collect();
    let mut kind = random.pick(&[V, V, G, G, open.0, open.0]);
    if random.chance(20) {
        (kind, words) = before;
    }
    let number = decimal(random, manner, number, &mut d.reached);
    let line = format!("{number} {kind}{}", fields::given(&words));
    if !d.accepts(&line) {
        return line;
    }
    format!("{number} {}{}", reached::other(kind), fields::given(&words))
}

fn give_spoilt(random: &mut Random, manner: &Manner, d: &mut Dialogue) {
    let whole = match d.told() {
        Some(told) if random.chance(50) => right_answer(random, manner, d, &told),
        _ => out_of_turn(random, manner, d),
    };
    let line = spoilt(random, &whole);
    if !d.accepts(&line) {
        d.give(line);
    }
}

fn answers(random: &mut Random, manner: &Manner, d: &mut Dialogue) {
    loop {
        while d.answers() && random.chance(manner.out_of_turn) {
            let line = out_of_turn(random, manner, d);
            d.give(line);
        }
        if d.answers() && random.chance(manner.spoilt) {
            give_spoilt(random, manner, d);
        }
        match d.told() {
            Some(told) => {
                let line = right_answer(random, manner, d, &told);
                d.give(line);
            }
            None => return,
        }
    }
}

// Lines after the outcome, and after the stop.
fn afterwards(random: &mut Random, manner: &Manner, d: &mut Dialogue) {
    if d.has_ended() {
        for _ in 0..random.below(4) {
            let line = out_of_turn(random, manner, d);
            d.give(line);
        }
        if random.chance(manner.spoilt) {
            give_spoilt(random, manner, d);
        }
    }
    if d.stopped() {
        for _ in 0..random.below(3) {
            let line = out_of_turn(random, manner, d);
            d.give(if random.chance(30) { spoilt(random, &line) } else { line });
        }
    }
}

// The first lines of a job alone, so many at most; all of them, and what follows, where there is no such bound.
fn job(d: &mut Dialogue, seed: u64, most: Option<usize>) {
    let random = &mut Random::new(seed);
    let manner = Manner {
        out_of_turn: random.pick(&[0, 0, 3, 10, 60]),
        spoilt: random.pick(&[0, 0, 0, 0, 0, 0, 0, 0, 0, 0, 0, 2, 10]),
        zeros: random.pick(&[0, 0, 5, 30]),
    };
    let start = d.begin(starts::draw(random));
    let mut first = first_lines(random, &manner, &start, &mut d.reached);
    if random.chance(5) {
        let at = random.below(first.len() as u64) as usize;
        first[at] = spoilt(random, &first[at]);
    }
    let count = first.len();
    first.into_iter().take(most.unwrap_or(count)).for_each(|line| d.give(line));
    if most.is_none() {
        answers(random, &manner, d);
        afterwards(random, &manner, d);
    }
}

// The jobs of these seeds, each ended by an empty line.
pub fn jobs(seeds: &[u64]) -> Session {
    let mut d = Dialogue::new();
    let mut reached = Vec::new();
    for &seed in seeds {
        job(&mut d, seed, None);
        if d.answers() {
            d.give(String::new());
        }
        reached.push((seed, d.take_reached()));
    }
    Session { jobs: reached, given: Given { entries: d.entries, line_by_line: false, ended: true } }
}

// The jobs from a seed on, up to six of them, as far as the program does not stop.
pub fn session(seed: u64) -> Session {
    let random = &mut Random::new(!seed);
    let count = 1 + random.below(6);
    let (mut d, mut jobs) = (Dialogue::new(), Vec::new());
    for seed in (0..count).map(|i| seed.wrapping_add(i)) {
        job(&mut d, seed, None);
        let last = jobs.len() as u64 + 1 == count || d.stopped();
        if d.answers() && (!last || random.chance(50)) {
            d.give(String::new());
        }
        jobs.push((seed, d.take_reached()));
        if last {
            break;
        }
    }
    let line_by_line = random.chance(10);
    let mut pipe = vec![if line_by_line { "talked to line by line" } else { "all lines at once" }];
    if !d.stopped() && !d.answers() && random.chance(5) {
        job(&mut d, random.next(), Some(1));
        pipe.push("the input ends in a start");
    }
    // An empty last line without its line feed would be no line.
    let ended = random.chance(80) || d.entries.last().is_none_or(|entry| entry.line.is_empty());
    if !ended {
        pipe.push("no line feed at the end");
    }
    if jobs.len() > 1 {
        pipe.push("several jobs");
    }
    jobs[0].1.extend(pipe);
    Session { jobs, given: Given { entries: d.entries, line_by_line, ended } }
}
