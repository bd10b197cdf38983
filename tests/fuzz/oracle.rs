// What the program prints for any bytes at all. The Rust is run on the lines themselves: where it calls its objective, lines are
// read until one of them is an answer that 01's rules accept, and that is what the call is told.

use crate::fields;
use crate::lines;
use crate::replies::{self, Verdict};
use crate::rust::{self, Outcome, Told};

// The open question of a fit.
pub struct Open<'a> {
    pub number: u64,
    pub kind: char,
    pub point: &'a [f64],
}

// Where lines come from: the bytes of an input, or someone who answers the open question.
pub trait Source {
    fn line(&mut self, open: Option<Open>) -> Option<String>;
}

pub struct Reply {
    // The number of the line that brings it, from 1.
    pub line: usize,
    pub text: String,
}

struct Fit<'a> {
    source: &'a mut dyn Source,
    lines: usize,
    accepted: u64,
    // The standing question or outcome.
    standing: String,
    replies: Vec<Reply>,
}

impl Fit<'_> {
    fn say(&mut self, text: String) {
        self.replies.push(Reply { line: self.lines, text });
    }

    fn stand(&mut self, text: String) {
        self.standing = text.clone();
        self.say(text);
    }

    // What the next line is read as; nothing where there is none, or a bad one, after which no more is read.
    fn read<T>(&mut self, open: Option<Open>, form: impl Fn(&str) -> Option<T>) -> Option<T> {
        let line = self.source.line(open)?;
        self.lines += 1;
        let read = form(&line);
        if read.is_none() {
            self.say(format!("bad {}", self.lines));
        }
        read
    }

    // Reads answers until one is accepted, and gives its words; nothing where that does not come about.
    fn accepted(&mut self, open: Option<(char, &[f64])>) -> Option<Vec<u64>> {
        loop {
            let asked = open.map(|(kind, point)| Open { number: self.accepted + 1, kind, point });
            let answer = self.read(asked, fields::answer)?;
            let verdict = replies::verdict(&answer, self.accepted, open.map(|(kind, point)| (kind, point.len())));
            match (verdict, replies::refusal(verdict)) {
                (Verdict::Accepted, _) => {
                    self.accepted += 1;
                    return Some(answer.words);
                }
                (_, Some(number)) => self.say(format!("no {number} 0")),
                _ => self.say(self.standing.clone()),
            }
        }
    }

    fn run(&mut self) -> Option<()> {
        let (job, n) = self.read(None, lines::job)?;
        let start = self.read(None, |line| lines::options(line, job))?;
        let x0 = self.read(None, |line| lines::point(line, n))?;
        let run = rust::run(&start.at(x0), self, usize::MAX);
        if !matches!(run.outcome, Outcome::Left) {
            self.stand(replies::outcome(&run.outcome));
            if !run.calls.is_empty() {
                self.accepted(None);
            }
        }
        Some(())
    }
}

impl Told for Fit<'_> {
    fn told(&mut self, kind: char, x: &[f64]) -> Vec<f64> {
        self.stand(replies::asked(self.accepted + 1, kind, x));
        match self.accepted(Some((kind, x))) {
            Some(words) => words.into_iter().map(f64::from_bits).collect(),
            None => rust::leave(),
        }
    }
}

pub fn replies(source: &mut dyn Source) -> Vec<Reply> {
    let mut fit = Fit { source, lines: 0, accepted: 0, standing: String::new(), replies: Vec::new() };
    fit.run();
    fit.replies
}

// The lines of an input. A byte that is no character of UTF-8 is of no form, nor is what it is read as.
pub struct Lines<'a>(&'a [u8]);

impl<'a> Lines<'a> {
    pub fn new(bytes: &'a [u8]) -> Self {
        Lines(bytes)
    }
}

impl Source for Lines<'_> {
    fn line(&mut self, _: Option<Open>) -> Option<String> {
        if self.0.is_empty() {
            return None;
        }
        let end = self.0.iter().position(|byte| *byte == b'\n');
        let (line, rest) = end.map_or((self.0, &[][..]), |at| (&self.0[..at], &self.0[at + 1..]));
        self.0 = rest;
        Some(String::from_utf8_lossy(line).into_owned())
    }
}

// Where each line of an input ends: behind its line feed, or at the input's end.
pub fn ends(bytes: &[u8]) -> Vec<usize> {
    let feeds = (0..bytes.len()).filter(|at| bytes[*at] == b'\n').map(|at| at + 1);
    let open = bytes.last().is_some_and(|last| *last != b'\n');
    feeds.chain(open.then_some(bytes.len())).collect()
}
