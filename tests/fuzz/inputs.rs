// Inputs, by their seeds: bytes of no form, and dialogues that are changed, cut, and made long.

use crate::channel::Channel;
use crate::fields::{self, V};
use crate::fits;
use crate::oracle::{self, Open, Source};
use crate::random::{mix, unit, Random};
use crate::rust::JOBS;
use crate::spoil::spoilt;

pub const RANDOM: &str = "random bytes";
pub const TOKENS: &str = "random fields";
pub const WHOLE: &str = "a dialogue";
pub const CHANGED: &str = "bytes changed";
pub const MOVED: &str = "bytes put in or left out";
pub const LINES: &str = "lines again, swapped or left out";
pub const CUT: &str = "cut at any byte";
pub const OPEN: &str = "no final line feed";
pub const ZEROS: &str = "binary zeros";
pub const LONG: &str = "a line of up to 10^5 bytes";
pub const LONGEST: &str = "a line of up to 10^7 bytes";
pub const EMPTY: &str = "nothing";

pub const KINDS: [&str; 12] = [RANDOM, TOKENS, WHOLE, CHANGED, MOVED, LINES, CUT, OPEN, ZEROS, LONG, LONGEST, EMPTY];

// Someone who answers by the point: three lines, then answers, some of them again or out of turn.
struct Answering<'a> {
    random: &'a mut Random,
    first: Vec<String>,
    left: u64,
    seed: u64,
    given: Vec<String>,
}

// A value by a hash of the point: any number of few, of many, and now and then any bits.
fn value(hash: u64) -> u64 {
    match hash % 16 {
        0 => mix(hash),
        1..=3 => ((hash >> 8) as i8 as f64).to_bits(),
        4..=8 => (1e3 * (unit(mix(hash)) - 0.5)).to_bits(),
        _ => unit(mix(hash)).to_bits(),
    }
}

impl Answering<'_> {
    fn answer(&mut self, open: &Open) -> String {
        let hash = open.point.iter().fold(self.seed, |hash, v| mix(hash ^ v.to_bits()));
        let count = if open.kind == V { 1 } else { open.point.len() as u64 };
        let words: Vec<u64> = (0..count).map(|i| value(mix(hash ^ i))).collect();
        format!("{} {}{}", open.number, open.kind, fields::given(&words))
    }
}

impl Source for Answering<'_> {
    fn line(&mut self, open: Option<Open>) -> Option<String> {
        if self.given.len() < self.first.len() {
            self.given.push(self.first[self.given.len()].clone());
            return self.given.last().cloned();
        }
        self.left = self.left.checked_sub(1)?;
        let again = self.given.len() > self.first.len() && self.random.chance(10);
        let line = match &open {
            Some(open) if !again => self.answer(open),
            _ => self.random.pick(&self.given),
        };
        self.given.push(line.clone());
        Some(line)
    }
}

// The first lines of a fit, whose digits may be others, and answers by the point.
fn answered(random: &mut Random, mut first: Vec<String>) -> Vec<String> {
    for line in first.iter_mut() {
        let at = random.below(line.len().max(1) as u64) as usize;
        let other = random.pick(&["0", "1", "3", "7", "9", "F"]);
        if random.chance(30) && line.as_bytes().get(at).is_some_and(|byte| byte.is_ascii_digit()) {
            line.replace_range(at..at + 1, other);
        }
    }
    let (left, seed) = (random.below(60), random.next());
    let mut source = Answering { random, first, left, seed, given: Vec::new() };
    oracle::replies(&mut source);
    source.given
}

// The lines of a fit as the driver of fits draws it, or of one that is answered by the point.
fn dialogue(random: &mut Random) -> Vec<String> {
    let job = random.pick(&JOBS).0;
    let seed = random.next();
    let fit = fits::fit(job, seed, Channel::of(seed));
    let most = if random.chance(95) { 3 + random.below(60) as usize } else { 500 };
    let mut lines: Vec<String> = fit.given.entries.into_iter().map(|entry| entry.line).take(most).collect();
    if lines.len() >= 3 && random.chance(50) {
        lines.truncate(3);
        lines = answered(random, lines);
    }
    lines
}

fn joined(lines: &[String]) -> Vec<u8> {
    lines.iter().flat_map(|line| [line.as_bytes(), b"\n"]).flatten().copied().collect()
}

// A place in the bytes: in one of the first three lines, or behind them, where most of a dialogue is.
fn place(random: &mut Random, bytes: &[u8]) -> usize {
    let third = (0..bytes.len()).filter(|at| bytes[*at] == b'\n').nth(2).map_or(bytes.len(), |at| at + 1);
    let (from, to) = if third < bytes.len() && random.chance(70) { (third, bytes.len()) } else { (0, third) };
    from + random.below((to - from).max(1) as u64) as usize
}

fn byte(random: &mut Random) -> u8 {
    let any = random.next() as u8;
    random.pick(&[any, any, b' ', b'\n', b'0', b'9', b'A', b'V', b'G', b'-', b'\r', b'\t', 0])
}

fn change(random: &mut Random, bytes: &mut [u8]) {
    for _ in 0..1 + random.below(4) {
        let at = place(random, bytes);
        if let Some(old) = bytes.get_mut(at) {
            *old = match random.below(4) {
                0 => *old ^ (1 << random.below(8)),
                1 => byte(random),
                // A line whose digits are others is still of its form.
                _ if old.is_ascii_hexdigit() => random.pick(b"01379ACF"),
                _ => *old,
            };
        }
    }
}

fn put_in_or_leave_out(random: &mut Random, bytes: &mut Vec<u8>) {
    for _ in 0..1 + random.below(3) {
        let at = place(random, bytes);
        let count = 1 + random.below(8) as usize;
        if random.chance(50) {
            let more: Vec<u8> = (0..count).map(|_| byte(random)).collect();
            bytes.splice(at..at, more);
        } else {
            bytes.drain(at..(at + count).min(bytes.len()));
        }
    }
}

fn rearrange(random: &mut Random, lines: &mut Vec<String>) {
    for _ in 0..1 + random.below(4) {
        let count = lines.len() as u64;
        if count == 0 {
            return;
        }
        let (at, other) = (random.below(count) as usize, random.below(count) as usize);
        match random.below(5) {
            0 => lines.swap(at, other),
            1 => lines.swap(at, (at + 1) % count as usize),
            2 => lines.insert(other, lines[at].clone()),
            3 => lines.insert(at, lines[at].clone()),
            _ => {
                lines.remove(at);
            }
        }
    }
}

fn zeros(random: &mut Random, bytes: &mut Vec<u8>) {
    let count = 1 + random.below(64) as usize;
    let at = place(random, bytes);
    match random.below(4) {
        0 => *bytes = vec![0; count * count],
        1 => drop(bytes.splice(at..at, vec![0; count])),
        2 => bytes[at..].iter_mut().take(count).for_each(|byte| *byte = 0),
        _ => bytes.iter_mut().filter(|byte| **byte == b'\n').skip(random.below(5) as usize).take(1).for_each(|byte| *byte = 0),
    }
}

// A line made long, by `least` to `most` bytes: zeros before a field, words behind it, or one text again and again before it.
fn lengthen(random: &mut Random, lines: &mut [String], least: f64, most: f64) {
    let at = if random.chance(50) { random.below(4) } else { random.next() } as usize % lines.len().max(1);
    let Some(line) = lines.get_mut(at) else { return };
    // As likely above their geometric mean as below it.
    let length = (least * (most / least).powf(random.unit())) as usize;
    let field = random.below(3) as usize;
    let words = random.pick(&[" 3FF0000000000000", " 0", "  ", " 3FF000000000000Z"]);
    match random.below(4) {
        0 => {
            let place = line.char_indices().filter(|(_, c)| *c == ' ').map(|(at, _)| at + 1).chain([0]).nth(field).unwrap_or(0);
            line.insert_str(place, &"0".repeat(length));
        }
        1..=2 => line.push_str(&words.repeat(length / words.len())),
        _ => {
            let text = random.pick(&["s", "0", " ", "\u{1}", "é", "1 V ", "-"]);
            line.insert_str(0, &text.repeat(length / text.len()));
        }
    }
}

fn tokens(random: &mut Random) -> Vec<u8> {
    const FIELDS: &str = "simplex bfgs lbfgs 0 1 2 16 30 - V G 3FF0000000000000 0000000000000000";
    let list: Vec<&str> = FIELDS.split(' ').chain([" ", "\n"]).collect();
    let mut bytes: Vec<u8> = if random.chance(50) { b"simplex 1\n".to_vec() } else { Vec::new() };
    for _ in 0..random.below(60) {
        bytes.extend_from_slice(random.pick(&list).as_bytes());
        bytes.push(random.pick(&[b' ', b' ', b' ', b'\n']));
    }
    bytes
}

fn cut(random: &mut Random, mut bytes: Vec<u8>) -> Vec<u8> {
    let at = place(random, &bytes);
    bytes.truncate(at);
    bytes
}

fn kind(random: &mut Random) -> &'static str {
    if random.below(5_000) == 0 {
        return LONGEST;
    }
    match random.below(100) {
        0..=7 => RANDOM,
        8..=14 => TOKENS,
        15..=19 => WHOLE,
        20..=39 => CHANGED,
        40..=54 => MOVED,
        55..=69 => LINES,
        70..=82 => CUT,
        83..=89 => OPEN,
        90..=95 => ZEROS,
        96..=98 => LONG,
        _ if random.chance(95) => WHOLE,
        _ => EMPTY,
    }
}

pub fn bytes(random: &mut Random, only: Option<&'static str>) -> (&'static str, Vec<u8>) {
    let drawn = kind(random);
    let kind = only.unwrap_or(drawn);
    let mut lines = if [RANDOM, TOKENS, EMPTY].contains(&kind) { Vec::new() } else { dialogue(random) };
    match kind {
        LINES => rearrange(random, &mut lines),
        LONG => lengthen(random, &mut lines, 1e2, 1e5),
        LONGEST => lengthen(random, &mut lines, 1e6, 1e7),
        CHANGED if random.chance(20) => {
            let at = random.next() as usize % lines.len().max(1);
            if let Some(line) = lines.get_mut(at).filter(|line| line.is_ascii()) {
                *line = spoilt(random, line);
            }
        }
        _ => {}
    }
    let mut bytes = joined(&lines);
    match kind {
        RANDOM => {
            let most = random.pick(&[2000, 100, 8]);
            bytes = (0..random.below(most)).map(|_| random.next() as u8).collect();
        }
        TOKENS => bytes = tokens(random),
        CHANGED => change(random, &mut bytes),
        MOVED => put_in_or_leave_out(random, &mut bytes),
        CUT => bytes = cut(random, bytes),
        OPEN => drop(bytes.pop()),
        ZEROS => zeros(random, &mut bytes),
        _ => {}
    }
    (kind, bytes)
}
