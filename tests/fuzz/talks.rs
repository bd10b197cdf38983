// An input given to the program, all at once or in parts, and what its replies are counted as.

use crate::counts::Reached;
use crate::inputs::{CHANGED, CUT, EMPTY, LINES, LONG, LONGEST, MOVED, OPEN, RANDOM, TOKENS, WHOLE, ZEROS};
use crate::oracle::{self, Reply};
use crate::program::talk::{talk, Failure, Turn};
use crate::random::Random;

const BY_TURNS: &str = "given in parts";
const NOTHING: &str = "prints nothing";
const BAD: [&str; 4] = ["bad 1", "bad 2", "bad 3", "bad, at an answer"];
const ASK: &str = "ask";
const END: &str = "end";
const NO_START: &str = "no, to a start";
const NO_ANSWER: [&str; 3] = ["no 15", "no 16", "no 17"];
const NO_END: &str = "no, as an outcome";

// What inputs of a kind are to reach.
pub fn to_reach(kind: &str) -> Vec<&'static str> {
    let fit = [&[BY_TURNS, ASK, END, NO_START, NO_END], &NO_ANSWER[..]].concat();
    let bad = BAD.to_vec();
    match kind {
        RANDOM => vec![BY_TURNS, NOTHING, BAD[0]],
        TOKENS => vec![BY_TURNS, NOTHING, BAD[0], BAD[1]],
        WHOLE | OPEN | CHANGED | MOVED | LINES | CUT => [&[NOTHING][..], &bad, &fit].concat(),
        ZEROS => [bad, fit].concat(),
        LONG => [&bad[..], &fit].concat(),
        LONGEST => vec![BAD[0], BAD[1], BAD[2], BAD[3], ASK],
        EMPTY => vec![NOTHING],
        _ => Vec::new(),
    }
}

fn name(reply: &Reply) -> &'static str {
    let text = reply.text.as_str();
    match text.split(' ').collect::<Vec<_>>()[..] {
        ["ask", ..] => ASK,
        ["end", ..] => END,
        ["bad", ..] => BAD[reply.line.min(4) - 1],
        _ if reply.line == 3 => NO_START,
        _ => NO_ANSWER.into_iter().find(|name| text == format!("{name} 0")).unwrap_or(NO_END),
    }
}

fn printed(replies: &[Reply]) -> Vec<u8> {
    replies.iter().flat_map(|reply| [reply.text.as_bytes(), b"\n"]).flatten().copied().collect()
}

// Parts that end anywhere. After each the replies to the lines that have their line feed are read.
fn parts(random: &mut Random, bytes: &[u8], replies: &[Reply]) -> Vec<Turn> {
    let ends = oracle::ends(bytes);
    let mut cuts: Vec<usize> = (0..random.below(8)).map(|_| random.below(bytes.len() as u64 + 1) as usize).collect();
    cuts.extend([0, bytes.len()]);
    cuts.sort();
    let whole = |cut: usize| ends.iter().filter(|end| **end <= cut && bytes[**end - 1] == b'\n').count();
    let said = |cut: usize| replies.iter().filter(|reply| reply.line <= whole(cut)).count();
    let turn = |cut: &[usize]| {
        let due = printed(&replies[said(cut[0])..said(cut[1])]);
        Turn { given: bytes[cut[0]..cut[1]].to_vec(), due }
    };
    let mut turns: Vec<Turn> = cuts.windows(2).map(turn).collect();
    turns.push(Turn { given: Vec::new(), due: printed(&replies[said(bytes.len())..]) });
    turns
}

// The first reply that is not the one due.
fn difference(replies: &[Reply], failure: &Failure) -> String {
    let mut came = failure.came.split_inclusive(|byte| *byte == b'\n');
    let wrong = failure.wrong.clone().unwrap_or("nothing more".into());
    for reply in replies {
        let line = came.next().map(String::from_utf8_lossy);
        if line.as_ref().is_none_or(|line| *line != format!("{}\n", reply.text)) {
            let line = line.map_or(wrong, |line| line.escape_debug().to_string());
            return format!("  to line {}\n  due:  {}\n  came: {line}", reply.line, reply.text);
        }
    }
    let more = came.next().map_or(wrong, |line| String::from_utf8_lossy(line).escape_debug().to_string());
    format!("  due:  the end of the output, and status 0\n  came: {more}")
}

// What was reached, and the replies, which are just what was printed; in parts where pseudo-random numbers are given.
pub fn compare(program: &str, bytes: &[u8], by_turns: Option<&mut Random>) -> Result<(Reached, Vec<Reply>), String> {
    let replies = oracle::replies(&mut oracle::Lines::new(bytes));
    let mut reached: Reached = replies.iter().map(name).collect();
    if replies.is_empty() {
        reached.insert(NOTHING);
    }
    let turns = match by_turns {
        Some(random) => {
            reached.insert(BY_TURNS);
            parts(random, bytes, &replies)
        }
        None => vec![Turn { given: bytes.to_vec(), due: printed(&replies) }],
    };
    talk(program, &turns).map_err(|failure| difference(&replies, &failure))?;
    Ok((reached, replies))
}
