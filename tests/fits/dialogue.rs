// A dialogue with the fit program: the lines given, and the line that is due for each. Questions, ends and the refusals of
// 3 to 12 and 18 to 20 are the Rust's; the forms of lines and 2, 15, 16, 17 and the repeat are 01's rules, which the Rust has
// not.

use crate::fields::{self, Answer, V};
use crate::lines;
use crate::program::Entry;
use crate::reached::{self, Reached};
use crate::replies::{self, Verdict};
use crate::rust::{Job, Outcome, Run, Start};
use crate::runs::{self, Marks};
use crate::tellers::Teller;

enum Stage {
    Job,
    Options(Job, u64),
    Point(u64, Start),
    Answers,
    Stopped,
}

// A start that was taken, the Rust's run of it, and what that run reached.
struct Fit {
    start: Start,
    run: Run,
    marks: Marks,
}

pub struct Dialogue {
    pub entries: Vec<Entry>,
    pub reached: Reached,
    // The job as it was drawn, and from the start on as it was read.
    pub job: Job,
    // Line 1's job.
    read: Job,
    stage: Stage,
    fit: Option<Fit>,
    accepted: usize,
    // Lines that the program reads, and how many of them are bad or answers that it does not accept.
    pub lines: u64,
    pub disturbed: u64,
    teller: Teller,
    most: usize,
}

// The open question after `accepted` answers, or the outcome.
fn standing(run: &Run, accepted: usize) -> String {
    if let Some(call) = run.calls.get(accepted) {
        return replies::asked(accepted as u64 + 1, call.kind, &call.point);
    }
    replies::outcome(&run.outcome)
}

fn bits(values: &[f64]) -> Vec<u64> {
    values.iter().map(|v| v.to_bits()).collect()
}

impl Dialogue {
    pub fn new(job: Job, teller: Teller, most: usize) -> Self {
        let (entries, reached) = (Vec::new(), Reached::default());
        let (stage, fit) = (Stage::Job, None);
        Dialogue { entries, reached, job, read: job, stage, fit, accepted: 0, lines: 0, disturbed: 0, teller, most }
    }

    pub fn stopped(&self) -> bool {
        matches!(self.stage, Stage::Stopped)
    }

    pub fn accepted(&self) -> u64 {
        self.accepted as u64
    }

    // The run whose answers are being given.
    fn run(&self) -> Option<&Run> {
        if self.stopped() { None } else { self.fit.as_ref().map(|fit| &fit.run) }
    }

    // Whether the fit has an outcome, and lines are still read.
    pub fn has_ended(&self) -> bool {
        self.run().is_some_and(|run| self.accepted == run.calls.len())
    }

    // What the question of a number was told in the Rust's run, if it was told anything.
    pub fn told_at(&self, number: u64) -> Option<(char, Vec<u64>)> {
        let call = self.run()?.calls.get(number.checked_sub(1)? as usize)?;
        if call.told.is_empty() { None } else { Some((call.kind, bits(&call.told))) }
    }

    // What the open question was told.
    pub fn told(&self) -> Option<(char, Vec<u64>)> {
        self.told_at(self.accepted() + 1)
    }

    // What was last accepted.
    pub fn last_told(&self) -> Option<(char, Vec<u64>)> {
        self.told_at(self.accepted())
    }

    // Whether a line would be accepted: then it must be the answer that the Rust's run was given.
    pub fn accepts(&self, line: &str) -> bool {
        let Some(open) = self.run().map(|run| self.open(run)) else { return false };
        fields::answer(line).is_some_and(|answer| replies::verdict(&answer, self.accepted(), open) == Verdict::Accepted)
    }

    fn open(&self, run: &Run) -> Option<(char, usize)> {
        run.calls.get(self.accepted).map(|call| (call.kind, call.point.len()))
    }

    pub fn give(&mut self, line: String) {
        let (answering, accepted) = (matches!(self.stage, Stage::Answers), self.accepted);
        self.lines += !self.stopped() as u64;
        let due = match std::mem::replace(&mut self.stage, Stage::Stopped) {
            Stage::Job => lines::job(&line).map(|(job, n)| (self.begin(job, n), None)),
            Stage::Options(job, n) => lines::options(&line, job).map(|start| (Stage::Point(n, start), None)),
            Stage::Point(n, start) => lines::point(&line, n).map(|x0| self.start(start.at(x0))),
            Stage::Answers => self.heard(&line).map(|reply| (Stage::Answers, Some(reply))),
            Stage::Stopped => {
                self.reached.insert("a line after the stop");
                Some((Stage::Stopped, None))
            }
        };
        let number = self.entries.len() + 1;
        let (stage, due) = due.unwrap_or_else(|| {
            reached::note_bad(&mut self.reached, self.read, number, &line);
            (Stage::Stopped, Some(format!("bad {number}")))
        });
        let bad = due.as_ref().is_some_and(|due| due.starts_with("bad"));
        self.disturbed += (bad || answering && self.accepted == accepted) as u64;
        self.stage = stage;
        self.entries.push(Entry { line, due });
    }

    fn begin(&mut self, job: Job, n: u64) -> Stage {
        self.read = job;
        Stage::Options(job, n)
    }

    fn start(&mut self, start: Start) -> (Stage, Option<String>) {
        self.job = start.job();
        let (run, marks) = runs::run(&start, &mut self.teller, self.most);
        reached::note_start(&mut self.reached, &start, &run);
        let reply = standing(&run, 0);
        if run.calls.is_empty() {
            return (Stage::Stopped, Some(reply));
        }
        self.fit = Some(Fit { start, run, marks });
        (Stage::Answers, Some(reply))
    }

    // The reply to a line where an answer is wanted, or nothing where it is none.
    fn heard(&mut self, line: &str) -> Option<String> {
        let fit = self.fit.take().expect("answers are heard after a start");
        let answer = fields::answer(line);
        let reply = match &answer {
            Some(answer) => Some(self.answer(&fit.run, answer)),
            None => {
                self.note_bad_answer(&fit.run, line);
                None
            }
        };
        self.fit = Some(fit);
        reply
    }

    // What the dialogue reached. It is what the program was led through, not all that the Rust did.
    pub fn finish(&mut self) {
        if let Some(Fit { start, run, marks }) = &self.fit {
            runs::note(&mut self.reached, start, run, marks, self.accepted);
        }
    }

    fn answer(&mut self, run: &Run, answer: &Answer) -> String {
        let verdict = replies::verdict(answer, self.accepted(), self.open(run));
        if let Some(number) = replies::refusal(verdict) {
            self.note_refusal(run, answer, verdict);
            return format!("no {number} 0");
        }
        if verdict == Verdict::Repeat {
            self.note_repeat(run, answer);
        } else {
            assert_eq!(answer.words, bits(&run.calls[self.accepted].told), "the run was told something else");
            self.accepted += 1;
            self.reached.insert("accepted");
        }
        standing(run, self.accepted)
    }

    fn note_refusal(&mut self, run: &Run, answer: &Answer, verdict: Verdict) {
        let ended = matches!(run.outcome, Outcome::Result(_));
        if verdict == Verdict::Ended {
            self.reached.insert("no 15");
        }
        self.reached.insert(match verdict {
            Verdict::Ended if ended => "no 15: after an end",
            Verdict::Ended => "no 15: after a refusal",
            Verdict::Number if self.accepted == 0 => "no 16: before the first acceptance",
            Verdict::Number => "no 16",
            Verdict::Kind if answer.kind == V => "no 17: V for G",
            Verdict::Kind => "no 17: G for V",
            Verdict::Count(count) => reached::wrong_count(answer.kind, answer.words.len(), count),
            Verdict::Accepted | Verdict::Repeat => unreachable!("no refusal"),
        });
    }

    fn note_repeat(&mut self, run: &Run, answer: &Answer) {
        let call = &run.calls[self.accepted - 1];
        self.reached.insert("repeat");
        self.reached.insert(match &answer.words {
            _ if answer.kind != call.kind => "repeat: of another kind",
            words if *words == bits(&call.told) => "repeat: the same answer",
            words if words.len() == call.told.len() => "repeat: other words",
            _ => "repeat: of another length",
        });
        self.reached.insert(match &run.outcome {
            _ if self.accepted < run.calls.len() => "repeat: of a question",
            Outcome::Result(_) => "repeat: of an end",
            _ => "repeat: of a refusal",
        });
    }

    fn note_bad_answer(&mut self, run: &Run, line: &str) {
        let number = line.split(' ').next().and_then(fields::decimal);
        self.reached.insert("bad: an answer");
        if self.accepted > 0 && number == Some(self.accepted()) {
            self.reached.insert("bad: with the repeat's number");
        }
        if self.accepted == run.calls.len() {
            self.reached.insert("bad: after the outcome");
        }
    }
}
