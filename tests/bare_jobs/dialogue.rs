// A dialogue with the program test_bare_jobs: the lines given, job after job, and the line that is due for each. Questions,
// outcomes and the refusals of 5 to 14 are the Rust's; the forms of lines and 1, 2, 15, 16, 17 and the repeat are 01's rules,
// which the Rust has not.

use crate::counts::Reached;
use crate::fields::{self, Answer, G, V};
use crate::lines::{self, Job};
use crate::program::Entry;
use crate::reached;
use crate::rust::{self, Outcome, Run, Start};
use crate::search::Search;
use crate::shadow;
use crate::starts::Drawn;
use crate::tellers::Teller;

enum Stage {
    Job,
    Numbers(bool, u64),
    Start(Search),
    Direction(Search),
    Gradient(Search),
    Point,
    Answers,
    Stopped,
}

pub struct Dialogue {
    pub entries: Vec<Entry>,
    pub reached: Reached,
    stage: Stage,
    // What the job is told, and after how many calls it is left.
    teller: Option<(Teller, usize)>,
    // The start that was read, and the Rust's run of it.
    job: Option<(Start, Run)>,
    accepted: usize,
}

type Due = Option<(Stage, Option<String>)>;

// The open question after `accepted` answers, or the outcome.
fn standing(run: &Run, accepted: usize) -> String {
    if let Some(call) = run.calls.get(accepted) {
        return format!("ask {} {}{}", accepted + 1, call.kind, fields::printed(&call.point));
    }
    match &run.outcome {
        Outcome::Found(r) => {
            let success = if r.success { "yes" } else { "no" };
            let values = fields::printed(&[r.step, r.f]);
            format!("searched {success}{values} {}{}{}", r.evals, fields::printed(&r.x), fields::printed(&r.g))
        }
        Outcome::Gradient(g) => format!("differenced{}", fields::printed(g)),
        Outcome::Refusal(number, detail) => format!("no {number} {detail}"),
        Outcome::Left => unreachable!("the last question of a job that was left is not answered"),
    }
}

impl Dialogue {
    pub fn new() -> Self {
        let (entries, reached) = (Vec::new(), Reached::new());
        Dialogue { entries, reached, stage: Stage::Job, teller: None, job: None, accepted: 0 }
    }

    // The job that comes next is told as drawn.
    pub fn begin(&mut self, drawn: Drawn) -> Start {
        self.teller = Some((drawn.teller, drawn.most));
        drawn.start
    }

    pub fn stopped(&self) -> bool {
        matches!(self.stage, Stage::Stopped)
    }

    // Whether an answer is due.
    pub fn answers(&self) -> bool {
        matches!(self.stage, Stage::Answers)
    }

    pub fn accepted(&self) -> u64 {
        self.accepted as u64
    }

    fn run(&self) -> Option<&Run> {
        if self.answers() { self.job.as_ref().map(|(_, run)| run) } else { None }
    }

    // Whether the job has its outcome, and lines are still read.
    pub fn has_ended(&self) -> bool {
        self.run().is_some_and(|run| self.accepted == run.calls.len())
    }

    fn words(&self, at: Option<usize>) -> Option<(char, Vec<u64>)> {
        let call = self.run()?.calls.get(at?)?;
        let words: Vec<u64> = call.told.iter().map(|v| v.to_bits()).collect();
        if words.is_empty() { None } else { Some((call.kind, words)) }
    }

    // The kind of the open question and what it was told in the Rust's run, if it was told something.
    pub fn told(&self) -> Option<(char, Vec<u64>)> {
        self.words(Some(self.accepted))
    }

    pub fn last_told(&self) -> Option<(char, Vec<u64>)> {
        self.words(self.accepted.checked_sub(1))
    }

    // Whether a line would be accepted: then it must be the answer that the Rust's run was given.
    pub fn accepts(&self, line: &str) -> bool {
        let Some(call) = self.run().and_then(|run| run.calls.get(self.accepted)) else { return false };
        let count = if call.kind == V { 1 } else { call.point.len() };
        let right = |a: Answer| a.number == self.accepted() + 1 && a.kind == call.kind && a.words.len() == count;
        fields::answer(line).is_some_and(right)
    }

    // What a line that is due here is, if it is bad.
    fn place(&self) -> &'static str {
        match self.stage {
            Stage::Job => "bad: a first line",
            Stage::Numbers(..) => "bad: five numbers",
            Stage::Answers => "bad: an answer",
            _ => "bad: a list",
        }
    }

    pub fn give(&mut self, line: String) {
        let (list, place) = (lines::list(&line), self.place());
        let due: Due = match std::mem::replace(&mut self.stage, Stage::Stopped) {
            Stage::Job => lines::job(&line).map(|job| (self.first(job), None)),
            Stage::Numbers(gradients, evals) => lines::numbers(&line, gradients, evals).map(|s| (Stage::Start(s), None)),
            Stage::Start(s) => list.map(|x0| (Stage::Direction(Search { x0, ..s }), None)),
            Stage::Direction(s) => list.map(|d| (Stage::Gradient(Search { d, ..s }), None)),
            Stage::Gradient(s) => list.map(|g| self.start(Start::Search(Search { g, ..s }))),
            Stage::Point => list.map(|x| self.start(Start::Differences(x))),
            Stage::Answers if line.is_empty() => {
                self.note_job();
                Some((Stage::Job, None))
            }
            Stage::Answers => self.heard(&line).map(|reply| (Stage::Answers, Some(reply))),
            Stage::Stopped => {
                self.reached.insert("a line after the stop");
                Some((Stage::Stopped, None))
            }
        };
        let number = self.entries.len() + 1;
        let (stage, due) = due.unwrap_or_else(|| {
            reached::note_bad(&mut self.reached, &line, place);
            (Stage::Stopped, Some(format!("bad {number}")))
        });
        self.stage = stage;
        self.entries.push(Entry { line, due });
    }

    fn first(&mut self, job: Job) -> Stage {
        match job {
            Job::Search { gradients, max_evals } => Stage::Numbers(gradients, max_evals),
            Job::Differences => Stage::Point,
        }
    }

    fn start(&mut self, start: Start) -> (Stage, Option<String>) {
        let (mut teller, most) = self.teller.take().expect("each job that is begun was drawn");
        let run = rust::run(&start, &mut teller, most);
        reached::note_start(&mut self.reached, &start, &run);
        let reply = standing(&run, 0);
        (self.job, self.accepted) = (Some((start, run)), 0);
        (Stage::Answers, Some(reply))
    }

    // What the job reached, as far as the program was led.
    fn note_job(&mut self) {
        if let Some((start, run)) = self.job.take() {
            if let Start::Search(search) = &start {
                if !run.calls.is_empty() {
                    let marks = shadow::marks(search, &run);
                    self.reached.extend(marks.iter().filter(|(calls, _)| *calls <= self.accepted).map(|(_, name)| name));
                }
            }
            reached::note_end(&mut self.reached, &start, &run, self.accepted);
        }
    }

    // What was reached since this was asked last.
    pub fn take_reached(&mut self) -> Reached {
        self.note_job();
        std::mem::take(&mut self.reached)
    }

    // The reply to a line where an answer is wanted, or nothing where it is none.
    fn heard(&mut self, line: &str) -> Option<String> {
        let (start, run) = self.job.take().expect("answers are heard after a start");
        let reply = fields::answer(line).map(|answer| self.answer(&run, &answer));
        self.job = Some((start, run));
        reply
    }

    // 01: an answer meets 1, the repeat rule, then 15 to 17; before the first acceptance no number is a repeat.
    fn answer(&mut self, run: &Run, answer: &Answer) -> String {
        let (last, over) = (self.accepted(), self.accepted == run.calls.len());
        if matches!(run.outcome, Outcome::Refusal(..)) {
            return self.refused("no 1: after a refused start", 1);
        }
        if last > 0 && answer.number == last {
            reached::note_repeat(&mut self.reached, run, self.accepted, answer);
            return standing(run, self.accepted);
        }
        if over {
            let searched = matches!(run.outcome, Outcome::Found(_));
            return self.refused(if searched { "no 15: after a search" } else { "no 15: after differences" }, 15);
        }
        if answer.number != last + 1 {
            return self.refused(if last == 0 { "no 16: before the first acceptance" } else { "no 16" }, 16);
        }
        let call = &run.calls[self.accepted];
        if answer.kind != call.kind {
            return self.refused(if call.kind == G { "no 17: V for G" } else { "no 17: G for V" }, 17);
        }
        let count = if call.kind == V { 1 } else { call.point.len() };
        if answer.words.len() != count {
            let name = reached::wrong_count(call.kind, answer.words.len(), count);
            return self.refused(name, 17);
        }
        let told: Vec<u64> = call.told.iter().map(|v| v.to_bits()).collect();
        assert_eq!(answer.words, told, "the run was told something else");
        self.accepted += 1;
        self.reached.insert(if call.kind == V { "accepted: V" } else { "accepted: G" });
        standing(run, self.accepted)
    }

    fn refused(&mut self, name: &'static str, number: u64) -> String {
        self.reached.insert(name);
        format!("no {number} 0")
    }
}
