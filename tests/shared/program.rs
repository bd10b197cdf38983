// Gives lines to the program that is compared, and holds each line that it prints to the one that is due.

#[path = "talk.rs"]
pub mod talk;

use talk::{Failure, Turn};

pub struct Entry {
    pub line: String,
    pub due: Option<String>,
}

// The lines that one process is given.
pub struct Given {
    pub entries: Vec<Entry>,
    // Whether each reply is read before the next line is given.
    pub line_by_line: bool,
    // Whether the last line has its line feed.
    pub ended: bool,
}

pub struct Difference {
    // The number of the line given, and the line.
    pub number: usize,
    pub line: String,
    pub due: String,
    pub came: String,
}

impl Difference {
    pub fn report(&self, name: &str, given: &Given) {
        println!("{}", self.text(name, given));
    }

    pub fn text(&self, name: &str, given: &Given) -> String {
        let manner = if given.line_by_line { "line by line" } else { "all lines at once" };
        let came = self.came.trim_end_matches('\n').escape_debug();
        let line = self.line.escape_debug();
        format!("differs: {name}, given {manner}, at line {}\n  line: {line}\n  due:  {}\n  came: {came}", self.number, self.due)
    }
}

fn due(entry: &Entry) -> Vec<u8> {
    entry.due.as_ref().map_or(Vec::new(), |due| format!("{due}\n").into_bytes())
}

fn at_once(given: &Given) -> Vec<Turn> {
    let mut input: String = given.entries.iter().flat_map(|entry| [&entry.line, "\n"]).collect();
    if !given.ended {
        input.pop();
    }
    vec![Turn { given: input.into_bytes(), due: given.entries.iter().flat_map(due).collect() }]
}

// Each line in two parts, since nothing makes a line arrive whole.
fn line_by_line(given: &Given) -> Vec<Turn> {
    let mut turns = Vec::new();
    for (i, entry) in given.entries.iter().enumerate() {
        let (head, tail) = entry.line.as_bytes().split_at(entry.line.len() / 2);
        let ended = given.ended || i + 1 < given.entries.len();
        turns.push(Turn { given: head.to_vec(), due: Vec::new() });
        turns.push(Turn { given: [tail, if ended { b"\n" } else { b"" }].concat(), due: due(entry) });
    }
    // With its line feed the last line brings its reply before the input ends.
    if given.ended || turns.is_empty() {
        turns.push(Turn { given: Vec::new(), due: Vec::new() });
    }
    turns
}

// The first line whose reply is not the one that is due.
fn difference(given: &Given, failure: &Failure) -> Difference {
    let mut came = failure.came.split_inclusive(|byte| *byte == b'\n');
    let wrong = || failure.wrong.clone().unwrap_or("nothing, the output has ended".into());
    for (i, entry) in given.entries.iter().enumerate() {
        if let Some(due) = &entry.due {
            let line = came.next().map_or_else(wrong, |line| String::from_utf8_lossy(line).into_owned());
            if line != format!("{due}\n") {
                return Difference { number: i + 1, line: entry.line.clone(), due: due.clone(), came: line };
            }
        }
    }
    let line = given.entries.last().map_or(String::new(), |entry| entry.line.clone());
    let more = came.next().map_or_else(wrong, |line| String::from_utf8_lossy(line).into_owned());
    Difference { number: given.entries.len(), line, due: "the end of the output, and status 0".into(), came: more }
}

pub fn compare(program: &str, given: &Given) -> Result<(), Difference> {
    let turns = if given.line_by_line { line_by_line(given) } else { at_once(given) };
    talk::talk(program, &turns).map_err(|failure| difference(given, &failure))
}
