// A talk with one process of the program: pieces of its input, and what it is to print after each.

use std::io::{ErrorKind, Read, Write};
use std::process::{Child, ChildStderr, ChildStdin, ChildStdout, Command, Stdio};
use std::sync::{Mutex, MutexGuard, Once};
use std::thread;
use std::time::{Duration, Instant};

// How long what is due may take: past this the program is held to hang, or to be waiting for more input.
const PATIENCE: Duration = Duration::from_secs(20);
// As much as a pipe holds, so that writing it waits for nobody.
const PIPE: usize = 1 << 16;
// The least that is read at once.
const PART: usize = 1 << 13;

pub struct Turn {
    pub given: Vec<u8>,
    // What is printed before the next turn's bytes are given, or, in the last turn, before the output ends.
    pub due: Vec<u8>,
}

// All that came, and what was wrong besides, if anything was.
pub struct Failure {
    pub came: Vec<u8>,
    pub wrong: Option<String>,
}

struct Watched {
    child: Child,
    until: Instant,
    late: bool,
}

// The process in hand. One that is late is ended, so that whoever reads from it or writes to it goes on.
static WATCHED: Mutex<Option<Watched>> = Mutex::new(None);
static WATCH: Once = Once::new();

fn watched() -> MutexGuard<'static, Option<Watched>> {
    WATCHED.lock().expect("nothing panics with the process in hand")
}

fn watch() {
    loop {
        thread::sleep(Duration::from_millis(500));
        if let Some(process) = watched().as_mut().filter(|process| Instant::now() > process.until) {
            process.late = true;
            // It may have ended by itself just now.
            let _ = process.child.kill();
        }
    }
}

fn extend() {
    if let Some(process) = watched().as_mut() {
        process.until = Instant::now() + PATIENCE;
    }
}

struct Pipes {
    stdin: Option<ChildStdin>,
    stdout: ChildStdout,
    stderr: ChildStderr,
    came: Vec<u8>,
    errors: Vec<u8>,
}

fn begin(program: &str) -> Pipes {
    WATCH.call_once(|| {
        thread::spawn(watch);
    });
    let child = Command::new(program).stdin(Stdio::piped()).stdout(Stdio::piped()).stderr(Stdio::piped()).spawn();
    let mut child = child.unwrap_or_else(|error| panic!("{program}: {error}"));
    let stdin = child.stdin.take();
    let stdout = child.stdout.take().expect("its output is piped");
    let stderr = child.stderr.take().expect("its standard error is piped");
    *watched() = Some(Watched { child, until: Instant::now() + PATIENCE, late: false });
    Pipes { stdin, stdout, stderr, came: Vec::with_capacity(PART), errors: Vec::new() }
}

// A program that has stopped takes no more bytes, so that writing to it may fail.
fn write(stdin: &mut Option<ChildStdin>, bytes: &[u8]) {
    if let Some(to) = stdin {
        match to.write_all(bytes) {
            Err(error) if error.kind() != ErrorKind::BrokenPipe => panic!("writing to the program: {error}"),
            _ => {}
        }
    }
}

// Reads until `count` bytes have come in all, or to the end of the output.
fn read(stdout: &mut ChildStdout, came: &mut Vec<u8>, count: usize) {
    let mut part = [0; PART];
    while came.len() < count {
        match stdout.read(&mut part) {
            Ok(0) => return,
            Ok(more) => came.extend_from_slice(&part[..more]),
            Err(error) if error.kind() == ErrorKind::Interrupted => {}
            Err(error) => panic!("reading from the program: {error}"),
        }
    }
}

impl Pipes {
    // Gives bytes and reads until `count` have come. Beside each other where a pipe could fill up on both sides.
    fn turn(&mut self, bytes: &[u8], last: bool, count: usize) {
        extend();
        let (mut stdin, stdout, came) = (self.stdin.take(), &mut self.stdout, &mut self.came);
        let give = move || {
            write(&mut stdin, bytes);
            if last { None } else { stdin }
        };
        if bytes.len() <= PIPE {
            self.stdin = give();
            return read(stdout, came, count);
        }
        self.stdin = thread::scope(|scope| {
            let given = scope.spawn(give);
            read(stdout, came, count);
            given.join().expect("writing to the program does not panic")
        });
    }

    // The last turn. Where the pipe holds all that is due, it is read once the program has ended, which is when its standard
    // error does: so nobody is woken for each line.
    fn last_turn(&mut self, bytes: &[u8], due: usize) {
        if bytes.len() <= PIPE && due <= PIPE / 2 {
            self.turn(bytes, true, 0);
            self.read_errors();
            self.turn(b"", true, usize::MAX);
        } else {
            self.turn(bytes, true, usize::MAX);
            self.read_errors();
        }
    }

    fn read_errors(&mut self) {
        self.stderr.read_to_end(&mut self.errors).expect("its standard error is read");
    }

    // The status, once there is one: the output's end comes shortly before it.
    fn ended(&mut self) -> Option<String> {
        let errors = String::from_utf8_lossy(&self.errors);
        let mut pause = Duration::ZERO;
        let (status, late) = loop {
            let mut process = watched();
            let at = process.as_mut().expect("the process in hand is still there");
            if let Some(status) = at.child.try_wait().expect("the program was started here") {
                let late = at.late;
                *process = None;
                break (status, late);
            }
            drop(process);
            thread::sleep(pause);
            pause = (pause * 2).clamp(Duration::from_micros(10), Duration::from_millis(1));
        };
        match (late, status.code()) {
            (true, _) => Some(format!("nothing more in {} s", PATIENCE.as_secs())),
            (_, Some(0)) if errors.is_empty() => None,
            (_, Some(0)) => Some(format!("on standard error: {}", errors.escape_debug())),
            _ => Some(status.to_string()),
        }
    }
}

// Each turn's output is read before the next turn's bytes are given. Nothing else is printed, there or on standard error, and the
// status is 0.
pub fn talk(program: &str, turns: &[Turn]) -> Result<(), Failure> {
    let mut pipes = begin(program);
    let mut due: Vec<u8> = Vec::new();
    for turn in &turns[..turns.len() - 1] {
        due.extend_from_slice(&turn.due);
        pipes.turn(&turn.given, false, due.len());
        if pipes.came != due {
            break;
        }
    }
    let last = turns.last().expect("there is a last turn");
    let so_far = pipes.came == due;
    pipes.last_turn(if so_far { &last.given } else { b"" }, last.due.len());
    due.extend_from_slice(&last.due);
    let wrong = pipes.ended();
    if so_far && pipes.came == due && wrong.is_none() { Ok(()) } else { Err(Failure { came: pipes.came, wrong }) }
}
