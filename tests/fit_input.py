#!/usr/bin/env python3
"""fit_input.py [PROGRAM]: gives the fit program (crates/fit/out/fit) input that a sample of lines does not hold, over a pipe.

It fails (exit status 1) at the first case whose replies are not those of 01, or that does not end in time: a reply to each
line before the next is given, lines of a million words, a line with no end, no input, a carriage return, and one line of
ten million bytes. Whatever it is given, the program exits with status 0 and writes nothing to standard error.

Then reads and writes that fail: the program says so in one line on standard error and ends, with status 0 too. It decides no line that a failed read left open, and reads no more behind a lost reply.
A write into a pipe that nobody reads fails like any other: the program ignores SIGPIPE, whatever it was started with.
"""
import ctypes
import mmap
import os
import select
import signal
import subprocess
import sys

SECONDS = 60
ZERO, HALF, ONE, TWO = "0000000000000000", "3FE0000000000000", "3FF0000000000000", "4000000000000000"
THREE_HALVES = "3FF8000000000000"
OPTIONS = f"{ONE} {ONE} {HALF} - - 0 1"
START = f"simplex 1\n{OPTIONS}\n{ONE}\n"
FIRST = f"ask 1 V {ONE}\n"
SECOND = f"ask 2 V {THREE_HALVES}\n"
END = f"end SimplexTolerance yes 0 2 0 {ONE} {THREE_HALVES}\n"
MANY = 1_000_000
LONG = 10_000_000
READ_FAILED = "fit: a read of standard input failed\n"
WRITE_FAILED = "fit: a write to standard output failed\n"


class Wrong(Exception):
    pass


def short(data):
    """Bytes as they are shown in a message."""
    text = data if len(data) <= 200 else data[:200] + b".."
    return repr(text)


def held(what, came, due):
    if came != due:
        raise Wrong(f"{what}: due {short(due)}, came {short(came)}")


def whole(program, given, due):
    """All input at once, then its end."""
    run = subprocess.run([program], input=given.encode(), capture_output=True, timeout=SECONDS)
    held("standard output", run.stdout, due.encode())
    held("standard error", run.stderr, b"")
    if run.returncode != 0:
        raise Wrong(f"exit status {run.returncode}")


def failing(program, given, due, says, **streams):
    """Input from a stream or as text, where a read or a write fails: what is written, and what is said of it."""
    text = {} if given is None else {"input": given.encode()}
    run = subprocess.run([program], stderr=subprocess.PIPE, timeout=SECONDS, **text, **streams)
    if due is not None:
        held("standard output", run.stdout, due.encode())
    held("standard error", run.stderr, says.encode())
    if run.returncode != 0:
        raise Wrong(f"exit status {run.returncode}")


def input_directory(program):
    directory = os.open("/", os.O_RDONLY)
    try:
        failing(program, None, "", READ_FAILED, stdin=directory, stdout=subprocess.PIPE)
    finally:
        os.close(directory)


def input_closed(program):
    failing(program, None, "", READ_FAILED, stdout=subprocess.PIPE, preexec_fn=lambda: os.close(0))


def read_fails_in_a_line(program):
    """The input is this process's own memory, where a page ends behind a line that is begun: what lies before is read, the next read fails."""
    text, page = (START + "1 V " + TWO[:4]).encode(), mmap.PAGESIZE
    pages = mmap.mmap(-1, 2 * page)
    pages[page - len(text) : page] = text
    start = ctypes.addressof(ctypes.c_char.from_buffer(pages))
    libc = ctypes.CDLL(None, use_errno=True)
    held("munmap", libc.munmap(ctypes.c_void_p(start + page), ctypes.c_size_t(page)), 0)
    memory = os.open("/proc/self/mem", os.O_RDONLY)
    os.lseek(memory, start + page - len(text), os.SEEK_SET)
    run = subprocess.run([program], stdin=memory, capture_output=True, timeout=SECONDS)
    os.close(memory)
    held("standard output", run.stdout, FIRST.encode())
    held("standard error", run.stderr, READ_FAILED.encode())


def output_closed(program):
    failing(program, START + f"1 V {TWO}\n", None, WRITE_FAILED, preexec_fn=lambda: os.close(1))


def output_full(program):
    with open("/dev/full", "wb") as full:
        failing(program, START + f"1 V {TWO}\n", None, WRITE_FAILED, stdout=full)


def last_reply_lost(program):
    """A line with no line feed is decided at the end of the input: that its reply is lost is said too."""
    with open("/dev/full", "wb") as full:
        failing(program, START[:-1], None, WRITE_FAILED, stdout=full)


def reads_no_more(program):
    """Of input that comes while the program runs nothing is read behind a lost reply."""
    with open("/dev/full", "wb") as full:
        with subprocess.Popen([program], stdin=subprocess.PIPE, stdout=full, stderr=subprocess.PIPE, bufsize=0) as process:
            try:
                process.stdin.write(START.encode())
                if process.wait(SECONDS) != 0:
                    raise Wrong(f"exit status {process.returncode}")
                held("standard error", process.stderr.read(), WRITE_FAILED.encode())
            finally:
                process.kill()


def reader_gone(program, ignored):
    """The pipe that the replies go into has nobody who reads."""
    near, far = os.pipe()
    os.close(near)
    with os.fdopen(far, "wb") as pipe:
        ignore = (lambda: signal.signal(signal.SIGPIPE, signal.SIG_IGN)) if ignored else None
        run = subprocess.run(
            [program], input=(START * 2).encode(), stdout=pipe, stderr=subprocess.PIPE, timeout=SECONDS, preexec_fn=ignore
        )
    held("standard error", run.stderr, WRITE_FAILED.encode())
    if run.returncode != 0:
        raise Wrong(f"exit status {run.returncode}")


def reply(process, count):
    """The next `count` bytes that the program writes."""
    came = b""
    while len(came) < count:
        ready, _, _ = select.select([process.stdout], [], [], SECONDS)
        if not ready:
            raise Wrong(f"no reply within {SECONDS} s after {short(came)}")
        part = process.stdout.read(count - len(came))
        if not part:
            raise Wrong(f"it ended after {short(came)}")
        came += part
    return came


def by_turns(program, turns):
    """Each piece is given once the reply to the one before has come. Nothing may come but what is due."""
    with subprocess.Popen([program], stdin=subprocess.PIPE, stdout=subprocess.PIPE, bufsize=0) as process:
        try:
            for given, due in turns:
                process.stdin.write(given.encode())
                held(f"after {given!r}", reply(process, len(due)), due.encode())
            process.stdin.close()
            held("after the end of the input", process.stdout.read(), b"")
            if process.wait(SECONDS) != 0:
                raise Wrong(f"exit status {process.returncode}")
        finally:
            if process.poll() is None:
                process.kill()


def lines_by_turns(program):
    by_turns(
        program,
        [
            ("simplex 1\n", ""),
            (OPTIONS + "\n", ""),
            (ONE + "\n", FIRST),
            ("2 V " + ONE + "\n", "no 16 0\n"),
            ("1 G " + TWO + "\n", "no 17 0\n"),
            ("1 V " + TWO + "\n", SECOND),
            ("1 V " + ZERO + "\n", SECOND),
            ("2 V " + ONE + "\n", END),
            ("2 V " + ZERO + "\n", END),
            ("3 V " + ZERO + "\n", "no 15 0\n"),
            ("x\n", "bad 11\n"),
        ],
    )


def bytes_by_turns(program):
    """A line comes byte by byte, and nothing is printed before its end."""
    by_turns(program, [(b, "") for b in START[:-1]] + [("\n", FIRST)])


def words(word, count):
    return " ".join([word] * count)


CASES = [
    ("a reply to each line before the next is given", lines_by_turns),
    ("a line byte by byte", bytes_by_turns),
    ("no input", lambda p: whole(p, "", "")),
    ("an empty first line", lambda p: whole(p, "\n", "bad 1\n")),
    ("line 3 not begun", lambda p: whole(p, f"simplex 1\n{OPTIONS}\n", "")),
    ("an empty line 3", lambda p: whole(p, f"simplex 1\n{OPTIONS}\n\n", "bad 3\n")),
    ("n 0, line 3 not begun", lambda p: whole(p, f"simplex 0\n{OPTIONS}\n", "")),
    ("n 0, an empty line 3", lambda p: whole(p, f"simplex 0\n{OPTIONS}\n\n", "no 9 0\n")),
    ("line 3 with no line feed", lambda p: whole(p, START[:-1], FIRST)),
    ("an answer with no line feed", lambda p: whole(p, START + f"1 V {TWO}\n2 V {ONE}", FIRST + SECOND + END)),
    ("part of an answer with no line feed", lambda p: whole(p, START + "1 V", FIRST + "no 17 0\n")),
    ("a number alone with no line feed", lambda p: whole(p, START + "1", FIRST + "bad 4\n")),
    ("a line feed more at the end", lambda p: whole(p, START + "\n", FIRST + "bad 4\n")),
    ("a carriage return on line 1", lambda p: whole(p, START.replace("\n", "\r\n"), "bad 1\n")),
    ("a carriage return on an answer", lambda p: whole(p, START + f"1 V {TWO}\r\n", FIRST + "bad 4\n")),
    ("a tab", lambda p: whole(p, START + f"1\tV {TWO}\n", FIRST + "bad 4\n")),
    ("a second space", lambda p: whole(p, START + f"1  V {TWO}\n", FIRST + "bad 4\n")),
    ("a space at the end", lambda p: whole(p, START + f"1 V {TWO} \n", FIRST + "bad 4\n")),
    ("nothing after bad", lambda p: whole(p, "x\n" + START, "bad 1\n")),
    ("nothing after a refused start", lambda p: whole(p, START.replace(HALF, ZERO) + f"1 V {TWO}\n", "no 8 0\n")),
    ("a line 3 of a million words", lambda p: whole(p, f"simplex {MANY}\n{OPTIONS}\n{words(ONE, MANY)}\n", "no 2 0\n")),
    ("and one word fewer than n", lambda p: whole(p, f"simplex {MANY}\n{OPTIONS}\n{words(ONE, MANY - 1)}\n", "bad 3\n")),
    ("and a last word of 15 digits", lambda p: whole(p, f"simplex {MANY}\n{OPTIONS}\n{words(ONE, MANY)[:-1]}\n", "bad 3\n")),
    (
        "an answer of a million words, then the fit goes on",
        lambda p: whole(p, START + f"1 V {words(TWO, MANY)}\n1 V {TWO}\n", FIRST + "no 17 0\n" + SECOND),
    ),
    ("a line 1 of ten million letters", lambda p: whole(p, "s" * LONG + "\n" + START, "bad 1\n")),
    ("and with no line feed", lambda p: whole(p, "s" * LONG, "bad 1\n")),
    ("n with ten million zeros before it", lambda p: whole(p, START.replace("simplex 1", "simplex " + "0" * LONG + "1"), FIRST)),
    ("a line 3 of ten million digits", lambda p: whole(p, f"simplex 1\n{OPTIONS}\n{'0' * LONG}\n", "bad 3\n")),
    ("n of 2^64", lambda p: whole(p, START.replace("simplex 1", f"simplex {2**64}"), "bad 1\n")),
    ("a directory as input", input_directory),
    ("no input at all, as 0 is closed", input_closed),
    ("a read that fails within a line", read_fails_in_a_line),
    ("no output, as 1 is closed", output_closed),
    ("a full device as output", output_full),
    ("the last line's reply lost", last_reply_lost),
    ("no read behind a lost reply", reads_no_more),
    ("a pipe that nobody reads", lambda p: reader_gone(p, False)),
    ("and with SIGPIPE ignored", lambda p: reader_gone(p, True)),
]


def main():
    program = sys.argv[1] if len(sys.argv) > 1 else "crates/fit/out/fit"
    for name, case in CASES:
        try:
            case(program)
        except (Wrong, OSError, subprocess.TimeoutExpired) as why:
            print(f"{name}: {why}", file=sys.stderr)
            return 1
    print(f"{len(CASES)} cases")
    return 0


sys.exit(main())
