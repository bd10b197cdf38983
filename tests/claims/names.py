"""One name, one meaning; and crates, files, programs and commands that the documents name and that do not exist."""
import collections
import pathlib
import re

from repository import tables_of

PUBLIC = re.compile(r"^ *(?:(?:abbrev|unfoldable) pub |pub (?:record|data) )([A-Z][^\s:]*)", re.M)
PATH = re.compile(r"(?<![\w/.])((?:crates|tests|docs|bench|examples|include|\.ci)/[\w./*-]*)")
# What a build leaves: a program, or an archive for C.
BUILT = re.compile(r"crates/(\w+)/out/([\w.]*)")
COMMAND = re.compile(r"\brt ([a-z][a-z-]*)((?: [a-z]\w*)*)")
# rt's commands: those that take crates' names at the root, and those that take their crate from the folder that they run in.
NAMING = ("ci", "must-fail")
PLAIN = ("check", "fmt", "lib", "plant", "run", "test", "tidy", "try", "verdict", "all check", "doc", "version")
# A path that stands for many.
FOR_MANY = re.compile(r"/(?:NAME|CRATE|LABEL|JOB|OLD)(?=[/.]|$)")


def twice(repository):
    """Faults of capitalised public names that two crates declare in specs/."""
    where = collections.defaultdict(set)
    for path in sorted(pathlib.Path("crates").glob("*/specs/*.antt")):
        for name in PUBLIC.findall(repository.text(str(path))):
            where[name].add(path.parts[1])
    return [f"{name} is declared by {' and '.join(sorted(crates))}" for name, crates in sorted(where.items()) if len(crates) > 1]


def exists(path):
    path = path.rstrip(".")
    if re.search(r"/out(/|$)", path):
        return True
    return bool(FOR_MANY.search(path)) or (any(pathlib.Path().glob(path.rstrip("/"))) if "*" in path else pathlib.Path(path).exists())


def commands(lines):
    """Each command in a code span or a fenced block, with the number of its line: its verb and the words behind it."""
    fenced = False
    for at, line in enumerate(lines, 1):
        fenced ^= line.startswith("```")
        for text in [line] if fenced else re.findall(r"`([^`]+)`", line):
            yield from ((at, verb, words.split()) for verb, words in COMMAND.findall(text))


def wrong_command(verb, words, crates):
    """What is wrong with a command."""
    if verb in NAMING:
        return [f"rt {verb} of {name}, which is no crate" for name in words if name not in crates]
    return [] if " ".join([verb, *words]) in PLAIN else [f"rt {' '.join([verb, *words])}: no such command"]


def unbuilt(crate, file, repository):
    """What is wrong with the name of a file that a build is to leave."""
    if file == crate and repository.is_program(crate) or file in ("", f"lib{crate}.a") and crate in repository.crates():
        return []
    return [f"crates/{crate}/out/{file}: no such program or archive"]


def unknown(repository):
    out, crates = [], repository.crates()
    for document in repository.documents():
        lines = repository.lines(document)
        for at, line in enumerate(lines, 1):
            out += [f"{document}:{at}: {path} does not exist" for path in PATH.findall(line) if not exists(path)]
            built = [] if FOR_MANY.search(line) else BUILT.findall(re.sub(r"\.(?=\W|$)", " ", line))
            out += [f"{document}:{at}: {what}" for crate, file in built for what in unbuilt(crate, file, repository)]
        for at, verb, words in commands(lines):
            out += [f"{document}:{at}: {what}" for what in wrong_command(verb, words, crates)]
        for first, table in tables_of(lines):
            rows = enumerate(table[2:], first + 2) if table[0][0] == "Crate" else []
            out += [f"{document}:{at}: {row[0]} is no crate" for at, row in rows if row[0] not in (*crates, "together")]
    return out


def faults(repository):
    return twice(repository) + unknown(repository)
