"""Ways to break a document, one fault at a time: each must be seen by the check that is there for it."""
import re

import believed
import cited
import counts
import names
from repository import CLAIMS, DESIGN, EXAMINER, Repository, sections_of

EVERY = "every document"
# A command that keeps two edits, and words that say three.
TWO_KEPT = "\n```\nfind ! -name a.edit ! -name b.edit\n```\nIt tries these 3 edits."
NO_LINES = "\n\n| A | B |\n|---|---|\n| crates/vector/none | 1 |\n\n"
# A statement that uses a file that no table has, beside the first that is cited.
READ_BACK = r"specs/Lib.antt, and crates/lines_theory/specs/ReadBack.antt, `ReadBackLaws`, and \1"
SECOND_CLAIM = "\npub record Claim : Type 0 where\n"


def put(words):
    """Adds words to the first line of prose."""
    return lambda text: re.sub(r"(?m)^([A-Z].*)$", lambda line: f"{line[1]} {words}", text, count=1)


def change(pattern, to):
    """Changes what a pattern first finds; None where it finds nothing."""

    def changed(text):
        out, count = re.subn(pattern, to, text, count=1, flags=re.M)
        return out if count else None

    return changed


# The check, the documents, what is done to each, and words of the fault that is due.
WAYS = [
    (counts, EVERY, change(r"^(\|[-|]+\|\n\|.*)$", r"\1 one more |"), "and its table's head has"),
    (counts, EVERY, put(NO_LINES), "the lines of crates/vector/none, in a table"),
    (counts, EVERY, put("There are 9999 crates."), "9999 crates, and there are"),
    (counts, EVERY, put("There are 9,999 edits."), "9,999 edits, and there are"),
    (counts, EVERY, put("`rt must-fail vector` tries 9999 edits."), "9999 edits, and there are"),
    (counts, EVERY, put("`rt: ok; must-fail edits: 9999 refused`"), "9999 must-fail edits, and there are"),
    (counts, EVERY, put(TWO_KEPT), "3 edits, and there are 2"),
    (counts, [DESIGN], change(r"^\| float \| (\d+) \| \d+ \| \d+ \|", r"| float | \1 | 999 | 0 |"), "float: edits 999, due"),
    (counts, [DESIGN], change(r"^\| float \| \d+ \| (\d+) \| \d+ \|", r"| float | 999 | \1 | 1 |"), "float: all its edits 1, due"),
    (counts, [DESIGN], change(r"^\| together \| *\| [\d,]+ ", "| together | | 9999 "), "together: edits 9999, due"),
    (counts, [DESIGN], change(r"^\| vector \| (\d+) ", r"| vectr | \1 "), "the table of edits has no vector"),
    (counts, [DESIGN], change(r"^\| vector \| ([a-z])", r"| vectr | \1"), "the table of crates has no vector"),
    (counts, [DESIGN], change(r"^\| Crate \| Holds", "| A crate | Holds"), "no table of crates by crate"),
    (counts, [DESIGN], change(r"^\| Crate \| seconds \| edits", "| Crate | seconds | changes"), "no table of edits by crate"),
    (names, [DESIGN], change(r"^\| vector \|", "| vectr |"), "vectr is no crate"),
    (names, EVERY, put("crates/none/specs/Nothing.antt"), "crates/none/specs/Nothing.antt does not exist"),
    (names, EVERY, put("tests/none.py"), "tests/none.py does not exist"),
    (names, EVERY, put("examples/none*"), "examples/none* does not exist"),
    (names, EVERY, put("crates/none/out/none"), "crates/none/out/none: no such program or archive"),
    (names, EVERY, put("crates/vector/out/vector"), "crates/vector/out/vector: no such program or archive"),
    (names, EVERY, put("crates/c_fit/out/libfit.a"), "crates/c_fit/out/libfit.a: no such program or archive"),
    (names, EVERY, put("`rt ci fit none`"), "rt ci of none, which is no crate"),
    (names, EVERY, put("\n```\nrt must-fail none\n```\n"), "rt must-fail of none, which is no crate"),
    (names, EVERY, put("`rt check fit`"), "rt check fit: no such command"),
    (names, EVERY, put("\n```\nrt staticlib c_fit\n```\n"), "rt staticlib c_fit: no such command"),
    (names, ["crates/vector/specs/Ties.antt"], lambda text: text + SECOND_CLAIM, "Claim is declared by protocol and vector"),
    (cited, [CLAIMS, EXAMINER], change(r"(proofs/\w+\.antt, `)[^`]+", r"\1no-such-theorem"), "has no public `no-such-theorem`"),
    (cited, [CLAIMS, EXAMINER], change(r"(specs/\w+\.antt, `)[^`]+", r"\1NoSuch"), "has no public `NoSuch`"),
    (cited, [CLAIMS, EXAMINER], change(r"(proofs/)\w+(\.antt, `)", r"\1NoSuchFile\2"), "NoSuchFile.antt does not exist"),
    (cited, [CLAIMS, EXAMINER], change(r"^(\| crates/\S+ \|) \d+ \|", r"\1 9999 |"), "lines, not 9999"),
    (cited, [CLAIMS, EXAMINER], put("\n| question 1 | 9999 |\n"), "the files of question 1 have 0 lines, not 9999"),
    (cited, [CLAIMS, EXAMINER], put("\n| `optim/no_such_edit` |\n"), "there is no edit optim/no_such_edit"),
    (cited, EVERY, put("crates/vector/specs/Ties.antt has 9999 lines."), "crates/vector/specs/Ties.antt has"),
    (believed, [CLAIMS, EXAMINER], change("^## What must be believed", "## What must be read"), "no table under"),
    (believed, [CLAIMS, EXAMINER], lambda text: re.sub(r"/specs/\w+\.antt, `", "/specs/, `", text), "no statement under"),
    (believed, [CLAIMS, EXAMINER], change(r"(specs/\w+\.antt, `)", READ_BACK), "specs/ReadBack.antt, which"),
]


def rows(document):
    """A way for each row that the table of what must be believed has and needs: it is left out, or its questions are."""
    text = Repository().text(document)
    needed = {file for title, part in sections_of(text) if re.match(r"[123]\b", title) for file in believed.used_by(part)}
    for file in believed.ROW.findall(dict(sections_of(text))[believed.SECTION]):
        if file in needed:
            yield believed, [document], change(rf"^\| {re.escape(file)} \|", "| the file |"), f"{file}, which a statement of"
            if document == EXAMINER:
                yield believed, [document], change(rf"^(\| {re.escape(file)} \| \d+ \|) [123, ]+ \|", r"\1 - |"), f"{file} is used by"


def unseen():
    """How many breaks were made, and those that were not seen, or could not be made in any document."""
    made, out = 0, []
    for check, documents, way, due in [*WAYS, *rows(CLAIMS), *rows(EXAMINER)]:
        before, hits = set(check.faults(Repository())), 0
        for document in Repository().documents() if documents is EVERY else documents:
            text = way(Repository().text(document))
            if text is not None:
                hits += 1
                after = set(check.faults(Repository({document: text}))) - before
                out += [] if any(due in fault for fault in after) else [f"{document}, broken so that it says '{due}': not seen"]
        out += [] if hits else [f"'{due}': no document could be broken so"]
        made += hits
    return made, out
