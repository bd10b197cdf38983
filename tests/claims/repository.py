"""The files that the documents speak of, and the documents themselves: read from the repository, or broken on purpose."""
import functools
import pathlib
import re

CLAIMS, EXAMINER, DESIGN = "docs/CLAIMS.md", "docs/FOR-THE-EXAMINER.md", "docs/DESIGN.md"


class Repository:
    """The repository that one stands in. `broken` has other texts for some of its files."""

    def __init__(self, broken=None):
        self.broken = broken or {}

    def documents(self):
        return ["README.md", "tests/README.md", "examples/README.md", *sorted(str(path) for path in pathlib.Path("docs").glob("*.md"))]

    def text(self, path):
        return self.broken[path] if path in self.broken else pathlib.Path(path).read_text()

    def lines(self, path):
        return self.text(path).split("\n")

    def crates(self):
        """Each crate with the crates that it leans on, as crates.txt has it."""
        entries = re.findall(r"^(\w+)[^:#\n]*:(.*)$", pathlib.Path("crates.txt").read_text(), re.M)
        return {name: [dep for dep in deps.split() if dep in dict(entries)] for name, deps in entries}

    @functools.cache
    def edits(self):
        """Each crate with its must-fail edits."""
        return {crate: sorted(path.stem for path in pathlib.Path("crates", crate, "must-fail").glob("*.edit")) for crate in self.crates()}

    def is_program(self, name):
        return pathlib.Path("crates", name, "src/main.rt").exists()


def cells_of(line):
    """The cells of a row of a table."""
    return [cell.strip() for cell in re.split(r"(?<!\\)\|", line.strip())[1:-1]]


def tables_of(lines):
    """Each table: the number of its first line, and its rows as cells. Lines of fenced blocks are none."""
    table, fenced = [], False
    for number, line in enumerate([*lines, ""], 1):
        fenced ^= line.startswith("```")
        if line.startswith("|") and not fenced:
            table.append(cells_of(line))
        elif table:
            yield number - len(table), table
            table = []


def sections_of(text):
    """Each heading with the text below it, up to the next heading."""
    parts = re.split(r"(?m)^#+ (.*)$", text)
    return list(zip(parts[1::2], parts[2::2]))
