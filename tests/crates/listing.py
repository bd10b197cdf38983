"""crates.txt: its rooms in order, the crates of each, and what each leans on."""
import dataclasses
import pathlib
import re

FILE = pathlib.Path("crates.txt")
HEAD = [
    "# A crate, and behind its colon what it names and what declares a type that it reaches through a field; nothing else.",
    "# Callees stand before callers, room by room. tests/crates.py holds this file to the rule.",
]
# A crate's line: its name, a word for another kind than a library or a program, as staticlib, and what it leans on.
ENTRY = re.compile(r"(?m)^(\w+)((?: [\w=+]+)*):(?: (.*))?$")
# The room of crates whose names have no prefix.
VALUES = "values"


@dataclasses.dataclass
class Room:
    name: str
    title: str
    crates: dict = dataclasses.field(default_factory=dict)
    kinds: dict = dataclasses.field(default_factory=dict)

    def holds(self, crate, names):
        """Whether a crate is of this room, by its prefix."""
        if self.name == VALUES:
            return not any(crate == name or crate.startswith(name + "_") for name in names)
        return crate == self.name or crate.startswith(self.name + "_")


def rooms_of(text):
    """The rooms of a text of crates.txt; a crate before the first of them stands in one of no name."""
    rooms = []
    for line in text.split("\n"):
        title = re.fullmatch(r"# ([a-z0-9]+): (.*)", line)
        entry = ENTRY.fullmatch(line)
        if title:
            rooms.append(Room(title[1], title[2]))
        elif entry:
            rooms = rooms or [Room("", "")]
            rooms[-1].kinds[entry[1]] = entry[2]
            rooms[-1].crates[entry[1]] = (entry[3] or "").split()
    return rooms


def text_of(rooms):
    """crates.txt, to the letter."""
    lines = list(HEAD)
    for room in rooms:
        lines.append(f"# {room.name}: {room.title}")
        lines += [f"{crate}{room.kinds.get(crate, '')}: {' '.join(deps)}".rstrip() for crate, deps in room.crates.items()]
    return "\n".join(lines) + "\n"


def ordered(crates, leans):
    """Crates with callees before callers, otherwise as they stand."""
    left, out = list(crates), []
    while left:
        ready = [crate for crate in left if not leans[crate] & set(left)]
        if not ready:
            return out + left
        out.append(ready[0])
        left.remove(ready[0])
    return out


def made(rooms, leans, kit):
    """The rooms as they are to be: the crates that there are, each in its room, with what it leans on in the list's order."""
    names = [room.name for room in rooms]
    out = []
    for room in rooms:
        stay = [crate for crate in room.crates if crate in leans and room.holds(crate, names)]
        come = [crate for crate in leans if crate not in stay and room.holds(crate, names)]
        out.append(Room(room.name, room.title, dict.fromkeys(ordered(stay + come, leans)), room.kinds))
    place = [crate for room in out for crate in room.crates] + list(kit)
    for room in out:
        room.crates = {crate: sorted(leans[crate], key=place.index) for crate in room.crates}
    return out


def faults(text, rooms, leans, kit):
    """What is wrong with the rooms of a text, in words."""
    listed = [entry[1] for entry in ENTRY.finditer(text)]
    out = [f"{crate} stands twice" for crate in sorted(set(listed)) if listed.count(crate) > 1]
    before, names = set(kit), [room.name for room in rooms]
    for room in rooms:
        for crate, deps in room.crates.items():
            if crate not in leans:
                out.append(f"{crate} is no crate")
                continue
            if not room.holds(crate, names):
                out.append(f"{crate} does not belong into the room {room.name}")
            out += [f"{crate} lists {name}, and neither names it nor reaches a type of it" for name in deps if name not in leans[crate]]
            out += [f"{crate} does not list {name}" for name in sorted(leans[crate]) if name not in deps]
            out += [f"{crate} stands before {name}, on which it leans" for name in deps if name in leans and name not in before]
            before.add(crate)
    return out + [f"{crate} is not listed" for crate in leans if crate not in before]
