"""docs/crates.svg, made from crates.txt and from which crates are programs: a box to each room, its crates, arrows to what each leans on."""
import html
import pathlib

import layout

WIDTH, EDGE, LANE, TOP = 1020, 16, 18, 58
# Of a room's box: its title, a row of crates, the room above and below these, and the space to the next box.
TITLE, ROW, PAD, GAP = 26, 34, 8, 22
CHIP, CHAR = 24, 7.3
STYLE = """
      text { font-family: "DejaVu Sans", Verdana, sans-serif; font-size: 13px; fill: #1f2933 }
      .room { font-size: 14px; font-weight: bold }
      .note { font-size: 12px; fill: #4a5560 }
      .crate { font-size: 12px; text-anchor: middle }
      .box { fill: #eef2f6; stroke: #8a949e }
      .chip { fill: #ffffff; stroke: #8a949e }
      .theory { fill: #e3f1e5; stroke: #6b9472 }
      .program { fill: #fdf1d8; stroke: #b58a2e }
      .arrow { fill: none; stroke: #4a5560; stroke-width: 1.2; marker-end: url(#head) }
      .stub { fill: none; stroke: #1f4e79; stroke-width: 1.6 }
      .lean { fill: none; stroke: #1f4e79; stroke-width: 1.6; marker-end: url(#blue) }
      .join { fill: #1f4e79 }"""
SIGNS = "An arrow goes from a crate, or a room, to what it leans on; those that follow from others are left out. "
SIGNS += "_x in a room is the crate ROOM_x."


def text(kind, x, y, words):
    return f'  <text class="{kind}" x="{x:g}" y="{y:g}">{html.escape(words)}</text>'


def path(kind, steps):
    return f'  <path class="{kind}" d="{steps}"/>'


def short(room, crate):
    """A crate's name without its room's, which stands in the title."""
    return crate.removeprefix(room.name) if crate != room.name else crate


def kind_of(crate):
    if crate.endswith("_theory"):
        return "theory"
    return "program" if pathlib.Path("crates", crate, "src/main.rt").exists() else "chip"


class Box:
    """A room's box: where its crates stand in it."""

    def __init__(self, room, width):
        edges = {crate: {name for name in deps if name in room.crates} for crate, deps in room.crates.items()}
        self.room, self.column, self.row, self.threads = room, *layout.placed(edges)
        self.height = TITLE + PAD + ROW * (1 + max(self.row.values(), default=0))
        count = 1 + max(self.column.values(), default=0)
        widest = [0.0] * count
        for crate in room.crates:
            widest[self.column[crate]] = max(widest[self.column[crate]], 16 + CHAR * len(short(room, crate)))
        space = min(44.0, (width - 2 * PAD - sum(widest)) / max(1, count - 1))
        self.widths, self.left = widest, [PAD + sum(widest[:k]) + space * k for k in range(count)]

    def place(self, x, y, place):
        """The left and right end of a place, and its height, for a box at x and y."""
        k = self.column[place]
        left, high = x + self.left[k], y + TITLE + ROW * self.row[place] + ROW / 2
        return left, left + self.widths[k], high

    def drawn(self, x, y, width):
        out = [f'  <rect class="box" x="{x:g}" y="{y:g}" width="{width:g}" height="{self.height:g}" rx="6"/>']
        name = f'<tspan class="room">{self.room.name}</tspan>'
        out.append(f'  <text x="{x + PAD}" y="{y + 19:g}">{name}<tspan class="note" dx="10">{html.escape(self.room.title)}</tspan></text>')
        out += [self.arrow(x, y, thread) for thread in self.threads]
        for crate in self.room.crates:
            left, right, high = self.place(x, y, crate)
            chip = f'x="{left:g}" y="{high - CHIP / 2:g}" width="{right - left:g}" height="{CHIP}" rx="4"'
            out.append(f'  <rect class="{kind_of(crate)}" {chip}/>')
            out.append(text("crate", (left + right) / 2, high + 4, short(self.room, crate)))
        return out

    def arrow(self, x, y, thread):
        """From the caller, on the right, back to what it leans on: level through each column, bent between two."""
        left, _, high = self.place(x, y, thread[-1])
        steps = f"M{left:g} {high:g}"
        for place in reversed(thread[:-1]):
            near, end, level = self.place(x, y, place)
            half = (left + end) / 2
            steps += f" C{half:g} {high:g} {half:g} {level:g} {end:g} {level:g}"
            if isinstance(place, tuple):
                steps += f" H{near:g}"
            left, high = near, level
        return path("arrow", steps)


def leanings(rooms):
    """Each room with the rooms that its crates lean on, without those that follow from others."""
    at = {crate: room.name for room in rooms for crate in room.crates}
    edges = {room.name: {at[dep] for deps in room.crates.values() for dep in deps if dep in at} - {room.name} for room in rooms}
    return layout.reduced(edges)


def lanes_of(rooms, leans):
    """For each room on which one not beside it leans: its lane on the right, the shortest innermost, and those callers."""
    lanes, spans = {}, []
    for k, room in enumerate(rooms):
        callers = [j for j in range(k + 2, len(rooms)) if room.name in leans[rooms[j].name]]
        if callers:
            spans.append((callers[-1] - k, k, callers))
    for _, k, callers in sorted(spans):
        taken = {lane for j, (lane, others) in lanes.items() if j < callers[-1] and k < others[-1]}
        lanes[k] = min(set(range(len(rooms))) - taken), callers
    return lanes


def between(rooms, tops, boxes, right):
    """The arrows between rooms: straight where two stand beside each other, else along a lane, joined by every caller."""
    leans, out = leanings(rooms), []
    lanes = lanes_of(rooms, leans)
    for k in range(len(rooms) - 1):
        if rooms[k].name in leans[rooms[k + 1].name]:
            out.append(path("lean", f"M{EDGE + 40} {tops[k + 1] + boxes[k + 1].height:g} V{tops[k]:g}"))

    def leaves(j, k):
        """Where room j leaves its box for room k: above the middle, apart from where it leaves for others."""
        return tops[j] + boxes[j].height / 2 - 8 + 5 * sum(other < k and j in lanes[other][1] for other in lanes)

    for k, (lane, callers) in lanes.items():
        x, end = right + LANE * (lane + 1), tops[k] + boxes[k].height / 2 + 8
        out += [path("stub", f"M{right:g} {leaves(j, k):g} H{x:g}") for j in callers]
        out += [f'  <circle class="join" cx="{x:g}" cy="{leaves(j, k):g}" r="2.6"/>' for j in callers[:-1]]
        out.append(path("lean", f"M{x:g} {leaves(callers[-1], k):g} V{end:g} H{right:g}"))
    return out


def opened(height):
    """The drawing's first lines: its head, its styles, its frame, and what its signs mean."""
    size = f'viewBox="0 0 {WIDTH} {height:g}" width="{WIDTH}" height="{height:g}"'
    out = [
        f'<svg xmlns="http://www.w3.org/2000/svg" {size} role="img" aria-labelledby="title desc">',
        '  <title id="title">The crates by room</title>',
        '  <desc id="desc">A box to each room, the crates in it, and an arrow from each to what it leans on.</desc>',
        "  <!-- made from crates.txt by tests/crates.py -->",
        "  <defs>",
    ]
    for name, colour in (("head", "#4a5560"), ("blue", "#1f4e79")):
        out.append(f'    <marker id="{name}" viewBox="0 0 10 10" refX="9" refY="5" markerWidth="7" markerHeight="7" orient="auto">')
        out.append(f'      <path d="M0 0 L10 5 L0 10 Z" fill="{colour}"/>\n    </marker>')
    out += [f"    <style>{STYLE}\n    </style>", "  </defs>"]
    out.append(f'  <rect x="1" y="1" width="{WIDTH - 2}" height="{height - 2:g}" rx="8" fill="#ffffff" stroke="#8a949e"/>')
    out.append(text("note", EDGE, 24, SIGNS))
    for k, (kind, words) in enumerate((("chip", "crate"), ("theory", "theorems about others"), ("program", "program"))):
        out.append(f'  <rect class="{kind}" x="{EDGE + (0, 80, 260)[k]}" y="33" width="18" height="14" rx="3"/>')
        out.append(text("note", EDGE + (0, 80, 260)[k] + 24, 44, words))
    return out


def drawn(rooms):
    """The drawing: the first room lowest, so that all lean downwards."""
    lanes = lanes_of(rooms, leanings(rooms))
    inner = WIDTH - 2 * EDGE - LANE * (1 + max((lane + 1 for lane, _ in lanes.values()), default=0))
    boxes, tops, y = [Box(room, inner) for room in rooms], {}, TOP
    for k in reversed(range(len(rooms))):
        tops[k] = y
        y += boxes[k].height + GAP
    out = opened(y - GAP + EDGE)
    for k, box in enumerate(boxes):
        out += box.drawn(EDGE, tops[k], inner)
    out += between(rooms, tops, boxes, EDGE + inner)
    return "\n".join(out) + "\n</svg>\n"
