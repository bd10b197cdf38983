"""Draws a fit as an SVG: the masts, the points of the questions in order, where the fit ended, and the true emitter.

One panel has the whole site, the other the surroundings of the end. The ground is painted white, so that it reads on a dark page.
"""
import math
from typing import NamedTuple
from xml.sax.saxutils import escape

WIDTH, HEIGHT = 960, 560
# Colours of the first, a middle and the last question.
COLOURS = ((245, 158, 11), (219, 39, 119), (49, 46, 129))
STAGES = 24
INK, PALE, GREEN, RED = "#1f2937", "#e5e7eb", "#047857", "#dc2626"


class Panel(NamedTuple):
    """A rectangle of the picture, and the place in m of its lower left corner, with one scale in both directions."""

    name: str
    left: float
    top: float
    width: float
    height: float
    west: float
    south: float
    scale: float

    def at(self, x, y):
        return self.left + (x - self.west) * self.scale, self.top + self.height - (y - self.south) * self.scale

    def east(self):
        return self.west + self.width / self.scale

    def north(self):
        return self.south + self.height / self.scale


def panel_about(name, box, low, high):
    """A panel in a box of the picture that shows at least what lies between two corners."""
    left, top, width, height = box
    scale = min(width / (high[0] - low[0]), height / (high[1] - low[1]))
    west = (low[0] + high[0] - width / scale) / 2
    south = (low[1] + high[1] - height / scale) / 2
    return Panel(name, left, top, width, height, west, south, scale)


def text(x, y, words, anchor="start", size=13, extra=""):
    return f'<text x="{x:.1f}" y="{y:.1f}" font-size="{size}" text-anchor="{anchor}"{extra}>{escape(words)}</text>'


def box(left, top, width, height, paint=""):
    return f'<rect x="{left:.1f}" y="{top:.1f}" width="{width:.1f}" height="{height:.1f}" {paint}/>'


def colour(part):
    """A colour of the path, from 0, its first question, to 1, its last."""
    first = min(int(part * 2), 1)
    share = part * 2 - first
    mixed = (round(a + (b - a) * share) for a, b in zip(COLOURS[first], COLOURS[first + 1]))
    return "#" + "".join(f"{c:02x}" for c in mixed)


def ticks(low, high):
    """Round numbers between two, at most seven."""
    step = 10.0 ** math.floor(math.log10((high - low) / 7))
    step *= next(m for m in (1, 2, 5, 10, 20) if (high - low) / (step * m) <= 7)
    first = math.ceil(low / step)
    return [step * k for k in range(first, math.floor(high / step) + 1)]


def axes(panel):
    """Frame, grid and numbers."""
    right, bottom = panel.left + panel.width, panel.top + panel.height
    lines, labels = [], []
    for x in ticks(panel.west, panel.east()):
        at = panel.at(x, panel.south)[0]
        lines.append(f"M{at:.1f} {panel.top:.1f}V{bottom:.1f}")
        labels.append(text(at, bottom + 18, f"{x:g}", "middle"))
    for y in ticks(panel.south, panel.north()):
        at = panel.at(panel.west, y)[1]
        lines.append(f"M{panel.left:.1f} {at:.1f}H{right:.1f}")
        labels.append(text(panel.left - 8, at + 4.5, f"{y:g}", "end"))
    middle = panel.top + panel.height / 2
    turned = f' transform="rotate(-90 {panel.left - 46:.1f} {middle:.1f})"'
    labels.append(text(panel.left + panel.width / 2, bottom + 38, "east, m", "middle"))
    labels.append(text(panel.left - 46, middle, "north, m", "middle", extra=turned))
    return [
        f'<path d="{"".join(lines)}" stroke="{PALE}"/>',
        box(panel.left, panel.top, panel.width, panel.height, f'fill="none" stroke="{INK}"'),
        *labels,
    ]


def stages(count):
    """Cuts a path of so many points into stretches of one colour: where each begins and ends, and its colour."""
    cuts = min(STAGES, max(count - 1, 1))
    for i in range(cuts):
        yield (count - 1) * i // cuts, (count - 1) * (i + 1) // cuts, colour(i / max(cuts - 1, 1))


def path(panel, points):
    """The points in order, joined, from the first colour to the last. Dots are strokes of no length with round ends."""
    drawn = [f'<g clip-path="url(#{panel.name})" stroke-linecap="round" stroke-linejoin="round">']
    places = [panel.at(x, y) for x, y in points]
    for first, last, tint in stages(len(places)):
        joined = "L".join(f"{x:.1f} {y:.1f}" for x, y in places[first : last + 1])
        dots = "".join(f"M{x:.1f} {y:.1f}h0" for x, y in places[first : last + 1])
        drawn.append(f'<g fill="none" stroke="{tint}"><path d="M{joined}" opacity="0.6"/><path d="{dots}" stroke-width="5"/></g>')
    first = text(places[0][0] - 6, places[0][1] - 8, "start", "end")
    return drawn + [first, "</g>"]


def mast(x, y):
    return f'<path d="M{x:.1f} {y - 9:.1f}l8 15h-16z" fill="{INK}"/>'


def emitter(x, y):
    return f'<path d="M{x - 8:.1f} {y:.1f}h16M{x:.1f} {y - 8:.1f}v16" stroke="{GREEN}" stroke-width="3"/>'


def end(x, y):
    return f'<circle cx="{x:.1f}" cy="{y:.1f}" r="7" fill="none" stroke="{RED}" stroke-width="3"/>'


def lens(left, top, width, height):
    return box(left, top, width, height, f'fill="none" stroke="{INK}" stroke-dasharray="4 3"')


def markers(panel, survey, final):
    """Masts by name, the true emitter and the end, where the panel has them."""
    drawn = [f'<g clip-path="url(#{panel.name})">']
    for one in survey.masts:
        x, y = panel.at(one.x, one.y)
        drawn += [mast(x, y), text(x + 12, y + 5, one.name, extra=' font-weight="bold"')]
    if survey.true:
        drawn.append(emitter(*panel.at(*survey.true[:2])))
    return drawn + [end(*panel.at(*final)), "</g>"]


def legend(x, y, survey, count):
    """What the marks are, and the colours of the path."""
    drawn = [mast(x, y), text(x + 18, y + 5, "mast"), end(x, y + 28), text(x + 18, y + 33, "where the fit ended")]
    drawn += [lens(x + 162, y - 8, 16, 16), text(x + 188, y + 5, "right panel")]
    if survey.true:
        drawn += [emitter(x + 170, y + 28), text(x + 188, y + 33, "true emitter")]
    for i in range(STAGES):
        drawn.append(box(x - 8 + 11 * i, y + 52, 11, 8, f'fill="{colour(i / (STAGES - 1))}"'))
    drawn += [text(x - 8, y + 78, "question 1"), text(x - 8 + 11 * STAGES, y + 78, f"question {count}", "end")]
    return drawn


def panels(survey, points, final):
    """The site with masts, start, end and true emitter, and the surroundings of the end, with the true emitter if it is near."""
    shown = [(one.x, one.y) for one in survey.masts] + [points[0], final]
    off = 0.0
    if survey.true:
        shown.append(survey.true[:2])
        off = max(abs(a - b) for a, b in zip(survey.true, final))
    low, high = [min(values) for values in zip(*shown)], [max(values) for values in zip(*shown)]
    margin = 0.08 * max(b - a for a, b in zip(low, high))
    site = panel_about("site", (76, 76, 500, 420), [c - margin for c in low], [c + margin for c in high])
    reach = min(max(0.4 * margin, 1.5 * off), margin)
    return site, panel_about("near", (664, 76, 272, 272), [c - reach for c in final], [c + reach for c in final])


def near_on(site, near):
    """The near panel's rectangle on the site."""
    (left, bottom), (right, top) = site.at(near.west, near.south), site.at(near.east(), near.north())
    return lens(left, top, right - left, bottom - top)


def clip(panel):
    return f'<clipPath id="{panel.name}">{box(panel.left, panel.top, panel.width, panel.height)}</clipPath>'


def picture(title, subtitle, survey, points, final):
    """The SVG's text, from the questions' points in order and the end, in m."""
    site, near = panels(survey, points, final)
    lines = [
        f'<svg xmlns="http://www.w3.org/2000/svg" viewBox="0 0 {WIDTH} {HEIGHT}" width="{WIDTH}" height="{HEIGHT}"'
        f' font-family="sans-serif" fill="{INK}" role="img" aria-label="{escape(title)}">',
        f'<defs>{clip(site)}{clip(near)}</defs>',
        f'<rect width="{WIDTH}" height="{HEIGHT}" rx="8" fill="#ffffff"/>',
        text(24, 32, title, size=18, extra=' font-weight="bold"'),
        text(24, 56, subtitle, size=14),
    ]
    for panel in (site, near):
        lines += axes(panel) + path(panel, points) + markers(panel, survey, final)
    lines += [near_on(site, near), *legend(672, 424, survey, len(points)), "</svg>"]
    return "\n".join(lines) + "\n"
