"""Notes whose looks are left to viewers: marks on text, lines and areas, drawn from their entries."""

from collections.abc import Callable
from math import cos, hypot, isfinite, pi, sin
from typing import Any

from pikepdf import Array, Dictionary, Name, Pdf

from impose_pdf.fields import colour_of, few, line_of
from impose_pdf.pages import FARTHEST, Box, array, box_of, items_of, name_of, number_of, numbers, numerals

Point = tuple[float, float]
MOST_WAVES = 500
MITER = 10  # how many times as long as a line is wide a corner may be
ROUND = 0.5523  # of a quarter of a circle: how far its curve's points are from its ends
YELLOW = [1.0, 1.0, 0.0]
# How lines end, by points along the line and across, in sizes of the end. An end that isn't closed isn't filled.
ENDS: dict[str, tuple[bool, list[Point]]] = {
    "/OpenArrow": (False, [(-1, 0.5), (0, 0), (-1, -0.5)]),
    "/ClosedArrow": (True, [(-1, 0.5), (0, 0), (-1, -0.5)]),
    "/ROpenArrow": (False, [(1, 0.5), (0, 0), (1, -0.5)]),
    "/RClosedArrow": (True, [(1, 0.5), (0, 0), (1, -0.5)]),
    "/Square": (True, [(-0.5, -0.5), (0.5, -0.5), (0.5, 0.5), (-0.5, 0.5)]),
    "/Diamond": (True, [(-0.5, 0), (0, -0.5), (0.5, 0), (0, 0.5)]),
    "/Circle": (True, [(cos(k * pi / 8) / 2, sin(k * pi / 8) / 2) for k in range(16)]),
    "/Butt": (False, [(0, -0.5), (0, 0.5)]),
    "/Slash": (False, [(-0.3, -0.5), (0.3, 0.5)]),
}


def points_of(values: Any) -> list[Point]:
    """The points of an array, or none if it has other things."""
    found = numbers(values) if isinstance(values, Array) else []
    are_near = all(isfinite(value) and abs(value) <= FARTHEST for value in found)
    return list(zip(found[::2], found[1::2])) if are_near else []


def between(a: Point, b: Point, share: float) -> Point:
    """The point that lies so far from one point to another."""
    return a[0] + share * (b[0] - a[0]), a[1] + share * (b[1] - a[1])


def path(points: list[Point]) -> str:
    """A line through points."""
    parts = [f"{numerals(*point)} {'l' if k else 'm'}" for k, point in enumerate(points)]
    return " ".join(parts if len(points) > 1 else parts + [f"{numerals(*point)} l" for point in points])


class Shape:
    """What is drawn of a note."""

    def __init__(self, note: Any):
        self.note, self.rect = note, box_of(note.get("/Rect")) or (0, 0, 0, 0)
        self.line = line_of(note, 1)
        held = note.get("/C")
        usual = YELLOW if note.get("/Subtype") == Name.Highlight else [0.0]
        self.colour = few(held) if isinstance(held, Array) else usual
        self.ground = colour_of(few(note.get("/IC")))
        self.draw = KINDS.get(name_of(note.get("/Subtype")))
        self.fault = "" if self.draw else "that can't be drawn"
        self.reached: list[Point] = []  # the points that it reaches
        self.margin = self.line / 2  # how far it reaches beyond them

    def content(self) -> str:
        """What draws it, or nothing."""
        return self.draw(self) if self.draw else ""

    def give_look(self, pdf: Pdf) -> None:
        """Gives the note its look, and the rectangle that it fills."""
        drawn = self.content() if max(abs(side) for side in self.rect) <= FARTHEST else ""
        if drawn:
            look = pdf.make_stream(f"/G gs {drawn}\n".encode(), Type=Name.XObject, Subtype=Name.Form)
            look.Resources, look.BBox, self.note.Rect = self.resources(), array(*self.bounds()), array(*self.bounds())
            self.note.AP = Dictionary(N=look)

    def bounds(self) -> Box:
        """The box round what is drawn."""
        xs, ys = zip(*self.reached)
        margin = self.margin
        return min(xs) - margin, min(ys) - margin, max(xs) + margin, max(ys) + margin

    def resources(self) -> Any:
        """What it needs: how it is laid over what is below it."""
        opacity = min(max(number_of(self.note.get("/CA"), 1), 0), 1)
        state = Dictionary(CA=opacity, ca=opacity)
        if self.note.get("/Subtype") == Name.Highlight:
            state.BM = Name.Multiply
        return Dictionary(ExtGState=Dictionary(G=state))

    def quads(self) -> list[list[Point]]:
        """The parts of text that are marked: the corners of each at the upper left and right, and the lower two."""
        left, bottom, right, top = self.rect
        points = points_of(self.note.get("/QuadPoints"))
        points = points if len(points) > 3 else [(left, top), (right, top), (left, bottom), (right, bottom)]
        ends = range(4, len(points) + 1, 4)
        quads = [points[at:end] for at, end in zip(range(0, len(points), 4), ends)]
        self.reached = [point for quad in quads for point in quad]
        return quads

    def highlight(self) -> str:
        """A ground of some text."""
        drawn = (f"{path([a, b, d, c])} f" for a, b, c, d in self.quads())
        colour, self.margin = colour_of(self.colour), 0
        return f"{colour} {' '.join(drawn)}" if colour else ""

    def along(self, share: float, is_wave: bool = False) -> str:
        """Lines along some text, this far from its foot to its top."""
        drawn = ""
        for a, b, c, d in self.quads():
            tall = hypot(a[0] - c[0], a[1] - c[1])
            begin, end = between(c, a, share), between(d, b, share)
            points = self.wave(begin, end, tall) if is_wave else [begin, end]
            drawn += f" {numerals(tall / 16)} w {path(points)} S"
            self.margin = max(self.margin, tall / 10)
        colour = colour_of(self.colour, True)
        return colour + drawn if colour else ""

    def wave(self, begin: Point, end: Point, tall: float) -> list[Point]:
        """A line to and fro."""
        length = hypot(end[0] - begin[0], end[1] - begin[1])
        count = min(int(length / (tall / 8)) if tall else 0, MOST_WAVES)
        ups = [between(begin, end, k / count) for k in range(count + 1)] if count else [begin, end]
        across, up = (begin[1] - end[1]) / (length or 1) * tall / 10, (end[0] - begin[0]) / (length or 1) * tall / 10
        return [(x + (k % 2) * across, y + (k % 2) * up) for k, (x, y) in enumerate(ups)]

    def painted(self, outline: str, is_area: bool = True) -> str:
        """An outline with its ground and its line."""
        colour, style = colour_of(self.colour, True) if self.line else "", self.note.get("/BS")
        is_dashed = isinstance(style, Dictionary) and name_of(style.get("/S")) == "/D"
        dashes = [value for value in few(style.get("/D")) if 0 < value < FARTHEST] if is_dashed else []
        fills, dash = bool(self.ground and is_area), f"[{numerals(*dashes) or 3}] 0 d" if is_dashed else ""
        operator = {(True, True): "B", (True, False): "f", (False, True): "S"}.get((fills, bool(colour)))
        return f"{self.ground} {colour} {numerals(self.line)} w {dash} {outline} {operator}" if operator else ""

    def inner(self) -> Box:
        """The box within which lines of a rectangle run."""
        left, bottom, right, top = self.rect
        a, b, c, d = [*few(self.note.get("/RD")), 0, 0, 0, 0][:4]
        self.reached, half = [(left, bottom), (right, top)], self.line / 2
        self.margin = 0
        return left + max(a, 0) + half, bottom + max(b, 0) + half, right - max(c, 0) - half, top - max(d, 0) - half

    def square(self) -> str:
        """A rectangle."""
        left, bottom, right, top = self.inner()
        is_one = left < right and bottom < top
        return self.painted(f"{numerals(left, bottom, right - left, top - bottom)} re") if is_one else ""

    def circle(self) -> str:
        """An ellipse."""
        left, bottom, right, top = self.inner()
        x, y, a, b = (left + right) / 2, (bottom + top) / 2, (right - left) / 2, (top - bottom) / 2
        corners = [(1, 0), (0, 1), (-1, 0), (0, -1), (1, 0)]
        outline = f"{numerals(x + a, y)} m"
        for (p, q), (r, s) in zip(corners, corners[1:]):
            curve = (p + ROUND * r, q + ROUND * s), (r + ROUND * p, s + ROUND * q), (r, s)
            outline += f" {numerals(*(part for u, v in curve for part in (x + a * u, y + b * v)))} c"
        return self.painted(f"{outline} h") if a > 0 and b > 0 else ""

    def lines(self, points: list[Point], is_area: bool = False) -> str:
        """A line through points, with its ends; or an area."""
        if len(points) < 2:
            return ""
        self.reached, self.margin, ends = points, MITER / 2 * self.line, self.note.get("/LE")
        drawn = self.painted(path(points) + " h" * is_area, is_area)
        kinds = [name_of(end) for end in ends] if isinstance(ends, Array) and len(ends) == 2 and not is_area else []
        for kind, (at, before) in zip(kinds, ((points[0], points[1]), (points[-1], points[-2]))):
            drawn += self.end(kind, at, before)
        return drawn

    def end(self, kind: str, at: Point, before: Point) -> str:
        """An end of a line that comes from a point before it."""
        is_closed, points = ENDS.get(kind, (False, []))
        length, size = hypot(at[0] - before[0], at[1] - before[1]), 6 * max(self.line, 1)
        if not points or not length:
            return ""
        self.margin = max(self.margin, 1.5 * size)
        u, v = size * (at[0] - before[0]) / length, size * (at[1] - before[1]) / length
        outline = path([(at[0] + x * u - y * v, at[1] + x * v + y * u) for x, y in points])
        return " " + self.painted(outline + " h" * is_closed, is_closed)

    def ink(self) -> str:
        """Lines by hand."""
        lists = self.note.get("/InkList")
        lines = [points for one in items_of(lists) if (points := points_of(one))]
        self.reached = [point for line in lines for point in line]
        return self.painted("1 J 1 j " + " ".join(map(path, lines)), False) if lines else ""


KINDS: dict[str, Callable[[Shape], str]] = {
    "/Highlight": Shape.highlight,
    "/Underline": lambda shape: shape.along(1 / 7),
    "/StrikeOut": lambda shape: shape.along(3 / 7),
    "/Squiggly": lambda shape: shape.along(0, True),
    "/Square": Shape.square,
    "/Circle": Shape.circle,
    "/Line": lambda shape: shape.lines(points_of(shape.note.get("/L"))[:2]),
    "/PolyLine": lambda shape: shape.lines(points_of(shape.note.get("/Vertices"))),
    "/Polygon": lambda shape: shape.lines(points_of(shape.note.get("/Vertices")), True),
    "/Ink": Shape.ink,
}
