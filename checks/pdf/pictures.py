"""What pdftoppm shows of a PDF: the squares of pages that are made (making.py), strokes and single points."""

from __future__ import annotations

import re
import subprocess
from collections import Counter
from collections.abc import Iterator
from dataclasses import dataclass
from pathlib import Path

from .making import Colour, Made, colour
from .plans import Placed, Sheet


@dataclass
class Picture:
    """A page, a pixel a unit, as one holds the printed paper: /Rotate is undone."""

    width: int
    height: int
    rows: bytes
    turn: int = 0
    unit: float = 1  # in points

    def at(self, x: float, y: float) -> Colour:
        """The colour at a point of the paper."""
        x, y = x / self.unit, y / self.unit
        across, up = {
            0: (x, y),
            90: (y, self.height - x),
            180: (self.width - x, self.height - y),
            270: (self.width - y, x),
        }[self.turn]
        column, row = min(max(int(across), 0), self.width - 1), min(max(int(self.height - up), 0), self.height - 1)
        place = 3 * (row * self.width + column)
        return self.rows[place], self.rows[place + 1], self.rows[place + 2]

    def count(self, wanted: Colour) -> int:
        """How many pixels have this colour."""
        text, found, at = bytes(wanted), 0, -1
        while (at := self.rows.find(text, at + 1)) >= 0:
            found += at % 3 == 0
        return round(found * self.unit**2)


def pictures(path: Path, turns: list[int], units: list[float]) -> list[Picture]:
    """Each page of a PDF, without smooth edges; turns are its pages' /Rotate, and units their points."""
    ran = subprocess.run(
        ["pdftoppm", "-r", "72", "-cropbox", "-aa", "no", "-aaVector", "no", path], capture_output=True, timeout=120
    )
    found, at = list[Picture](), 0
    while head := re.compile(rb"P6\n(\d+) (\d+)\n255\n").match(ran.stdout, at):
        width, height = int(head[1]), int(head[2])
        end = head.end() + 3 * width * height
        turn, unit = [*zip(turns, units), (0, 1)][min(len(found), len(turns))]
        found.append(Picture(width, height, ran.stdout[head.end() : end], turn, unit))
        at = end
    return found


def near(one: Colour, other: Colour) -> bool:
    return all(abs(a - b) <= 1 for a, b in zip(one, other))


def is_on(sheet: Sheet, x: float, y: float) -> bool:
    """Whether a point is on the sheet, and not at its edge."""
    return 1 < x < sheet.paper[0] - 1 and 1 < y < sheet.paper[1] - 1


@dataclass
class Square:
    """A square on a sheet: its sides, and its colour there, or none where a clip hides it."""

    left: float
    bottom: float
    right: float
    top: float
    colour: Colour
    name: str
    is_hidden: bool = False

    @property
    def middle(self) -> tuple[float, float]:
        return (self.left + self.right) / 2, (self.bottom + self.top) / 2

    def has(self, x: float, y: float) -> bool:
        return self.left - 1 < x < self.right + 1 and self.bottom - 1 < y < self.top + 1


def squares(placed: Placed, made: Made, page: int) -> list[Square]:
    """The squares of a page on a sheet."""
    shape, found = made.shapes[page], []
    for corner, (left, bottom, right, top) in enumerate(shape.squares()):
        x, y = shape.shown((left + right) / 2, (bottom + top) / 2)
        is_hidden = corner > 3 or not (0 < x < placed.paper[0] and 0 < y < placed.paper[1])
        one, other = placed.point(*shape.shown(left, bottom)), placed.point(*shape.shown(right, top))
        sides = min(one[0], other[0]), min(one[1], other[1]), max(one[0], other[0]), max(one[1], other[1])
        found.append(
            Square(*sides, colour(made.seed, page, corner), f"corner {corner} of page {placed.page + 1}", is_hidden)
        )
    return found


def faults(sheet: Sheet, picture: Picture, origin: list[tuple[Made, int]]) -> list[str]:
    """What isn't shown where it is wanted. The origin of a page is its PDF, and its number there, from 0."""
    drawn = [one for placed in sheet.pages for one in squares(placed, *origin[placed.page])]
    shown, found = [one for one in drawn if not one.is_hidden], []
    areas: Counter[Colour] = Counter()
    for at, one in enumerate(shown):
        areas[one.colour] += (one.right - one.left) * (one.top - one.bottom)  # type: ignore[assignment]
        above = any(other.has(*one.middle) for other in shown[at + 1 :])
        if is_on(sheet, *one.middle) and not above and not near(picture.at(*one.middle), one.colour):
            found.append(f"{one.name} isn't at {one.middle[0]:.1f} {one.middle[1]:.1f}")
    hidden = {one.colour: one.name for one in drawn if one.is_hidden and one.colour not in areas}
    found += [f"{name} is shown" for seen, name in hidden.items() if picture.count(seen) > 2]
    found += [
        f"{one.name} is larger, or shown again"
        for one in shown
        if picture.count(one.colour) > 1.4 * areas[one.colour] + 30
    ]
    return found + stroke_faults(sheet, picture)


def borders(placed: Placed) -> Iterator[tuple[float, float]]:
    """The middle of each side of a page's border."""
    if placed.border:
        _, inset = placed.border
        width, height = placed.paper
        for x, y in ((width / 2, inset), (width / 2, height - inset), (inset, height / 2), (width - inset, height / 2)):
            yield placed.point(x, y)


def stroke_faults(sheet: Sheet, picture: Picture) -> list[str]:
    """Strokes of marks, lines and borders that aren't there."""
    middles = [((one + last) / 2, (other + end) / 2) for one, other, last, end in sheet.strokes]
    found = []
    for x, y in [*middles, *(point for placed in sheet.pages for point in borders(placed))]:
        around = [picture.at(x + right, y + up) for right in (-1, 0, 1) for up in (-1, 0, 1)]
        if is_on(sheet, x, y) and not any(sum(seen) < 300 for seen in around):
            found.append(f"no stroke at {x:.1f} {y:.1f}")
    return found
