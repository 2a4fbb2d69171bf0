"""What sheets have to keep of the pages that are placed on them: words, fonts, links, outlines."""

from __future__ import annotations

from collections import Counter
from dataclasses import dataclass, field
from pathlib import Path
from typing import Any

from pikepdf import Dictionary, Pdf

from . import reading
from .making import Box, Shape
from .plans import Placed, Sheet
from .reading import Goal, Link

NEAR = 0.02
Item = tuple[int, str, Goal | str | None]  # of outlines: level, title, and where it leads


def entry(page: Any, key: str) -> Any:
    """An entry of a page, or of the nodes above it."""
    for _ in range(60):
        if key in page or not isinstance(page.get("/Parent"), Dictionary):
            break
        page = page.Parent
    return page.get(key)


def pages_of(ranges: str, count: int) -> list[int]:
    """The pages, from 0, of ranges such as `3-1,_1`; all without."""
    if not ranges:
        return list(range(count))
    found = []
    for part in ranges.split(","):
        first, dash, last = part.partition("-")
        one = place(first, count)
        other = place(last, count) if last else count - 1 if dash else one
        found += list(range(one, other + 1)) if one <= other else list(range(one, other - 1, -1))
    return found


def place(text: str, count: int) -> int:
    return count - int(text[1:]) if text.startswith("_") else int(text) - 1


def box(page: Any, key: str) -> Box | None:
    found = entry(page, key)
    if found is None:
        return None
    a, b, c, d = (float(value) for value in found)
    return min(a, c), min(b, d), max(a, c), max(b, d)


def shape(page: Any) -> Shape:
    """The boxes, turn and unit of a page of any PDF."""
    return Shape(
        box(page, "/MediaBox") or (0, 0, 612, 792),
        box(page, "/CropBox"),
        int(entry(page, "/Rotate") or 0),
        float(page.get("/UserUnit", 1)),
    )


@dataclass
class Source:
    """A PDF whose pages are placed: what is found in it, and where each page stands first."""

    path: Path
    pdf: Pdf
    first: int = 0  # the row's number of its first page
    shapes: list[Shape] = field(default_factory=list)
    taken: list[int] = field(default_factory=list)  # the pages that are taken of it, from 0
    own: set[int] = field(default_factory=set)  # sheets that are pages themselves

    @classmethod
    def read(cls, path: Path, first: int, ranges: str = "") -> Source:
        pdf = reading.opened(path)
        shapes = [shape(page.obj) for page in pdf.pages]
        return cls(path, pdf, first, shapes, pages_of(ranges, len(shapes)))

    def page(self, row: int) -> int | None:
        """Its page at a place of the row."""
        return self.taken[row - self.first] if 0 <= row - self.first < len(self.taken) else None

    def places(self, page: int, sheets: list[Sheet]) -> list[tuple[int, Placed]]:
        """The sheets on which a page of it is, and how."""
        return [
            (at, placed) for at, sheet in enumerate(sheets) for placed in sheet.pages if self.page(placed.page) == page
        ]

    def place(self, goal: Goal, sheets: list[Sheet]) -> tuple[int, Placed] | None:
        """The first sheet that has the point to which something leads, and more of the page right of and below it; or
        the first with the page."""
        found = self.places(goal.page, sheets)
        if goal.kind in ("Fit", "FitB") or not found:
            return found[0] if found else None
        width, height = self.shapes[goal.page].size
        x, y = self.point(goal)
        x, y = min(max(x, 0), width - 2 * NEAR) + NEAR, max(min(y, height), 2 * NEAR) - NEAR
        for at, placed in found:
            across, up = placed.point(x, y)
            width, height = sheets[at].paper
            if 0 < across < width and 0 < up < height:
                return at, placed
        return found[0]

    def point(self, goal: Goal) -> tuple[float, float]:
        """The point of the page, as it is shown, to which something leads."""
        shape = self.shapes[goal.page]
        left, _, _, top = shape.seen
        values = (*goal.values, None, None, None, None)
        if goal.kind == "FitR" and None not in values[:4]:
            corners = [shape.shown(x, y) for x in values[:4:2] for y in values[1:4:2]]  # type: ignore[arg-type]
            return min(x for x, _ in corners), max(y for _, y in corners)
        x, y = {
            "XYZ": values[:2],
            "FitR": (values[0], values[3]),
            "FitV": (values[0], None),
            "FitBV": (values[0], None),
        }.get(goal.kind, (None, values[0]))
        return shape.shown(left if x is None else x, top if y is None else y)

    def goal(self, goal: Goal, sheets: list[Sheet]) -> Goal | None:
        """Where a place of a page is on sheets: a sheet, and the point, or a whole sheet for a whole page."""
        found = self.place(goal, sheets)
        if found is None:
            return None
        at, placed = found
        if at in self.own:
            return Goal(at, goal.kind, goal.values)
        if goal.kind in ("Fit", "FitB"):
            return Goal(at, "Fit", ())
        if goal.kind == "FitR" and None not in goal.values[:4]:
            return Goal(at, "FitR", self.bounds(goal.page, placed, goal.values[:4]))  # type: ignore[arg-type]
        return Goal(at, "XYZ", placed.point(*self.point(goal)))

    def links(self, sheets: list[Sheet]) -> list[Link]:
        """The links that sheets have to have of this PDF."""
        found = []
        for at, sheet in enumerate(sheets):
            for placed in sheet.pages:
                for link in self.links_of(self.page(placed.page)):
                    goal = self.goal(link.goal, sheets) if isinstance(link.goal, Goal) else link.goal
                    area = link.box if at in self.own else self.moved(link, placed, sheet)
                    if goal is not None and area is not None:
                        found.append(Link(at, area, goal))
        return found

    def links_of(self, page: int | None) -> list[Link]:
        return [link for link in reading.links(self.pdf) if link.page == page]

    def moved(self, link: Link, placed: Placed, sheet: Sheet) -> Box | None:
        """What is seen of the box of a link on a sheet: it ends where its page, the page's paper and the sheet do."""
        sides = (min(pair) for pair in zip(self.shapes[link.page].size, placed.paper))
        xs, ys = zip(placed.point(0, 0), placed.point(*sides))
        left, bottom, right, top = self.bounds(link.page, placed, link.box)
        left, right = max(left, 0, *sorted(xs)[:1]), min(right, sheet.paper[0], *sorted(xs)[1:])
        bottom, top = max(bottom, 0, *sorted(ys)[:1]), min(top, sheet.paper[1], *sorted(ys)[1:])
        return (left, bottom, right, top) if left <= right and bottom <= top else None

    def bounds(self, page: int, placed: Placed, sides: tuple[float, ...]) -> Box:
        """The sides on a sheet of a box on a page."""
        a, b, c, d = sides
        xs, ys = zip(*(placed.point(*self.shapes[page].shown(x, y)) for x in (a, c) for y in (b, d)))
        return min(xs), min(ys), max(xs), max(ys)


def matches(found: Goal | str | None, wanted: Goal | str | None) -> bool:
    """Whether something leads where it should: to the sheet, and if a point of it is told, to that."""
    if not isinstance(found, Goal) or not isinstance(wanted, Goal):
        return found == wanted
    if found.page != wanted.page:
        return False
    if found.kind != wanted.kind:
        return False
    number = {"XYZ": 2, "FitR": 4}.get(wanted.kind, 0)
    pairs = zip(found.values[:number], wanted.values[:number])
    return all(
        one is other or one is not None and other is not None and abs(one - other) < NEAR for one, other in pairs
    )


def link_faults(found: list[Link], wanted: list[Link]) -> list[str]:
    """Links that are missing, and those that are too many."""
    left, faults = list(found), list[str]()
    for link in wanted:
        near = [
            one for one in left if one.page == link.page and all(abs(a - b) < NEAR for a, b in zip(one.box, link.box))
        ]
        same = next((one for one in near if matches(one.goal, link.goal)), None)
        if same:
            left.remove(same)
        else:
            faults.append(f"no {told(link)}" + "".join(f"; there leads one to {one.goal}" for one in near[:1]))
    return faults + [f"one too many: {told(link)}" for link in left]


def told(link: Link) -> str:
    sides = " ".join(f"{side:.2f}" for side in link.box)
    return f"link on sheet {link.page + 1} at {sides} to {link.goal}"


def outline_faults(found: list[Item], wanted: list[Item]) -> list[str]:
    if [one[:2] for one in found] != [one[:2] for one in wanted]:
        return [f"outlines {[one[:2] for one in found]}, wanted {[one[:2] for one in wanted]}"]
    return [
        f"outline {one[1]} leads to {one[2]}, wanted {other[2]}"
        for one, other in zip(found, wanted)
        if not matches(one[2], other[2])
    ]


def word_faults(found: list[Counter[str]], sources: list[Source], sheets: list[Sheet], share: float) -> list[str]:
    """Words that sheets lack, or have besides. A share of all is enough, where a reader parts them anew."""
    pages = [words[page] for source in sources for words in [reading.words(source.path)] for page in source.taken]
    if len(found) != len(sheets):
        return [f"text of {len(found)} sheets, wanted {len(sheets)}"]
    faults, lost, all_words = [], 0, 0
    for at, (sheet, seen) in enumerate(zip(sheets, found), 1):
        wanted: Counter[str] = sum((pages[placed.page] for placed in sheet.pages), Counter())
        wanted += Counter(number.text for number in sheet.numbers)
        missing, besides = wanted - seen, seen - wanted
        lost, all_words = lost + missing.total() + besides.total(), all_words + wanted.total()
        if missing or besides:
            faults.append(f"sheet {at} lacks {sorted(missing)[:5]}, has besides {sorted(besides)[:5]}")
    return faults if lost > (1 - share) * all_words else []
