"""Which box of a page is placed, how far beyond it a page may print, and the boxes of sheets that are cut."""

import re
from itertools import islice
from typing import Any

from impose_pdf.pages import Box, Shape, bounds, box_of, common
from impose_pdf.plan import Matrix, Placed, Sheet, Size
from impose_pdf.words import Request, refusal, shown

KINDS = {"media": "/MediaBox", "crop": "/CropBox", "bleed": "/BleedBox", "trim": "/TrimBox", "art": "/ArtBox"}
LENGTH = re.compile(r"(\d{1,6}|\d{0,6}\.\d{1,9})(pt|mm|cm|in)|0")
UNITS = {"pt": 1, "mm": 72 / 25.4, "cm": 72 / 2.54, "in": 72}
NEAR = 1e-4  # points


def length(option: str, word: str) -> float:
    """The points of a length that an option has."""
    if not (found := LENGTH.fullmatch(word)):
        raise refusal(2, f"{option} wants a length with its unit, as 3mm, and got {shown(word)}")
    return float(found[1]) * UNITS[found[2]] if found[1] else 0


def inverse(m: Matrix) -> Matrix:
    """The matrix that leads back."""
    a, b, c, d, e, f = m
    area = a * d - b * c
    return d / area, -b / area, -c / area, a / area, (c * f - d * e) / area, (b * e - a * f) / area


class Boxing:
    """The box that is the page, and how far beyond it is printed."""

    def __init__(self, request: Request):
        own = request.own
        self.bleed = length("--bleed", own["--bleed"][-1]) if "--bleed" in own else 0.0
        kind = own.get("--box", ["trim" if "--bleed" in own else "crop"])[-1]
        if kind not in KINDS:
            raise refusal(2, f"--box is one of {', '.join(KINDS)}, and not {shown(kind)}")
        if "--bleed" in own and "--trim" in request.options:
            raise refusal(2, "--bleed and --trim both say where a page ends: leave one of them out")
        self.key = KINDS[kind]

    @property
    def draws(self) -> bool:
        """Whether pages aren't shown as they are by themselves."""
        return self.key != "/CropBox" or self.bleed > 0

    def boxes(self, page: Any, media: Box, crop: Box) -> tuple[Box, Box]:
        """The page, and what of it may be printed, of a page with these boxes."""
        known = {"/MediaBox": media, "/CropBox": crop}

        def found(key: str) -> Box:
            own = known.get(key) or box_of(page.get(key))
            inner = common(own, media) if own else None
            return inner if inner and inner[0] < inner[2] and inner[1] < inner[3] else crop

        box, more = found(self.key), found("/BleedBox")
        if self.bleed == 0:
            return box, box
        return box, (min(box[0], more[0]), min(box[1], more[1]), max(box[2], more[2]), max(box[3], more[3]))

    def let_out(self, sheet: Sheet, shapes: list[Shape]) -> None:
        """Lets the pages of a sheet print beyond their edges: to half the way to the next page, or the sheet's edge."""
        places = [clipped(placed) for placed in sheet.placed]
        for placed, shape, place, room in zip(sheet.placed, shapes, places, self.rooms(places, sheet.paper)):
            left, bottom, right, top = place
            whole = left - room[0], bottom - room[1], right + room[2], top + room[3]
            seen = common(bounds(whole, inverse(placed.matrix)), bounds(shape.drawn, shape.matrix))
            if seen:
                (width, height), old = placed.paper, placed.beyond
                new = -seen[0], -seen[1], seen[2] - width, seen[3] - height
                placed.beyond = max(old[0], new[0]), max(old[1], new[1]), max(old[2], new[2]), max(old[3], new[3])

    def rooms(self, places: list[Box], paper: Size) -> list[list[float]]:
        """How far each page may print beyond its left, lower, right and upper edge."""
        ends = ([left, bottom, paper[0] - right, paper[1] - top] for left, bottom, right, top in places)
        found = [[max(0.0, min(self.bleed, end)) for end in each] for each in ends]
        for side in range(4):
            at, sign = side % 2, -1 if side < 2 else 1
            middles = [sign * (place[at] + place[at + 2]) / 2 for place in places]
            order = sorted(range(len(places)), key=middles.__getitem__)
            most = max((place[at + 2] - place[at] for place in places), default=0) / 2
            for rank, k in enumerate(order):
                half = (places[k][at + 2] - places[k][at]) / 2
                for other in islice(order, rank + 1, None):
                    if middles[other] - middles[k] - half - most >= 2 * found[k][side]:
                        break  # what comes after it is farther away
                    if middles[other] > middles[k] and are_beside(places[k], places[other], 1 - at):
                        gap = middles[other] - middles[k] - half - (places[other][at + 2] - places[other][at]) / 2
                        found[k][side] = max(0.0, min(found[k][side], gap / 2))
        return found


def are_beside(one: Box, other: Box, at: int) -> bool:
    """Whether boxes have something in common in a direction."""
    return min(one[at + 2], other[at + 2]) - max(one[at], other[at]) > NEAR


def clipped(placed: Placed) -> Box:
    """Where a page may print on its sheet."""
    left, bottom, width, height = placed.clip
    return bounds((left, bottom, left + width, bottom + height), placed.matrix)


def give_boxes(sheet: Sheet, is_poster: bool) -> None:
    """Gives a sheet that is cut its TrimBox, which its outermost cuts bound, and its BleedBox."""
    upright = [x for x, _, other, _ in sheet.strokes if x == other]
    level = [y for _, y, _, other in sheet.strokes if y == other]
    pages = [bounds((0, 0, *placed.paper), placed.matrix) for placed in sheet.placed]
    ends = [ends_of(cuts, pages, k, sheet.paper[k], is_poster) for k, cuts in enumerate((upright, level))]
    (left, right), (bottom, top) = ends
    sheet.boxes = {"/TrimBox": (left, bottom, right, top)}
    for box in [clipped(placed) for placed in sheet.placed if any(placed.beyond)]:
        left, bottom, right, top = min(left, box[0]), min(bottom, box[1]), max(right, box[2]), max(top, box[3])
    sheet.boxes["/BleedBox"] = max(left, 0), max(bottom, 0), min(right, sheet.paper[0]), min(top, sheet.paper[1])


def ends_of(cuts: list[float], pages: list[Box], k: int, side: float, is_poster: bool) -> tuple[float, float]:
    """The outermost cuts, or a sheet's edges where it isn't cut outside of its pages."""
    if is_poster:
        return min(cuts, default=0), max(cuts, default=side)
    low, high = min((box[k] for box in pages), default=side), max((box[k + 2] for box in pages), default=0)
    before, behind = [at for at in cuts if at <= low + NEAR], [at for at in cuts if at >= high - NEAR]
    return min(before, default=0), max(behind, default=side)
