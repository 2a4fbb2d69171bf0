"""Marks for printers outside of what is cut out of a sheet, and the ink of all marks, which is on each plate."""

import os
import unicodedata
from collections.abc import Iterator

from pikepdf import Object

from impose_pdf.boxes import clipped
from impose_pdf.lettering import Lettering
from impose_pdf.making import Making
from impose_pdf.pages import Box, numerals
from impose_pdf.plan import Sheet
from impose_pdf.words import Request, refusal

SPACE = b"[/Separation /All /DeviceGray << /FunctionType 2 /Domain [0 1] /C0 [1] /C1 [0] /N 1 >>]"
INKS = "1 0 0 0", "0 1 0 0", "0 0 1 0", "0 0 0 1", "0 1 1 0", "1 0 1 0", "1 1 0 0", "0 0 0 .5"
LARGEST, PATCH, SIZE = 9, 12, 7  # points: half a registration mark, a patch of colour, letters
LEAST = 10  # points that a mark needs of a margin
CLEAR = 20  # points between a registration mark and others
PARTS = 1 / 2, 1 / 3, 2 / 3, 1 / 4, 3 / 4  # of a side, at which it may be
ROUND = 0.5523  # of a quarter of a circle: how far its curve's points are from its ends
LONGEST = 100  # signs of the names of files


class Marks:
    """The marks that a request names besides those of impose."""

    def __init__(self, request: Request):
        self.own = request.own.get("--marks", [])
        names = ", ".join("standard input" if name == "-" else os.path.basename(name) for name, _ in request.infiles)
        names = unicodedata.normalize("NFC", names)
        self.names = names if len(names) <= LONGEST else f"{names[:LONGEST]}.."

    def put(self, making: Making, sheets: list[Sheet]) -> None:
        """Puts them on sheets."""
        making.added["/ColorSpace"] = {"/All": making.pdf.make_indirect(Object.parse(SPACE))}
        slugs = [f"{self.names}  {k + 1}/{len(sheets)}  {('front', 'back')[k % 2]}" for k in range(len(sheets))]
        if "slug" in self.own:
            lettering = Lettering(making.pdf, set(slugs), "/Slug")
            making.added.setdefault("/Font", {})["/Slug"] = lettering.font.held
        for sheet, slug in zip(sheets, slugs):
            sheet.ink, inner, drawn = "/All CS 1 SCN", inner_of(sheet), list[str]()
            if "registration" in self.own:
                drawn += registration(sheet, inner)
            if "bars" in self.own:
                drawn += bars(sheet, inner)
            if "slug" in self.own:
                height = room_at(sheet, inner, (1, 3), "slug")[1]
                at = inner[0], (inner[1] - SIZE) / 2 if height == 1 else (sheet.paper[1] + inner[3] - SIZE) / 2
                size = min(SIZE, (sheet.paper[0] - inner[0]) / lettering.width(slug))
                drawn += ["/All cs 1 scn", lettering.shown(slug, size, (1, 0), at)]
            if drawn:
                sheet.over = "\n".join([sheet.over, "q /All CS 1 SCN .25 w", *drawn, "Q"])


def inner_of(sheet: Sheet) -> Box:
    """What marks are outside of: what is cut out of a sheet, or its pages."""
    if "/BleedBox" in sheet.boxes:
        return sheet.boxes["/BleedBox"]
    lefts, bottoms, rights, tops = zip(*map(clipped, sheet.placed)) if sheet.placed else ([0], [0], [0], [0])
    return max(min(lefts), 0), max(min(bottoms), 0), min(max(rights), sheet.paper[0]), min(max(tops), sheet.paper[1])


def rooms(sheet: Sheet, inner: Box) -> tuple[float, ...]:
    """How wide the strips at the left, the foot, the right and the top are."""
    return inner[0], inner[1], sheet.paper[0] - inner[2], sheet.paper[1] - inner[3]


def room_at(sheet: Sheet, inner: Box, sides: tuple[int, ...], mark: str) -> tuple[float, int]:
    """The first strip with room for a mark: how wide it is, and on which side."""
    found = rooms(sheet, inner)
    side = next((side for side in sides if found[side] >= LEAST), None)
    if side is None:
        raise refusal(1, f"there is no room for --marks {mark}: leave a --margin of {LEAST}pt, or more")
    return found[side], side


def registration(sheet: Sheet, inner: Box) -> Iterator[str]:
    """A cross in a circle in each strip that has room for it, off the other marks."""
    room_at(sheet, inner, (0, 1, 2, 3), "registration")
    for side, room in enumerate(rooms(sheet, inner)):
        if room < LEAST:
            continue
        upright = side % 2 == 0
        length = sheet.paper[1 if upright else 0]
        taken = [at for x, y, a, b in sheet.strokes for at in ((y, b) if upright else (x, a))]
        free = (length * part for part in PARTS if all(abs(length * part - at) >= CLEAR for at in taken))
        along, across = next(free, length / 2), room / 2 if side < 2 else sheet.paper[side - 2] - room / 2
        yield cross(*((across, along) if upright else (along, across)), min(LARGEST, room / 2 - 1))


def cross(x: float, y: float, half: float) -> str:
    """A cross in a circle."""
    ends = (x - half, y, x + half, y), (x, y - half, x, y + half)
    lines = [f"{numerals(a, b)} m {numerals(c, d)} l S" for a, b, c, d in ends]
    r, k = half / 2, half / 2 * ROUND
    curves = (
        (x + r, y + k, x + k, y + r, x, y + r),
        (x - k, y + r, x - r, y + k, x - r, y),
        (x - r, y - k, x - k, y - r, x, y - r),
        (x + k, y - r, x + r, y - k, x + r, y),
    )
    return " ".join([*lines, f"{numerals(x + r, y)} m", *(f"{numerals(*curve)} c" for curve in curves), "S"])


def bars(sheet: Sheet, inner: Box) -> Iterator[str]:
    """Patches of the inks in a strip, round a quarter of its length."""
    room, side = room_at(sheet, inner, (0, 2, 1, 3), "bars")
    upright = side % 2 == 0
    length = sheet.paper[1 if upright else 0]
    patch = min(PATCH, room - 4, length / 20)
    across = (room if side < 2 else 2 * sheet.paper[side - 2] - room) / 2 - patch / 2
    for k, ink in enumerate(INKS):
        along = length / 4 + (k - len(INKS) / 2) * patch
        yield f"{ink} k {numerals(*((across, along) if upright else (along, across)), patch, patch)} re f"
