"""What is on a sheet, how it is shown, and what print dialogues are told."""

from typing import Any

from pikepdf import Dictionary, Name

from impose_pdf.pages import numerals, then
from impose_pdf.plan import Number, Placed, Sheet
from impose_pdf.words import Request

KEPT_PREFERENCES = (
    *("/HideToolbar", "/HideMenubar", "/HideWindowUI", "/FitWindow", "/CenterWindow", "/DisplayDocTitle"),
    "/NonFullScreenPageMode",
)
SIDES: dict[int, tuple[int, int]] = {0: (1, 0), 90: (0, 1), 180: (-1, 0), 270: (0, -1)}


def drawing(sheet: Sheet) -> bytes:
    """The content of a sheet: its pages, each cut at its paper and over its border, and then lines and numbers."""
    lines = []
    for placed in sheet.placed:
        lines.append(f"q {numerals(*placed.matrix)} cm {numerals(*placed.clip)} re W n")
        if placed.border:
            pen, *corners = placed.border
            path = " l ".join(numerals(x, y) for x, y in zip(corners[2::2], corners[3::2]))
            lines.append(f"q {numerals(pen)} w {numerals(*corners[:2])} m {path} l s Q")
        lines.append(f"{placed.under}/P{placed.page} Do {placed.over}Q")
    if sheet.strokes:
        lines.append(f"q {sheet.ink} {numerals(0.25 / sheet.unit)} w")
        lines += [f"{numerals(*stroke[:2])} m {numerals(*stroke[2:])} l S" for stroke in sheet.strokes]
        lines.append("Q")
    lines += [written(number) for number in sheet.numbers]
    if sheet.over:
        lines += [f"q {numerals(1 / sheet.unit, 0, 0, 1 / sheet.unit, 0, 0)} cm", sheet.over, "Q"]
    return "\n".join([*lines, ""]).encode()


def written(number: Number) -> str:
    """The number of a page. Digits are half as wide as high."""
    cos, sin = SIDES[number.degrees]
    left = number.foot[0] - len(number.digits) * number.size / 4
    at = then((1, 0, 0, 1, left, number.foot[1]), (cos, sin, -sin, cos, *number.origin))
    return f"BT 0 g 0 G /Numbers {numerals(number.size)} Tf {numerals(*at)} Tm ({number.digits}) Tj ET"


def turn_to_read(request: Request, sheets: list[Sheet]) -> int:
    """By how much sheets are turned on a screen to be read, all alike: by their first page, or if all lie one way."""
    pages = [placed for sheet in sheets for placed in sheet.placed]
    if request.command in ("nup", "notes", "cards"):
        pages = pages[:1]
    turns = {turn_of(request, placed) for placed in pages}
    return turns.pop() if request.command != "spec" and len(turns) == 1 else 0


def turn_of(request: Request, placed: Placed) -> int:
    """By how much a page is turned on its sheet, besides the turn that was asked for."""
    way = tuple((v > 0) - (v < 0) for v in placed.matrix[:2])
    lies = next((degrees for degrees, side in SIDES.items() if side == way), 0)
    turn = request.options.get("--turn")
    if turn == "wide" and placed.paper[0] <= placed.paper[1]:
        turn = None
    asked = turn or request.options.get("--turned")
    return (lies - {"left": 90, "wide": 90, "half": 180, "right": 270}.get(asked or "", 0)) % 360


def preferences(old: Any, flip: str) -> Dictionary:
    """What print dialogues are told: not to scale, and on which edge to flip."""
    made = Dictionary({key: old[key] for key in KEPT_PREFERENCES if key in old} if isinstance(old, Dictionary) else {})
    made.PrintScaling = Name("/None")
    if flip:
        made.Duplex = Name(f"/DuplexFlip{flip.capitalize()}Edge")
    return made
