"""Margins, folds and cuts of sheets, as impose draws them."""

import re

Line = tuple[str, float, float, float, float]

SHEET = re.compile(r"<svg width='200' .*?</svg><text class='name'", re.S)
LINE = re.compile(r"<line class='(margin|fold|cut)' x1='(\S+)' y1='(\S+)' x2='(\S+)' y2='(\S+)'/>")


def lines_of(drawn: bytes) -> list[list[Line]]:
    """For each sheet of a drawing, which has the first ones only, its lines: what each is, and its ends.

    These are in points from the lower left corner.
    """
    sheets = SHEET.findall(drawn.decode(errors="replace"))
    return [[(kind, *map(float, ends)) for kind, *ends in LINE.findall(sheet)] for sheet in sheets]  # type: ignore
