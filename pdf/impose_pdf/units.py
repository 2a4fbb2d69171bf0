"""Sheets with larger sides than a page may have: they have a unit of several points."""

from dataclasses import replace
from math import ceil

from impose_pdf.pages import then
from impose_pdf.plan import Number, Placed, Sheet, Size

LARGEST = 14_400  # units: a side of a page (ISO 32000-1, annex C)


def in_units(sheet: Sheet) -> Sheet:
    """A sheet in the smallest unit, of whole points, in which its sides aren't too large."""
    unit = ceil(max(sheet.paper) / LARGEST)
    return sheet if unit == 1 else scaled(sheet, unit)


def scaled(sheet: Sheet, unit: int) -> Sheet:
    """A sheet in a unit. What is within pages has their own."""

    def smaller(size: Size) -> Size:
        return size[0] / unit, size[1] / unit

    def placed(old: Placed) -> Placed:
        return replace(old, matrix=then(old.matrix, (1 / unit, 0, 0, 1 / unit, 0, 0)))

    def number(old: Number) -> Number:
        return replace(old, size=old.size / unit, origin=smaller(old.origin), foot=smaller(old.foot))

    strokes = [tuple(value / unit for value in stroke) for stroke in sheet.strokes]
    pages, numbers = list(map(placed, sheet.placed)), list(map(number, sheet.numbers))
    boxes = {key: (*smaller(box[:2]), *smaller(box[2:])) for key, box in sheet.boxes.items()}
    return Sheet(smaller(sheet.paper), pages, strokes, numbers, unit, boxes, sheet.over, sheet.ink)
