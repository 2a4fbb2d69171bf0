"""Annotations of a page: its links, and notes and form fields as they print."""

from math import hypot
from typing import Any

from pikepdf import Array, Dictionary, Name, Stream

from impose_pdf.forms import Note
from impose_pdf.pages import UPRIGHT, bounds, box_of, got, name_of, number_of, numbers, then
from impose_pdf.plan import Matrix

HIDDEN, PRINTED, NOT_TURNED = 2, 4, 16  # flags
DEEPEST = 100  # of fields below fields


def split(page: Any) -> tuple[list[Any], list[Any]]:
    """The links among the annotations of a page, and what may be drawn: the others, and links that have a look."""
    found = got(page, "/Annots")
    all_notes = [note for note in found if isinstance(note, Dictionary)] if isinstance(found, Array) else []
    notes = [note for note in all_notes if note.get("/Type") != Name.Page]
    kinds = [name_of(note.get("/Subtype")) for note in notes]
    links = [note for note, kind in zip(notes, kinds) if kind == "/Link"]
    return links, [note for note, kind in zip(notes, kinds) if kind != "/Popup" and (kind != "/Link" or "/AP" in note)]


def drawn(notes: list[Any], page: Matrix) -> list[Note]:
    """What is printed of annotations of a page: the form of each, the matrix to its place, and its layer."""
    made = []
    for note in notes:
        form, rectangle = appearance(note), box_of(note.get("/Rect"))
        box = box_of(form.get("/BBox")) if form is not None else None
        if form is None or rectangle is None or box is None:
            continue
        own = numbers(form.get("/Matrix"))
        a, b, c, d, e, f = own if len(own) == 6 else UPRIGHT
        left, bottom, right, top = bounds(box, (a, b, c, d, e, f))
        width, height = rectangle[2] - rectangle[0], rectangle[3] - rectangle[1]
        if 0 in (width, height, right - left, top - bottom):
            continue
        across, up = width / (right - left), height / (top - bottom)
        form.Type, form.Subtype = Name.XObject, Name.Form
        matrix = across, 0.0, 0.0, up, rectangle[0] - across * left, rectangle[1] - up * bottom
        if flags_of(note) & NOT_TURNED:
            matrix = then(matrix, turned_back(rectangle[0], rectangle[3], page))
        layer = note.get("/OC")
        made.append((form, matrix, layer if isinstance(layer, Dictionary) else None))
    return made


def turned_back(x: float, y: float, page: Matrix) -> Matrix:
    """The turn about a point that takes back that of a page."""
    unit = hypot(page[0], page[1])
    cos, sin = page[0] / unit, -page[1] / unit
    return cos, sin, -sin, cos, x - cos * x + sin * y, y - sin * x - cos * y


def entry_of(field: Any, key: str) -> Any:
    """An entry of a field, or of the nearest one above it that has one."""
    for _ in range(DEEPEST):
        if key in field or not isinstance(above := field.get("/Parent"), Dictionary):
            break
        field = above
    return field.get(key)


def flags_of(note: Any) -> int:
    """The flags of an annotation."""
    return int(number_of(note.get("/F"), 0))


def is_printed(note: Any) -> bool:
    """Whether an annotation is printed, by its flags."""
    flags = flags_of(note)
    return bool(flags & PRINTED and not flags & HIDDEN)


def appearance(note: Any) -> Any:
    """The form of an annotation that is printed, in the state in which it is; None if there is none."""
    looks = note.get("/AP")
    if not isinstance(looks, Dictionary):
        return None
    normal = looks.get("/N")
    if isinstance(normal, Dictionary):
        state = note.get("/AS")
        normal = normal.get(state if isinstance(state, Name) else Name.Off)
    return normal if isinstance(normal, Stream) and is_printed(note) else None
