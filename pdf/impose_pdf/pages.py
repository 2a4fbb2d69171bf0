"""Pages of a PDF: their boxes, how they are held, and their sizes."""

from collections.abc import Callable, Iterable, Iterator
from dataclasses import dataclass
from functools import lru_cache
from math import isfinite
from typing import Any

from pikepdf import Array, Dictionary, Name, Object, Pdf

from impose_pdf.plan import Matrix, Size

Box = tuple[float, float, float, float]
INHERITED = ("/Resources", "/MediaBox", "/CropBox", "/Rotate")
LETTER: Box = (0, 0, 612, 792)
UPRIGHT: Matrix = (1, 0, 0, 1, 0, 0)
MOST_KNOWN = 1000  # numbers that are written again, as those of pages that are alike
FARTHEST = 1e9  # points: beyond all sheets, and within what readers count


def then(m: Matrix, n: Matrix) -> Matrix:
    """The matrix of one place after another."""
    a, b, c, d, e, f = m
    p, q, r, s, t, u = n
    return a * p + b * r, a * q + b * s, c * p + d * r, c * q + d * s, e * p + f * r + t, e * q + f * s + u


def moved(x: float, y: float, m: Matrix) -> tuple[float, float]:
    """A point, moved by a matrix, or the farthest one that way."""
    across, up = m[0] * x + m[2] * y + m[4], m[1] * x + m[3] * y + m[5]
    return max(-FARTHEST, min(FARTHEST, across)), max(-FARTHEST, min(FARTHEST, up))


def bounds(box: Box, m: Matrix) -> Box:
    """The box round a box that is moved by a matrix."""
    xs, ys = zip(*(moved(x, y, m) for x in box[::2] for y in box[1::2]))
    return min(xs), min(ys), max(xs), max(ys)


def common(a: Box, b: Box) -> Box | None:
    """What two boxes have in common, or None if that isn't even a point."""
    box = max(a[0], b[0]), max(a[1], b[1]), min(a[2], b[2]), min(a[3], b[3])
    return box if box[0] <= box[2] and box[1] <= box[3] else None


def nearest(x: float, y: float, box: Box) -> tuple[float, float]:
    """The point of a box that is nearest to a point."""
    return max(box[0], min(box[2], x)), max(box[1], min(box[3], y))


@lru_cache(MOST_KNOWN)
def numerals(*values: float) -> str:
    """Numbers as PDF has them."""
    return " ".join(f"{value:.9f}".rstrip("0").rstrip(".") if value % 1 else str(int(value)) for value in values)


@lru_cache(MOST_KNOWN)
def text_of(*values: float) -> bytes:
    """The text of an array of numbers."""
    return f"[{numerals(*(round(value, 6) for value in values))}]".encode()


def array(*values: float) -> Object:
    """Numbers as an array; parsing them is ten times as fast as giving them one by one."""
    return Object.parse(text_of(*values))


def numbers(values: Any) -> list[float]:
    """The numbers of an array, or none if it has other things."""
    try:
        return [float(value) for value in values.unparse(True)[1:-1].split()]
    except ValueError:  # perhaps indirect ones
        try:
            return [float(value) for value in values]
        except (TypeError, ValueError):
            return []
    except AttributeError:
        return []


def box_of(values: Any) -> Box | None:
    """A rectangle as left, bottom, right, top."""
    found = numbers(values) if isinstance(values, Array) and len(values) == 4 else []
    if len(found) != 4 or not all(map(isfinite, found)):
        return None
    a, b, c, d = found
    return min(a, c), min(b, d), max(a, c), max(b, d)


def name_of(value: Any) -> str:
    """A name of a dictionary's, or nothing for what isn't one, or isn't in UTF-8, as all of PDF's own are."""
    try:
        return str(value) if isinstance(value, Name) else ""
    except UnicodeDecodeError:
        return ""


def number_of(value: Any, default: float) -> float:
    """A number of a dictionary's, or a default for what isn't one, or is infinite for a computer."""
    try:
        found = float(value)
    except (TypeError, ValueError):
        return default
    return found if isfinite(found) else default


def items_of(value: Any) -> list[Any]:
    """The items of an array, or a thing as the only one."""
    return list(value) if isinstance(value, Array) else [value]


def keys_of(values: Any) -> list[str]:
    """The keys of a dictionary, without those that aren't in UTF-8, which pikepdf can't tell."""
    try:
        return sorted(values.keys())
    except UnicodeDecodeError:
        return [key for key in keys_in_turn(values) if key in values]  # others are null


def keys_in_turn(values: Any) -> Iterator[str]:
    """The same, one by one, which takes ten times as long."""
    keys = iter(values.as_dict())
    while True:
        try:
            yield next(keys)
        except UnicodeDecodeError:
            continue
        except StopIteration:
            return


def got(holder: Any, key: str) -> Any:
    """An entry of a dictionary, or None. Where there is none, `get` takes five times as long."""
    return holder[key] if key in holder else None


def drop(holder: Any, keys: Iterable[str]) -> None:
    """Takes entries away from a dictionary that has them."""
    for key in set(keys).intersection(keys_of(holder)):
        del holder[key]


def are_new(seen: set[tuple[int, int]], *things: Any) -> bool:
    """Whether none of these things was met before; they are then. Direct ones are their holder's own."""
    met = {thing.objgen for thing in things if thing.is_indirect}
    is_new = not met & seen
    seen |= met
    return is_new


def leaves(pdf: Pdf) -> Iterator[tuple[Any, dict[str, Any]]]:
    """The pages of a PDF, in order, each with what it has or inherits. Nodes and arrays of the tree count once."""
    seen, left = set[tuple[int, int]](), [(pdf.Root.get("/Pages"), dict[str, Any]())]
    while left:
        node, above = left.pop()
        if not isinstance(node, Dictionary):
            continue
        own = set(keys_of(node))
        entries = {**above, **{key: node[key] for key in INHERITED if key in own}}
        kids = node["/Kids"] if "/Kids" in own else None
        is_page = kids is not None and node.get("/Type") == Name.Page
        if isinstance(kids, Array) and not is_page:
            if are_new(seen, node, kids):
                if isinstance(held := entries.get("/Resources"), Dictionary) and not held.is_indirect:
                    entries["/Resources"] = pdf.make_indirect(held)  # one for all pages below
                left += [(kid, entries) for kid in reversed(list(kids))]
        elif kids is None or is_page:
            yield node, entries


@dataclass
class Shape:
    """What a page shows: its box, the matrix that makes it upright at 0 0, and its size then."""

    box: Box
    matrix: Matrix
    size: Size
    drawn: Box  # what of it may be printed


Choice = Callable[[Any, Box, Box], tuple[Box, Box]]


def shape_of(page: Any, entries: dict[str, Any], choose: Choice | None = None) -> Shape:
    """The shape of a page: its CropBox within its MediaBox, or what is chosen, turned by /Rotate, times UserUnit."""
    media = box_of(entries.get("/MediaBox")) or LETTER
    media = media if media[0] < media[2] and media[1] < media[3] else LETTER
    crop = box_of(entries.get("/CropBox")) or media
    box = max(media[0], crop[0]), max(media[1], crop[1]), min(media[2], crop[2]), min(media[3], crop[3])
    box = box if box[0] < box[2] and box[1] < box[3] else media
    box, drawn = choose(page, media, box) if choose else (box, box)
    left, bottom, right, top = box
    turn, unit = number_of(entries.get("/Rotate"), 0) % 360, number_of(got(page, "/UserUnit"), 1)
    turned: dict[float, Matrix] = {
        90: (0, -1, 1, 0, -bottom, right),
        180: (-1, 0, 0, -1, right, top),
        270: (0, 1, -1, 0, top, -left),
    }
    unit = unit if unit > 0 else 1
    matrix = then(turned.get(turn, (1, 0, 0, 1, -left, -bottom)), (unit, 0, 0, unit, 0, 0))
    width, height = round(unit * (right - left), 5), round(unit * (top - bottom), 5)
    return Shape(box, matrix, (height, width) if turn in (90, 270) else (width, height), drawn)
