"""What leads somewhere: destinations, names, actions and links of a PDF, made anew so that they lead to sheets."""

import re
from collections.abc import Callable, Iterator
from copy import copy
from typing import Any

from pikepdf import Array, Dictionary, Name, Object, Pdf, String

from impose_pdf.pages import (
    FARTHEST,
    Box,
    Shape,
    are_new,
    bounds,
    drop,
    got,
    keys_of,
    moved,
    name_of,
    nearest,
    numerals,
    then,
)
from impose_pdf.plan import Matrix, Placed, Size
from impose_pdf.trees import free, named

# Actions that are kept as they are. Others are scripts, or lead to notes and threads, which aren't there any more.
KEPT_ACTIONS = {"/URI", "/GoToR", "/GoToE", "/Launch", "/Named", "/SetOCGState"}
MOST_ACTIONS = 100  # of a link or an outline item
NEAR = 0.02  # points, which a sheet shows of a page at least where something leads to it
TARGET = re.compile(rb"\[ ([0-9]+) (?:([0-9]+) R )?(.*)\]", re.DOTALL)  # a page by its number, or as an object
POINTS = {b"/XYZ": (0, 1), b"/FitV": (0, None), b"/FitBV": (0, None), b"/FitH": (None, 0), b"/FitBH": (None, 0)}

KINDS = {*POINTS, b"/Fit", b"/FitB", b"/FitR"}
EVERYWHERE: Box = (-FARTHEST, -FARTHEST, FARTHEST, FARTHEST)


def number(word: bytes) -> float | None:
    """A number of a destination; null, which leaves that of the screen, is none."""
    try:
        return float(word)
    except ValueError:
        return None


def in_turn(action: Any) -> Iterator[Any]:
    """An action and those after it, each once, in the order in which they are done, up to a limit."""
    seen, left = set[tuple[int, int]](), [iter([action])]
    for _ in range(MOST_ACTIONS):
        while (each := next(left[-1], left)) is left:
            left.pop()
            if not left:
                return
        if isinstance(each, Dictionary) and are_new(seen, each):
            yield each
            after = got(each, "/Next")
            left.append(map(after.__getitem__, range(len(after))) if isinstance(after, Array) else iter([after]))


class Ways:
    """The ways in a PDF: where its pages went, and what leads to them."""

    def __init__(self, source: Pdf, made: Pdf, pages: list[Any], shapes: list[Shape]):
        self.source, self.made, self.shapes = source, made, shapes
        self.numbers = {page.objgen: k for k, page in reversed(list(enumerate(pages)))}
        self.places: dict[int, list[tuple[Any, Size, Placed]]] = {}  # of each page: its sheets, their papers, and how
        self.whole = set[int]()  # pages that are sheets themselves
        self.renamed: dict[bytes, bytes] = {}  # names that lead to a sheet, and what they are called there
        self.dests: dict[bytes, Any] = {}  # where they lead, by their new names
        self.old_style: Any = Dictionary()  # names that are no strings, and where they led
        self.scripts = 0  # actions that aren't kept
        self.known: dict[tuple[str, bytes], Any] = {}  # what several may have, by how it was led

    def brought(self, thing: Any) -> Any:
        """A dictionary, stream or array of the PDF in the one that is made."""
        if self.source is self.made:
            return thing
        return self.made.copy_foreign(thing if thing.is_indirect else self.source.make_indirect(thing))

    def once(self, lead: Callable[[Any], Any], thing: Any) -> Any:
        """What a thing is led to, made once if several may have it: an object, or a name."""
        if not isinstance(thing, Object) or not (thing.is_indirect or isinstance(thing, Name)):
            return lead(thing)
        key = lead.__name__, thing.unparse()
        if key not in self.known:
            self.known[key] = lead(thing)
        elif (way := self.known[key]) is not None and not way.is_indirect:
            self.known[key] = self.made.make_indirect(way)
        return self.known[key]

    def lead(self, dest: Any) -> Any:
        """Where a destination leads now, or None if its page isn't on a sheet."""
        return self.once(self.lead_alone, dest)

    def lead_alone(self, dest: Any) -> Any:
        """The same of one that wasn't led before."""
        if isinstance(dest, Array):
            if not (match := TARGET.match(dest.unparse(True))):
                return None
            if b" R" in match[3]:  # numbers that are objects of their own
                match = TARGET.match(Array(list(dest)).unparse(True)) or match
            page, of_page, rest = match.groups()
            target = int(page) if of_page is None else self.numbers.get((int(page), int(of_page)), -1)
            return self.led(target, rest.split()) if target in self.places else None
        if isinstance(dest, String):
            new = self.renamed.get(bytes(dest))
            return None if new is None else String(new)
        return self.once(self.lead_value, self.old_style.get(dest)) if isinstance(dest, Name) else None

    def led(self, page: int, words: list[bytes]) -> Any:
        """The destination on the first sheet with the point of an old one, by the words after the page in that."""
        sheet, shape = self.places[page][0][0], self.shapes[page]
        left, bottom, right, top = shape.box
        kind, values = words[0] if words else b"/Fit", [number(word) for word in words[1:]]
        if page in self.whole and kind in KINDS:
            parts = ("null" if value is None else numerals(nearest(value, 0, EVERYWHERE)[0]) for value in values)
            text = " ".join([kind.decode(), *parts])
        elif kind == b"/FitR" and len(values) == 4 and None not in values:
            a, b, c, d = (value or 0.0 for value in values)
            area = bounds((a, b, c, d), shape.matrix)
            sheet, matrix = self.place(page, area[0], area[3])
            text = f"/FitR {numerals(*bounds((a, b, c, d), matrix))}"
        elif kind in POINTS:
            x, y = (values[k] if k is not None and k < len(values) else None for k in POINTS[kind])
            x, y = left if x is None else x, top if y is None else y
            sheet, matrix = self.place(page, *moved(x, y, shape.matrix))
            point = moved(x, y, matrix)
            text = f"/XYZ {numerals(*(round(value, 3) for value in point))} null"
        else:
            text = "/Fit"
        made = Object.parse(f"[null {text}]".encode())
        made[0] = sheet
        return made

    def place(self, page: int, x: float, y: float) -> tuple[Any, Matrix]:
        """The first sheet that shows what is right of and below a point of an upright page, and the matrix to it.

        If none does, it is the first sheet of the page.
        """
        shape, places = self.shapes[page], self.places[page]
        x, y = (max(NEAR, min(side - NEAR, value)) for side, value in zip(shape.size, (x + NEAR, y - NEAR)))
        for sheet, paper, placed in places:
            across, up = moved(x, y, placed.matrix)
            if 0 <= across <= paper[0] and 0 <= up <= paper[1]:
                break
        else:
            sheet, _, placed = places[0]
        return sheet, then(shape.matrix, placed.matrix)

    def lead_names(self, root: Any, taken: dict[bytes, int]) -> None:
        """Leads all names, which get other ones where they are taken."""
        if isinstance(names := root.get("/Names"), Dictionary):
            for name, dest in named(names.get("/Dests")):
                new = self.once(self.lead_value, dest)
                if new is not None and bytes(name) not in self.renamed:
                    self.renamed[bytes(name)] = chosen = free(bytes(name), taken)
                    self.dests[chosen] = new
        if isinstance(dests := root.get("/Dests"), Dictionary):
            self.old_style = dests

    def led_names(self) -> Any:
        """Where names that are no strings lead."""
        led = ((key, self.once(self.lead_value, self.old_style.get(key))) for key in keys_of(self.old_style))
        return Dictionary({key: new for key, new in led if new is not None})

    def lead_value(self, dest: Any) -> Any:
        """Where the value of a name leads: a destination, or a dictionary that has one."""
        dest = dest.get("/D") if isinstance(dest, Dictionary) else dest
        return self.lead(dest) if isinstance(dest, Array) else None

    def lead_action(self, action: Any) -> Any:
        """An action and those after it, as far as they lead to sheets or out of the PDF; or None."""
        led = [way for each in in_turn(action) if (way := self.once(self.lead_step, each)) is not None]
        if len(led) < 2:
            return led[0] if led else None
        first = copy(led[0])
        first.Next = Array(led[1:])
        return first

    def lead_step(self, action: Any) -> Any:
        """An action without those after it, or None if it isn't kept."""
        kind = name_of(action.get("/S"))
        if kind == "/GoTo":
            dest = self.lead(action.get("/D"))
            return None if dest is None else Dictionary(S=Name.GoTo, D=dest)
        if kind not in KEPT_ACTIONS:
            self.scripts += kind == "/JavaScript"
            return None
        made = copy(action)
        drop(made, {"/Next"})
        return self.brought(made)

    def lead_holder(self, holder: Any) -> tuple[str, Any] | None:
        """The entry by which a link or an outline item leads to a sheet, and where; or None."""
        if (dest := got(holder, "/Dest")) is not None:
            entry, way = "/Dest", self.lead(dest)
        else:
            entry, way = "/A", self.once(self.lead_action, holder.get("/A"))
        return None if way is None else (entry, way)

    def bare(self, thing: Any, lost: set[str]) -> Any:
        """A copy of a dictionary without some entries, in the PDF that is made."""
        made = copy(thing)
        drop(made, lost)
        return self.made.make_indirect(made) if self.source is self.made else self.brought(made)
