"""Annotations that print, but show nothing by themselves: they get looks, as viewers draw them."""

import zlib
from collections.abc import Callable
from decimal import Decimal
from typing import Any

from pikepdf import Array, Dictionary, Pdf, PdfError, Stream, String, parse_content_stream

from impose_pdf.fields import Field
from impose_pdf.fonts import Fonts
from impose_pdf.losses import ARE_PLAYED
from impose_pdf.notes import is_printed
from impose_pdf.pages import items_of, name_of, number_of
from impose_pdf.remarks import Remark
from impose_pdf.shapes import Shape
from impose_pdf.words import shown

MOST_OF_LOOK = 1 << 20  # bytes: a longer one shows something
MOST_PACKED, SHORT = 1 << 16, 64  # bytes
MOST_OF_ALL = 5_000_000  # letters, numbers and so on, of all annotations of a PDF
DRAWN = 5  # how many times as much it is to draw something as to read it
DRAWN_OF_NOTES = "/Contents", "/DA", "/QuadPoints", "/Vertices", "/InkList", "/L", "/CL"
MOST_NAMES, MOST_SAID, LONGEST_NAME = 100, 3, 60
TOO_MUCH = "beyond the most that are drawn"
SHOWING = "Tj TJ ' \" Do sh BI ID EI"  # operators that show text, images or forms
UNPACKED = {"/ASCIIHexDecode", "/ASCII85Decode"}


def content_of(stream: Any) -> bytes | None:
    """What a stream holds, unless that is long."""
    raw, filters = stream.read_raw_bytes(), stream.get("/Filter")
    names = [name_of(one) for one in items_of(filters) if one is not None]
    packed = [name for name in names if name not in UNPACKED]
    try:
        if names == ["/FlateDecode"] and "/DecodeParms" not in stream:
            data = zlib.decompressobj().decompress(raw, MOST_OF_LOOK + 1)
        elif packed and (len(packed) > 1 or len(raw) > MOST_PACKED):
            return None
        else:
            data = stream.read_bytes()
    except (PdfError, RuntimeError, zlib.error):
        return None
    return data if len(data) <= MOST_OF_LOOK else None


def is_empty(operands: Any) -> bool:
    """Whether what is shown is a text without letters."""
    parts = [part for one in operands for part in items_of(one)]
    return all(
        isinstance(part, (int, Decimal)) or isinstance(part, String) and not bytes(part).strip() for part in parts
    )


def is_blank(look: Any) -> bool:
    """Whether a look is so short that nothing is in it."""
    is_short = number_of(look.get("/Length"), SHORT) < SHORT
    content = content_of(look) if is_short else None
    return content is not None and not content.strip()


class Looks:
    """The looks of a PDF's annotations."""

    def __init__(self, pdf: Pdf):
        self.pdf, self.fonts, self.left = pdf, Fonts(pdf), MOST_OF_ALL
        form = pdf.Root.get("/AcroForm")
        self.form = form if isinstance(form, Dictionary) else Dictionary()
        self.seen: set[tuple[int, int]] = set()  # pages and annotations
        self.showing: dict[tuple[int, int], bool] = {}  # looks: whether they show text
        self.faults: dict[str, list[str]] = {}  # the names of what isn't drawn as it should be

    def give(self, page: Any, notes: list[Any]) -> None:
        """Gives looks to those annotations of a page that need them."""
        if self.is_new(page):
            for note in notes:
                if is_printed(note) and self.is_new(note):
                    self.give_one(note)

    def is_new(self, thing: Any) -> bool:
        """Whether an object is met for the first time."""
        is_new = thing.objgen not in self.seen
        if thing.is_indirect:
            self.seen.add(thing.objgen)
        return is_new

    def give_one(self, note: Any) -> None:
        """Gives a look to an annotation if it needs one."""
        looks, kind = note.get("/AP"), name_of(note.get("/Subtype"))
        own = looks.get("/N") if isinstance(looks, Dictionary) else None
        if kind == "/Widget":
            field = Field(note, self.form, self.fonts)
            if self.needs_one(field):
                self.draw(field)
        elif kind not in ("/Link", "/Popup", *ARE_PLAYED) and (
            is_blank(own) if isinstance(own, Stream) else own is None
        ):
            self.draw_note(note, kind)

    def draw(self, field: Field) -> None:
        """Gives a field its look."""
        read = field.entry("/Opt"), field.entry("/DA"), field.marks.get("/CA")
        if not self.takes(field.entry("/V"), read=read):
            field.fault = TOO_MUCH
        elif (look := field.look(self.pdf)) is not None:
            field.note.AP = Dictionary(N=look)
        if field.fault:
            self.name(f"fields {field.fault}", field.name)

    def draw_note(self, note: Any, kind: str) -> None:
        """Gives a note its look."""
        if not self.takes(*(note.get(key) for key in DRAWN_OF_NOTES)):
            self.name(f"notes {TOO_MUCH}", lambda: kind[1:])
            return
        shape = Remark(note, self.form, self.fonts) if kind == "/FreeText" else Shape(note)
        shape.give_look(self.pdf)
        if shape.fault:
            self.name(f"notes {shape.fault}", lambda: kind[1:])

    def name(self, what: str, name: Callable[[], str]) -> None:
        """Keeps the name of something that isn't drawn as it should be, if it is among the first."""
        names = self.faults.setdefault(what, [])
        if len(names) < MOST_NAMES:
            names.append(name())

    def takes(self, *drawn: Any, read: tuple[Any, ...] = ()) -> bool:
        """Whether what is drawn of an annotation, and read for it, is within the most of all."""
        self.left -= 20
        for value in drawn:
            self.weigh(value, DRAWN, 1)
        for value in read:
            self.weigh(value, 1, 2)
        return self.left >= 0

    def weigh(self, value: Any, times: int, deeper: int) -> None:
        """Takes from what is left to draw what is in a value, and in the arrays in it down to a depth."""
        if isinstance(value, String) and self.left >= 0:
            self.left -= times * len(bytes(value))
        elif isinstance(value, Array) and self.left >= 0:
            self.left -= times * len(value)
            for one in list(value) if deeper else []:
                if self.left < 0:
                    break
                if isinstance(one, (Array, String)):
                    self.weigh(one, times, deeper - 1)

    def needs_one(self, field: Field) -> bool:
        """Whether a field has no look, or has a text that its look doesn't show."""
        if isinstance(field.own, Stream) and field.kind in ("/Tx", "/Ch"):
            return field.entry("/V") is not None and not self.shows_text(field.own)
        return field.kind in ("/Tx", "/Ch", "/Btn") and not isinstance(field.own, (Stream, Dictionary))

    def shows_text(self, look: Any) -> bool:
        """Whether the look of a field shows text, or anything else that may be its value."""
        if look.objgen not in self.showing:
            content = content_of(look)
            self.left -= 0 if content is None else len(content) // 16
            try:
                found = [] if content is None else parse_content_stream(look, SHOWING)
                self.showing[look.objgen] = content is None or any(not is_empty(operands) for operands, _ in found)
            except PdfError:
                self.showing[look.objgen] = True
        return self.showing[look.objgen]

    def warning(self, name: str) -> str:
        """Lines on what isn't drawn as it should be, or nothing."""
        lines = ""
        for what, names in self.faults.items():
            first = list(dict.fromkeys(names))
            more = ", and others" if len(first) > MOST_SAID else ""
            said = ", ".join(shown(one[:LONGEST_NAME]) for one in first[:MOST_SAID])
            lines += f"impose-pdf: {name}: {what}: {said}{more}\n"
        return lines
