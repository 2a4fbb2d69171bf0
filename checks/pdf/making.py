"""PDFs as the cases describe them, line by line; cases/pdfs/README.md has the words.

A page shows its number as `p3`, and in each corner of what is seen of it a square of a colour of its own. Squares of
four other colours lie outside, where a clip has to hide them.
"""

from __future__ import annotations

import io
import shlex
import zlib
from collections.abc import Callable
from copy import copy
from dataclasses import dataclass, field
from typing import Any

import pikepdf
from pikepdf import Array, Dictionary, Name, Pdf, String

from . import hostile

NAMESPACES = {
    "rdf": "http://www.w3.org/1999/02/22-rdf-syntax-ns#",
    "pdf": "http://ns.adobe.com/pdf/1.3/",
    "xmp": "http://ns.adobe.com/xap/1.0/",
    "pdfaid": "http://www.aiim.org/pdfa/ns/id/",
    "pdfuaid": "http://www.aiim.org/pdfua/ns/id/",
    "pdfxid": "http://www.npes.org/pdfx/ns/id/",
}
Box = tuple[float, float, float, float]
Colour = tuple[int, int, int]
PAGES_OF_A_ROUND = 60
FLAGS = ("unbalanced", "shared", "blended", "filled", "empty", "in-rows", "from-upper-right", "as-painted")


def numbers(text: str) -> list[float]:
    return [float(number) for number in text.split(",")]


def colour(seed: int, page: int, corner: int) -> Colour:
    """The colour of a corner of a page: 0 to 3 inside, 4 to 7 outside what is seen."""
    rounds, place = divmod(page, PAGES_OF_A_ROUND)
    return 4 * place, 30 * corner + 5, 16 * seed + 4 * rounds


@dataclass
class Shape:
    """The boxes of a page, its turn and its unit."""

    media: Box
    crop: Box | None = None
    turn: int = 0
    unit: float = 1

    @property
    def seen(self) -> Box:
        """CropBox within MediaBox."""
        left, bottom, right, top = self.crop or self.media
        low, high = self.media[:2], self.media[2:]
        return max(left, low[0]), max(bottom, low[1]), min(right, high[0]), min(top, high[1])

    @property
    def size(self) -> tuple[float, float]:
        """Width and height as it is shown."""
        left, bottom, right, top = self.seen
        sides = (right - left) * self.unit, (top - bottom) * self.unit
        return sides if self.turn % 180 == 0 else sides[::-1]

    def shown(self, x: float, y: float) -> tuple[float, float]:
        """Where a point is, from the lower left corner of the page as it is shown: /Rotate turns it to the right."""
        left, bottom, right, top = self.seen
        places = {
            0: (x - left, y - bottom),
            90: (y - bottom, right - x),
            180: (right - x, top - y),
            270: (top - y, x - left),
        }
        across, up = places[self.turn % 360]
        return across * self.unit, up * self.unit

    def squares(self) -> list[Box]:
        """The squares inside, at the lower left, lower right, upper left and upper right corner, and those outside."""
        left, bottom, right, top = self.seen
        side = min(right - left, top - bottom) / 8
        near, far = side / 4, side * 5 / 4
        corners = [(left, bottom, 1, 1), (right, bottom, -1, 1), (left, top, 1, -1), (right, top, -1, -1)]
        found = []
        for sign in (1, -1):
            for x, y, across, up in corners:
                ends = [
                    (x + sign * across * far_x, y + sign * up * far_y) for far_x, far_y in ((near, near), (far, far))
                ]
                (a, b), (c, d) = ends
                found.append((min(a, c), min(b, d), max(a, c), max(b, d)))
        return found


@dataclass
class Made:
    """A PDF, and the shapes of its pages."""

    data: bytes
    seed: int
    shapes: list[Shape] = field(default_factory=list)


def drawing(shape: Shape, seed: int, page: int, words: str) -> bytes:
    """The content of a page."""
    lines = []
    for corner, (left, bottom, right, top) in enumerate(shape.squares()):
        red, green, blue = (f"{part / 255:.5f}" for part in colour(seed, page, corner))
        lines.append(f"{red} {green} {blue} rg {left:.4f} {bottom:.4f} {right - left:.4f} {top - bottom:.4f} re f")
    left, bottom, right, top = shape.seen
    size = min(right - left, top - bottom) / 10
    lines += [f"0 g BT /F {size:.3f} Tf {left + (right - left) / 4:.3f} {(bottom + top) / 2:.3f} Td ({words}) Tj ET"]
    return "\n".join(lines).encode() + b"\n"


def in_parts(content: bytes, count: int) -> list[bytes]:
    """A content in parts, cut at ends of lines, which no part has."""
    lines = content.splitlines()
    return [*lines[: count - 1], b"\n".join(lines[count - 1 :])]


def in_rows(content: bytes, width: int) -> bytes:
    """A content in rows for a /Predictor, filled up with blanks: each byte is told by how far it is above the last."""
    rows = (content[at : at + width].ljust(width) for at in range(0, len(content), width))
    return b"".join(bytes([1, *((byte - last) % 256 for last, byte in zip(b"\0" + row, row))]) for row in rows)


class Maker:
    """A PDF while it is described."""

    def __init__(self, seed: int) -> None:
        self.pdf, self.seed, self.shapes = Pdf.new(), seed, list[Shape]()
        self.font = self.pdf.make_indirect(Dictionary(Type=Name.Font, Subtype=Name.Type1, BaseFont=Name.Helvetica))
        self.is_inherited, self.items, self.closed = False, list[tuple[int, Any]](), list[Any]()
        self.above, self.spare = dict[str, str](), 0
        self.saving: list[list[str]] = []
        self.repeated: list[int] = []
        self.mends_metadata = True

    def line(self, text: str) -> None:
        word, *rest = shlex.split(text)
        handler: Callable[..., None] = getattr(self, "do_" + word.replace("-", "_"))
        handler(*rest)

    # Pages.

    def do_page(self, size: str, *words: str) -> None:
        """`page WxH` with at, crop, trim, rotate, unit, times, streams, text, paint; also FLAGS."""
        pairs, flags = {}, set()
        rest = list(words)
        while rest:
            word = rest.pop(0)
            if word in FLAGS:
                flags.add(word)
            else:
                pairs[word] = rest.pop(0)
        width, height = (float(side) for side in size.split("x"))
        left, bottom = numbers(pairs.get("at", "0,0"))
        crop = tuple(numbers(pairs["crop"])) if "crop" in pairs else None
        shape = Shape(
            (left, bottom, left + width, bottom + height),
            crop,  # type: ignore[arg-type]
            int(pairs.get("rotate", 0)),
            float(pairs.get("unit", 1)),
        )
        for _ in range(int(pairs.get("times", 1))):
            self.add(shape, pairs, flags)

    def add(self, shape: Shape, pairs: dict[str, str], flags: set[str]) -> None:
        number = len(self.shapes)
        self.shapes.append(shape)
        content = drawing(shape, self.seed, number, pairs.get("text", f"p{number + 1}"))
        resources = Dictionary(Font=Dictionary(F=self.font))
        page = Dictionary(Type=Name.Page, Resources=resources)
        if "blended" in flags:
            # A page is an isolated group: Difference has nothing below to differ from, so the square is (0, 153, 255).
            resources.ExtGState = Dictionary(D=Dictionary(BM=Name.Difference))
            page.Group = Dictionary(S=Name.Transparency, CS=Name.DeviceRGB)
            content += b"q /D gs 0 .6 1 rg 250 250 100 100 re f Q\n"
        if "filled" in flags:
            content += b"1 0 0 rg 200 200 200 200 re f\n"
        if "paint" in pairs:
            # A form in this colour. It ends at 100,100, though what it draws is larger.
            form = self.look(f"{pairs['paint']} rg 0 0 200 200 re f", 100, 100)
            resources.XObject = Dictionary(X=form)
            content += b"/X Do\n"
        if "unbalanced" in flags:
            content = b"q q " + content + b"Q Q Q q\n"
        parts = [content]
        if "streams" in pairs:
            parts = in_parts(content, int(pairs["streams"]))
        # A box is named by any two corners that lie across from each other (ISO 32000, 7.9.5).
        order = (2, 3, 0, 1) if "from-upper-right" in flags else (0, 1, 2, 3)
        page.MediaBox = Array([shape.media[k] for k in order])
        if shape.crop:
            page.CropBox = Array([shape.crop[k] for k in order])
        if "trim" in pairs:
            page.TrimBox = Array(numbers(pairs["trim"]))
        if shape.turn:
            page.Rotate = shape.turn
        if shape.unit != 1:
            page.UserUnit = shape.unit
        if "shared" in flags:
            page.Contents = self.pdf.pages[-1].obj.Contents
            self.shapes[-1] = shape
        elif "as-painted" in flags:
            page.Contents = self.pdf.pages[-1].obj.Resources.XObject.X
        elif "in-rows" in flags:
            rows = Dictionary(Predictor=12, Columns=20)
            data = zlib.compress(in_rows(content, 20))
            page.Contents = self.pdf.make_stream(data, Filter=Name.FlateDecode, DecodeParms=rows)
        elif "empty" not in flags:
            streams = [self.pdf.make_stream(part) for part in parts]
            page.Contents = Array(streams) if len(streams) > 1 else streams[0]
        self.pdf.pages.append(pikepdf.Page(self.pdf.make_indirect(page)))

    def do_again(self, number: str) -> None:
        """A page stands in the tree of pages once more, at its end."""
        self.repeated.append(int(number) - 1)

    def do_inherited(self, spare: str = "0") -> None:
        """Boxes, turn and resources of the first page stand in the node above all pages, with so many spare fonts."""
        self.is_inherited, self.spare = True, int(spare)

    def do_above(self, key: str, value: str) -> None:
        """An entry of the node above all pages, for those that don't have their own."""
        self.above[key] = value

    def page(self, number: str) -> Any:
        return self.pdf.pages[int(number) - 1].obj

    def annotate(self, number: str, annotation: Dictionary) -> Any:
        page, made = self.page(number), self.pdf.make_indirect(annotation)
        page.Annots = Array([*page.get("/Annots", []), made])
        return made

    # What leads somewhere.

    def target(self, number: str, kind: str, values: str = "") -> Array:
        parts = [None if part == "-" else float(part) for part in values.split(",")] if values else []
        return Array([self.page(number), Name("/" + kind), *parts])

    def do_link(self, number: str, box: str, *target: str) -> None:
        """`link PAGE L,B,R,T to PAGE KIND [VALUES]`, `goto ..`, `name NAME`, `old-name NAME`,
        `file FILE`, `uri ADDRESS [PAGE ..]`."""
        left, bottom, right, top = numbers(box)
        link = Dictionary(Type=Name.Annot, Subtype=Name.Link, Rect=Array(numbers(box)), Border=Array([0, 0, 0]))
        link.QuadPoints = Array([left, top, right, top, left, bottom, right, bottom])
        how, *rest = target
        if how == "to":
            link.Dest = self.target(*rest)
        elif how == "goto":
            link.A = Dictionary(S=Name.GoTo, D=self.target(*rest))
        elif how == "goto-name":
            link.A = Dictionary(S=Name.GoTo, D=String(rest[0]))
        elif how == "name":
            link.Dest = String(rest[0])
        elif how == "old-name":
            link.Dest = self.named(rest[0])
        elif how == "file":
            link.A = Dictionary(S=Name.GoToR, F=String(rest[0]), D=Array([0, Name.Fit]))
        else:
            link.A = self.pdf.make_indirect(Dictionary(S=Name.URI, URI=String(rest[0])))
            if rest[1:] == ["again"]:
                link.A.Next = Array([link.A, link.A])
            elif rest[1:]:
                link.A.Next = Dictionary(S=Name.GoTo, D=self.target(*rest[1:]))
        self.annotate(number, link)

    def named(self, name: str) -> Any:
        """A name in Latin-1."""
        return pikepdf.Object.parse(b"/" + b"".join(b"#%02x" % byte for byte in name.encode("latin-1")))

    def do_name(self, name: str, *target: str) -> None:
        """`name NAME PAGE KIND [VALUES]`: a destination in the tree of names."""
        names = self.pdf.Root.get("/Names", Dictionary())
        tree = names.get("/Dests", Dictionary(Names=Array()))
        known = dict(zip([str(key) for key in list(tree.Names)[::2]], list(tree.Names)[1::2]))
        known[name] = Dictionary(D=self.target(*target))
        tree.Names = Array([part for key in sorted(known) for part in (String(key), known[key])])
        names.Dests = tree
        self.pdf.Root.Names = names

    def do_names_in_levels(self, how: str = "") -> None:
        """The tree of the names above has a node for each, two levels below its root; `direct` nodes are no objects."""
        names = list(self.pdf.Root.Names.Dests.Names)
        add: Callable[[Any], Any] = (lambda node: node) if how == "direct" else self.pdf.make_indirect
        pairs = [names[at : at + 2] for at in range(0, len(names), 2)]
        leaves = [add(Dictionary(Names=Array(pair), Limits=Array([pair[0], pair[0]]))) for pair in pairs]
        middle = add(Dictionary(Kids=Array(leaves), Limits=Array([names[0], names[-2]])))
        self.pdf.Root.Names.Dests = add(Dictionary(Kids=Array([middle])))

    def do_old_name(self, name: str, *target: str) -> None:
        """The same in the catalog's dictionary of destinations."""
        known = self.pdf.Root.get("/Dests", Dictionary())
        known[self.named(name)] = self.target(*target)
        self.pdf.Root.Dests = known

    def do_outline(self, level: str, title: str, *target: str) -> None:
        """`outline LEVEL TITLE PAGE KIND [VALUES]`; a title alone leads nowhere."""
        item = Dictionary(Title=String(title))
        if target[:1] == ("goto",):
            item.A = Dictionary(S=Name.GoTo, D=self.target(*target[1:]))
        elif target:
            item.Dest = self.target(*target)
        self.items.append((int(level), self.pdf.make_indirect(item)))

    def do_closed(self) -> None:
        """The outline above is closed: those below it aren't shown."""
        self.closed.append(self.items[-1][1])

    def do_tagged(self) -> None:
        """The outline above leads to a structure element too."""
        self.items[-1][1].SE = self.pdf.make_indirect(Dictionary(Type=Name.StructElem, S=Name.H1))

    def do_opens(self, *target: str) -> None:
        """Where the document opens: `opens PAGE KIND [VALUES]`, or `opens goto ..`."""
        is_action = target[0] == "goto"
        place = self.target(*target[is_action:])
        self.pdf.Root.OpenAction = Dictionary(S=Name.GoTo, D=place) if is_action else place

    # What else a document holds.

    def do_note(self, number: str, box: str, text: str, flags: str = "4") -> None:
        """A note, which prints by its flags, with a look of its own: a square of (255, 102, 0)."""
        left, bottom, right, top = numbers(box)
        look = self.look(f"1 .4 0 rg 0 0 {right - left} {top - bottom} re f", right - left, top - bottom)
        made = self.annotate(number, Dictionary(Type=Name.Annot, Subtype=Name.Stamp, Rect=Array(numbers(box))))
        made.F, made.Contents, made.AP = int(flags), String(text), Dictionary(N=look)

    def do_turned_note(self, number: str, box: str) -> None:
        """A note whose look is drawn on its side, and turned upright by its matrix."""
        self.do_note(number, box, "turned")
        left, bottom, right, top = numbers(box)
        width, height = right - left, top - bottom
        look = self.look(f"1 .4 0 rg 0 0 {height} {width} re f", height, width)
        look.Matrix = Array([0, 1, -1, 0, width, 0])
        self.page(number).Annots[-1].AP = Dictionary(N=look)

    def do_box(self, number: str, box: str, state: str) -> None:
        """A box that is ticked, or in any other state: (0, 153, 0) in that one, (255, 0, 0) in two others."""
        self.do_note(number, box, "box")
        left, bottom, right, top = numbers(box)
        looks, size = Dictionary(), (right - left, top - bottom)
        for name, colour in (("A", "1 0 0"), (state, "0 .6 0"), ("z", "1 0 0")):
            looks[self.named(name)] = self.look(f"{colour} rg 0 0 {size[0]} {size[1]} re f", *size)
        made = self.page(number).Annots[-1]
        made.AP, made.AS, made.Subtype, made.FT = Dictionary(N=looks), self.named(state), Name.Widget, Name.Btn

    def do_field(self, number: str, box: str, name: str, value: str, how: str = "") -> None:
        """A field with its value as its look; `without-look`, which readers make for all fields; `bare`, which has none
        either, and `bare-box`, a box without one; `empty-look`, as LibreOffice writes it; `stale`, with another value;
        in a font of the page's own; or `packed`, 2 MB of blanks, or `packed-twice`, 500 kB."""
        left, bottom, right, top = numbers(box)
        look = self.look(f"/Tx BMC q BT /F 12 Tf 2 4 Td ({value}) Tj ET Q EMC", right - left, top - bottom)
        look.Resources = Dictionary(Font=Dictionary(F=self.font))
        if how == "empty-look":
            look.write(b"/Tx BMC\nEMC\n")
        if how in ("packed", "packed-twice"):
            look.write(zlib.compress(b" " * (2_000_000 if how == "packed" else 500_000)), filter=Name.FlateDecode)
        if how == "packed-twice":
            look.write(zlib.compress(look.read_raw_bytes()), filter=Array([Name.FlateDecode] * 2))
        if how in ("page-font", "empty-look"):
            del look.Resources
        made = self.annotate(
            number,
            Dictionary(
                Type=Name.Annot,
                Subtype=Name.Widget,
                FT=Name.Tx,
                T=String(name),
                V=String(value),
                DA=String("/F 12 Tf 0 g"),
                F=4,
                Rect=Array(numbers(box)),
                AP=Dictionary(N=look),
            ),
        )
        form = self.pdf.Root.get(
            "/AcroForm",
            Dictionary(Fields=Array(), DR=Dictionary(Font=Dictionary(F=self.font)), DA=String("/F 12 Tf 0 g")),
        )
        form.Fields.append(made)
        if how in ("without-look", "bare", "bare-box"):
            del made.AP
        if how == "without-look":
            form.NeedAppearances = True
        if how == "bare-box":
            made.FT = Name.Btn
        if how == "stale":
            made.V = String("stale")
        self.pdf.Root.AcroForm = form

    def do_annotation(self, number: str, *entries: str) -> None:
        """An annotation as PDF has it, or one that prints, by its entries: `annotation PAGE KEY VALUE ..`.

        After the first kind `field` puts it among the fields, and `looped` below itself there.
        """
        if entries[0].startswith("<<"):
            made = self.annotate(number, pikepdf.Object.parse(entries[0].encode()))
            self.place_annotation(made, "".join(entries[1:]))
        else:
            self.annotate(number, Dictionary(Type=Name.Annot, F=4))
            self.do_entries(number, *entries)

    def place_annotation(self, made: Any, how: str) -> None:
        """Puts an annotation among the fields, and if it is `looped` below itself there."""
        if how:
            form = self.pdf.Root.get("/AcroForm", Dictionary(Fields=Array()))
            form.Fields.append(made)
            self.pdf.Root.AcroForm = form
        if how == "looped":
            made.Kids, made.Parent, made.A = Array([made]), made, self.pdf.make_indirect(made.A)
            made.A.Next = made.A

    def do_entries(self, number: str, *entries: str) -> None:
        """More entries of the last annotation of a page."""
        for key, value in zip(entries[::2], entries[1::2]):
            self.page(number).Annots[-1]["/" + key] = pikepdf.Object.parse(value.encode())

    def do_many_places(self, number: str, count: str, letters: str) -> None:
        """A field of so many letters at so many places of a page."""
        text = String("Ada " * (int(letters) // 4))
        above = self.pdf.make_indirect(Dictionary(T=String("many"), FT=Name.Tx, Ff=4096, V=text))
        one = Dictionary(Subtype=Name.Widget, F=4, Parent=above, Rect=Array([300, 300, 400, 400]))
        self.page(number).Annots = Array([self.pdf.make_indirect(copy(one)) for _ in range(int(count))])

    def do_blank_look(self, number: str) -> None:
        """A look without anything in it for the last annotation of a page."""
        self.page(number).Annots[-1].AP = Dictionary(N=self.look("", 100, 100))

    def do_many_lines(self, number: str, count: str, points: str) -> None:
        """So many notes that are one line by hand through so many points."""
        lines = self.pdf.make_indirect(Array([Array([100, 200] * int(points))]))
        one = Dictionary(Subtype=Name.Ink, F=4, InkList=lines, Rect=Array([100, 200, 110, 210]))
        self.page(number).Annots = Array([self.pdf.make_indirect(copy(one)) for _ in range(int(count))])

    def do_form_entry(self, key: str, value: str) -> None:
        """An entry of the form that holds all fields."""
        self.pdf.Root.AcroForm["/" + key] = pikepdf.Object.parse(value.encode())

    def look(self, content: str, width: float, height: float) -> Any:
        look = self.pdf.make_stream(content.encode())
        look.Type, look.Subtype, look.BBox = Name.XObject, Name.Form, Array([0, 0, width, height])
        look.Resources = Dictionary()
        return look

    def do_layer(self, number: str, name: str, state: str = "on") -> None:
        """A layer, on or off, with a word in it: its name."""
        group = self.layer(name, state)
        page = self.page(number)
        properties = page.Resources.get("/Properties", Dictionary())
        key = f"/L{len(self.pdf.Root.OCProperties.OCGs)}"
        properties[key] = group
        page.Resources.Properties = properties
        content = (
            page.Contents.read_bytes()
            + f"/OC {key} BDC 0 0 1 rg 300 300 50 50 re f BT /F 20 Tf 300 400 Td ({name}) Tj ET EMC\n".encode()
        )
        page.Contents.write(content)

    def do_layers(self, count: str) -> None:
        """So many layers without anything in them."""
        for number in range(int(count)):
            self.layer(f"layer-{number}", "on")

    def do_note_of_layer(self, number: str, box: str, name: str, state: str) -> None:
        """A note in a layer. Such notes share one look."""
        self.do_note(number, box, name)
        *before, made = self.page(number).Annots
        made.OC = self.layer(name, state)
        made.AP = (before or [made])[0].AP

    def do_shown_if_listed(self) -> None:
        """Of the layers above, those that are on are listed, and any other is off."""
        layers = self.pdf.Root.OCProperties
        hidden = [group.objgen for group in layers.D.OFF]
        layers.D.ON = Array([group for group in layers.OCGs if group.objgen not in hidden])
        layers.D.BaseState = Name.OFF
        del layers.D.OFF

    def layer(self, name: str, state: str) -> Any:
        """A new layer."""
        group = self.pdf.make_indirect(Dictionary(Type=Name.OCG, Name=String(name)))
        known = self.pdf.Root.get("/OCProperties", Dictionary(OCGs=Array(), D=Dictionary(Order=Array(), OFF=Array())))
        known.OCGs.append(group)
        known.D.Order.append(group)
        if state == "off":
            known.D.OFF.append(group)
        self.pdf.Root.OCProperties = known
        return group

    def do_chain(self, count: str) -> None:
        """So many objects, each in the one before, from the group of the first page on."""
        last: Any = None
        for _ in range(int(count)):
            last = self.pdf.make_indirect(Dictionary(N=last))
        self.pdf.pages[0].obj.Group = Dictionary(S=Name.Transparency, X=last)

    def do_attachment(self, name: str, text: str) -> None:
        self.pdf.attachments[name] = pikepdf.AttachedFileSpec(self.pdf, text.encode(), filename=name)

    def do_attached_again(self, times: str) -> None:
        """The attachment above is in the tree of names so many times."""
        files = self.pdf.Root.Names.EmbeddedFiles
        files.Names = Array(list(files.Names) * int(times))

    def do_title(self, text: str) -> None:
        with self.pdf.open_metadata() as meta:
            meta["dc:title"] = text
        self.pdf.docinfo["/Title"] = text

    def do_metadata(self, attributes: str, elements: str = "") -> None:
        """XMP with a description that has these; as elements, `deep`, `bomb` or `entity` are attacks."""
        spaces = " ".join(f'xmlns:{prefix}="{address}"' for prefix, address in NAMESPACES.items())
        inner = {"deep": "<pdf:a>" * 10**5 + "</pdf:a>" * 10**5, "entity": "<pdf:Trapped>&e;</pdf:Trapped>"}
        text = f'<rdf:RDF {spaces}><rdf:Description rdf:about="" {attributes}>{inner.get(elements, elements)}'
        data = f"{text}</rdf:Description></rdf:RDF>".encode()
        if elements == "entity":
            data = b'<!DOCTYPE rdf:RDF [<!ENTITY e SYSTEM "file:///etc/passwd">]>' + data
        how: dict[str, Any] = {"Type": Name.Metadata, "Subtype": Name.XML}
        if elements == "bomb":
            packer = zlib.compressobj()
            begun = packer.compress(data[:-10]) + b"".join(packer.compress(b" " * 10**6) for _ in range(300))
            data, how["Filter"] = begun + packer.compress(data[-10:]) + packer.flush(), Name.FlateDecode
        self.pdf.Root.Metadata, self.mends_metadata = self.pdf.make_stream(data, **how), False

    def do_info(self, key: str, text: str) -> None:
        self.pdf.docinfo[key] = text

    def do_producer(self, text: str) -> None:
        self.pdf.docinfo["/Producer"] = text

    def do_labels(self, *spans: str) -> None:
        """`labels 0:r 2:D:A-`: from which page on (from 0) which style, and with which text before."""
        found: list[Any] = []
        for span in spans:
            start, style, *before = span.split(":")
            found += [int(start), Dictionary(S=Name("/" + style), **({"P": String(before[0])} if before else {}))]
        self.pdf.Root.PageLabels = Dictionary(Nums=Array(found))

    def do_hostile(self, kind: str, count: str) -> None:
        """So many objects of a kind of checks/pdf/hostile.py."""
        hostile.KINDS[kind](self.pdf, int(count))

    def do_long_labels(self) -> None:
        """Labels of many signs, numbers that would have many, text that isn't UTF-8, one in order, and a loop."""
        spans = ("/P (%s)" % ("x" * 10**6), "/S /a /St 900000000", "/S /r /St 900000000", "/P <EFBBBFFF>")
        texts = [f"{k} << {span} >>" for k, span in enumerate((*spans, "/S /r /St 2001"))]
        tree = self.pdf.make_indirect(pikepdf.Object.parse(f"<< /Nums [{' '.join(texts)} 5 17] >>".encode()))
        tree.Kids = Array([tree])
        self.pdf.Root.PageLabels = tree

    def do_entry(self, number: str, key: str, value: str) -> None:
        """An entry of a page, as PDF has it."""
        self.page(number)[key] = pikepdf.Object.parse(value.encode())

    def do_grouped(self, name: str) -> None:
        """The last annotation of each page is a place of one field."""
        kids = [page.obj.Annots[-1] for page in self.pdf.pages]
        field = self.pdf.make_indirect(Dictionary(FT=Name.Btn, T=String(name), Kids=Array(kids)))
        for kid in kids:
            kid.Parent = field
        self.pdf.Root.AcroForm = Dictionary(Fields=Array([field]))

    def do_catalog(self, key: str, value: str = "<< >>") -> None:
        """An entry of the catalog, as PDF has it; an @ is the first page."""
        if "@" in value:
            self.pdf.Root[key] = Dictionary(K=self.page("1"))
        else:
            self.pdf.Root[key] = pikepdf.Object.parse(value.encode())

    def do_saved(self, *words: str) -> None:
        """How it is saved: linearized, objects, as-is, owner, user, no-print, low-print, broken-xref, before TEXT, cut
        BYTES, blanks BYTES."""
        self.saving.append(list(words))

    # The end.

    def outlines(self) -> None:
        if not self.items:
            return
        root = self.pdf.make_indirect(Dictionary(Type=Name.Outlines))
        above: list[tuple[int, Any]] = [(0, root)]
        for level, item in self.items:
            while above[-1][0] >= level:
                above.pop()
            parent = above[-1][1]
            item.Parent = parent
            if "/Last" in parent:
                parent.Last.Next, item.Prev = item, parent.Last
            else:
                parent.First = item
            parent.Last = item
            parent.Count = int(parent.get("/Count", 0)) + 1
            above.append((level, item))
        for item in self.closed:
            item.Count = -int(item.Count)
        self.pdf.Root.Outlines = root

    def inherit(self) -> None:
        tree, first = self.pdf.Root.Pages, self.pdf.pages[0].obj
        for number in range(self.spare):
            first.Resources.Font[f"/S{number}"] = self.font
        for key in ("/MediaBox", "/CropBox", "/Rotate", "/Resources"):
            if key in first:
                tree[key] = first[key]
        for page in self.pdf.pages:
            for key in ("/MediaBox", "/CropBox", "/Rotate", "/Resources"):
                if key in page.obj:
                    del page.obj[key]

    def made(self) -> Made:
        self.outlines()
        if self.is_inherited:
            self.inherit()
        for key, value in self.above.items():
            self.pdf.Root.Pages[key] = pikepdf.Object.parse(value.encode())
        for number in self.repeated:
            self.shapes.append(self.shapes[number])
            self.pdf.Root.Pages.Kids.append(self.pdf.Root.Pages.Kids[number])
            self.pdf.Root.Pages.Count += 1
        return Made(self.saved(), self.seed, self.shapes)

    def saved(self) -> bytes:
        words = {line[0]: line[1:] for line in self.saving}
        how: dict[str, Any] = {"static_id": True, "deterministic_id": False}
        if {"owner", "user", "no-print", "low-print"} & words.keys():
            is_high = not {"no-print", "low-print"} & words.keys()
            allowed = pikepdf.Permissions(print_lowres="no-print" not in words, print_highres=is_high)
            user = words["user"][0] if "user" in words else ""
            how |= {"encryption": pikepdf.Encryption(owner="owner", user=user, allow=allowed), "static_id": False}
        if "objects" in words:
            how["object_stream_mode"] = pikepdf.ObjectStreamMode.generate
        if "as-is" in words:
            how |= {"compress_streams": False, "stream_decode_level": pikepdf.StreamDecodeLevel.none}
        if "linearized" in words:
            how["linearize"] = True
        out = io.BytesIO()
        kept = {key: value for key, value in how.items() if value or key == "compress_streams"}
        self.pdf.save(out, fix_metadata_version=self.mends_metadata, **kept)
        data = out.getvalue()
        if "broken-xref" in words:
            data = data.replace(b"startxref\n", b"startxref\n9", 1)
        if "before" in words:
            data = words["before"][0].encode().decode("unicode_escape").encode() + data
        if "blanks" in words:
            data = data.replace(b"startxref\n", b" " * int(words["blanks"][0]) + b"startxref\n", 1)
        if "cut" in words:
            data = data[: int(words["cut"][0])]
        return data


def made(lines: list[str], seed: int) -> Made:
    """The PDF that these lines describe."""
    maker = Maker(seed)
    for line in lines:
        maker.line(line)
    return maker.made()
