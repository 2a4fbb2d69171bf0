"""The forms that pages become: a single stream of contents is the form itself, neither decoded nor copied."""

from copy import copy
from typing import Any

from pikepdf import Array, Dictionary, Name, Pdf, Stream, parse_content_stream

from impose_pdf.contents import UNDECODABLE, Joining, is_longer
from impose_pdf.pages import UPRIGHT, Box, Shape, array, bounds, box_of, got, keys_of, name_of, numbers, numerals, then
from impose_pdf.plan import Matrix
from impose_pdf.words import refusal

MOST_PARSED = 8 << 20  # bytes of contents of which it is told what they draw
Note = tuple[Any, Matrix, Any]  # a form, its place on the page, and the layer that it is in, or None


def streams_of(page: Any) -> list[Any]:
    """The streams of a page's contents."""
    contents = page.get("/Contents")
    if isinstance(contents, Stream):
        return [contents]
    return [part for part in contents if isinstance(part, Stream)] if isinstance(contents, Array) else []


def isolated(group: Any) -> Any:
    """A group by itself, as a page's is and a form's need not be."""
    made = copy(group)
    made["/I"] = True
    return made


def pictures_of(resources: Any) -> set[tuple[int, int]]:
    """The objects by which pages may share forms and images among their resources."""
    pictures = got(resources, "/XObject") if isinstance(resources, Dictionary) else None
    held = (resources, pictures) if isinstance(pictures, Dictionary) else ()
    return {one.objgen for one in held if one.is_indirect}


def drawn_by(form: Any) -> dict[str, Any] | None:
    """The forms and images that a form draws, if these can be told."""
    try:
        if is_longer(form, MOST_PARSED):
            return None
        names = {name_of(name) for operands, _ in parse_content_stream(form, "Do") for name in operands}
    except UNDECODABLE:
        return None
    drawn = {name: form.Resources.XObject[name] for name in names if name and name in form.Resources.XObject}
    are_all = "" not in names and all(isinstance(one, Stream) and is_whole(one) for one in drawn.values())
    return drawn if are_all and not has_glyphs_of_page(form.Resources) else None


def has_glyphs_of_page(resources: Any) -> bool:
    """Whether glyphs may draw forms and images of their page: those of Type 3 without resources of their own do."""
    held = resources.get("/Font")
    fonts = [held[name] for name in keys_of(held)] if isinstance(held, Dictionary) else []
    dictionaries = [font for font in fonts if isinstance(font, Dictionary)]
    return any(font.get("/Subtype") == Name.Type3 and "/Resources" not in font for font in dictionaries)


def is_whole(picture: Any) -> bool:
    """Whether an image or a form needs nothing of its page: a form without resources has those of the page."""
    return picture.get("/Subtype") != Name.Form or "/Resources" in picture


def extent(form: Any, matrix: Matrix) -> Box:
    """The box round a form that is placed by a matrix."""
    own = numbers(form.get("/Matrix"))
    a, b, c, d, e, f = own if len(own) == 6 else UPRIGHT
    return bounds(box_of(form.BBox) or (0, 0, 0, 0), then((a, b, c, d, e, f), matrix))


class Forms:
    """The forms that pages of a PDF become."""

    def __init__(self, pdf: Pdf, name: str):
        self.pdf, self.name = pdf, name
        self.unshown: set[tuple[int, int]] = set()  # objects that hold forms and images of pages that aren't shown
        self.made: dict[tuple[object, ...], Any] = {}
        self.joining = Joining()
        self.groups: dict[tuple[int, int], Any] = {}

    def of(self, number: int, page: Any, resources: Any, shape: Shape, over: Any) -> Any:
        """The form of a page, by its number, with another over it. Pages that show the same share one."""
        streams, group = streams_of(page), self.group(page)
        resources = resources if isinstance(resources, Dictionary) else Dictionary()
        parts = tuple(stream.objgen for stream in streams), None if over is None else over.objgen
        key = (*parts, resources.unparse(), group and group.unparse(), shape.drawn, shape.matrix)
        if key not in self.made:
            form = self.form(self.contents(streams, number), resources, shape)
            self.leave_out([form])
            if over is not None:
                form.Matrix = array(*UPRIGHT)
                both = Dictionary(XObject=Dictionary(Page=form, Notes=over))
                form = self.form(self.pdf.make_stream(b"/Page Do\n/Notes Do\n"), both, shape)
            if group is not None:
                form.Group = group
            self.made[key] = form
        return self.made[key]

    def group(self, page: Any) -> Any:
        """The group of a page, isolated, or None. Pages may share it."""
        found = got(page, "/Group")
        if not isinstance(found, Dictionary):
            return None
        key = found.objgen
        if key not in self.groups or not found.is_indirect:
            self.groups[key] = self.pdf.make_indirect(isolated(found)) if found.is_indirect else isolated(found)
        return self.groups[key]

    def leave_out(self, forms: list[Any]) -> None:
        """Takes from the resources of forms, and of those that they draw, what only pages draw that aren't shown."""
        while forms and self.unshown:
            form = forms.pop()
            if pictures_of(form.get("/Resources")) & self.unshown and (drawn := drawn_by(form)) is not None:
                own = {key: form.Resources[key] for key in keys_of(form.Resources)}
                form.Resources = Dictionary({**own, "/XObject": Dictionary(drawn)})
                forms += drawn.values()

    def form(self, stream: Any, resources: Any, shape: Shape) -> Any:
        """A stream made a form of a page's shape."""
        stream.Type, stream.Subtype, stream.Resources = Name.XObject, Name.Form, resources
        stream.BBox, stream.Matrix = array(*shape.drawn), array(*shape.matrix)
        return stream

    def contents(self, streams: list[Any], number: int) -> Any:
        """The contents of a page as one stream: the very one, unless there are several or it has another use."""
        if len(streams) == 1:
            (stream,) = streams
            if "/Type" not in stream and "/Subtype" not in stream:
                return stream
            own = self.pdf.make_stream(stream.read_raw_bytes())
            for key in ("/Filter", "/DecodeParms"):
                if key in stream:
                    own[key] = stream[key]
            return own
        try:
            data = self.joining.joined(streams)
        except UNDECODABLE:
            raise refusal(1, f"{self.name}: the contents of page {number + 1} can't be decoded") from None
        return self.pdf.make_stream(data, Filter=Name.FlateDecode)

    def over(self, notes: list[Note], resources: Any) -> Any:
        """A form of notes as they lie over a page, or None. Those without resources have the page's."""
        forms, layers, drawn = dict[str, Any](), dict[str, Any](), list[str]()
        for k, (form, matrix, layer) in enumerate(notes):
            forms[f"/Note{k}"] = form
            if "/Resources" not in form:  # those of its page hold (ISO 32000, 8.10.1)
                form.Resources = resources if isinstance(resources, Dictionary) else Dictionary()
            one = f"q {numerals(*matrix)} cm /Note{k} Do Q\n"
            if layer is not None:
                layers[f"/Layer{k}"] = layer
                one = f"/OC /Layer{k} BDC {one}EMC\n"
            drawn.append(one)
        if not notes:
            return None
        self.leave_out(list(forms.values()))
        boxes = zip(*(extent(form, matrix) for form, matrix, _ in notes))
        left, bottom, right, top = (choose(sides) for choose, sides in zip((min, min, max, max), boxes))
        both = Dictionary(XObject=Dictionary(forms), Properties=Dictionary(layers))
        box = left, bottom, right, top
        shape = Shape(box, UPRIGHT, (right - left, top - bottom), box)
        return self.form(self.pdf.make_stream("".join(drawn).encode()), both, shape)
