"""PDFs of which many objects share others: what is gone through once for each holder costs the square of their size."""

from __future__ import annotations

import zlib
from collections.abc import Callable
from typing import Any

from pikepdf import Array, Dictionary, Name, Pdf, String

Kind = Callable[[Pdf, int], None]
KINDS: dict[str, Kind] = {}


def kind(function: Kind) -> Kind:
    KINDS[function.__name__.replace("_", "-")] = function
    return function


def linked(pdf: Pdf, count: int, **entries: Any) -> list[Any]:
    """So many nodes of a tree, which share one array of them all as their /Kids."""
    nodes = [pdf.make_indirect(Dictionary(entries)) for _ in range(count)]
    kids = pdf.make_indirect(Array(nodes))
    for node in nodes:
        node.Kids = kids
    return nodes


@kind
def kids_of_pages(pdf: Pdf, count: int) -> None:
    """Nodes after the last page, without a page."""
    pdf.Root.Pages.Kids.append(linked(pdf, count, **{"/Type": Name.Pages, "/Count": 0})[0])


@kind
def kids_of_names(pdf: Pdf, count: int) -> None:
    """Nodes of the tree of names, without a name."""
    pdf.Root.Names = Dictionary(Dests=linked(pdf, count)[0])


@kind
def names(pdf: Pdf, count: int) -> None:
    """Nodes of the tree of names that share an array of as many names."""
    page = pdf.pages[0].obj
    pairs = [part for k in range(count) for part in (String(f"n{k:05}"), Array([page, Name.Fit]))]
    held = pdf.make_indirect(Array(pairs))
    nodes = [pdf.make_indirect(Dictionary(Names=held)) for _ in range(count)]
    pdf.Root.Names = Dictionary(Dests=pdf.make_indirect(Dictionary(Kids=Array(nodes))))


def shared_annotations(pdf: Pdf, count: int, annotation: dict[str, Any]) -> None:
    """Each page has the same array of so many annotations."""
    held = pdf.make_indirect(
        Array(
            [
                pdf.make_indirect(Dictionary(Type=Name.Annot, Rect=Array([9, 9, 19, 19]), **annotation))
                for _ in range(count)
            ]
        )
    )
    for page in pdf.pages:
        page.obj.Annots = held


@kind
def notes(pdf: Pdf, count: int) -> None:
    """Each page has the same array of so many notes, with one look of (255, 102, 0)."""
    look = pdf.make_stream(b"1 .4 0 rg 0 0 9 9 re f")
    look.Type, look.Subtype, look.BBox = Name.XObject, Name.Form, Array([0, 0, 9, 9])
    shared_annotations(pdf, count, {"Subtype": Name.Stamp, "F": 4, "AP": Dictionary(N=look)})


@kind
def links(pdf: Pdf, count: int) -> None:
    """Each page has the same array of so many links."""
    action = pdf.make_indirect(Dictionary(S=Name.URI, URI=String("http://example.org/")))
    shared_annotations(pdf, count, {"Subtype": Name.Link, "A": action})


@kind
def narrower(pdf: Pdf, count: int) -> None:
    """Each page is narrower than the one before; so many times a tenth of a point."""
    for k, page in enumerate(pdf.pages):
        page.obj.MediaBox = Array([0, 0, 595 - k * count / 10, 842])


def linked_to(pdf: Pdf, link: dict[str, Any]) -> Any:
    """A new link on the first page."""
    return pdf.make_indirect(Dictionary(Type=Name.Annot, Subtype=Name.Link, Rect=Array([9, 9, 19, 19]), **link))


@kind
def links_to_one_place(pdf: Pdf, count: int) -> None:
    """The first page has so many links to one destination, which has twenty times as many numbers."""
    dest = pdf.make_indirect(Array([pdf.pages[0].obj, Name.XYZ, *range(20 * count)]))
    pdf.pages[0].obj.Annots = Array([linked_to(pdf, {"Dest": dest}) for _ in range(count)])


@kind
def actions_after_links(pdf: Pdf, count: int) -> None:
    """The first page has so many links, each with an action before the same array of as many others."""
    action = Dictionary(S=Name.URI, URI=String("http://example.org/"))
    after = pdf.make_indirect(Array([pdf.make_indirect(Dictionary(action)) for _ in range(count)]))
    links = [linked_to(pdf, {"A": Dictionary({**action, "/Next": after})}) for _ in range(count)]
    pdf.pages[0].obj.Annots = Array(links)


@kind
def long_link(pdf: Pdf, count: int) -> None:
    """Each page has the same link, whose address has hundred times so many letters, in an array of its own."""
    link = linked_to(pdf, {"A": Dictionary(S=Name.URI, URI=String("http://example.org/" + "a" * 100 * count))})
    for page in pdf.pages:
        page.obj.Annots = Array([link])


@kind
def group(pdf: Pdf, count: int) -> None:
    """Each page has the same transparency group, in which twenty times so many numbers are."""
    held = pdf.make_indirect(Dictionary(S=Name.Transparency, CS=Name.DeviceRGB, Spare=Array(range(20 * count))))
    for page in pdf.pages:
        page.obj.Group = held


@kind
def blanks(pdf: Pdf, count: int) -> None:
    """The contents of the first page name one stream of so many million blanks three times."""
    held = pdf.make_stream(zlib.compress(b" " * 1_000_000 * count), Filter=Name.FlateDecode)
    pdf.pages[0].obj.Contents = Array([held, pdf.pages[0].obj.Contents, held, held])


@kind
def long_contents(pdf: Pdf, count: int) -> None:
    """The pages share resources with an image; the contents of the first have so many million commands more."""
    image = pdf.make_stream(b"\0", Type=Name.XObject, Subtype=Name.Image, Width=1, Height=1)
    image.BitsPerComponent, image.ColorSpace = 8, Name.DeviceGray
    first = pdf.pages[0].obj
    first.Resources.XObject = Dictionary(Image=image)
    held = pdf.make_indirect(first.Resources)
    for page in pdf.pages:
        page.obj.Resources = held
    data = first.Contents.read_bytes() + b"0 g " * 1_000_000 * count
    first.Contents = pdf.make_stream(zlib.compress(data), Filter=Name.FlateDecode)


@kind
def threes(pdf: Pdf, count: int) -> None:
    """A link has three actions after its own, each of these three others after it, and so on so many times."""
    action = Dictionary(S=Name.URI, URI=String("http://example.org/"))
    after = [pdf.make_indirect(Dictionary(action)) for _ in range(3)]
    for _ in range(count - 1):
        after = [pdf.make_indirect(Dictionary({**action, "/Next": Array(after)})) for _ in range(3)]
    pdf.pages[0].obj.Annots = Array([linked_to(pdf, {"A": Dictionary({**action, "/Next": Array(after)})})])


@kind
def outlines(pdf: Pdf, count: int) -> None:
    """So many outline items, one after another, which lead to the first page."""
    root = pdf.make_indirect(Dictionary(Type=Name.Outlines))
    dest = Array([pdf.pages[0].obj, Name.Fit])
    made = [pdf.make_indirect(Dictionary(Title=String(f"n{k}"), Parent=root, Dest=dest)) for k in range(count)]
    for before, after in zip(made, made[1:]):
        before.Next, after.Prev = after, before
    root.First, root.Last, root.Count = made[0], made[-1], count
    pdf.Root.Outlines = root


@kind
def repeated(pdf: Pdf, count: int) -> None:
    """The first page stands so many times in the page tree, and no other does."""
    pdf.Root.Pages.Kids = Array([pdf.pages[0].obj] * count)
    pdf.Root.Pages.Count = count


@kind
def depth(pdf: Pdf, count: int) -> None:
    """So many nodes are above the first page, one above another, and no other page is there."""
    kid, top = pdf.pages[0].obj, pdf.Root.Pages
    for _ in range(count):
        node = pdf.make_indirect(Dictionary(Type=Name.Pages, Count=1, Kids=Array([kid])))
        kid.Parent, kid = node, node
    top.Kids, top.Count, kid.Parent = Array([kid]), 1, top
