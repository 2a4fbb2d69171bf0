"""Annotations as pages hold them. What pages share is gone through, led and drawn once."""

from collections.abc import Iterator
from dataclasses import dataclass, field
from typing import Any

from pikepdf import Array, Dictionary, String

from impose_pdf.links import Ways
from impose_pdf.pages import Box, array, bounds, box_of, common, drop, got, keys_of, moved, nearest, numbers
from impose_pdf.plan import Matrix

LOST = {"/Rect", "/P", "/Parent", "/Popup", "/StructParent", "/AA", "/AP", "/AS", "/Dest", "/A", "/QuadPoints"}
MOST_CORNERS = 800  # numbers: those of a hundred lines
MOST_SHARED = 5_000  # links of annotations that pages share, at all of their places in a PDF


@dataclass
class Link:
    """A link of a page, and where it leads by which entry."""

    old: Any
    box: Box
    corners: list[float]
    entry: str
    way: Any


class Links:
    """The links of a PDF. Each is led once, and placed wherever its pages are."""

    def __init__(self, ways: Ways):
        self.ways = ways
        self.known: dict[tuple[int, int], Link | None] = {}  # by their annotations
        self.changed: set[tuple[int, int]] = set()  # annotations that have a place
        self.shared = 0  # how many were placed of annotations that pages share

    def of(self, annotation: Any) -> Link | None:
        """An annotation as a link, if it leads anywhere. Those that are objects may be on several pages."""
        key = annotation.objgen
        if key not in self.known or not annotation.is_indirect:
            box = box_of(annotation.get("/Rect"))
            found = self.ways.lead_holder(annotation) if box else None
            corners = numbers(got(annotation, "/QuadPoints")) if found else []
            are_right = len(corners) % 8 == 0 and len(corners) <= MOST_CORNERS
            self.known[key] = Link(annotation, box, corners if are_right else [], *found) if box and found else None
        return self.known[key]

    def placed(self, link: Link, matrix: Matrix, cut: Box) -> Any:
        """A link at a place of its page, cut at a box. The first is the old one, which saves a third of the memory."""
        made, has_look = link.old, "/AP" in link.old
        if self.ways.source is self.ways.made and made.is_indirect and made.objgen not in self.changed:
            drop(made, LOST)
        else:
            if made.is_indirect and made.objgen in self.changed:
                self.share(link)
            made = self.ways.bare(made, LOST)
        self.changed.add(link.old.objgen)
        left, bottom, right, top = bounds(link.box, matrix)
        made.Rect = array(*nearest(left, bottom, cut), *nearest(right, top, cut))
        if link.corners:
            points = zip(link.corners[::2], link.corners[1::2])
            made.QuadPoints = array(*(value for point in points for value in nearest(*moved(*point, matrix), cut)))
        if has_look:  # which is drawn, and stands for a border
            drop(made, {"/BS"})
            made.Border = array(0, 0, 0)
        made[link.entry] = link.way
        return made

    def share(self, link: Link) -> None:
        """Makes what a link has objects, which its copies share."""
        link.way = link.way if link.way.is_indirect else self.ways.made.make_indirect(link.way)
        for key in set(keys_of(link.old)) - LOST:
            if isinstance(value := link.old[key], (Array, Dictionary, String)) and not value.is_indirect:
                link.old[key] = self.ways.source.make_indirect(value)


@dataclass(eq=False)
class Held:
    """The annotations that one page has, or several: links, and what may be drawn, with a form of it for each turn."""

    of_pdf: Links
    links: list[Any]
    others: list[Any]
    over: dict[tuple[int, ...], Any] = field(default_factory=dict)
    found: list[Link] | None = None
    is_shared: bool = False

    def find_links(self) -> None:
        """Finds the links that lead anywhere."""
        if self.found is None:
            self.found = [link for old in self.links if (link := self.of_pdf.of(old))]

    def placed(self, matrix: Matrix, cut: Box) -> Iterator[Any]:
        """The links at a place of their page, as far as they are seen in a box, until too many are shared."""
        for link in self.found or ():
            self.of_pdf.shared += self.is_shared
            if self.is_shared and self.of_pdf.shared > MOST_SHARED:
                return
            if common(bounds(link.box, matrix), cut):
                yield self.of_pdf.placed(link, matrix, cut)


def owner_of(page: Any) -> Any:
    """What holds the annotations of a page, perhaps for others too: their array, or the page."""
    held = got(page, "/Annots")
    return held if isinstance(held, Array) and held.is_indirect else page
