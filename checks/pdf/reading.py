"""What is in a PDF: links, outlines, labels, words, fonts, and pages that nothing shows."""

from __future__ import annotations

import html
import re
import subprocess
from collections import Counter
from collections.abc import Iterator
from dataclasses import dataclass
from pathlib import Path
from typing import Any

import pikepdf
from pikepdf import Array, Dictionary, Name, Pdf, String


@dataclass(frozen=True)
class Goal:
    """Where something leads: a page from 0, the kind of view, and its numbers."""

    page: int
    kind: str
    values: tuple[float | None, ...]


@dataclass(frozen=True)
class Link:
    page: int
    box: tuple[float, ...]
    goal: Goal | str | None  # a place, an address, or nowhere


def number(value: Any) -> float | None:
    return None if value is None or isinstance(value, (Name, String, Dictionary, Array)) else float(value)


class Names:
    """The named destinations of a PDF, of both kinds, and its pages' numbers."""

    def __init__(self, pdf: Pdf) -> None:
        self.numbers = {page.obj.objgen: at for at, page in enumerate(pdf.pages)}
        self.known: dict[bytes, Any] = {}
        self.in_tree: list[bytes] = []
        self.old = pdf.Root.get("/Dests", Dictionary())
        self.read(pdf.Root.get("/Names", Dictionary()).get("/Dests", Dictionary()), 0)

    def read(self, node: Any, depth: int) -> None:
        parts = list(node.get("/Names", []))
        self.in_tree += map(bytes, parts[::2])
        self.known |= {bytes(name): place for name, place in zip(parts[::2], parts[1::2])}
        for kid in node.get("/Kids", []) if depth < 50 else []:
            self.read(kid, depth + 1)

    @property
    def are_sorted(self) -> bool:
        """Whether the names of a tree of one node are sorted, as viewers look for them (ISO 32000, 7.9.6)."""
        return self.in_tree == sorted(self.in_tree)

    def goal(self, place: Any) -> Goal | None:
        """The page, kind and numbers of a destination, or nothing if it leads to no page."""
        if isinstance(place, String):
            place = self.known.get(bytes(place))
        elif isinstance(place, Name):
            place = self.old.get(place)
        if isinstance(place, Dictionary):
            place = place.get("/D")
        if not isinstance(place, Array) or not len(place):
            return None
        page, *rest = list(place)
        at = (
            self.numbers.get(page.objgen)
            if isinstance(page, Dictionary)
            else int(page)
            if isinstance(page, int)
            else None
        )
        if at is None:
            return None
        return Goal(at, str(rest[0])[1:] if rest else "Fit", tuple(number(value) for value in rest[1:]))

    def of(self, holder: Any) -> Goal | str | None:
        """Where a link, an outline or the catalog leads."""
        if "/Dest" in holder:
            return self.goal(holder.Dest)
        action = holder.get("/A")
        if isinstance(action, Dictionary) and action.get("/S") == Name.GoTo:
            return self.goal(action.get("/D"))
        return str(action.URI) if isinstance(action, Dictionary) and "/URI" in action else None


def links(pdf: Pdf) -> list[Link]:
    """All links, page by page."""
    names = Names(pdf)
    found = []
    for at, page in enumerate(pdf.pages):
        for one in page.obj.get("/Annots", []):
            if isinstance(one, Dictionary) and one.get("/Subtype") == Name.Link:
                left, bottom, right, top = (float(value) for value in one.Rect)
                box = min(left, right), min(bottom, top), max(left, right), max(bottom, top)
                found.append(Link(at, box, names.of(one)))
    return found


def outlines(pdf: Pdf) -> list[tuple[int, str, Goal | str | None]]:
    """All outlines from the top: level, title, and where each leads."""
    names, seen = Names(pdf), set()

    def below(node: Any, level: int) -> Iterator[tuple[int, str, Goal | str | None]]:
        item = node.get("/First")
        while isinstance(item, Dictionary) and item.objgen not in seen:
            seen.add(item.objgen)
            yield level, str(item.get("/Title", "")), names.of(item)
            yield from below(item, level + 1)
            item = item.get("/Next")

    return list(below(pdf.Root.get("/Outlines", Dictionary()), 1))


def loose_outlines(pdf: Pdf) -> Iterator[str]:
    """Outlines that don't lead to the one above, the one before, or the last one below (ISO 32000, 12.3.3)."""
    seen, left = set(), [pdf.Root.get("/Outlines", Dictionary())]
    while left:
        above = left.pop()
        before, item = None, above.get("/First")
        while isinstance(item, Dictionary) and item.objgen not in seen:
            seen.add(item.objgen)
            left.append(item)
            if not are_same(item.get("/Parent"), above) or not are_same(item.get("/Prev"), before):
                yield f"the outline {item.get('/Title')} has a wrong /Parent or /Prev"
            before, item = item, item.get("/Next")
        if not are_same(above.get("/Last"), before):
            yield "an outline has a wrong /Last"


def are_same(one: Any, other: Any) -> bool:
    """Whether two are the same object, or both are missing."""
    return one is other if one is None or other is None else bool(one.objgen == other.objgen)


def actions(pdf: Pdf) -> list[str]:
    """The actions of each link, in the order in which they are done; of one that leads to a page also its number."""
    names = Names(pdf)

    def done(action: Any) -> Iterator[str]:
        goal = names.goal(action.get("/D"))
        yield str(action.S)[1:] + (f" {goal.page + 1}" if goal else "")
        following: Any = action.get("/Next", Array())
        for each in list(following) if isinstance(following, Array) else [following]:
            yield from done(each)

    found = (one.get("/A") for page in pdf.pages for one in page.obj.get("/Annots", []))
    return [", ".join(done(action)) for action in found if action is not None]


def opening(pdf: Pdf) -> Goal | str | None:
    """Where it opens."""
    action = pdf.Root.get("/OpenAction")
    return (
        Names(pdf).goal(action)
        if isinstance(action, Array)
        else Names(pdf).of(Dictionary(A=action))
        if action is not None
        else None
    )


def numeral(style: str, value: int) -> str:
    """A page's number in a style of labels."""
    if style == "/D":
        return str(value)
    if style.lower() == "/a":
        letters = chr(ord("a") + (value - 1) % 26) * ((value - 1) // 26 + 1)
    else:
        letters, left = "", value
        for text, worth in (("x", 10), ("ix", 9), ("v", 5), ("iv", 4), ("i", 1)):
            letters += text * (left // worth)
            left %= worth
    return letters.upper() if style in ("/A", "/R") else letters


def labels(pdf: Pdf) -> list[str]:
    """The label of each page, by the tree of labels; without one its number."""
    spans: dict[int, Any] = {}

    def read(node: Any) -> None:
        parts = list(node.get("/Nums", []))
        spans.update({int(start): span for start, span in zip(parts[::2], parts[1::2])})
        for kid in node.get("/Kids", []):
            read(kid)

    read(pdf.Root.get("/PageLabels", Dictionary()))
    found = []
    for at in range(len(pdf.pages)):
        starts = [start for start in spans if start <= at]
        if not starts:
            found.append(str(at + 1))
            continue
        start = max(starts)
        span = spans[start]
        style = str(span["/S"]) if "/S" in span else ""
        found.append(str(span.get("/P", "")) + (numeral(style, int(span.get("/St", 1)) + at - start) if style else ""))
    return found


def left_over(pdf: Pdf) -> int:
    """How many pages are in the file that aren't in its tree of pages."""
    shown = {page.obj.objgen for page in pdf.pages}
    found = [one for one in pdf.objects if isinstance(one, Dictionary) and one.get("/Type") == Name.Page]
    return sum(one.objgen not in shown for one in found)


def loose_corners(pdf: Pdf) -> Iterator[int]:
    """Pages with links whose /QuadPoints lie outside their /Rect, where they don't count (ISO 32000, 12.5.6.5)."""
    for at, page in enumerate(pdf.pages):
        for one in page.obj.get("/Annots", []):
            left, bottom, right, top = (float(side) for side in one.Rect)
            corners = [float(value) for value in one.get("/QuadPoints", [])]
            across = all(left - 0.01 <= x <= right + 0.01 for x in corners[::2])
            if not (across and all(bottom - 0.01 <= y <= top + 0.01 for y in corners[1::2])):
                yield at


def words(path: Path) -> list[Counter[str]]:
    """The words of each page, as pdftotext finds them."""
    ran = subprocess.run(["pdftotext", "-cropbox", path, "-"], capture_output=True, timeout=300)
    return [Counter(page.split()) for page in ran.stdout.decode(errors="replace").split("\f")[:-1]]


def places(path: Path, page: int, word: str) -> list[tuple[float, ...]]:
    """Where a page that isn't turned has a word: left, bottom, right and top of each."""
    words = ["pdftotext", "-bbox", "-f", str(page), "-l", str(page), str(path), "-"]
    text = subprocess.run(words, capture_output=True, text=True, timeout=300).stdout
    size = re.search(r'<page width="[\d.]+" height="([\d.]+)"', text)
    height = float(size[1]) if size else 0
    found = re.findall(r'<word xMin="([\d.-]+)" yMin="([\d.-]+)" xMax="([\d.-]+)" yMax="([\d.-]+)">(.*)</word>', text)
    sides = ([float(side) for side in sides] for *sides, one in found if html.unescape(one) == word)
    return [(round(a), round(height - d), round(c), round(height - b)) for a, b, c, d in sides]


def all_words(path: Path) -> Counter[str]:
    """The words of all pages."""
    found: Counter[str] = Counter()
    for page in words(path):
        found.update(page)
    return found


def fonts(path: Path) -> set[tuple[str, str]]:
    """Name and kind of each font, as pdffonts finds them."""
    ran = subprocess.run(["pdffonts", path], capture_output=True, timeout=300, text=True, errors="replace")
    lines = ran.stdout.split("\n")[2:]
    return {(line[:37].strip(), line[37:55].strip()) for line in lines if line.strip()}


def complaint(path: Path) -> str:
    """What qpdf --check finds wrong; nothing if it is right."""
    ran = subprocess.run(["qpdf", "--check", path], capture_output=True, timeout=300, text=True, errors="replace")
    wrong = re.findall(r"WARNING.*|ERROR.*|.*: error.*", ran.stdout + ran.stderr)
    return "; ".join(wrong) or ("" if ran.returncode == 0 else f"status {ran.returncode}")


def catalog(pdf: Pdf, path: str) -> Any:
    """What a path of keys, as /Names/EmbeddedFiles, leads to in the catalog."""
    found: Any = pdf.Root
    for key in path.strip("/").split("/"):
        if not isinstance(found, Dictionary) or "/" + key not in found:
            return None
        found = found["/" + key]
    return found


def opened(path: Path) -> Pdf:
    return pikepdf.open(path, suppress_warnings=True)
