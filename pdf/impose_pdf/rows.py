"""The row of pages: blanks among those of INFILEs, and pages that are turned alone."""

import re
from collections.abc import Iterator
from typing import TypeVar

from impose_pdf.boxes import inverse
from impose_pdf.pages import bounds, moved, then
from impose_pdf.plan import Matrix, Placed, Size
from impose_pdf.words import BLANK, RANGES, Request, pages_of, refusal, shown

Page = TypeVar("Page")
PLACE = "(_?[0-9]{1,9}|last)"
ITEM = re.compile(f"{PLACE}((-){PLACE}?)?")
MOST, LONGEST = 1_000_000, 100_000  # entries of a row, and signs of a list
SIDES = "left", "half", "right"


def laid(request: Request, parts: list[list[tuple[Page, int]]]) -> list[tuple[Page, int]]:
    """The pages of INFILEs without the blanks among them, which impose gets in a list of them."""
    entries, row = list[int](), list[tuple[Page, int]]()
    for part in parts:
        if "--each-right" in request.own and len(entries) % 2:
            entries.append(0)
        for page in part:
            if page[1] != BLANK:
                row.append(page)
            entries.append(len(row) if page[1] != BLANK else 0)
    if not row:
        raise refusal(1, "blank pages alone make no sheets")
    if 0 in entries:
        give(request, listed(list(chosen(request, entries))))
    return row


def chosen(request: Request, entries: list[int]) -> Iterator[int]:
    """The entries of a row that the words for impose choose. What isn't understood is left to impose."""
    word = request.words[-1] if request.command == "select" else request.options.get("--pages", "1-")
    count, left = len(entries), MOST
    for item in word.split(","):
        found = ITEM.fullmatch(item)
        if item in ("blank", "_"):
            yield 0
        elif not found:
            raise refusal(2, f"page ranges: {shown(item)} is no page, no range of pages and no blank")
        else:
            begin = place(found[1], count)
            end = place(found[4] or "_1", count) if found[3] else begin
            if not (1 <= begin <= count and 1 <= end <= count):
                raise refusal(1, f"the row has places 1 to {count} only, with its blanks, and {item} is asked for")
            step = 1 if begin <= end else -1
            yield from (entries[k - 1] for k in range(begin, end + step, step))
            left -= abs(end - begin)
        left -= 1
        if left < 0:
            raise refusal(1, f"more than {MOST} places are asked for")


def place(word: str, count: int) -> int:
    """The place that a word means."""
    return count if word == "last" else count + 1 - int(word[1:]) if word[0] == "_" else int(word)


def listed(entries: list[int]) -> str:
    """Entries as a list for impose, in which 0 is a blank."""
    items, at = list[str](), 0
    while at < len(entries):
        end = at + 1
        while entries[at] and end < len(entries) and entries[end] == entries[end - 1] + 1:
            end += 1
        first, last = entries[at], entries[end - 1]
        items.append("blank" if not first else str(first) if first == last else f"{first}-{last}")
        at = end
    text = ",".join(items)
    if len(text) > LONGEST:
        raise refusal(1, "there are too many blanks among the pages")
    return text


def give(request: Request, pages: str) -> None:
    """Has impose take these pages."""
    if request.command == "select":
        request.words[-1] = pages
        return
    words, kept = iter(request.words), list[str]()
    for word in words:
        if word == "--pages":
            next(words)
        elif not word.startswith("--pages="):
            kept.append(word)
    request.words, request.options["--pages"] = ["--pages", pages, *kept], pages


class Turns:
    """Pages of a row that are turned by themselves: by how many quarters to the left."""

    def __init__(self, words: list[str]):
        self.words, self.quarters = words, dict[int, int]()
        for word in words:
            side, _, ranges = word.partition("=")
            if side not in SIDES or not RANGES.fullmatch(ranges) or "blank" in ranges:
                raise refusal(2, f"--turn wants a side and pages, as left=5,7-9, and got {shown(word)}")

    def find(self, count: int) -> None:
        """Finds the pages among so many."""
        for word in self.words:
            side, _, ranges = word.partition("=")
            for k in pages_of(ranges, count, "row"):
                self.quarters[k] = SIDES.index(side) + 1

    def size(self, k: int, size: Size) -> Size:
        """The size of a page as it lies then."""
        return size[::-1] if self.quarters.get(k, 0) % 2 else size

    def turn(self, placed: Placed, size: Size) -> None:
        """Turns a page, which is placed as it lies, and has this size by itself."""
        width, height = size
        ways: dict[int, Matrix] = {
            1: (0, 1, -1, 0, height, 0),
            2: (-1, 0, 0, -1, width, height),
            3: (0, -1, 1, 0, 0, width),
        }
        if placed.page not in self.quarters:
            return
        way = ways[self.quarters[placed.page]]
        left, bottom, right, top = bounds((0, 0, *placed.paper), inverse(way))
        placed.matrix, placed.paper, placed.beyond = then(way, placed.matrix), (right, top), (-left, -bottom, 0, 0)
        if placed.border:
            pen, *path = placed.border
            corners = (moved(x, y, inverse(way)) for x, y in zip(path[::2], path[1::2]))
            placed.border = (pen, *(side for corner in corners for side in corner))
