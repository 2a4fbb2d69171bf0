"""The sheets of a booklet, cut into single pages: each into two halves, which come in the order of their pages."""

import re
from collections.abc import Iterator

from impose_pdf.plan import Sheet, Size, usual
from impose_pdf.words import Request, refusal, shown

QUARTERS = "left", "right"  # turns after which pages lie on their side
SIGNATURE = re.compile("[1-9][0-9]{0,6}|auto")
OF_STAMPS = "--text", "--stamp", "--under", "--over"  # what is on the whole of a sheet
MOST = 32  # pages of a signature, where impose chooses


def ask(request: Request, sizes: list[Size]) -> None:
    """Has impose cut each sheet of a booklet into halves, which have the size that most sheets give."""
    width, height = usual(sizes)
    if request.options.get("--turn") in QUARTERS:
        width, height = height, width
    if request.looks:
        raise refusal(2, "unbooklet writes pages: leave out --plan and --preview")
    if dressed := next((option for option in OF_STAMPS if option in request.own), ""):
        raise refusal(2, f"unbooklet cuts sheets into pages, which get {dressed} by a second run: impose-pdf select 1-")
    word = request.options.get("--signature", "auto")
    if not SIGNATURE.fullmatch(word) or word != "auto" and int(word) % 4:
        raise refusal(2, f"--signature wants auto or the pages of a signature, as 16, and got {shown(word)}")
    if width <= height:
        raise refusal(1, "a sheet of a booklet is wider than high: --turn left, or right, turns these")
    if "--sheet" not in request.options:
        request.words, request.options["--sheet"] = [f"--sheet={width / 2:.5f}x{height:.5f}pt", *request.words], ""


def in_order(request: Request, halves: list[Sheet]) -> list[Sheet]:
    """The halves of sheets, left and right in turn, in the order of the pages that they are."""
    count, word = len(halves), request.options.get("--signature", "")
    if count % 4:
        raise refusal(1, f"a booklet has an even number of sheets, and {count // 2} are given")
    each = count // -(-count // MOST) if word == "auto" else int(word or count)
    if each % 4 or count % each:
        most = f"one size, of at most {MOST} pages" if word == "auto" else f"{word} pages"
        raise refusal(1, f"{count // 2} sheets don't make signatures of {most}")
    places = list(pages_of(count, each, "--rtl" in request.options))
    return [halves[k] for k in sorted(range(count), key=places.__getitem__)]


def pages_of(count: int, each: int, is_rtl: bool) -> Iterator[int]:
    """The page on each of `count` halves, in signatures of `each` pages: of fronts and backs, left and right."""
    for begin in range(0, count, each):
        for place in range(0, each // 2, 2):
            first, last = begin + place, begin + each - 1 - place
            yield from (first, last, last - 1, first + 1) if is_rtl else (last, first, first + 1, last - 1)
