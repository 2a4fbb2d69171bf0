"""What sheets are called: by their pages' own labels, else by their numbers in their files."""

from collections.abc import Iterable
from typing import Any

from pikepdf import Array, Dictionary, Pdf, String

from impose_pdf.pages import name_of, number_of

LONGEST = 100  # signs of a label that is used
ROMAN = {
    **{1000: "m", 900: "cm", 500: "d", 400: "cd", 100: "c", 90: "xc", 50: "l", 40: "xl"},
    **{10: "x", 9: "ix", 5: "v", 4: "iv", 1: "i"},
}


def spans_of(node: Any) -> dict[int, Any]:
    """The spans of labels of a number tree, by the pages with which they begin. Loops are passed over."""
    seen, left, found = set(), [node], dict[int, Any]()
    while left:
        node = left.pop()
        if not isinstance(node, Dictionary) or node.objgen in seen:
            continue
        if node.is_indirect:
            seen.add(node.objgen)
        if isinstance(pairs := node.get("/Nums"), Array):
            values = list(pairs)
            found.update({at: span for at, span in zip(values[::2], values[1::2]) if isinstance(at, int)})
        if isinstance(kids := node.get("/Kids"), Array):
            left += reversed(list(kids))
    return found


def letters(value: int) -> str:
    """A number as a letter, which is doubled after 26, and so on."""
    return chr(ord("a") + (value - 1) % 26) * ((value - 1) // 26 + 1)


def roman(value: int) -> str:
    """A number in Roman numerals."""
    made = ""
    for worth, text in ROMAN.items():
        made += text * (value // worth)
        value %= worth
    return made


def numeral(style: str, value: int) -> str:
    """A number in a style of labels, or nothing for one that would be too long."""
    if style == "/D":
        return str(value)
    if value > (26 if style in ("/A", "/a") else 1000) * LONGEST:
        return ""
    made = {"/a": letters, "/r": roman}.get(style.lower(), lambda _: "")(value)
    return made.upper() if style in ("/A", "/R") else made


def parts_of(span: Any) -> tuple[str, str, int] | None:
    """What labels of a span have before their numbers, the style of these, and the first; None if they aren't used."""
    if not isinstance(span, Dictionary):
        return None
    before, first = span.get("/P"), int(max(1, number_of(span.get("/St"), 1)))
    try:
        made = str(before) if isinstance(before, String) else ""
    except UnicodeDecodeError:
        return None
    return (made, name_of(span.get("/S")), first) if len(made) <= LONGEST else None


def text_of(parts: tuple[str, str, int] | None, further: int) -> str:
    """The label of a page so far from the first of its span, or nothing."""
    if parts is None:
        return ""
    before, style, first = parts
    made = before + numeral(style, first + further)
    return made if len(made) <= LONGEST else ""


class Labels:
    """What the pages of a PDF are called, and with which a new span begins."""

    def __init__(self, pdf: Pdf, count: int):
        self.spans = spans_of(pdf.Root.get("/PageLabels"))
        self.texts, first, parts = list[str](), 0, None
        for k in range(count):
            if k in self.spans:
                first, parts = k, parts_of(self.spans[k])
            self.texts.append(text_of(parts, k - first) or str(k + 1))

    def is_next(self, k: int, last: int) -> bool:
        """Whether a page goes on with the numbers of another."""
        return k == last + 1 and k not in self.spans


def label(pages: Iterable[tuple[Labels, int]]) -> str:
    """What a sheet is called: its pages, as 8|1; longer runs as 1-16."""
    runs: list[tuple[Labels, list[int]]] = []
    for labels, k in pages:
        of_last, run = runs[-1] if runs else (None, [-1])
        if labels is of_last and labels.is_next(k, run[-1]):
            run.append(k)
        elif labels is not of_last or k != run[-1]:
            runs.append((labels, [k]))
    texts = ([labels.texts[k] for k in run] for labels, run in runs)
    return "|".join(f"{run[0]}-{run[-1]}" if len(run) > 4 else "|".join(run) for run in texts) or "blank"
