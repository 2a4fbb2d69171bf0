"""Text in boxes: its lines, their places, and what shows them."""

import unicodedata
from collections.abc import Iterator
from dataclasses import dataclass
from itertools import groupby
from math import inf
from typing import Any

from pikepdf import Dictionary

from impose_pdf.fonts import Font
from impose_pdf.pages import numerals

SPACE = 32  # its code
LEADING = 1.15  # from line to line, in sizes of the font


def plain(text: str) -> str:
    """A text with ends of lines of one kind, and without other signs that show nothing."""
    text = unicodedata.normalize("NFC", text.replace("\r\n", "\n").replace("\r", "\n").replace("\t", " "))
    return "".join(letter for letter in text if letter == "\n" or unicodedata.category(letter) not in ("Cc", "Cf"))


class Text:
    """Letters, each in the first of some fonts that has it."""

    def __init__(self, letters: str, fonts: list[Font]):
        self.letters, self.order = letters, fonts
        found = {letter: self.place(letter, fonts) for letter in set(letters)}
        self.fonts = [found[letter][0] for letter in letters]
        self.widths = [found[letter][1] / 1000 for letter in letters]
        self.lacks = any(letter not in font.codes for letter, (font, _) in found.items() if not letter.isspace())

    def place(self, letter: str, fonts: list[Font]) -> tuple[Font, float]:
        """The font for a letter, and its width there; where none has it, those of a space of all readers."""
        wide = ((font, font.width(letter)) for font in fonts)
        return next(((font, width) for font, width in wide if width > 0), (fonts[1], fonts[1].width(" ")))

    def lines(self, most: float) -> list[tuple[int, int]]:
        """Where its lines begin and end, each at most so wide (in sizes of the font) unless it is a single letter."""
        lines, begin, gap, used, at_gap = list[tuple[int, int]](), 0, -1, 0.0, 0.0
        for k, letter in enumerate(self.letters):
            if letter == "\n":
                lines.append((begin, k))
                begin, gap, used = k + 1, -1, 0.0
                continue
            used += self.widths[k]
            if letter == " ":
                gap, at_gap = k, used
            elif used > most and k > begin:
                lines.append((begin, gap if gap >= begin else k))
                begin, used = (gap + 1, used - at_gap) if gap >= begin else (k, self.widths[k])
                gap = -1
        return [*lines, (begin, len(self.letters))]

    def width(self, begin: int, end: int) -> float:
        """The width of some of its letters, in sizes of the font."""
        return sum(self.widths[begin:end])

    @property
    def resources(self) -> Any:
        """Its fonts, by their names."""
        return Dictionary({self.name(font): font.held for font in set(self.fonts)})

    def name(self, font: Font) -> str:
        """The name of a font among the resources."""
        return f"/F{self.order.index(font)}"

    def shown(self, begin: int, end: int, size: float) -> str:
        """What shows some of its letters."""
        parts = []
        for font, run in groupby(range(begin, end), key=self.fonts.__getitem__):
            codes = "".join(f"{font.codes.get(self.letters[k], SPACE):0{font.digits}x}" for k in run)
            parts.append(f"{self.name(font)} {numerals(size)} Tf <{codes}> Tj")
        return " ".join(parts)


@dataclass
class Style:
    """How a text stands in its box: its size (0: as fits), its colour, at which side, whether in lines or in cells."""

    size: float
    colour: str = "0 g"
    side: int = 0  # left, middle, right
    in_lines: bool = False
    wraps: bool = True
    cells: int = 0


class Setting:
    """A text set in a box of some width and height, this far from its edge."""

    def __init__(self, text: Text, style: Style, width: float, height: float, edge: float):
        self.text, self.style, self.width, self.height, self.edge = text, style, width, height, edge
        self.room = max(width - 2 * edge - 4, 1)  # across, with 2 points at both sides
        self.size = style.size or self.fitting()
        tall = height - 2 * edge
        if style.cells and not style.in_lines:
            self.places = list(self.in_cells(width / style.cells))
            self.is_cut = len(text.letters) > style.cells
        elif style.in_lines:
            lines = text.lines(self.room / self.size if style.wraps else inf)
            leading = max(self.size, min(LEADING * self.size, tall / len(lines)))
            self.places = self.in_lines(lines, leading)
            self.is_cut = len(self.places) < len(lines)
        else:
            whole = 0, len(text.letters)
            self.places = [(self.start(*whole), height / 2 - 0.37 * self.size, *whole)]
            self.is_cut = text.width(*whole) * self.size > self.room + 4

    def fitting(self) -> float:
        """The size in which all of the text is seen, as far as it can be read then."""
        tall = max((self.height - 2 * self.edge) / LEADING, 1)
        if self.style.in_lines:
            sizes = (12, 11, 10, 9, 8, 7, 6, 5)
            return next((size for size in sizes if size * len(self.text.lines(self.room / size)) <= tall), 4)
        if self.style.cells:
            return min(tall, max(self.width / self.style.cells, 1))
        return max(min(tall, self.room / (self.text.width(0, len(self.text.letters)) or 1)), 1)

    def start(self, begin: int, end: int) -> float:
        """Where a line begins."""
        spare = self.width - self.text.width(begin, end) * self.size
        return (self.edge + 2, spare / 2, spare - self.edge - 2)[self.style.side]

    def in_lines(self, lines: list[tuple[int, int]], leading: float) -> list[tuple[float, float, int, int]]:
        """The places of lines, as far down as the box goes."""
        top = self.height - self.edge - 0.95 * self.size
        many = int((top - self.edge) / leading) + 1 if top > self.edge else 1
        return [(self.start(*line), top - k * leading, *line) for k, line in enumerate(lines[:many])]

    def in_cells(self, cell: float) -> Iterator[tuple[float, float, int, int]]:
        """The places of letters, each in the middle of a cell."""
        letters, cells = self.text.letters[: self.style.cells], self.style.cells
        first = (0, (cells - len(letters)) // 2, cells - len(letters))[self.style.side]
        for k in range(len(letters)):
            across = (first + k + 0.5) * cell - self.text.widths[k] * self.size / 2
            yield across, self.height / 2 - 0.37 * self.size, k, k + 1

    def drawn(self) -> str:
        """What shows the text."""
        lines = [f"BT {self.style.colour}"]
        for x, y, begin, end in self.places:
            lines.append(f"1 0 0 1 {numerals(x, y)} Tm {self.text.shown(begin, end, self.size)}")
        return "\n".join([*lines, "ET\n"])
