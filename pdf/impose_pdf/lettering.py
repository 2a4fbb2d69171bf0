"""The letters of words on pages: those of one font, a part of which lies in OUTFILE."""

from pikepdf import Pdf

from impose_pdf import truetype
from impose_pdf.fonts import Borrowed
from impose_pdf.pages import numerals
from impose_pdf.plan import Size
from impose_pdf.words import plain, refusal

MOST_NAMED = 20  # letters


class Lettering:
    """The font of all words, which lies in OUTFILE."""

    def __init__(self, pdf: Pdf, words: set[str], name: str = "/Words"):
        self.name = name
        letters = sorted(set("".join(words)))
        self.font = Borrowed(pdf, letters)
        if truetype.font() is None:
            raise refusal(3, "words on pages need a font: install fonts-liberation or fonts-dejavu-core")
        if lacking := [letter for letter in letters if letter not in self.font.codes][:MOST_NAMED]:
            raise refusal(2, f"words on pages: the font has no letter {' '.join(map(plain, lacking))}")

    def width(self, words: str) -> float:
        """The width of words, in sizes."""
        return sum(self.font.width(letter) for letter in words) / 1000

    def shown(self, words: str, size: float, way: Size, at: Size) -> str:
        """What shows words."""
        codes = "".join(f"{self.font.codes[letter]:04x}" for letter in words)
        place = numerals(way[0], way[1], -way[1], way[0], *at)
        return f"BT {self.name} {numerals(size)} Tf {place} Tm <{codes}> Tj ET"
