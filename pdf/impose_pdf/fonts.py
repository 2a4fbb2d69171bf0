"""Fonts of a PDF: the codes and widths of their letters, and those that all readers have."""

import re
import zlib
from collections.abc import Iterable, Iterator
from itertools import islice
from math import isfinite
from typing import Any

from pikepdf import Array, Dictionary, Name, Object, Pdf, String

from impose_pdf import truetype
from impose_pdf.letters import ENCODINGS, MORE, NAMES_IN_FONTS, STANDARD, letter_of
from impose_pdf.pages import array, name_of, number_of, numbers
from impose_pdf.widths import width_of

SYMBOLIC = 4  # a flag of fonts
WIDEST = 5000  # thousandths
BLOCK = 100  # letters of Unicode: as many as a list of them may have
# Fonts by the names that fields give them, where their PDF lacks them.
SUPPLIED = {
    **{"/HeBo": "Helvetica-Bold", "/HeOb": "Helvetica-Oblique", "/HeBO": "Helvetica-BoldOblique", "/Cour": "Courier"},
    **{"/CoBo": "Courier-Bold", "/CoOb": "Courier-Oblique", "/CoBO": "Courier-BoldOblique", "/TiRo": "Times-Roman"},
    **{"/TiBo": "Times-Bold", "/TiIt": "Times-Italic", "/TiBI": "Times-BoldItalic", "/ZaDb": "ZapfDingbats"},
}
LATIN = "Helvetica+"  # that font, with more letters
STANDARD_FONTS = {"Helvetica", *SUPPLIED.values()}


def letters_of(font: Any) -> dict[int, str]:
    """The letters of a font of single bytes, by their codes; none if its own encoding isn't told."""
    encoding, described = font.get("/Encoding"), font.get("/FontDescriptor")
    if font.get("/BaseFont") == Name.ZapfDingbats:
        return {code: chr(code) for code in range(32, 255)}
    if font.get("/Subtype") not in (Name.Type1, Name.TrueType, Name.MMType1) or font.get("/BaseFont") == Name.Symbol:
        return {}
    is_list = isinstance(encoding, Dictionary)
    base = name_of(encoding.get("/BaseEncoding") if is_list else encoding)
    flags = int(number_of(described.get("/Flags"), 0)) if isinstance(described, Dictionary) else 0
    codes = ENCODINGS.get(base, {} if flags & SYMBOLIC else STANDARD)
    letters = {code: letter for letter, code in codes.items()}
    if is_list and isinstance(differing := encoding.get("/Differences"), Array):
        letters.update(differences(differing))
    return letters


def differences(differing: Any) -> Iterator[tuple[int, str]]:
    """The letters that differ from those of an encoding."""
    code = 0
    for one in islice(differing, 512):
        if isinstance(one, Name):
            yield code, letter_of(name_of(one)[1:])
            code += 1
        else:
            code = int(number_of(one, 0))


class Font:
    """A font of a PDF, with the codes and widths of its letters."""

    digits = 2  # of a code

    def __init__(self, held: Any):
        self.held, self.name = held, name_of(held.get("/BaseFont"))[1:]
        letters = letters_of(held)
        self.codes = {letters[code]: code for code in sorted(letters, reverse=True) if 0 <= code < 256}
        self.first, widths = number_of(held.get("/FirstChar"), 0), held.get("/Widths")
        self.widths = numbers(widths) if isinstance(widths, Array) and len(widths) <= 256 else []

    def width(self, letter: str) -> float:
        """The width of a letter that it may have; 0 if it hasn't."""
        if letter not in self.codes:
            return 0
        if not self.widths:
            return width_of(letter, self.name)
        at = int(self.codes[letter] - self.first)
        width = self.widths[at] if 0 <= at < len(self.widths) else 0
        return min(width, WIDEST) if isfinite(width) else 0


class Borrowed(Font):
    """Letters of a font of this machine: those of some that it has."""

    digits = 4

    def __init__(self, pdf: Pdf, letters: Iterable[str]):
        source = truetype.font()
        self.codes = {letter: source.glyphs[letter] for letter in letters if letter in source.glyphs} if source else {}
        if source and self.codes:
            self.wide = {letter: source.width(code) for letter, code in self.codes.items()}
            self.held = self.made(pdf, source.part(self.codes.values()))

    def width(self, letter: str) -> float:
        """The width of a letter that it may have; 0 if it hasn't."""
        return self.wide[letter] if letter in self.codes else 0

    def made(self, pdf: Pdf, data: bytes) -> Any:
        """The font as the PDF has it."""
        file = pdf.make_stream(zlib.compress(data), Filter=Name.FlateDecode, Length1=len(data))
        name, box = Name("/IMPOSE+Borrowed"), array(-200, -300, 1200, 1000)
        described = Dictionary(Type=Name.FontDescriptor, FontName=name, Flags=SYMBOLIC, FontBBox=box, FontFile2=file)
        described.ItalicAngle, described.Ascent, described.Descent, described.CapHeight = 0, 900, -250, 720
        described.StemV = 80
        below = Dictionary(Type=Name.Font, Subtype=Name.CIDFontType2, BaseFont=name, FontDescriptor=described)
        below.CIDSystemInfo = Dictionary(Registry=String("Adobe"), Ordering=String("Identity"), Supplement=0)
        widths = " ".join(f"{self.codes[letter]} [{wide:.0f}]" for letter, wide in self.wide.items())
        below.CIDToGIDMap, below.W = Name.Identity, Object.parse(f"[{widths}]".encode())
        made = Dictionary(Type=Name.Font, Subtype=Name.Type0, BaseFont=name, Encoding=Name("/Identity-H"))
        made.DescendantFonts, made.ToUnicode = Array([pdf.make_indirect(below)]), pdf.make_stream(self.unicode())
        return pdf.make_indirect(made)

    def unicode(self) -> bytes:
        """What tells its letters to readers, in lists of as many as these may have."""
        pairs = [f"<{code:04x}> <{ord(letter):04x}>\n" for letter, code in self.codes.items()]
        begins = range(0, len(pairs), BLOCK)
        parts = [pairs[at:end] for at, end in zip(begins, [*begins[1:], len(pairs)])]
        lists = "".join(f"{len(part)} beginbfchar\n{''.join(part)}endbfchar\n" for part in parts)
        return (
            "/CIDInit /ProcSet findresource begin 12 dict begin begincmap /CMapName /Borrowed def /CMapType 2 def\n"
            f"1 begincodespacerange <0000> <ffff> endcodespacerange\n{lists}"
            "endcmap CMapName currentdict /CMap defineresource pop end end\n"
        ).encode()


class Fonts:
    """The fonts of the fields of a PDF."""

    def __init__(self, pdf: Pdf):
        self.pdf, self.known = pdf, dict[Any, Font]()

    def of(self, text: str, name: str, *resources: Any) -> list[Font]:
        """Fonts for a text: that of a name in the first resources that have it, or of all readers, and what helps."""
        fonts = [self.found(name, resources), self.supplied("Helvetica"), self.supplied(LATIN)]
        lacking = {letter for letter in set(text) if not any(font.width(letter) for font in fonts)} - {"\n"}
        return fonts + [self.borrowed(block) for block in sorted({ord(letter) // BLOCK for letter in lacking})]

    def borrowed(self, block: int) -> Font:
        """A font of this machine, with the letters of a block of Unicode."""
        if block not in self.known:
            self.known[block] = Borrowed(self.pdf, map(chr, range(block * BLOCK, (block + 1) * BLOCK)))
        return self.known[block]

    def found(self, name: str, resources: tuple[Any, ...]) -> Font:
        """The font of a name."""
        for held in resources if re.fullmatch("/[!-~]+", name) else ():
            fonts = held.get("/Font") if isinstance(held, Dictionary) else None
            font = fonts.get(name) if isinstance(fonts, Dictionary) else None
            if isinstance(font, Dictionary):
                if font.objgen not in self.known or not font.is_indirect:
                    self.known[font.objgen] = Font(font)
                return self.known[font.objgen]
        return self.supplied(SUPPLIED.get(name, name[1:] if name[1:] in STANDARD_FONTS else "Helvetica"))

    def supplied(self, name: str) -> Font:
        """A font that all readers have."""
        if name not in self.known:
            held = Dictionary(Type=Name.Font, Subtype=Name.Type1, BaseFont=Name("/" + name.rstrip("+")))
            if name == LATIN:
                names = (NAMES_IN_FONTS.get(one, f"uni{ord(one):04X}") for one in MORE)
                held.Encoding = Dictionary(Differences=Array([128, *(Name("/" + name) for name in names)]))
            elif name != "ZapfDingbats":
                held.Encoding = Name.WinAnsiEncoding
            self.known[name] = Font(self.pdf.make_indirect(held))
        return self.known[name]
