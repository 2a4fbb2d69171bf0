"""The digits of page numbers: a font that lies in OUTFILE, with the widths of Times."""

from typing import Any

from pikepdf import Array, Dictionary, Name, Pdf

from impose_pdf.pages import array

NAMES = "zero", "one", "two", "three", "four", "five", "six", "seven", "eight", "nine"
BOX = 0, 0, 500, 676
PEN = "60 w 1 J 1 j"
# The middle of the pen's way, in thousandths of the size.
WAYS = (
    "415 338 m 415 508 341 646 250 646 c 159 646 85 508 85 338 c 85 168 159 30 250 30 c 341 30 415 168 415 338 c s",
    "120 520 m 270 646 l 270 30 l S",
    "95 490 m 95 580 160 646 250 646 c 340 646 405 580 405 490 c 405 340 200 230 90 30 c 415 30 l S",
    "95 560 m 125 615 180 646 245 646 c 335 646 400 590 400 505 c 400 415 330 360 220 360 c"
    " 340 360 415 300 415 195 c 415 95 340 30 240 30 c 165 30 105 65 80 125 c S",
    "330 30 m 330 646 l 70 200 l 430 200 l S",
    "395 646 m 130 646 l 105 350 l 140 395 190 420 250 420 c 345 420 415 340 415 230 c"
    " 415 110 340 30 240 30 c 165 30 110 65 85 125 c S",
    "380 590 m 345 630 305 646 265 646 c 160 646 90 510 90 300 c 90 130 150 30 250 30 c"
    " 345 30 415 110 415 220 c 415 330 345 405 255 405 c 170 405 110 345 90 260 c S",
    "80 646 m 420 646 l 300 450 220 260 190 30 c S",
    "250 354 m 173 354 110 419 110 500 c 110 581 173 646 250 646 c 327 646 390 581 390 500 c 390 419 327 354 250 354 c"
    " 341 354 415 281 415 192 c 415 103 341 30 250 30 c 159 30 85 103 85 192 c 85 281 159 354 250 354 c s",
    "120 86 m 155 46 195 30 235 30 c 340 30 410 166 410 376 c 410 546 350 646 250 646 c"
    " 155 646 85 566 85 456 c 85 346 155 271 245 271 c 330 271 390 331 410 416 c S",
)
# Which letters the digits are, for searches.
LETTERS = b"""/CIDInit /ProcSet findresource begin 12 dict begin begincmap /CMapName /Digits def /CMapType 2 def
1 begincodespacerange <00> <FF> endcodespacerange 1 beginbfrange <30> <39> <0030> endbfrange
endcmap CMapName currentdict /CMap defineresource pop end end
"""


def font(pdf: Pdf) -> Any:
    """The font, in a PDF."""
    width, box = BOX[2], " ".join(map(str, BOX))
    glyphs = {f"/{name}": f"{width} 0 {box} d1 {PEN} {way}" for name, way in zip(NAMES, WAYS)}
    return pdf.make_indirect(
        Dictionary(
            Type=Name.Font,
            Subtype=Name.Type3,
            FontBBox=array(*BOX),
            FontMatrix=array(0.001, 0, 0, 0.001, 0, 0),
            CharProcs=Dictionary({name: pdf.make_stream(glyph.encode()) for name, glyph in glyphs.items()}),
            Encoding=Dictionary(Type=Name.Encoding, Differences=Array([ord("0"), *map(Name, glyphs)])),
            FirstChar=ord("0"),
            LastChar=ord("9"),
            Widths=Array([width] * len(NAMES)),
            Resources=Dictionary(),
            ToUnicode=pdf.make_stream(LETTERS),
        )
    )
