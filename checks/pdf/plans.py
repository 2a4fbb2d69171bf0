"""The sheets that are wanted: impose's own, for PostScript with pages of the same sizes.

That program is proved, and what it writes is defined (docs/RULES.md, 7 and 15). Nothing here is taken from impose-pdf.
"""

from __future__ import annotations

import re
import subprocess
from collections import Counter
from collections.abc import Iterator
from dataclasses import dataclass, field

Size = tuple[float, float]
Matrix = tuple[float, float, float, float, float, float]
UPRIGHT: Matrix = (1, 0, 0, 1, 0, 0)


@dataclass
class Placed:
    """A page on a sheet: its number from 0, its matrix, what it is clipped to, and its border."""

    page: int
    matrix: Matrix
    paper: Size
    border: tuple[float, float] | None = None  # its width, and how far from the edges

    def point(self, x: float, y: float) -> tuple[float, float]:
        a, b, c, d, e, f = self.matrix
        return a * x + c * y + e, b * x + d * y + f


@dataclass
class Number:
    """A page's number: its text, its size, and the middle of its foot."""

    text: str
    size: float
    x: float
    y: float


@dataclass
class Sheet:
    paper: Size
    pages: list[Placed] = field(default_factory=list)
    strokes: list[tuple[float, ...]] = field(default_factory=list)
    numbers: list[Number] = field(default_factory=list)


def most(sizes: list[Size]) -> Size:
    """The size of most pages, of several the first's."""
    return Counter(sizes).most_common(1)[0][0]


def document(sizes: list[Size]) -> bytes:
    """PostScript with pages of these sizes, and in each its number from 0."""
    first = most(sizes)
    kinds = [first, *[size for size in dict.fromkeys(sizes) if size != first]]
    media = [f"s{kinds.index(size)} {size[0]:.5f} {size[1]:.5f} 0 () ()" for size in kinds]
    lines = ["%!PS-Adobe-3.0", "%%DocumentMedia: " + "\n%%+ ".join(media), "%%EndComments"]
    for number, size in enumerate(sizes):
        lines += [f"%%Page: {number + 1} {number + 1}", f"%%PageMedia: s{kinds.index(size)}", f"% page {number}"]
    return "\n".join([*lines, "%%EOF", ""]).encode()


VALUED = "--each", "--suffix", "--box", "--bleed", "--text", "--stamp", "--under", "--over", "--password"
# Options that impose does not have, and how many words follow each.
OWN = {"--replace": 0, "--each-right": 0, "--crop": 0, **dict.fromkeys(VALUED, 1)}


def for_impose(words: list[str]) -> Iterator[str]:
    """The words that impose has."""
    left = iter(words)
    for word in left:
        if (name := word.partition("=")[0]) not in OWN:
            yield word
        elif name == word and OWN[name]:
            next(left)


def run(impose: str, words: list[str], sizes: list[Size]) -> subprocess.CompletedProcess[bytes]:
    """impose with these words, over such a document."""
    words = list(for_impose(words))
    return subprocess.run([impose, *words, "-", "-"], input=document(sizes), capture_output=True, timeout=300)


NUMBER = r"(-?[\d.]+)"
MATRIX = re.compile(r"\[(.*)\] concat")
CLIP = re.compile(rf"newpath 0 0 moveto {NUMBER} 0 lineto \S+ {NUMBER} lineto 0 \S+ lineto closepath clip newpath")
BORDER = re.compile(rf"gsave {NUMBER} setlinewidth newpath {NUMBER} .* closepath stroke grestore")
STROKE = re.compile(rf"newpath {NUMBER} {NUMBER} moveto {NUMBER} {NUMBER} lineto stroke")
WRITTEN = re.compile(
    rf"gsave 0 setgray /Times-Roman findfont {NUMBER} scalefont setfont {NUMBER} {NUMBER} translate (\d+) rotate "
    rf"{NUMBER} {NUMBER} moveto \((\d+)\) .*"
)


def number_of(found: re.Match[str]) -> Number:
    size, x, y, turn, across, up = (float(found[k]) for k in range(1, 7))
    cosine, sine = {0: (1, 0), 90: (0, 1), 180: (-1, 0), 270: (0, -1)}[int(turn)]
    return Number(found[7], size, x + cosine * across - sine * up, y + sine * across + cosine * up)


class Reader:
    """Reads sheets line by line."""

    def __init__(self, usual: Size) -> None:
        self.usual, self.sheets = usual, list[Sheet]()
        self.matrix, self.clip = UPRIGHT, usual
        self.border: tuple[float, float] | None = None

    def line(self, line: str) -> None:
        if line.startswith("%%Page: "):
            self.sheets.append(Sheet(self.usual))
        elif line.startswith("%%PageMedia: "):
            width, height = line.split(": ")[1].split("x")
            self.sheets[-1].paper = float(width), float(height)
        elif at := MATRIX.fullmatch(line):
            a, b, c, d, e, f = (float(part) for part in at[1].split())
            self.matrix, self.border = (a, b, c, d, e, f), None
        elif at := CLIP.fullmatch(line):
            self.clip = float(at[1]), float(at[2])
        elif at := BORDER.fullmatch(line):
            self.border = float(at[1]), float(at[2])
        elif line.startswith("% page "):
            self.sheets[-1].pages.append(Placed(int(line[7:]), self.matrix, self.clip, self.border))
        elif at := STROKE.fullmatch(line):
            self.sheets[-1].strokes.append(tuple(float(part) for part in at.groups()))
        elif at := WRITTEN.fullmatch(line):
            self.sheets[-1].numbers.append(number_of(at))


def sheets(impose: str, words: list[str], sizes: list[Size]) -> list[Sheet]:
    """The sheets that impose makes with these words of pages of these sizes."""
    ran = run(impose, words, sizes)
    if ran.returncode:
        raise ValueError(ran.stderr.decode())
    head, first, rest = ran.stdout.decode().partition("%%Page: ")
    # The guard has the paper of a specification's sheets, which have no comment.
    paper = re.search(rf"(?:%%DocumentMedia: \S+ |/PageSize \[){NUMBER} {NUMBER}[ \]]", head)
    reader = Reader((float(paper[1]), float(paper[2])) if paper else most(sizes))
    for line in (first + rest).split("\n"):
        reader.line(line)
    return reader.sheets
