"""The plan of sheets: what impose writes of a document that has the pages' sizes and nothing else.

impose reads PostScript. So it gets a stub, with a comment of its own in each page; what it writes says where that page
is put. All of that text is defined: a line that has another form, or another place, is an error.
"""

import re
import subprocess
from collections import Counter
from collections.abc import Sequence
from dataclasses import dataclass, field

from impose_pdf.lines import Lines
from impose_pdf.wording import as_ours
from impose_pdf.words import Refusal, Request, cause_of, refusal, shown

Matrix = tuple[float, float, float, float, float, float]
Size = tuple[float, float]
POSTSCRIPT = re.compile(rb"[\0\x04\t\n\f\r ]*%!")  # the head of what impose reads


@dataclass
class Placed:
    """A page on a sheet: which, from 0; its matrix there; the paper at which it is cut; a border's pen and path."""

    page: int
    matrix: Matrix
    paper: Size
    border: tuple[float, ...] = ()
    beyond: tuple[float, float, float, float] = (0, 0, 0, 0)  # how far past each edge of the paper it may print
    under: str = ""  # what is drawn below it, and over it
    over: str = ""

    @property
    def clip(self) -> tuple[float, float, float, float]:
        """The rectangle at which it is cut: its corner, width and height."""
        left, bottom, right, top = self.beyond
        return -left, -bottom, self.paper[0] + left + right, self.paper[1] + bottom + top


@dataclass
class Number:
    """A page's number: its size, where the page is and how it is turned, the middle of its foot, and the digits."""

    size: float
    origin: Size
    degrees: int
    foot: Size
    digits: str


@dataclass
class Sheet:
    """A sheet: its paper, its pages, the lines and numbers over them, and the points of its unit."""

    paper: Size
    placed: list[Placed] = field(default_factory=list)
    strokes: list[tuple[float, ...]] = field(default_factory=list)
    numbers: list[Number] = field(default_factory=list)
    unit: int = 1
    boxes: dict[str, tuple[float, float, float, float]] = field(default_factory=dict)  # in which it is cut
    over: str = ""  # what is drawn over everything, in points
    ink: str = "0 G"  # of its lines


def read(text: str) -> list[Sheet]:
    """The sheets of a plan."""
    lines, sheets = Lines(text), list[Sheet]()
    lines.wanted("first line")
    (count,) = lines.wanted("number of sheets")
    lines.found("box")
    lines.found("exact box")
    paper = lines.found("paper")
    if paper is None and lines.found("first paper"):
        list(lines.all("further paper"))
    lines.wanted("end of the comments")
    for number, again in lines.all("sheet"):
        sheets.append(sheet(lines, paper))
        same(number, again, str(len(sheets)))
    lines.wanted("trailer")
    lines.wanted("end")
    same(count, str(len(sheets)))
    same("".join(lines.left()), "")
    return sheets


def same(*parts: str) -> None:
    """Refuses parts of a plan that differ."""
    if len(set(parts)) > 1:
        raise refusal(3, f"what impose writes doesn't fit together: {' and '.join(parts)}")


def sheet(lines: Lines, paper: tuple[str, ...] | None) -> Sheet:
    """The sheet whose first line was passed, of this paper if it names none itself."""
    if paper is None:
        paper = lines.wanted("paper of a sheet")
        if lines.found("device's control") is not None:
            lines.wanted("device's test")
            same(" ".join(paper), " ".join(lines.wanted("device's paper")))
    made = Sheet((float(paper[0]), float(paper[1])))
    while lines.found("save") is not None:
        made.placed.append(placed(lines))
    if lines.found("pen") is not None:
        made.strokes = [tuple(map(float, stroke)) for stroke in lines.all("stroke")]
        lines.wanted("end of the strokes")
    for size, x, y, degrees, middle, foot, digits in lines.all("number"):
        made.numbers.append(
            Number(float(size), (float(x), float(y)), int(degrees), (float(middle), float(foot)), digits)
        )
    lines.wanted("showpage")
    return made


def placed(lines: Lines) -> Placed:
    """The page on a sheet whose first line was passed."""
    lines.wanted("held showpage")
    a, b, c, d, e, f = map(float, lines.wanted("matrix"))
    width, width_again, height, height_again = lines.wanted("clip")
    same(width, width_again)
    same(height, height_again)
    border = lines.found("border") or ()
    (page,) = lines.wanted("page")
    lines.wanted("showpage")
    lines.wanted("restore")
    return Placed(int(page), (a, b, c, d, e, f), (float(width), float(height)), tuple(map(float, border)))


def usual(sizes: Sequence[Size]) -> Size:
    """The size of most pages."""
    return Counter(sizes).most_common(1)[0][0]


def stub(sizes: Sequence[Size], paper: Size) -> bytes:
    """A document without pictures, of pages of these sizes, with a paper of its own."""
    media = {size: f"p{k}" for k, size in enumerate(dict.fromkeys([paper, *sizes]))}
    named = [f"{name} {width:.5f} {height:.5f} 0 () ()" for (width, height), name in media.items()]
    head = "\n%%+ ".join(named)
    pages = (
        f"%%Page: {k} {k}\n%%PageMedia: {media[size]}\n% page {k - 1}\nshowpage\n" for k, size in enumerate(sizes, 1)
    )
    comments = f"%!PS-Adobe-3.0\n%%Pages: {len(sizes)}\n%%DocumentMedia: {head}\n%%EndComments\n"
    return f"{comments}{''.join(pages)}%%Trailer\n%%EOF\n".encode()


def cannot_run(program: str, error: OSError) -> Refusal:
    """The refusal where impose can't be run."""
    return refusal(3, f"cannot run {shown(program)}: {cause_of(error)}")


class Imposer:
    """impose with the words of a request, over a stub of pages of these sizes."""

    def __init__(self, program: str, request: Request, sizes: Sequence[Size], paper: Size):
        self.program, self.request, self.count = program, request, len(sizes)
        self.stub = stub(sizes, paper)

    def run(self, *added: str) -> tuple[bytes, str]:
        """What it prints and what it says, with options put before its other words. A refusal is handed on."""
        unguarded = [] if "--unguarded" in self.request.options else ["--unguarded"]
        files = [] if self.request.lacks_word else ["-", "-"]
        words = [self.program, self.request.command, *unguarded, *added, *self.request.words, *files]
        try:
            done = subprocess.run(words, input=self.stub, capture_output=True)
        except OSError as error:
            raise cannot_run(self.program, error) from None
        told = done.stderr.decode(errors="replace")
        if done.returncode:
            told = as_ours(told).replace("standard input", ", ".join(shown(name) for name, _ in self.request.infiles))
            raise Refusal(min(done.returncode % 256, 3), told or f"impose-pdf: impose fails with {done.returncode}\n")
        return done.stdout, told

    def sheets(self, *more: str) -> tuple[list[Sheet], str]:
        """The sheets, and impose's report, with further options."""
        # Of all pages, spec leaves the sheets' paper out.
        added = ["--pages", "1-"] if self.request.command == "spec" and "--pages" not in self.request.options else []
        text, report = self.run(*added, *more)
        sheets = read(text.decode(errors="replace"))
        if any(placed.page >= self.count for sheet in sheets for placed in sheet.placed):
            raise refusal(3, "impose places pages that there aren't")
        return sheets, report

    def flip(self) -> str:
        """The edge on which sheets that are printed on both sides are flipped, by impose's own list."""
        if self.request.command == "spec":
            return ""
        text, _ = self.run("--plan", *(["--quiet"] if "--quiet" not in self.request.options else []))
        found = re.search(rb"^print on both sides, flip on the (short|long) edge$", text, re.MULTILINE)
        return found[1].decode() if found else ""
