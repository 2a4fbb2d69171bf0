"""What a case may want of a run: a function for each word, which finds the faults."""

from __future__ import annotations

import re
import subprocess
import time
from collections import Counter
from collections.abc import Callable, Iterator
from functools import cached_property
from pathlib import Path
from typing import Any

from pikepdf import Dictionary, Name, Pdf, Stream
from PIL import Image

from . import growth, pictures, plans, reading, wanted
from .cases import Run, contents, ran
from .making import NAMESPACES, Made
from .plans import Sheet
from .reading import Goal
from .wanted import Source

LOOKS = {"--plan", "--preview", "--print-spec"}
TELLS = {"--help", "--version", "help"}
# What draws fields that their PDF leaves to its readers.
OF_FIELDS = {("Helvetica", "Type 1"), ("ZapfDingbats", "Type 1")}
# With these, what is on sheets, or how large it is, isn't what impose alone would have of the pages.
NOT_AS_THEY_ARE = (
    "--box",
    "--bleed",
    "--text",
    "--stamp",
    "--under",
    "--over",
    "--each-right",
    "--password",
    "--crop",
    "unbooklet",
)
Check = Callable[["Output", str, list[str]], Iterator[str]]
CHECKS: dict[str, Check] = {}


def check(name: str) -> Callable[[Check], Check]:
    def put(function: Check) -> Check:
        CHECKS[name] = function
        return function

    return put


class Output:
    """A run, what it wrote, and the sheets that are wanted of it."""

    def __init__(self, run: Run) -> None:
        self.run, self.case = run, run.case

    @property
    def options(self) -> list[str]:
        """The words for impose: those before the files."""
        words = self.case.words
        files = [at for at, word in enumerate(words) if word in self.case.documents or word == "-"]
        return words[: min(files)]

    @cached_property
    def sources(self) -> list[Source]:
        found: list[Source] = []
        for number, (name, ranges) in enumerate(self.case.inputs):
            path = self.run.folder.parent / f"source-{number}.pdf"
            path.write_bytes(self.case.documents[name].data)
            found.append(Source.read(path, sum(len(source.taken) for source in found), ranges))
        return found

    @cached_property
    def origin(self) -> list[tuple[Made, int]]:
        """For each page of the joined documents the PDF that it is of, and its number there."""
        made = [self.case.documents[name].made for name, _ in self.case.inputs]
        return [(document, page) for document, source in zip(made, self.sources) for page in source.taken]

    @property
    def sizes(self) -> list[plans.Size]:
        return [
            (round(shape.size[0], 5), round(shape.size[1], 5))
            for source in self.sources
            for shape in map(source.shapes.__getitem__, source.taken)
        ]

    @cached_property
    def sheets(self) -> list[Sheet]:
        return plans.sheets(str(self.run.programs.impose), self.options, self.sizes)

    @cached_property
    def path(self) -> Path:
        """OUTFILE, or standard output in a file."""
        if self.run.out.name != "-":
            return self.run.out
        path = self.run.folder.parent / "output.pdf"
        path.write_bytes(self.run.output)
        return path

    @cached_property
    def pdf(self) -> Pdf:
        return reading.opened(self.path)

    @cached_property
    def own(self) -> set[int]:
        """The sheets that are pages themselves: each alone, where and as large as it is by itself, and there once."""
        if not self.case.inputs or any(self.case.documents[name].image for name, _ in self.case.inputs):
            return set(range(len(self.pdf.pages))) if self.case.words[0] == "select" else set()
        if any(
            word.startswith(NOT_AS_THEY_ARE) or re.match(r"\w+=[\d_]|(.*,)?(registration|bars|slug)\b", word)
            for word in self.case.words
        ):
            return set()
        names = [name for name, _ in self.case.inputs]
        row = [(name, page) for name, source in zip(names, self.sources) for page in source.taken]
        uses = Counter(row[placed.page] for sheet in self.sheets for placed in sheet.pages)
        found = set()
        for at, sheet in enumerate(self.sheets):
            if len(sheet.pages) == 1 and not (sheet.strokes or sheet.numbers or sheet.pages[0].border):
                (placed,) = sheet.pages
                sides = (*sheet.paper, *placed.paper, *placed.matrix), (*self.sizes[placed.page] * 2, *plans.UPRIGHT)
                if uses[row[placed.page]] == 1 and all(abs(a - b) < 1e-4 for a, b in zip(*sides)):
                    found.add(at)
        for source in self.sources:
            source.own = found
        return found

    @cached_property
    def turns(self) -> list[int]:
        return [int(page.obj.get("/Rotate", 0)) % 360 for page in self.pdf.pages]

    @cached_property
    def pictures(self) -> list[pictures.Picture]:
        """The sheets, and pages that are sheets as they are shown, in points."""
        own = self.own if any(self.turns) or any("/UserUnit" in page.obj for page in self.pdf.pages) else set()
        turns = [0 if at in own else turn for at, turn in enumerate(self.turns)]
        units = [float(page.obj.get("/UserUnit", 1)) if at in own else 1 for at, page in enumerate(self.pdf.pages)]
        return pictures.pictures(self.path, turns, units)

    def page_of(self, at: int) -> tuple[Source, int]:
        """The PDF and the number there of a page that is a sheet."""
        (placed,) = self.sheets[at].pages
        found = [(source, page) for source in self.sources if (page := source.page(placed.page)) is not None]
        return found[0]


def differs(what: str, found: object, other: object) -> Iterator[str]:
    if found != other:
        yield f"{what} {found!r}, wanted {other!r}"


# Of every run.


def always(output: Output, is_told: bool) -> Iterator[str]:
    """What each run has to be: without a traceback, and with no file but OUTFILE made or changed."""
    run = output.run
    if "Traceback" in run.error and run.case.setting("traced") is None:
        yield "a traceback: " + run.error.strip().split("\n")[-1]
    after, made = contents(run.folder), {name for name, _ in run.case.outfiles}
    made |= set(run.case.words) if run.status == 0 else set()
    for name in sorted(run.before.keys() | after.keys()):
        if run.before.get(name) != after.get(name) and name not in made and not is_told:
            yield f"{name} is " + ("left" if name not in run.before else "gone" if name not in after else "changed")
    yield from (f"{name} is left in TMPDIR" for name in contents(run.folder.parent / "tmp"))
    if (run.status == 0 or run.case.outfiles) and not (LOOKS | TELLS) & set(run.case.words):
        yield from sound(output)


def sound(output: Output) -> Iterator[str]:
    """A written PDF is right by qpdf, and no page is left over in it."""
    if not output.path.is_file():
        yield "no OUTFILE"
        return
    is_damaged = any(word == "damaged" for word, _, _ in output.case.wanted)
    if not is_damaged and (complaint := reading.complaint(output.path)):
        yield f"qpdf --check: {complaint}"
    if left := reading.left_over(output.pdf):
        yield f"{left} pages left over"
    if not reading.Names(output.pdf).are_sorted:
        yield "names that aren't sorted"
    yield from (
        f"sheet {at + 1}: a link has corners outside of it"
        for at in reading.loose_corners(output.pdf)
        if at not in output.own
    )
    yield from reading.loose_outlines(output.pdf)


@check("repeats")
def _repeats(output: Output, _rest: str, _below: list[str]) -> Iterator[str]:
    """A run in a later second writes the same bytes, with an /ID that isn't the one that qpdf gives every PDF."""
    time.sleep(1.1)
    folder = output.run.folder.parent / "again"
    folder.mkdir()
    again = ran(output.case, output.run.programs, folder).out.read_bytes()
    yield from differs("the bytes of another run are the same:", again == output.run.out.read_bytes(), True)
    yield from differs("qpdf's static /ID is there:", b"31415926535897932384626433832795" in again, False)


# How it ends.


@check("status")
def _status(output: Output, rest: str, _: list[str]) -> Iterator[str]:
    return iter(())  # compared for every case


@check("says")
def _says(output: Output, rest: str, below: list[str]) -> Iterator[str]:
    for text in [rest] * bool(rest) + below:
        if text not in output.run.error:
            yield f"standard error {output.run.error!r} has no {text!r}"


@check("says-not")
def _says_not(output: Output, rest: str, _: list[str]) -> Iterator[str]:
    if rest in output.run.error:
        yield f"standard error {output.run.error!r} has {rest!r}"


@check("silent")
def _silent(output: Output, _rest: str, _below: list[str]) -> Iterator[str]:
    yield from differs("standard error", output.run.error, "")


@check("prints")
def _prints(output: Output, rest: str, below: list[str]) -> Iterator[str]:
    for text in [rest] * bool(rest) + below:
        if text.encode() not in output.run.output:
            yield f"standard output {output.run.output[:200]!r} has no {text!r}"


@check("prints-not")
def _prints_not(output: Output, rest: str, _: list[str]) -> Iterator[str]:
    if rest.encode() in output.run.output:
        yield f"standard output has {rest!r}"


@check("prints-as-impose")
def _prints_as_impose(output: Output, _rest: str, _below: list[str]) -> Iterator[str]:
    """The text of --plan, or another, is impose's own for pages of these sizes."""
    ran = plans.run(str(output.run.programs.impose), output.options, output.sizes)
    yield from differs("standard output", output.run.output.decode(errors="replace"), ran.stdout.decode())


@check("within")
def _within(output: Output, rest: str, _: list[str]) -> Iterator[str]:
    if output.run.seconds > float(rest):
        yield f"{output.run.seconds:.1f} s"


@check("costs")
def _costs(output: Output, rest: str, _: list[str]) -> Iterator[str]:
    """At most so many seconds of processor time, with impose's, and perhaps so many megabytes."""
    for found, most, unit in zip(output.run.cost, rest.split(), ("s", "MB")):
        if found > float(most):
            yield f"{found:.1f} {unit}"


@check("linear")
def _linear(output: Output, _rest: str, _below: list[str]) -> Iterator[str]:
    """Calls of functions grow as the hostile parts of the documents do."""
    found = growth.growth(output.run)
    if not 1.8 < found < 2.5:
        yield f"a step that is twice as large has {found:.2f} times as many calls"


@check("absent")
def _absent(output: Output, rest: str, _: list[str]) -> Iterator[str]:
    if (output.run.folder / rest).exists():
        yield f"there is a file {rest}"


@check("rights")
def _rights(output: Output, rest: str, _: list[str]) -> Iterator[str]:
    name, mode = rest.split()
    yield from differs(f"rights of {name}", oct((output.run.folder / name).stat().st_mode & 0o777)[2:], mode)


@check("is-link")
def _is_link(output: Output, rest: str, _: list[str]) -> Iterator[str]:
    if not (output.run.folder / rest).is_symlink():
        yield f"{rest} is no link"


@check("changes")
def _changes(output: Output, rest: str, _: list[str]) -> Iterator[str]:
    """That a file was replaced; `always` leaves it out then."""
    if contents(output.run.folder).get(rest) == output.run.before.get(rest):
        yield f"{rest} is as it was"


@check("outfile")
def _outfile(output: Output, rest: str, _: list[str]) -> Iterator[str]:
    """`outfile NAME of INFILE`: that OUTFILE is there; all else is wanted of the first of several."""
    name = rest.split(" of ")[0]
    if not (output.run.folder / name).is_file():
        yield f"there is no {name}"


# Where pages are.


@check("laid")
def _laid(output: Output, _rest: str, _below: list[str]) -> Iterator[str]:
    """Each page is seen where impose puts it, and nowhere else; papers, marks and numbers too."""
    yield from differs("number of sheets", len(output.pdf.pages), len(output.sheets))
    for at, (sheet, page) in enumerate(zip(output.sheets, output.pdf.pages), 1):
        if at - 1 in output.own:
            yield from (f"sheet {at}: {fault}" for fault in unlike(page.obj, *output.page_of(at - 1)))
            continue
        sides = [round(float(side), 2) for side in page.mediabox]
        yield from differs(
            f"sheet {at} has the MediaBox", sides, [0, 0, round(sheet.paper[0], 2), round(sheet.paper[1], 2)]
        )
    for at, (sheet, picture) in enumerate(zip(output.sheets, output.pictures), 1):
        yield from (f"sheet {at}: {fault}" for fault in pictures.faults(sheet, picture, output.origin)[:4])
    yield from numbered(output)


def unlike(found: Any, source: Source, number: int) -> Iterator[str]:
    """What of a page that is a sheet isn't as it was."""
    old = source.pdf.pages[number].obj
    for key in ("/MediaBox", "/CropBox", "/TrimBox", "/Rotate", "/UserUnit"):
        one, other = found.get(key), wanted.entry(old, key)
        yield from differs(
            key,
            one and one.unparse() if hasattr(one, "unparse") else one,
            other and other.unparse() if hasattr(other, "unparse") else other,
        )


def numbered(output: Output) -> Iterator[str]:
    """Numbers stand within half of their size of the middle that is wanted."""
    if not any(sheet.numbers for sheet in output.sheets):
        return
    ran = subprocess.run(["pdftotext", "-bbox", output.path, "-"], capture_output=True, text=True, timeout=300)
    word = re.compile(r'<word xMin="([\d.-]+)" yMin="([\d.-]+)" xMax="([\d.-]+)" yMax="([\d.-]+)">(\d+)</word>')
    for at, (sheet, text) in enumerate(zip(output.sheets, ran.stdout.split("<page ")[1:]), 1):
        turn, (width, height) = output.turns[at - 1], sheet.paper
        seen = []
        for left, top, right, bottom, digits in word.findall(text):
            x, y = (float(left) + float(right)) / 2, (float(top) + float(bottom)) / 2
            place = {0: (x, height - y), 90: (y, x), 180: (width - x, y), 270: (width - y, height - x)}[turn]
            seen.append((digits, *place))
        for number in sheet.numbers:
            if not any(
                digits == number.text and abs(x - number.x) + abs(y - number.y) < number.size for digits, x, y in seen
            ):
                yield f"sheet {at}: no number {number.text} at {number.x:.1f} {number.y:.1f}: {seen}"


@check("sheets")
def _sheets(output: Output, rest: str, _: list[str]) -> Iterator[str]:
    yield from differs("sheets", len(output.pdf.pages), int(rest))


@check("paper")
def _paper(output: Output, rest: str, below: list[str]) -> Iterator[str]:
    """The papers of all sheets, or of each; of pages that are sheets, what is seen."""
    sizes = [(float(page.mediabox[2]), float(page.mediabox[3])) for page in output.pdf.pages]
    for at in output.own:
        sizes[at] = wanted.shape(output.pdf.pages[at].obj).size
    found = [f"{width:g}x{height:g}" for width, height in sizes]
    yield from differs("papers", found, below or [rest] * len(found))


@check("place")
def _place(output: Output, rest: str, below: list[str]) -> Iterator[str]:
    """`place SHEET PAGE A B C D E F`: the page is seen there, by this matrix of the page as it is shown."""
    for line in [rest] * bool(rest) + below:
        sheet, page, *matrix = line.split()
        made, number = output.origin[int(page) - 1]
        values = tuple(float(value) for value in matrix)
        placed = plans.Placed(int(page) - 1, values, made.shapes[number].size)  # type: ignore[arg-type]
        if int(sheet) > len(output.pictures):
            yield f"no sheet {sheet}"
            continue
        picture = output.pictures[int(sheet) - 1]
        laid = plans.Sheet(
            (picture.width, picture.height) if picture.turn % 180 == 0 else (picture.height, picture.width)
        )
        for square in pictures.squares(placed, made, number)[:4]:
            if pictures.is_on(laid, *square.middle) and not pictures.near(picture.at(*square.middle), square.colour):
                yield f"sheet {sheet}: {square.name} isn't at {square.middle[0]:.1f} {square.middle[1]:.1f}"


@check("box")
def _box(output: Output, rest: str, _: list[str]) -> Iterator[str]:
    """`box SHEET KEY LEFT BOTTOM RIGHT TOP`: a box of a sheet."""
    sheet, key, *sides = rest.split()
    found = [round(float(side), 2) for side in output.pdf.pages[int(sheet) - 1].obj.get(key, [])]
    yield from differs(key, found, [float(side) for side in sides])


@check("turned")
def _turned(output: Output, rest: str, _: list[str]) -> Iterator[str]:
    """/Rotate of all sheets, or of each."""
    values = [int(value) for value in rest.split()]
    yield from differs("/Rotate", output.turns, values * len(output.turns) if len(values) == 1 else values)


@check("unit")
def _unit(output: Output, rest: str, _: list[str]) -> Iterator[str]:
    """/UserUnit of all sheets."""
    found = [str(page.obj.get("/UserUnit", 1)) for page in output.pdf.pages]
    yield from differs("/UserUnit", found, [rest] * len(found))


@check("point")
def _point(output: Output, rest: str, below: list[str]) -> Iterator[str]:
    """`point SHEET X Y R G B`: the colour at a point of the paper."""
    for line in [rest] * bool(rest) + below:
        sheet, x, y, *colour = line.split()
        wants = tuple(int(part) for part in colour)
        seen = output.pictures[int(sheet) - 1].at(float(x), float(y))
        if not all(abs(a - b) <= 3 for a, b in zip(seen, wants)):
            yield f"sheet {sheet} at {x} {y} is {seen}, wanted {wants}"


@check("plates")
def _plates(output: Output, rest: str, below: list[str]) -> Iterator[str]:
    """`plates SHEET X Y CYAN MAGENTA YELLOW BLACK`: inks of Ghostscript at a point of the paper, in percent."""
    folder = output.run.folder.parent / "plates"
    folder.mkdir(exist_ok=True)
    words = ["gs", "-q", "-dSAFER", "-dBATCH", "-dNOPAUSE", "-r72", "-sDEVICE=tiffsep", f"-o{folder}/%d.tif"]
    subprocess.run([*words, str(output.path)], capture_output=True, timeout=120)
    for line in [rest] * bool(rest) + below:
        sheet, x, y, *wants = line.split()
        found = []
        for ink in ("Cyan", "Magenta", "Yellow", "Black"):
            with Image.open(folder / f"{sheet}({ink}).tif") as plate:
                across, up = float(x), float(y)
                if output.turns[int(sheet) - 1] == 90:
                    across, up = up, plate.height - across
                seen = plate.convert("L").getpixel((int(across), int(plate.height - up)))
            found.append(str(round(100 - int(seen) / 2.55)))
        yield from differs(f"inks at {x} {y}", found, wants)


# What is kept.


@check("kept")
def _kept(output: Output, rest: str, _: list[str]) -> Iterator[str]:
    """Words, fonts, links, outlines of the pages, on their sheets; `kept 99` for 99 % of the words."""
    for name in ("words", "fonts", "links", "outlines"):
        yield from CHECKS[name](output, rest if name == "words" else "", [])


@check("words")
def _words(output: Output, rest: str, below: list[str]) -> Iterator[str]:
    """Each sheet's words are those of its pages, or those of the lines below."""
    found = reading.words(output.path)
    if below:
        yield from differs(
            "words",
            [" ".join(sorted(words.elements())) for words in found],
            [" ".join(sorted(line.split())) for line in below],
        )
    else:
        yield from wanted.word_faults(found, output.sources, output.sheets, float(rest or 100) / 100)


@check("word")
def _word(output: Output, rest: str, below: list[str]) -> Iterator[str]:
    """`word SHEET WORD LEFT BOTTOM RIGHT TOP`: the word is all within this box, give or take a point."""
    for line in [rest] * bool(rest) + below:
        sheet, word, *box = line.split()
        left, bottom, right, top = (float(side) for side in box)
        places = reading.places(output.path, int(sheet), word)
        if not any(left - 1 <= a and bottom - 1 <= b and c <= right + 1 and d <= top + 1 for a, b, c, d in places):
            yield f"sheet {sheet}: {word} isn't within {' '.join(box)}: {places}"


@check("fonts")
def _fonts(output: Output, rest: str, _below: list[str]) -> Iterator[str]:
    """The fonts are those of the pages, or have these names."""
    if rest:
        yield from differs("fonts", sorted({name for name, _ in reading.fonts(output.path)}), rest.split())
        return
    wants: set[tuple[str, str]] = set().union(*(reading.fonts(source.path) for source in output.sources))
    if any(sheet.numbers for sheet in output.sheets):
        wants.add(("[none]", "Type 3"))
    found = reading.fonts(output.path)
    if any(reading.catalog(source.pdf, "/AcroForm/NeedAppearances") for source in output.sources):
        found -= OF_FIELDS - wants
    yield from differs("fonts", sorted(found), sorted(wants))


@check("links")
def _links(output: Output, _rest: str, below: list[str]) -> Iterator[str]:
    """Each link is at its place, and leads to its own: below `SHEET L B R T to SHEET X Y`, or `.. uri ADDRESS`."""
    if below:
        wants = [link_of(line) for line in below if line != "none"]
    else:
        wants = [link for source in output.sources if output.own is not None for link in source.links(output.sheets)]
    yield from wanted.link_faults(reading.links(output.pdf), wants)[:6]


def link_of(line: str) -> reading.Link:
    sheet, left, bottom, right, top, how, *rest = line.split()
    box, goal = tuple(float(side) for side in (left, bottom, right, top)), " ".join(rest)
    return reading.Link(int(sheet) - 1, box, goal_of(goal) if how == "to" else goal)


def goal_of(text: str) -> Goal:
    sheet, *values = text.split()
    kind = values.pop(0) if values and values[0].isalpha() else "XYZ" if values else "Fit"
    return Goal(int(sheet) - 1, kind, tuple(float(value) for value in values))


@check("outlines")
def _outlines(output: Output, _rest: str, below: list[str]) -> Iterator[str]:
    """Each outline leads to its place; below as `LEVEL TITLE to SHEET X Y`, or without the place."""
    if below:
        wants: list[wanted.Item] = []
        for line in below:
            head, _, goal = line.partition(" to ")
            depth, title = head.split(" ", 1)
            wants.append((int(depth), title, goal_of(goal) if goal else None))
    else:
        wants = []
        for source in output.sources if output.own is not None else []:
            for level, title, place in reading.outlines(source.pdf):
                wants.append((level, title, source.goal(place, output.sheets) if isinstance(place, Goal) else place))
    yield from wanted.outline_faults(reading.outlines(output.pdf), wants)


@check("opens")
def _opens(output: Output, rest: str, _: list[str]) -> Iterator[str]:
    """Where it opens: `opens SHEET X Y`, `opens SHEET`, or `opens nowhere`."""
    found, place = reading.opening(output.pdf), None if rest == "nowhere" else goal_of(rest)
    if not wanted.matches(found, place):
        yield f"opens at {found}, wanted {place}"


@check("labels")
def _labels(output: Output, _rest: str, below: list[str]) -> Iterator[str]:
    yield from differs("labels", reading.labels(output.pdf), below)


@check("actions")
def _actions(output: Output, _rest: str, below: list[str]) -> Iterator[str]:
    """What each link does, one action after another, as `URI, GoTo 3`."""
    yield from differs("actions", reading.actions(output.pdf), below)


@check("damaged")
def _damaged(output: Output, _rest: str, _below: list[str]) -> Iterator[str]:
    """A stream in it can't be decoded, as before, so `qpdf --check` isn't asked."""
    return iter(())


@check("plain")
def _plain(output: Output, _rest: str, _below: list[str]) -> Iterator[str]:
    """OUTFILE isn't encrypted."""
    if output.pdf.is_encrypted:
        yield "it is encrypted"


@check("has")
def _has(output: Output, rest: str, _below: list[str]) -> Iterator[str]:
    """`has /KEY/KEY [VALUE]`: an entry of the catalog."""
    path, _, value = rest.partition(" ")
    found = reading.catalog(output.pdf, path)
    if found is None or value and value not in (str(found), str(found).lstrip("/")):
        yield f"{path} is {found}, wanted {value or 'one'}"


@check("lacks")
def _lacks(output: Output, rest: str, _: list[str]) -> Iterator[str]:
    yield from (f"there is {path}" for path in rest.split() if reading.catalog(output.pdf, path) is not None)


@check("fields")
def _fields(output: Output, _rest: str, below: list[str]) -> Iterator[str]:
    """The names and values of fields that can be filled in, as `name value`; of a group, how many places it has."""
    found = []
    for field in reading.catalog(output.pdf, "/AcroForm/Fields") or []:
        value = len(field.Kids) if "/Kids" in field else field.get("/V", "")
        found.append(f"{field.T} {value}".strip())
    yield from differs("fields", found, below)


def on_page(output: Output, rest: str) -> Iterator[tuple[str, bool]]:
    """Entries of a page, as `2 /Trans`, and whether each is there; numbers are of arrays."""
    number, *paths = rest.split()
    for path in paths:
        found: Any = output.pdf.pages[int(number) - 1].obj
        for key in path.strip("/").split("/"):
            found = found and (found[int(key)] if key.isdigit() else found.get("/" + key))
        yield path, found is not None


@check("on-page")
def _on_page(output: Output, rest: str, _: list[str]) -> Iterator[str]:
    yield from (f"there is no {path}" for path, is_there in on_page(output, rest) if not is_there)


@check("not-on-page")
def _not_on_page(output: Output, rest: str, _: list[str]) -> Iterator[str]:
    yield from (f"there is {path}" for path, is_there in on_page(output, rest) if is_there)


@check("annotations")
def _annotations(output: Output, rest: str, _: list[str]) -> Iterator[str]:
    """The kinds of all annotations that are left, as `Link 2`."""
    found = Counter(
        str(one.Subtype)[1:]
        for page in output.pdf.pages
        for one in page.obj.get("/Annots", [])
        if isinstance(one, Dictionary)
    )
    yield from differs("annotations", " ".join(f"{kind} {many}" for kind, many in sorted(found.items())), rest)


@check("attached")
def _attached(output: Output, rest: str, _below: list[str]) -> Iterator[str]:
    name, _, text = rest.partition(" ")
    files = output.pdf.attachments
    held = files[name].get_file().read_bytes().decode() if name in files else None
    yield from differs(f"the file {name}", held, text)


@check("layers")
def _layers(output: Output, rest: str, _below: list[str]) -> Iterator[str]:
    """The names of the layers that a viewer lists."""
    listed = reading.catalog(output.pdf, "/OCProperties/D/Order")
    yield from differs("layers", [str(group.Name) for group in listed or []], rest.split())


@check("title")
def _title(output: Output, rest: str, _: list[str]) -> Iterator[str]:
    yield from differs("/Title", str(output.pdf.docinfo.get("/Title", "")), rest)
    with output.pdf.open_metadata() as meta:
        yield from differs("dc:title", str(meta.get("dc:title", rest)), rest)


@check("xmp")
def _xmp(output: Output, _rest: str, below: list[str]) -> Iterator[str]:
    """Entries of XMP below, as `pdfaid:part 2`, and of /Info, as `/Trapped True`; one without a value isn't there."""
    with output.pdf.open_metadata(set_pikepdf_as_editor=False, update_docinfo=False) as meta:
        for line in below:
            key, _, value = line.partition(" ")
            prefix, _, name = key.partition(":")
            found = meta.get(f"{{{NAMESPACES[prefix]}}}{name}") if name else output.pdf.docinfo.get(key)
            yield from differs(key, None if found is None else str(found), value or None)


@check("embedded")
def _embedded(output: Output, _rest: str, _below: list[str]) -> Iterator[str]:
    """All fonts are in OUTFILE, but Helvetica, of which the words of pages are."""
    ran = subprocess.run(["pdffonts", output.path], capture_output=True, text=True, timeout=300)
    fonts = [line for line in ran.stdout.split("\n")[2:] if line and line[:10] != "Helvetica "]
    yield from (f"{line} isn't embedded" for line in fonts if line.split()[-5] != "yes")
    if not fonts:
        yield "no fonts besides Helvetica"


@check("forms")
def _forms(output: Output, rest: str, _below: list[str]) -> Iterator[str]:
    """How many forms OUTFILE has: those that pages became, and those that these draw."""
    found = [one for one in output.pdf.objects if isinstance(one, Stream) and one.get("/Subtype") == Name.Form]
    yield from differs("forms", len(found), int(rest))


@check("streams")
def _streams(output: Output, _rest: str, _below: list[str]) -> Iterator[str]:
    """Each page's content is there byte for byte, if it is one stream."""
    held = {
        one.read_raw_bytes()
        for one in output.pdf.objects
        if isinstance(one, Stream) and one.get("/Subtype") == Name.Form
    }
    held |= {page.obj.Contents.read_raw_bytes() for page in output.pdf.pages if "/Contents" in page.obj}
    for source in output.sources:
        for at, page in enumerate(source.pdf.pages, 1):
            if isinstance(page.obj.Contents, Stream) and page.obj.Contents.read_raw_bytes() not in held:
                yield f"the content of page {at} isn't there as it was"


def faults(run: Run) -> list[str]:
    """All faults of a run."""
    output, found = Output(run), list[str]()
    status = next((int(rest) for word, rest, _ in run.case.wanted if word == "status"), 0)
    found += differs("status", run.status, status)
    if found:
        return [*found, f"standard error {run.error[-300:]!r}"]
    is_told = any(word == "changes" for word, _, _ in run.case.wanted)
    found += always(output, is_told)
    for word, rest, below in run.case.wanted:
        if word not in CHECKS:
            found.append(f"'{word}' is no word for what is wanted")
            continue
        try:
            found += [f"{word}: {fault}" for fault in CHECKS[word](output, rest, below)]
        except Exception as fault:  # noqa: BLE001: as a fault of this case
            found.append(f"{word}: {type(fault).__name__} {fault}")
    return found
