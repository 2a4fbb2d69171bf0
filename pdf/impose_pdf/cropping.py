"""Pages without what is empty around them: Ghostscript tells what is drawn."""

import re
import shutil
import subprocess
import tempfile
from dataclasses import replace
from math import ceil, floor
from typing import IO, Any

from pikepdf import Array, Dictionary, Name, ObjectStreamMode, StreamDecodeLevel

from impose_pdf import notes
from impose_pdf.boxes import inverse, length
from impose_pdf.document import LEAST, Source
from impose_pdf.faults import OF_OBJECTS, blaming
from impose_pdf.pages import Box, array, bounds, common, got, number_of, then
from impose_pdf.words import Request, cause_of, refusal, shown

Page = tuple[Source, int]
FOUND = re.compile(rb"%%HiResBoundingBox: (-?[\d.]{1,20}) (-?[\d.]{1,20}) (-?[\d.]{1,20}) (-?[\d.]{1,20})\r?\n")
MOST_SAID, SECONDS, SECONDS_OF_PAGE = 1 << 20, 60, 5  # bytes besides boxes, and how long it may take
OF_PAGE = 200  # bytes of a page's boxes
NOISE = 0.02  # points by which boxes are too large
SEEN = "/Contents", "/Resources", "/Annots", "/Group"
LEAVES = {"booklet"}  # commands whose odd and even pages are on two sides of leaves


class Cropping:
    """How pages are cropped: each by itself, or all alike, and with which margin."""

    def __init__(self, request: Request):
        words = [word for word in request.own["--crop"][-1].split(",") if word]
        self.is_same, self.in_leaves = words[:1] == ["same"], request.command in LEAVES
        first = int(self.is_same)
        rest = words[first:]
        if len(rest) > 1:
            raise refusal(2, "--crop takes same and a margin, as --crop same,5mm")
        self.margin = length("--crop", rest[0]) if rest else 0.0
        if "--bleed" in request.own:
            raise refusal(2, "--bleed and --crop both say where a page ends: leave one of them out")
        self.program = shutil.which("gs")
        if not self.program:
            raise refusal(3, "--crop needs Ghostscript: install ghostscript")

    def crop(self, row: list[Page]) -> None:
        """Crops the pages of a row."""
        places: dict[Page, int] = {}
        for at, page in enumerate(row):
            places.setdefault(page, at)
        drawn: dict[Page, Box] = {}
        for source in dict.fromkeys(source for source, _ in row):
            pages = [k for of, k in places if of is source]
            drawn |= {(source, k): box for k, box in zip(pages, self.drawn(source, pages)) if box[0] < box[2]}
        if self.is_same:
            sides = {page: at % 2 if self.in_leaves else 0 for page, at in places.items()}
            for side in set(sides.values()):
                boxes = [box for page, box in drawn.items() if sides[page] == side]
                drawn |= {page: around(boxes) for page in places if sides[page] == side} if boxes else {}
        for (source, k), box in drawn.items():
            self.cut(source, k, box)

    def cut(self, source: Source, k: int, box: Box) -> None:
        """Makes a part of a page, as it is shown, the page."""
        shape = source.shapes[k]
        wide = max(self.margin, (LEAST - box[2] + box[0]) / 2), max(self.margin, (LEAST - box[3] + box[1]) / 2)
        larger = box[0] - wide[0], box[1] - wide[1], box[2] + wide[0], box[3] + wide[1]
        part = common(larger, (0, 0, *shape.size))
        if part and part[2] - part[0] >= LEAST and part[3] - part[1] >= LEAST:
            inner = bounds(part, inverse(shape.matrix))
            size = round(part[2] - part[0], 5), round(part[3] - part[1], 5)
            matrix = then(shape.matrix, (1, 0, 0, 1, -part[0], -part[1]))
            source.shapes[k] = replace(shape, box=inner, drawn=inner, matrix=matrix, size=size)

    def drawn(self, source: Source, pages: list[int]) -> list[Box]:
        """What is drawn of pages, as they are shown; of an empty one a box without a width."""
        with tempfile.NamedTemporaryFile(suffix=".pdf") as file, tempfile.TemporaryFile() as said:
            with blaming([source.name], *OF_OBJECTS):
                save_pages(source, file, pages)
            words = "-q -dSAFER -dBATCH -dNOPAUSE -dUseCropBox -sDEVICE=bbox".split()
            most = SECONDS + SECONDS_OF_PAGE * len(pages)
            try:
                assert self.program
                run = [self.program, *words, file.name]
                subprocess.run(run, stdin=subprocess.DEVNULL, stdout=said, stderr=said, timeout=most)
            except subprocess.TimeoutExpired:
                raise refusal(1, f"{shown(source.name)} takes Ghostscript more than {most} seconds") from None
            except OSError as error:
                raise refusal(3, f"cannot run {shown(self.program or 'gs')}: {cause_of(error)}") from None
            said.seek(0)
            found = FOUND.findall(said.read(MOST_SAID + OF_PAGE * len(pages)))
        if len(found) != len(pages):
            raise refusal(1, f"Ghostscript draws {len(found)} of {len(pages)} pages of {shown(source.name)}")
        return [whole(sides) for sides in found]


def whole(sides: tuple[bytes, ...]) -> Box:
    """A box in tenths of a point, as small as it may be."""
    left, bottom = (floor((float(side) + NOISE) * 10) / 10 for side in sides[:2])
    right, top = (ceil((float(side) - NOISE) * 10) / 10 for side in sides[2:])
    return left, bottom, right, top


def around(boxes: list[Box]) -> Box:
    """The box round boxes."""
    lefts, bottoms, rights, tops = zip(*boxes)
    return min(lefts), min(bottoms), max(rights), max(tops)


def save_pages(source: Source, file: IO[bytes], pages: list[int]) -> None:
    """Writes a PDF of some pages, each with the box that is seen of it."""
    old = source.root.get("/Pages")
    tree = source.pdf.make_indirect(Dictionary(Type=Name.Pages, Count=len(pages)))
    tree.Kids = Array([copied(source, k, tree) for k in pages])
    source.root.Pages = tree
    source.pdf.save(
        file,
        object_stream_mode=ObjectStreamMode.disable,
        compress_streams=False,
        stream_decode_level=StreamDecodeLevel.none,
        encryption=False,
        static_id=True,
    )
    file.flush()
    source.root.Pages = old


def copied(source: Source, k: int, tree: Any) -> Any:
    """A page below another tree."""
    page, entries = source.pages[k]
    if others := notes.split(page)[1]:
        source.give_looks(page, others)
    box = array(*source.shapes[k].box)
    made = Dictionary(Type=Name.Page, Parent=tree, MediaBox=box, CropBox=box)
    for key in SEEN:
        if (value := entries.get(key, page.get(key))) is not None:
            made[key] = value
    turn, unit = number_of(entries.get("/Rotate"), 0) % 360, number_of(got(page, "/UserUnit"), 1)
    made.Rotate, made.UserUnit = int(turn) if turn in (90, 180, 270) else 0, unit if unit > 0 else 1
    return source.pdf.make_indirect(made)
