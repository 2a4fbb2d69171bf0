"""Words on pages and across them, and a page of another PDF under or over each."""

import os
import re
import time
import unicodedata
from collections.abc import Iterator
from dataclasses import dataclass, field
from functools import partial
from math import hypot

from pikepdf import Dictionary

from impose_pdf.deep import deeply
from impose_pdf.document import Source
from impose_pdf.lettering import Lettering
from impose_pdf.losses import LINK
from impose_pdf.making import Making
from impose_pdf.pages import moved, numerals
from impose_pdf.plan import Number, Placed, Sheet, Size
from impose_pdf.sheets import SIDES
from impose_pdf.words import Request, refusal, shown

PLACES = "foot", "head", "outer-foot", "inner-foot", "centre"
VALUES = "page", "pages", "label", "sheet", "file", "date"
NUMBERED = {"nup", "booklet", "cards", "stack", "notes", "select"}  # commands that take --numbers
LONGEST, MOST = 200, 20  # signs of a text, and texts
QUARTERS = {"left": 1, "half": 2, "right": 3}  # to the left, of all pages
SIZE, ROOM = 9, 18  # points: of letters, and from them to the edge
HIGH = 0.72  # sizes: a capital letter
OPENED: dict[tuple[str, str], Source] = {}  # files that are under and over the pages of all INFILEs
FAINT = 0.3  # how much of a stamp is seen over what is below it


@dataclass
class Spot:
    """A page on a sheet: its middle, the way of its lines, half its width and half its cell's height, and its place."""

    middle: Size
    way: Size
    wide: float
    high: float
    place: int

    def point(self, along: float, up: float) -> Size:
        """A point of the sheet, so far along the lines from the middle, and up."""
        (x, y), (cos, sin) = self.middle, self.way
        return x + cos * along - sin * up, y + sin * along + cos * up


def spot(placed: Placed, number: Number | None, turn: str) -> Spot:
    """Where a page is, by its number's place if it has one: that stands so far above the foot of its cell.

    A page that --turn turns has its lines as its number is: along the foot that it has then."""
    (width, height), (a, b, *_) = placed.paper, placed.matrix
    scale, middle = hypot(a, b), moved(width / 2, height / 2, placed.matrix)
    found = Spot(middle, (a / scale, b / scale), scale * width / 2, scale * height / 2, placed.page + 1)
    for _ in range(QUARTERS.get(turn, turn == "wide" and width > height)):
        found.way, found.wide, found.high = (found.way[1], -found.way[0]), found.high, found.wide
    if number:
        cos, sin = SIDES[number.degrees]
        x = number.origin[0] + cos * number.foot[0] - sin * number.foot[1] - middle[0]
        y = number.origin[1] + sin * number.foot[0] + cos * number.foot[1] - middle[1]
        found.high, found.place = ROOM + found.way[1] * x - found.way[0] * y, int(number.digits)
    return found


Written = tuple[Spot, str, str]


@dataclass
class Stamps:
    """The words of a request, and the files whose first pages are under and over pages."""

    request: Request
    texts: list[tuple[str, str]] = field(default_factory=list)
    stamp: str = ""
    files: dict[str, Source] = field(default_factory=dict)

    def __post_init__(self) -> None:
        own = self.request.own
        self.texts = [self.parted(word) for word in own.get("--text", [])]
        self.stamp = checked("--stamp", own["--stamp"][-1]) if "--stamp" in own else ""
        if len(self.texts) > MOST:
            raise refusal(2, f"there are more than {MOST} --text")
        for option in (option for option in ("--under", "--over") if option in own):
            if (name := own[option][-1]) in ("", "-"):
                raise refusal(2, f"{option} names a file, and not standard input")
            if (option, name) not in OPENED:
                OPENED[option, name] = Source(name)
            self.files[option] = OPENED[option, name]
            self.files[option].size(0)

    def parted(self, word: str) -> tuple[str, str]:
        """The place and the words of a text."""
        place, sign, words = word.partition(":")
        if place not in PLACES or not sign:
            raise refusal(2, f"--text wants {', '.join(PLACES)} and words, as foot:DRAFT, and got {shown(word)}")
        for name in re.findall(r"{(.*?)}", words):
            if name not in VALUES:
                known = ", ".join(f"{{{value}}}" for value in VALUES)
                raise refusal(2, f"--text fills in {known}, and not {{{name}}}")
        return place, checked("--text", words)

    @property
    def more(self) -> list[str]:
        """The option by which impose says where the feet of cells are, if it has to be asked."""
        is_needed = self.texts and self.request.command in NUMBERED and "--numbers" not in self.request.options
        return ["--numbers", f"{SIZE}pt"] if is_needed else []

    def put(self, making: Making, sheets: list[Sheet]) -> None:
        """Puts all of it on sheets."""
        spots = [self.spots(sheet) for sheet in sheets]
        if self.more:
            for sheet in sheets:
                sheet.numbers = []
        most = max((one.place for each in spots for one in each), default=0)
        written = [
            list(self.written(making, sheet, each, at, most)) for at, (sheet, each) in enumerate(zip(sheets, spots), 1)
        ]
        letters = {words for each in written for _, _, words in each} | {self.stamp} - {""}
        if letters:
            lettering = Lettering(making.pdf, letters)
            making.added["/Font"] = {"/Words": lettering.font.held}
        for sheet, each in zip(sheets, written):
            lines = [self.line(lettering, *one) for one in each]
            sheet.over = "\n".join(["0 g", *lines]) if lines else ""
        self.cover(making, sheets)
        if self.stamp:
            making.added["/ExtGState"] = {"/Faint": Dictionary(ca=FAINT)}
            for placed in (placed for sheet in sheets for placed in sheet.placed):
                placed.over += self.across(lettering, making.row[placed.page])

    def spots(self, sheet: Sheet) -> list[Spot]:
        """Where the pages of a sheet are."""
        has_all = len(sheet.numbers) == len(sheet.placed)
        numbers: list[Number | None] = [*sheet.numbers] if has_all else [None] * len(sheet.placed)
        turn = self.request.options.get("--turn", "")
        return [spot(placed, number, turn) for placed, number in zip(sheet.placed, numbers)]

    def written(self, making: Making, sheet: Sheet, spots: list[Spot], at: int, most: int) -> Iterator[Written]:
        """The texts on a sheet of this number: where each is, and its words with what is filled in."""
        for placed, here in zip(sheet.placed, spots) if self.texts else ():
            source, k = making.row[placed.page]
            values = {
                "page": here.place,
                "pages": most,
                "label": source.labels.texts[k],
                "sheet": at,
                "file": os.path.basename(source.name) if source.name != "-" else "standard input",
                "date": today(),
            }
            for place, words in self.texts:
                filled = re.sub(r"{(\w+)}", lambda found: str(values[found[1]]), words)
                yield here, place, unicodedata.normalize("NFC", filled)

    def line(self, lettering: Lettering, here: Spot, place: str, words: str) -> str:
        """A text at its place."""
        is_at_edge, wide = place in ("outer-foot", "inner-foot"), lettering.width(words)
        size = min(SIZE, max(2 * here.wide - 2 * ROOM * is_at_edge, ROOM) / (wide or 1))  # less than a page is wide
        wide *= size
        first = int(self.request.options.get("--numbers-from", "1"))
        is_right = ((here.place - first) % 2 == 0) != ("--rtl" in self.request.options)
        along = -wide / 2
        if is_at_edge:
            along = here.wide - ROOM - wide if is_right == (place == "outer-foot") else ROOM - here.wide
        ups = {"head": here.high - ROOM - HIGH * size, "centre": -HIGH * size / 2}
        return lettering.shown(words, size, here.way, here.point(along, ups.get(place, ROOM - here.high)))

    def cover(self, making: Making, sheets: list[Sheet]) -> None:
        """Puts the first page of files under and over pages, as large as these."""
        for option, source in self.files.items():
            source.prepare(making.pdf)
            making.others.append(source)
            name, (width, height) = f"/{option[2:].capitalize()}", source.size(0)
            making.added.setdefault("/XObject", {})[name] = deeply(partial(source.form, 0))
            source.losses.found[LINK] = len(source.on[0].links)
            for placed in (placed for sheet in sheets for placed in sheet.placed):
                of_page, k = making.row[placed.page]
                wide, high = of_page.shapes[k].size
                scale = min(wide / width, high / height)
                at = numerals(scale, 0, 0, scale, (wide - scale * width) / 2, (high - scale * height) / 2)
                drawn = f"q {at} cm {name} Do Q "
                if option == "--under":
                    placed.under = drawn
                else:
                    placed.over = drawn

    def across(self, lettering: Lettering, page: tuple[Source, int]) -> str:
        """What shows the stamp from one corner of a page to the other."""
        source, k = page
        wide, high = source.shapes[k].size
        long, words = hypot(wide, high), lettering.width(self.stamp) or 1
        size, way = min(0.7 * long / words, min(wide, high) / 3), (wide / long, high / long)
        here = Spot((wide / 2, high / 2), way, 0, 0, 0)
        at = here.point(-words * size / 2, -HIGH * size / 2)
        return f"q /Faint gs .5 g {lettering.shown(self.stamp, size, way, at)} Q "


def checked(option: str, words: str) -> str:
    """Words that aren't too long, and show something."""
    if not words.strip() or len(words) > LONGEST:
        raise refusal(2, f"{option} wants words of 1 to {LONGEST} signs")
    return unicodedata.normalize("NFC", words)


def today() -> str:
    """The date, or the one that builds take for it."""
    given = os.environ.get("SOURCE_DATE_EPOCH", "")
    seconds = int(given) if re.fullmatch(r"\d{1,11}", given) else time.time()
    return time.strftime("%Y-%m-%d", time.gmtime(seconds) if given else time.localtime(seconds))
