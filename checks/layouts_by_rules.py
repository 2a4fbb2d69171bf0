"""The sheets of impose by docs/RULES.md, 11 to 16, by arithmetic of its own, for `checks/geometry`.

Lengths are exact fractions of u = 10^-5 pt. Where the rules leave a point open, the program's way is taken. The code
says `open` there. These points are:
- the slots of a zine are written in the order of the picture;
- a fold's gap with `inner` on both sides is wider by one u with a trim;
- a booklet's sheet is compared with upright pages that have the gap across between them, and no `inner`;
- strokes begin at margins that a trim doesn't make wider;
- pages of posters, and all papers of selections, may have sides of 100,000 points or more;
- in a selection, blanks have the paper of the first kind whose widest paper is near to the cells' paper.
"""

from __future__ import annotations

from collections.abc import Callable, Iterator
from dataclasses import dataclass, field
from fractions import Fraction
from math import ceil, floor

U = 100_000
UNITS = {"pt": Fraction(U), "in": Fraction(72 * U), "cm": Fraction(7200 * U, 254), "mm": Fraction(720 * U, 254)}
NEAR = 15 * U
TOO_LONG = 100_000 * U
EDGES = ("top", "right", "bottom", "left")
Paper = tuple[Fraction, Fraction]
Box = tuple[Fraction, Fraction, Fraction, Fraction]

NAMED = """a0 2384 3370, a1 1684 2384, a2 1191 1684, a3 842 1191, a4 595 842, a5 420 595, a6 298 420, a7 210 298,
b0 2835 4008, b1 2004 2835, b2 1417 2004, b3 1001 1417, b4 709 1001, b5 499 709, b6 354 499, c4 649 918, c5 459 649,
c6 323 459, dl 312 624, ra3 865 1219, ra4 609 865, sra3 907 1276, sra4 638 907, jisb4 729 1032, jisb5 516 729,
letter 612 792, legal 612 1008, tabloid 792 1224, ledger 1224 792, statement 396 612, executive 522 756, folio 612 936,
quarto 610 780, 10x14 720 1008"""
PAPERS: dict[str, Paper] = {
    name: (Fraction(width) * U, Fraction(height) * U) for name, width, height in map(str.split, NAMED.split(","))
}


class Refused(Exception):
    """That a run is refused, with the kind of the reason."""


@dataclass
class Options:
    """The words of a command line, and what they mean. A place from the document's end is below 0."""

    layout: str
    words: list[str] = field(default_factory=list)
    count: int = 0
    skip: int = 0  # used cells of the first sheet
    grid: tuple[int, int] | None = None
    size: Paper | Fraction | None = None  # of a poster: a paper or a scale
    flags: set[str] = field(default_factory=set)
    pages: list[tuple[int, int] | None] = field(default_factory=lambda: [(1, -1)])
    margin: dict[str, Fraction] = field(default_factory=dict)
    gap: tuple[Fraction, Fraction] = (Fraction(0), Fraction(0))
    trim: Fraction = Fraction(0)
    creep: Fraction = Fraction(0)
    overlap: Fraction = Fraction(0)
    scale: Fraction | None = None
    order: str = "right-down"
    turned: str = ""
    turn: int = 0  # quarters to the left
    wide: bool = False  # only pages that are wider than high are turned
    signature: int | None = None  # sides, 0 for auto
    numbers: Fraction = Fraction(0)
    first: int = 1
    border: Fraction = Fraction(0)
    marks: set[str] = field(default_factory=set)
    paper: Paper | None = None
    sheet: Paper | None = None
    usual: str = "a4"


@dataclass
class Page:
    """What a page's comments say."""

    medium: str = ""
    box: Box | None = None


@dataclass
class Document:
    """What the comments of a document say: media and names of papers, the box, and the page size of its setup."""

    media: list[tuple[str, Paper]]
    names: list[str]
    box: Box | None
    setup: Paper | None
    pages: list[Page]


def printed(length: Fraction) -> str:
    """A length in points, with five decimals, rounded half away from zero: section 4."""
    whole = floor(abs(length) + Fraction(1, 2))
    text = f"{whole // U}.{whole % U:05}".rstrip("0").rstrip(".")
    return f"-{text}" if length < 0 and whole else text


# Papers: section 12.


def near(one: Paper, other: Paper) -> bool:
    return abs(one[0] - other[0]) <= NEAR and abs(one[1] - other[1]) <= NEAR


def known(paper: Paper) -> Paper | None:
    """A comment that would give a side below one point gives no paper."""
    return paper if min(paper) >= U else None


def paper_of_box(box: Box | None, usual: Paper) -> Paper | None:
    """12.2, point 3."""
    if box is None:
        return None
    left, low, right, high = box
    if not (left or low):
        return known((right, high))
    if min(left, low) >= 0 and (right > usual[0] + NEAR or high > usual[1] + NEAR):
        return known((left + right, low + high))
    return None


def named_paper(document: Document) -> Paper | None:
    """12.2, point 2."""
    paper = next((PAPERS[name.lower()] for name in document.names if name.lower() in PAPERS), None)
    box = document.box
    lies = paper and box and not any(box[:2]) and near(box[2:], paper[::-1])
    return paper[::-1] if paper and lies else paper


def documents_paper(options: Options, document: Document) -> Paper:
    """12.2."""
    usual = (document.setup and known(document.setup)) or PAPERS[options.usual]
    medium = known(document.media[0][1]) if document.media else None
    return options.paper or medium or named_paper(document) or paper_of_box(document.box, usual) or usual


def pages_paper(options: Options, document: Document, page: Page) -> Paper:
    """12.3."""
    own = documents_paper(options, document)
    media = [paper for name, paper in document.media if name == page.medium]
    return options.paper or (known(media[0]) if media else None) or paper_of_box(page.box, own) or own


def kinds(papers: list[Paper]) -> list[tuple[Paper, Paper]]:
    """12.4: the widest paper of each kind, and the least one that covers the kind."""
    found = []
    left = set(papers)
    while left:
        kind = {paper for paper in left if near(paper, max(left))}
        found.append((max(left), (max(width for width, _ in kind), max(height for _, height in kind))))
        left -= kind
    return found


def counted(paper: Paper, papers: list[Paper]) -> Paper:
    """The paper that it counts as; open: for one that no page has, also that of the first kind whose widest is near."""
    return next((covering for widest, covering in kinds(papers) if near(paper, widest)), paper)


# Rows: section 11.


def row_of(options: Options, pages: int) -> list[int | None]:
    """The pages, counted from 0, and None for blanks."""
    row: list[int | None] = []
    for ends in options.pages:
        first, last = (end if end > 0 else pages + 1 + end for end in ends or (1, 1))
        if not (1 <= first <= pages and 1 <= last <= pages):
            raise Refused("pages")
        found = range(first - 1, last) if first <= last else range(first - 1, last - 2, -1)
        row += found if ends else [None]
    row = row[0::2] if "odd" in options.flags else row[1::2] if "even" in options.flags else row
    if not row:
        raise Refused("no pages")
    return row[::-1] if "reverse" in options.flags else row


def leaves_of(options: Options, entries: int) -> tuple[int, int]:
    """11.3: the leaves of a signature, and the number of signatures."""
    leaves = -(-entries // 4)
    if options.signature is None:
        return leaves, 1
    parts = -(-leaves // 8)
    each = options.signature // 4 or -(-leaves // parts)
    return each, -(-leaves // each)


def folded(options: Options, entries: int) -> list[int]:
    """Section 3: the entries in signatures; those at or above the number of entries are blank."""
    leaves, parts = leaves_of(options, entries)
    sides = 4 * leaves
    return [
        first + at
        for first in range(0, sides * parts, sides)
        for leaf in range(leaves)
        for at in (sides - 1 - 2 * leaf, 2 * leaf, 2 * leaf + 1, sides - 2 - 2 * leaf)
    ]


# Cells: section 13.


class Room:
    """13.1, in whole u: the margins, the trim, and the gaps across the sheet as printed and up."""

    def __init__(self, options: Options, is_back: bool = False) -> None:
        self.trim = floor(options.trim)
        self.wider = 1 if self.trim else 0
        edges = {edge: ceil(options.margin.get(edge, 0)) for edge in (*EDGES, "inner")}
        if options.layout == "nup" and "inner" in options.margin:
            edges["left"] = edges["inner"]
        if is_back:
            edges["left"], edges["right"] = edges["right"], edges["left"]
        self.named = [edges[edge] for edge in EDGES]
        self.top, self.right, self.bottom, self.left = (margin + self.wider for margin in self.named)
        self.across, self.up = (ceil(gap) + self.wider for gap in options.gap)
        if options.layout == "booklet":
            inner = options.margin.get("inner", Fraction(0))
            self.up = ceil(options.gap[1] + 2 * inner) + self.wider  # open: widened once
        if options.layout == "zine":
            self.across, self.up = max(self.across, 1), max(self.up, 1)

    @property
    def is_uneven(self) -> bool:
        return (self.top, self.left) != (self.bottom, self.right)

    @property
    def cuts_outside(self) -> bool:
        """Section 15, marks: margins of 0 have no room, and all four need it."""
        is_wide = min(self.left, self.right) * 2 >= self.across and min(self.top, self.bottom) * 2 >= self.up
        return min(self.named) > 0 and is_wide

    def leaves_nothing(self, sheet: Paper) -> bool:
        return sheet[0] <= self.left + self.right or sheet[1] <= self.top + self.bottom


@dataclass
class Cell:
    """A part of the sheet as printed; it is turned if its pages are."""

    left: int
    low: int
    right: int
    high: int
    is_turned: bool = False

    @property
    def sides(self) -> tuple[int, int]:
        """As one sees them with the pages upright."""
        sides = self.right - self.left, self.high - self.low
        return sides[::-1] if self.is_turned else sides


@dataclass
class Grid:
    """Columns and rows of the sheet, held with its pages upright."""

    sheet: Paper
    columns: int
    rows: int
    is_turned: bool
    room: Room

    @property
    def parts(self) -> tuple[int, int]:
        """The number of cells across the sheet as printed, and up."""
        return (self.rows, self.columns) if self.is_turned else (self.columns, self.rows)

    def exact_scale(self, paper: Paper) -> Fraction:
        """The scale of a page in exact parts of the sheet, 0 if there is no room, of nine decimals (13.5)."""
        room, (across, up) = self.room, self.parts
        wide = (self.sheet[0] - room.left - room.right - (across - 1) * room.across) / across
        high = (self.sheet[1] - room.top - room.bottom - (up - 1) * room.up) / up
        if min(wide, high) <= 0:
            return Fraction(0)
        return scale_in((high, wide) if self.is_turned else (wide, high), paper, room.trim)

    def cell(self, row: int, column: int) -> Cell:
        """13.2."""
        room, (across, up) = self.room, self.parts
        wide = floor((self.sheet[0] - room.left - room.right + room.across) / across)
        high = floor((self.sheet[1] - room.top - room.bottom + room.up) / up)
        x, y = (row, column) if self.is_turned else (column, self.rows - 1 - row)
        left, low = room.left + x * wide, room.bottom + y * high
        return Cell(left, low, left + wide - room.across, low + high - room.up, self.is_turned)


def best_grid(options: Options, paper: Paper, sheet: Paper) -> Grid:
    """13.5: columns are those before --turned, where grids are equally good."""
    count, room = options.count, Room(options)
    shapes = [options.grid] if options.grid else [(columns, -(-count // columns)) for columns in range(1, count + 1)]
    found = []
    for columns, rows in shapes:
        for is_turned in (False, True):
            seen = (rows, columns) if options.turned else (columns, rows)
            grid = Grid(sheet, *seen, is_turned, room)
            found.append(((-grid.exact_scale(paper), columns * rows, is_turned, grid.columns), grid))
    return min(found, key=lambda one: one[0])[1]


def grid_of(options: Options, paper: Paper, sheet: Paper) -> Grid:
    if options.layout == "booklet":
        return Grid(sheet, 2, 1, True, Room(options))
    if options.layout in ("zine", "notes"):
        options.grid = (4, 2) if options.layout == "zine" else (2, options.count)
    return best_grid(options, paper, sheet)


def cells_in_order(options: Options, grid: Grid) -> list[tuple[int, int]]:
    """13.6: rows and columns as one sees them, in the order in which they are filled."""
    columns, rows = (grid.rows, grid.columns) if options.turned else (grid.columns, grid.rows)
    order = list(range(columns))
    if "left" in options.order or "rtl" in options.flags:
        order.reverse()
    if options.order.startswith("down"):
        return [(row, column) for column in order for row in range(rows)]
    return [(row, column) for row in range(rows) for column in order]


def held(options: Options, grid: Grid, seen: tuple[int, int]) -> Cell:
    """The cell in this row and column as one sees them after --turned."""
    row, column = seen
    if options.turned == "left":
        row, column = column, grid.columns - 1 - row
    elif options.turned == "right":
        row, column = grid.rows - 1 - column, row
    return grid.cell(row, column)


# Places.


@dataclass
class Spot:
    """A matrix: quarter turns to the left, scale, and where the corner goes."""

    quarters: int
    scale: Fraction
    x: Fraction
    y: Fraction

    def text(self) -> str:
        scale = printed_scale(self.scale)
        turn = ("{0} 0 0 {0}", "0 {0} -{0} 0", "-{0} 0 0 -{0}", "0 -{0} {0} 0")[self.quarters]
        return f"[{turn.format(scale)} {printed(self.x)} {printed(self.y)}] concat"

    def half_turned(self, sheet: Paper) -> Spot:
        """Open: about the centre of the sheet with its sides rounded down."""
        return Spot((self.quarters + 2) % 4, self.scale, floor(sheet[0]) - self.x, floor(sheet[1]) - self.y)

    def of_turned(self, turn: int, paper: Paper) -> Spot:
        """13.7: for a page that is turned by so many quarters, and then has this paper."""
        wide, high = (ceil(self.scale * side) for side in paper)
        x, y = ((0, 0), (wide, 0), (wide, high), (0, high))[turn]
        for _ in range(self.quarters):
            x, y = -y, x
        return Spot((self.quarters + turn) % 4, self.scale, self.x + x, self.y + y)


def printed_scale(scale: Fraction) -> str:
    billionths = int(scale * 10**9)
    return f"{billionths // 10**9}.{billionths % 10**9:09}".rstrip("0").rstrip(".")


AS_IT_IS = Spot(0, Fraction(1), Fraction(0), Fraction(0))


def scale_in(sides: tuple[Fraction | int, Fraction | int], paper: Paper, trim: int) -> Fraction:
    """13.3: rounded down to nine decimals; 0 if nothing is left of the page."""
    left = [side - 2 * trim for side in paper]
    if min(left) <= 0:
        return Fraction(0)
    return Fraction(floor(min(part / side for part, side in zip(sides, left)) * 10**9), 10**9)


def fits(cell: Cell, paper: Paper, scale: Fraction, trim: int) -> bool:
    return all(scale * (side - 2 * trim) <= part for part, side in zip(cell.sides, paper))


def offsets(cell: Cell, paper: Paper, scale: Fraction, trim: int) -> tuple[int, int]:
    """13.4: from the cell's left and foot to the part that counts."""
    left, low = (floor((part - scale * (side - 2 * trim)) / 2) for part, side in zip(cell.sides, paper))
    return left, low


def spot_in(cell: Cell, paper: Paper, scale: Fraction, trim: int, shift: int) -> Spot:
    """A page in its cell, moved to the right by the shift as one sees it. The scaled trim is rounded down (13.4)."""
    left, low = (offset - floor(scale * trim) for offset in offsets(cell, paper, scale, trim))
    if cell.is_turned:
        return Spot(1, scale, Fraction(cell.right - low), Fraction(cell.low + left + shift))
    return Spot(0, scale, Fraction(cell.left + left + shift), Fraction(cell.low + low))


def scale_named(options: Options, paper: Paper) -> Fraction:
    """14.3: the scale that the size of a poster or --scale names, and else 1."""
    if isinstance(options.size, tuple):
        return max(scale_in(sides, paper, 0) for sides in (options.size, options.size[::-1]))
    named = options.scale if options.size is None else options.size
    return Fraction(1) if named is None else named


class Poster:
    """14.3: the sides of tiles are rounded down."""

    def __init__(self, options: Options, sheet: Paper, paper: Paper) -> None:
        self.room, self.overlap = Room(options), ceil(options.overlap)
        self.margin, overlap = self.room.top, self.overlap
        self.steps = [floor(side) - 2 * self.margin - overlap for side in sheet]
        if min(self.steps) <= 0:
            raise Refused("room")
        self.scale, self.grid = options.scale, options.grid or (0, 0)
        if not options.grid:
            self.scale = scale_named(options, paper)
            self.grid = self.fewest(self.scale, paper)
            whole = Fraction(floor(100 * self.scale), 100)
            fewer = self.fewest(whole, paper)
            if isinstance(options.size, tuple) and fewer[0] * fewer[1] < self.grid[0] * self.grid[1]:
                self.scale, self.grid = whole, fewer
        if self.grid[0] * self.grid[1] > 1024:
            raise Refused("tiles")
        wide, high = (parts * step + overlap for parts, step in zip(self.grid, self.steps))
        if max(wide, high) >= TOO_LONG:
            raise Refused("sides")
        self.sides = wide, high
        self.scale_of(paper)

    def fewest(self, scale: Fraction, paper: Paper) -> tuple[int, int]:
        """The fewest columns and rows for a page of this paper at this scale."""
        scaled = [ceil(scale * side) for side in paper]
        columns, rows = (max(1, -((self.overlap - side) // step)) for side, step in zip(scaled, self.steps))
        return columns, rows

    def scale_of(self, paper: Paper) -> Fraction:
        """The scale of a page of this paper."""
        largest = scale_in(self.sides, paper, 0)
        if self.scale is None:
            return largest
        if self.scale <= 0:
            raise Refused("range of a poster's scales")
        if self.scale > largest:
            raise Refused("scale of a poster")
        return self.scale

    def spots(self, paper: Paper) -> Iterator[Spot]:
        """One for each sheet."""
        scale = self.scale_of(paper)
        left, low = (self.margin + floor((whole - scale * side) / 2) for whole, side in zip(self.sides, paper))
        for row in reversed(range(self.grid[1])):
            for column in range(self.grid[0]):
                yield Spot(0, scale, Fraction(left - column * self.steps[0]), Fraction(low - row * self.steps[1]))


# Refusals: section 16.


def refuse_words(options: Options) -> None:
    """Points 3 and 4."""
    if {"odd", "even"} <= options.flags:
        raise Refused("odd and even")
    if options.layout == "select" and options.sheet:
        raise Refused("select has a sheet")
    if options.size is not None and options.scale is not None:
        raise Refused("scale of a size")
    if "inner" in options.margin:
        if options.layout not in ("nup", "booklet"):
            raise Refused("inner")
        if options.layout == "nup" and options.margin.get("left"):
            raise Refused("inner and left")
        if "cut" in options.marks:
            raise Refused("inner and cut")
    is_cut_outside = "cut" in options.marks and (options.layout in ("booklet", "poster") or options.count == 1)
    if is_cut_outside and not Room(options).cuts_outside:
        raise Refused("no marks")


def refuse_layout(options: Options, paper: Paper, sheet: Paper) -> None:
    """Point 9, for the cells' paper."""
    room, layout = Room(options), options.layout
    must_be_even = layout in ("zine", "poster") or "duplex" in options.flags
    if room.is_uneven and must_be_even or layout == "poster" and room.top != room.left:
        raise Refused("uneven")
    if layout == "select":
        return
    lengths, early = [*options.margin.values(), *options.gap, options.trim], [options.creep, options.overlap]
    refuse_lengths(early + lengths if layout == "poster" else early)
    if max(sheet if layout == "poster" else (*paper, *sheet)) >= TOO_LONG:
        raise Refused("sides")
    refuse_lengths(lengths)
    if layout == "poster":
        Poster(options, sheet, paper)
        return
    if min(side - 2 * room.trim for side in paper) <= 0:
        raise Refused("trim")
    if layout == "booklet":
        refuse_sheet(room, paper, sheet)
    cell = grid_of(options, paper, sheet).cell(0, 0)
    if min(cell.sides) <= 0:
        raise Refused("room")
    if not scale_in(cell.sides, paper, room.trim) or options.scale == 0:
        raise Refused("range of scales")
    if options.scale is not None and not fits(cell, paper, options.scale, room.trim):
        raise Refused("scale")


def refuse_lengths(lengths: list[Fraction]) -> None:
    if min(lengths) < 0 or max(lengths) >= TOO_LONG:
        raise Refused("lengths")


def refuse_sheet(room: Room, paper: Paper, sheet: Paper) -> None:
    """14.1; open: the gap of the upright pages is the one across."""
    if room.is_uneven:
        raise Refused("uneven")
    if sheet[0] > sheet[1]:
        raise Refused("wide")
    if Grid(sheet, 2, 1, False, room).exact_scale(paper) > Grid(sheet, 2, 1, True, room).exact_scale(paper):
        raise Refused("upright")


# Sheets: sections 14 and 15.


@dataclass
class Slot:
    """An entry of the row in a cell, moved to the right by the shift; half if it is so on the sheet turned by half."""

    entry: int
    cell: Cell
    half: bool = False
    shift: int = 0


@dataclass
class Sheet:
    """What a sheet has on it: the texts of its slots, strokes, and numbers with size, quarter turns and place."""

    paper: Paper
    slots: list[str] = field(default_factory=list)
    strokes: list[Box] = field(default_factory=list)
    numbers: list[tuple[str, int, Paper]] = field(default_factory=list)


class Run:
    """The row of a run, its papers and its sheets."""

    def __init__(self, options: Options, document: Document) -> None:
        self.options, self.document = options, document
        self.one_scale: Fraction | None = None
        refuse_words(options)
        if options.paper:
            refuse_layout(options, *self.cells_and_sheet(options.paper))
        elif options.sheet and options.layout != "poster" and Room(options).leaves_nothing(options.sheet):
            raise Refused("room")
        papers = [pages_paper(options, document, page) for page in document.pages]
        try:
            self.row = row_of(options, len(document.pages))
        except Refused:  # 12.5: the document's paper
            refuse_layout(options, *self.cells_and_sheet(documents_paper(options, document)))
            raise
        self.own = [None if page is None else papers[page] for page in self.row]
        self.cells_paper, self.sheet = self.cells_and_sheet(self.chosen())
        refuse_layout(options, self.cells_paper, self.sheet)

    def chosen(self) -> Paper:
        """12.5; open: that of the blanks of a selection."""
        own = documents_paper(self.options, self.document)
        there = [paper for paper in self.own if paper]
        chosen = own if any(near(paper, own) for paper in there) or not there else there[0]
        if self.options.layout != "select":
            return chosen
        self.own = [counted(paper, there) if paper else None for paper in self.own]
        return counted(chosen, there)

    def cells_and_sheet(self, paper: Paper) -> tuple[Paper, Paper]:
        """The cells' paper, exchanged by a quarter turn, and that of the sheets."""
        paper = self.turned(paper)
        own = (min(paper), max(paper)) if self.options.layout == "booklet" else paper
        return paper, self.options.sheet or own

    def turn(self, paper: Paper) -> int:
        """13.7: the quarters by which a page of this paper is turned."""
        is_kept = self.options.wide and paper[0] <= paper[1]
        return 0 if is_kept else self.options.turn

    def turned(self, paper: Paper) -> Paper:
        return paper[::-1] if self.turn(paper) % 2 else paper

    def sheets(self) -> list[Sheet]:
        if self.options.layout in ("select", "poster"):
            return list(self.selection() if self.options.layout == "select" else self.poster())
        grid = grid_of(self.options, self.cells_paper, self.sheet)
        layout: Callable[[Grid], Iterator[list[Slot]]] = getattr(self, self.options.layout)
        sides = [[slot for slot in slots if self.paper_of(slot)] for slots in layout(grid)]
        self.check_pages(grid, [slot for slots in sides for slot in slots])
        lines = strokes(self.options, grid)
        return [self.filled(grid, slots, lines) for slots in sides]

    def paper_of(self, slot: Slot) -> Paper | None:
        """That of its page as it is turned, None for a blank."""
        own = self.own[slot.entry] if slot.entry < len(self.row) else None
        return self.turned(own) if own else None

    def stays(self, grid: Grid, paper: Paper | None) -> bool:
        """13.4: one upright page on its own paper, without --same-scale."""
        is_scaled = self.options.scale is not None or "same-scale" in self.options.flags
        is_free = not (any(grid.room.named) or grid.room.trim or is_scaled)
        return grid.parts == (1, 1) and not grid.is_turned and is_free and paper == self.sheet

    def scale(self, slot: Slot, grid: Grid) -> Fraction:
        paper = self.paper_of(slot)
        assert paper
        return self.options.scale or self.one_scale or scale_in(slot.cell.sides, paper, grid.room.trim)

    def check_pages(self, grid: Grid, slots: list[Slot]) -> None:
        """Point 12 of section 16; finds the scale of --same-scale."""
        trim = grid.room.trim
        slots = sorted(slots, key=lambda slot: slot.entry)
        if "same-scale" in self.options.flags:
            self.one_scale = min((self.scale(slot, grid) for slot in slots), default=None)
        for slot in slots:
            paper, scale = self.paper_of(slot), self.scale(slot, grid)
            if not paper or self.stays(grid, paper):
                continue
            if min(paper) <= 2 * trim:
                raise Refused("trim")
            if not scale or not fits(slot.cell, paper, scale, trim):
                raise Refused("scale")
            free: int | Fraction = offsets(slot.cell, paper, scale, trim)[0]
            at_end = slot.cell.sides[0] - free - scale * (paper[0] - 2 * trim) if slot.shift > 0 else free
            if abs(slot.shift) > Fraction(grid.room.up, 2) + at_end:
                raise Refused("creep")

    def filled(self, grid: Grid, slots: list[Slot], lines: list[Box]) -> Sheet:
        sheet = Sheet(self.sheet, strokes=lines)
        for slot in slots:
            paper = self.paper_of(slot)
            assert paper
            spot = AS_IT_IS
            if not self.stays(grid, paper):
                spot = spot_in(slot.cell, paper, self.scale(slot, grid), grid.room.trim, slot.shift)
            self.write(sheet, slot, spot)
        return sheet

    def write(self, sheet: Sheet, slot: Slot, spot: Spot) -> None:
        """The lines of section 7, with the border and the number of section 15."""
        page, own = self.row[slot.entry], self.own[slot.entry]
        assert page is not None and own
        spot = spot.of_turned(self.turn(own), self.turned(own))
        if self.turn(own) and max(abs(spot.x), abs(spot.y)) >= TOO_LONG:
            raise Refused("far")
        spot = spot.half_turned(sheet.paper) if slot.half else spot
        lines = ["userdict /ImposeSave save put", "userdict /showpage {} put", spot.text()]
        lines += [f"newpath {outline(own, Fraction(0))} clip newpath"]
        if self.options.border:
            path = outline(own, self.options.trim)  # the exact trim
            lines += [f"gsave {printed(self.options.border)} setlinewidth newpath {path} stroke grestore"]
        lines += [f"({page + 1}) pop", "showpage", "ImposeSave restore"]
        sheet.slots.append("\n".join(lines))
        if self.options.numbers:
            text = f"{self.options.first + slot.entry} of {printed(self.options.numbers)}"
            sheet.numbers.append((text, *number_place(slot, sheet.paper)))

    def selection(self) -> Iterator[Sheet]:
        for entry, own in enumerate(self.own):
            sheet = Sheet(self.turned(own) if own else self.sheet)
            if own:
                whole = Cell(0, 0, floor(sheet.paper[0]), floor(sheet.paper[1]))
                self.write(sheet, Slot(entry, whole), AS_IT_IS)
            yield sheet

    def poster(self) -> Iterator[Sheet]:
        poster = Poster(self.options, self.sheet, self.cells_paper)
        lines = tile_strokes(poster, self.sheet) if self.options.marks else []
        for entry, own in enumerate(self.own):
            for spot in poster.spots(self.turned(own) if own else self.cells_paper):
                sheet = Sheet(self.sheet, strokes=lines)
                if own:
                    self.write(sheet, Slot(entry, Cell(0, 0, 0, 0)), spot)
                yield sheet

    # Which entry is in which cell: section 14.

    def nup(self, grid: Grid) -> Iterator[list[Slot]]:
        count, backs = self.options.count, Grid(*vars(grid).values())
        backs.room = Room(self.options, is_back="inner" in self.options.margin)
        seen = cells_in_order(self.options, grid)[:count]
        for sheet, first in enumerate(range(-self.options.skip, len(self.row), count)):
            side = backs if sheet % 2 else grid
            yield [Slot(first + at, held(self.options, side, place)) for at, place in enumerate(seen) if first + at >= 0]

    def cards(self, grid: Grid) -> Iterator[list[Slot]]:
        seen = cells_in_order(self.options, grid)[: self.options.count]
        for entry in range(len(self.row)):
            used = self.options.skip if entry == 0 else 0
            yield [Slot(entry, held(self.options, grid, place)) for place in seen[used:]]

    def stack(self, grid: Grid) -> Iterator[list[Slot]]:
        seen, options = cells_in_order(self.options, grid), self.options
        if "duplex" not in options.flags:
            sheets = -(-len(self.row) // options.count)
            for sheet in range(sheets):
                cells = enumerate(seen[: options.count])
                yield [Slot(at * sheets + sheet, held(options, grid, place)) for at, place in cells]
            return
        leaves = -(-len(self.row) // (2 * len(seen)))
        last = max(column for _, column in seen)
        for leaf in range(leaves):
            entry = {place: 2 * at * leaves + 2 * leaf for at, place in enumerate(seen)}
            yield [Slot(entry[place], held(options, grid, place)) for place in seen]
            behind = {(row, last - column): at + 1 for (row, column), at in entry.items()}
            yield [Slot(behind[place], held(options, grid, place)) for place in seen]

    def notes(self, grid: Grid) -> Iterator[list[Slot]]:
        for first in range(0, len(self.row), grid.rows):
            yield [Slot(first + row, grid.cell(row, 0)) for row in range(grid.rows)]

    def booklet(self, grid: Grid) -> Iterator[list[Slot]]:
        entries = folded(self.options, len(self.row))
        leaves, _ = leaves_of(self.options, len(self.row))
        columns = (1, 0) if "rtl" in self.options.flags else (0, 1)
        for side in range(len(entries) // 2):
            shift = side // 2 % leaves * floor(self.options.creep) // max(leaves - 1, 1)
            half = "long-edge" in self.options.flags and side % 2 == 1
            cells = [(grid.cell(0, column), (shift, -shift)[column]) for column in columns]
            yield [Slot(entries[2 * side + at], cell, half, by) for at, (cell, by) in enumerate(cells)]

    def zine(self, grid: Grid) -> Iterator[list[Slot]]:
        lower = [grid.cell(1, column) for column in range(4)]
        if "rtl" in self.options.flags:
            lower.reverse()
        for first in range(0, len(self.row), 8):
            upper = [Slot(first + at, lower[at - 1], half=True) for at in (4, 3, 2, 1)]
            yield upper + [Slot(first + at, cell) for at, cell in zip((5, 6, 7, 0), lower)]


def number_place(slot: Slot, sheet: Paper) -> tuple[int, Paper]:
    """The quarter turns of a number, and the middle of its foot. It moves with its page."""
    cell = slot.cell
    x, y = Fraction(slot.cell.left + slot.cell.right, 2), Fraction(slot.cell.low + slot.cell.high, 2)
    quarters = 1 if cell.is_turned else 0
    x, y = (Fraction(cell.right - 18 * U), y + slot.shift) if quarters else (x, Fraction(cell.low + 18 * U))
    return (quarters + 2, (sheet[0] - x, sheet[1] - y)) if slot.half else (quarters, (x, y))


def outline(paper: Paper, trim: Fraction) -> str:
    left, right, high = (printed(length) for length in (trim, paper[0] - trim, paper[1] - trim))
    return f"{left} {left} moveto {right} {left} lineto {right} {high} lineto {left} {high} lineto closepath"


def strokes(options: Options, grid: Grid) -> list[Box]:
    """The lines for notes, or those of --marks."""
    if options.layout == "notes":
        return [line for row in range(grid.rows) for line in note_lines(grid.cell(row, 1))]
    room = grid.room
    found: list[Box] = []
    cells = [grid.cell(row, column) for row in (0, grid.rows - 1) for column in (0, grid.columns - 1)]
    across = min(cell.left for cell in cells), max(cell.right for cell in cells), room.across
    up = min(cell.low for cell in cells), max(cell.high for cell in cells), room.up
    for axis, (first, last, gap) in enumerate((across, up)):
        step, half = Fraction(last - first + gap, grid.parts[axis]), Fraction(gap, 2)
        inner = [first + k * step - half for k in range(1, grid.parts[axis])]
        has_inner = ("fold" if options.layout == "booklet" else "cut") in options.marks
        has_outer = "cut" in options.marks and room.cuts_outside
        for at in (inner if has_inner else []) + ([first - half, last + half] if has_outer else []):
            found += ends(axis, at, grid.room, grid.sheet)
    return found


def tile_strokes(poster: Poster, sheet: Paper) -> list[Box]:
    """Section 15, posters: along the edges of the tile, and along those of its neighbours, of which each is a step away."""
    found: list[Box] = []
    for axis, (tiles, step) in enumerate(zip(poster.grid, poster.steps)):
        own = [poster.margin, poster.margin + step + poster.overlap]
        theirs = [own[1] - step, own[0] + step] if tiles > 1 and poster.overlap else []
        found += [line for at in own + theirs for line in ends(axis, Fraction(at), poster.room, sheet)]
    return found


def note_lines(cell: Cell) -> Iterator[Box]:
    left, low, right, high = (Fraction(side) for side in (cell.left, cell.low, cell.right, cell.high))
    for down in range(24 * U, cell.sides[1], 24 * U):
        yield (left + down, low, left + down, high) if cell.is_turned else (left, high - down, right, high - down)


def ends(axis: int, at: Fraction, room: Room, sheet: Paper) -> Iterator[Box]:
    """The two strokes of a line across this axis; open: by margins that aren't wider."""
    top, right, bottom, left = room.named
    side, long = sheet[1 - axis], 18 * U
    for margin, edge, inwards in ((left if axis else bottom, Fraction(0), 1), (right if axis else top, side, -1)):
        inner = edge + inwards * (margin or long)
        outer = inner - inwards * min(margin or long, long)
        yield (outer, at, inner, at) if axis else (at, outer, at, inner)
