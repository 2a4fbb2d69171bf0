"""Documents with pages of several papers, made by real programs, and where their pages are on the sheets that impose makes from them:
`checks/pictures --mixed` draws these.

Each page has a mark in each of its four corners, in a colour of its own. Ghostscript draws the document, which shows where the marks are on
the pages, and the sheets, on which they are looked for. Where they have to be is computed here from what docs/RULES.md says, not from what
impose writes. A selection keeps each page on its own paper; otherwise each page is fitted into its cell by its own sides, in the middle of
the cell. So it is found if a page is cut off, scaled by another page's paper, turned, or out of its cell. A mark may be off by `OFF` points
along each edge: programs give papers in whole points, some rounded down, and a picture has 72 dots an inch.

It isn't said here for which of the document's papers the grid is chosen, nor what the paper of the sheets is if none is named. Both have to
be the same for all sheets; the line of a run that is right reports them.
"""
import re
import subprocess
import tempfile
from pathlib import Path

OFF, MARK = 2.0, 30
A5, A4, A3 = (419.528, 595.276), (595.276, 841.89), (841.89, 1190.55)
LETTER, TABLOID = (612, 792), (792, 1224)
MM, CM = 72 / 25.4, 72 / 2.54


def on_side(paper):
    return paper[1], paper[0]


# Pages: the paper, and whether the page is turned by the PDF.
PLAIN = [(A4, 0)] * 9
MIXED = [(A4, 0), (A3, 0), (A5, 0), (on_side(A4), 0), (A4, 90), (A4, 0), (on_side(A3), 0), (A5, 90), (A4, 0)]
SLIDES = [(on_side(A4), 0)] * 3 + [(A4, 0), (on_side(A4), 0)]
OF_LETTER = [(LETTER, 0), (LETTER, 0), (on_side(LETTER), 0), (LETTER, 90), (TABLOID, 0), (LETTER, 0)]
ONLY_LETTER = [(LETTER, 0)] * 6
WRITERS = ("pdftops", "cairo", "ps2write")

# Runs, one after the other: the command, and the expected result.
RUNS = {
    "copy": ["select 1-"],
    "the second alone": ["select 2"],
    "the fifth alone": ["select 5"],
    "two-up": ["nup 2"],
    "booklet": ["booklet"],
    "four-up": ["nup 4"],
    "odd ones, backwards": ["select 1-,blank --odd --reverse"],
    "five on a3": ["nup 5 --sheet a3"],
    "four, spaced": ["nup 4 --margin 1cm --gap 5mm"],
    "four, trimmed": ["nup 4 --trim 10mm --margin 1cm --gap 2cm"],
    "from the right": ["nup 4 --rtl"],
    "booklet, rtl": ["booklet --rtl"],
    "long edge": ["booklet --long-edge --gap 1cm --sheet a3"],
    "signatures": ["booklet --signature 4 --pages 1-,blank"],
    "cards": ["cards 6 --gap 4mm"],
    "stack": ["stack 2"],
    "five piles": ["stack 5 --rtl"],
    "stack, duplex": ["stack 4 --duplex --margin 5mm"],
    "fronts": ["booklet", "select 1- --odd"],
    "a3, two-up": ["nup 2 --sheet a3", "nup 2"],
    "two-up twice": ["nup 2", "nup 2"],
    "booklet of pairs": ["nup 2", "booklet"],
    "copy, pile": ["select 1-", "stack 2", "select _1-1"],
}


# Where pages have to be. A page is its paper and its marks, each a colour and a box; so is a sheet, so that sheets can be imposed again.


def box_of(points):
    return min(x for x, _ in points), min(y for _, y in points), max(x for x, _ in points), max(y for _, y in points)


def moved(marks, put):
    """The marks where `put` puts their corners."""
    return [(colour, box_of([put(x, y) for x in (left, right) for y in (low, high)])) for colour, (left, low, right, high) in marks]


class Room:
    """What is kept free on a sheet, and trimmed off a page."""

    def __init__(self, words):
        def length(name):
            found = re.search(rf"--{name} ([0-9.]+)(cm|mm)", words)
            return float(found[1]) * {"cm": CM, "mm": MM}[found[2]] if found else 0.0
        self.margin, self.gap, self.trim = length("margin"), length("gap"), length("trim")


class Grid:
    """Cells, with the sheet held so that its pages are upright: if they are turned to the left, its left edge is at the bottom."""

    def __init__(self, sheet, rows, columns, turned, room):
        self.sheet, self.rows, self.columns, self.turned, self.room = sheet, rows, columns, turned, room
        held = on_side(sheet) if turned else sheet
        self.high_up = held[1]
        self.step = [(side - 2 * room.margin + room.gap) / parts for side, parts in zip(held, (columns, rows))]
        self.cell = [step - room.gap for step in self.step]

    def scale_of(self, paper):
        return min((cell / (side - 2 * self.room.trim) for cell, side in zip(self.cell, paper)), default=0) if min(self.cell) > 0 else 0

    def placed(self, page, row, column):
        """The page's marks on the sheet."""
        paper, marks = page
        scale = self.scale_of(paper)
        left = self.room.margin + column * self.step[0] + (self.cell[0] - scale * paper[0]) / 2
        low = self.high_up - self.room.margin - row * self.step[1] - self.cell[1] + (self.cell[1] - scale * paper[1]) / 2
        if self.turned:
            return moved(marks, lambda x, y: (self.sheet[0] - (low + scale * y), left + scale * x))
        return moved(marks, lambda x, y: (left + scale * x, low + scale * y))


def grid_for(paper, sheet, count, room):
    """The grid of at least this many cells in which this paper has the largest scale; then with the fewest cells, upright, with the fewest columns."""
    best = None
    for rows in range(1, count + 1):
        for columns in range(-(-count // rows), -(-count // rows) + 2):
            for turned in (False, True):
                grid = Grid(sheet, rows, columns, turned, room)
                rank = -round(grid.scale_of(paper), 7), rows * columns, turned, columns
                if best is None or rank < best[0]:
                    best = rank, grid
    return best[1]


def halves(sheet, room):
    return Grid(sheet, 1, 2, True, room)


def chosen(words, pages):
    """The pages that are taken, None for a blank; only ranges of RUNS are understood."""
    found = re.search(r"(?:--pages|select) (\S+)", words)
    row = []
    for part in (found[1] if found else "1-").split(","):
        row += [None] if part == "blank" else {"1-": pages, "_1-1": pages[::-1], "2": pages[1:2], "5": pages[4:5]}[part]
    row = row[0::2] if "--odd" in words else row[1::2] if "--even" in words else row
    return row[::-1] if "--reverse" in words else row


def folded(row, sides):
    """The row of a booklet: in each signature the outermost leaf first, its front and then its back."""
    row = row + [None] * (-len(row) % sides)
    return [row[first + at] for first in range(0, len(row), sides) for j in range(sides // 4)
            for at in (sides - 1 - 2 * j, 2 * j, 2 * j + 1, sides - 2 - 2 * j)]


def half_turned(marks, sheet):
    return moved(marks, lambda x, y: (sheet[0] - x, sheet[1] - y))


def expected(words, pages, paper):
    """The expected sheets, if the grid is chosen for this paper, which is also the sheets' if none is named; a booklet has it upright."""
    row, room = chosen(words, pages), Room(words)
    if words.startswith("select"):
        return [page if page else (None, []) for page in row]
    own_sheet = tuple(sorted(paper)) if words.startswith("booklet") else paper
    sheet = tuple(round(side) for side in A3) if "--sheet a3" in words else own_sheet
    count = int(found[1]) if (found := re.match(r"\w+ (\d+)", words)) else 2
    grid = halves(sheet, room) if words.startswith("booklet") else grid_for(paper, sheet, count, room)
    cells = [(k // grid.columns, k % grid.columns) for k in range(grid.rows * grid.columns)]
    if "--rtl" in words:
        cells = [(k, grid.columns - 1 - column) for k, column in cells]
    sides = sides_of(words, row, count, len(cells), grid.columns)
    sheets = []
    for entries in sides:
        marks = [mark for cell, page in zip(cells, entries) if page for mark in grid.placed(page, *cell)]
        turned = "--long-edge" in words and len(sheets) % 2
        sheets.append((sheet, half_turned(marks, sheet) if turned else marks))
    return sheets


def sides_of(words, row, count, size, columns):
    """The contents of the cells of each side, in the order of the cells."""
    command = words.split()[0]
    if command == "booklet":
        found = re.search(r"--signature (\d+)", words)
        count, row = 2, folded(row, int(found[1]) if found else max(4, len(row) + -len(row) % 4))
    if command == "cards":
        return [[page] * count for page in row]
    if command == "stack" and "--duplex" in words:
        leaves = -(-len(row) // (2 * size))
        row = row + [None] * (2 * leaves * size - len(row))
        sides = [[row[cell * 2 * leaves + side] for cell in range(size)] for side in range(2 * leaves)]
        # The back of a cell is in the same row, as far from the other side.
        return [side if at % 2 == 0 else [side[k - k % columns + columns - 1 - k % columns] for k in range(size)] for at, side in enumerate(sides)]
    if command == "stack":
        high = -(-len(row) // count)
        return [[row[at] if at < len(row) else None for at in range(sheet, high * count, high)] for sheet in range(high)]
    return [row[at:at + count] for at in range(0, len(row), count)]


# Documents.


def colour_of(number):
    """A colour that is neither black nor white, for each number below 124."""
    number += 1
    return bytes(51 * (number // parts % 5) for parts in (25, 5, 1))


def made(pages, folder):
    """A PDF of such pages, with a mark in each corner and some lines of text; by Ghostscript."""
    text = "%!PS\n/mark { setrgbcolor rectfill } bind def\n"
    for page, ((width, height), turn) in enumerate(pages):
        text += f"<</PageSize [{width} {height}]>> setpagedevice\n"
        for corner, (x, y) in enumerate([(0, 0), (width - MARK, 0), (0, height - MARK), (width - MARK, height - MARK)]):
            red, green, blue = (part / 255 for part in colour_of(4 * page + corner))
            text += f"{x:.3f} {y:.3f} {MARK} {MARK} {red:.3f} {green:.3f} {blue:.3f} mark\n"
        text += f"0 setgray /Helvetica findfont 40 scalefont setfont 60 {height / 2:.3f} moveto (page {page + 1}) show\n"
        text += f"[{{ThisPage}} <</Rotate {turn}>> /PUT pdfmark\n" * (turn > 0) + "showpage\n"
    pdf = Path(folder) / "pages.pdf"
    ghostscript(["-sDEVICE=pdfwrite", "-dAutoRotatePages=/None", f"-sOutputFile={pdf}", "-"], text.encode())
    return pdf


def ghostscript(words, text=None):
    ended = subprocess.run(["gs", "-q", "-dSAFER", "-dBATCH", "-dNOPAUSE", *words], input=text, capture_output=True, timeout=300)
    if ended.returncode:
        raise ChildProcessError(f"gs: {(ended.stdout + ended.stderr)[-200:].decode(errors='replace').strip()}")


def written(writer, pdf):
    """The document as PostScript."""
    made_of = Path(pdf).with_suffix(f".{writer}.ps")
    if writer == "ps2write":
        ghostscript(["-sDEVICE=ps2write", "-dAutoRotatePages=/None", f"-sOutputFile={made_of}", str(pdf)])
    else:
        subprocess.run([*{"pdftops": ["pdftops"], "cairo": ["pdftocairo", "-ps"]}[writer], str(pdf), str(made_of)], check=True, capture_output=True)
    return made_of.read_bytes()


DOCUMENTS = {
    "plain": (PLAIN, "nine pages of A4"),
    "mixed": (MIXED, "A4, A3, A5, some on their side, some turned by the PDF"),
    "slides": (SLIDES, "A4 on its side, and one page upright"),
    "letter": (ONLY_LETTER, "six pages of letter"),
    "letter-mixed": (OF_LETTER, "letter, upright and on its side, and one tabloid"),
}


# Pictures.


def seen(text):
    """The papers and the marks in what Ghostscript draws, page by page: the boxes of each colour, in points from the lower left."""
    with tempfile.TemporaryDirectory() as folder:
        ghostscript(["-sDEVICE=ppmraw", "-r72", f"-sOutputFile={folder}/%d.ppm", "-"], text)
        found = sorted(Path(folder).glob("*.ppm"), key=lambda path: int(path.stem))
        return [marks_in(path.read_bytes()) for path in found]


def marks_in(picture):
    """A PPM of Ghostscript's: `P6`, a comment, width and height, 255, and the pixels."""
    head, _, sides, _, pixels = picture.split(b"\n", 4)
    width, height = map(int, sides.split())
    known = {colour_of(number) for number in range(64)}
    boxes, open_boxes = [], []
    white = b"\xff" * (3 * width)
    for at in range(height):
        row = pixels[3 * width * at : 3 * width * (at + 1)]
        still_open = []
        for colour, first, last in runs_in(row, known) if row != white else []:
            for box in open_boxes:
                if box[0] == colour and first <= box[3] and box[1] <= last:
                    box[1:5] = min(first, box[1]), box[2], max(last, box[3]), at + 1
                    break
            else:
                box = [colour, first, at, last, at + 1]
                boxes.append(box)
            still_open.append(box)
        open_boxes = still_open
    return (width, height), [(colour, (left, height - low, right, height - high)) for colour, left, high, right, low in boxes]


def runs_in(row, known):
    """The runs of each known colour in a row of pixels."""
    colours = {row[at : at + 3] for at in range(0, len(row), 3)} & known
    for colour in colours:
        at = 0
        while (at := row.find(colour, at)) >= 0:
            if at % 3:
                at += 1
                continue
            end = at
            while row[end : end + 3] == colour:
                end += 3
            yield colour, at // 3, end // 3
            at = end


# Comparing.


def near(one, other):
    return all(abs(a - b) <= OFF for a, b in zip(one, other))


def faults_in(sheets, wanted):
    """What differs from the expected sheets, sheet by sheet."""
    if len(sheets) != len(wanted):
        return [f"{len(sheets)} sheets in place of {len(wanted)}"] * 1000
    told = []
    for number, ((paper, marks), (wanted_paper, wanted_marks)) in enumerate(zip(sheets, wanted), 1):
        if wanted_paper and not near(paper, wanted_paper):
            told.append(f"sheet {number}: {paper} in place of {tuple(round(side) for side in wanted_paper)}")
        left = list(marks)
        for colour, box in wanted_marks:
            fits = [mark for mark in left if mark[0] == colour and near(mark[1], box)]
            if fits:
                left.remove(fits[0])
            else:
                there = [mark[1] for mark in left if mark[0] == colour]
                told.append(f"sheet {number}: {named(colour)} at {there} in place of {tuple(round(side, 1) for side in box)}")
        told += [f"sheet {number}: {named(colour)} at {box} too much" for colour, box in left if colour not in {one for one, _ in wanted_marks}]
    return told


def named(colour):
    number = next(number for number in range(124) if colour_of(number) == colour)
    return f"page {number // 4 + 1}, corner {'lower left,lower right,upper left,upper right'.split(',')[number % 4]}"


def papers_in(pages):
    """The papers of the pages, each once; nearly equal ones count as one."""
    found = []
    for paper, _ in pages:
        if not any(near(paper, one) for one in found):
            found.append(paper)
    return found


def judge(run_of, text, own, words):
    """What is wrong with a chain of runs, and for which papers the grids were chosen if nothing is. `run_of` runs impose on a text."""
    for word in words:
        text = run_of(word.split(), text)
    sheets = seen(text)
    tries = [((), own)]
    for word in words:
        papers = [papers_in(pages) if not word.startswith("select") else [None] for _, pages in tries]
        tries = [((*told, paper), expected(word, pages, paper)) for (told, pages), several in zip(tries, papers) for paper in several]
    told = [(faults_in(sheets, wanted), chosen_for) for chosen_for, wanted in tries]
    faults, chosen_for = min(told, key=lambda one: len(one[0]))
    return faults, [tuple(round(side) for side in paper) for paper in chosen_for if paper]
