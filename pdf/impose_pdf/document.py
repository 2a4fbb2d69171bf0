"""INFILEs: their pages, and what of them goes to sheets."""

from collections.abc import Iterator
from typing import Any

from pikepdf import Array, Dictionary, Name, Pdf, PdfError

from impose_pdf import notes
from impose_pdf.annotations import Held, Links, owner_of
from impose_pdf.faults import of_source
from impose_pdf.forms import Forms, pictures_of
from impose_pdf.labels import Labels
from impose_pdf.links import Ways
from impose_pdf.losses import Losses
from impose_pdf.pages import Box, Choice, bounds, common, leaves, number_of, shape_of, then
from impose_pdf.plan import Matrix, Placed, Size
from impose_pdf.reading import cause, check_reads, opened, warnings_in
from impose_pdf.trees import named
from impose_pdf.words import cause_of, pages_of, refusal, shown, told

LEAST, MOST = 1, 100_000  # points: the sides of pages that impose knows


class Source:
    """An INFILE: its pages, and their shapes."""

    def __init__(self, name: str, choose: Choice | None = None):
        self.name, self.found, self.choose = name, list[Any](), choose
        try:
            self.pdf = opened(name)
            self.find_pages()
        except PdfError as error:
            raise refusal(1, f"{shown(name)} can't be read: {cause(error)}") from None
        except OSError as error:
            raise refusal(3, f"cannot read {shown(name)}: {cause_of(error)}") from None
        finally:
            check_reads()
        if not self.pages:
            raise refusal(1, f"{shown(name)} has no pages")
        self.keep_warnings()

    @of_source
    def find_pages(self) -> None:
        """Finds its pages, and their shapes."""
        self.root = self.pdf.Root
        tree = self.root.get("/Pages")
        self.pages = list(leaves(self.pdf))
        self.counted = number_of(tree.get("/Count"), 0) if isinstance(tree, Dictionary) else 0
        self.shapes = [shape_of(page, entries, self.choose) for page, entries in self.pages]
        self.looks: Any = None  # of its annotations, if there are any but links

    def taken(self, ranges: str) -> list[int]:
        """The pages that RANGES choose."""
        return pages_of(ranges, len(self.pages), self.name)

    def size(self, k: int) -> Size:
        """The size of a page, if impose knows such."""
        width, height = self.shapes[k].size
        if not (LEAST <= width < MOST and LEAST <= height < MOST):
            raise refusal(
                1, f"page {k + 1} of {shown(self.name)} is {width:g} x {height:g} pt; sides are from 1 to below 100000"
            )
        return width, height

    @of_source
    def prepare(self, made: Pdf) -> None:
        """Gets ready for sheets of a PDF."""
        self.labels = Labels(self.pdf, len(self.pages))
        self.losses = Losses(self.root, self.pdf.is_encrypted)
        self.forms = Forms(self.pdf, shown(self.name))
        self.ways = Ways(self.pdf, made, [page for page, _ in self.pages], self.shapes)
        # A tree without loops, which qpdf goes through for copies.
        pages = list({page.objgen: page for page, _ in self.pages if page.is_indirect}.values())
        self.root.Pages = self.pdf.make_indirect(Dictionary(Type=Name.Pages, Kids=Array(pages), Count=len(pages)))
        self.put: dict[int, Any] = {}
        self.links = Links(self.ways)
        self.held: dict[object, Held] = {}
        self.on: dict[int, Held] = {}  # of pages that are on sheets
        form = self.root.get("/AcroForm")
        self.needs_looks = isinstance(form, Dictionary) and form.get("/NeedAppearances") is True

    def find_unshown(self, shown: set[tuple["Source", int]]) -> None:
        """Finds the forms and images of pages that aren't shown."""
        others = (entries for k, (_, entries) in enumerate(self.pages) if (self, k) not in shown)
        self.forms.unshown = {held for entries in others for held in pictures_of(entries.get("/Resources"))}

    @of_source
    def form(self, k: int) -> Any:
        """The form of a page, in the PDF that is made."""
        if k not in self.put:
            page, entries = self.pages[k]
            shape, resources, held = self.shapes[k], entries.get("/Resources"), self.annotations(k)
            if held.others and not held.is_shared:
                self.give_looks(page, held.others)
            self.losses.look_at(page, *(([], []) if held.is_shared else (held.links, held.others)))
            turn = tuple((part > 0) - (part < 0) for part in shape.matrix[:4])
            if turn not in held.over:
                held.over[turn] = self.forms.over(notes.drawn(held.others, shape.matrix), resources)
            self.put[k] = self.ways.brought(self.forms.of(k, page, resources, shape, held.over[turn]))
        return self.put[k]

    def give_looks(self, page: Any, others: list[Any]) -> None:
        """Gives looks to annotations of a page that need them. What draws them is loaded for these alone."""
        if self.looks is None:
            from impose_pdf.looks import Looks

            self.looks = Looks(self.pdf)
        self.looks.give(page, others)

    def held_by(self, k: int) -> set[tuple["Source", tuple[int, int]]]:
        """A page, and what holds its annotations, by their numbers."""
        page, _ = self.pages[k]
        return {(self, page.objgen), (self, owner_of(page).objgen)}

    def annotations(self, k: int) -> Held:
        """The annotations of a page."""
        page, _ = self.pages[k]
        owner = owner_of(page)
        key = owner.objgen if owner.is_indirect else k
        if key in self.held:
            self.held[key].is_shared = True
        else:
            self.held[key] = Held(self.links, *notes.split(page))
        self.on[k] = self.held[key]
        return self.held[key]

    @of_source
    def find_links(self, k: int) -> None:
        """Finds the links of a page that lead anywhere, if the page is on a sheet."""
        if k in self.on:
            self.on[k].find_links()

    def links_at(self, k: int, placed: Placed, sheet: Size) -> Iterator[tuple[Held, Matrix, Box]]:
        """The links of a page that is on a sheet of this size, the matrix to it, and the box that is seen there."""
        if not self.on[k].found:
            return
        shape = self.shapes[k]
        seen: Box = (0, 0, min(shape.size[0], placed.paper[0]), min(shape.size[1], placed.paper[1]))
        if cut := common(bounds(seen, placed.matrix), (0, 0, *sheet)):
            yield self.on[k], then(shape.matrix, placed.matrix), cut

    def attachments(self) -> Iterator[tuple[bytes, Any]]:
        """Its attachments, by their names."""
        names = self.root.get("/Names")
        for name, file in named(names.get("/EmbeddedFiles")) if isinstance(names, Dictionary) else ():
            if isinstance(file, Dictionary):
                yield bytes(name), self.ways.brought(file)

    def keep_warnings(self) -> None:
        """Keeps what qpdf has found by now, all of which is about this PDF."""
        self.found += warnings_in(self.pdf)

    def warning(self) -> str:
        """A line on what was mended, and one on pages that are lost, or nothing."""
        lines = damage(shown(self.name), self.found)
        if self.counted > len(self.pages):
            lines += told(f"{shown(self.name)} counts {self.counted:.0f} pages, and {len(self.pages)} can be found")
        return lines

    def lost(self) -> str:
        """The lines on what isn't kept, and on what isn't drawn as it should be, or nothing."""
        lines = self.losses.line(shown(self.name))
        lines += self.looks.warning(shown(self.name)) if self.looks else ""
        return lines


def damage(which: str, found: list[Any]) -> str:
    """The line on what was mended in a PDF, or nothing."""
    more = f", and {len(found) - 1} more" if len(found) > 1 else ""
    return told(f"{which} is damaged, and was mended: {cause(found[0])}{more}") if found else ""


def warnings_of(sources: list[Source]) -> str:
    """The lines on what was mended. Of a stream that was brought, qpdf names no place, and the PDF that has it now."""
    lines, placeless = "", list[Any]()
    for source in sources:
        name = source.pdf.filename
        for one in warnings_in(source.pdf):
            is_own = len(sources) == 1 or str(one).startswith((f"{name} (", f"{name}, "))
            (source.found if is_own else placeless).append(one)
        lines += source.warning()
    return lines + damage("one of the PDFs", placeless)
