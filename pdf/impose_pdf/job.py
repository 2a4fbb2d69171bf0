"""INFILEs on their way to sheets. Each step may refuse; none says anything, and the last one alone writes."""

from contextlib import AbstractContextManager
from typing import TYPE_CHECKING

from impose_pdf.deep import deeply
from impose_pdf.document import Source, warnings_of
from impose_pdf.faults import OF_PIKEPDF, blaming
from impose_pdf.files import Outfile
from impose_pdf.making import Making
from impose_pdf.plan import Imposer, Sheet, usual
from impose_pdf.sheets import turn_to_read
from impose_pdf.wording import reported
from impose_pdf.words import Request

if TYPE_CHECKING:
    from impose_pdf.extras import Extras

OPENED: dict[str, Source] = {}  # PDFs, which stay open to the end


class Job:
    """The pages that a request takes, and the sheets that they come on."""

    def __init__(self, request: Request, extras: "Extras | None"):
        self.request, self.extras = request, extras
        choose = extras.boxing.boxes if extras else None
        opened = {name: Source(name, choose) for name in dict.fromkeys(name for name, _ in request.infiles)}
        parts = [[(opened[name], k) for k in opened[name].taken(ranges)] for name, ranges in request.infiles]
        self.row = extras.row(parts) if extras else [page for part in parts for page in part]
        self.sources, self.sheets, self.report = list(opened.values()), list[Sheet](), ""
        self.shown, self.others = list[Source](), list[Source]()  # those whose pages are on sheets; some aren't INFILEs
        OPENED.update(opened)

    def measure(self, program: str) -> None:
        """Gets impose ready for the sizes of the pages."""
        sizes = [source.size(k) for source, k in self.row]
        self.sizes = self.extras.sizes(sizes) if self.extras else sizes
        of_first = [size for size, (source, _) in zip(self.sizes, self.row) if source is self.row[0][0]]
        self.imposer = Imposer(program, self.request, self.sizes, usual(of_first))

    def look(self) -> bytes:
        """The text or the drawing that is asked for in place of sheets."""
        text, self.report = self.imposer.run()
        return text

    def lay(self) -> None:
        """Finds the sheets, how they are turned on a screen, and the edge on which they are flipped."""
        self.sheets, self.report = self.imposer.sheets(*(self.extras.more if self.extras else []))
        self.turned, self.flip = turn_to_read(self.request, self.sheets), self.imposer.flip()

    def blaming(self) -> AbstractContextManager[None]:
        """Names the INFILEs where what is in them can't be put on sheets."""
        return blaming([name for name, _ in self.request.infiles], *OF_PIKEPDF)

    def write(self, outfile: Outfile) -> None:
        """Makes the sheets, and writes them."""
        making = Making(self.row, self.extras is not None and self.extras.draws)
        with self.blaming():
            if self.extras:
                self.extras.dress(making, self.sheets)
            if len(self.sources) > 1 or making.others:  # what is brought between PDFs is copied by recursion
                deeply(lambda: making.make(self.sheets, self.turned, self.flip))
            else:
                making.make(self.sheets, self.turned, self.flip)
            outfile.write(making.pdf)
        self.shown, self.others = making.sources + making.others, making.others

    def lost(self) -> str:
        """The lines on what isn't kept, and on what isn't drawn as it should be, or nothing."""
        return "".join(source.lost() for source in self.shown)

    def told(self) -> str:
        """The lines on what was mended, and the report."""
        names, pages = {source.name for source in self.sources}, sum(len(source.pages) for source in self.sources)
        warnings = warnings_of(self.sources + [source for source in self.others if source.name not in names])
        return warnings + reported(self.report, len(set(self.sizes)) == 1, len(set(self.row)), pages)
