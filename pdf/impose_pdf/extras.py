"""What is asked for that impose doesn't do: it computes sheets, and these words say more of what is on them."""

from impose_pdf import rows, unbooklet
from impose_pdf.boxes import Boxing, give_boxes
from impose_pdf.cropping import Cropping
from impose_pdf.document import Source
from impose_pdf.making import Making
from impose_pdf.passwords import read_passwords
from impose_pdf.plan import Sheet, Size
from impose_pdf.unbooklet import OF_STAMPS
from impose_pdf.words import Request


class Extras:
    """The words of a request that are about what is on sheets."""

    def __init__(self, request: Request):
        self.request, self.boxing, self.stamps = request, Boxing(request), None
        self.cropping = Cropping(request) if "--crop" in request.own else None
        self.is_unbooklet = "--unbooklet" in request.own
        self.turns = rows.Turns(request.own.get("--turn", []))
        read_passwords(request)
        self.marks = None
        if "--marks" in request.own or "--marks" in request.options:
            from impose_pdf.marks import Marks

            self.marks = Marks(request)
        if any(option in request.own for option in OF_STAMPS):
            from impose_pdf.stamps import Stamps

            self.stamps = Stamps(request)

    @property
    def draws(self) -> bool:
        """Whether no page is a sheet as it is."""
        is_marked = self.marks is not None and bool(self.marks.own)
        return self.boxing.draws or is_marked or self.stamps is not None or self.cropping is not None

    @property
    def more(self) -> list[str]:
        """Options of impose that are needed besides."""
        return self.stamps.more if self.stamps else []

    def row(self, parts: list[list[tuple[Source, int]]]) -> list[tuple[Source, int]]:
        """The pages of INFILEs."""
        row = rows.laid(self.request, parts)
        if self.cropping:
            self.cropping.crop(row)
        self.turns.find(len(row))
        return row

    def sizes(self, sizes: list[Size]) -> list[Size]:
        """The sizes of pages as they lie."""
        sizes = [self.turns.size(k, size) for k, size in enumerate(sizes)]
        if self.is_unbooklet:
            unbooklet.ask(self.request, sizes)
        return sizes

    def dress(self, making: Making, sheets: list[Sheet]) -> None:
        """Gives sheets what is asked for."""
        if self.is_unbooklet:
            making.has_labels = False
            sheets[:] = unbooklet.in_order(self.request, sheets)
        if self.stamps:
            self.stamps.put(making, sheets)
        for sheet in sheets:
            pages = [making.row[placed.page] for placed in sheet.placed]
            for placed, (source, k) in zip(sheet.placed, pages):
                self.turns.turn(placed, source.shapes[k].size)
            if self.boxing.bleed:
                self.boxing.let_out(sheet, [source.shapes[k] for source, k in pages])
            if "cut" in self.request.options.get("--marks", "").split(","):
                give_boxes(sheet, self.request.command == "poster")
        if self.marks:
            self.marks.put(making, sheets)
