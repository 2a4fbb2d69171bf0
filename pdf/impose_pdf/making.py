"""The PDF of sheets: that of the first INFILE, with sheets in place of its pages, and with what others have."""

from collections import Counter
from collections.abc import Iterator
from typing import Any

from pikepdf import Array, Dictionary, Name, String

from impose_pdf import digits, outlines
from impose_pdf.document import Source
from impose_pdf.labels import label
from impose_pdf.losses import TAGS
from impose_pdf.pages import array, drop, keys_of
from impose_pdf.plan import Placed, Sheet
from impose_pdf.sheets import drawing, preferences
from impose_pdf.trees import add_layers, free, tree_of
from impose_pdf.units import in_units
from impose_pdf.whole import Whole, is_page

# What the catalog keeps. Threads, scripts and signatures go, and all by which an old page could stay.
KEPT = {
    *("/Type", "/Version", "/Extensions", "/PageMode", "/Metadata", "/Lang", "/OCProperties", "/OutputIntents", "/AF"),
    *("/URI", "/Collection"),
}
OF_TAGS = {"/StructTreeRoot", "/MarkInfo"}
KEPT_OF_TRAILER = {"/Root", "/Info", "/ID", "/Size", "/Encrypt"}
PRODUCER = "impose-pdf"  # the mark by which its own sheets are known


class Making:
    """Sheets being made of the pages of INFILEs, which follow one another in a row."""

    def __init__(self, row: list[tuple[Source, int]], draws: bool = False):
        self.draws = draws  # something on pages that isn't theirs, or a part of them
        self.has_labels = True
        self.others = list[Source]()  # PDFs of which something is on sheets, but no pages
        self.added = dict[str, dict[str, Any]]()  # resources of sheets
        self.row, self.sources, self.pdf = row, list(dict.fromkeys(source for source, _ in row)), row[0][0].pdf
        self.annotations: dict[object, Any] = {}  # of sheets, by the links on them and their places
        for source in self.sources:
            source.prepare(self.pdf)
        self.whole = Whole(self.pdf)

    def make(self, sheets: list[Sheet], turned: int, flip: str) -> None:
        """Puts sheets in place of the pages, and leads everything to them."""
        shown = {(source, k) for sheet in sheets for source, k, _ in self.placed(sheet)}
        for source in self.sources:
            source.find_unshown(shown)
        if any(sheet.numbers for sheet in sheets):
            self.font = Dictionary(Numbers=digits.font(self.pdf))
        kept = self.kept(sheets) if not turned and not self.draws else set[int]()
        self.whole.is_tagged = len(self.sources) == 1 and len(kept) == len(self.sources[0].pages)
        sheets = [sheet if k in kept else in_units(sheet) for k, sheet in enumerate(sheets)]
        pages = [self.kept_page(sheet) if k in kept else self.page(sheet, turned) for k, sheet in enumerate(sheets)]
        self.lead([(sheet, page) for k, (sheet, page) in enumerate(zip(sheets, pages)) if k not in kept])
        tree = self.pdf.make_indirect(Dictionary(Type=Name.Pages, Kids=Array(pages), Count=len(pages)))
        for page in pages:
            page.Parent = tree
        names = (label((source.labels, k) for source, k, _ in self.placed(sheet)) for sheet in sheets)
        labels = [part for k, name in enumerate(names) for part in (k, Dictionary(P=String(name)))]
        self.enter(
            {
                "/Pages": tree,
                "/PageLabels": Dictionary(Nums=Array(labels)) if self.has_labels else None,
                "/ViewerPreferences": preferences(self.pdf.Root.get("/ViewerPreferences"), flip),
                "/Outlines": self.outlines(),
                "/Names": self.names(),
                "/Dests": self.sources[0].ways.led_names() or None,
                "/OpenAction": self.opening(),
                "/AcroForm": self.whole.form.entry(),
            }
        )
        if self.whole.is_tagged:
            del self.sources[0].losses.found[TAGS]
        self.settle_claims(pages)
        for source in self.sources:
            source.losses.add_scripts(source.ways.scripts)
            source.losses.add_links(source.links.shared)
            source.keep_warnings()

    def settle_claims(self, pages: list[Any]) -> None:
        """Takes away claims that don't hold of the sheets. Few PDFs have claims or XMP."""
        if "/Metadata" in self.pdf.Root or any(key.startswith(("/GTS_", "/ISO_")) for key in keys_of(self.pdf.docinfo)):
            from impose_pdf import claims

            lost = claims.settle(self.pdf, pages, len(self.sources + self.others) == 1, self.whole.is_tagged)
            self.sources[0].losses.add_claims(lost)

    def kept(self, sheets: list[Sheet]) -> set[int]:
        """The sheets that are pages themselves, each of which is on no other sheet, and shares no annotations."""
        alone = {at: self.row[sheet.placed[0].page] for at, sheet in enumerate(sheets) if len(sheet.placed) == 1}
        found = {at: place for at, place in alone.items() if is_page(sheets[at], *place)}
        places = [place for sheet in sheets for place in self.placed(sheet)] if found else []
        uses = Counter(thing for source, k, _ in places for thing in source.held_by(k))
        return {at for at, (source, k) in found.items() if all(uses[thing] == 1 for thing in source.held_by(k))}

    def kept_page(self, sheet: Sheet) -> Any:
        """The page that is a sheet."""
        return self.whole.page(sheet, *self.row[sheet.placed[0].page])

    def lead(self, sheets: list[tuple[Sheet, Any]]) -> None:
        """Leads what leads to pages, and the links on sheets, each of which is a page, and on pages that are kept."""
        taken: dict[bytes, int] = {}
        for source in self.sources:
            source.ways.lead_names(source.root, taken)
        for source, k in self.row:
            source.find_links(k)
        for sheet, page in sheets:
            if (links := self.links(sheet)) is not None:
                page.Annots = links
        self.whole.lead()
        self.layers()

    def placed(self, sheet: Sheet) -> Iterator[tuple[Source, int, Placed]]:
        """The pages on a sheet: the INFILE and the number there of each, and how it is placed."""
        for placed in sheet.placed:
            yield *self.row[placed.page], placed

    def page(self, sheet: Sheet, turned: int) -> Any:
        """A sheet as a page, without links, which need to know where all pages are."""
        forms = {f"/P{placed.page}": source.form(k) for source, k, placed in self.placed(sheet)}
        resources = Dictionary(XObject=Dictionary(forms))
        if sheet.numbers:
            resources.Font = self.font
        for key, things in self.added.items():
            resources[key] = Dictionary({**(resources[key].as_dict() if key in resources else {}), **things})
        made = Dictionary(Type=Name.Page, MediaBox=array(0, 0, *sheet.paper), Resources=resources)
        made.Contents = self.pdf.make_stream(drawing(sheet))
        for key, box in sheet.boxes.items():
            made[key] = array(*box)
        if turned:
            made.Rotate = turned
        if sheet.unit > 1:
            made.UserUnit = sheet.unit
        made = self.pdf.make_indirect(made)
        for source, k, placed in self.placed(sheet):
            source.ways.places.setdefault(k, []).append((made, sheet.paper, placed))
        return made

    def links(self, sheet: Sheet) -> Any:
        """The links on a sheet, or None. Sheets that have the same ones at the same places share their array."""
        places = [source.links_at(k, placed, sheet.paper) for source, k, placed in self.placed(sheet)]
        key = tuple(place for found in places for place in found)
        if key not in self.annotations:
            links = [link for held, matrix, cut in key for link in held.placed(matrix, cut)]
            self.annotations[key] = self.pdf.make_indirect(Array(links)) if links else None
        return self.annotations[key]

    def outlines(self) -> Any:
        """The outlines of all INFILEs, one after the other."""
        made = self.pdf.make_indirect(Dictionary(Type=Name.Outlines))
        roots = [(source.ways, source.root.get("/Outlines")) for source in self.sources]
        outlines.hang(made, [item for ways, root in roots for item in outlines.items(ways, root, 0, set())], True)
        return made if "/First" in made else None

    def names(self) -> Any:
        """The names and attachments of all INFILEs. An attachment whose name is taken gets another one."""
        taken: dict[bytes, int] = {}
        dests = {name: dest for source in self.sources for name, dest in source.ways.dests.items()}
        files = {free(name, taken): file for source in self.sources for name, file in source.attachments()}
        trees = {"/Dests": dests, "/EmbeddedFiles": files}
        return Dictionary({key: tree_of(things) for key, things in trees.items() if things}) or None

    def opening(self) -> Any:
        """What is done when the PDF is opened."""
        ways, old = self.sources[0].ways, self.pdf.Root.get("/OpenAction")
        return ways.lead(old) if isinstance(old, Array) else ways.lead_action(old)

    def layers(self) -> None:
        """Adds the layers of the other INFILEs to those of the first."""
        found = [(source.ways, source.root.get("/OCProperties")) for source in self.sources[1:]]
        found += [(source.ways, source.root.get("/OCProperties")) for source in self.others]
        add_layers(self.pdf.Root, [ways.brought(layers) for ways, layers in found if isinstance(layers, Dictionary)])

    def enter(self, entries: dict[str, Any]) -> None:
        """Gives the catalog its new entries, and takes away what isn't kept, the old pages too."""
        drop(self.pdf.Root, set(keys_of(self.pdf.Root)) - KEPT - (OF_TAGS if self.whole.is_tagged else set()))
        for key, value in entries.items():
            if value is not None:
                self.pdf.Root[key] = value
        for page, _ in self.sources[0].pages:  # whatever else refers to one keeps nothing of it in the file
            if not self.whole.has(page):
                drop(page, set(keys_of(page)))
        if not isinstance(self.pdf.trailer.get("/Info", Dictionary()), Dictionary):
            del self.pdf.trailer.Info
        self.pdf.docinfo.Producer = String(PRODUCER)
        self.pdf.trailer.Size = 0  # without one, qpdf writes none
        drop(self.pdf.trailer, set(keys_of(self.pdf.trailer)) - KEPT_OF_TRAILER)
