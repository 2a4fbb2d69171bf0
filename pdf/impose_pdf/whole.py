"""Pages that are kept as they are: each is alone on a sheet, at its own place and size, with nothing over it."""

from copy import copy
from typing import Any

from pikepdf import Array, Dictionary, Name, Pdf

from impose_pdf import acroform
from impose_pdf.document import Source
from impose_pdf.pages import UPRIGHT, box_of, drop, keys_of
from impose_pdf.plan import Sheet

# What a page keeps. Beads of threads, tags, scripts and separations lead to other pages, or to what isn't there.
KEPT = {
    *("/Type", "/Contents", "/Resources", "/MediaBox", "/CropBox", "/BleedBox", "/TrimBox", "/ArtBox", "/Rotate"),
    *("/UserUnit", "/Group", "/BoxColorInfo", "/Thumb", "/Trans", "/Dur", "/Metadata", "/PieceInfo", "/LastModified"),
    *("/Tabs", "/PZ", "/VP", "/ID", "/AF", "/Annots"),
}
NEAR = 1e-4  # points, or parts of a matrix


def is_page(sheet: Sheet, source: Source, k: int) -> bool:
    """Whether a sheet is this page, as it is."""
    (placed,) = sheet.placed
    if placed.border or sheet.strokes or sheet.numbers:
        return False
    size, (page, entries) = source.shapes[k].size, source.pages[k]
    found, own = (*sheet.paper, *placed.paper, *placed.matrix), (*size, *size, *UPRIGHT)
    media = box_of(entries.get("/MediaBox"))
    is_sound = page.is_indirect and media is not None and media[0] < media[2] and media[1] < media[3]
    return is_sound and all(abs(a - b) < NEAR for a, b in zip(found, own))


def annotations(page: Any) -> list[Any]:
    """The annotations of a page."""
    found = page.get("/Annots")
    return list(found) if isinstance(found, Array) else []


class Whole:
    """The pages that are kept, in the PDF that is made."""

    def __init__(self, made: Pdf):
        self.made, self.pages = made, list[tuple[Source, Any, Any]]()
        self.form = acroform.Form(made)
        self.is_tagged = False
        self.kept = set[tuple[int, int]]()

    def has(self, page: Any) -> bool:
        """Whether a page is one that is kept."""
        return page.objgen in self.kept

    def page(self, sheet: Sheet, source: Source, k: int) -> Any:
        """A page as a sheet, without its ways, which need to know where all pages are."""
        old, entries = source.pages[k]
        is_own = source.pdf is self.made
        made = old if is_own else source.pdf.make_indirect(copy(old))
        drop(made, set(keys_of(made)) - KEPT - ({"/StructParents"} if self.is_tagged else set()))
        made.Type = Name.Page
        for key, value in entries.items():
            made[key] = value
        if not any("/AP" in one for one in annotations(made) if isinstance(one, Dictionary)):
            source.forms.leave_out([made])
        source.losses.look_at_whole(old, [one for one in annotations(made) if isinstance(one, Dictionary)])
        if not is_own:  # a page itself can't be brought
            del made.Type
            made = source.ways.brought(made)
            made.Type = Name.Page
        source.ways.places.setdefault(k, []).append((made, sheet.paper, sheet.placed[0]))
        source.ways.whole.add(k)
        self.pages.append((source, annotations(old), made))
        self.kept.add(made.objgen)
        return made

    def lead(self) -> None:
        """Leads what leads somewhere from the pages, and takes their fields into the form of the PDF."""
        for source, old, page in self.pages:
            pairs = list(zip(old, annotations(page)))
            kept = [new for before, new in pairs if self.keeps(source, before, new, page)]
            drop(page, {"/Annots"})
            if kept:
                page.Annots = Array(kept)
            self.form.add(source, [one for one in kept if one.get("/Subtype") == Name.Widget and one.is_indirect])

    def keeps(self, source: Source, old: Any, new: Any, page: Any) -> bool:
        """Whether an annotation stays; it then leads to sheets. A link does if it leads anywhere."""
        if not isinstance(new, Dictionary) or not box_of(old.get("/Rect")) or old.get("/Type") == Name.Page:
            return False
        led = source.ways.lead_holder(old)
        if led is None and old.get("/Subtype") == Name.Link:
            drop(new, set(keys_of(new)))  # as tags may refer to it
            return False
        lost = {"/AA", "/PA", "/Dest", *(() if self.is_tagged else ("/StructParent",))}
        drop(new, lost if old.get("/Subtype") == Name.Movie else lost | {"/A"})
        if led is not None:
            new[led[0]] = led[1]
        new.P = page
        return True
