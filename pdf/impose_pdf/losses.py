"""What of a PDF isn't kept on sheets, by kind and count."""

from collections import Counter
from typing import Any

from pikepdf import Array, Dictionary, Name, String

from impose_pdf import notes
from impose_pdf.annotations import MOST_SHARED
from impose_pdf.pages import keys_of, name_of

SIGNATURE, FIELD, UNPRINTED, TEXT, FILE, PLAYED, LINK = (
    *("a signature", "a form field (drawn as it is)", "a note that doesn't print", "the text of a note"),
    *("an attachment of a note", "a film, sound or 3D view", "a link"),
)
TAGS, XFA, SCRIPTS, THREADS, TRANSITIONS, THUMBNAILS, DIRECTION, ENCRYPTION = (
    *("tags", "the XFA form", "scripts", "article threads", "page transitions", "thumbnails", "the reading direction"),
    "the encryption",
)
SHARED = f"links that pages share, after the first {MOST_SHARED:,}"
CLAIMS = {name: f"the claim to be {name}" for name in ("PDF/A", "PDF/UA", "PDF/X", "PDF/VT", "PDF/E")}
# The kinds in the order in which they are said, and several of each.
SEVERAL = {
    SIGNATURE: "{} signatures",
    FIELD: "{} form fields (drawn as they are)",
    UNPRINTED: "{} notes that don't print",
    TEXT: "the texts of {} notes",
    FILE: "{} attachments of notes",
    PLAYED: "{} films, sounds or 3D views",
    LINK: "{} links",
    **{claim: claim for claim in CLAIMS.values()},
    **{kind: kind for kind in (TAGS, XFA, SCRIPTS, THREADS, TRANSITIONS, THUMBNAILS, DIRECTION, ENCRYPTION, SHARED)},
}
ARE_PLAYED = {"/Movie", "/Screen", "/Sound", "/RichMedia", "/3D"}
EVENTS = (
    *("/E", "/X", "/D", "/U", "/Fo", "/Bl", "/PO", "/PC", "/PV", "/PI"),  # of annotations
    *("/K", "/F", "/V", "/C", "/O", "/WC", "/WS", "/DS", "/WP", "/DP"),  # of fields, pages and documents
)
OF_PAGES = {"/A", "/AA", "/OpenAction", "/Trans", "/Dur", "/Thumb"}  # of which something isn't kept
LONGEST = 100  # actions after one another that are looked at


def runs_script(action: Any) -> bool:
    """Whether an action, or one that follows it, is a script."""
    for _ in range(LONGEST):
        if not isinstance(action, Dictionary):
            break
        if action.get("/S") == Name.JavaScript:
            return True
        action = action.get("/Next")
    return False


def has_script(holder: Any) -> bool:
    """Whether a page, an annotation or a catalog has a script."""
    if not any(key in holder for key in ("/A", "/AA", "/OpenAction")):
        return False
    events = holder.get("/AA")
    actions = [events.get(key) for key in EVENTS] if isinstance(events, Dictionary) else []
    return any(map(runs_script, [holder.get("/A"), holder.get("/OpenAction"), *actions]))


def is_signature(value: Any) -> bool:
    """Whether the value of a field is a signature."""
    return isinstance(value, Dictionary) and "/ByteRange" in value


def signatures(form: Any) -> int:
    """The number of signatures among the fields of a form."""
    seen, left, found = set(), [form.get("/Fields")], 0
    while left:
        one = left.pop()
        if not isinstance(one, (Array, Dictionary)) or one.objgen in seen:
            continue
        if one.is_indirect:
            seen.add(one.objgen)
        if isinstance(one, Array):
            left += list(one)
        else:
            found += is_signature(one.get("/V"))
            left.append(one.get("/Kids"))
    return found


def is_shown_anew(page: Any) -> bool:
    """Whether a page comes with a transition, or goes by itself."""
    transition = page.get("/Trans")
    return "/Dur" in page or isinstance(transition, Dictionary) and transition.get("/S", Name.R) != Name.R


class Losses:
    """What isn't kept of a PDF."""

    def __init__(self, root: Any, is_encrypted: bool):
        self.found, self.fields = Counter[str](), set[tuple[int, int]]()
        form, names, threads = (root.get(key) for key in ("/AcroForm", "/Names", "/Threads"))
        wishes = root.get("/ViewerPreferences")
        if isinstance(form, Dictionary):
            self.found[SIGNATURE] = signatures(form)
            self.found[XFA] = "/XFA" in form
        self.found[TAGS] = isinstance(root.get("/StructTreeRoot"), Dictionary)
        self.found[SCRIPTS] = has_script(root) or isinstance(names, Dictionary) and "/JavaScript" in names
        self.found[THREADS] = isinstance(threads, Array) and len(threads)
        self.found[DIRECTION] = isinstance(wishes, Dictionary) and wishes.get("/Direction") == Name.R2L
        self.found[ENCRYPTION] = is_encrypted

    def look_at(self, page: Any, links: list[Any], others: list[Any]) -> None:
        """Counts what isn't kept of a page that is drawn on a sheet, with these links and other annotations."""
        acting = [link for link in links if "/AA" in link]  # their own actions are looked at as they are led
        if not OF_PAGES.isdisjoint(keys_of(page)):
            acting.append(page)
            self.found[TRANSITIONS] += is_shown_anew(page)
            self.found[THUMBNAILS] += "/Thumb" in page
        self.found[SCRIPTS] += sum(map(has_script, [*acting, *others]))
        for note in others:
            kind = name_of(note.get("/Subtype"))
            if kind == "/Widget":
                self.count_field(note)
            elif kind != "/Link":
                self.found.update(kinds_of(note, kind))

    def look_at_whole(self, page: Any, annotations: list[Any]) -> None:
        """Counts what isn't kept of a page that is kept itself, with these annotations."""
        self.found[SCRIPTS] += sum(map(has_script, [page, *annotations]))

    def add_scripts(self, count: int) -> None:
        """Counts the scripts that links and outlines lead to."""
        self.found[SCRIPTS] += count

    def add_links(self, shared: int) -> None:
        """Notes whether pages share more links than are kept."""
        self.found[SHARED] += shared > MOST_SHARED

    def count_field(self, note: Any) -> None:
        """Counts the field of a place where it is shown, once."""
        above = note.get("/Parent")
        field = above if "/T" not in note and isinstance(above, Dictionary) else note
        is_signed = is_signature(notes.entry_of(note, "/V"))
        self.found[FIELD] += field.objgen not in self.fields and not is_signed
        if field.is_indirect:
            self.fields.add(field.objgen)

    def add_claims(self, names: set[str]) -> None:
        """Adds claims that don't hold of the sheets."""
        self.found.update(CLAIMS[name] for name in names)

    def line(self, which: str) -> str:
        """The line on what isn't kept, or nothing."""
        said = [kind if self.found[kind] == 1 else many.format(self.found[kind]) for kind, many in self.all_kinds()]
        return f"impose-pdf: {which}: not kept: {', '.join(said)}\n" if said else ""

    def all_kinds(self) -> list[tuple[str, str]]:
        """The kinds that there are."""
        return [(kind, many) for kind, many in SEVERAL.items() if self.found[kind]]


def kinds_of(note: Any, kind: str) -> list[str]:
    """What isn't kept of a note, of a kind of its own or any other."""
    if kind in ARE_PLAYED:
        return [PLAYED]
    text = note.get("/Contents")
    of_file = [FILE] * (kind == "/FileAttachment")
    if notes.appearance(note) is None:
        return [UNPRINTED] * (not notes.is_printed(note)) + of_file
    has_text = isinstance(text, String) and (text.is_indirect or len(bytes(text)) > 0)
    return [TEXT, *of_file] if has_text and kind != "/FreeText" else of_file
