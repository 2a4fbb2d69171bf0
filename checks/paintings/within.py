"""Which law about pictures speaks of a document, by running the second machine: outright, or given further operators; or none, and why.

The closed machine is tried first, then that with the table of operators on values (values.py), both of which need nobody's word; then the open one,
with any further operators, of crates/open_pictures. The operators are noted that a run uses. names.tsv says of each whether it looks at where the page
is."""
import copy
import re
from dataclasses import dataclass, field
from pathlib import Path
import further as more
import law
import shelter
import stubs
from machine import PROVED, SYSTEMDICT, Dictionary, Font, Machine, Operands, Scanner, Stopped, SystemDictionary, is_six_numbers
from parts import Document
from values import VALUES

HERE = Path(__file__).resolve().parent
PAPER = (595, 842)
PREAMBLE, PAGES = "preamble", "pages"
AT_NAME = "the name "
# Operators that read or fill a matrix that is among so many operands.
OF_MATRICES = {b"forall": 2, b"get": 2, b"put": 3, b"aload": 1, b"astore": 1, b"makefont": 1, b"concat": 1, b"getinterval": 3, b"putinterval": 3,
               b"identmatrix": 1, b"translate": 3, b"scale": 3, b"rotate": 2, b"concatmatrix": 3, b"invertmatrix": 2,
               b"transform": 1, b"itransform": 1, b"dtransform": 1, b"idtransform": 1}
# What is a font there is a dictionary here.
AS_FONTS = {b"findfont", b"scalefont", b"setfont", b"selectfont"}
OPEN = "open_pictures::laws::"
DRESSED = "open_pictures::laws::"
LAWS = {
    (False, None): f"pictures::laws::sheets_show_the_pages, {DRESSED}dressed_sheets_show_the_pages",
    (True, None): f"{OPEN}open_sheets_show_the_pages, {DRESSED}open_dressed_sheets_show_the_pages",
    (False, shelter.GUARDED): f"pictures::laws::guarded_document_is_shown, {DRESSED}dressed_document_is_shown",
    (True, shelter.GUARDED): f"{OPEN}open_guarded_document_is_shown, {DRESSED}open_dressed_document_is_shown",
    (False, shelter.OWN): "pictures::laws::own_showpage_is_shown, own_made_document_is_shown",
    (True, shelter.OWN): f"{OPEN}open_own_showpage_is_shown, open_own_made_document_is_shown",
    (False, shelter.SILENCED): "pictures::laws::silenced_document_is_shown, silenced_made_document_is_shown",
    (True, shelter.SILENCED): f"{OPEN}open_silenced_document_is_shown, open_silenced_made_document_is_shown",
}
LOOKS = {
    "no": "doesn't look at the place",
    "matrices": "looks at matrices",
    "path": "looks at the path",
    "place": "looks at where the page is",
    "run": "drops what is left to run",
    "text": "reads the text after it",
    "changes": "answers differently each time",
    "unknown": "unknown: not in names.tsv",
}


def names():
    """Of each name what it looks at, the sections of the Reference, and what they say."""
    rows = [line.split("\t") for line in (HERE / "names.tsv").read_text().splitlines() if not line.startswith("#")][1:]
    return {name.encode(): (looks, sections, says) for name, looks, sections, says in rows}


NAMES = names()


# What a further operator is asked of, if its row in names.tsv is of other operands.
OTHERS = {
    b"of another transformation": ("path", "8.2, 4.4.1", "the end of the path, which wasn't written under the current matrix, through its inverse"),
    b"of a matrix": ("matrices", "8.2, 4.3.3", "the matrix was filled by the current one, or by such a matrix"),
    b"by numbers": ("no", "8.2, 4.3.3", "by a matrix of six numbers, not by the current one"),
    b"of other data": ("text", "8.2", "data that isn't digits, or doesn't end in the same part"),
}


def of_table(name):
    plain, _, others = name.partition(b" ")
    return OTHERS.get(others) or NAMES.get(plain, ("unknown", "", ""))


def of_other_operands(m, name):
    """The operator, with what it is asked of, if that matters (OTHERS)."""
    operands = m.operands[-OF_MATRICES[name] :] if name in OF_MATRICES else []
    if any(stubs.holds(m, o) for o in operands):
        return name + b" of a matrix"
    if name.endswith(b"transform") and m.operands and is_six_numbers(m.operands[-1]):
        return name + b" by numbers"
    if name == b"currentpoint" and not stubs.is_written(m.graphics):
        return name + b" of another transformation"
    if name == b"eexec" and not DIGITS.match(m.scanner.text, m.scanner.at):
        return name + b" of other data"
    return name


# What a font is encrypted as, and the end of it: tokens, as all other text.
DIGITS = re.compile(rb"[0-9a-fA-F\s]*cleartomark\s")


def looks_of(name):
    return of_table(name)[0]


def takes(m, name):
    """Whether the closed machine's operator takes the operands. It is tried on a copy that changes nothing."""
    def as_closed(o):
        if isinstance(o, Dictionary):
            return SystemDictionary() if o.number == SYSTEMDICT else Font(()) if more.MARKED in m.entries[o.number] else o
        return o

    probe = copy.copy(m)
    probe.further, probe.frames, probe.asked, probe.put = False, [], set(), lambda *change: None
    probe.operands = [as_closed(o) for o in m.operands[-4:]]
    try:
        PROVED[name](probe)
    except (Operands, Stopped):
        return False
    return True


@dataclass
class Noted:
    """What a run of a document uses beyond the closed machine, and all operators that it calls: by where they are called."""

    preamble: bytes
    further: dict = field(default_factory=lambda: {PREAMBLE: set(), PAGES: set()})
    called: dict = field(default_factory=lambda: {PREAMBLE: set(), PAGES: set()})

    def part(self, m):
        return PREAMBLE if m.scanner.text is self.preamble else PAGES

    def with_those_of(self, other):
        both = {part: self.further[part] | other.further[part] for part in self.further}
        return Noted(self.preamble, both, {part: self.called[part] | other.called[part] for part in self.called})

    def calls(self, m, name):
        part = self.part(m)
        self.called[part].add(name)
        if name in PROVED and name in more.OVER and name not in AS_FONTS and name not in law.LOOKING and name not in self.further[part]:
            if not takes(m, name):
                self.lacks(m, name)
        elif name not in PROVED:
            self.lacks(m, name)

    def lacks(self, m, name):
        self.further[self.part(m)].add(of_other_operands(m, name))

    def finds(self, m, key):
        if key in more.CONSTANTS and key not in (b"systemdict",):
            self.further[self.part(m)].add(key)


@dataclass
class Verdict:
    """A law, or None and why; the further operators, or None in the closed machine."""

    law: str
    why: list
    noted: Noted
    # whether all premises are met, whatever the names; and each of them
    ran: bool
    premises: list
    how: str
    # the names that put it outside: of its pages, of its preamble
    wrong: tuple = (set(), set())


def why_of(part, names):
    return [f"{part}: {'; '.join(f'{name} {looks}' for looks, name in grouped(names))}"] if names else []


def grouped(names):
    kinds = {}
    for name in sorted(names):
        kinds.setdefault(LOOKS[looks_of(name)], []).append(name.decode("latin-1"))
    return [(looks, " ".join(each)) for looks, each in kinds.items()]


def wrong_names(noted, with_guard):
    """Which names put it outside: of pages those that look, and of the preamble those that differ each time."""
    bad = {"place", "path", "text", "changes", "unknown"} | ({"matrices"} if with_guard else set())
    looking = [n for n in noted.called[PAGES] if n in law.LOOKING] if not with_guard else []
    pages = {*looking, *(n for n in noted.further[PAGES] if looks_of(n) in bad)}
    return pages, {n for n in noted.further[PREAMBLE] if looks_of(n) in ("changes", "unknown")}


def by_page(found):
    """What is wrong on which pages: pairs of a page's number and why, or None."""
    reasons = {}
    for number, why in found:
        if why is not None:
            reasons.setdefault(why, []).append(str(number))
    return "; ".join(f"{why} (page {', '.join(numbers)})" for why, numbers in reasons.items()) or None


def opened(words):
    """A premise's words in the open machine, which has other names too."""
    return words.replace(law.NAMES, "runs")


def premises_of(document, further):
    """Without the guard: each premise and what is wrong, and the pages' pictures."""
    premises, runs = law.ground(document, further)
    found = law.pages(document, further) if runs else []
    for premise in law.PAGE_PREMISES if runs else ():
        premises.append((premise, by_page((number, of[1]) for number, (_, of) in enumerate(found, 1) if of is not None and of[0] == premise)))
    if further is not False:
        premises = [(opened(words), wrong) for words, wrong in premises]
    return premises, [picture for picture, _ in found]


# How a document is run.
CLOSED, TABLE, ANY = "closed", "table", "any"


def operators(document, how):
    """What the machine is given besides its own: nothing, the table, or whatever the Reference has, noted."""
    return {CLOSED: False, TABLE: VALUES, ANY: Noted(document.preamble) if how is ANY else None}[how]


def without_guard(text, how):
    stubs.arrays_as_matrices(how is ANY)
    document = Document(text)
    further = operators(document, how)
    premises, pictures = premises_of(document, further)
    why = law.unmet(premises)
    together = None if why or how is ANY else law.together(document, pictures, further)
    named = LAWS[how is not CLOSED, None]
    if how is not ANY and together is None:
        named += f", {'' if how is CLOSED else OPEN}{'' if how is CLOSED else 'open_'}sheets_show_the_document"
    return Verdict(None if why else named, why, further or None, not why, premises, how)


def with_guard(text, how):
    stubs.arrays_as_matrices(False)
    document = Document(shelter.guarded(text, PAPER, how is ANY))
    further, guard = operators(document, how), shelter.Guard(PAPER, how is ANY)
    premises, form = shelter.ground(document, guard, further)
    if form is not None:
        wrong = ((number + 1, shelter.page(document, number, guard, form, further)) for number in range(len(document.pages)))
        premises.append(("each page paints a picture by itself", by_page(wrong)))
    why = law.unmet(premises)
    return Verdict(None if why else LAWS[how is not CLOSED, form], why, further or None, not why, premises, how)


def listed(text):
    """The further operators of a run of the whole document as it is, as far as that goes."""
    stubs.arrays_as_matrices(True)
    document = Document(text)
    noted = Noted(document.preamble)
    m, stopped = Machine(document.preamble, further=noted), []
    for part in (None, *document.pages):
        if part is not None:
            m.scanner, m.frames = Scanner(part, noted), []
        try:
            m.run()
        except Stopped as why:
            stopped.append(str(why))
            if stopped[-1].startswith(AT_NAME):
                noted.further[noted.part(m)].add(stopped[-1].removeprefix(AT_NAME).encode("latin-1"))
    return noted, stopped


def verdict(text, by):
    """By the closed machine, or else with the table, or else by the open one."""
    for how in (CLOSED, TABLE):
        found = by(text, how)
        if found.law:
            return found
    return by(text, ANY)


def answers(text):
    """The verdicts without the guard and with it; the further operators of the document, and at what a run of it stops.

    If no run with further operators meets all premises, the operators are those of a run without them."""
    bare, guarded = verdict(text, without_guard), verdict(text, with_guard)
    opened = [answer for answer in (bare, guarded) if answer.noted]
    whole, stopped = next((answer.noted for answer in opened if answer.ran), None), []
    if opened and whole is None:
        whole, stopped = listed(text)
    for answer in opened:
        answer.wrong = wrong_names(answer.noted if answer.ran else answer.noted.with_those_of(whole), answer is guarded)
        answer.wrong[0].update(n for n in law.LOOKING if f"it stops at {n.decode()} in a page that is held" in " ".join(answer.why))
        answer.law = None if any(answer.wrong) else answer.law
        answer.why += why_of("on its pages", answer.wrong[0]) + why_of("in its preamble", answer.wrong[1])
    return bare, guarded, whole, stopped
