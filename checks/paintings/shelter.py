"""The guard put into a document, and the premises of the laws about guarded documents, by running the second machine.

specs/Pages, Shelter, OwnShowpage and Silenced of crates/pictures have the definitions. A premise has its words, and what is
wrong, or None if it is met."""
import re
from pathlib import Path
from law import left_set, newer, on_all_sheets
from machine import (ELEMENTS, READ_ONLY, USERDICT, Bound, Dictionary, Graphics, Literal, Machine, Matrix, Name, Number, Operator, Procedure, Saved,
                     Scanner, Snapshot, Stopped, Truth, is_complete)
from parts import comments_apart, drops_in_header, drops_in_page, is_comment, key_of, line_at

ROOT = Path(__file__).resolve().parent.parent.parent
LOOKED_UP = b"userdict systemdict false put [ ] concat newpath moveto lineto closepath clip gsave setlinewidth stroke grestore".split()
FIRST = b"userdict systemdict put [ ] concat newpath moveto lineto closepath".split()
OUTLINE = b"systemdict moveto lineto curveto closepath".split()
GUARDED, OWN, SILENCED = "guarded", "own showpage", "silenced"


def guard(width, height, further):
    """The text of docs/GUARD.md, with the sheet's size. further.py doesn't know which papers' names exist: without their line."""
    text = (ROOT / "docs/GUARD.md").read_text()
    block = re.search(r"```\n(%%BeginResource.*?%%EndResource\n)```", text, re.S)[1]
    if further:
        block = re.sub(r"\[/letter .*? forall\n", "", block, flags=re.S)
    return block.replace("[W H]", f"[{width} {height}]").encode()


def header_len(text):
    """The first line, and the comments after it, up to and including %%EndComments (crates/dsc/specs/Header)."""
    at = line_at(text, 0)[1]
    while at < len(text):
        content_end, end = line_at(text, at)
        content = text[at:content_end]
        stays = len(content) > 1 and content[:1] == b"%" and 33 <= content[1] <= 126
        ends = key_of(content).startswith(b"%%Begin") or is_comment(b"%%Page", content) or key_of(content) in (b"%%Trailer", b"%%EOF")
        if not stays or ends:
            break
        at = end
        if key_of(content) == b"%%EndComments":
            break
    return at


def guarded(text, paper, further):
    at = header_len(text)
    return text[:at] + (b"" if text[at - 1 : at] in (b"\n", b"\r") else b"\n") + guard(*paper, further) + text[at:]


def procedure(text):
    return Machine(text).item()


class Guard:
    """What the guard's text defines, by name."""

    def __init__(self, paper, further):
        m = Machine(b"%!\n" + guard(*paper, further), further=bool(further)).run()
        self.means = dict(m.entries[USERDICT])
        self.clip = m.entries[self.means[b"ImposeGuard"].number][b"clip"]
        w, h = paper
        self.outline = procedure(b"{0 0 moveto %d 0 lineto %d %d lineto 0 %d lineto closepath}" % (w, w, h, h))

    def own(self, m, name):
        """Whether a name means what the guard has it mean."""
        return m.found(name) == self.means[name]


def absent(m, name, first=()):
    return not any(name in m.entries[d] for d in (*first, *m.dictionaries))


def holder(m, name):
    return next((d for d in reversed(m.dictionaries) if name in m.entries[d]), None)


def form(m):
    """Which of the laws may speak of it, by whose showpage is found first."""
    first = holder(m, b"showpage")
    if first is not None and first != USERDICT:
        return OWN
    return SILENCED if m.entries[USERDICT].get(b"showpage") == Procedure([]) else GUARDED


def is_operator(o):
    return o == Operator(b"showpage")


def names_are_the_guards(m, g):
    wrong = [name.decode() for name in (b"save", b"ImposeGuard", b"ImposePath") if not g.own(m, name)]
    wrong += [name.decode() for name in LOOKED_UP if not absent(m, name, (USERDICT,))]
    marks = m.found(b"ImposeGuard")
    if isinstance(marks, Dictionary):
        wrong += [] if m.entries[marks.number].get(b"clip") == g.clip else ["ImposeGuard's clip"]
        wrong += [f"{name.decode()} in ImposeGuard" for name in FIRST if name in m.entries[marks.number]]
    wrong += [] if m.found(b"PStoPSenablepage") == Truth(True) else ["PStoPSenablepage"]
    wrong += [] if is_operator(m.found(b"ImposeShow")) else ["ImposeShow"]
    return f"these don't: {', '.join(wrong)}" if wrong else None


def showpage_is(m, g):
    which, in_userdict = form(m), m.entries[USERDICT].get(b"showpage")
    if which == OWN and READ_ONLY in m.entries[holder(m, b"showpage")]:
        return "the dictionary with its own can't be written"
    if which != SILENCED and in_userdict != g.means[b"showpage"]:
        return "userdict has another"
    return None if USERDICT in m.dictionaries else "userdict isn't on the stack"


def ground(document, g, further):
    """The premises on the guarded preamble (`GuardedPreambleRuns`, `IsGuarded`), whether it runs, and which law may speak of it."""
    found = [
        ("the preamble ends between tokens", None if is_complete(document.preamble) else "a string, comment or word is open at its end"),
        ("no comment that is dropped from it is within a string, or has a form feed in it",
         None if comments_apart(document.preamble, drops_in_header) else "one is"),
    ]
    m = Machine(document.preamble, further=further)
    try:
        m.run()
    except Stopped as stopped:
        return [*found, ("the preamble runs", f"it stops at {stopped}")], None
    reset = left_set(m.graphics)
    return [
        *found,
        ("the preamble runs", None),
        ("it paints and prints nothing", None if not m.painted and not m.sheets else "it does"),
        ("the names mean what the guard has them mean", names_are_the_guards(m, g)),
        ("showpage is the guard's, or one in a writable dictionary", showpage_is(m, g)),
        ("the graphics state is as initgraphics makes it (a font may be set)", reset),
        ("no string, array, procedure or font is on the operand stack", newer(m)),
        *(on_all_sheets(m, document, True) if form(m) == GUARDED else ()),
    ], form(m)


class Sheltered(Machine):
    """A page of a guarded document by itself (`step_on`): it has no place, and its initclip, initgraphics, currentmatrix and setmatrix work."""

    guards = None

    def done(self, o, name=b""):
        g = self.guards
        if name == b"initclip" and o == g.means[name]:
            self.keeps(self.is_drawn_anew())
            self.made += 1
            self.fill(self.made, self.graphics.chain)
            self.set_to(clip=())
        elif name == b"initgraphics" and o == g.means[name]:
            self.keeps(True)
            self.reset()
        else:
            super().done(o, name)

    def keeps(self, path):
        """`keeps_the_page`."""
        g, matrix = self.guards, self.found(b"PStoPSmatrix")
        there = isinstance(matrix, Matrix) and self.kept.get(matrix.number) == () and self.found(b"PStoPSclip") == g.outline
        outer = self.found(b"ImposeOuter")
        names = g.own(self, b"ImposeClip") and g.own(self, b"ImposePath") and all(absent(self, name) for name in OUTLINE)
        if not (path and there and names and isinstance(outer, Number) and outer.text == b"0"):
            raise Stopped("what the guard keeps of the page, or its path")

    def is_drawn_anew(self):
        path = self.graphics.path
        for segment, following in zip(path, [*(s.call.name for s in path[1:]), b""]):
            name = segment.call.name
            twice = name == b"moveto" and following == b"moveto"
            goes_on = name == b"closepath" and following not in (b"moveto", b"")
            if name not in ELEMENTS or segment.settings or segment.chain != self.graphics.chain or twice or goes_on:
                return False
        return True

    def perform(self, name):
        self.held = name not in (b"currentmatrix", b"setmatrix")
        super().perform(name)


def at_page(document, number, g, which, further):
    """The machine where a page begins (`sheltered`), and what it must leave."""
    m = Machine(document.preamble, further=further).run()
    if which == OWN:
        asks = Procedure([Name(b"userdict"), Literal(b"showpage"), Bound(b"get"), Bound(b"exec")])
        m.put(holder(m, b"showpage"), b"showpage", asks)
    left = (list(m.operands), list(m.dictionaries), m.level)
    m.made += 1
    for name, value in {b"ImposeSave": Saved(m.level), b"showpage": Procedure([]), b"PStoPSmatrix": Matrix(m.made), b"PStoPSclip": g.outline,
                        b"PStoPSenablepage": Truth(False)}.items():
        m.put(USERDICT, name, value)
    m.kept, m.level = {m.made: ()}, m.level + 2
    m.graphics = Graphics(settings=m.graphics.settings)
    m.saves, m.stacked, m.painted, m.sheets = [Snapshot(m.level - 1, len(m.journal), m.made, m.graphics, [])], [], [], []
    m.scanner = Scanner(document.pages[number], further)
    m.__class__, m.guards = Sheltered, g
    return m, left


def page(document, number, g, which, further):
    """What is wrong with a page (`GuardedPagePaints`), None if nothing is."""
    m, (operands, dictionaries, level) = at_page(document, number, g, which, further)
    try:
        m.run()
    except Stopped as stopped:
        return f"it stops at {stopped}"
    if m.operands != operands or m.dictionaries != dictionaries:
        return "it doesn't leave both stacks as they were"
    if any(shot.level == level for shot in m.saves) or m.found(b"ImposeSave") != Saved(level) or m.found(b"restore") != Operator(b"restore"):
        return "it takes the sheet's save, or restore"
    if not is_complete(document.pages[number]):
        return "it doesn't end between tokens"
    return None if comments_apart(document.pages[number], drops_in_page) else "a comment that is dropped from it is within a string"
