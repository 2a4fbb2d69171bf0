"""The premises of `sheets_show_the_document` of crates/pictures, by running the second machine; and what the law says, checked
in a run of an output. specs/Sheets, Documents, Kept, Unaware and DocumentRun of the crate have the definitions.

A premise has its words, which are those of docs/PICTURES.md, and what is wrong, or None if it is met."""
from dataclasses import replace
from machine import ALWAYS, FONTS, PROVED, USERDICT, Machine, Name, Saved, Scanner, Snapshot, Stopped, is_complete
from parts import Document, comments_apart, drops_beside_lines, drops_in_header, drops_in_page, first_is_complete

# `sheet_names` of specs/Sheets; `restore` is checked after each page.
SHEET_NAMES = b"showpage userdict save put [ ] concat newpath moveto lineto closepath clip gsave setlinewidth stroke grestore".split()
PUT_NAMES = {b"showpage", b"ImposeSave"}
# `marking_names`, `sizing_names` and `asking_names` of crates/open_pictures: those of a sheet's own strokes, and of the lines that set its size.
MARKING = b"gsave setgray setlinewidth [ ] setdash newpath moveto lineto stroke grestore".split()
SIZING = b"where pop ifelse systemdict known and if dict dup [ ] put get exec".split()
ASKING = b"userdict copy true".split()
NAMED = "on sheets that report their paper: no %%DocumentPaperSizes is within a string, or has a form feed in it"
MARKED = "on sheets with marks or lines for notes: the names of these mean the operators"
SIZED = "on sheets of several papers: the names of the lines that set them mean the operators"
LOOKING = set(b"""initgraphics currentmatrix setmatrix defaultmatrix initmatrix initclip clippath pathforall setpagedevice erasepage
copypage""".split())
NAMES = f"uses the machine's {len(PROVED) + len(ALWAYS)} names alone"
# The premises on each page.
USES = f"each page {NAMES}"
CALLS = "each page calls showpage by its name, when it runs"
BEHIND = "what follows showpage paints and prints nothing"
RESETS = "no page runs initgraphics, or another operator that looks at where it is or puts it back"
TAKES_BACK = "no page takes back what it didn't push or save"
LEAVES = "each page leaves both stacks as they were"
ASKS = "no page defines showpage or ImposeSave, or asks what they mean in another way; and after it restore means the operator"
ENDS = "each page ends between tokens"
APART = "no comment that is dropped from a page stands within a string, or has a form feed in it"
PAGE_PREMISES = (USES, CALLS, BEHIND, RESETS, TAKES_BACK, LEAVES, ASKS, ENDS, APART)


def behind_preamble(document, further=False):
    """The machine after the preamble, which has to run to its end."""
    return Machine(document.preamble, further=further).run()


def text(names):
    return ", ".join(sorted(name.decode("latin-1") for name in names))


def ground(document, further=False):
    """The premises on the preamble (`preamble_comments_apart`, `PreambleRuns`, `IsPlainGround`). And whether it runs."""
    apart = comments_apart(document.preamble, drops_in_header)
    found = [
        ("the preamble ends between tokens", None if is_complete(document.preamble) else "a string, comment or word is open at its end"),
        ("its first line ends between tokens", None if first_is_complete(document.preamble) else "a string is open there"),
        ("no comment that is dropped from it stands within a string, or has a form feed in it", None if apart else "one does"),
    ]
    try:
        m = behind_preamble(document, further)
    except Stopped as stopped:
        return [*found, (f"the preamble {NAMES}", f"it stops at {stopped}")], False
    others = [name for name in SHEET_NAMES if m.found(name) != m.system(name)]
    put, on_stack = PUT_NAMES & set(m.entries[USERDICT]), USERDICT in m.dictionaries
    return [
        *found,
        (f"the preamble {NAMES}", None),
        ("it paints and prints nothing", None if not m.painted and not m.sheets else "it does"),
        ("the names that a sheet's text uses mean the operators after it", f"these don't: {text(others)}" if others else None),
        ("userdict is on the dictionary stack, without showpage and ImposeSave", f"it has {text(put)}" if put else None if on_stack else "it isn't"),
        ("the graphics state is as initgraphics makes it (a font may be set)", left_set(m.graphics)),
        ("nothing is saved or pushed", "something is" if is_saved(m) else None),
        ("no string, array, procedure or font lies on the operand stack", newer(m)),
        *on_all_sheets(m, document, False),
    ], True


def on_all_sheets(m, document, is_guarded):
    """What is asked besides for sheets that report their paper (`comments_apart_with`), for those with strokes, and for those of several papers
    (`TakesLines`, `TakesPlainLines`)."""
    def others(names):
        wrong = [name for name in names if m.found(name) != m.system(name)]
        return f"these don't: {text(wrong)}" if wrong else None

    flag = None if is_guarded or m.found(b"PStoPSenablepage") is None else "PStoPSenablepage is there"
    apart = comments_apart(document.preamble, drops_beside_lines)
    return [(NAMED, None if apart else "one is"), (MARKED, others(MARKING)), (SIZED, others(SIZING if is_guarded else SIZING + ASKING) or flag)]


def unmet(premises):
    """Which aren't met, without those that only some sheets ask for."""
    return [f"{words}: {wrong}" for words, wrong in premises if wrong is not None and words not in (NAMED, MARKED, SIZED)]


def left_set(g):
    parts = {"a matrix": g.chain, "a path": g.path, "a clip": g.clip, "a line or a colour": [c for c in g.settings if c.name not in FONTS]}
    left = [words for words, part in parts.items() if part]
    return f"{', '.join(left)} is left" if left else None


def is_saved(m):
    values = [o for entries in m.entries.values() for o in entries.values()]
    return bool(m.stacked or m.saves or any(isinstance(o, Saved) for o in [*m.operands, *values]))


def newer(m):
    shot = Snapshot(m.level, 0, m.made, m.graphics, [])
    if any(not m.is_old(shot, o) for o in m.operands):
        return "one does"
    return "a dictionary lies on its stack that a restore took away" if any(d > m.made for d in m.dictionaries) else None


def stopped_at(m, stopped, where=""):
    """Which premise of a page isn't met, if it stops like this."""
    why = f"{where}it stops at {stopped}"
    if m.called in LOOKING:
        return RESETS, why
    if m.called in (b"grestore", b"grestoreall", b"restore"):
        return TAKES_BACK, why
    if m.called == b"showpage":
        return BEHIND if where else CALLS, why
    return USES, why


def asked(m, where):
    return ASKS, f"it asks what {text(m.asked & PUT_NAMES)} means {where} its showpage"


def up_to_showpage(m):
    """Runs a held page up to its showpage: what is wrong, None if it gets there (`PrintsItself`)."""
    try:
        while m.step():
            if m.asked & PUT_NAMES:
                return asked(m, "before")
    except Stopped as stopped:
        if m.now != Name(b"showpage") or m.found(b"showpage") != m.system(b"showpage"):
            return stopped_at(m, stopped)
        return None if USERDICT in m.dictionaries else (LEAVES, "userdict isn't on the stack at its showpage")
    return CALLS, "it ends without"


def behind_showpage(m, operands, dictionaries):
    """Runs on from there as on a sheet, where showpage does nothing: what is wrong (`placed` of `EndsThePage`)."""
    painted = list(m.painted)
    try:
        while m.step():
            if m.asked & PUT_NAMES:
                return asked(m, "behind")
    except Stopped as stopped:
        return stopped_at(m, stopped, "behind its showpage ")
    if m.painted != painted:
        return BEHIND, "it paints there"
    if m.operands != operands or m.dictionaries != dictionaries:
        return LEAVES, "it doesn't"
    if m.found(b"ImposeSave") is not None or m.found(b"restore") != m.system(b"restore"):
        return ASKS, "it has defined ImposeSave or restore"
    return None


def prints_one(document, page, picture, further):
    """The page after the preamble, printed: what is wrong (`printed` of `EndsThePage`)."""
    m = behind_preamble(document, further)
    m.scanner, before = Scanner(document.pages[page], further), len(m.sheets)
    try:
        m.run()
    except Stopped as stopped:
        return stopped_at(m, stopped, "once the sheet is printed ")
    return None if m.sheets[before:] == [picture] and not m.painted else (BEHIND, "it does, once the sheet is printed")


def own_picture(document, page, further=False):
    """What a page prints by itself after the preamble, None if it prints nothing; and the premise that isn't met, and why (`PrintsItself`)."""
    m = behind_preamble(document, further)
    operands, dictionaries = list(m.operands), list(m.dictionaries)
    # There is no way back to anything earlier, as in `alone`; and this is not the preamble's own run.
    m.held, m.scanner = True, Scanner(document.pages[page], further)
    wrong = up_to_showpage(m)
    picture = list(m.painted)
    wrong = wrong or behind_showpage(m, operands, dictionaries) or prints_one(document, page, picture, further)
    return (None, wrong) if wrong else (picture, None)


def pages(document, further=False):
    """The premises on each page (`PagePrints`): its picture, and the premise that isn't met, and why."""
    found = []
    for number, page in enumerate(document.pages):
        picture, wrong = own_picture(document, number, further)
        if not is_complete(page):
            wrong = ENDS, "it doesn't"
        elif not comments_apart(page, drops_in_page):
            wrong = APART, "one does"
        found.append((picture, wrong))
    return found


def together(document, pictures, further=False):
    """Each page, in the state that the document has reached, prints its own picture: what is wrong (`PagesAreIndependent`).

    A picture has all settings, as in the definition, also those that a later one of their kind replaces."""
    m = behind_preamble(document, further)
    for number, (page, picture) in enumerate(zip(document.pages, pictures), 1):
        before = len(m.sheets)
        m.scanner = Scanner(page, further)
        try:
            m.run()
        except Stopped as stopped:
            return f"behind the pages before it page {number} stops at {stopped}"
        if m.painted or m.sheets[before:] != [picture]:
            seen_alike = not m.painted and [[seen(p) for p in sheet] for sheet in m.sheets[before:]] == [[seen(p) for p in picture]]
            why = ", but only by a font that isn't used: one that a page before it selected" if seen_alike else ""
            return f"behind the pages before it page {number} prints another picture{why}"
    return None


COLOURS = (b"setgray", b"setrgbcolor", b"setcmykcolor")


def counting(settings, without=()):
    """The latest setting of each kind, which is the one that counts."""
    kinds = {}
    for call in settings:
        kind = "font" if call.name in FONTS else "colour" if call.name in COLOURS else call.name
        if kind not in without:
            kinds[kind] = call
    return kinds


def seen(painting):
    """A painting with the settings that count: a font that page 1 set doesn't matter for a line on page 2."""
    g = painting.graphics
    path = tuple((s.call, s.chain, tuple(counting(s.settings).items())) for s in g.path)
    shows = painting.call.name.endswith(b"show")
    return painting.call, g.chain, path, g.clip, counting(g.settings, () if shows else ("font",))


# What the law says, checked.


def taken_out(segments):
    return tuple(replace(segment, chain=segment.chain[1:]) for segment in segments)


def taken_out_of_place(painting):
    g = painting.graphics
    clips = tuple(replace(clip, path=taken_out(clip.path)) for clip in g.clip[1:])
    return replace(painting, graphics=replace(g, chain=g.chain[1:], path=taken_out(g.path), clip=clips))


def places(sheet):
    """The paintings of a sheet, by their place; None if one is in no place."""
    found = []
    for painting in sheet:
        g = painting.graphics
        if not g.chain or g.chain[0].name != b"concat" or not g.clip or g.clip[0].name != b"clip":
            return None
        place = (g.chain[0], g.clip[0])
        if not found or found[-1][0] != place:
            found.append((place, []))
        found[-1][1].append(taken_out_of_place(painting))
    return [pictures for _, pictures in found]


def shows_the_pages(sheets, pictures, slots, border):
    """Each sheet has, placed, the pictures of these pages in order, each after its border. A slot is a page, None if blank."""
    if len(sheets) != len(slots):
        return False
    for sheet, row in zip(sheets, slots):
        found = places(sheet)
        if found is None:
            return False
        if border:
            found = [placed[1:] for placed in found]
        wanted = [pictures[p] for p in row if p is not None and (pictures[p] or border)]
        if found != wanted:
            return False
    return True
