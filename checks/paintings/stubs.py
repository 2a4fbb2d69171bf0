"""Operators of the Reference that further.py lacks too, as far as a run needs them to go on: what they take and leave, and what kind of
painting they note. What the laws with further operators say holds of any that don't look at where the page is, so it doesn't matter for
them what these would do. `install` changes further.py for the rest of the process. Not for `compare`, which draws."""
import further
from boxes import IDENTITY, inverse, product
from further import CONSTANTS, FURTHER, LACKING, OVER, STANDARD, anything, is_array, operator
from machine import (FONTS, SYSTEMDICT, Array, Call, Dictionary, File, Literal, Matrix, Number, Operands, Procedure, Stopped, String, Truth, frozen,
                     number, whole)
from values import point_of, within

MATRICES = {name: OVER[name] for name in (b"matrix", b"currentmatrix", b"setmatrix", b"defaultmatrix")}
DICTIONARIES = (b"statusdict", b"errordict", b"$error", b"serverdict", b"globaldict", b"currentpagedevice")


def arrays_as_matrices(wanted):
    """Whether a matrix is an array of numbers, or as in crates/pictures."""
    OVER.update(MATRICES) if wanted else [OVER.pop(name, None) for name in MATRICES]


def made(m):
    m.made += 1
    m.entries[m.made] = {}
    return Dictionary(m.made)


def settings(name, count):
    operator(name, *[anything] * count)(lambda m, *os: m.drawn(Call(name.encode(), ()), "sets"))


def shows(name, count):
    operator(name, *[anything] * count)(lambda m, *os: m.drawn(Call(name.encode(), tuple(map(frozen, os))), "shows"))


def answers(name, count, answer):
    operator(name, *[anything] * count)(lambda m, *os: answer(m))


def readline(m, s, f):
    text, at = m.scanner.text, m.scanner.at
    end = text.find(b"\n", at)
    end = len(text) if end < 0 else end
    line = text[at:end][: len(s.data)]
    m.scanner.at = end + 1
    s.data[: len(line)] = line
    return [String(b"", line), Truth(True)]


def readstring(m, s, f):
    m.scanner.at += len(s.data)
    return [s, Truth(True)]


def eexec(m, f):
    """The font that follows, up to its end. Its text isn't run."""
    end = m.scanner.text.find(b"cleartomark", m.scanner.at)
    m.scanner.at = len(m.scanner.text) if end < 0 else end + len(b"cleartomark")
    if m.operands and isinstance(m.operands[-1], Dictionary):
        m.operands.pop()


def search(m, sought, s):
    before, found, after = bytes(s.data).partition(bytes(sought.data))
    return [String(b"", after), sought, String(b"", before), Truth(True)] if found else [s, Truth(False)]


def cvrs(m, s, base, n):
    digits, left = b"", abs(int(n.value))
    while left or not digits:
        digits, left = b"%c" % b"0123456789ABCDEFGHIJKLMNOPQRSTUVWXYZ"[left % base.value] + digits, left // base.value
    return String(b"", digits)


def copied(of_numbers):
    """`copy` of an array, a string or a dictionary into another; and of so many operands."""
    def perform(m):
        into, source = m.operands[-1], m.operands[-2]
        if isinstance(into, Dictionary) and isinstance(source, Dictionary):
            for key, o in list(m.entries[source.number].items()):
                m.put(into.number, key, o)
        elif is_array(into) and is_array(source):
            for i, o in enumerate(source.items):
                further.change(m, into, i, o)
        else:
            return of_numbers(m)
        m.operands[-2:] = [into]

    return perform


def other_form_of_wcheck(m):
    (o,) = m.taken(anything)
    m.operands.append(Truth(o != Dictionary(SYSTEMDICT)))


class Widths:
    """All characters are this wide here, in any font: so no interpreter is needed."""

    def characters(self, font):
        return [((0.6, 0.0), [])] * 256


def chain_of(m, o):
    if o.number not in m.kept:
        raise Stopped("a matrix that nothing has filled in")
    return m.kept[o.number]


NOUGHT = whole(0)


def is_written(g):
    """Whether the current point is what was written under the current transformation, or a sum of that, or there is none."""
    def width(settings, data):
        within(any(call.name in FONTS for call in settings))
        return NOUGHT, NOUGHT

    try:
        point_of(g, width)
    except Operands:
        return not g.path
    return True


def holds(m, o):
    """A matrix that an operator of the machine filled holds a transformation, not numbers."""
    return isinstance(o, Matrix) and o.number in m.kept


def filled(name, *kinds):
    """Another form of an operator, which fills the matrix on top; matrices hold lists of transformations here. One that was just made is an array
    of numbers from when numbers are put into it."""
    def put_in(chain_by):
        other = FURTHER.get(name)

        def perform(m):
            given = m.operands[-1 - len(kinds) :]
            if not given or not isinstance(given[-1], Matrix):
                return other(m)
            if not any(holds(m, o) for o in given):
                m.operands[-len(given) :] = [Array([number(v) for v in IDENTITY]) if isinstance(o, Matrix) else o for o in given]
                return other(m)
            o, *operands = m.taken(Matrix, *kinds)
            m.fill(o.number, chain_by(m, *operands))
            m.operands.append(o)

        FURTHER[name] = perform

    return put_in


def font_by(of_array):
    """`makefont` by a matrix that isn't an array here."""
    def perform(m):
        if m.operands and isinstance(m.operands[-1], Matrix):
            by = product(chain_of(m, m.operands.pop()))
            m.operands.append(Array([number(v) for v in by]))
        of_array(m)

    return perform


def current_point(of_others):
    """As the table has it, if it can; a text has no width here. That there is none is an error, which `stopped` catches."""
    def perform(m):
        try:
            m.operands += point_of(m.graphics, lambda settings, data: (NOUGHT, NOUGHT)) if is_written(m.graphics) and m.graphics.path else of_others(m)
        except Stopped:
            if not any(frame.kind == "stopped" for frame in m.frames):
                raise
            FURTHER[b"stop"](m)

    return perform


def matrices():
    filled(b"identmatrix")(lambda m: ())
    filled(b"translate", Number, Number)(lambda m, y, x: (Call(b"translate", (y, x)),))
    filled(b"scale", Number, Number)(lambda m, y, x: (Call(b"scale", (y, x)),))
    filled(b"rotate", Number)(lambda m, angle: (Call(b"rotate", (angle,)),))
    filled(b"concatmatrix", Matrix, Matrix)(lambda m, b, a: chain_of(m, b) + chain_of(m, a))
    filled(b"invertmatrix", Matrix)(
        lambda m, a: (Call(b"concat", (Array(tuple(number(v) for v in inverse(product(chain_of(m, a))))),)),))


def install():
    further.FONTS_ASKED = Widths()
    matrices()
    LACKING.clear()
    for index, name in enumerate(DICTIONARIES):
        CONSTANTS[name] = Dictionary(-100 - index)
    begin = further.begin

    def begins(m):
        begin(m)
        m.entries.update({CONSTANTS[name].number: {} for name in DICTIONARIES})

    further.begin = begins
    CONSTANTS.update({b"ISOLatin1Encoding": Array([Literal(name) for name in STANDARD]), b"product": String(b"", b"")})
    for name in ("xyshow", "xshow", "yshow"):
        shows(name, 2)
    shows("glyphshow", 1)
    for name in ("setpattern", "setcolorspace", "setcolor", "setoverprint", "setstrokeadjust", "setflat", "settransfer", "sethalftone",
                 "setsmoothness", "setblackgeneration", "setundercolorremoval"):
        settings(name, 1)
    settings("setscreen", 3)
    settings("setcolortransfer", 4)
    for name in ("setglobal", "setpacking", "setobjectformat", "setuserparams", "vmreclaim", "flushfile", "closefile"):
        answers(name, 1, lambda m: None)
    answers("setcachedevice", 6, lambda m: None)
    answers("setcharwidth", 2, lambda m: None)
    for name in ("currentpacking", "currentglobal", "currentstrokeadjust", "currentoverprint"):
        answers(name, 0, lambda m: Truth(False))
    for name in ("gcheck", "token"):
        answers(name, 1, lambda m: Truth(False))
    answers("resourcestatus", 2, lambda m: Truth(False))
    for name, count in {"makepattern": 2, "findresource": 2, "currentfont": 0, "currenthalftone": 0, "currentuserparams": 0, "gstate": 0}.items():
        answers(name, count, made)
    operator("defineresource", anything, anything, anything)(lambda m, category, o, key: o)
    for name in ("currenttransfer", "currentblackgeneration", "currentundercolorremoval"):
        answers(name, 0, lambda m: Procedure([]))
    answers("currentcolortransfer", 0, lambda m: [Procedure([])] * 4)
    answers("currentcolorspace", 0, lambda m: Array([Literal(b"DeviceGray")]))
    answers("findencoding", 1, lambda m: CONSTANTS[b"ISOLatin1Encoding"])
    operator("charpath", anything, anything)(lambda m, b, s: m.drawn(Call(b"charpath", ()), "segments"))
    for name, kinds, perform in (("readline", (String, File), readline), ("readstring", (String, File), readstring), ("eexec", (File,), eexec),
                                 ("search", (String, String), search), ("cvrs", (String, Number, Number), cvrs)):
        operator(name, *kinds)(perform)
    operator("filter", anything, anything)(lambda m, name, source: File())
    FURTHER[b"copy"] = copied(FURTHER[b"copy"])
    FURTHER[b"currentpoint"] = current_point(further.current_point)
    OVER[b"makefont"] = font_by(OVER[b"makefont"])
    OVER[b"wcheck"] = other_form_of_wcheck
