"""The operators on values that crates/open_pictures has as a table, by its definitions: specs/Values, Composites and Strings. They go on where
the closed machine stops, and are tried there alone. NAMED are those that it lacks, FORMED forms of its own at operands that these don't take.

A composite is a dictionary by its number, here as there; a reference says what it is, and which interval of it."""
from dataclasses import dataclass, replace
from decimal import Decimal
from machine import (COMPARED, LACKED, Bound, Frame, SystemDictionary, Array, Call, Dictionary, Font, Literal, Mark, Matrix, Name, Number, Operands, Operator, Procedure, Reference, Saved, String, Truth,
                     anything, calculated, from_hexadecimal, is_count, is_numbers, is_six_numbers, is_token, run_all, sort_of, whole)

PUT_NAMES = (b"showpage", b"ImposeSave")


@dataclass(frozen=True)
class Element:
    """Run, it pushes the element that is there by then."""

    of: Reference
    at: int

    def run(self, m):
        m.operands.append(element(m, self.of, self.at))


NULL = Reference("null")


def text_string(data):
    digits = bytes(data).hex().encode()
    return String(digits, from_hexadecimal(digits), hexadecimal=True)


def element(m, of, at):
    return m.entries.get(of.number, {}).get(("element", of.first + at), whole(0) if of.sort == "string" else NULL)


def put_items(m, of, start, items):
    within(FROZEN not in m.entries.get(of.number, {}))
    for i, item in enumerate(items):
        m.put(of.number, ("element", of.first + start + i), item)


def made(m, sort, count, items=()):
    m.made += 1
    m.entries[m.made] = {}
    of = Reference(sort, m.made, 0, count)
    put_items(m, of, 0, items)
    m.operands.append(of)


def array_of(m, o):
    """The elements of an array, None if it is none."""
    if isinstance(o, Reference) and o.sort == "array":
        return [element(m, o, i) for i in range(o.count)]
    return list(o.items) if type(o) is Array else None


def string_of(m, o):
    """The bytes of a string, None if it is none."""
    if isinstance(o, Reference) and o.sort == "string":
        return bytes(element(m, o, i).whole for i in range(o.count))
    return bytes(o.data) if isinstance(o, String) else None


def characters_of(m, o):
    return o.name if isinstance(o, (Literal, Name)) else string_of(m, o)


def items_for(m, sort, o):
    if sort == "array":
        return array_of(m, o)
    data = string_of(m, o)
    return None if data is None else [whole(byte) for byte in data]


def there(found):
    """An operand isn't of the kind if nothing was found."""
    if found is None:
        raise Operands
    return found


def items_of(m, o):
    items = array_of(m, o)
    return there(items_for(m, "string", o) if items is None else items)


def is_composite(o):
    return isinstance(o, Reference) and o.sort != "null"


def within(ok):
    if not ok:
        raise Operands


def close_array(m):
    at = len(m.operands) - 1
    while at >= 0 and not isinstance(m.operands[at], (Mark, Saved)):
        at -= 1
    within(at >= 0 and isinstance(m.operands[at], Mark))
    items = m.operands[at + 1 :]
    within(not all(map(is_token, items)))
    del m.operands[at:]
    made(m, "array", len(items), items)


def get(m):
    if m.operands[-2:-1] == [SystemDictionary()]:
        key, _ = m.taken(Literal, anything)
        m.operands.append(system_value(m, key.name))
        return
    i, o = m.taken(is_count, is_token)
    items = items_of(m, o)
    within(i.whole < len(items))
    m.operands.append(items[i.whole])


def put(m):
    new, i, of = m.taken(anything, is_count, is_composite)
    if of.sort == "string":
        within(is_count(new) and new.whole < 256)
        new = whole(new.whole)
    within(i.whole < of.count)
    put_items(m, of, i.whole, [new])


def length(m):
    if m.operands and isinstance(m.operands[-1], Font):
        return capacity(m)
    (o,) = m.taken(is_token)
    m.operands.append(whole(len(o.name if isinstance(o, Literal) else items_of(m, o))))


def make_dictionary(m):
    """Of any capacity."""
    m.taken(lambda o: isinstance(o, Number) and o.text.startswith(CAPACITY))
    m.made += 1
    m.entries[m.made] = {}
    m.operands.append(Dictionary(m.made))


CAPACITY = b"maxlength"


def capacity(m):
    m.taken(lambda o: isinstance(o, (Dictionary, Font)))
    m.operands.append(Number(CAPACITY, 0, (CAPACITY,)))


def load_array(m):
    (o,) = m.taken(is_token)
    m.operands += [*there(array_of(m, o)), o]


FONT_KEY = Literal(("font",))
FONT_NAMES = (b"FontType", b"FontMatrix", b"FontName", b"Encoding", b"FontBBox")


def for_all(m):
    procedure, o = m.taken(Procedure, lambda o: is_token(o) or isinstance(o, Font))
    if isinstance(o, Font):
        m.made += 1
        m.entries[m.made] = {("element", 0): o}
        return run_all(m, [(FONT_KEY, Element(Reference("array", m.made, 0, 1), 0))], procedure)
    turns = [Element(o, i) for i in range(o.count)] if is_composite(o) else items_of(m, o)
    run_all(m, [(item,) for item in turns], procedure)


def decimal_of(number):
    digits = number.text[1:] if number.text[:1] in (b"+", b"-") else number.text
    parts = digits.split(b".", 1)
    within(all(part.isdigit() for part in parts if part) and 0 < len(b"".join(parts)) < 7)
    return Decimal(number.text.decode())


def are_same(m, a, b):
    if isinstance(a, Truth) and isinstance(b, Truth) or isinstance(a, Mark) and isinstance(b, Mark):
        return a == b
    within(is_token(a) and is_token(b))
    both = characters_of(m, a), characters_of(m, b)
    if both == (None, None):
        within(isinstance(a, Reference) and isinstance(b, Reference))
        return a == b
    return both[0] == both[1]


def compares(name):
    def perform(m):
        b, a = m.taken(anything, anything)
        if isinstance(a, Number) and isinstance(b, Number):
            m.operands.append(Truth(COMPARED[name](decimal_of(a), decimal_of(b))))
        else:
            within(name in (b"eq", b"ne") and sort_of(a) == sort_of(b))
            m.operands.append(Truth(are_same(m, a, b) == (name == b"eq")))

    return perform


def shows(m):
    (o,) = m.taken(Reference)
    m.operands.append(text_string(there(string_of(m, o))))
    m.perform(m.called)


def is_in_interpreters(m, name):
    """An interpreter of LanguageLevel 3 has the name in systemdict, and the closed machine doesn't."""
    return name in LACKED and m.system(name) is None


def where(m):
    (key,) = m.taken(Literal)
    within(is_in_interpreters(m, key.name) and not any(key.name in m.entries[d] for d in m.dictionaries))
    m.operands += [SystemDictionary(), Truth(True)]


def known(m):
    key, d = m.taken(Literal, lambda o: isinstance(o, (SystemDictionary, Font)))
    within(key.name in FONT_NAMES if isinstance(d, Font) else is_in_interpreters(m, key.name))
    m.operands.append(Truth(True))


# Names that aren't operators.
CONSTANT = frozenset(b"""errordict $error globaldict statusdict version product revision serialnumber FontDirectory GlobalFontDirectory StandardEncoding
ISOLatin1Encoding""".split())


def system_value(m, name):
    """What an interpreter's systemdict has. The machine stops where an operator is run that the table lacks too."""
    within(is_in_interpreters(m, name) and name not in CONSTANT)
    return {b"languagelevel": whole(3), b"null": NULL}.get(name, Operator(name))


def load(m):
    (key,) = m.taken(Literal)
    within(not any(key.name in m.entries[d] for d in m.dictionaries))
    m.operands.append(system_value(m, key.name))


FROZEN = ("frozen",)


def executable(m):
    """Nothing is put into it any more, as the procedure has the elements of now."""
    (of,) = m.taken(Reference)
    within(of.sort == "array")
    items = [element(m, of, i) for i in range(of.count)]
    m.put(of.number, FROZEN, True)
    m.operands.append(Procedure([item if is_token(item) else Bound(item.name) if isinstance(item, Operator) else Element(of, i) for i, item in enumerate(items)]))


def stopped(m):
    """What it runs isn't stopped, as the machine stops at errors."""
    (procedure,) = m.taken(Procedure)
    m.frames.append(Frame([*procedure.items, Truth(False)]))


def latest_font(settings):
    for call in reversed(settings):
        if call.name == b"setfont":
            return call.operands[0].made_of
        if call.name == b"selectfont":
            size, name = call.operands
            return name, size
    raise Operands


def width_by(settings, data):
    """Numbers without a value: terms of the font and the text."""
    font = repr(latest_font(settings)).encode()
    return [Number(None, None, (font, data.hex().encode(), end)) for end in (b"stringwidth pop", b"stringwidth exch pop")]


def string_width(m):
    (o,) = m.taken(anything)
    m.operands += width_by(m.graphics.settings, there(string_of(m, o)))


def point_of(g, width=width_by):
    """The end of the path, from what was written under the current transformation."""
    sums = []
    for segment in reversed(g.path):
        name, operands = segment.call.name, segment.call.operands
        within(segment.chain == g.chain)
        if name in (b"moveto", b"lineto", b"curveto"):
            point = operands[1::-1]
            for by in reversed(sums):
                point = [calculated(b"add", a, b) for a, b in zip(point, by)]
            return point
        if name == b"xyshow":
            by = operands[0].items
            within(len(by) == 2 * len(operands[1].data))
            sums += reversed(list(zip(by[::2], by[1::2])))
        else:
            within(name in (b"rmoveto", b"rlineto", b"rcurveto", b"show"))
            sums.append(width(segment.settings, operands[0].data) if name == b"show" else operands[1::-1])
    raise Operands


# Matrices of numbers: specs/Matrices.


def affine_of(m, o):
    items = there(array_of(m, o))
    within(len(items) == 6 and all(isinstance(item, Number) for item in items))
    return items


def distance_by(by, x, y):
    return [calculated(b"add", calculated(b"mul", x, p), calculated(b"mul", y, q)) for p, q in ((by[0], by[2]), (by[1], by[3]))]


def point_by(by, x, y):
    return [calculated(b"add", p, q) for p, q in zip(distance_by(by, x, y), by[4:])]


def filling(m, o, items):
    """Numbers are put into the matrix that was made last. It is an array from then on."""
    within(o.number == m.made)
    made(m, "array", 6, items)


def fills(items_by, *kinds):
    def perform(m):
        o, *operands = m.taken(Matrix, *kinds)
        filling(m, o, items_by(m, *operands))

    return perform


def combined(m, n, o):
    a, b, c, d, x, y = affine_of(m, o)
    n = affine_of(m, n)
    return [*distance_by(n, a, b), *distance_by(n, c, d), *point_by(n, x, y)]


def moves(by):
    def perform(m):
        o, y, x = m.taken(anything, Number, Number)
        m.operands += by(affine_of(m, o), x, y)

    return perform


def concatenates(m):
    (o,) = m.taken(Reference)
    m.operands.append(Array(affine_of(m, o)))
    m.perform(m.called)


ONE, NOUGHT = whole(1), whole(0)


def new(sort):
    def perform(m):
        (count,) = m.taken(is_count)
        made(m, sort, count.whole)

    return perform


def get_interval(m):
    count, start, o = m.taken(is_count, is_count, anything)
    if is_composite(o):
        within(start.whole + count.whole <= o.count)
        m.operands.append(replace(o, first=o.first + start.whole, count=count.whole))
    else:
        within(type(o) is Array and start.whole + count.whole <= len(o.items))
        m.operands.append(Array(o.items[start.whole :][: count.whole]))


def put_interval(m):
    o, start, of = m.taken(anything, is_count, is_composite)
    items = there(items_for(m, of.sort, o))
    within(start.whole + len(items) <= of.count)
    put_items(m, of, start.whole, items)


def store_all(m):
    (of,) = m.taken(is_composite)
    items = m.operands[len(m.operands) - of.count :] if of.count else []
    within(of.sort == "array" and len(items) == of.count and not any(isinstance(o, Saved) for o in items))
    del m.operands[len(m.operands) - of.count :]
    put_items(m, of, 0, items)
    m.operands.append(of)


def store(m):
    o, key = m.taken(anything, Literal)
    within(key.name not in PUT_NAMES)
    m.put(next((d for d in reversed(m.dictionaries) if key.name in m.entries[d]), m.dictionaries[-1]), key.name, o)


def to_string(m):
    of, o = m.taken(is_composite, anything)
    if isinstance(o, Truth):
        text = b"true" if o.value else b"false"
    elif isinstance(o, Number):
        text = b"%d" % there(o.whole)
    else:
        text = there(characters_of(m, o))
    within(of.sort == "string" and len(text) <= of.count)
    put_items(m, of, 0, [whole(byte) for byte in text])
    m.operands.append(replace(of, count=len(text)))


def to_name(m):
    (o,) = m.taken(anything)
    m.operands.append(Literal(there(string_of(m, o))))


def define_font(m):
    _, key = m.taken(lambda o: isinstance(o, (Font, Dictionary)), Literal)
    m.operands.append(Font((key,)))


def make_font(m):
    by, font = m.taken(is_six_numbers, Font)
    m.operands.append(Font((*font.made_of, by)))


def draws(name, effect, *kinds):
    def perform(m):
        m.drawn(Call(name, tuple(m.taken(*kinds))), effect)

    return perform


def answers(*objects):
    return lambda m: m.operands.extend(objects)


# Appendix E.
ISOLATIN1 = [b".notdef"] * 32 + b"""
space exclam quotedbl numbersign dollar percent ampersand quoteright parenleft parenright asterisk plus comma minus period slash zero one
two three four five six seven eight nine colon semicolon less equal greater question at A B C D E F G H I J K L M N O P Q R S T U V W X Y Z
bracketleft backslash bracketright asciicircum underscore quoteleft a b c d e f g h i j k l m n o p q r s t u v w x y z braceleft bar
braceright asciitilde .notdef .notdef .notdef .notdef .notdef .notdef .notdef .notdef .notdef .notdef .notdef .notdef .notdef .notdef
.notdef .notdef .notdef dotlessi grave acute circumflex tilde macron breve dotaccent dieresis .notdef ring cedilla .notdef hungarumlaut
ogonek caron space exclamdown cent sterling currency yen brokenbar section dieresis copyright ordfeminine guillemotleft logicalnot hyphen
registered macron degree plusminus twosuperior threesuperior acute mu paragraph periodcentered cedilla onesuperior ordmasculine
guillemotright onequarter onehalf threequarters questiondown Agrave Aacute Acircumflex Atilde Adieresis Aring AE Ccedilla Egrave Eacute
Ecircumflex Edieresis Igrave Iacute Icircumflex Idieresis Eth Ntilde Ograve Oacute Ocircumflex Otilde Odieresis multiply Oslash Ugrave
Uacute Ucircumflex Udieresis Yacute Thorn germandbls agrave aacute acircumflex atilde adieresis aring ae ccedilla egrave eacute ecircumflex
edieresis igrave iacute icircumflex idieresis eth ntilde ograve oacute ocircumflex otilde odieresis divide oslash ugrave uacute ucircumflex
udieresis yacute thorn ydieresis
""".split()
NAMED = {
    b"array": new("array"), b"string": new("string"), b"null": answers(NULL), b"getinterval": get_interval, b"putinterval": put_interval,
    b"astore": store_all, b"currentdict": lambda m: m.operands.append(Dictionary(m.dictionaries[-1])), b"store": store, b"cvs": to_string, b"cvn": to_name,
    b"languagelevel": answers(whole(3)), b"currentpacking": answers(Truth(False)), b"setpacking": lambda m: m.taken(Truth), b"definefont": define_font,
    b"makefont": make_font, b"maxlength": capacity, b"stopped": stopped, b"stringwidth": string_width,
    b"currentpoint": lambda m: m.operands.extend(point_of(m.graphics)), b"transform": moves(point_by), b"dtransform": moves(distance_by),
    b"identmatrix": fills(lambda m: [ONE, NOUGHT, NOUGHT, ONE, NOUGHT, NOUGHT]), b"concatmatrix": fills(combined, anything, anything),
    b"ISOLatin1Encoding": lambda m: m.operands.append(Array([Literal(name) for name in ISOLATIN1])), b"sethsbcolor": draws(b"sethsbcolor", "sets", Number, Number, Number), b"setflat": draws(b"setflat", "sets", Number),
    b"setstrokeadjust": draws(b"setstrokeadjust", "sets", Truth), b"setoverprint": draws(b"setoverprint", "sets", Truth),
    b"arct": draws(b"arct", "segments", *[Number] * 5), **{name: draws(name, "shows", is_numbers, String) for name in (b"xshow", b"yshow", b"xyshow")},
}
FORMED = {
    b"where": where, b"known": known, b"load": load, b"]": close_array, b"get": get, b"put": put, b"length": length, b"cvx": executable, b"dict": make_dictionary, b"aload": load_array, b"forall": for_all, **{name: compares(name) for name in COMPARED},
    b"concat": concatenates, b"translate": fills(lambda m, y, x: [ONE, NOUGHT, NOUGHT, ONE, x, y], Number, Number),
    b"scale": fills(lambda m, y, x: [x, NOUGHT, NOUGHT, y, NOUGHT, NOUGHT], Number, Number),
    **dict.fromkeys((b"show", b"ashow", b"widthshow", b"awidthshow"), shows),
}


class Values:
    """Given as a machine's `further`. It is false: all else is the closed machine's."""

    def __bool__(self):
        return False

    def named(self, key):
        return Operator(key) if key in NAMED else None

    def goes_on(self, m, name):
        """Whether the table has it, and takes the operands. If not, they stay."""
        perform, operands = NAMED.get(name) or FORMED.get(name), list(m.operands)
        try:
            return perform is not None and (perform(m), True)[1]
        except Operands:
            m.operands[:] = operands
            return False


VALUES = Values()
