"""Operators of the Reference (8.2) that the machine of crates/pictures lacks. They compute with values: numbers are numbers
here, arrays and strings are shared and changed in place, and a matrix maps user space to default user space.

If `where` or `known` looks up an operator of the Reference that is neither here nor there, that stops the
machine, as the answer can't be that there is none. An error of PostScript stops it too: `stopped` catches only `stop`.
"""
import math
from boxes import IDENTITY, Path, at, inverse, point_of, product, times
from machine import (ALWAYS, DRAWS, ERRORDICT, FONTDIRECTORY, GLOBALDICT, PROVED, READ_ONLY, SYSTEMDICT, USERDICT, Array, Bound, Call, Dictionary, File, Font,
                     Frame, Literal, Mark, Name, Null, Number, Operands, Operator, Painting, Procedure, String, Stopped, Truth, anything,
                     are_numbers, number, unescaped)
from machine import from_hexadecimal

LACKING = set(b"""setpagedevice currentpagedevice statusdict serverdict errordict $error setcolorspace setcolor setpattern makepattern shfill
currentcolorspace currentcolor setscreen sethalftone settransfer setcolortransfer currentscreen currenttransfer currenthalftone setcolorscreen
setblackgeneration setundercolorremoval setoverprint setstrokeadjust currentstrokeadjust setflat strokepath reversepath pathforall
charpath ustroke ufill upath uappend cshow kshow glyphshow xshow xyshow yshow rootfont currentfont file run deletefile flushfile token eexec
filter readline read write writestring print setobjectformat findresource defineresource resourcestatus findencoding undefinefont
execform setcachedevice setcachedevice2 setcharwidth setsystemparams setuserparams vmreclaim gcheck currentpacking setpacking packedarray
setglobal currentglobal globaldict cleardictstack nulldevice banddevice framedevice renderbands settrapparams a3 a4 a5 b5 letter legal note
setdevparams internaldict superexec jobname realtime usertime clippath viewclip initviewclip rectviewclip arct execstack dictstack
setsmoothness currentsmoothness setcolorrendering currentcolorrendering currentobjectformat selectcolor =  == stack pstack""".split())
OVER = {}
FURTHER = {}


def operator(name, *kinds):
    """The operands by kind, the topmost first; the results are pushed."""

    def put_in(function):
        def perform(m):
            result = function(m, *m.taken(*kinds))
            for o in [] if result is None else result if isinstance(result, list) else [result]:
                m.operands.append(value(o))

        FURTHER[name.encode()] = perform
        return function

    return put_in


def value(o):
    if isinstance(o, bool):
        return Truth(o)
    return number(o) if isinstance(o, (int, float)) else o


def is_array(o):
    return isinstance(o, Array)


def is_key(o):
    return True


def key_of(o):
    if isinstance(o, (Literal, Name)):
        return o.name
    if isinstance(o, String):
        return bytes(o.data)
    return ("number", float(o.value)) if isinstance(o, Number) else o


def from_key(key):
    if isinstance(key, bytes):
        return Literal(key)
    return number(int(key[1]) if key[1] == int(key[1]) else key[1]) if isinstance(key, tuple) else key


def is_executable(o):
    return isinstance(o, (Procedure, Name, Operator))


def begin(m):
    m.entries.update({SYSTEMDICT: {}, GLOBALDICT: {}, ERRORDICT: {}, FONTDIRECTORY: {}})


def system(key):
    if key in CONSTANTS:
        return CONSTANTS[key]
    return Operator(key) if key in FURTHER or key in OVER else None


def perform(m, name, table=FURTHER):
    if name in table:
        try:
            return table[name](m)
        except (Operands, AttributeError, TypeError, ValueError, KeyError, IndexError, OverflowError):
            pass
    raise Stopped(f"operands of {name.decode()}")


CONSTANTS = {b"systemdict": Dictionary(SYSTEMDICT), b"languagelevel": number(3), b"null": Null(), b"FontDirectory": Dictionary(FONTDIRECTORY),
             b"StandardEncoding": None}
STANDARD = (["/.notdef"] * 32 + """
space exclam quotedbl numbersign dollar percent ampersand quoteright parenleft parenright asterisk plus comma hyphen
period slash zero one two three four five six seven eight nine colon semicolon less equal greater question at A B C D E F G H I J K L M N O P Q R S T
U V W X Y Z bracketleft backslash bracketright asciicircum underscore quoteleft a b c d e f g h i j k l m n o p q r s t u v w x y z braceleft bar
braceright asciitilde""".split() + [".notdef"] * 34 + """exclamdown cent sterling fraction yen florin section currency quotesingle quotedblleft
guillemotleft guilsinglleft guilsinglright fi fl .notdef endash dagger daggerdbl periodcentered .notdef paragraph bullet quotesinglbase quotedblbase
quotedblright guillemotright ellipsis perthousand .notdef questiondown .notdef grave acute circumflex tilde macron breve dotaccent dieresis .notdef
ring cedilla .notdef hungarumlaut ogonek caron emdash""".split() + [".notdef"] * 16 + """AE .notdef ordfeminine .notdef .notdef .notdef .notdef Lslash
Oslash OE ordmasculine .notdef .notdef .notdef .notdef .notdef ae .notdef .notdef .notdef dotlessi .notdef .notdef lslash oslash oe
germandbls""".split())
STANDARD = [name.lstrip("/").encode() for name in STANDARD + [".notdef"] * (256 - len(STANDARD))]
CONSTANTS[b"StandardEncoding"] = Array([Literal(name) for name in STANDARD])

# Stacks (8.1, operand stack manipulation).


@operator("copy", Number)
def copy(m, n):
    if n.value > len(m.operands):
        m.operands.append(n)
        raise Operands
    return list(m.operands[len(m.operands) - n.value :])


@operator("roll", Number, Number)
def roll(m, j, n):
    if not 0 <= n.value <= len(m.operands):
        raise Stopped("roll below the stack")
    if n.value:
        top = m.operands[-n.value :]
        by = j.value % n.value
        m.operands[-n.value :] = top[-by:] + top[:-by] if by else top


@operator("clear")
def clear(m):
    m.operands.clear()


@operator("count")
def count(m):
    return len(m.operands)


@operator("counttomark")
def count_to_mark(m):
    for i, o in enumerate(reversed(m.operands)):
        if isinstance(o, Mark):
            return i
    raise Operands


@operator("]")
def close_any_array(m):
    items = m.operands[len(m.operands) - count_to_mark(m) :]
    del m.operands[len(m.operands) - len(items) - 1 :]
    return m.own(Array(items))


@operator("<<")
def open_dictionary(m):
    return Mark()


@operator(">>")
def close_dictionary(m):
    items = m.operands[len(m.operands) - count_to_mark(m) :]
    del m.operands[len(m.operands) - len(items) - 1 :]
    d = new_dictionary(m)
    for key, o in zip(items[::2], items[1::2]):
        m.put(d.number, key_of(key), o)
    return d


# Numbers.

for _name, _function in {"add": lambda a, b: a + b, "sub": lambda a, b: a - b, "mul": lambda a, b: a * b}.items():
    operator(_name, Number, Number)(lambda m, b, a, f=_function: f(a.value, b.value))


@operator("div", Number, Number)
def div(m, b, a):
    return whole_or_stop(b) and a.value / b.value


def whole_or_stop(b):
    if not b.value:
        raise Stopped("a division by zero")
    return True


@operator("idiv", Number, Number)
def idiv(m, b, a):
    return whole_or_stop(b) and int(a.value / b.value)


@operator("mod", Number, Number)
def mod(m, b, a):
    return whole_or_stop(b) and int(math.fmod(a.value, b.value))


@operator("exp", Number, Number)
def exp(m, b, a):
    return float(a.value**b.value)


@operator("atan", Number, Number)
def atan(m, b, a):
    return math.degrees(math.atan2(a.value, b.value)) % 360


def kept_kind(f):
    """A real number stays real."""
    return lambda m, a: float(f(a.value)) if isinstance(a.value, float) else f(a.value)


for _name, _function in {"neg": lambda a: -a, "abs": abs, "ceiling": math.ceil, "floor": math.floor, "truncate": math.trunc,
                         "round": lambda a: math.floor(a + 0.5)}.items():
    operator(_name, Number)(kept_kind(_function))
for _name, _function in {"sqrt": math.sqrt, "sin": lambda a: math.sin(math.radians(a)), "cos": lambda a: math.cos(math.radians(a)), "ln": math.log,
                         "log": math.log10}.items():
    operator(_name, Number)(lambda m, a, f=_function: float(f(a.value)))

# Comparing, and truth.


def compared(o):
    if isinstance(o, (Literal, Name, String)):
        return key_of(o)
    return float(o.value) if isinstance(o, Number) else (type(o).__name__, id(o)) if is_array(o) else o


@operator("eq", anything, anything)
def eq(m, b, a):
    return compared(a) == compared(b)


@operator("ne", anything, anything)
def ne(m, b, a):
    return compared(a) != compared(b)


for _name, _function in {"gt": lambda a, b: a > b, "ge": lambda a, b: a >= b, "lt": lambda a, b: a < b, "le": lambda a, b: a <= b}.items():
    operator(_name, anything, anything)(lambda m, b, a, f=_function: f(compared(a), compared(b)))
for _name, _function in {"and": lambda a, b: a & b, "or": lambda a, b: a | b, "xor": lambda a, b: a ^ b}.items():
    operator(_name, anything, anything)(lambda m, b, a, f=_function: f(a.value, b.value))


@operator("not", anything)
def negated(m, a):
    return not a.value if isinstance(a, Truth) else ~a.value


@operator("bitshift", Number, Number)
def bitshift(m, b, a):
    return a.value << b.value if b.value >= 0 else a.value >> -b.value


# Control.


def loop(m, procedure, again):
    m.frames.append(Frame(procedure.items, len(procedure.items), again, "loop"))


@operator("for", Procedure, Number, Number, Number)
def for_each_number(m, procedure, limit, step, start):
    at_number = [start.value]

    def again(m):
        i = at_number[0]
        at_number[0] = i + step.value
        if i > limit.value if step.value >= 0 else i < limit.value:
            return False
        m.operands.append(number(i))
        return True

    loop(m, procedure, again)


@operator("forall", Procedure, anything)
def for_all(m, procedure, o):
    if isinstance(o, Dictionary):
        rows = [[from_key(key), each] for key, each in m.entries[o.number].items()]
    elif isinstance(o, String):
        rows = [[number(byte)] for byte in o.data]
    elif is_array(o):
        rows = [[each] for each in o.items]
    else:
        raise Stopped("operands of forall")
    rows = iter(rows)

    def again(m):
        row = next(rows, None)
        m.operands.extend(row or [])
        return row is not None

    loop(m, procedure, again)


@operator("loop", Procedure)
def loops(m, procedure):
    loop(m, procedure, lambda m: True)


@operator("exit")
def leave(m):
    while m.frames and m.frames[-1].kind != "loop":
        m.frames.pop()
    if not m.frames:
        raise Stopped("exit without a loop")
    m.frames.pop()


@operator("stopped", anything)
def stopped(m, o):
    def again(m):
        m.operands.append(Truth(False))
        return False

    m.frames.append(Frame([], 0, again, "stopped"))
    execute(m, o)


@operator("stop")
def stop(m):
    while m.frames and m.frames[-1].kind != "stopped":
        m.frames.pop()
    if not m.frames:
        raise Stopped("stop")
    m.frames.pop()
    m.operands.append(Truth(True))


@operator("exec", anything)
def execute(m, o):
    m.frames.append(Frame([o])) if isinstance(o, (Name, Operator)) else m.done(o)


@operator("if", is_executable, Truth)
def if_true(m, procedure, test):
    if test.value:
        execute(m, procedure)


# Dictionaries.


def new_dictionary(m):
    m.made += 1
    m.entries[m.made] = {}
    return Dictionary(m.made)


def looked_up(m, key):
    """The dictionary on the stack that has the name, None if none has."""
    m.asked.add(key)
    for d in reversed(m.dictionaries):
        if key in m.entries[d]:
            return Dictionary(d)
    return Dictionary(SYSTEMDICT) if in_system(m, key) else None


def in_system(m, key):
    if key in LACKING:
        raise Stopped(f"the name {key.decode('latin-1')}")
    return m.system(key) is not None


@operator("where", is_key)
def where(m, key):
    d = looked_up(m, key_of(key))
    return [False] if d is None else [d, True]


@operator("known", is_key, Dictionary)
def known(m, key, d):
    key = key_of(key)
    m.asked.add(key)
    return in_system(m, key) if d.number == SYSTEMDICT else key in m.entries[d.number]


@operator("load", is_key)
def load(m, key):
    return m.meaning(key_of(key))


@operator("def", anything, is_key)
def define(m, o, key):
    m.put(m.dictionaries[-1], key_of(key), o)


@operator("store", anything, is_key)
def store(m, o, key):
    d = looked_up(m, key_of(key))
    m.put(m.dictionaries[-1] if d is None or d.number == SYSTEMDICT else d.number, key_of(key), o)


@operator("undef", is_key, Dictionary)
def undefine(m, key, d):
    if key_of(key) in m.entries[d.number]:
        m.put(d.number, key_of(key), None)
        del m.entries[d.number][key_of(key)]


@operator("currentdict")
def current_dictionary(m):
    return Dictionary(m.dictionaries[-1])


@operator("countdictstack")
def count_dictionaries(m):
    return len(m.dictionaries) + 2


@operator("maxlength", Dictionary)
def most(m, d):
    return max(200, len(m.entries[d.number]) + 20)


# Arrays, strings, conversions.


@operator("length", anything)
def length(m, o):
    if isinstance(o, Dictionary):
        return len(m.entries[o.number])
    return len(o.items) if is_array(o) else len(key_of(o))


def is_count(o):
    return isinstance(o, Number) and isinstance(o.value, int) and o.value >= 0


@operator("dict", is_count)
def make_dictionary(m, n):
    return new_dictionary(m)


@operator("array", is_count)
def make_array(m, n):
    return m.own(Array([Null()] * n.value))


@operator("string", is_count)
def make_string(m, n):
    return m.own(String(b"", bytes(n.value)))


def place(o, i):
    size = len(o.items) if is_array(o) else len(o.data)
    if not 0 <= i < size:
        raise Stopped("beyond the end of an array or a string")
    return i


@operator("get", anything, anything)
def get(m, key, o):
    if isinstance(o, Dictionary):
        if o.number == SYSTEMDICT:
            in_system(m, key_of(key))
            return m.system(key_of(key))
        if key_of(key) not in m.entries[o.number]:
            raise Stopped(f"get of what isn't there, {key}")
        return m.entries[o.number][key_of(key)]
    i = place(o, key.value)
    return o.items[i] if is_array(o) else o.data[i]


def change(m, o, i, new):
    held = o.items if is_array(o) else None
    if held is None:
        o.data[i] = new.value & 255
    else:
        if not isinstance(held, list):
            raise Stopped("a change of an array that can't be changed")
        m.journal.append((held, i, held[i]))
        held[i] = new


@operator("put", anything, anything, anything)
def put(m, new, key, o):
    if isinstance(o, Dictionary):
        if o.number == SYSTEMDICT:
            raise Stopped("a change of systemdict")
        m.put(o.number, key_of(key), new)
    else:
        change(m, o, place(o, key.value), new)


def part(o, start, size):
    if is_array(o):
        return type(o)(o.items[start : start + size])
    return String(b"", o.data[start : start + size])


@operator("getinterval", Number, Number, anything)
def get_interval(m, size, start, o):
    return m.own(part(o, start.value, size.value))


@operator("putinterval", anything, Number, anything)
def put_interval(m, source, start, o):
    if is_array(source):
        for i, item in enumerate(source.items):
            change(m, o, place(o, start.value + i), item)
    else:
        o.data[start.value : start.value + len(source.data)] = source.data


@operator("aload", is_array)
def all_loaded(m, o):
    return [*o.items, o]


@operator("astore", is_array)
def all_stored(m, o):
    size = len(o.items)
    items = m.operands[len(m.operands) - size :]
    del m.operands[len(m.operands) - size :]
    for i, item in enumerate(items):
        change(m, o, i, item)
    return o


@operator("cvx", anything)
def executable(m, o):
    if type(o) is Array:
        o = Procedure(o.items)
    elif isinstance(o, Literal):
        o = Name(o.name)
    elif isinstance(o, String):
        raise Stopped("a string that is to be run")
    m.operands.append(o)


@operator("cvlit", anything)
def literal(m, o):
    return Array(o.items) if is_array(o) else Literal(o.name) if isinstance(o, Name) else o


@operator("cvi", anything)
def to_integer(m, o):
    return int(float(bytes(o.data)) if isinstance(o, String) else o.value)


@operator("cvr", anything)
def to_real(m, o):
    return float(bytes(o.data)) if isinstance(o, String) else float(o.value)


@operator("cvn", String)
def to_name(m, o):
    return Literal(bytes(o.data))


def printed(o):
    if isinstance(o, Number):
        return b"%d" % o.value if isinstance(o.value, int) else (f"{o.value:.6g}" + (".0" if o.value == int(o.value) else "")).encode()
    if isinstance(o, Truth):
        return b"true" if o.value else b"false"
    return key_of(o) if isinstance(o, (Literal, Name, String, Operator)) else b"--nostringval--"


@operator("cvs", String, anything)
def to_string(m, s, o):
    text = o.name if isinstance(o, Operator) else printed(o)
    s.data[: len(text)] = text
    return m.own(String(b"", text))


TYPES = {Literal: b"nametype", Name: b"nametype", String: b"stringtype", Truth: b"booleantype", Array: b"arraytype", Procedure: b"arraytype",
         Dictionary: b"dicttype", Operator: b"operatortype", Null: b"nulltype", Mark: b"marktype", File: b"filetype", Font: b"dicttype"}


@operator("type", anything)
def type_of(m, o):
    if isinstance(o, Number):
        return Name(b"integertype" if isinstance(o.value, int) else b"realtype")
    return Name(TYPES.get(type(o), b"savetype"))


@operator("xcheck", anything)
def is_run(m, o):
    return is_executable(o)


@operator("readonly", anything)
def read_only(m, o):
    if isinstance(o, Dictionary):
        m.put(o.number, READ_ONLY, Truth(True))
    return o


for _name in ("noaccess", "executeonly"):
    operator(_name, anything)(lambda m, o: o)

# Operators without effect on pictures: memory, packing, printing.


@operator("currentpacking")
def current_packing(m):
    return False


@operator("currentglobal")
def current_global(m):
    return False


for _name in ("setpacking", "setglobal"):
    operator(_name, Truth)(lambda m, o: None)
for _name in ("=", "==", "print"):
    operator(_name, anything)(lambda m, o: None)
operator("flush")(lambda m: None)


@operator("cleardictstack")
def clear_dictionaries(m):
    del m.dictionaries[1:]


@operator("vmstatus")
def memory(m):
    return [m.level, 100_000, 1_000_000]


# Matrices and the graphics state.


def matrix_array(m, matrix):
    return m.own(Array([number(float(v)) for v in matrix]))


def is_matrix(o):
    return type(o) is Array and len(o.items) == 6


def of(o):
    return tuple(float(item.value) for item in o.items)


def fill_in(m, o, matrix):
    for i, v in enumerate(matrix):
        change(m, o, i, number(float(v)))
    return o


@operator("matrix")
def matrix(m):
    return matrix_array(m, IDENTITY)


@operator("identmatrix", is_matrix)
def identity_matrix(m, o):
    return fill_in(m, o, IDENTITY)


@operator("defaultmatrix", is_matrix)
def default_matrix(m, o):
    return fill_in(m, o, IDENTITY)


@operator("currentmatrix", is_matrix)
def current_matrix(m, o):
    return fill_in(m, o, product(m.graphics.chain))


@operator("setmatrix", is_matrix)
def set_matrix(m, o):
    m.set_to(chain=(Call(b"setmatrix", (Array(tuple(o.items)),)),))


@operator("initmatrix")
def initial_matrix(m):
    m.set_to(chain=())


@operator("initclip")
def initial_clip(m):
    m.set_to(clip=())


@operator("concatmatrix", is_matrix, is_matrix, is_matrix)
def concat_matrix(m, o, b, a):
    return fill_in(m, o, times(of(a), of(b)))


@operator("invertmatrix", is_matrix, is_matrix)
def invert_matrix(m, o, a):
    return fill_in(m, o, inverse(of(a)))


def moved_by(name, change_of):
    def put_in(m):
        top = m.operands[-1] if m.operands else None
        if is_matrix(top):
            m.taken(anything)
            by = of(top)
        else:
            by = product(m.graphics.chain)
        y, x = m.taken(Number, Number)
        m.operands += [number(float(v)) for v in at(change_of(by), x.value, y.value)]

    FURTHER[name] = put_in


moved_by(b"transform", lambda a: a)
moved_by(b"itransform", inverse)
moved_by(b"dtransform", lambda a: (*a[:4], 0.0, 0.0))
moved_by(b"idtransform", lambda a: inverse((*a[:4], 0.0, 0.0)))
for _name, _make in {"translate": lambda y, x: (1, 0, 0, 1, x, y), "scale": lambda y, x: (x, 0, 0, y, 0, 0)}.items():
    operator(_name, is_matrix, Number, Number)(lambda m, o, y, x, f=_make: fill_in(m, o, f(y.value, x.value)))


@operator("rotate", is_matrix, Number)
def rotate(m, o, angle):
    a = math.radians(angle.value)
    return fill_in(m, o, (math.cos(a), math.sin(a), -math.sin(a), math.cos(a), 0, 0))


@operator("currentpoint")
def current_point(m):
    point = point_of(m.graphics.path, FONTS_ASKED)
    if point is None:
        raise Stopped("no current point")
    return list(at(inverse(product(m.graphics.chain)), *point))


@operator("pathbbox")
def path_box(m):
    points = [p for s in Path(m.graphics.path, FONTS_ASKED).subpaths for p in s.points]
    back = inverse(product(m.graphics.chain))
    points = [at(back, *p) for p in points]
    if not points:
        raise Stopped("no current point")
    return [min(p[0] for p in points), min(p[1] for p in points), max(p[0] for p in points), max(p[1] for p in points)]


@operator("flattenpath")
def flatten_path(m):
    """Paths are cut into straight pieces when they are read."""


@operator("grestoreall")
def restore_all(m):
    if m.saves:
        m.back_to(m.saves[-1].graphics)
    elif m.stacked:
        m.back_to(m.stacked[0])
    m.stacked = []


@operator("grestore")
def restore_graphics(m):
    raise Stopped("grestore below all that was pushed")


@operator("setpagedevice", Dictionary)
def set_page_device(m, d):
    """6.1.1: the graphics state is reset and the page erased. The paper stays as it is, as with Ghostscript's FIXEDMEDIA."""
    if m.held:
        raise Stopped("setpagedevice in a page that is held")
    m.reset()
    m.painted = []
    m.devices = getattr(m, "devices", 0) + 1
    m.set_to(device=m.devices)


@operator("packedarray", is_count)
def packed_array(m, n):
    items = m.operands[len(m.operands) - n.value :]
    del m.operands[len(m.operands) - n.value :]
    return m.own(Array(items))


@operator("erasepage")
def erase_page(m):
    m.painted = []


@operator("copypage")
def copy_page(m):
    m.sheets.append(list(m.painted))
    m.events.append(None)


def latest(m, name, default):
    for call in reversed(m.graphics.settings):
        if call.name == name:
            return call.operands[0]
    return number(default)


for _name, _default in {"linewidth": 1, "linecap": 0, "linejoin": 0, "miterlimit": 10}.items():
    operator(f"current{_name}")(lambda m, n=f"set{_name}".encode(), d=_default: latest(m, n, d))


@operator("currentgray")
def current_gray(m):
    calls = [c for c in m.graphics.settings if c.name in (b"setgray", b"setrgbcolor", b"setcmykcolor")]
    if calls and calls[-1].name != b"setgray":
        raise Stopped("currentgray of another colour")
    return calls[-1].operands[0] if calls else 0


for _name, _kinds in {"setflat": 1, "sethsbcolor": 3, "setstrokeadjust": None, "setoverprint": None}.items():
    _wants = [Truth] if _kinds is None else [Number] * _kinds
    operator(_name, *_wants)(lambda m, *os, n=_name.encode(): m.drawn(Call(n, os), "sets"))
LACKING -= set(FURTHER)


@operator("rectclip", Number, Number, Number, Number)
def rect_clip(m, h, w, y, x):
    x, y, w, h = (o.value for o in (x, y, w, h))
    m.set_to(path=())
    for name, p in ((b"moveto", (x, y)), (b"lineto", (x + w, y)), (b"lineto", (x + w, y + h)), (b"lineto", (x, y + h))):
        m.drawn(Call(name, (number(p[1]), number(p[0]))), "segments")
    m.drawn(Call(b"closepath", ()), "segments")
    m.drawn(Call(b"clip", ()), "clips")
    m.set_to(path=())


# Fonts: those that Ghostscript has, by name, as dictionaries that a document may copy and re-encode.


class Encoded:
    def __init__(self, name, encoding):
        self.name, self.encoding = name, encoding

    def __eq__(self, other):
        return isinstance(other, Encoded) and (self.name, self.encoding) == (other.name, other.encoding)

    def __hash__(self):
        return hash((self.name, self.encoding))

    def making(self):
        names = b" ".join(b"/" + name for name in self.encoding)
        return (b"/%s findfont dup length dict begin { 1 index /FID ne { def } { pop pop } ifelse } forall\n/Encoding [ %s ] def currentdict end\n"
                b"/ImposeEncoded exch definefont" % (self.name, names))


MARKED = b"ImposeFont"
UNIT = (0.001, 0.0, 0.0, 0.001, 0.0, 0.0)


def find_font(m):
    (key,) = m.taken(is_key)
    name = key_of(key)
    if name in m.entries[FONTDIRECTORY]:
        m.operands.append(m.entries[FONTDIRECTORY][name])
        return
    # Fonts that are found survive a restore, so their numbers are not used again.
    d = Dictionary(min(m.entries) - 100)
    m.entries[d.number] = {}
    m.entries[d.number].update({
        b"FontType": number(1), b"FontName": Literal(name),
        b"FontMatrix": Array([number(v) for v in UNIT]), b"Encoding": CONSTANTS[b"StandardEncoding"],
        b"FontBBox": Procedure([number(v) for v in (-200, -300, 1200, 1000)]), b"PaintType": number(0), b"FID": Null(), MARKED: Literal(name)})
    m.entries[FONTDIRECTORY][name] = d
    m.operands.append(d)


def scaled_font(m, d, by):
    new = new_dictionary(m)
    m.entries[new.number].update(m.entries[d.number])
    m.entries[new.number][b"FontMatrix"] = Array([number(v) for v in times(of(m.entries[d.number][b"FontMatrix"]), by)])
    m.operands.append(new)


def scale_font(m):
    size, d = m.taken(Number, Dictionary)
    scaled_font(m, d, (size.value, 0.0, 0.0, size.value, 0.0, 0.0))


def make_font(m):
    by, d = m.taken(is_matrix, Dictionary)
    scaled_font(m, d, of(by))


def font_made(m, d):
    entries = m.entries[d.number]
    if MARKED not in entries:
        return Font((Literal(b"a font that the document brings"),))
    encoding = tuple(key_of(o) if isinstance(o, (Literal, Name)) else b".notdef" for o in entries[b"Encoding"].items)
    encoded = Encoded(entries[MARKED].name, encoding)
    return Font((encoded, times(of(entries[b"FontMatrix"]), (1000.0, 0.0, 0.0, 1000.0, 0.0, 0.0))))


def set_font(m):
    (d,) = m.taken(Dictionary)
    m.drawn(Call(b"setfont", (font_made(m, d),)), "sets")


def select_font(m):
    by, key = m.taken(anything, is_key)
    m.operands.append(key)
    find_font(m)
    m.operands.append(by)
    make_font(m) if is_matrix(by) else scale_font(m)
    set_font(m)


OVER.update({b"findfont": find_font, b"scalefont": scale_font, b"makefont": make_font, b"setfont": set_font, b"selectfont": select_font})
# Here systemdict is a dictionary, an array may be changed while a loop runs over it, and a loop may be left.
OVER.update({name: FURTHER[name] for name in (b"where", b"known", b"get", b"put", b"for", b"forall", b"exec", b"cvx")})
# A matrix is an array of numbers.
OVER.update({name: FURTHER[name] for name in (b"matrix", b"currentmatrix", b"setmatrix", b"defaultmatrix")})
OVER.update({name: FURTHER[name] for name in (b"grestoreall", b"setpagedevice", b"copypage", b"readonly")})


@operator("definefont", Dictionary, is_key)
def define_font(m, d, key):
    m.entries[d.number][b"FID"] = Null()
    m.entries[FONTDIRECTORY][key_of(key)] = d
    return d


@operator("stringwidth", String)
def string_width(m, s):
    from boxes import font_of

    font, scale = font_of(m.graphics.settings)
    known = FONTS_ASKED.characters(font)
    x = sum(known[code][0][0] for code in s.data)
    return [float(v) for v in at((*scale[:4], 0.0, 0.0), x, 0.0)]


# Images: their data are skipped, and they paint their square.


@operator("currentfile")
def current_file(m):
    return File()


@operator("readhexstring", String, File)
def read_hexadecimal(m, s, f):
    digits = bytearray()
    while len(digits) < 2 * len(s.data) and m.scanner.at < len(m.scanner.text):
        byte = m.scanner.text[m.scanner.at]
        m.scanner.at += 1
        if byte in b"0123456789abcdefABCDEF":
            digits.append(byte)
    s.data[:] = from_hexadecimal(bytes(digits)).ljust(len(s.data), b"\0")
    return [s, True]


def image(name, parts):
    def data_read(m, call, source, left):
        """The source is run until it has given all bytes."""
        have = [0]

        def again(m):
            given = m.operands.pop()
            have[0] += len(given.data)
            if have[0] >= left or not given.data:
                m.drawn(call, "beside")
                return False
            return True

        m.frames.append(Frame(source.items, 0, again, "loop"))

    def perform(m):
        source, by, bits, height, width = m.taken(Procedure, is_matrix, anything, Number, Number)
        depth = 1 if isinstance(bits, Truth) else bits.value
        size = (width.value * depth * parts + 7) // 8 * height.value
        call = Call(name, ())
        # Usually the matrix takes the unit square to the width and height: stop at others.
        a = of(by)
        if a not in ((width.value, 0, 0, height.value, 0, 0), (width.value, 0, 0, -height.value, 0, height.value)):
            raise Stopped("an image whose matrix isn't that of its sides")
        data_read(m, call, source, size)

    FURTHER[name] = perform


image(b"image", 1)
image(b"imagemask", 1)


class _Asked:
    """Fonts are looked up when a text's width is needed."""

    fonts = None

    def characters(self, font):
        from boxes import Fonts

        self.fonts = self.fonts or Fonts()
        return self.fonts.characters(font)


FONTS_ASKED = _Asked()
FURTHER_NAMES = sorted({*FURTHER, *OVER, *CONSTANTS} - set(PROVED) - set(ALWAYS))
