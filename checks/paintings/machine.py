"""A second implementation of the machine of crates/pictures, from its definitions and the PostScript Language Reference,
third edition (PLRM). It shares nothing with the crate: no code and no proof.

As there, transformations are lists of matrices that are not multiplied, a point is its operands with the list at that
time, and a painting is its operator with its operands and the graphics state. In all lists here the latest is last.

PROVED are the names that the machine of the crate has, each by its definition. FURTHER are operators of the Reference
that it lacks, and more general forms of those that it has: `Machine(.., further=True)` has them too. If `further` is an
object (within.Noted), it is asked to note which are used; if it is values.VALUES, there are those of values.py alone. A
name in neither stops the machine.
"""
from dataclasses import dataclass, field, replace

# Tokens and objects: specs/Objects.


class Stopped(Exception):
    """The machine stops: the definitions' None."""


class Number:
    """A number is its text. If it was calculated and isn't whole, the text is a term: the texts of its operands and
    the operator's name after them, `0.1 0.2 add`. Its value is used by readers of pictures and by further operators
    alone."""

    def __init__(self, text, value=None, parts=()):
        self.known_text, self.parts = text, parts
        self.whole = None if parts else whole_of(text)
        self.known_value = value if value is not None or parts else value_of(text)

    @property
    def value(self):
        if self.known_value is None:
            raise Stopped(f"the number {self!r}, which has no value")
        return self.known_value

    @property
    def text(self):
        if self.known_text is None:
            words, parts = [], [self]
            while parts:
                part = parts.pop()
                if isinstance(part, Number) and part.known_text is None:
                    parts += part.parts
                else:
                    words.append(part.known_text if isinstance(part, Number) else part)
            self.known_text = b" ".join(reversed(words))
        return self.known_text

    def __eq__(self, other):
        return isinstance(other, Number) and self.known_value == other.known_value and self.text == other.text

    def __hash__(self):
        return hash(self.known_value)

    def __repr__(self):
        return self.text.decode("latin-1")


def value_of(text):
    if b"#" in text:
        base, digits = text.split(b"#")
        return int(digits, int(base))
    try:
        return int(text)
    except ValueError:
        return float(text)


def whole_of(text):
    """The value of a whole number: a sign or none, and digits. None for any other."""
    return int(text) if is_whole(text) else None


def whole(value):
    return Number(b"%d" % value, value)


def number(value):
    return Number(repr(value).encode(), value)


# The results of `add`, `sub`, `mul`, `div` and `neg`: specs/Calculations.
VALUES = {
    b"add": lambda a, b: a + b,
    b"sub": lambda a, b: a - b,
    b"mul": lambda a, b: a * b,
    b"div": lambda a, b: a / b,
    b"neg": lambda a: -a,
}


def term(name, *operands):
    try:
        value = VALUES[name](*(o.known_value for o in operands))
    except (TypeError, ZeroDivisionError, OverflowError):
        value = None
    return Number(None, value, (*operands, name))


def calculated(name, *operands):
    """Only whole numbers are calculated with. `div` gives none, and with other numbers nothing is calculated."""
    values = [o.whole for o in operands]
    return term(name, *operands) if name == b"div" or None in values else whole(VALUES[name](*values))


@dataclass(frozen=True)
class Name:
    name: bytes


@dataclass(frozen=True)
class Literal:
    name: bytes


@dataclass(frozen=True)
class Bound:
    name: bytes


@dataclass(frozen=True)
class Unknown:
    what: bytes


@dataclass(frozen=True)
class Mark:
    pass


@dataclass(frozen=True)
class Truth:
    value: bool


@dataclass(frozen=True)
class Dictionary:
    number: int


@dataclass(frozen=True)
class SystemDictionary:
    pass


@dataclass(frozen=True)
class Matrix:
    """The result of `matrix`. It is identified by number, like a dictionary, and holds the transformation with which it is filled."""

    number: int


@dataclass(frozen=True)
class Saved:
    level: int


@dataclass(frozen=True)
class Operator:
    name: bytes


@dataclass(frozen=True)
class Null:
    pass


@dataclass(frozen=True)
class File:
    pass


@dataclass(frozen=True)
class Reference:
    """To a composite of values.py, or to null: a token, as an array may have it as an element."""

    sort: str
    number: int = 0
    first: int = 0
    count: int = 0


class Composite:
    """A shared object: further operators change it in place (PLRM 3.3.1). The proved machine has only values."""

    level = 0
    literal = True

    def __eq__(self, other):
        return type(self) is type(other) and self.fixed() == other.fixed()

    def __hash__(self):
        return hash(self.fixed())


class String(Composite):
    """A string, as it is written between its parentheses or angle brackets, and its bytes."""

    def __init__(self, raw, data, hexadecimal=False):
        self.raw, self.data, self.hexadecimal = raw, bytearray(data), hexadecimal

    def fixed(self):
        return (self.hexadecimal, self.raw, bytes(self.data))

    def __repr__(self):
        return f"({bytes(self.data).decode('latin-1')})"


class Array(Composite):
    def __init__(self, items):
        self.items = items

    def fixed(self):
        return tuple(self.items)

    def __repr__(self):
        return f"[{' '.join(map(repr, self.items))}]"


class Procedure(Array):
    literal = False


@dataclass(frozen=True)
class Font:
    """A font by what it was made of: its name or its dictionary, and the numbers or matrices that scale it."""

    made_of: tuple


# The scanner: specs/Scanner.

WHITE, DELIMITERS = b" \n\r\t\f\0", b"()<>[]{}/%"
REGULAR = bytes(b for b in range(256) if b not in WHITE + DELIMITERS and not 127 < b < 160)
ESCAPES = {ord("n"): 10, ord("r"): 13, ord("t"): 9, ord("b"): 8, ord("f"): 12}


def is_whole(text):
    return text.lstrip(b"+-").isdigit() and len(text) - len(text.lstrip(b"+-")) <= 1


def is_number(text):
    digits = text[1:] if text[:1] in (b"+", b"-") else text
    mantissa, *exponent = digits.replace(b"E", b"e").split(b"e", 1)
    if exponent and not is_whole(exponent[0]):
        return False
    whole, *fraction = mantissa.split(b".", 1)
    parts = [whole, *fraction]
    return all(part.isdigit() for part in parts if part) and any(parts)


def has_radix(text):
    base, *rest = text.split(b"#", 1)
    return bool(rest) and base.isdigit()


def unescaped(raw):
    """The bytes of a string (PLRM 3.2, Strings)."""
    out, at = bytearray(), 0
    while at < len(raw):
        byte = raw[at]
        at += 1
        if byte == 13:
            at += raw[at : at + 1] == b"\n"
            out.append(10)
        elif byte != 92:
            out.append(byte)
        elif at < len(raw):
            digits = at
            while digits < min(at + 3, len(raw)) and raw[digits] in b"01234567":
                digits += 1
            if digits > at:
                out.append(int(raw[at:digits], 8) & 255)
                at = digits
            elif raw[at : at + 2] == b"\r\n":
                at += 2
            elif raw[at] in b"\r\n":
                at += 1
            else:
                out.append(ESCAPES.get(raw[at], raw[at]))
                at += 1
    return bytes(out)


def from_hexadecimal(digits):
    return bytes.fromhex((digits + b"0" * (len(digits) % 2)).decode())


class Scanner:
    """Cuts bytes into tokens, one at a time. `complete` is whether the text so far ended between tokens."""

    def __init__(self, text, further=False):
        self.text, self.at, self.further, self.complete = text, 0, further, True

    def run_of(self, bytes_in):
        start = self.at
        while self.at < len(self.text) and self.text[self.at] in bytes_in:
            self.at += 1
        return self.text[start : self.at]

    def token(self):
        """The next token, None at the end. Braces are b'{' and b'}'."""
        while self.at < len(self.text):
            byte = self.text[self.at]
            if byte in WHITE:
                self.at += 1
            elif byte == ord("%"):
                self.comment()
            else:
                return self.begun(byte)
        return None

    def comment(self):
        while self.at < len(self.text) and self.text[self.at] not in b"\n\r\f":
            self.at += 1
        # If the text ends within a comment, that is still open: IsComplete.
        self.complete = self.at < len(self.text)

    def begun(self, byte):
        if byte in REGULAR:
            return self.word()
        self.at += 1
        if byte in b"{}":
            return bytes([byte])
        if byte in b"[]":
            return Name(bytes([byte]))
        if byte == ord("/"):
            return self.literal()
        if byte == ord("("):
            return self.string()
        if byte == ord("<"):
            return self.hexadecimal()
        if byte == ord(">") and self.text[self.at : self.at + 1] == b">":
            self.at += 1
            return Name(b">>")
        if byte == ord(">"):
            self.complete = self.at < len(self.text)
        return Unknown(bytes([byte]))

    def word(self):
        text = self.run_of(REGULAR)
        self.complete = self.at < len(self.text)
        if is_number(text):
            return Number(text)
        if has_radix(text):
            return Number(text) if self.further else Unknown(text)
        return Name(text)

    def literal(self):
        if self.text[self.at : self.at + 1] == b"/":
            self.at += 1
            name = self.run_of(REGULAR)
            self.complete = self.at < len(self.text)
            return Unknown(b"//" + name)
        name = self.run_of(REGULAR)
        self.complete = self.at < len(self.text)
        return Literal(name)

    def string(self):
        start, depth = self.at, 0
        while self.at < len(self.text):
            byte = self.text[self.at]
            self.at += 1
            if byte == 92:
                self.at += 1
            elif byte == 40:
                depth += 1
            elif byte == 41 and depth:
                depth -= 1
            elif byte == 41:
                raw = self.text[start : self.at - 1]
                return String(raw, unescaped(raw))
        self.complete = False
        return Unknown(b"a string that doesn't end")

    def hexadecimal(self):
        if self.text[self.at : self.at + 1] == b"<":
            self.at += 1
            return Name(b"<<")
        digits = self.run_of(b"0123456789abcdefABCDEF" + WHITE)
        digits = bytes(byte for byte in digits if byte not in WHITE)
        ended = self.text[self.at : self.at + 1]
        self.at += 1
        if ended == b">":
            return String(digits, from_hexadecimal(digits), hexadecimal=True)
        self.complete = ended != b""
        return Unknown(b"<" + ended)


def is_complete(text):
    """IsComplete: the text ends between tokens. An open brace is no open token."""
    scanner = Scanner(text)
    while scanner.token() is not None:
        pass
    return scanner.complete


# The state: specs/Machine.


@dataclass(frozen=True)
class Call:
    name: bytes
    operands: tuple


@dataclass(frozen=True)
class Segment:
    call: Call
    chain: tuple
    settings: tuple = ()


@dataclass(frozen=True)
class Clip:
    name: bytes
    path: tuple


@dataclass(frozen=True)
class Graphics:
    chain: tuple = ()
    path: tuple = ()
    clip: tuple = ()
    settings: tuple = ()
    # which page device it is, counted: for further operators
    device: int = 0


@dataclass(frozen=True)
class Painting:
    call: Call
    graphics: Graphics


@dataclass
class Snapshot:
    level: int
    journal: int
    made: int
    graphics: Graphics
    stacked: list


USERDICT, SYSTEMDICT, GLOBALDICT, STATUSDICT, ERRORDICT, FONTDIRECTORY = 0, -1, -2, -3, -4, -5
MISSING = object()
# Steps after which a run is given up. The longest one, of a page whose fonts are procedures, takes 2 500 000.
MOST = 5_000_000
ALWAYS = {b"userdict": Dictionary(USERDICT), b"systemdict": SystemDictionary(), b"true": Truth(True), b"false": Truth(False)}
# The operands of graphics operators, the topmost first, and their effect: systemdict of specs/Dictionaries.
N, TEXT, ARRAY, MATRIX, FONT, NAME, TRUTH = "number", "text", "array", "matrix", "font", "name", "truth"
DRAWS = {
    b"newpath": ("", "forgets"), b"moveto": (2, "segments"), b"rmoveto": (2, "segments"), b"lineto": (2, "segments"),
    b"rlineto": (2, "segments"), b"curveto": (6, "segments"), b"rcurveto": (6, "segments"), b"arc": (5, "segments"),
    b"arcn": (5, "segments"), b"closepath": (0, "segments"), b"concat": ([MATRIX], "transforms"), b"translate": (2, "transforms"),
    b"scale": (2, "transforms"), b"rotate": (1, "transforms"), b"setlinewidth": (1, "sets"), b"setlinecap": (1, "sets"),
    b"setlinejoin": (1, "sets"), b"setmiterlimit": (1, "sets"), b"setdash": ([N, ARRAY], "sets"), b"setgray": (1, "sets"),
    b"setrgbcolor": (3, "sets"), b"setcmykcolor": (4, "sets"), b"setfont": ([FONT], "sets"), b"selectfont": ([N, NAME], "sets"),
    b"fill": (0, "paints"), b"eofill": (0, "paints"), b"stroke": (0, "paints"), b"rectfill": (4, "beside"),
    b"rectstroke": (4, "beside"), b"show": ([TEXT], "shows"), b"ashow": ([TEXT, N, N], "shows"),
    b"widthshow": ([TEXT, N, N, N], "shows"), b"awidthshow": ([TEXT, N, N, N, N, N], "shows"), 
    b"image": ([TEXT, MATRIX, N, N, N], "beside"), b"imagemask": ([TEXT, MATRIX, TRUTH, N, N], "beside"),
    b"clip": (0, "clips"), b"eoclip": (0, "clips"),
}
PATH_TAKEN, FONTS = ("paints", "forgets"), (b"setfont", b"selectfont")


def wants_of(wants):
    return [N] * wants if isinstance(wants, int) else list(wants)


def are_numbers(items):
    return all(isinstance(item, Number) for item in items)


def is_numbers(o):
    return type(o) is Array and are_numbers(o.items)


def is_six_numbers(o):
    return is_numbers(o) and len(o.items) == 6


# What an operand must be: `fits` of specs/Operators.
FITS = {N: Number, TEXT: String, ARRAY: is_numbers, MATRIX: is_six_numbers, FONT: Font, NAME: Literal, TRUTH: Truth}


def frozen(o):
    """The present value of an operand, as shared ones may be changed later."""
    if type(o) is Array:
        return Array(tuple(frozen(item) for item in o.items))
    return String(o.raw, o.data, o.hexadecimal) if isinstance(o, String) else o


def is_whole_number(o):
    return isinstance(o, Number) and o.whole is not None


def is_count(o):
    """Whether it is written with digits only."""
    return is_whole_number(o) and o.text.isdigit()


@dataclass
class Frame:
    """A procedure that is being run, and what is done after it: further operators use this for loops."""

    items: list
    at: int = 0
    again: object = None
    kind: str = ""


@dataclass
class Machine:
    text: bytes
    further: bool = False
    held: bool = False
    operands: list = field(default_factory=list)
    dictionaries: list = field(default_factory=lambda: [USERDICT])
    entries: dict = field(default_factory=lambda: {USERDICT: {}})
    made: int = 0
    # the transformations that matrices hold
    kept: dict = field(default_factory=dict)
    level: int = 0
    graphics: Graphics = Graphics()
    stacked: list = field(default_factory=list)
    saves: list = field(default_factory=list)
    painted: list = field(default_factory=list)
    sheets: list = field(default_factory=list)
    # all paintings one after another, and None for a sheet that is printed
    events: list = field(default_factory=list)
    journal: list = field(default_factory=list)
    frames: list = field(default_factory=list)
    steps: int = 0
    now: object = None
    called: bytes = b""
    # the names that the step has looked up
    asked: set = field(default_factory=set)

    def __post_init__(self):
        self.scanner = Scanner(self.text, self.further)
        if self.further:
            from further import begin

            begin(self)

    # What is left to run.

    def next_item(self):
        while self.frames:
            frame = self.frames[-1]
            if frame.at < len(frame.items):
                frame.at += 1
                return frame.items[frame.at - 1]
            self.steps += 1
            if self.steps > MOST:
                raise Stopped("it runs too long")
            if frame.again is None or not frame.again(self):
                self.frames.pop()
            else:
                frame.at = 0
        return self.item()

    def item(self):
        token = self.scanner.token()
        return self.procedure() if token == b"{" else token

    def procedure(self):
        items = []
        while (token := self.scanner.token()) != b"}":
            if token is None:
                raise Stopped("a procedure that doesn't end")
            if isinstance(token, Unknown) and self.further and token.what[:2] == b"//":
                token = self.meaning(token.what[2:])
            if isinstance(token, Unknown):
                raise Stopped(f"the token {token.what!r}")
            items.append(self.procedure() if token == b"{" else self.own(token))
        return self.own(Procedure(items))

    def own(self, o):
        if isinstance(o, Composite):
            o.level = self.level
        return o

    def run(self):
        while self.step():
            if self.steps > MOST:
                raise Stopped("it runs too long")
        return self

    def step(self):
        item = self.next_item()
        if item is None:
            return False
        self.steps += 1
        self.now = item
        self.asked.clear()
        self.called = b""
        self.act(item)
        return True

    # A token, a name's value: `act`, `done`.

    def act(self, item):
        if isinstance(item, Name):
            self.done(self.meaning(item.name), item.name)
        elif isinstance(item, (Bound, Operator)):
            self.perform(item.name)
        elif isinstance(item, Unknown) and self.further and item.what[:2] == b"//":
            self.operands.append(self.meaning(item.what[2:]))
        elif isinstance(item, Unknown):
            raise Stopped(f"the token {item.what.decode('latin-1')}")
        elif item == b"}":
            raise Stopped("a closing brace")
        elif hasattr(item, "run"):
            item.run(self)
        else:
            self.operands.append(self.own(item) if not isinstance(item, Procedure) else item)

    def found(self, key):
        """The meaning of a name, None if it has none: from the topmost dictionary that has it, with systemdict below them all."""
        self.asked.add(key)
        for d in reversed(self.dictionaries):
            value = self.entries[d].get(key)
            if value is not None:
                return value
        return self.system(key)

    def system(self, key):
        if self.further and key == b"systemdict":
            return Dictionary(SYSTEMDICT)
        if key in ALWAYS:
            return ALWAYS[key]
        if key in PROVED:
            return Operator(key)
        if self.further:
            from further import system

            if self.further is not True:
                self.further.finds(self, key)
            return system(key)
        return None

    def meaning(self, key):
        value = self.found(key)
        if value is None and self.further is not True and hasattr(self.further, "named"):
            value = self.further.named(key)
        if value is None:
            raise Stopped(f"the name {key.decode('latin-1')}")
        return value

    def done(self, o, name=b""):
        if isinstance(o, Procedure):
            self.frames.append(Frame(o.items))
        elif isinstance(o, Operator):
            self.perform(o.name)
        elif isinstance(o, Name):
            self.done(self.meaning(o.name))
        else:
            self.operands.append(o)

    def perform(self, name):
        self.called = name
        if self.further:
            from further import OVER, perform

            if self.further is not True:
                self.further.calls(self, name)
            if name in OVER:
                return perform(self, name, OVER)
        if name in PROVED:
            try:
                return PROVED[name](self)
            except Operands:
                pass
        if self.further:
            if self.further is not True:
                self.further.lacks(self, name)
            return perform(self, name)
        if not (hasattr(self.further, "goes_on") and self.further.goes_on(self, name)):
            raise Stopped(f"operands of {name.decode()}")

    # What operators use.

    def taken(self, *kinds):
        """The topmost operands, the topmost first, if they are of these kinds; nothing is taken otherwise."""
        if len(self.operands) < len(kinds):
            raise Operands
        found = self.operands[: -len(kinds) - 1 : -1] if kinds else []
        for kind, o in zip(kinds, found):
            if type(o) is not kind if isinstance(kind, type) else not kind(o):
                raise Operands
        if kinds:
            del self.operands[-len(kinds) :]
        return found

    def put(self, d, key, value):
        entries = self.entries.setdefault(d, {})
        self.journal.append((entries, key, entries.get(key, MISSING)))
        entries[key] = value

    def fill(self, number, chain):
        self.journal.append((self.kept, number, self.kept.get(number, MISSING)))
        self.kept[number] = chain

    def go_back(self, journal):
        while len(self.journal) > journal:
            entries, key, value = self.journal.pop()
            if isinstance(entries, list):
                entries[key] = value
            elif value is MISSING:
                entries.pop(key, None)
            else:
                entries[key] = value

    def set_to(self, **fields):
        self.graphics = replace(self.graphics, **fields)

    def draw(self, name, wants, effect):
        operands = self.taken(*[FITS[want] for want in wants])
        self.drawn(Call(name, tuple(frozen(o) for o in operands)), effect)

    def drawn(self, call, effect):
        g = self.graphics
        if effect in ("paints", "beside", "shows"):
            self.painted.append(Painting(call, g))
            self.events.append(self.painted[-1])
        if effect in PATH_TAKEN:
            self.set_to(path=())
        elif effect == "segments":
            self.set_to(path=g.path + (Segment(call, g.chain),))
        elif effect == "transforms":
            self.set_to(chain=g.chain + (call,))
        elif effect == "sets":
            self.set_to(settings=g.settings + (call,))
        elif effect == "shows":
            self.set_to(path=g.path + (Segment(call, g.chain, g.settings),))
        elif effect == "clips":
            self.set_to(clip=g.clip + (Clip(call.name, g.path),))

    def reset(self):
        fonts = tuple(c for c in self.graphics.settings if c.name in FONTS)
        self.graphics = Graphics(settings=fonts, device=self.graphics.device)

    def back_to(self, graphics):
        """Another page device than before begins with an empty page (6.1.1)."""
        if graphics.device != self.graphics.device:
            self.painted = []
        self.graphics = graphics

    def is_old(self, shot, o):
        if isinstance(o, (Dictionary, Matrix)):
            return o.number <= shot.made
        if isinstance(o, Saved):
            return o.level < shot.level
        if self.further and isinstance(o, Composite):
            return o.level <= shot.level
        return not isinstance(o, (Composite, Font))


class Operands(Exception):
    """The operands differ from those of the definition."""


def anything(o):
    return True


def refused(m, *operands):
    """Operands of the right kinds, the topmost first, which stay on the stack."""
    m.operands += reversed(operands)
    raise Operands


# Operators: specs/Operators and specs/Machine, each as in 8.2 of the Reference.


def exch(m):
    top, below = m.taken(anything, anything)
    m.operands += [top, below]


def dup(m):
    (top,) = m.taken(anything)
    m.operands += [top, top]


def close_array(m):
    at = len(m.operands) - 1
    while at >= 0 and not isinstance(m.operands[at], Mark):
        if not is_token(m.operands[at]):
            raise Operands
        at -= 1
    if at < 0:
        raise Operands
    items = m.operands[at + 1 :]
    del m.operands[at:]
    m.operands.append(m.own(Array(items)))


def put(m):
    value, key, d = m.taken(anything, Literal, Dictionary)
    m.put(d.number, key.name, value)


def define(m):
    value, key = m.taken(anything, Literal)
    m.put(m.dictionaries[-1], key.name, value)


def begin(m):
    (d,) = m.taken(Dictionary)
    m.dictionaries.append(d.number)


def end(m):
    if len(m.dictionaries) < 2:
        raise Operands
    m.dictionaries.pop()


def make_dictionary(m):
    m.taken(is_count)
    m.made += 1
    m.entries[m.made] = {}
    m.operands.append(Dictionary(m.made))


def load(m):
    (key,) = m.taken(Literal)
    value = m.found(key.name)
    if value is None:
        refused(m, key)
    m.operands.append(value)


def bound(m, item):
    if isinstance(item, Name):
        value = m.found(item.name)
        return Bound(value.name) if isinstance(value, Operator) else item
    return m.own(Procedure([bound(m, inner) for inner in item.items])) if isinstance(item, Procedure) else item


def bind(m):
    (procedure,) = m.taken(Procedure)
    m.operands.append(bound(m, procedure))


def known(m):
    key, d = m.taken(Literal, lambda o: type(o) in (Dictionary, SystemDictionary))
    m.asked.add(key.name)
    if isinstance(d, Dictionary):
        m.operands.append(Truth(key.name in m.entries[d.number]))
    elif m.system(key.name) is None and key.name in LACKED:
        refused(m, key, d)
    else:
        m.operands.append(Truth(m.system(key.name) is not None))


# What an interpreter's systemdict has, and this machine lacks.
LACKED = frozenset(b"""
clear counttomark idiv mod abs ceiling floor round truncate sqrt atan cos sin exp ln log rand srand rrand array
getinterval putinterval astore packedarray setpacking currentpacking maxlength store undef currentdict errordict $error
globaldict statusdict countdictstack cleardictstack dictstack string anchorsearch search token xor bitshift loop exit
stop stopped countexecstack execstack quit start type cvlit xcheck executeonly noaccess rcheck cvi cvn cvr cvrs
cvs file filter closefile read write readhexstring writehexstring readstring writestring readline bytesavailable flush
flushfile resetfile status run currentfile deletefile renamefile filenameforall setfileposition fileposition print = ==
stack pstack printobject writeobject setobjectformat currentobjectformat defineresource undefineresource findresource
findcolorrendering resourcestatus resourceforall setglobal currentglobal gcheck startjob defineuserobject execuserobject
undefineuserobject null version realtime usertime languagelevel product revision serialnumber executive echo prompt
clipsave cliprestore gstate setgstate currentgstate currentlinewidth currentlinecap currentlinejoin currentmiterlimit
setstrokeadjust currentstrokeadjust currentdash setcolorspace currentcolorspace setcolor currentcolor currentgray
sethsbcolor currenthsbcolor currentrgbcolor currentcmykcolor sethalftone currenthalftone setscreen currentscreen
setcolorscreen currentcolorscreen settransfer currenttransfer setcolortransfer currentcolortransfer setblackgeneration
currentblackgeneration setundercolorremoval currentundercolorremoval setcolorrendering currentcolorrendering setflat
currentflat setoverprint currentoverprint setsmoothness currentsmoothness identmatrix concatmatrix transform dtransform
itransform idtransform invertmatrix currentpoint arct arcto flattenpath reversepath strokepath ustrokepath charpath
uappend setbbox pathbbox upath rectclip ucache ustroke ufill ueofill shfill colorimage infill ineofill inufill inueofill
instroke inustroke makepattern setpattern execform currentpagedevice nulldevice definefont composefont undefinefont
makefont rootfont currentfont xshow xyshow yshow glyphshow stringwidth cshow kshow FontDirectory GlobalFontDirectory
StandardEncoding ISOLatin1Encoding findencoding setcachedevice setcachedevice2 setcharwidth eexec internaldict
settrapparams currenttrapparams settrapzone setsystemparams currentsystemparams setuserparams currentuserparams
setdevparams currentdevparams vmreclaim setvmthreshold vmstatus cachestatus setcachelimit setcacheparams
currentcacheparams setucacheparams ucachestatus
""".split())


def where(m):
    """The topmost dictionary on the stack that has the name, with systemdict below them all. It stops at a name that only an
    interpreter's systemdict has."""
    (key,) = m.taken(Literal)
    m.asked.add(key.name)
    for d in reversed(m.dictionaries):
        if key.name in m.entries[d]:
            m.operands += [Dictionary(d), Truth(True)]
            return
    if m.system(key.name) is not None:
        m.operands += [SystemDictionary(), Truth(True)]
    elif key.name in LACKED:
        refused(m, key)
    else:
        m.operands.append(Truth(False))


def is_token(o):
    """What an array may hold: a number, a name, a string, a reference."""
    return isinstance(o, (Number, Literal, Name, String, Reference))


def get(m):
    key, o = m.taken(lambda o: isinstance(o, Literal) or is_count(o), lambda o: type(o) in (Dictionary, SystemDictionary, Array))
    if isinstance(o, SystemDictionary) and isinstance(key, Literal):
        m.asked.add(key.name)
        if m.system(key.name) is None:
            refused(m, key, o)
        m.operands.append(m.system(key.name))
    elif isinstance(o, Dictionary) and isinstance(key, Literal):
        m.asked.add(key.name)
        if key.name not in m.entries[o.number]:
            refused(m, key, o)
        m.operands.append(m.entries[o.number][key.name])
    elif isinstance(o, Array) and is_count(key) and key.whole < len(o.items):
        m.operands.append(o.items[key.whole])
    else:
        refused(m, key, o)


def length(m):
    (o,) = m.taken(lambda o: type(o) in (Array, Procedure))
    m.operands.append(whole(len(o.items)))


def load_array(m):
    (o,) = m.taken(Array)
    m.operands += [*o.items, o]


def close_dictionary(m):
    at, entries = len(m.operands) - 1, []
    while at >= 0 and not isinstance(m.operands[at], Mark):
        if at < 1 or not isinstance(m.operands[at - 1], Literal):
            raise Operands
        entries.append((m.operands[at - 1].name, m.operands[at]))
        at -= 2
    if at < 0:
        raise Operands
    del m.operands[at:]
    m.made += 1
    m.entries[m.made] = {}
    for key, value in entries:
        m.put(m.made, key, value)
    m.operands.append(Dictionary(m.made))


def index(m):
    (count,) = m.taken(is_count)
    if count.whole >= len(m.operands):
        refused(m, count)
    m.operands.append(m.operands[-1 - count.whole])


def copy(m):
    if [type(o) for o in m.operands[-2:]] == [Matrix, Matrix]:
        o, full = m.taken(Matrix, Matrix)
        if full.number not in m.kept:
            raise Stopped("a matrix that nothing has filled in")
        m.fill(o.number, m.kept[full.number])
        m.operands.append(o)
        return
    (count,) = m.taken(is_count)
    if count.whole > len(m.operands):
        refused(m, count)
    m.operands += m.operands[len(m.operands) - count.whole :]


def roll(m):
    by, count = m.taken(is_whole_number, is_count)
    if count.whole > len(m.operands):
        refused(m, by, count)
    if count.whole:
        rolled = m.operands[-count.whole :]
        at = count.whole - by.whole % count.whole
        m.operands[-count.whole :] = rolled[at:] + rolled[:at]


def calculates(name):
    def perform(m):
        m.operands.append(calculated(name, *reversed(m.taken(*[Number] * (1 if name == b"neg" else 2)))))

    return perform


COMPARED = {
    b"eq": lambda a, b: a == b,
    b"ne": lambda a, b: a != b,
    b"lt": lambda a, b: a < b,
    b"le": lambda a, b: a <= b,
    b"gt": lambda a, b: a > b,
    b"ge": lambda a, b: a >= b,
}


def sort_of(o):
    """What `eq` distinguishes whatever the value."""
    if isinstance(o, (Name, Literal, String, Reference)):
        return "name or string"
    if isinstance(o, (Array, Matrix)):
        return "array"
    return "dictionary" if isinstance(o, (Dictionary, SystemDictionary, Font)) else type(o)


def compares(name):
    """Whole numbers; and by `eq` and `ne` literal names, dictionaries, and objects of two sorts."""

    def perform(m):
        b, a = m.taken(anything, anything)
        if is_whole_number(a) and is_whole_number(b):
            m.operands.append(Truth(COMPARED[name](a.whole, b.whole)))
        elif isinstance(a, Literal) and isinstance(b, Literal) and name in (b"eq", b"ne"):
            m.operands.append(Truth(COMPARED[name](a.name, b.name)))
        elif {type(a), type(b)} <= {Dictionary, SystemDictionary} and name in (b"eq", b"ne"):
            m.operands.append(Truth(COMPARED[name](a, b)))
        elif sort_of(a) != sort_of(b) and name in (b"eq", b"ne"):
            m.operands.append(Truth(name == b"ne"))
        else:
            refused(m, b, a)

    return perform


def both(m):
    b, a = m.taken(Truth, Truth)
    m.operands.append(Truth(a.value and b.value))


def either(m):
    b, a = m.taken(Truth, Truth)
    m.operands.append(Truth(a.value or b.value))


def opposite(m):
    (a,) = m.taken(Truth)
    m.operands.append(Truth(not a.value))


def clear_to_mark(m):
    at = len(m.operands) - 1
    while at >= 0 and not isinstance(m.operands[at], Mark):
        at -= 1
    if at < 0:
        raise Operands
    del m.operands[at:]


def find_font(m):
    (name,) = m.taken(Literal)
    m.operands.append(Font((name,)))


def scale_font(m):
    size, font = m.taken(Number, Font)
    m.operands.append(Font(font.made_of + (size,)))


def execute(m):
    (o,) = m.taken(lambda o: isinstance(o, (Procedure, Operator, Number, Name, Literal, String, Reference)))
    m.frames.append(Frame([o])) if isinstance(o, (Operator, Name)) else m.done(o)


def count(m):
    m.operands.append(whole(len(m.operands)))


def make_executable(m):
    (o,) = m.taken(lambda o: isinstance(o, Literal) or type(o) in (Array, Procedure))
    if isinstance(o, Literal):
        m.operands.append(Name(o.name))
    elif isinstance(o, Procedure):
        m.operands.append(o)
    else:
        m.operands.append(m.own(Procedure(list(o.items))))


def is_writable(m):
    (o,) = m.taken(lambda o: type(o) in (Dictionary, SystemDictionary))
    m.operands.append(Truth(isinstance(o, Dictionary) and READ_ONLY not in m.entries.get(o.number, {})))


# Not a name, as it isn't bytes.
READ_ONLY = object()


def make_read_only(m):
    (d,) = m.taken(Dictionary)
    m.put(d.number, READ_ONLY, Truth(True))
    m.operands.append(d)


def make_matrix(m):
    m.made += 1
    m.operands.append(Matrix(m.made))


def if_true(m):
    procedure, test = m.taken(Procedure, Truth)
    if test.value:
        m.done(procedure)


def if_else(m):
    otherwise, procedure, test = m.taken(Procedure, Procedure, Truth)
    m.done(procedure if test.value else otherwise)


def run_all(m, turns, procedure):
    """These items before each turn of the procedure."""
    if len(turns) * (1 + len(procedure.items)) > 2 * MOST:
        raise Stopped("it runs too long")
    m.frames.append(Frame([item for items in turns for item in (*items, *procedure.items)], kind="loop"))


def repeat(m):
    procedure, count = m.taken(Procedure, is_count)
    run_all(m, [()] * min(count.whole, 2 * MOST), procedure)


def for_each_number(m):
    """Up or down to the limit, inclusive. A step of 0 stops the machine."""
    procedure, limit, step, first = m.taken(Procedure, is_whole_number, is_whole_number, is_whole_number)
    if not step.whole:
        refused(m, procedure, limit, step, first)
    turns = range(first.whole, limit.whole + (1 if step.whole > 0 else -1), step.whole)
    if len(turns) > 2 * MOST:
        raise Stopped("it runs too long")
    run_all(m, [(whole(i),) for i in turns], procedure)


def for_all(m):
    procedure, o = m.taken(Procedure, Array)
    if any(isinstance(item, Name) for item in o.items):
        refused(m, procedure, o)
    run_all(m, [(item,) for item in o.items], procedure)


def gsave(m):
    m.stacked.append(m.graphics)


def grestore(m):
    if m.stacked:
        m.back_to(m.stacked.pop())
    elif m.saves:
        m.back_to(m.saves[-1].graphics)
    else:
        raise Stopped("grestore below all that was pushed")


def grestoreall(m):
    if not m.saves:
        raise Stopped("grestoreall without a save")
    m.back_to(m.saves[-1].graphics)
    m.stacked = []


def save(m):
    m.operands.append(Saved(m.level))
    m.saves.append(Snapshot(m.level, len(m.journal), m.made, m.graphics, m.stacked))
    m.level, m.stacked = m.level + 1, []


def restore(m):
    (saved,) = m.taken(Saved)
    while m.saves and m.saves[-1].level != saved.level:
        m.saves.pop()
    if not m.saves:
        raise Stopped("restore of a save that isn't there")
    shot = m.saves.pop()
    if not all(m.is_old(shot, o) for o in m.operands) or any(d > shot.made for d in m.dictionaries):
        raise Stopped("restore below what is newer on the stacks")
    m.go_back(shot.journal)
    m.back_to(shot.graphics)
    m.level, m.made, m.stacked = shot.level, shot.made, shot.stacked


def showpage(m):
    if m.held:
        raise Stopped("showpage in a page that is held")
    m.reset()
    m.sheets.append(m.painted)
    m.events.append(None)
    m.painted = []


def initgraphics(m):
    if m.held:
        raise Stopped("initgraphics in a page that is held")
    m.reset()


def looks(perform):
    """Operators that look at where the machine is, or return it to where it began."""

    def if_free(m):
        if m.held:
            raise Stopped(f"{m.called.decode()} in a page that is held")
        perform(m)

    return if_free


@looks
def take_matrix(m):
    (o,) = m.taken(Matrix)
    m.fill(o.number, m.graphics.chain)
    m.operands.append(o)


@looks
def set_matrix(m):
    (o,) = m.taken(Matrix)
    if o.number not in m.kept:
        raise Stopped("a matrix that nothing has filled in")
    m.set_to(chain=m.kept[o.number])


@looks
def default_matrix(m):
    (o,) = m.taken(Matrix)
    m.fill(o.number, ())
    m.operands.append(o)


@looks
def initial_matrix(m):
    m.set_to(chain=())


@looks
def initial_clip(m):
    m.set_to(clip=())


@looks
def clip_outline(m):
    if m.graphics.clip:
        raise Stopped("clippath behind a clip")
    m.set_to(path=(Segment(Call(b"clippath", ()), ()),))


ELEMENTS = (b"closepath", b"curveto", b"lineto", b"moveto")


@looks
def path_elements(m):
    """For a path of `moveto`, `lineto`, `curveto` and `closepath` under the current transformation."""
    procedures = dict(zip(ELEMENTS, m.taken(Procedure, Procedure, Procedure, Procedure)))
    path, items = m.graphics.path, []
    for segment, following in zip(path, [*(s.call.name for s in path[1:]), b""]):
        name = segment.call.name
        twice = name == b"moveto" and following == b"moveto"
        goes_on = name == b"closepath" and following not in (b"moveto", b"")
        if name not in procedures or segment.chain != m.graphics.chain or twice or goes_on:
            raise Stopped(f"pathforall at {name.decode()}")
        items += [*reversed(segment.call.operands), *procedures[name].items]
    m.frames.append(Frame(items))


@looks
def set_device(m):
    m.taken(Dictionary)
    m.reset()
    m.painted = []


@looks
def erase_page(m):
    m.painted = []


@looks
def copy_page(m):
    raise Stopped("copypage")


def mark(m):
    m.operands.append(Mark())


PROVED = {
    b"pop": lambda m: m.taken(anything), b"dup": dup, b"exch": exch, b"[": mark, b"]": close_array, b"put": put, b"def": define, b"begin": begin,
    b"end": end, b"dict": make_dictionary, b"load": load, b"bind": bind, b"known": known, b"index": index, b"mark": mark,
    b"cleartomark": clear_to_mark, b"findfont": find_font, b"scalefont": scale_font, b"copy": copy, b"roll": roll, b"exec": execute,
    b"if": if_true, b"ifelse": if_else, b"repeat": repeat, b"for": for_each_number, b"forall": for_all,
    **{name: calculates(name) for name in VALUES}, **{name: compares(name) for name in COMPARED},
    b"and": both, b"or": either, b"not": opposite, b"where": where, b"get": get, b"length": length, b"aload": load_array, b"<<": mark,
    b"count": count, b"cvx": make_executable, b"wcheck": is_writable, b"readonly": make_read_only, b"matrix": make_matrix, b"grestoreall": grestoreall,
    b"currentmatrix": take_matrix, b"setmatrix": set_matrix, b"defaultmatrix": default_matrix, b"initmatrix": initial_matrix,
    b"initclip": initial_clip, b"clippath": clip_outline, b"pathforall": path_elements, b"setpagedevice": set_device,
    b"erasepage": erase_page, b"copypage": copy_page,
    b">>": close_dictionary, b"gsave": gsave, b"grestore": grestore, b"save": save, b"restore": restore, b"showpage": showpage,
    b"initgraphics": initgraphics,
    **{name: (lambda m, name=name, wants=wants_of(wants), effect=effect: m.draw(name, wants, effect)) for name, (wants, effect) in DRAWS.items()},
}
PROVED_NAMES = sorted([*PROVED, *ALWAYS])
