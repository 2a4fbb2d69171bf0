"""Form fields whose looks are left to viewers: what their entries say of their text, its style and their frame."""

from itertools import islice
from typing import Any

from pikepdf import Array, Dictionary, Name, Pdf, Stream, String

from impose_pdf.fonts import Fonts
from impose_pdf.notes import DEEPEST, entry_of
from impose_pdf.pages import FARTHEST, array, box_of, items_of, name_of, number_of, numbers, numerals
from impose_pdf.texts import LEADING, Setting, Style, Text, plain

LONGEST = 1000  # letters: what names a font, a size and a colour
FEW = 16
MOST_LINES = MOST_CELLS = 1000
IN_LINES, PASSWORD, RADIO, PUSHED, OPENED, IN_CELLS = 1 << 12, 1 << 13, 1 << 15, 1 << 16, 1 << 17, 1 << 24  # flags
CHOSEN = ".6 .757 .855 rg"  # below a chosen line
OPERATORS = {1: ("g", "G"), 3: ("rg", "RG"), 4: ("k", "K")}
TURNED = {90: (0, 1, -1, 0, 0, 0), 180: (-1, 0, 0, -1, 0, 0), 270: (0, -1, 1, 0, 0, 0)}


def text_of(value: Any) -> str:
    """A string or a name as text."""
    if not isinstance(value, String):
        return name_of(value)[1:]
    try:
        return str(value)
    except UnicodeDecodeError:
        return bytes(value).decode("latin-1")


def few(values: Any) -> list[float]:
    """The numbers of a short array."""
    return numbers(values) if isinstance(values, Array) and len(values) <= FEW else []


def colour_of(values: list[float], is_line: bool = False) -> str:
    """What sets a colour of one, three or four numbers; nothing for any others."""
    if len(values) not in OPERATORS:
        return ""
    return f"{numerals(*(min(max(value, 0), 1) for value in values))} {OPERATORS[len(values)][is_line]}"


def style_of(text: str) -> tuple[str, Style]:
    """The font's name and the style by a text such as `/Helv 12 Tf 0 g`."""
    words, font, style = text[:LONGEST].replace("/", " /").split(), "", Style(0)
    for k, word in enumerate(words):
        if word == "Tf" and k > 1:
            font, style.size = words[k - 2], min(abs(number_of(words[k - 1], 0)), LONGEST)
        elif count := {"g": 1, "rg": 3, "k": 4}.get(word, 0):
            begin = max(k - count, 0)
            style.colour = colour_of([number_of(one, 0) for one in words[begin:k]]) or style.colour
    return font, style


def line_of(note: Any, usual: float) -> float:
    """How wide the line round an annotation is."""
    style, border = note.get("/BS"), few(note.get("/Border"))
    if isinstance(style, Dictionary) and "/W" in style:
        usual = number_of(style.W, usual)
    elif len(border) > 2:
        usual = number_of(border[2], usual)
    return min(max(usual, 0), LONGEST)


class Field:
    """A form field at one of its places."""

    def __init__(self, note: Any, form: Any, fonts: Fonts):
        self.note, self.form, self.fonts = note, form, fonts
        self.flags, self.kind = int(number_of(self.entry("/Ff"), 0)), name_of(self.entry("/FT"))
        marks = note.get("/MK")
        self.marks = marks if isinstance(marks, Dictionary) else Dictionary()
        self.is_list, self.chosen = False, set[str]()
        self.fault = ""  # what isn't drawn as it should be
        looks = note.get("/AP")
        self.own = looks.get("/N") if isinstance(looks, Dictionary) else None

    def entry(self, key: str) -> Any:
        """An entry of it, or of a field above it, or of all fields."""
        found = entry_of(self.note, key)
        return self.form.get(key) if found is None and key in ("/DA", "/Q") else found

    def name(self) -> str:
        """Its name, from the field at the top on."""
        parts, field = list[str](), self.note
        for _ in range(DEEPEST):
            parts += [text_of(field.T)] if "/T" in field else []
            if not isinstance(field := field.get("/Parent"), Dictionary):
                break
        return ".".join(reversed(parts))

    def text(self) -> str:
        """What it shows of its value."""
        if self.kind == "/Btn":
            return self.mark()
        value, options = self.entry("/V"), self.entry("/Opt")
        self.fault = "whose text is a stream" if isinstance(value, Stream) else ""
        if self.kind == "/Ch" and isinstance(options, Array):
            return self.choice(value, options)
        text = plain(text_of(value))
        return "*" * len(text) if self.flags & PASSWORD else text

    def mark(self) -> str:
        """The sign of a box that is ticked, or the words of a button."""
        state, words = name_of(self.note.get("/AS")), plain(text_of(self.marks.get("/CA")))
        if self.flags & PUSHED:
            return words
        return "" if state in ("", "/Off") else words[:1] or ("l" if self.flags & RADIO else "4")

    def choice(self, value: Any, options: Any) -> str:
        """The option that is chosen, or all lines that a list has, of which some are chosen."""
        values = {text_of(one) for one in items_of(value)}
        first = min(max(int(number_of(self.entry("/TI"), 0)), 0), len(options))
        self.is_list = not self.flags & OPENED
        seen = islice(options, first, first + MOST_LINES) if self.is_list else options
        found = [self.option(one) for one in seen]
        if self.is_list:
            self.chosen = {shown for value, shown in found if value in values}
            return "\n".join(shown for _, shown in found)
        return next((shown for value, shown in found if value in values), plain(text_of(value)))

    def option(self, option: Any) -> tuple[str, str]:
        """The value of an option, and what is shown of it."""
        both = [option[0], option[1]] if isinstance(option, Array) and len(option) > 1 else [option] * 2
        return text_of(both[0]), plain(text_of(both[1])).replace("\n", " ")

    def look(self, pdf: Pdf) -> Any:
        """Its look; None if it shows nothing."""
        left, bottom, right, top = box_of(self.note.get("/Rect")) or (0, 0, 0, 0)
        turn = int(number_of(self.marks.get("/R"), 0)) % 360
        width, height = (top - bottom, right - left) if turn in (90, 270) else (right - left, top - bottom)
        text = self.text()
        if not (0 < width < FARTHEST and 0 < height < FARTHEST):
            return None
        edge = min(line_of(self.note, 1), width / 2, height / 2)
        drawn, resources = self.frame(width, height, edge), Dictionary()
        if text.strip():
            setting, inside = self.setting(text, width, height, edge), (edge, edge, width - 2 * edge, height - 2 * edge)
            resources.Font = setting.text.resources
            drawn += f"/Tx BMC q {numerals(*inside)} re W n\n{self.below(setting)}{setting.drawn()}Q EMC\n"
            is_cut = setting.is_cut and not self.is_list
            self.fault = "with letters that no font has" if setting.text.lacks else "with more text than fits" * is_cut
        if not drawn or not text.strip() and isinstance(self.own, Stream):
            return None
        look = pdf.make_stream(drawn.encode(), Type=Name.XObject, Subtype=Name.Form, Resources=resources)
        look.BBox, look.Matrix = array(0, 0, width, height), array(*TURNED.get(turn, (1, 0, 0, 1, 0, 0)))
        return look

    def setting(self, text: str, width: float, height: float, edge: float) -> Setting:
        """Its text in its box."""
        name, style = style_of(text_of(self.entry("/DA")))
        style.side = int(number_of(self.entry("/Q"), 0)) % 3
        style.in_lines = bool(self.is_list or self.kind == "/Tx" and self.flags & IN_LINES)
        style.wraps = not self.is_list
        if self.kind == "/Btn":
            style.side, name = 1, name if self.flags & PUSHED else "/ZaDb"
        style.cells = self.cells()
        own = self.own.get("/Resources") if isinstance(self.own, Stream) else None
        fonts = self.fonts.of(text, name, own, self.form.get("/DR"), self.entry("/DR"))
        return Setting(Text(text if style.in_lines else text.replace("\n", " "), fonts), style, width, height, edge)

    def cells(self) -> int:
        """How many cells it has, if each letter is in one."""
        is_in_cells = self.kind == "/Tx" and self.flags & IN_CELLS and not self.flags & (IN_LINES | PASSWORD)
        return min(max(int(number_of(self.entry("/MaxLen"), 0)), 0), MOST_CELLS) if is_in_cells else 0

    def below(self, setting: Setting) -> str:
        """What is below the lines that are chosen."""
        letters, across = setting.text.letters, setting.width - 2 * setting.edge
        lines = (y - setting.size / 4 for _, y, begin, end in setting.places if letters[begin:end] in self.chosen)
        return "".join(f"{CHOSEN} {numerals(setting.edge, y, across, LEADING * setting.size)} re f\n" for y in lines)

    def frame(self, width: float, height: float, edge: float) -> str:
        """Its ground and its border."""
        ground, border = (colour_of(few(self.marks.get(key)), key == "/BC") for key in ("/BG", "/BC"))
        style = self.note.get("/BS")
        kind = name_of(style.get("/S")) if isinstance(style, Dictionary) else ""
        drawn = f"q {ground} 0 0 {numerals(width, height)} re f Q\n" if ground else ""
        if border and edge:
            dashes = "[3] 0 d " if kind == "/D" else ""
            sides = edge / 2, edge / 2, width - edge, height - edge
            line = (
                f"0 {numerals(edge / 2)} m {numerals(width, edge / 2)} l" if kind == "/U" else f"{numerals(*sides)} re"
            )
            cell = width / max(self.cells(), 1)
            line += "".join(f" {numerals(k * cell)} 0 m {numerals(k * cell, height)} l" for k in range(1, self.cells()))
            drawn += f"q {border} {numerals(edge)} w {dashes}{line} S Q\n"
        return drawn
