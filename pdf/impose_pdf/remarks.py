"""Notes that are text on a page."""

from typing import Any

from pikepdf import Dictionary

from impose_pdf.fields import colour_of, few, style_of, text_of
from impose_pdf.fonts import Fonts
from impose_pdf.pages import number_of, numerals
from impose_pdf.shapes import Shape, path, points_of
from impose_pdf.texts import Setting, Text, plain


class Remark(Shape):
    """What is drawn of a text on a page: its ground, its frame, the line that leads to it, and the text."""

    def __init__(self, note: Any, form: Any, fonts: Fonts):
        super().__init__(note)
        name, self.style = style_of(text_of(note.get("/DA")))
        self.style.in_lines, self.style.side = True, int(number_of(note.get("/Q"), 0)) % 3
        text = plain(text_of(note.get("/Contents")))
        self.text = Text(text, fonts.of(text, name, form.get("/DR")))
        self.fault = ""

    def content(self) -> str:
        """What draws it."""
        left, bottom, right, top = self.inner()
        if left >= right or bottom >= top:
            return ""
        self.ground, self.colour = colour_of(few(self.note.get("/C"))), [
            float(value) for value in self.style.colour.split()[:-1]
        ]
        lead, drawn = points_of(self.note.get("/CL"))[:3], self.square()
        self.reached = [*self.reached, *lead]
        setting = Setting(self.text, self.style, right - left, top - bottom, self.line / 2)
        self.fault = "with letters that no font has" if self.text.lacks else "with more text than fits" * setting.is_cut
        box = numerals(0, 0, right - left, top - bottom)
        lines = self.painted(path(lead), False) if len(lead) > 1 else ""
        return f"{drawn} {lines} q 1 0 0 1 {numerals(left, bottom)} cm {box} re W n {setting.drawn()}Q"

    def resources(self) -> Any:
        """What it needs."""
        return Dictionary({**super().resources().as_dict(), "/Font": self.text.resources})
