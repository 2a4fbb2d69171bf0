"""The lines that impose writes of a document without pictures, each matched whole (docs/RULES.md, 7 and 15)."""

import re
from collections.abc import Iterator

from impose_pdf.words import refusal

# In each form # is a number, and @ one without a sign and a fraction.
FORMS = {
    "first line": "%!PS-Adobe-3.0",
    "number of sheets": "%%Pages: @",
    "box": "%%BoundingBox: 0 0 @ @",
    "exact box": "%%HiResBoundingBox: 0 0 # #",
    "paper": "%%DocumentMedia: Plain # # 0 () ()",
    "first paper": "%%DocumentMedia: #x# # # 0 () ()",
    "further paper": "%%+ #x# # # 0 () ()",
    "end of the comments": "%%EndComments",
    "sheet": "%%Page: @ @",
    "paper of a sheet": "%%PageMedia: #x#",
    "device's control": "/PStoPSenablepage where {pop PStoPSenablepage}",
    "device's test": "{userdict /showpage 2 copy known {get dup type /operatortype eq {pop true} {length 0 ne} ifelse}"
    " {pop pop true} ifelse} ifelse",
    "device's paper": "systemdict /setpagedevice known and"
    " {1 dict dup /PageSize [# #] put systemdict /setpagedevice get exec} if",
    "save": "userdict /ImposeSave save put",
    "held showpage": "userdict /showpage {} put",
    "matrix": "[# # # # # #] concat",
    "clip": "newpath 0 0 moveto # 0 lineto # # lineto 0 # lineto closepath clip newpath",
    "border": "gsave # setlinewidth newpath # # moveto # # lineto # # lineto # # lineto closepath stroke grestore",
    "page": "% page @",
    "showpage": "showpage",
    "restore": "ImposeSave restore",
    "pen": "gsave 0 setgray .25 setlinewidth [] 0 setdash",
    "stroke": "newpath # # moveto # # lineto stroke",
    "end of the strokes": "grestore",
    "number": "gsave 0 setgray /Times-Roman findfont # scalefont setfont # # translate @ rotate # # moveto (@)"
    " dup stringwidth pop -2 div 0 rmoveto show grestore",
    "trailer": "%%Trailer",
    "end": "%%EOF",
}
NUMBER, COUNT = r"(-?\d*\.?\d+)", r"(\d+)"
PATTERNS = {
    kind: re.compile(re.escape(form).replace(r"\#", NUMBER).replace("@", COUNT)) for kind, form in FORMS.items()
}


class Lines:
    """The lines of a plan, one after the other."""

    def __init__(self, text: str):
        self.lines = text.split("\n")
        self.at = 0

    def found(self, kind: str) -> tuple[str, ...] | None:
        """The numbers of the next line if it is of this kind; it is then passed."""
        match = PATTERNS[kind].fullmatch(self.lines[self.at]) if self.at < len(self.lines) else None
        self.at += match is not None
        return match.groups() if match else None

    def wanted(self, kind: str) -> tuple[str, ...]:
        """The numbers of the next line, which has to be of this kind."""
        found = self.found(kind)
        if found is None:
            line = self.lines[self.at] if self.at < len(self.lines) else ""
            raise refusal(3, f"impose writes no {kind} in line {self.at + 1}: {line!r}")
        return found

    def all(self, kind: str) -> Iterator[tuple[str, ...]]:
        """The numbers of each line of this kind that follows."""
        while (found := self.found(kind)) is not None:
            yield found

    def left(self) -> list[str]:
        """The lines that weren't passed."""
        begin = self.at
        return self.lines[begin:]
