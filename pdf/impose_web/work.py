"""What a page asks for, made by the steps of impose-pdf."""

import os
import secrets
import shlex
from collections.abc import Iterator
from itertools import chain, repeat
from pathlib import Path
from typing import Any

from impose_pdf import words as said
from impose_pdf.files import Outfile
from impose_pdf.job import Job
from impose_pdf.pages import bounds
from impose_pdf.program import as_refusal, extras_of
from impose_pdf.sheets import turn_of
from impose_pdf.words import RANGES, Request, refusal, shown
from impose_web.drawing import lines_of
from impose_web.messages import Asked, field_of, plain

KEPT = 3  # PDFs that were made last


class Work:
    """The choices of a page: a command and options of the table, and files of its folder, only."""

    def __init__(self, table: dict[str, Any], program: str, folder: Path, chosen: dict[str, Any]):
        self.program, self.folder = program, folder
        row = {row["name"]: row for row in table["commands"]}[chosen["command"]]
        options = {option["name"]: option for option in row["options"]}
        words = [row["name"], *(word_of(options[name], value) for name, value in chosen["options"].items())]
        if row["word"]:
            words += ["--", printable(chosen["word"])]
        here = set(os.listdir(folder / "files"))
        self.files = [(str(name), str(ranges)) for name, ranges in chosen["files"]]
        if not self.files or not all(name in here for name, _ in self.files):
            raise ValueError("no such files")
        self.words, self.name = words, f"{os.path.splitext(self.files[0][0])[0]}-{row['name']}.pdf"
        given, files = list(chosen["options"]), [name for name, _ in self.files]
        self.asked = Asked(row["name"], row["word"]["kind"] if row["word"] else "", list(options), given, files)

    def steps(self) -> Iterator[dict[str, Any]]:
        """What is told of the sheets before they are made, and then of their PDF; or last what is refused."""
        try:
            os.chdir(self.folder / "files")
            request = self.request()
            job = Job(request, extras_of(request))
            job.measure(self.program)
            job.lay()
            yield self.plan(job)
            made = secrets.token_hex(8)
            job.write(Outfile(f"../made/{made}.pdf"))
            for old in sorted(Path("../made").iterdir(), key=os.path.getmtime)[:-KEPT]:
                old.unlink(missing_ok=True)
            yield {"pdf": made, "said": plain(job.lost() + job.told(), self.program)}
        except Exception as error:
            text = plain(str(as_refusal(error)), self.program)
            option, file = field_of(text, self.asked)
            yield {"refused": text, "option": option, "file": file}

    def request(self) -> Request:
        """The command line of impose-pdf, read."""
        request = said.read(self.words)
        for name, ranges in self.files:
            if ranges and not RANGES.fullmatch(ranges):
                raise refusal(2, f"pages of {shown(name)} are given as 7, 3-9, 9-3, 5- or _1, not as {shown(ranges)}")
        request.infiles, request.outfile = self.files, self.name
        return request

    def plan(self, job: Job) -> dict[str, Any]:
        """The sheets: their sizes, their pages and where these are, and lines; how they are turned, and a command."""
        drawn, _ = job.imposer.run("--preview", "-", "--quiet")
        sheets = [
            {
                "size": sheet.paper,
                "pages": [(one.page + 1, *bounds((0, 0, *one.paper), one.matrix)) for one in sheet.placed],
                "lines": lines,
            }
            for sheet, lines in zip(job.sheets, chain(lines_of(drawn), repeat([])))
        ]
        first = next((placed for sheet in job.sheets for placed in sheet.placed), None)
        words = [*job.request.words, *(word for file in self.files for word in file if word), self.name]
        return {
            "sheets": sheets,
            "flip": job.flip,
            "turn": turn_of(job.request, first) if first else 0,
            "rotated": job.turned,
            "line": shlex.join(["impose-pdf", job.request.command, *words]),
            "name": self.name,
        }


def word_of(option: dict[str, Any], value: Any) -> str:
    """An option of the table, with a value that it may have, as a word of a command line."""
    name = option["name"]
    if option["kind"] == "flag":
        return f"--{name}"
    if option["kind"] == "choice" and value not in option["choices"]:
        raise ValueError(value)
    return f"--{name}={printable(value)}"


def printable(value: Any) -> str:
    """A value that can be typed."""
    if not isinstance(value, str) or not value.isprintable():
        raise ValueError(value)
    return value
