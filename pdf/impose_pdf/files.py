"""OUTFILE: looked at before anything is read, and replaced when all of it is written."""

import os
import stat

from pikepdf import Pdf

from impose_pdf.foreign import is_foreign
from impose_pdf.words import Refusal, Request, cause_of, refusal, shown, told
from impose_pdf.writing import Place, hand_over

OTHER_ENDINGS = (".ps", ".eps", ".svg", ".gz", ".txt", ".png", ".jpg", ".jpeg")
MOST_LINKS = 40  # one after another, as Linux follows them


def take_last(request: Request) -> None:
    """Takes a last file by another program for an INFILE too, if nothing is written there."""
    name = request.outfile
    if (
        request.looks
        and name not in ("", "-")
        and os.path.isfile(name)
        and os.access(name, os.R_OK)
        and is_foreign(name)
    ):
        request.infiles.append((name, ""))


def check_preview(request: Request) -> None:
    """Refuses to draw over an INFILE, or over a document that this program didn't write."""
    name = request.options.get("--preview", "-")
    if name == "-":
        return
    try:
        there = os.stat(name)
    except OSError:
        return  # it isn't there, or impose says what is wrong
    for infile, _ in request.infiles:
        if is_at(infile, there):
            cure = "name another file, as sheets.svg, or - for standard output"
            raise refusal(2, f"--preview would write over {shown(infile)}, which is read: {cure}")
    if stat.S_ISREG(there.st_mode) and not request.replaces and os.access(name, os.R_OK) and is_foreign(name):
        raise not_ours(shown(name), "file")


def is_at(infile: str, there: os.stat_result) -> bool:
    """Whether an INFILE is this file, under whatever name."""
    try:
        return os.path.samestat(there, os.fstat(0) if infile == "-" else os.stat(infile))
    except OSError:
        return False  # it can't be read


def not_ours(name: str, other: str) -> Refusal:
    """The refusal to replace a document of another program."""
    return refusal(2, f"{name} wasn't written by impose-pdf; --replace replaces it, or name another {other}")


class Outfile:
    """A place for a PDF."""

    def __init__(self, name: str):
        self.name, self.given = "standard output" if name == "-" else shown(name), name
        if name != "-" and os.path.basename(name) in ("", ".", ".."):
            raise self.refused("it is a folder")
        try:
            self.mode = os.stat(name).st_mode if name != "-" else stat.S_IFIFO
        except FileNotFoundError:
            self.mode = 0
        except OSError as error:
            raise self.refused(cause_of(error)) from None
        if stat.S_ISDIR(self.mode):
            raise self.refused("it is a folder")
        if name == "-" and os.isatty(1):
            raise refusal(2, "a terminal shows no PDF: name an OUTFILE, or print it by: impose-pdf .. - | lp")
        self.is_file = not self.mode or stat.S_ISREG(self.mode)
        if self.is_file:
            self.place = Place(*self.resolved(), self.mode)
            self.look()

    def refused(self, why: str) -> Refusal:
        """The refusal of a place that can't be written."""
        return refusal(3, f"cannot write {self.name}: {why}")

    def resolved(self) -> tuple[str, str]:
        """The folder and the name of the file that symbolic links lead to. That may not be there as yet."""
        path = self.given
        for _ in range(MOST_LINKS):
            folder, last = os.path.split(path)
            if last in ("", ".", ".."):
                break
            try:
                folder = os.path.realpath(folder or ".", strict=True)
            except OSError as error:
                missing = isinstance(error, (FileNotFoundError, NotADirectoryError))
                raise self.refused("no such folder" if missing else cause_of(error)) from None
            path = os.path.join(folder, last)
            if not os.path.islink(path):
                return folder, last
            path = os.path.join(folder, os.readlink(path))
        raise self.refused("it is a link to no file")

    def check_owner(self, request: Request) -> None:
        """Refuses to replace a document that this program didn't write: perhaps OUTFILE was forgotten."""
        if not (self.is_file and self.mode) or request.replaces or not os.access(self.given, os.R_OK):
            return
        names = [name for name, _ in request.infiles if name != "-"]
        if not any(os.path.samefile(name, self.given) for name in names) and is_foreign(self.given):
            raise not_ours(self.name, "OUTFILE")

    def warning(self) -> str:
        """The line about a file that is named as another kind of file."""
        ending = os.path.splitext(self.given)[1].lower()
        return told(f"{self.name} holds a PDF, whatever its name says") if ending in OTHER_ENDINGS else ""

    def look(self) -> None:
        """Refuses a file that can't be replaced."""
        if self.mode and not os.access(self.given, os.W_OK):
            raise self.refused("permission denied")
        if not os.access(self.place.folder, os.W_OK | os.X_OK):
            raise self.refused("permission denied in its folder")

    def write(self, pdf: Pdf) -> None:
        """Writes the PDF, or leaves the place as it was."""
        try:
            if self.is_file:
                self.place.replace(pdf)
            else:
                hand_over(pdf, self.given)
        except BrokenPipeError:
            raise Refusal(3, "") from None  # a reader that leaves knows why
        except OSError as error:
            raise self.refused(cause_of(error)) from None
