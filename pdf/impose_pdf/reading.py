"""INFILEs, opened as PDFs: what is neither a PDF nor an image is refused by its first bytes, unread."""

import io
import os
import re
import stat
import tempfile
from typing import IO, Any

from pikepdf import PasswordError, Pdf

from impose_pdf import images
from impose_pdf.plan import POSTSCRIPT
from impose_pdf.words import RANGES, cause_of, refusal, shown

HEAD = 1024  # bytes, in which a PDF has its mark
MOST_HELD = 1 << 32  # bytes that are read of what is no file
MOST_OF_IMAGE = 1 << 30  # bytes, which are read into memory
IN_MEMORY = 1 << 24  # bytes of it that need no temporary file
MOST_TOLD = 300  # signs of what qpdf says
PART = 1 << 16  # bytes that are read at once
PASSWORDS: list[bytes] = []  # that may open INFILEs
FAILED: list[tuple[str, OSError]] = []  # INFILEs that couldn't be read to their ends
# What files are that are no PDFs, by their first bytes, and what to do about them.
OTHERS = (
    (POSTSCRIPT, "PostScript, not a PDF; use impose"),
    (re.compile(rb"\x1f\x8b"), "compressed; use: zcat in.pdf.gz > in.pdf"),
    (re.compile(rb"BZh"), "compressed; use: bzcat in.pdf.bz2 > in.pdf"),
    (re.compile(rb"\xfd7zXZ\x00"), "compressed; use: xzcat in.pdf.xz > in.pdf"),
    (re.compile(rb"II\*\x00|MM\x00\*"), "a TIFF; use: tiff2pdf -o in.pdf in.tif"),
    (re.compile(rb"\xf7\x02"), "a DVI by TeX; use: dvipdfmx -o in.pdf in.dvi"),
    (re.compile(rb"<"), "HTML, an SVG or the like; print it into a PDF by a browser"),
    (
        re.compile(rb"(?s)PK\x03\x04.{26}(\[Content_Types|_rels/|mimetype)"),
        "a document of an office program; save it as a PDF",
    ),
    (re.compile(rb"PK\x03\x04"), "a zip archive; take the PDF out by: unzip in.zip"),
)


class Infile(io.FileIO):
    """A file that is read. A failure is kept, since qpdf takes it for damage, which it mends.

    A seek can't fail: a file is read where that leads, and nothing else is sought in.
    """

    def __init__(self, file: str | int, label: str):
        super().__init__(file, closefd=file != 0)
        found = os.fstat(self.fileno())
        self.is_whole = stat.S_ISREG(found.st_mode) and super().tell() == 0
        self.label, self.at, self.size = label, 0, found.st_size

    def readinto(self, buffer: Any) -> Any:
        """Reads what comes next."""
        try:
            if not self.is_whole:
                return super().readinto(buffer)
            is_in_it = 0 <= self.at < self.size  # a damaged PDF may lead anywhere
            data = os.pread(self.fileno(), len(buffer), self.at) if is_in_it else b""
        except OSError as error:
            FAILED.append((self.label, error))
            raise
        buffer[: len(data)] = data
        self.at += len(data)
        return len(data)

    def seek(self, offset: int, whence: int = os.SEEK_SET, /) -> int:
        """Chooses what comes next."""
        self.at = offset + {os.SEEK_SET: 0, os.SEEK_CUR: self.at, os.SEEK_END: self.size}[whence]
        return self.at

    def tell(self) -> int:
        """Where what comes next is."""
        return self.at


def check_reads() -> None:
    """Refuses what was made of INFILEs that couldn't be read to their ends."""
    for name, error in FAILED:
        raise refusal(3, f"cannot read {name}: {cause_of(error)}")


def opened(name: str) -> Pdf:
    """An INFILE as a PDF that may be printed."""
    try:
        infile = Infile(0 if name == "-" else name, shown(name))
        stream = io.BufferedReader(infile, PART)
        first = stream.read(HEAD)
    except FileNotFoundError:
        raise refusal(3, f"cannot read {shown(name)}: no such file ({hint_on(name)})") from None
    except IsADirectoryError:
        raise refusal(3, f"cannot read {shown(name)}: it is a folder") from None
    if not first:
        raise refusal(1, f"{shown(name)} is empty")
    is_image = first.startswith((images.JPEG, images.PNG))
    if not is_image and b"%PDF-" not in first:
        kind = next((kind for mark, kind in OTHERS if mark.match(first)), "not a PDF")
        raise refusal(1, f"{shown(name)} is {kind}")
    whole = stream if infile.is_whole else held(name, first, stream)
    whole.seek(0)
    return image(name, whole) if is_image else unlocked(name, whole)


def hint_on(name: str) -> str:
    """What a word most likely is that names no file."""
    if RANGES.fullmatch(name):
        return "ranges come after select, as in: select 1-3 in.pdf, or else after their INFILE"
    if name in ("landscape", "portrait", "quer"):
        return "a sheet on its side is named by one word: --sheet a4-landscape"
    if "," in name:
        return "files, and lists, are separated as in: one.pdf 1-3,5 two.pdf out.pdf"
    return "INFILE and OUTFILE come last"


def held(name: str, first: bytes, stream: IO[bytes]) -> IO[bytes]:
    """What a pipe or a device gives: in memory if it is short, or in a temporary file."""
    start = first + stream.read(IN_MEMORY)
    if len(start) < IN_MEMORY:
        return io.BytesIO(start)
    try:
        kept = tempfile.TemporaryFile()
        kept.write(start)
        while part := stream.read(1 << 20):
            if kept.tell() + len(part) > MOST_HELD:
                raise refusal(1, f"{shown(name)} has more than {MOST_HELD >> 30} GiB; name a file that has it")
            kept.write(part)
        kept.seek(0)
        return io.BufferedReader(Infile(os.dup(kept.fileno()), shown(name)), PART)
    except OSError as error:
        raise refusal(3, f"cannot read {shown(name)} into a temporary file: {cause_of(error)}") from None


def image(name: str, stream: IO[bytes]) -> Pdf:
    """An INFILE that is an image as a PDF."""
    try:
        if (size := stream.seek(0, os.SEEK_END)) > MOST_OF_IMAGE:
            raise ValueError(f"it has more than {MOST_OF_IMAGE >> 30} GiB")
        stream.seek(0)
        return images.pdf_of(stream.read(size))
    except (ValueError, LookupError, OSError, SyntaxError) as error:
        raise refusal(1, f"the image {shown(name)} can't be read: {cause(error)}") from None


def unlocked(name: str, stream: IO[bytes]) -> Pdf:
    """A PDF that opens without a password, or with one that is given, and may be printed."""
    why = "opens with its password only; give it by --password FILE"
    for password in (b"", *PASSWORDS):
        stream.seek(0)
        try:
            pdf = Pdf.open(stream, password=password, inherit_page_attributes=False)
        except PasswordError:
            continue
        is_owner = bool(password) and pdf.owner_password_matched
        if pdf.is_encrypted and not (pdf.allow.print_lowres or pdf.allow.print_highres) and not is_owner:
            why = "is encrypted, and its owner doesn't allow it to be printed"
        else:
            return pdf
    raise refusal(1, f"{shown(name)} {why}{'; another password was given' * bool(PASSWORDS)}")


def cause(error: object) -> str:
    """What qpdf or Pillow says, without its name of the stream, and not all of it if it is long."""
    said = text_of(error) if isinstance(error, UnicodeDecodeError) else str(error)
    said = re.sub(r"^<_io\.\w+ [^>]*>(: |, )?| <_io\.\w+ [^>]*>$", "", said).strip()
    return said if len(said) <= MOST_TOLD else f"{said[:MOST_TOLD]}.."


def text_of(error: UnicodeDecodeError) -> str:
    """What qpdf says where a name of the PDF that is in it isn't UTF-8."""
    return error.object.decode(errors="surrogateescape")


def warnings_in(pdf: Pdf) -> list[Any]:
    """What qpdf has mended since it was asked last."""
    try:
        return list(pdf.get_warnings())
    except UnicodeDecodeError as error:
        return [text_of(error)]
