"""Documents and images of other programs, which aren't replaced unasked."""

from pikepdf import PasswordError, Pdf, PdfError

from impose_pdf import images
from impose_pdf.making import PRODUCER
from impose_pdf.plan import POSTSCRIPT

PRINTERS_JOB, BINARY_EPS = b"\x1b%-12345X", b"\xc5\xd0\xd3\xc6"  # heads of documents that impose protects too
# Heads of ODF and OOXML, older Office files, RTF, TIFF and GIF.
OTHER_HEADS = b"PK\x03\x04", b"\xd0\xcf\x11\xe0", rb"{\rtf", b"II*\0", b"MM\0*", b"GIF8"


def is_foreign(name: str) -> bool:
    """Whether a file is a document or an image that this program didn't write."""
    with open(name, "rb") as stream:
        head = stream.read(1024)
        if b"%PDF-" not in head:
            heads = images.JPEG, images.PNG, PRINTERS_JOB, BINARY_EPS, *OTHER_HEADS
            return head.startswith(heads) or POSTSCRIPT.match(head) is not None
        try:
            with Pdf.open(stream) as pdf:
                return str(pdf.docinfo.get("/Producer")) != PRODUCER
        except (PdfError, PasswordError, AttributeError, RuntimeError, ValueError):  # /Info may be anything
            return True
