"""What a PDF claims to be, as PDF/A, and who wrote it: only what is so of the sheets too is kept."""

import re
import zlib
from contextlib import suppress
from typing import Any
from xml.etree import ElementTree
from xml.etree.ElementTree import Element

from pikepdf import Name, Pdf, PdfError, Stream, String

from impose_pdf.pages import drop

PDFA, PDFUA, PDFX = (f"{{http://www.{of}/ns/id/}}" for of in ("aiim.org/pdfa", "aiim.org/pdfua", "npes.org/pdfx"))
OLD_PDFX, PDFVT, PDFE = (
    *("{http://ns.adobe.com/pdfx/1.3/}GTS_PDFX", "{http://www.npes.org/pdfvt/ns/id/}"),
    "{http://www.aiim.org/pdfe/ns/id/}",
)
NAMED = {PDFA: "PDF/A", PDFUA: "PDF/UA", PDFX: "PDF/X", OLD_PDFX: "PDF/X", PDFVT: "PDF/VT", PDFE: "PDF/E"}
OF_INFO = ("/GTS_PDFXVersion", "/GTS_PDFXConformance", "/GTS_PDFVTVersion", "/GTS_PDFVTModDate", "/ISO_PDFEVersion")
DESCRIPTION = "{http://www.w3.org/1999/02/22-rdf-syntax-ns#}Description"
ENTRIES = {  # of /Info, and what they are called in XMP
    "/Producer": "{http://ns.adobe.com/pdf/1.3/}Producer",
    "/CreationDate": "{http://ns.adobe.com/xap/1.0/}CreateDate",
    "/ModDate": "{http://ns.adobe.com/xap/1.0/}ModifyDate",
}
DATE = re.compile(r"D:(\d{4})(\d\d)(\d\d)(\d\d)(\d\d)(\d\d)(?:(Z).*|([+-]\d\d)'(\d\d)'?)?")
LARGEST, MOST_NAMES = 1 << 24, 100  # bytes of XMP that is read, and prefixes that it keeps
PACKET = b'<?xpacket begin="\xef\xbb\xbf" id="W5M0MpCehiHzreSzNTczkc9d"?>\n%s\n<?xpacket end="w"?>\n'


class Builder(ElementTree.TreeBuilder):
    """A tree of XML, which is written with the prefixes that it has."""

    names = 0

    def start_ns(self, prefix: str, address: str) -> None:
        """Keeps a prefix. Each costs as many steps as there are others."""
        self.names += 1
        if prefix and self.names < MOST_NAMES:
            with suppress(ValueError):  # of a prefix that is kept for those without one
                ElementTree.register_namespace(prefix, address)


def data_of(stream: Any) -> bytes:
    """The data of XMP, or nothing for what is packed in another way than XMP is."""
    data, packed = bytes(stream.read_raw_bytes()), stream.get("/Filter")
    if packed is None:
        return data[:LARGEST]
    is_plain = packed == Name.FlateDecode and "/DecodeParms" not in stream
    return zlib.decompressobj().decompress(data, LARGEST) if is_plain else b""


def read(stream: Any) -> Element | None:
    """XMP as a tree, if it can be read."""
    parser = ElementTree.XMLParser(target=Builder())
    try:
        parser.feed(data_of(stream))
        made: Element = parser.close()
    except (ElementTree.ParseError, zlib.error, PdfError, RuntimeError, ValueError, LookupError):
        return None
    return made


def claims_of(root: Element) -> dict[str, str]:
    """The claims of XMP, each an element or an attribute of one."""
    found = {}
    for one in root.iter():
        for key, value in [*one.attrib.items(), (one.tag, one.text or "")]:
            if key.startswith(tuple(NAMED)):
                found[key] = value.strip()
    return found


def leave_out(root: Element, kinds: tuple[str, ...]) -> None:
    """Takes the claims of some kinds from XMP."""
    for one in root.iter():
        for key in [key for key in one.attrib if key.startswith(kinds)]:
            del one.attrib[key]
        one[:] = [child for child in one if not child.tag.startswith(kinds)]


def put(root: Element, key: str, text: str) -> None:
    """Gives an entry of XMP a value, wherever it is, or else in the first description."""
    is_found = False
    for one in root.iter():
        if key in one.attrib:
            one.set(key, text)
        elif one.tag == key:
            one[:], one.text = [], text
        else:
            continue
        is_found = True
    if not is_found and (first := root.find(f".//{DESCRIPTION}")) is not None:
        first.set(key, text)


def text_of(value: Any) -> str:
    """An entry of /Info as XMP has it, or nothing."""
    try:
        text = str(value) if isinstance(value, String) else ""
    except UnicodeDecodeError:
        return ""
    if not (date := DATE.fullmatch(text)):
        return "" if text.startswith("D:") else text
    year, month, day, hour, minute, second, utc, zone, more = date.groups()
    return f"{year}-{month}-{day}T{hour}:{minute}:{second}{utc or ''}{f'{zone}:{more}' if zone else ''}"


def kept(claimed: dict[str, str], pdf: Pdf, pages: list[Any], is_tagged: bool) -> set[str]:
    """The kinds of claims that hold of sheets.

    PDF/A-1, PDF/X-1 and PDF/X-3 have no object streams. What is black on sheets needs an output intent.
    """
    is_a = claimed.get(f"{PDFA}part") in ("2", "3") and "/OutputIntents" in pdf.Root
    has_boxes = all("/TrimBox" in page or "/ArtBox" in page for page in pages)
    is_x = has_boxes and claimed.get(f"{PDFX}GTS_PDFXVersion", "").startswith("PDF/X-4")
    return {kind for kind, holds in ((PDFA, is_a), (PDFUA, is_tagged), (PDFX, is_x)) if holds}


def settle(pdf: Pdf, pages: list[Any], is_one: bool, is_tagged: bool) -> set[str]:
    """Takes from the PDF of sheets, which are of one INFILE or not, the claims that don't hold, and names them.

    XMP then agrees with /Info.
    """
    stream, info = pdf.Root.get("/Metadata"), pdf.docinfo
    root = read(stream) if isinstance(stream, Stream) else None
    claimed = claims_of(root) if root is not None else {}
    true = kept(claimed, pdf, pages, is_tagged) if is_one else set[str]()
    lost = {name for kind, name in NAMED.items() if kind not in true and any(key.startswith(kind) for key in claimed)}
    if PDFX not in true:
        lost |= {"PDF/X"} if "/GTS_PDFXVersion" in info else set()
        drop(info, OF_INFO)
    drop(pdf.Root, {"/Metadata"})
    if root is None:
        return lost
    leave_out(root, tuple(kind for kind in NAMED if kind not in true))
    if PDFA in true and not is_tagged and claimed.get(f"{PDFA}conformance") == "A":
        put(root, f"{PDFA}conformance", "U")
    for entry, key in ENTRIES.items():
        if text := text_of(info.get(entry)):
            put(root, key, text)
    with suppress(RecursionError):
        data = PACKET % ElementTree.tostring(root, encoding="utf-8")
        pdf.Root.Metadata = pdf.make_stream(data, Type=Name.Metadata, Subtype=Name.XML)
    return lost
