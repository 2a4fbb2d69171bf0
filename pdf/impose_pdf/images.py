"""JPEG and PNG files as PDFs of one page, in their own resolution. Data that a PDF can have stays as it is."""

import io
import struct
import zlib
from contextlib import suppress
from typing import Any

from pikepdf import Array, Dictionary, Name, Page, Pdf
from PIL import Image

from impose_pdf.pages import array, numerals

JPEG, PNG = b"\xff\xd8\xff", b"\x89PNG\r\n\x1a\n"
USUAL = 96, 96  # dots per inch, where an image names none
PER_CENTIMETRE = 2  # the unit of a photograph's resolution
COMPONENTS = {"L": 1, "RGB": 3, "CMYK": 4}
SPACES = {1: (Name.DeviceGray, b"GRAY"), 3: (Name.DeviceRGB, b"RGB "), 4: (Name.DeviceCMYK, b"CMYK")}
TURNS = {3: 180, 4: 180, 5: 270, 6: 90, 7: 90, 8: 270}  # by the orientation of a photograph
MIRRORED = {2, 4, 5, 7}  # orientations that are mirrored first
MOST_DECODED = 1 << 28  # pixels, of which each takes eight bytes then
Image.MAX_IMAGE_PIXELS = None  # most images aren't decoded


def pdf_of(data: bytes) -> Pdf:
    """A PDF whose page is an image."""
    image, pdf = Image.open(io.BytesIO(data), formats=("JPEG", "PNG")), Pdf.new()
    orientation = exif_of(image).get(0x112) or 0
    form = jpeg(pdf, image, data) if data.startswith(JPEG) else png(pdf, image, data)
    width, height = (pixels * 72 / (float(per_inch) or 96) for pixels, per_inch in zip(image.size, dots_of(image)))
    right = width if orientation in MIRRORED else 0
    contents = pdf.make_stream(f"{numerals(width - 2 * right, 0, 0, height, right, 0)} cm /I Do".encode())
    resources = Dictionary(XObject=Dictionary(I=form))
    page = Dictionary(Type=Name.Page, MediaBox=array(0, 0, width, height), Resources=resources, Contents=contents)
    page.Rotate = TURNS.get(orientation, 0)
    pdf.pages.append(Page(pdf.make_indirect(page)))
    return pdf


def is_vast(image: Any) -> bool:
    """Whether an image has more pixels than may be decoded."""
    return bool(image.width * image.height > MOST_DECODED)


def exif_of(image: Any) -> Any:
    """The EXIF data of an image. Pillow decodes a PNG to find them, so a vast one has none."""
    if image.format == "PNG" and is_vast(image):
        return {}
    with suppress(struct.error, SyntaxError):  # of broken EXIF data, which Pillow tells once, and takes for none then
        image.getexif()
    return image.getexif()


def dots_of(image: Any) -> tuple[float, float]:
    """The dots per inch of an image. Pillow knows none by the centimetre, and takes 72 where EXIF data names none."""
    if image.info.get("jfif_unit") == PER_CENTIMETRE:
        across, up = image.info["jfif_density"]
        return across * 2.54, up * 2.54
    is_named = image.format == "PNG" or image.info.get("jfif_unit") or 0x11A in image.getexif()
    dots: tuple[float, float] = image.info.get("dpi", USUAL) if is_named else USUAL
    return dots


def space_of(pdf: Pdf, image: Any, components: int) -> Any:
    """The colours of an image with so many components: those of its own profile, if that has as many."""
    plain, kind = SPACES[components]
    profile = image.info.get("icc_profile") or b""
    return Array([Name.ICCBased, pdf.make_stream(profile, N=components)]) if profile[16:20] == kind else plain


def stream(pdf: Pdf, size: tuple[int, int], data: bytes, space: Any, bits: int = 8, **entries: Any) -> Any:
    """An image of a PDF."""
    head = {"Type": Name.XObject, "Subtype": Name.Image, "Width": size[0], "Height": size[1], "ColorSpace": space}
    return pdf.make_stream(data, BitsPerComponent=bits, **head, **{"Filter": Name.FlateDecode, **entries})


def jpeg(pdf: Pdf, image: Any, data: bytes) -> Any:
    """The image of a JPEG. Inks are upside down where Adobe's mark is."""
    upside_down = {"Decode": Array([1, 0] * 4)} if image.mode == "CMYK" and "adobe" in image.info else {}
    space = space_of(pdf, image, COMPONENTS[image.mode])
    return stream(pdf, image.size, data, space, Filter=Name.DCTDecode, **upside_down)


def png(pdf: Pdf, image: Any, data: bytes) -> Any:
    """The image of a PNG. One that is seen through, or isn't in rows, is compressed anew."""
    bits, colours, is_laced = data[24], data[25], data[28]
    is_decoded = colours in (4, 6) or is_laced or "transparency" in image.info
    if is_vast(image) and (is_decoded or colours == 3):
        raise ValueError("it is too large to be decoded")
    if is_decoded:
        if image.mode.startswith("I"):  # 16 bits of grey, which later versions of Pillow call I;16
            image = image.convert("I").point(lambda value: value * (1 / 256)).convert("L")
        pixels = image.convert("RGBA")
        mask = stream(pdf, image.size, zlib.compress(pixels.getchannel("A").tobytes()), Name.DeviceGray)
        colour = zlib.compress(pixels.convert("RGB").tobytes())
        return stream(pdf, image.size, colour, space_of(pdf, image, 3), SMask=mask)
    rows = Dictionary(Predictor=15, Colors=3 if colours == 2 else 1, BitsPerComponent=bits, Columns=image.width)
    space = space_of(pdf, image, 3 if colours in (2, 3) else 1)
    if colours == 3:
        palette = bytes(image.getpalette())
        space = Array([Name.Indexed, space, len(palette) // 3 - 1, pdf.make_stream(palette)])
    return stream(pdf, image.size, pixel_rows(data), space, bits, DecodeParms=rows)


def pixel_rows(data: bytes) -> bytes:
    """The compressed rows of a PNG, which lie in one chunk or several."""
    at, rows = len(PNG), list[bytes]()
    while at < len(data):
        kind, body = at + 4, at + 8
        end = body + int.from_bytes(data[at:kind], "big")
        if data[kind:body] == b"IDAT":
            rows.append(data[body:end])
        at = end + 4
    return b"".join(rows)
