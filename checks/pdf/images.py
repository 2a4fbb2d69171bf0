"""Images as the cases describe them."""

from __future__ import annotations

import io
import zlib
from typing import Any

from PIL import Image, ImageCms


def image(lines: list[str], name: str) -> bytes:
    """A JPEG or PNG, by its name, as size, dpi, per-cm, turned, exif-dpi and exif (of a photograph), colour, right and
    lower (the colours of these halves), profile (in which red and green are swapped), alpha, mode, packed (how hard),
    chunks (their length), frames say."""
    values = dict(line.split() for line in lines)
    width, height = (int(side) for side in values["size"].split("x"))
    red, green, blue = (int(part) for part in values["colour"].split(","))
    is_black = values.get("mode") == "1"  # a bit a dot, so that a large one takes little room
    picture = Image.new("1", (width, height)) if is_black else Image.new("RGB", (width, height), (red, green, blue))
    out, how = io.BytesIO(), dict[str, Any]()
    if "right" in values:
        red, green, blue = (int(part) for part in values["right"].split(","))
        picture.paste((red, green, blue), (width // 2, 0, width, height))
    if "lower" in values:
        red, green, blue = (int(part) for part in values["lower"].split(","))
        picture.paste((red, green, blue), (0, height // 2, width, height))
    if "dpi" in values:
        how["dpi"] = (int(values["dpi"]), int(values["dpi"]))
    if "per-cm" in values:
        how["dpi"] = (int(values["per-cm"]), int(values["per-cm"]))
    if "packed" in values:
        how["compress_level"] = int(values["packed"])
    exif = Image.Exif()
    if "turned" in values:
        exif[0x112] = int(values["turned"])
    if "exif-dpi" in values:
        exif[0x11A] = exif[0x11B] = float(values["exif-dpi"])
        exif[0x128] = 2
    if len(exif):
        how["exif"] = exif
    if "profile" in values:
        how["icc_profile"] = swapped()
    if "exif" in values:
        how["exif"] = b"Exif\0\0" + bytes.fromhex(values["exif"])
    if "alpha" in values:
        picture.putalpha(int(values["alpha"]))
    picture = picture.convert(values.get("mode", picture.mode))
    kind = "PNG" if name.endswith(".png") else "JPEG"
    if "frames" in values:
        kind, how["save_all"] = "MPO", True
        how["append_images"] = [picture.resize((16, 16))] * (int(values["frames"]) - 1)
    picture.save(out, kind, **how)
    data = out.getvalue()
    if "per-cm" in values:  # the unit stands after the name and the version
        data = data.replace(b"JFIF\0\1\1\1", b"JFIF\0\1\1\2", 1)
    return in_chunks(data, int(values["chunks"])) if "chunks" in values else data


def swapped() -> bytes:
    """The profile of sRGB, with its red for green."""
    profile: bytes = ImageCms.ImageCmsProfile(ImageCms.createProfile("sRGB")).tobytes()
    return profile.replace(b"rXYZ", b"tXYZ").replace(b"gXYZ", b"rXYZ").replace(b"tXYZ", b"gXYZ")


def in_chunks(png: bytes, length: int) -> bytes:
    """A PNG whose chunks of data are parted into some of this length."""
    at = png.index(b"IDAT") - 4
    end, data = at, b""
    while png[end + 4 : end + 8] == b"IDAT":
        size = int.from_bytes(png[end : end + 4], "big")
        end, data = end + 12 + size, data + png[end + 8 : end + 8 + size]
    parts = [b"IDAT" + data[k : k + length] for k in range(0, len(data), length)]
    chunks = [(len(part) - 4).to_bytes(4, "big") + part + zlib.crc32(part).to_bytes(4, "big") for part in parts]
    return png[:at] + b"".join(chunks) + png[end:]
