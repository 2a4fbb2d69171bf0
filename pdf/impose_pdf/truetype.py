"""A TrueType font of this machine, with letters that other fonts lack."""

from collections.abc import Iterable, Iterator
from functools import cache
from struct import error, pack, unpack_from
from unicodedata import bidirectional, category

# Where Debian, Fedora and Arch have fonts with the letters of many languages.
FILES = (
    "/usr/share/fonts/truetype/liberation/LiberationSans-Regular.ttf",
    "/usr/share/fonts/liberation-sans/LiberationSans-Regular.ttf",
    "/usr/share/fonts/liberation/LiberationSans-Regular.ttf",
    "/usr/share/fonts/truetype/dejavu/DejaVuSans.ttf",
    "/usr/share/fonts/dejavu-sans-fonts/DejaVuSans.ttf",
    "/usr/share/fonts/TTF/DejaVuSans.ttf",
)
KEPT = "cvt ", "fpgm", "head", "hhea", "maxp", "prep"  # tables that a part of a font has as they are
LONG_PLACES = 50  # where in its table head a font says how wide the places of its glyphs are


def is_simple(letter: str) -> bool:
    """Whether a letter is read from left to right, and looks the same beside any others."""
    return letter == " " or bidirectional(letter) not in ("R", "AL", "AN", "NSM") and category(letter)[0] in "LNPS"


class TrueType:
    """A font file."""

    def __init__(self, data: bytes):
        (count,) = unpack_from(">H", data, 4)
        rows = (unpack_from(">4sLLL", data, 12 + 16 * k) for k in range(count))
        entries = ((tag, at, at + length) for tag, _, at, length in rows)
        self.tables = {tag.decode("latin-1"): data[at:end] for tag, at, end in entries}
        (self.units,), (is_long,) = unpack_from(">H", self.tables["head"], 18), unpack_from(
            ">H", self.tables["head"], 50
        )
        (self.metrics,) = unpack_from(">H", self.tables["hhea"], 34)
        loca = self.tables["loca"]
        wide = len(loca) // 4 if is_long else len(loca) // 2
        self.places = [
            place * (1 if is_long else 2) for place in unpack_from(f">{wide}{'L' if is_long else 'H'}", loca)
        ]
        self.glyphs = {letter: glyph for letter, glyph in self.segments() if is_simple(letter)}

    def segments(self) -> Iterator[tuple[str, int]]:
        """The glyphs of letters, by the table of those in Unicode's first plane."""
        table = self.tables["cmap"]
        (count,) = unpack_from(">H", table, 2)
        found = (unpack_from(">HHL", table, 4 + 8 * k) for k in range(count))
        at = next(place for platform, kind, place in found if (platform, kind) == (3, 1))
        (double,) = unpack_from(">H", table, at + 6)
        parts = [unpack_from(f">{double // 2}H", table, at + 14 + k * double + 2 * (k > 0)) for k in range(4)]
        for k, (last, first, delta, offset) in enumerate(zip(*parts)):
            for code in range(first, min(last, 0xFFFE) + 1):
                glyph = code
                if offset:
                    place = at + 16 + 3 * double + 2 * k + offset + 2 * (code - first)
                    (glyph,) = unpack_from(">H", table, place)
                if glyph:
                    yield chr(code), (glyph + delta) % 65536

    def width(self, glyph: int) -> float:
        """The width of a glyph, in thousandths."""
        (width,) = unpack_from(">H", self.tables["hmtx"], 4 * min(glyph, self.metrics - 1))
        return float(width * 1000 / self.units)

    def outline(self, glyph: int) -> bytes:
        """What draws a glyph."""
        begin, end = self.places[glyph], self.places[glyph + 1]
        return self.tables["glyf"][begin:end]

    def components(self, glyph: int) -> Iterator[int]:
        """The glyphs of which a glyph is made."""
        outline, at, flags = self.outline(glyph), 10, 0x20
        while outline[:1] >= b"\x80" and flags & 0x20:
            flags, part = unpack_from(">HH", outline, at)
            yield part
            at += 4 + (4 if flags & 1 else 2) + (2 if flags & 8 else 4 if flags & 0x40 else 8 if flags & 0x80 else 0)

    def part(self, glyphs: Iterable[int]) -> bytes:
        """The font with the outlines of some glyphs, each at its number."""
        kept, left = set[int](), [0, *glyphs]
        while left:
            if (glyph := left.pop()) not in kept:
                kept.add(glyph)
                left += self.components(glyph)
        places, outlines, metrics = [0], b"", bytearray(self.tables["hmtx"])
        for glyph in range(len(self.places) - 1):
            outlines += self.outline(glyph) if glyph in kept else b""
            outlines += bytes(-len(outlines) % 4)
            places.append(len(outlines))
            if glyph not in kept and glyph < self.metrics - 1:
                at, end = 4 * glyph, 4 * glyph + 4
                metrics[at:end] = bytes(4)
        tables = {name: self.tables[name] for name in KEPT if name in self.tables}
        head = tables["head"]
        after = LONG_PLACES + 2
        tables["head"] = head[:LONG_PLACES] + pack(">H", 1) + head[after:]
        return joined({**tables, "hmtx": bytes(metrics), "loca": pack(f">{len(places)}L", *places), "glyf": outlines})


def joined(tables: dict[str, bytes]) -> bytes:
    """Tables as a font file."""
    start, body = pack(">LHHHH", 0x00010000, len(tables), 128, 3, 16 * len(tables) - 128), b""
    for name in sorted(tables):
        start += pack(">4sLLL", name.encode("latin-1"), 0, 12 + 16 * len(tables) + len(body), len(tables[name]))
        body += tables[name] + bytes(-len(tables[name]) % 4)
    return start + body


@cache
def font() -> TrueType | None:
    """The first of the fonts that this machine has."""
    for name in FILES:
        try:
            with open(name, "rb") as stream:
                return TrueType(stream.read())
        except (OSError, LookupError, RuntimeError, error):
            continue
    return None
