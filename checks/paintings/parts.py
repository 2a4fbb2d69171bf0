"""How a document is cut into preamble, pages and trailer, and which of its lines are dropped: docs/RULES.md, 5 and 6."""
from machine import Scanner

TRAILER_KEYS = (b"%%Trailer", b"%%EOF")
HEADER_KEYS = (b"%%Pages", b"%%PageOrder", b"%%BoundingBox", b"%%HiResBoundingBox", b"%%DocumentMedia", b"%%Orientation")


class Refused(Exception):
    pass


def line_at(text, at):
    """Where the content of the line that begins here ends, and where the line ends."""
    stop = at
    while stop < len(text) and text[stop] not in b"\r\n":
        stop += 1
    return stop, min(stop + (2 if text[stop : stop + 2] == b"\r\n" else 1), len(text))


def key_of(content):
    end = 0
    while end < len(content) and content[end] not in b" \t:":
        end += 1
    return content[:end]


def is_comment(name, content):
    return key_of(content) == name and content[len(name) : len(name) + 1] == b":"


def data_end(text, content, end):
    fields = content[len(key_of(content)) + 1 :].replace(b"\t", b" ").split()
    if not fields or not fields[0].isdigit():
        raise Refused("bad count")
    count = int(fields[0])
    if is_comment(b"%%BeginData", content) and fields[2:3] == [b"Lines"]:
        for _ in range(count):
            end = line_at(text, end)[1]
        return end
    return end + count


def units(text):
    """Content, bytes, and whether the unit is an outermost line."""
    at, depth, found = 0, 0, []
    while at < len(text):
        content_end, end = line_at(text, at)
        content = text[at:content_end]
        is_block = is_comment(b"%%BeginData", content) or is_comment(b"%%BeginBinary", content)
        if is_block:
            end = data_end(text, content, end)
            if end > len(text):
                raise Refused("data cut short")
        found.append((content, text[at:end], depth == 0 and not is_block))
        if not is_block and key_of(content) == b"%%BeginDocument":
            depth += 1
        elif not is_block and key_of(content) == b"%%EndDocument":
            depth = max(depth - 1, 0)
        at = end
    return found


class Document:
    def __init__(self, text):
        if not text.startswith(b"%!"):
            raise Refused("not PostScript")
        parts, in_trailer = [b""], False
        self.trailer = b""
        for content, raw, outermost in units(text):
            if outermost and not in_trailer and is_comment(b"%%Page", content):
                parts.append(b"")
            in_trailer = in_trailer or (outermost and len(parts) > 1 and key_of(content) in TRAILER_KEYS)
            if in_trailer:
                self.trailer += raw
            else:
                parts[-1] += raw
        self.preamble, *self.pages = parts
        if not self.pages:
            raise Refused("no pages")


def drops_in_header(key):
    return key in HEADER_KEYS


def drops_beside_lines(key):
    """If sheets report their paper (docs/RULES.md, 15)."""
    return drops_in_header(key) or key == b"%%DocumentPaperSizes"


def drops_in_page(key):
    return key.startswith(b"%%Page") or key in (b"%%BeginPageSetup", b"%%EndPageSetup")


def ends_between(text):
    scanner = Scanner(text)
    while scanner.token() is not None:
        pass
    return scanner.complete


def comments_apart(text, drops):
    """Each line that is dropped begins between tokens and has no form feed: `comments_apart` of specs/Kept."""
    before, was = b"", False
    for content, raw, outermost in units(text):
        goes = (outermost and drops(key_of(content))) or (was and raw.startswith(b"%%+"))
        if goes and (b"\f" in raw or not ends_between(before)):
            return False
        before, was = b"" if goes else before + raw, goes
    return True


def first_is_complete(text):
    """The first unit that is kept of the preamble ends between tokens."""
    was = False
    for content, raw, outermost in units(text):
        was = (outermost and drops_in_header(key_of(content))) or (was and raw.startswith(b"%%+"))
        if not was:
            return ends_between(raw)
    return True
