"""Contents of pages, unpacked by turns, so that they needn't be whole in memory."""

import io
import zlib
from collections.abc import Iterator
from typing import Any

from pikepdf import Array, DataDecodingError, Dictionary, Name, Pdf, PdfError, StreamDecodeLevel

UNDECODABLE = PdfError, DataDecodingError, RuntimeError, zlib.error
TURN = 1 << 20  # bytes
MOST_AGAIN = 1 << 33  # bytes, unpacked, of streams that contents name again


def filters_of(stream: Any) -> list[Any]:
    """The filters of a stream."""
    found = stream.get("/Filter")
    return list(found) if isinstance(found, Array) else [] if found is None else [found]


def is_flate(stream: Any) -> bool:
    """Whether a stream is packed by Flate alone, without a predictor."""
    parameters = stream.get("/DecodeParms")
    is_plain = parameters is None or isinstance(parameters, Dictionary) and parameters.get("/Predictor", 1) == 1
    return filters_of(stream) == [Name.FlateDecode] and is_plain


def packed_anew(stream: Any) -> bytes:
    """The data of a stream that has other filters, packed by Flate alone. qpdf does that by turns as it writes."""
    made, written = Pdf.new(), io.BytesIO()
    made.Root.Spare = made.copy_foreign(stream)
    made.save(written, stream_decode_level=StreamDecodeLevel.specialized, recompress_flate=True)
    with Pdf.open(written) as again:
        if not is_flate(again.Root.Spare):
            raise RuntimeError("it can't be decoded")
        return bytes(again.Root.Spare.read_raw_bytes())


def pieces(stream: Any) -> Iterator[bytes]:
    """The data of a stream, unpacked, a turn after the other."""
    if not filters_of(stream):
        yield bytes(stream.read_raw_bytes())
        return
    data = stream.read_raw_bytes() if is_flate(stream) else packed_anew(stream)
    unpacking = zlib.decompressobj()
    while piece := unpacking.decompress(data, TURN):
        yield piece
        data = unpacking.unconsumed_tail


def is_longer(stream: Any, most: int) -> bool:
    """Whether a stream has more than so many bytes, unpacked."""
    count = 0
    for piece in pieces(stream):
        count += len(piece)
        if count > most:
            return True
    return False


class Joining:
    """Contents in several streams, each made one. The same stream may be named often, and have much in it."""

    def __init__(self) -> None:
        self.seen: set[tuple[int, int]] = set()
        self.left = MOST_AGAIN

    def joined(self, streams: list[Any]) -> bytes:
        """The data of streams, with a line end between them, packed by Flate."""
        packing, parts = zlib.compressobj(), list[bytes]()
        for k, stream in enumerate(streams):
            parts.append(packing.compress(b"\n" if k else b""))
            is_again = stream.objgen in self.seen
            self.seen.add(stream.objgen)
            for piece in pieces(stream):
                parts.append(packing.compress(piece))
                self.left -= len(piece) * is_again
                if self.left < 0:
                    raise RuntimeError("streams are named too often")
        return b"".join([*parts, packing.flush()])
