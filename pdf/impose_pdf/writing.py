"""Writing a PDF: to a file that gets its name when it is whole, or to a device or a pipe."""

import errno
import hashlib
import io
import os
import re
import secrets
import shutil
import signal
import stat
from collections.abc import Callable
from contextlib import suppress
from dataclasses import dataclass
from tempfile import SpooledTemporaryFile
from typing import IO, Any

from pikepdf import DataDecodingError, ObjectStreamMode, Pdf, StreamDecodeLevel

from impose_pdf.reading import IN_MEMORY, check_reads

SIGNALS = (signal.SIGHUP, signal.SIGINT, signal.SIGTERM)
PART = 1 << 20  # bytes that are written at once
END = 64  # bytes, in which a PDF says where its trailer is
STATIC_ID = b"31415926535897932384626433832795"  # which qpdf gives every PDF, if it isn't to take the time for it
MOST_NAMES = 100  # that are tried for a new file


class Sink(io.RawIOBase):
    """A file that is written. A failure is kept until the end, since qpdf doesn't bear one."""

    def __init__(self, file: IO[bytes]):
        self.file, self.digest = file, hashlib.blake2b(digest_size=len(STATIC_ID) // 2)
        self.error: OSError | None = None

    def writable(self) -> bool:
        """It can be written."""
        return True

    def write(self, data: Any) -> int:
        """Writes all of the data, or nothing more after a failure."""
        left = memoryview(data)
        self.digest.update(left)
        try:
            while left and self.error is None:
                written = self.file.write(left)
                left = left[written:]
        except OSError as error:
            self.error = error
        return len(data)

    def end(self) -> None:
        """Raises the failure, if there was one."""
        if self.error is not None:
            raise self.error


def save(pdf: Pdf, file: IO[bytes], is_packed: bool) -> str:
    """Writes a PDF to a file, and gives a digest of it. Streams stay as they are, or those without Flate are packed."""
    sink = Sink(file)
    with io.BufferedWriter(sink, PART) as stream:
        pdf.save(
            stream,
            min_version="1.7",
            fix_metadata_version=False,
            object_stream_mode=ObjectStreamMode.generate,
            compress_streams=is_packed,
            stream_decode_level=StreamDecodeLevel.generalized if is_packed else StreamDecodeLevel.none,
            encryption=False,
            static_id=True,
        )
    sink.end()
    return sink.digest.hexdigest()


def fill(file: IO[bytes], pdf: Pdf) -> None:
    """Writes a PDF to an empty file, with its streams packed if all of them can be unpacked."""
    try:
        digest = save(pdf, file, True)
    except (RuntimeError, DataDecodingError):
        file.seek(0)
        file.truncate()
        digest = save(pdf, file, False)
    check_reads()
    identify(file, digest)
    file.seek(0)


def identify(file: IO[bytes], digest: str) -> None:
    """Puts a digest of a PDF for its /ID, so that the same PDF has the same, and no other has."""
    file.seek(-END, os.SEEK_END)
    if found := re.search(rb"startxref\n(\d+)\n%%EOF\n\Z", file.read()):
        file.seek(int(found[1]))
        trailer, _, _ = file.read().partition(b"stream\n")
        file.seek(int(found[1]))
        file.write(trailer.replace(STATIC_ID, digest.encode()))


def hand_over(pdf: Pdf, name: str) -> None:
    """Writes a whole PDF to standard output, a device or a pipe."""
    with SpooledTemporaryFile(IN_MEMORY) as whole:
        fill(whole, pdf)
        with open(1 if name == "-" else os.open(name, os.O_WRONLY), "wb", closefd=name != "-") as to:
            shutil.copyfileobj(whole, to, PART)


@dataclass
class Place:
    """Where a new file comes: a folder, a name in it, and the mode of the file that has it, or 0."""

    folder: str
    last: str
    mode: int

    def replace(self, pdf: Pdf) -> None:
        """Puts a new file in the old one's place."""
        made = nameless(self.folder)
        if made is None:
            self.replace_by_name(pdf)
        else:
            self.name_later(pdf, made)

    def name_later(self, pdf: Pdf, made: int) -> None:
        """Fills a file that gets a name when it is whole, so no signal leaves a part of it."""
        with open(made, "r+b", buffering=0, closefd=False) as file:
            fill(file, pdf)
        self.finish(made)

        def name(path: str) -> None:
            os.link(f"/proc/self/fd/{made}", path, src_dir_fd=made)  # which makes it follow that link
            os.close(made)

        self.take(name)

    def replace_by_name(self, pdf: Pdf) -> None:
        """The same where every file needs a name, as over a network."""
        with SpooledTemporaryFile(IN_MEMORY) as kept:
            fill(kept, pdf)

            def copy(path: str) -> None:
                made = os.open(path, os.O_CREAT | os.O_EXCL | os.O_WRONLY, 0o666)
                with open(made, "wb", closefd=False) as file:
                    shutil.copyfileobj(kept, file, PART)
                self.finish(made)
                os.close(made)

            self.take(copy)

    def finish(self, made: int) -> None:
        """Gives the new file the rights of the old one, and has it on the disk before it is OUTFILE."""
        if self.mode:
            os.fchmod(made, stat.S_IMODE(self.mode))
        os.fsync(made)

    def take(self, make: Callable[[str], None]) -> None:
        """Makes a file under a name of its own, then names it as OUTFILE. A signal or a failure takes it away."""
        path = ""

        def leave(number: int, _: object) -> None:
            with suppress(OSError):
                os.unlink(path)
            signal.signal(number, signal.SIG_DFL)
            os.kill(os.getpid(), number)

        for number in SIGNALS:
            if signal.getsignal(number) == signal.SIG_DFL:  # else it is ignored, as under nohup
                signal.signal(number, leave)
        for _ in range(MOST_NAMES):
            path = os.path.join(self.folder, f".impose-pdf.{secrets.token_hex(8)}")
            try:
                make(path)
                return os.rename(path, os.path.join(self.folder, self.last))
            except FileExistsError:
                continue
            except BaseException:
                with suppress(OSError):
                    os.unlink(path)
                raise
        raise FileExistsError(errno.EEXIST, "no name is free for a new file in its folder")


def nameless(folder: str) -> int | None:
    """A new file in a folder, without a name as yet, or None where there can't be one."""
    try:
        return os.open(folder, os.O_TMPFILE | os.O_RDWR, 0o666) if os.path.isdir("/proc/self/fd") else None
    except OSError:
        return None
