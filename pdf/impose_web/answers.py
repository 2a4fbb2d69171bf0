"""Answers of the server. Each is given by a process of its own, which ends with it."""

import json
import os
import re
import secrets
import select
import shutil
import signal
import subprocess
from collections.abc import Callable
from contextlib import suppress
from http.server import BaseHTTPRequestHandler
from pathlib import Path
from typing import IO, TYPE_CHECKING, Any
from urllib.parse import quote, unquote

from impose_web import guard
from impose_web.work import Work

if TYPE_CHECKING:
    from impose_web.server import Web

IDLE = 10  # seconds after which a connection is given up that sends nothing
LONGEST = 3000  # pixels of the longer side of a picture
PART = 1 << 20  # bytes that are read at once
FAULTS = TypeError, ValueError, LookupError, AttributeError, RecursionError, FileNotFoundError  # of what is asked


class Answer(BaseHTTPRequestHandler):
    """A request, and the answer to it."""

    server: "Web"
    timeout = IDLE
    server_version, sys_version = "impose-web", ""

    def setup(self) -> None:
        """Limits this process, before anything is read."""
        guard.limit()
        with suppress(OSError):  # the watch may be gone
            os.setpgid(0, self.server.watcher)
        os.close(self.server.alive)
        self.server.socket.close()
        super().setup()

    def log_message(self, *_: Any) -> None:
        """Says nothing."""

    def do_GET(self) -> None:
        """Answers with what is there."""
        self.answer({"": self.html, "options": self.options, "open": self.open, "leaf": self.leaf, "pdf": self.pdf})

    def do_POST(self) -> None:
        """Takes a file, makes sheets, or hears that the page is closed."""
        self.answer({"file": self.file, "sheets": self.sheets, "closed": self.closed})

    def answer(self, ways: dict[str, Callable[..., None]]) -> None:
        """Looks who asks, and for what."""
        is_users = guard.is_users(self.client_address[1], self.server.server_port)
        if not is_users or not guard.is_ours(self.headers, self.command, self.server.place):
            return self.send(403, "This isn't for you.")
        key, way, *words = [unquote(part) for part in self.path.split("/")[1:]] + ["", ""]
        if guard.is_same(key, self.server.key) and self.command == "GET":
            return self.begin()
        if not guard.is_same(key, self.server.secret) or way not in ways:
            return self.send(404, "There is nothing here. Begin impose-web again.")
        self.folder = self.server.folder
        try:
            ways[way](*[word for word in words if word])
        except FAULTS:
            self.send(400, "That can't be done.")

    def send_error(self, code: int, message: str | None = None, explain: str | None = None) -> None:
        """What can't be read is refused as all else."""
        self.send(code, "That can't be done.")

    def send(self, status: int, body: str, kind: str = "text/plain; charset=utf-8", **more: str) -> None:
        """Sends an answer."""
        data = body.encode(errors="replace")
        self.begin_sending(status, kind, Content_Length=str(len(data)), **more)
        self.wfile.write(data)

    def begin_sending(self, status: int, kind: str, **more: str) -> None:
        """Sends what goes before an answer."""
        self.send_response(status)
        named = {name.replace("_", "-"): value for name, value in more.items()}
        for name, value in ({"Content-Type": kind} | guard.HEADS | named).items():
            self.send_header(name, value)
        self.end_headers()

    def send_file(self, file: IO[bytes], kind: str, **more: str) -> None:
        """Sends a file."""
        self.begin_sending(200, kind, Content_Length=str(os.fstat(file.fileno()).st_size), **more)
        shutil.copyfileobj(file, self.wfile, PART)

    def begin(self) -> None:
        """Leads to the page, once."""
        try:
            (self.server.folder / "key").unlink()
        except FileNotFoundError:
            return self.send(410, "This address was opened already, and works once. Begin impose-web again.")
        self.send(303, "", Location=f"/{self.server.secret}/")

    def html(self) -> None:
        """The page itself."""
        nonce = secrets.token_urlsafe(16)
        page = Path(__file__).with_name("page.html").read_text("utf-8").replace("NONCE", nonce)
        self.send(200, page, "text/html; charset=utf-8", Content_Security_Policy=guard.POLICY.format(nonce))

    def options(self) -> None:
        """The table of options, the files of the command line, and the most bytes that a file may have."""
        told = {**self.server.table, "files": self.server.names, "limit": guard.MOST_UPLOADED}
        self.send(200, json.dumps(told), "application/json")

    def open(self) -> None:
        """Says nothing for as long as the page is open, and the program runs."""
        signal.alarm(0)
        mark = self.folder / "open" / str(os.getpid())
        mark.touch()
        (self.folder / "closed").unlink(missing_ok=True)
        self.begin_sending(200, "text/event-stream")
        select.select([self.connection, self.server.ended], [], [])
        mark.unlink(missing_ok=True)

    def closed(self) -> None:
        """Hears that the page is closed. One that the browser puts to sleep says nothing."""
        (self.folder / "closed").touch()
        self.send(200, "")

    def length(self, most: int) -> int:
        """The bytes that come, or -1 after a refusal."""
        length = int(self.headers.get("Content-Length", "-1"))
        if length < 0 or self.headers.get("Transfer-Encoding"):
            self.send(411, "How long is it?")
        elif length > most:
            self.send(413, f"This is larger than {most >> 20} MB, which is the most that is taken here.")
            if length <= guard.MOST_UPLOADED:  # the page sends no more
                while length and (data := self.rfile.read(min(length, PART))):  # else the browser hears no refusal
                    length -= len(data)
        else:
            return length
        return -1

    def file(self, name: str = "") -> None:
        """Takes a file."""
        kept = sum(path.stat().st_size for path in (self.folder / "files").iterdir() if not path.is_symlink())
        room = min(guard.MOST_UPLOADED, max(0, guard.MOST_KEPT - kept), shutil.disk_usage(self.folder).free)
        if (left := self.length(room)) < 0:
            return
        part = self.folder / f"part.{os.getpid()}"
        try:
            with part.open("xb") as stream:
                while left and (data := self.rfile.read(min(left, PART))):
                    left -= stream.write(data)
            if left:
                return
            while True:
                name = guard.free(name, os.listdir(self.folder / "files"))
                try:
                    os.link(part, self.folder / "files" / name)
                    return self.send(200, json.dumps({"name": name}), "application/json")
                except FileExistsError:  # another file came just now
                    continue
        finally:
            part.unlink(missing_ok=True)

    def sheets(self) -> None:
        """Makes sheets, and tells of them line by line."""
        if (length := self.length(guard.MOST_ASKED)) < 0:
            return
        chosen = json.loads(self.rfile.read(length))
        work = Work(self.server.table, self.server.program, self.folder, chosen)
        self.begin_sending(200, "application/x-ndjson")
        for told in work.steps():
            self.wfile.write(json.dumps(told).encode() + b"\n")

    def made(self, made: str) -> Path:
        """The PDF of this name."""
        if not re.fullmatch("[0-9a-f]{16}", made):
            raise ValueError(made)
        return self.folder / "made" / f"{made}.pdf"

    def leaf(self, made: str, number: str, longest: str) -> None:
        """A sheet as a picture, whose longer side has so many pixels."""
        size, path = str(max(1, min(int(longest), LONGEST))), self.made(made)
        words = ["pdftoppm", "-png", "-singlefile", "-f", str(int(number)), "-scale-to", size, str(path)]
        with open(self.folder / f"leaf.{os.getpid()}", "w+b") as drawn:
            os.unlink(drawn.name)
            subprocess.run(words, stdout=drawn, stderr=subprocess.DEVNULL, stdin=subprocess.DEVNULL)
            drawn.seek(0)
            self.send_file(drawn, "image/png")

    def pdf(self, made: str, way: str, name: str) -> None:
        """The PDF, to be saved, or shown for printing."""
        kept = {"save": "attachment", "show": "inline"}[way]
        named = f"{kept}; filename*=UTF-8''{quote(guard.safe(name))}"
        with self.made(made).open("rb") as file:
            self.send_file(file, "application/pdf", Content_Disposition=named)
