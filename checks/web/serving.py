"""A server that is tried: begun in a folder of its own, asked, and ended."""

from __future__ import annotations

import http.client
import json
import os
import shutil
import signal
import socket
import subprocess
import tempfile
import time
from collections.abc import Callable
from dataclasses import dataclass
from pathlib import Path
from typing import Any

ROOT = Path(__file__).resolve().parent.parent.parent
BOOK = ROOT / "cases/pdfs/pdflatex.pdf"  # of 11 pages
PHOTOGRAPHS = ROOT / "cases/pdfs/pillow.pdf"
WAITS = 20  # seconds
# A server whose page may be gone for these seconds.
GONE = (
    "import sys; sys.path.insert(0, {0!r}); import impose_web.server as s; s.AFTER_CLOSED, s.AFTER_SLEEP = {1}, {2}; "
)
MAIN = "from impose_web.program import main; sys.exit(main({3!r}, {0!r}))"


def until(wanted: Callable[[], Any], what: str, seconds: float = WAITS) -> Any:
    """Waits for something."""
    end = time.monotonic() + seconds
    while not (found := wanted()):
        if time.monotonic() > end:
            raise AssertionError(f"{what}: not within {seconds:g} s")
        time.sleep(0.03)
    return found


def wanted(found: Any, *expected: Any) -> None:
    """Fails if something isn't as it should be."""
    if found not in expected:
        raise AssertionError(f"{str(found)[:200]!r}, wanted {' or '.join(map(repr, expected))}")


@dataclass
class Answer:
    """What the server says."""

    status: int
    body: bytes
    heads: http.client.HTTPMessage

    def last(self) -> dict[str, Any]:
        """The last line."""
        return dict(json.loads(self.body.splitlines()[-1]))


class Web:
    """A server."""

    def __init__(
        self,
        pdf: Path,
        impose: Path,
        files: list[str] | None = None,
        gone: tuple[int, int] | None = None,
        first: str = "",
    ):
        self.temporary, self.said = Path(tempfile.mkdtemp()), b""
        words = ["--no-browser", *(files or [])]
        program = [str(pdf / "impose-web"), *words]
        if gone or first:
            text = first + (GONE + MAIN).format(str(pdf), *(gone or (3600, 3600)), words)
            program = ["/usr/bin/python3", "-B", "-c", text]
        env = {**os.environ, "IMPOSE": str(impose), "TMPDIR": str(self.temporary)}
        # In a group of its own: Ctrl-C of a terminal is for it and its children.
        self.process = subprocess.Popen(program, stdout=subprocess.PIPE, env=env, process_group=0)
        assert self.process.stdout
        words = self.process.stdout.readline().decode().split()
        if not words:
            raise AssertionError(f"no address, and status {self.process.wait()}")
        self.address = words[1]
        _, _, self.host, self.key, _ = self.address.split("/")
        self.page = ""

    @property
    def folder(self) -> Path:
        """Its folder."""
        (found,) = self.temporary.iterdir()
        return found

    def ask(self, method: str, path: str, body: bytes | None = None, **heads: str | None) -> Answer:
        """Asks as the page does, but for these heads."""
        connection = http.client.HTTPConnection(self.host, timeout=WAITS)
        own: dict[str, str | None] = {"Host": self.host, "Origin": f"http://{self.host}" if method == "POST" else None}
        all_heads = {**own, **{name.replace("_", "-"): value for name, value in heads.items()}}
        connection.request(method, path, body, {name: value for name, value in all_heads.items() if value is not None})
        answer = connection.getresponse()
        found = Answer(answer.status, answer.read(), answer.headers)
        self.said += str(found.heads).encode() + found.body
        wanted(found.heads["X-Content-Type-Options"], "nosniff")
        wanted(found.heads["Access-Control-Allow-Origin"], None)
        assert "default-src 'none'" in (found.heads["Content-Security-Policy"] or ""), "no policy"
        return found

    def connect(self, data: str = "") -> socket.socket:
        """A connection, on which something is sent."""
        host, port = self.host.split(":")
        connection = socket.create_connection((host, int(port)), timeout=WAITS)
        connection.sendall(data.encode())
        return connection

    def open(self) -> socket.socket:
        """The connection that the page keeps open."""
        connection = self.connect(f"GET {self.begin()}open HTTP/1.1\r\nHost: {self.host}\r\n\r\n")
        until(lambda: list((self.folder / "open").iterdir()), "a mark of the page")
        return connection

    def raw(self, data: str, ends: bool = False) -> int:
        """Sends bytes, and gives the status of the answer, or 0."""
        with self.connect() as connection:
            connection.sendall(data.encode())
            answer = b"" if ends else connection.recv(1 << 16)
        self.said += answer
        return int((answer.split() + [b"0", b"0"])[1])

    def begin(self) -> str:
        """The page's path."""
        self.page = self.page or self.ask("GET", f"/{self.key}/").heads["Location"]
        return self.page

    def put(self, name: str, data: bytes) -> str:
        """Gives it a file, and has the name that this gets."""
        return str(self.ask("POST", f"{self.begin()}file/{name}", data).last()["name"])

    def sheets(self, files: list[tuple[str, str]], command: str = "booklet", word: str = "", **options: str) -> Answer:
        """Asks for sheets."""
        named = {name.replace("_", "-"): value for name, value in options.items()}
        chosen = {"command": command, "word": word, "options": named, "files": files}
        return self.ask("POST", f"{self.begin()}sheets", json.dumps(chosen).encode())

    def end(self, number: int = signal.SIGINT) -> int:
        """Ends it by a signal, as from a terminal, and gives its status."""
        os.killpg(self.process.pid, number)
        return self.process.wait(WAITS)

    def tidy(self) -> None:
        """Ends it, if it runs, and takes what it left."""
        if self.process.poll() is None:
            os.killpg(self.process.pid, signal.SIGKILL)
            self.process.wait()
        assert self.process.stdout
        self.process.stdout.close()
        shutil.rmtree(self.temporary, ignore_errors=True)


class Begin:
    """Begins servers of a program, and ends them."""

    def __init__(self, pdf: Path, impose: Path):
        self.pdf, self.impose, self.begun = pdf, impose, list[Web]()

    def __call__(self, files: list[str] | None = None, gone: tuple[int, int] | None = None, first: str = "") -> Web:
        self.begun.append(Web(self.pdf, self.impose, files, gone, first))
        return self.begun[-1]

    def tidy(self) -> None:
        """Ends them."""
        for web in self.begun:
            web.tidy()
