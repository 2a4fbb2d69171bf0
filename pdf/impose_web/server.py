"""The server: it gives each request a process of its own, and goes with the page, and its folder with it."""

import os
import secrets
import shutil
import signal
import sys
import tempfile
import time
from contextlib import suppress
from http.server import HTTPServer
from pathlib import Path
from socketserver import ForkingMixIn
from typing import Any

from impose_pdf.words import own_fault
from impose_pdf.writing import SIGNALS
from impose_web.answers import Answer
from impose_web.guard import free
from impose_web.table import table

MOST = 64  # requests at a time
AFTER_CLOSED, AFTER_SLEEP = 600, 86_400  # seconds after which the program ends without its page, as it left


class Web(ForkingMixIn, HTTPServer):
    """The server, and its folder: files, made sheets, a mark for each open page, one for the key that wasn't used."""

    max_children = sys.maxsize  # process_request keeps them few, and hears signals meanwhile
    block_on_close, request_queue_size = False, 128

    def __init__(self, files: list[Path], program: str):
        self.program, self.table = program, table(program)
        self.folder = Path(tempfile.mkdtemp(prefix="impose-web."))
        self.ended, self.alive, self.watcher = watch(self.folder)
        for part in ("files", "made", "open"):
            (self.folder / part).mkdir(mode=0o700)
        (self.folder / "key").touch()
        self.names: list[str] = []
        for path in files:
            self.names.append(free(path.name, self.names))
            (self.folder / "files" / self.names[-1]).symlink_to(path)
        super().__init__(("127.0.0.1", 0), Answer)
        self.place = f"127.0.0.1:{self.server_port}"
        self.key, self.secret = secrets.token_urlsafe(24), secrets.token_urlsafe(24)
        self.is_over, self.seen = False, time.monotonic()

    def serve(self) -> None:
        """Answers until a signal comes, or the page is gone for long enough."""
        for number in [one for one in SIGNALS if signal.getsignal(one) != signal.SIG_IGN]:
            # It may come while Python forks, where an exception would be lost. So it only leaves a mark.
            signal.signal(number, lambda *_: setattr(self, "is_over", True))
        try:
            with suppress(KeyboardInterrupt):
                self.serve_forever()
        finally:
            for child in self.active_children or ():
                with suppress(ProcessLookupError):
                    os.kill(child, signal.SIGTERM)
            shutil.rmtree(self.folder, ignore_errors=True)

    def service_actions(self) -> None:
        """Ends the program when it is time."""
        super().service_actions()
        if any((self.folder / "open").iterdir()):
            self.seen = time.monotonic()
        left = AFTER_CLOSED if (self.folder / "closed").exists() else AFTER_SLEEP
        if self.is_over or time.monotonic() > self.seen + left:
            raise KeyboardInterrupt

    def process_request(self, request: Any, client_address: Any) -> None:
        """Gives a request a process of its own, when there are few enough."""
        while len(self.active_children or ()) >= MOST and not self.is_over:
            time.sleep(0.02)
            self.collect_children()
        super().process_request(request, client_address)

    def handle_error(self, request: Any, client_address: Any) -> None:
        """Says what went wrong, unless the page has gone."""
        error = sys.exc_info()[1]
        if isinstance(error, Exception) and not isinstance(error, OSError):
            print(own_fault(error), end="", file=sys.stderr)


def watch(folder: Path) -> tuple[int, int, int]:
    """Begins a process that ends all answers when this one has ended, however it ends, and takes the folder away.

    This one has one end of a pipe; the other can be read when it has ended. Answers are in the group of the process.
    """
    ended, alive = os.pipe()
    if watcher := os.fork():
        return ended, alive, watcher
    os.setpgid(0, 0)
    for number in SIGNALS:
        signal.signal(number, signal.SIG_IGN)
    os.close(alive)
    os.dup2(ended, 0)
    os.closerange(1, 3)
    os.read(0, 1)
    os.killpg(0, signal.SIGTERM)
    time.sleep(0.3)
    shutil.rmtree(folder, ignore_errors=True)
    os._exit(0)
