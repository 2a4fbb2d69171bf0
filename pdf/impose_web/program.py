"""The program: begins a server for a page, opens the page, and ends with it."""

import os
import re
import shutil
import signal
import subprocess
from pathlib import Path

from impose_pdf import program
from impose_pdf.words import refusal, shown

USAGE = """\
Shows the pages of PDFs on sheets of paper in the browser, while a layout is chosen, and saves or prints the sheets

Usage: impose-web [--no-browser] [FILE]..

FILEs are PDFs, JPEGs or PNGs; the page takes others too. The page is served by this machine to this
machine alone, at an address that works once. The program ends ten minutes after the page was closed,
or by Ctrl-C.

  --no-browser   print the address of the page, and open no browser
  -h, --help     print this text
  -V, --version  print the version
"""


def main(words: list[str], here: str) -> int:
    """Runs the program, and gives its exit status."""
    if signal.getsignal(signal.SIGINT) != signal.SIG_IGN:
        signal.signal(signal.SIGINT, signal.SIG_DFL)
    try:
        run(words, here)
    except Exception as error:
        refused = program.as_refusal(error)
        program.say(re.sub("^impose-pdf: ", "impose-web: ", str(refused), flags=re.MULTILINE))
        return refused.status
    return 0


def run(words: list[str], here: str) -> None:
    """Does what the words ask for."""
    if {"-h", "--help"} & set(words):
        return program.put(USAGE.encode())
    imposer = program.imposer(here)
    if {"-V", "--version"} & set(words):
        of_pdf = program.helped(["--version"], imposer).decode()
        return program.put(of_pdf.replace("impose-pdf", "impose-web", 1).encode())
    names = words[: words.index("--")] if "--" in words else words
    if unknown := [word for word in names if word.startswith("-") and word != "--no-browser"]:
        raise refusal(2, f"{shown(unknown[0])} is no option of impose-web: impose-web --help lists them")
    after = len(names) + 1
    files = [word for word in names if not word.startswith("-")] + words[after:]
    serve([Path(file) for file in files], imposer, "--no-browser" not in names)


def serve(files: list[Path], imposer: str, opens: bool) -> None:
    """Serves a page."""
    if not shutil.which("pdftoppm"):
        raise refusal(3, "pdftoppm is missing: install poppler-utils")
    for file in files:
        if file.exists() and not file.is_file():
            raise refusal(3, f"cannot read {shown(str(file))}: it is no file")
        file.open("rb").close()
    mask = os.umask(0o077)
    try:
        from impose_web.server import Web
    except ImportError as error:
        raise program.not_loaded(error) from None
    server = Web([file.absolute() for file in files], imposer)
    address = f"http://{server.place}/{server.key}/"
    if opens and shutil.which("xdg-open"):
        subprocess.Popen(["xdg-open", address], stdin=subprocess.DEVNULL, start_new_session=True, umask=mask)
    else:
        program.put(f"Open {address}\n".encode())
    program.open_more()
    server.serve()
