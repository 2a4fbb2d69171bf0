"""The version: of the program, and of what it uses."""

import os
from contextlib import suppress
from importlib import metadata

from impose_pdf import __version__

BUILD = os.path.join(os.path.dirname(__file__), "../build")  # where ./install puts the version, with its commit


def version(of_impose: str) -> str:
    """The line of --version, from that of impose."""
    own, of_pikepdf = __version__, "no pikepdf"
    with suppress(OSError), open(BUILD) as file:
        own = file.read().strip()
    with suppress(metadata.PackageNotFoundError):
        of_pikepdf = f"pikepdf {metadata.version('pikepdf')}"
    return f"impose-pdf {own} ({of_impose.strip()}, {of_pikepdf})\n"
