"""The recipes of the documents that begin with impose-pdf, as they are typed, in a folder with PDFs of their names."""

from __future__ import annotations

import html
import os
import re
import shlex
import subprocess
import tempfile
from pathlib import Path

from . import checks, images, reading
from .cases import ROOT, Case, Document, Programs, ran, tidied

# What the documents of the recipes are.
DOCUMENTS = {
    "in.pdf": ["page 595x842 times 12"],
    "one.pdf": ["page 595x842 times 5"],
    "two.pdf": ["page 595x842 times 3"],
    "fronts.pdf": ["page 595x842 times 6"],
    "backs.pdf": ["page 595x842 times 6"],
    "slides.pdf": ["page 842x595 times 12"],
    "both.pdf": ["page 595x842 times 12"],
    "spreads.pdf": ["page 842x595 times 6"],
    "mixed.pdf": ["page 595x842", "page 842x1191", "page 595x842"],
    "labels.pdf": ["page 189x72 times 30"],
    "tags.pdf": ["page 180x108 times 21"],
    "cards.pdf": ["page 257.953x172.913 times 12"],
    "book.pdf": ["page 595x842 times 12"],
    "scan.pdf": ["page 595x842 times 4"],
    "cover.pdf": ["page 595x842 times 2"],
    "text.pdf": ["page 595x842 times 6"],
    "letterhead.pdf": ["page 595x842"],
}


def told() -> list[str]:
    """The command lines."""
    found = []
    for name in ("docs/USING.md", "README.md", "docs/impose-pdf.1"):
        text = (ROOT / name).read_text().replace("\\-", "-")
        found += [line.replace("\\|", "|") for line in re.findall(r"`(impose-pdf (?:[^`\n]|\\\|)*\.pdf[^`\n]*)`", text)]
        found += re.findall(r"^(impose-pdf [^#\n]*?\.pdf[^#\n]*?)(?: +#.*)?$", text, flags=re.M)
    # examples/recipes makes the folder in which `*.pdf` are found.
    return list(dict.fromkeys(html.unescape(line.strip()) for line in found if "*.pdf" not in line))


def is_typed(line: str) -> bool:
    """Whether a shell has to read a line, or there is more on its sheets than impose says."""
    is_dressed = re.search(
        r"--(crop|suffix|text|stamp|under|each-right|turn \w+=)|,slug|unbooklet|\.pdf [\d,-]*blank", line
    )
    return bool(set("|;&<>*") & set(line)) or is_dressed is not None


def cases() -> list[Case]:
    """A case for each line; one without a pipe is looked at in full."""
    documents = {name: Document(lines, 1 + at % 13) for at, (name, lines) in enumerate(DOCUMENTS.items())}
    found = []
    for number, line in enumerate(told(), 1):
        case = Case("recipes", number, line, line, documents)
        is_plain = not is_typed(line)
        looks = checks.LOOKS & set(shlex.split(line)) if is_plain else set()
        if is_plain and not looks:
            # Words that a sheet or a paper cuts off are on no sheet.
            is_cut = {"poster", "spec", "--paper"} & set(shlex.split(line))
            case.wanted += [(word, "", []) for word in (["laid"] if is_cut else ["laid", "words"])]
        elif "--preview" not in looks:
            case.wanted = [("prints-as-impose", "", [])]
        found.append(case)
    return found


def tried(case: Case, programs: Programs) -> list[str]:
    """The faults of a recipe."""
    folder = Path(tempfile.mkdtemp())
    try:
        if "--preview" in case.command or is_typed(case.command):
            return typed(case, programs, folder)
        return checks.faults(ran(case, programs, folder))
    finally:
        tidied(folder)


def typed(case: Case, programs: Programs, folder: Path) -> list[str]:
    """The faults of a line with pipes, or that makes a picture: its status, and that each PDF it makes is sound."""
    for name, document in case.documents.items():
        if name in case.command:
            (folder / name).write_bytes(document.data)
    if "*.jpg" in case.command:
        for name in ("a.jpg", "b.jpg"):
            (folder / name).write_bytes(images.image(["size 192x96", "colour 255,0,0"], name))
    tools = folder / "bin"
    tools.mkdir()
    (tools / "impose-pdf").symlink_to(programs.impose_pdf)
    (tools / "lp").write_text("#!/bin/sh\ncat >printed.pdf\n")
    (tools / "lp").chmod(0o755)
    env = {**os.environ, "PATH": f"{tools}:{os.environ['PATH']}", "IMPOSE": str(programs.impose), "PAPERSIZE": "a4"}
    before = set(folder.glob("*"))
    words = ["bash", "-c", "set -o pipefail; " + case.command]
    run = subprocess.run(words, cwd=folder, env=env, capture_output=True, text=True, timeout=300)
    made = [path for path in folder.glob("*") if path not in before]
    faults = [f"status {run.returncode}: {run.stderr[-200:]}"] * (run.returncode != 0) + ["nothing is made"] * (
        not made
    )
    for path in made:
        if path.suffix == ".pdf":
            faults += [f"{path.name}: {fault}" for fault in [reading.complaint(path)] if fault]
    return faults
