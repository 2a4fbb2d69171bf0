"""Wrong programs: each edit of mutants/impose_pdf is planted in a copy of pdf, and a case has to see it."""

from __future__ import annotations

import concurrent.futures
import itertools
import os
import shutil
import tempfile
from pathlib import Path

from .cases import ROOT, Case, Programs
from .running import all_cases, tried

EDITS = ROOT / "mutants/impose_pdf"
TABLE = EDITS / "seen.tsv"


def planted(edit: Path, folder: Path) -> str | None:
    """Plants an edit in a copy of the program, or says why it can't be."""
    file, old = "", ""
    for line in edit.read_text().splitlines():
        word, _, rest = line.partition(": ")
        if word == "file":
            file = rest
        elif word == "old":
            old = rest
        elif line.startswith("new:"):
            text = (folder / file).read_text()
            if text.count(old) != 1:
                return f"{text.count(old)} times in {file}: {old}"
            (folder / file).write_text(text.replace(old, rest))
    return None


def cases_for(edit: Path) -> list[Case]:
    """The cases that an edit names, or all of them."""
    named = [line.removeprefix("case: ") for line in edit.read_text().splitlines() if line.startswith("case: ")]
    cases = all_cases("")
    return [case for case in cases if case.name in named] or cases


def seen_by(edit: Path, programs: Programs) -> str:
    """The case that sees a wrong program, of those that its edit names, and what it finds."""
    with tempfile.TemporaryDirectory() as name:
        copy = Path(name) / "pdf"
        shutil.copytree(programs.impose_pdf.parent, copy, ignore=shutil.ignore_patterns("__pycache__"))
        if fault := planted(edit, copy):
            return f"it can't be planted: {fault}"
        wrong = Programs(copy / programs.impose_pdf.name, programs.impose)
        found = ((case, tried(case, wrong)) for case in cases_for(edit))
        seen = next((f"{case.file}: {case.name}: {faults[0]}" for case, faults in found if faults), "nothing")
        return seen[:160].replace(str(copy), "").replace("\t", " ")


def try_wrong(programs: Programs, names: list[str]) -> int:
    """Tries wrong programs, all or those named, and keeps in a table which cases saw each."""
    edits = [path for path in sorted(EDITS.glob("*.edit")) if not names or path.stem in names]
    table = dict(line.split("\t") for line in TABLE.read_text().splitlines()[1:]) if TABLE.is_file() else {}
    faults = 0
    with concurrent.futures.ProcessPoolExecutor(os.cpu_count()) as pool:
        found = dict(zip(edits, pool.map(seen_by, edits, itertools.repeat(programs))))
    for edit in edits:
        table[edit.stem] = found[edit]
        is_fault = table[edit.stem].startswith(("nothing", "it can't"))
        faults += is_fault
        print(f"{edit.stem}: {'NOT SEEN: ' * is_fault}{table[edit.stem]}", flush=True)
    kept = {path.stem for path in EDITS.glob("*.edit")}
    rows = [f"{name}\t{by}" for name, by in sorted(table.items()) if name in kept]
    TABLE.write_text("\n".join(["wrong program\tseen by", *rows]) + "\n")
    print(f"{len(edits)} wrong programs, {len(edits) - faults} seen, {faults} not")
    return 1 if faults or not edits else 0
