"""Runs checks one after another, and says which fail; plants wrong programs, and says which are seen."""

from __future__ import annotations

import shutil
import tempfile
import traceback
from collections.abc import Callable
from pathlib import Path

from pdf.wrong import planted

from .serving import ROOT, Begin

OF_SERVER = {"python3-pikepdf", "poppler-utils"}
EDITS = ROOT / "mutants/impose_web"
IN_BROWSER = (ROOT / "checks/web/pages.py").read_text().count("(begin: Begin) -> None:")


def checks(missing: list[str]) -> tuple[dict[str, Callable[[Begin], None]], int]:
    """The checks that can be run, by their names, and how many can't."""
    from .attacks import ATTACKS

    if OF_SERVER & set(missing):
        return {}, len(ATTACKS) + IN_BROWSER
    found = {check.__name__: check for check in ATTACKS}
    if missing:
        return found, IN_BROWSER
    from .pages import OF_PAGES

    return {**found, **{check.__name__: check for check in OF_PAGES}}, 0


def fault(check: Callable[[Begin], None], pdf: Path, impose: Path) -> str:
    """What a check finds, or nothing."""
    begin = Begin(pdf, impose)
    try:
        check(begin)
    except Exception as error:  # noqa: BLE001: any fault of a check is told with its name
        place = traceback.extract_tb(error.__traceback__)
        line = next((frame.lineno for frame in reversed(place) if frame.name == check.__name__), 0)
        return f"line {line}: {type(error).__name__}: {str(error)[:300]}"
    finally:
        begin.tidy()
    return ""


def run_all(impose: Path, only: str, missing: list[str]) -> int:
    """Runs all checks whose name has a text, and says how many passed."""
    able, skipped = checks(missing)
    chosen = {name: check for name, check in able.items() if only in name}
    faults = {name: fault(check, ROOT / "pdf", impose) for name, check in chosen.items()}
    for name, found in faults.items():
        if found:
            print(f"{name}: {found}")
    failed = sum(bool(found) for found in faults.values())
    if missing:
        print(f"skipped without {', '.join(missing)}: {'all' if not able else 'those in a browser'}")
    print(f"{len(faults) - failed} passed, {failed} failed, {skipped} skipped")
    return 1 if failed or (able and not chosen) else 0


def try_wrong(impose: Path, names: list[str], missing: list[str]) -> int:
    """Plants each wrong program in a copy of the program; the check that it names has to fail."""
    able, _ = checks(missing)
    edits = [edit for edit in sorted(EDITS.glob("*.edit")) if not names or edit.stem in names]
    counts = {"seen": 0, "NOT SEEN": 0, "skipped": 0}
    for edit in edits:
        named = next(line.removeprefix("case: ") for line in edit.read_text().splitlines() if line.startswith("case: "))
        with tempfile.TemporaryDirectory() as folder:
            copy = Path(folder) / "pdf"
            shutil.copytree(ROOT / "pdf", copy, ignore=shutil.ignore_patterns("__pycache__"))
            by = planted(edit, copy)
            found = fault(able[named], copy, impose) if named in able and not by else ""
        result = "NOT SEEN" if by or named in able and not found else "seen" if found else "skipped"
        counts[result] += 1
        print(f"{edit.stem}: {result}: {by or found or named}"[:170], flush=True)
    print(", ".join(f"{count} {result}" for result, count in counts.items()))
    return 1 if counts["NOT SEEN"] or not edits else 0
