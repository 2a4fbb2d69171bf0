"""How many cases there are, without what they need."""

from __future__ import annotations

from pathlib import Path


def skipped(root: Path) -> int:
    """Says that all cases are skipped, which isn't a fault."""
    files = sorted((root / "cases/pdfs").glob("*.cases"))
    number = sum(line.startswith("$ ") for path in files for line in path.read_text().split("\n"))
    print("checks/impose-pdf needs python3-pikepdf, poppler-utils and qpdf")
    print(f"0 passed, 0 failed, {number} skipped")
    return 0
