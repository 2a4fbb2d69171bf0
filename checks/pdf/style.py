"""The form of the Python: black, isort, flake8 and mypy find nothing in it, and no module of the program is long."""

from __future__ import annotations

import os
import shutil
import subprocess
import tempfile
from pathlib import Path

ROOT = Path(__file__).resolve().parent.parent.parent
MOST_LINES = 220  # of a module
FILES = [
    "pdf",
    "checks/pdf",
    "checks/web",
    *(f"{folder}/impose-{name}" for folder in ("pdf", "checks") for name in ("pdf", "web")),
]
# E203: black puts a space before the colon of a slice.
TOOLS = [
    ["black", "--check", "--quiet", "--diff", "--config", "pdf/pyproject.toml", *FILES],
    ["isort", "--check-only", "--quiet", "--diff", "--settings-path", "pdf", *FILES],
    ["flake8", "--max-line-length", "120", "--extend-ignore", "E203", *FILES],
    ["mypy", "--config-file", "pdf/pyproject.toml", "pdf/impose_pdf", "pdf/impose_web"],
    ["mypy", "--config-file", "pdf/pyproject.toml", "checks/pdf", "checks/web"],
]


def faults_of(words: list[str]) -> list[str]:
    """What a tool finds."""
    with tempfile.TemporaryDirectory() as cache:
        env = {**os.environ, "MYPY_CACHE_DIR": cache}
        run = subprocess.run(words, cwd=ROOT, env=env, capture_output=True, text=True)
    return [f"{words[0]}: {(run.stdout + run.stderr).strip()}"] if run.returncode else []


def long_modules(folder: Path) -> list[str]:
    """The modules that are to be split."""
    lengths = {path: path.read_text().count("\n") for path in sorted(folder.glob("*.py"))}
    return [f"{path.name} has {count} lines" for path, count in lengths.items() if count > MOST_LINES]


def check_style() -> int:
    """Prints what the tools that are installed find, and what is long."""
    missing = {words[0] for words in TOOLS if not shutil.which(words[0])}
    faults = long_modules(ROOT / "pdf/impose_pdf") + long_modules(ROOT / "pdf/impose_web")
    faults += [fault for words in TOOLS if words[0] not in missing for fault in faults_of(words)]
    print("".join(f"{fault}\n" for fault in faults), end="")
    print(f"{len(faults)} of {len(TOOLS) + 1} checks of style fail; missing: {', '.join(sorted(missing)) or 'none'}")
    return 1 if faults else 0
