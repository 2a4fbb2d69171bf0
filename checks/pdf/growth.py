"""How much more work a run has for documents that are twice as large: calls of Python are counted, as seconds vary."""

from __future__ import annotations

import re
from dataclasses import replace

from .cases import Document, Run, ran

# As the program ends, it says how many functions it has called.
COUNTING = """import os, sys
calls, end = 0, os._exit
def count(frame, event, thing):
 global calls
 calls += event in ("call", "c_call")
def told(status):
 sys.setprofile(None)
 os.write(2, b"%d calls" % calls + bytes([10]))
 end(status)
os._exit = told
sys.setprofile(count)
"""


def grown(document: Document, times: int) -> Document:
    """A document with so many times what is said to be hostile in it."""

    def larger(line: re.Match[str]) -> str:
        return f"{line[1]} {times * int(line[2])}"

    return replace(document, lines=[re.sub(r"^(hostile \S+) (\d+)$", larger, line) for line in document.lines])


def calls(run: Run, times: int) -> int:
    """How many calls a run has with documents that are so many times as large."""
    documents = {name: grown(document, times) for name, document in run.case.documents.items()}
    case = replace(run.case, documents=documents, settings=[*run.case.settings, ["python", COUNTING]])
    folder = run.folder.parent / f"times{times}"
    folder.mkdir()
    found = re.search(r"^(\d+) calls$", ran(case, run.programs, folder).error, re.MULTILINE)
    return int(found[1]) if found else 0


def growth(run: Run) -> float:
    """How much more calls are added from twice to four times the size than from once to twice: 2 if they are linear."""
    once, twice, four_times = (calls(run, times) for times in (1, 2, 4))
    return (four_times - twice) / max(twice - once, 1)
