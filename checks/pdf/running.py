"""Runs cases side by side, and prints what differs."""

from __future__ import annotations

import concurrent.futures
import itertools
import os
import subprocess
import tempfile
from pathlib import Path

from . import checks, recipes
from .cases import PDFS, Case, Programs, ran, read, tidied

Result = tuple[Case, list[str]]


def all_cases(only: str) -> list[Case]:
    cases = [case for path in sorted(PDFS.glob("*.cases")) for case in read(path)] + recipes.cases()
    return [case for case in cases if only in f"{case.file}: {case.name}"]


def can_be_run(case: Case) -> bool:
    """Whether this machine lets a case make its full device, and has the file that the case needs."""
    if needed := case.setting("needs"):
        return Path(needed[0]).exists()
    return not case.setting("room") or subprocess.run(["unshare", "-rm", "true"], capture_output=True).returncode == 0


def tried(case: Case, programs: Programs) -> list[str]:
    """The faults of a case."""
    if case.file == "recipes":
        return recipes.tried(case, programs)
    folder = Path(tempfile.mkdtemp())
    try:
        return checks.faults(ran(case, programs, folder))
    except Exception as fault:  # noqa: BLE001: any fault of a case is told with its name
        return [f"{type(fault).__name__}: {fault}"]
    finally:
        tidied(folder)


def results(cases: list[Case], programs: Programs) -> list[Result]:
    """The faults of each case. Cases run in processes, because pikepdf may abort where several threads use it."""
    with concurrent.futures.ProcessPoolExecutor(os.cpu_count()) as pool:
        return list(zip(cases, pool.map(tried, cases, itertools.repeat(programs))))


def run_all(programs: Programs, only: str) -> int:
    """Runs all cases whose file or name has a text, and says how many passed."""
    cases = all_cases(only)
    able = [case for case in cases if can_be_run(case)]
    found = results(able, programs)
    for case, faults in found:
        if faults:
            print(f"{case.file}:{case.line}: {case.name}: $ {case.command}")
            print("".join(f"  {fault}\n" for fault in faults), end="")
    failed = sum(bool(faults) for _, faults in found)
    print(f"{len(found) - failed} passed, {failed} failed, {len(cases) - len(able)} skipped")
    return 1 if failed or not found else 0
