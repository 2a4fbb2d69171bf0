"""The table of commands, options and papers, as impose prints it, and what a page says of them besides."""

import json
import re
import subprocess
from typing import Any

from impose_pdf.plan import cannot_run
from impose_pdf.words import refusal, shown

# Options that come first, in this order. All others are under 'more'.
FIRST = ("sheet", "margin", "gap", "signature", "scale", "duplex", "overlap", "numbers", "border", "rtl")
# Options that a page has other ways for, or no use.
LEFT_OUT = {"plan", "print-spec", "unguarded", "replace", "quiet", "help"}
# What the word of a command is at first. A command whose word isn't here is left out.
WORDS = {"nup": "4", "cards": "8", "stack": "2", "notes": "3", "poster": "2x2", "select": "1-"}
# What values may be: none names a file.
KINDS = {"flag", "choice", "count", "number", "length", "lengths", "paper", "ranges", "scale"}
DEFAULT = re.compile(r"(.*?)(?: \[default: (.*)\])?")  # of an option, at the end of its help


def table(program: str) -> dict[str, Any]:
    """The layouts with their options, and the papers with their sizes."""
    try:
        done = subprocess.run([program, "--options"], capture_output=True, stdin=subprocess.DEVNULL)
        printed = json.loads(done.stdout)
        layouts = [
            layout(row["name"], row["help"], row["arguments"]) for row in printed["commands"] if row["arguments"]
        ]
        return {"commands": [row for row in layouts if row], "papers": printed["papers"]}
    except OSError as error:
        raise cannot_run(program, error) from None
    except (ValueError, LookupError, TypeError):
        raise refusal(3, f"{shown(program)} prints no table of its options: impose-web needs a newer impose") from None


def layout(name: str, text: str, arguments: list[dict[str, str]]) -> dict[str, Any]:
    """A layout with its word, if it has one, and its options; or nothing."""
    words = [row for row in arguments if row["form"] == "required"]
    if words and name not in WORDS:
        return {}
    known = [row for row in arguments if row["form"] == "option" and row["name"] not in LEFT_OUT]
    options = [field(row) for row in known if row["kind"] in KINDS]
    word = {**field(words[0]), "first": WORDS[name]} if words else None
    return {"name": name, "help": text, "word": word, "options": options}


def field(row: dict[str, str]) -> dict[str, Any]:
    """An option as a field."""
    name, kind, choices = row["name"], row["kind"], row["choices"].split()
    text, default = DEFAULT.fullmatch(row["help"]).groups()  # type: ignore[union-attr]
    rank = FIRST.index(name) + 1 if name in FIRST else 0
    return {"name": name, "kind": kind, "choices": choices, "help": text, "default": default, "rank": rank}
