"""Which field of a page a refusal is about, by what it says."""

import re
from dataclasses import dataclass

NAMED = re.compile(r"--([a-z-]+)")


@dataclass
class Asked:
    """What was chosen: a command, the kind of its word if it has one, its options, those of them given, and files."""

    command: str
    word: str
    options: list[str]
    given: list[str]
    files: list[str]


def plain(text: str, program: str) -> str:
    """A refusal or a report for a page: no program's name before each line, and no path of impose."""
    return re.sub(r"^impose(-pdf)?: ", "", text.replace(program, "impose"), flags=re.MULTILINE).strip()


def field_of(text: str, asked: Asked) -> tuple[str, str]:
    """What a refusal is about: an option or 'word', and '', or '' and a file, or '' twice where nothing is found."""
    named = [name for name in NAMED.findall(text) if name in asked.options]
    for name in [name for name in named if name in asked.given] + named[:1]:
        return name, ""
    for name in asked.files:
        if name in text:
            return "", name
    if asked.word and (f"after {asked.command}" in text or asked.word == "ranges" and "range" in text):
        return "word", ""
    if "page ranges" in text and "pages" in asked.options:
        return "pages", ""
    only = asked.given[0] if len(asked.given) == 1 and not asked.word else ""
    return mentioned(text, asked.given) or only or mentioned(text, asked.options), ""


def mentioned(text: str, names: list[str]) -> str:
    """The first of these options that a text has in words, as 'gaps' is of gap."""
    places = {name: re.search(rf"\b{name.replace('-', ' ').removesuffix('s')}s?\b", text) for name in names}
    found = {name: place.start() for name, place in places.items() if place}
    return min(found, key=lambda name: found[name], default="")
