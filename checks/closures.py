"""Definitions on which a clause rests, and the order in which to read them, for `checks/promises --closure`."""

from __future__ import annotations

import functools
import itertools
import re
from collections import defaultdict
from collections.abc import Collection, Iterable, Iterator
from dataclasses import dataclass, field
from pathlib import Path

ROOT = Path(__file__).resolve().parent.parent
CRATES = [line.split(":")[0] for line in (ROOT / "crates.txt").read_text().splitlines() if re.match(r"\w+:", line)]
WORD = re.compile(r"[A-Za-z][\w'-]*(?:\.[A-Za-z][\w'-]*)?")
HEAD = re.compile(r"(?:abbrev |unfoldable )*(?:pub )?(?:record |data )?([A-Za-z◌]\S*)(?= .*(?::|where))")
Place = tuple[Path, str]
MOST_HELPING = 12  # lines of an example's own words

# What a reader can leave out, each with the definitions through which a request comes to it.
TOPICS = {
    "booklets": "binding_in binding_setting_of creeping_sheets last_at_back_if in_signatures fold_marks outer_cut_marks",
    "borders": "border_within border_text",
    "cards": "card_sheets begun_row",
    "comments": "given_by_document own_paper usual_in",
    "common-scale": "at_one_scale",
    "guard": "guarded",
    "inner": "on_fronts at_fold swapped_from swapped_room_in",
    "marks": "strokes_in mark_lines",
    "notes": "notes_in note_lines",
    "numbers": "page_numbers with_page_numbers",
    "posters": "poster_of row_tiles tile_marks tile_room",
    "ranges": "ranges_of row_named",
    "reported-papers": "reporting",
    "select": "selected selected_sheet merge_near_sizes kinds kind_paper",
    "spec": "IsTextOfSpec TakesNamed by_spec",
    "stacks": "stack_sheets duplex_sheets",
    "turn": "turned_sheet turned_paper turns_of",
    "zines": "zine_in zine_sheets",
}


@dataclass
class Definition:
    """A definition: its line, the heading of its section, the comment above it, and its text."""

    line: int
    heading: str
    comment: list[str]
    text: list[str] = field(default_factory=list)


@functools.cache
def definitions(file: Path) -> dict[str, Definition]:
    """Every definition at the left edge of a file of specs or proofs, private ones too."""
    found: dict[str, Definition] = {}
    name, heading, comment = None, "", list[str]()
    for at, line in enumerate(file.read_text().splitlines() if file.is_file() else []):
        if start := HEAD.match(line):
            name = start[1] if start[1] not in ("use", "module", "mod") else None
            if name and name not in found:
                found[name] = Definition(at + 1, heading, comment)
        if not line.strip():
            name = None
        elif name:
            found[name].text.append(line)
        comment = [*comment, line] if line.startswith("--") else []
        heading = line if line.startswith("-- ----") else heading
    return found


def specs(crate: str, path: str) -> Path:
    return ROOT / "crates" / crate / "specs" / f"{path.replace('.', '/')}.antt"


@functools.cache
def imports(file: Path) -> tuple[dict[str, Place], dict[str, Path]]:
    """What a file calls by which name: names, each with its place, and modules."""
    names, modules = dict[str, Place](), dict[str, Path]()
    text = file.read_text()
    for crate, path, row in re.findall(r"^ *(?:ghost |pub )?use Rattle\.(\w+)\.specs\.([\w.]+)\.\{(.*?)\};?$", text, flags=re.M | re.S):
        for one in row.split(","):
            name, _, local = one.strip().partition(" as ")
            names[local or name] = (specs(crate, path), name)
    for crate, path, local in re.findall(r"^ *(?:ghost )?use Rattle\.(\w+)\.specs\.([\w.]+) as (\w+);?$", text, flags=re.M):
        modules[local] = specs(crate, path)
    return names, modules


def home(place: Place) -> Place:
    """Where a name is defined that a file of ours may only hand on."""
    file, name = place
    handed_on = imports(file)[0].get(name) if file.is_file() and name not in definitions(file) else None
    return home(handed_on) if handed_on else place


def cited(text: str, file: Path) -> set[Place]:
    """The places that a text of this file names, also those of the kit and of types of the code."""
    names, modules = imports(file)
    own = definitions(file) if file.suffix == ".antt" else {}
    words = set(WORD.findall(text))
    found = set()
    for word in words | {word.split(".")[0] for word in words}:
        head, _, tail = word.partition(".")
        if tail and head in modules:
            found.add((modules[head], tail))
        elif word in names:
            found.add(home(names[word]))
        elif word in own:
            found.add((file, word))
    return found


def below(place: Place) -> set[Place]:
    """What a definition of our own crates names."""
    return cited("\n".join(definitions(place[0])[place[1]].text), place[0])


def is_ours(place: Place) -> bool:
    return place[1] in definitions(place[0])


def rests_on(text: str, file: Path, without: Collection[str] = ()) -> set[Place]:
    """The definitions of our own crates that a text of this file names, directly or by way of others, without those of these names."""
    reached, todo = set[Place](), [*cited(text, file)]
    while todo:
        place = todo.pop()
        if place not in reached and is_ours(place) and place[1] not in without:
            reached.add(place)
            todo += below(place)
    return reached


def left_out(topics: Iterable[str] | None) -> set[str]:
    """The definitions of these topics; a word that is none stands for itself."""
    return {word for one in topics or () for word in TOPICS.get(one, one).split()}


def unknown(topics: Iterable[str]) -> list[str]:
    """Those of their definitions that there are not."""
    return sorted(left_out(topics) - {name for file in ROOT.glob("crates/*/specs/**/*.antt") for name in definitions(file)})


def size(reached: Iterable[Place]) -> tuple[int, int, int]:
    """How many definitions there are, and how many lines, without comments, and files these have."""
    reached = set(reached)
    lines = [line for file, name in reached for line in definitions(file)[name].text if not line.lstrip().startswith("--")]
    return len(reached), len(lines), len({file for file, _ in reached})


def rank(file: Path) -> tuple[int, int]:
    """How late a file comes: crates in the order of crates.txt, and files in that of their Lib.antt."""
    crate = file.relative_to(ROOT / "crates").parts[0]
    return CRATES.index(crate), specs(crate, "Lib").read_text().find(f"pub mod {file.stem}\n")


def in_order(reached: set[Place]) -> Iterator[tuple[Path, list[str]]]:
    """Each file after all in which its words are used, the latest first, with its definitions in its own order."""
    names = defaultdict[Path, set[str]](set)
    for file, name in reached:
        names[file].add(name)
    used = {file: {other for name in names[file] for other, _ in below((file, name)) & reached} - {file} for file in names}
    while used:
        free = max(set(used) - set().union(*used.values()), key=rank)
        del used[free]
        yield free, [name for name in definitions(free) if name in names[free]]


def own_words(said: str, file: Path, name: str) -> set[str]:
    """The words of its own file that an example of this name needs."""
    found, todo = {name}, [said]
    while todo:
        for where, word in cited(todo.pop(), file):
            if where == file and word not in found:
                found.add(word)
                todo.append("\n".join(definitions(file)[word].text))
    return found - {name}


@functools.cache
def examples() -> dict[Place, list[tuple[frozenset[Place], Path, str]]]:
    """The worked examples that name a definition in their equation, each with all that it names, and with its own words in its text."""
    found = defaultdict[Place, list[tuple[frozenset[Place], Path, str]]](list)
    for file in sorted(ROOT.glob("crates/*/proofs/*Examples.antt")):
        for name, one in definitions(file).items():
            said = re.split(rf"\n(?:unfolding|{re.escape(name)})\b", "\n".join(one.text))[0]
            words = own_words(said, file, name)
            helpers = [line for word in sorted(words) for line in definitions(file)[word].text]
            told = frozenset(place for text in (said, *helpers) for place in cited(text, file) if is_ours(place) and place[0] != file)
            for place in told if "≡" in said and len(helpers) <= MOST_HELPING else ():
                found[place].append((told, file, "\n".join([*one.comment, said, *helpers])))
    return found


def example(place: Place, reached: set[Place]) -> str | None:
    """The worked example of a definition that names the fewest others, all of which are read too, of its own crate if that has one."""
    found = [one for one in examples().get(place, []) if one[0] <= reached]
    return min(found, key=lambda one: (place[0].parents[1] not in one[1].parents, len(one[0]), len(one[2])))[2] if found else None


def of_kit(reached: set[Place]) -> list[str]:
    """The words of the kit that definitions name, which aren't printed."""
    named = {place for one in reached for place in below(one) if place[0].relative_to(ROOT / "crates").parts[0] not in CRATES}
    return sorted(f"{name} ({file.relative_to(ROOT / 'crates').parts[0]})" for file, name in named if re.match(r"[A-Za-z]", name))


def types(reached: set[Place]) -> Iterator[tuple[Path, str]]:
    """The types of the code that definitions name: each with its file, and its text."""
    named = {file.relative_to(ROOT / "crates").with_suffix("").parts for one in reached for file, _ in below(one)}
    for crate, _, *path in sorted(parts for parts in named if parts[0] in CRATES and parts[2] == "declared"):
        *module, name = path[1:-1] if path[-1] == "TheVariants" else path[1:]
        source = ROOT / "crates" / crate / "src" / f"{'/'.join(module) or 'lib'}.rt"
        form = rf"^((?:///.*\n)*)(?:#\[.*\n)*(pub (?:struct|enum) {name}\b(?:.*;\n|(?:.*\n)+?}}\n))"
        text = re.search(form, source.read_text(), flags=re.M)
        yield source, "".join(text.groups()) if text else f"{name}\n"


def title(file: Path) -> str:
    """The name of a file, with the comment at its head."""
    head = re.match(r"((?:--.*\n)*)", file.read_text())
    return f"==== {file.relative_to(ROOT)}\n{head[1] if head else ''}"


def path(reached: set[Place]) -> Iterator[str]:
    """All that is to be read, in order."""
    for file, names in in_order(reached):
        yield title(file)
        for heading, section in itertools.groupby(names, key=lambda name: definitions(file)[name].heading):
            yield from [f"{heading}\n"] if heading else []
            for name in section:
                one = definitions(file)[name]
                shown = ["-- for example:", *said.splitlines()] if (said := example((file, name), reached)) else []
                yield "\n".join([*one.comment, *one.text, *(f"    {line}" for line in shown), ""])
    for source, texts in itertools.groupby(dict.fromkeys(types(reached)), key=lambda one: one[0]):
        yield f"==== {source.relative_to(ROOT)}\n"
        yield from (text for _, text in texts)
    yield f"==== words of the kit, which `rt lemma WORD` prints\n{', '.join(of_kit(reached))}"
