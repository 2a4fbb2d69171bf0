"""The command line: which words are impose's, which name files, and what is said of a mistake."""

import os
import re
import shlex
import traceback
from dataclasses import dataclass, field

WANTED = "COMMAND, INFILE and OUTFILE are wanted; write: impose-pdf booklet in.pdf out.pdf"

# Commands of impose that have a word of their own before the files, and its options that have a value.
WITH_WORD = {"nup", "cards", "stack", "notes", "poster", "select", "spec"}
WITH_VALUE = {
    *("--border", "--creep", "--gap", "--margin", "--marks", "--numbers", "--numbers-from", "--order", "--overlap"),
    *("--pages", "--paper", "--preview", "--scale", "--sheet", "--signature", "--skip", "--trim", "--turn", "--turned"),
}
OWN = {  # options with a value that impose doesn't have
    *("--bleed", "--box", "--each", "--over", "--password", "--stamp", "--suffix", "--text", "--under"),
}
OWN_ALONE = {"--crop", "--each-right"}  # and without one, but perhaps after an equals sign
OF_UNBOOKLET = {"--rtl", "--signature"}  # options of this command
REPEATED = {"--password", "--text", "--turn"}  # options that may come again
OWN_MARKS = ("registration", "bars", "slug")
LOOKS = ("--plan", "--preview", "--print-spec")
LETTERS = {"p": "--paper", "q": "--quiet", "h": "--help", "V": "--version"}

MOST_SHOWN = 100  # signs of a name, as in impose's messages
QUOTED = "\\'"  # with a meaning of their own between the quotes of $'..'
OPTION = re.compile("-[^0-9.]")  # the beginning of a word that is no value; one below zero is for impose to refuse
TRACE = "IMPOSE_PDF_TRACE"  # the variable by which faults show where they are
PAGE = "_?[0-9]{1,9}"
ITEM = f"({PAGE}(-({PAGE})?)?|blank)"
RANGES = re.compile(f"{ITEM}(,{ITEM})*")
BLANK = -1  # a page of RANGES that is none


class Refusal(Exception):
    """What ends the program: an exit status, and what is said on standard error."""

    def __init__(self, status: int, text: str):
        super().__init__(text)
        self.status = status


def refusal(status: int, line: str) -> Refusal:
    """A refusal in a line of our own."""
    return Refusal(status, told(line))


def told(line: str) -> str:
    """A line of our own, from whatever text: it is one line, without control characters."""
    return f"impose-pdf: {plain(line)}\n"


def cause_of(error: OSError) -> str:
    """What the system says of a failure."""
    return (error.strerror or str(error)).lower()


def way_to(error: Exception) -> str:
    """The lines of the program on the way to a failure, if they are asked for."""
    lines = "".join(traceback.format_exception(error)).splitlines() if os.environ.get(TRACE) else []
    return "".join(f"{plain(line)}\n" for line in lines)


def own_fault(error: Exception) -> str:
    """What is said of a fault of this program: where it is, and all of the way there if that is asked for."""
    last = traceback.extract_tb(error.__traceback__)[-1]
    place = f"{type(error).__name__}: {error} (line {last.lineno} of {os.path.basename(last.filename)})"
    ask = f"please report it, with what it says after {TRACE}=1"
    return way_to(error) + told(f"a fault of impose-pdf itself, {place}; {ask}")


@dataclass
class Request:
    """A command line, read: impose's words without files, its options with their values, and the files."""

    command: str
    words: list[str] = field(default_factory=list)
    options: dict[str, str] = field(default_factory=dict)
    infiles: list[tuple[str, str]] = field(default_factory=list)  # a name, and its RANGES or ''
    outfile: str = ""
    replaces: bool = False
    own: dict[str, list[str]] = field(default_factory=dict)  # options that impose doesn't have, and their values
    lacks_word: bool = False  # that a command has before its files

    @property
    def looks(self) -> bool:
        """Whether a text or a drawing is asked for in place of sheets."""
        return any(option in self.options for option in LOOKS)

    @property
    def is_each(self) -> bool:
        """Whether each INFILE has an OUTFILE of its own."""
        return "--each" in self.own or "--suffix" in self.own


def shown(name: str) -> str:
    """A name as a shell takes it, without control characters."""
    if name == "-":
        return "standard input"
    short, rest = (name, "") if len(name) <= MOST_SHOWN else (name[:MOST_SHOWN], "..")
    if short.isprintable():
        return shlex.quote(short) + rest
    return f"$'{''.join(by_bytes(sign) if sign in QUOTED else plain(sign) for sign in short)}'{rest}"


def plain(text: str) -> str:
    """A text without control characters, which are shown by their bytes."""
    return "".join(sign if sign.isprintable() else by_bytes(sign) for sign in text)


def by_bytes(sign: str) -> str:
    """A sign by its bytes, as a string of the shell's has them. Surrogates are bytes of names, or are a PDF's."""
    errors = "surrogateescape" if "\udc80" <= sign <= "\udcff" else "surrogatepass"
    return "".join(f"\\x{byte:02x}" for byte in sign.encode(errors=errors))


def read(words: list[str]) -> Request:
    """The request that a command line makes. Words that are wrong for impose are left to it."""
    request, rest = Request(words[0]), iter(words[1:])
    if words[0] == "unbooklet":  # which a poster of two columns does
        request, rest = Request("poster", own={"--unbooklet": []}), iter(["2x1", *words[1:]])
    operands: list[str] = []
    for word in rest:
        if word == "--":
            operands += rest
        elif word == "-" or not word.startswith("-"):
            operands.append(word)
        elif word == "--replace":
            request.replaces = True
        else:
            name, value, is_open = option_of(word)
            kept = [word]
            if is_open:
                value = next(rest, "--")
                if OPTION.match(value) and (name != "--suffix" or value.startswith("--")):
                    raise refusal(2, f"{shown(word)} lacks its value")
                kept.append(value)
            if name in request.own and name not in REPEATED:
                raise refusal(2, f"{name} is given twice: leave one of them out")
            if "=" in word and (name == "--each-right" or name == "--rtl" and "--unbooklet" in request.own):
                raise refusal(2, f"{name} has no value: leave out the equals sign and what comes after it")
            if name == "--marks" and (own := [mark for mark in value.split(",") if mark in OWN_MARKS]):
                value = ",".join(mark for mark in value.split(",") if mark not in OWN_MARKS)
                request.own[name], kept = own, [f"--marks={value}"]
                if not value:
                    continue
            if name in OWN | OWN_ALONE or name == "--turn" and "=" in value:
                request.own.setdefault(name, []).append(value)
                continue
            request.options[name] = value
            if "--unbooklet" in request.own and name in OF_UNBOOKLET:
                continue
            request.words += kept
            if word.startswith("-q"):
                request.options["--quiet"] = ""  # also in -qp a4
    request.lacks_word = request.command in WITH_WORD and not operands
    if request.command in WITH_WORD and operands:
        # Behind the options, since it may begin with a dash.
        request.words += ["--", operands.pop(0)] if operands[0].startswith("-") else [operands.pop(0)]
    name_files(request, operands)
    return request


def option_of(word: str) -> tuple[str, str, bool]:
    """An option's name, its value as far as it is in the word, and whether the next word is its value."""
    if word.startswith("--"):
        name, sign, value = word.partition("=")
        return name, value, name in WITH_VALUE | OWN and not sign
    letter, rest = word[1], word[2:]
    while letter == "q" and rest:
        letter, rest = rest[0], rest[1:]
    return LETTERS.get(letter, word), rest, letter == "p" and not rest


def name_files(request: Request, names: list[str]) -> None:
    """Takes the words that name files, each with the RANGES after it. The last is OUTFILE, which a look needs not."""
    if "" in names:
        raise refusal(2, "INFILE and OUTFILE have names, or are -")
    files = request.infiles
    for name in names:
        if files and not files[-1][1] and RANGES.fullmatch(name):
            files[-1] = files[-1][0], name
        else:
            files.append((name, ""))
    if request.is_each:
        return
    if files and files[-1][1] and not request.looks:
        raise refusal(
            2, f"OUTFILE is missing after {shown(files[-1][0])} {files[-1][1]}; ./{files[-1][1]} names a file"
        )
    if len(files) > 1 and not files[-1][1]:
        request.outfile = files.pop()[0]


def pages_of(ranges: str, count: int, name: str) -> list[int]:
    """The pages, from 0, that RANGES choose among so many of a file."""
    chosen: list[int] = []
    for item in ranges.split(",") if ranges else ():
        if item == "blank":
            chosen.append(BLANK)
            continue
        first, dash, last = item.partition("-")
        begin = place(first, count)
        end = place(last, count) if last else count if dash else begin
        if not (1 <= begin <= count and 1 <= end <= count):
            raise refusal(1, f"{shown(name)} has pages 1 to {count} only, and {item} is asked for")
        step = 1 if begin <= end else -1
        chosen += range(begin - 1, end - 1 + step, step)
    return chosen if ranges else list(range(count))


def place(word: str, count: int) -> int:
    """The page that a number means, or a number from the last page on."""
    return count + 1 - int(word[1:]) if word.startswith("_") else int(word)
