"""What impose says and prints, in the words of impose-pdf."""

import re

from impose_pdf.usage import OPTIONS

FILES = "INFILE [RANGES].. OUTFILE"
OWN = (
    (r"\Aimpose: ", "impose-pdf: "),
    (r"\bimpose (.*)in\.ps out\.ps", r"impose-pdf \1in.pdf out.pdf"),
    (r"^Usage: impose <COMMAND>$", f"Usage: impose-pdf COMMAND [OPTIONS] {FILES}"),
    (r"^Usage: impose (.*?)( \[INFILE\] \[OUTFILE\])?$", rf"Usage: impose-pdf \1 {FILES}"),
    (r"^(Usage: .*)--unguarded", r"\1[OPTIONS]"),
)
# Options of impose that are about PostScript, and its words for files, in its help on a command.
NOT_OURS = re.compile(r" +--(unguarded|print-spec) ")
ARGUMENTS = {
    "  [INFILE] ": """\
  INFILE     A PDF, a JPEG or a PNG; - is standard input. Others may follow it
  [RANGES]   The pages to take of the INFILE before: 7, 3-9, 9-3, 5- or _1 (the last), with commas between them""",
    "  [OUTFILE]": "  OUTFILE    The PDF of the sheets; - is standard output",
}


def as_ours(text: str) -> str:
    """A message of impose as one of impose-pdf."""
    for pattern, ours in OWN:
        text = re.sub(pattern, ours, text, flags=re.MULTILINE)
    return text


def help_of(text: str) -> str:
    """The help of impose on a command as that of impose-pdf."""
    lines = [line for line in as_ours(text).splitlines() if not NOT_OURS.match(line)]
    options = f"\n{OPTIONS}" if any(line.startswith("Options:") for line in lines) else ""
    return "".join(f"{ARGUMENTS.get(line[:11], line)}\n" for line in lines) + options


def reported(report: str, is_one_size: bool, taken: int, pages: int) -> str:
    """impose's report, without what is of the stub alone, whose pages are those that RANGES take."""
    report = re.sub(r", bytes \d+", "", report)
    if taken < pages:
        leaves = r"(?:\d+ lea\w+ of paper, [^;]*; )?"
        report = re.sub(rf"^(impose: {leaves}pages )\d+(?=,)", rf"\g<1>{taken}", report)
        report = re.sub(rf"^(impose: {leaves}pages \d+)( of \d+)?", rf"\1 of {pages}", report)
    return report.replace(", by its %%DocumentMedia", "" if is_one_size else ", as most are")
