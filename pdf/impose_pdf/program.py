"""The program: reads pages, has impose lay them out, makes the sheets, and writes OUTFILE."""

import os
import resource
import shutil
import signal
import subprocess
import warnings
from collections.abc import Callable
from contextlib import suppress
from typing import TYPE_CHECKING

from impose_pdf import words as said
from impose_pdf.early import plainer
from impose_pdf.plan import Imposer, cannot_run
from impose_pdf.usage import UNBOOKLET, USAGE
from impose_pdf.wording import as_ours, help_of
from impose_pdf.words import WITH_WORD, Refusal, Request, cause_of, refusal, shown

if TYPE_CHECKING:
    from impose_pdf.extras import Extras

A4 = 595.0, 842.0
ENDINGS = (".pdf", ".png", ".jpg", ".jpeg")  # of words that name files
MOST_OPEN = 65_536  # files: INFILEs stay open


def imposer(here: str) -> str:
    """The program impose: what IMPOSE names, or the one beside this program, or the one on the PATH."""
    beside = os.path.join(here, "impose")
    named = os.environ.get("IMPOSE") or (beside if os.access(beside, os.X_OK) else shutil.which("impose"))
    if not named:
        raise refusal(3, "impose is missing: ./install in its sources installs it")
    return named


def put(text: bytes) -> None:
    """Writes to standard output."""
    try:
        with open(1, "wb", closefd=False) as stream:
            stream.write(text)
    except BrokenPipeError:
        raise Refusal(3, "") from None  # a reader that leaves knows why
    except OSError as error:
        raise refusal(3, f"cannot write to standard output: {cause_of(error)}") from None


def say(text: str) -> None:
    """Writes to standard error, if it takes anything."""
    try:
        os.write(2, text.encode(errors="backslashreplace"))
    except OSError:
        pass


def main(words: list[str], here: str) -> int:
    """Runs the program, and gives its exit status."""
    if signal.getsignal(signal.SIGINT) != signal.SIG_IGN:
        signal.signal(signal.SIGINT, signal.SIG_DFL)
    warnings.simplefilter("ignore")  # of libraries, for programmers
    open_more()
    return status_of(lambda: run(words, here))


def status_of(work: Callable[[], None]) -> int:
    """Does what is to be done, says what goes wrong, and gives the exit status for it."""
    try:
        work()
    except Exception as error:
        refused = as_refusal(error)
        say(str(refused))
        return refused.status
    return 0


def as_refusal(error: Exception) -> Refusal:
    """What a failure ends a run with."""
    if isinstance(error, Refusal):
        return error
    if isinstance(error, MemoryError):
        return refusal(3, "out of memory")
    if isinstance(error, OSError):
        name = f"{shown(error.filename)}: " if isinstance(error.filename, str) else ""
        return refusal(3, f"{name}{cause_of(error)}")
    return Refusal(3, said.own_fault(error))  # a fault of this program


def not_loaded(error: ImportError) -> Refusal:
    """What a library ends a run with that can't be loaded."""
    if isinstance(error, ModuleNotFoundError):
        return refusal(3, f"{error.name} is missing: install python3-pikepdf")
    return refusal(3, f"out of memory, or python3-pikepdf is broken: {error}")


def open_more() -> None:
    """Lets more files be open, if that is allowed."""
    with suppress(OSError, ValueError):
        now, most = resource.getrlimit(resource.RLIMIT_NOFILE)
        resource.setrlimit(resource.RLIMIT_NOFILE, (max(now, min(most, MOST_OPEN)), most))


def run(words: list[str], here: str) -> None:
    """Does what the words ask for."""
    if not words:
        raise Refusal(2, USAGE)
    if words[0] in ("-h", "--help") or words == ["help"]:
        return put(USAGE.encode())
    words = plainer(words)
    request = said.read(words)
    if words == ["help", "unbooklet"] or "--unbooklet" in request.own and "--help" in request.options:
        return put(UNBOOKLET.encode())
    if words[0] in ("help", "-V", "--version") or "--help" in request.options:
        return put(helped(words, imposer(here)))
    if not request.infiles or not (request.outfile or request.looks or request.is_each):
        look_at_words(request, imposer(here))
        if request.infiles:
            raise refusal(2, f"OUTFILE is missing after {shown(request.infiles[0][0])}")
        raise refusal(2, said.WANTED)
    try:
        import pikepdf  # noqa: F401
    except ImportError as error:
        raise not_loaded(error) from None
    (impose_each if request.is_each else impose)(request, imposer(here))


def impose_each(request: Request, program: str) -> None:
    """Puts the pages of each INFILE on sheets of its own."""
    from impose_pdf import many

    look_at_words(request, program)  # once for all
    extras_of(request)
    many.run(many.parted(request), lambda one: status_of(lambda: impose(one, program)), say)


def extras_of(request: Request) -> "Extras | None":
    """What is asked for that impose doesn't do, if there is anything."""
    has_blanks = any("blank" in ranges for _, ranges in request.infiles)
    if not (request.own or has_blanks or "--marks" in request.options):
        return None
    from impose_pdf.extras import Extras

    return Extras(request)


def helped(words: list[str], program: str) -> bytes:
    """The version, or impose's help on a command."""
    try:
        done = subprocess.run([program, *words], capture_output=True, text=True, errors="replace")
    except OSError as error:
        raise cannot_run(program, error) from None
    if done.returncode:
        raise Refusal(min(done.returncode % 256, 3), as_ours(done.stderr))
    if words[0] in ("-V", "--version"):
        from impose_pdf.version import version

        return version(done.stdout).encode()
    return help_of(done.stdout).encode()


def look_at_words(request: Request, program: str) -> None:
    """Refuses mistakes among impose's words, which may be why other words were taken for files."""
    if "--preview" in request.options:
        return  # it would be drawn
    try:
        Imposer(program, request, [A4], A4).run()
    except Refusal as refused:
        if refused.status == 2 or is_file_taken_for_word(request):
            raise


def is_file_taken_for_word(request: Request) -> bool:
    """Whether the word of a command was forgotten, so that the first of two files was taken for it."""
    if request.command not in WITH_WORD or len(request.infiles) != 1 or request.outfile:
        return False
    word = request.words[-1]
    return os.path.exists(word) or word.lower().endswith(ENDINGS)


def impose(request: Request, program: str) -> None:
    """Puts the pages of INFILEs on sheets."""
    from impose_pdf.files import Outfile, check_preview, take_last
    from impose_pdf.job import Job

    extras = extras_of(request)
    take_last(request)
    check_preview(request)
    outfile = None if request.looks else Outfile(request.outfile)
    try:
        job = Job(request, extras)
    except Refusal:
        look_at_words(request, program)
        raise
    job.measure(program)
    if outfile is None:
        put(job.look())
    else:
        job.lay()
        outfile.check_owner(request)
        job.write(outfile)
        if "--quiet" not in request.options:
            say(outfile.warning())
            say(job.lost())
    say(job.told())
