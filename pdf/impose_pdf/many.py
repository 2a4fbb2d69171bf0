"""Many INFILEs, each with an OUTFILE of its own: each has a process, as many at a time as there are processors."""

import gc
import os
import signal
import tempfile
from collections.abc import Callable, Iterable
from contextlib import suppress
from dataclasses import replace
from importlib import import_module
from typing import IO, Any

from impose_pdf.words import Request, refusal, shown, told
from impose_pdf.writing import SIGNALS

ENDINGS = (".pdf", ".png", ".jpg", ".jpeg")  # of INFILEs, in place of which OUTFILEs have .pdf
LONGEST = 100  # signs of what is added to names
MOST_NAMED = 20  # INFILEs that one line names
CLEARED = "\r\x1b[K"  # a line of a terminal
# What a process works with is loaded before it begins.
MODULES = "files", "job"


def parted(request: Request) -> list[Request]:
    """A request for each INFILE."""
    if request.looks:
        raise refusal(2, "--each and --suffix are for sheets that are written: leave out --plan, or them")
    folder, suffix = request.own.get("--each", [""])[-1], request.own.get("--suffix", [""])[-1]
    if "--suffix" in request.own and (not suffix or "/" in suffix or len(suffix) > LONGEST):
        raise refusal(2, f"--suffix is added to names, as -booklet: 1 to {LONGEST} signs without a slash")
    if "--each" in request.own and not os.path.isdir(folder):
        raise refusal(3, f"cannot write into {shown(folder) or 'a folder without a name'}: no such folder")
    others = {name: values for name, values in request.own.items() if name not in ("--each", "--suffix")}
    requests = [
        replace(request, infiles=[(name, ranges)], outfile=outfile_of(name, folder, suffix), own=others)
        for name, ranges in request.infiles
    ]
    check_names(requests)
    return requests


def outfile_of(name: str, folder: str, suffix: str) -> str:
    """The name of an INFILE's OUTFILE, in a folder or beside it."""
    if name == "-":
        raise refusal(2, "with --each or --suffix each INFILE has a name, which standard input hasn't")
    own, last = os.path.split(name)
    stem, ending = os.path.splitext(last)
    return os.path.join(folder or own, f"{stem if ending.lower() in ENDINGS else last}{suffix}.pdf")


def identity(name: str) -> tuple[object, ...]:
    """What a file is known by, under whatever name; one that isn't there by its folder and name."""
    try:
        there = os.stat(name)
    except OSError:
        return (os.path.realpath(name),)
    return there.st_dev, there.st_ino


def check_names(requests: list[Request]) -> None:
    """Refuses an OUTFILE that another INFILE has too, and one that is read."""
    read = {identity(one.infiles[0][0]): one for one in requests}
    taken: dict[tuple[object, ...], Request] = {}
    for one in requests:
        (name, _), key = one.infiles[0], identity(one.outfile)
        if (other := taken.setdefault(key, one)) is not one:
            of_other = shown(other.infiles[0][0])
            raise refusal(2, f"{shown(one.outfile)} would be the OUTFILE of {of_other} and of {shown(name)}")
        if key in read and not (one.replaces and read[key].infiles[0][0] == name):
            cure = "name another folder or suffix" + ("" if read[key] is not one else ", or replace it by --replace")
            raise refusal(2, f"{shown(one.outfile)} is read, and would be written: {cure}")


class Worker:
    """A process that makes the sheets of one INFILE, and keeps what it says. It comes among those that run."""

    def __init__(self, request: Request, work: Callable[[Request], int], running: "dict[int, Worker]"):
        self.name, self.status, self.lines = request.infiles[0][0], 0, ""
        self.said: IO[bytes] = tempfile.TemporaryFile()
        mask = signal.pthread_sigmask(signal.SIG_BLOCK, SIGNALS)  # a new process would lose what comes at once
        self.process = os.fork()
        if self.process == 0:
            status = 3
            try:
                heed_signals(signal.SIG_DFL)
                signal.pthread_sigmask(signal.SIG_SETMASK, mask)
                os.dup2(self.said.fileno(), 2)
                status = work(request)
            finally:
                os._exit(status)
        running[self.process] = self
        signal.pthread_sigmask(signal.SIG_SETMASK, mask)

    def end(self, ended: int) -> None:
        """Keeps how it ended, and what it said, each line with the name of its INFILE."""
        self.status = os.waitstatus_to_exitcode(ended)
        if self.status < 0:
            self.said.write(told(f"ended by signal {-self.status}").encode())
            self.status = 3
        self.said.seek(0)
        lines = self.said.read().decode(errors="backslashreplace").splitlines()
        self.said.close()
        self.lines = "".join(f"{shown(self.name)}: {line}\n" for line in lines)


def heed_signals(way: Any) -> None:
    """Gives signals that would end the program another way, or that one again. Those that are ignored stay so."""
    for sent in SIGNALS:
        if signal.getsignal(sent) != signal.SIG_IGN:
            signal.signal(sent, way)


def ending(running: Iterable[int]) -> Callable[[int, object], None]:
    """What ends the processes that run with the program, by the signal that ends it."""

    def end(sent: int, _frame: object) -> None:
        for process in running:
            with suppress(ProcessLookupError):
                os.kill(process, sent)
        signal.signal(sent, signal.SIG_DFL)
        os.kill(os.getpid(), sent)

    return end


def run(requests: list[Request], work: Callable[[Request], int], say: Callable[[str], None]) -> None:
    """Works on requests side by side, says in their order what is said of each, and names those that failed."""
    for module in MODULES:
        import_module(f"impose_pdf.{module}")
    gc.freeze()
    at_once, shows = len(os.sched_getaffinity(0)), os.isatty(2) and "--quiet" not in requests[0].options
    workers, running, failed, said = list[Worker](), dict[int, Worker](), list[Worker](), 0
    heed_signals(ending(running))
    for one in [*requests, None]:
        while running and (one is None or len(running) >= at_once):
            process, ended = os.wait()
            running.pop(process).end(ended)
            while said < len(workers) and workers[said].process not in running:
                failed += [workers[said]] if workers[said].status else []
                say(CLEARED * shows + workers[said].lines)
                said += 1
            say(f"{CLEARED}{said} of {len(requests)}" * shows)
        if one is not None:
            workers.append(Worker(one, work, running))
    say(CLEARED * shows)
    if failed:
        names = ", ".join(shown(worker.name) for worker in failed[:MOST_NAMED]) + ", ..." * (len(failed) > MOST_NAMED)
        line = f"{len(failed)} of {len(requests)} INFILEs have no new OUTFILE: {names}"
        raise refusal(max(worker.status for worker in failed), line)
