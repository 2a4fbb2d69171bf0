"""Case files of cases/pdfs: documents, and cases with what is wanted of each (cases/pdfs/README.md)."""

from __future__ import annotations

import contextlib
import os
import re
import resource
import shlex
import shutil
import signal
import subprocess
import tempfile
import threading
import time
from collections.abc import Iterator
from dataclasses import dataclass, field
from functools import cached_property
from pathlib import Path
from typing import IO

from . import images, making
from .making import Made

ROOT = Path(__file__).resolve().parent.parent.parent
PDFS = ROOT / "cases/pdfs"
SETTINGS = (
    *("stdin", "limit", "stdout", "signal", "user", "rights", "umask", "link", "file", "pipe", "text", "papersize"),
    *("room", "open", "impose", "copies", "stack", "memory", "python", "sized", "traced", "needs", "folder", "date"),
)
MOST_COMPARED = 1 << 28  # bytes
MOST_SECONDS = 30  # of processor time, unless a case says how many: a wrong program may have no end


@dataclass
class Programs:
    """The program that is checked, and impose."""

    impose_pdf: Path
    impose: Path


@dataclass
class Case:
    """A command, its setting, and what is wanted of its run: a word, the rest of its line, and the lines below it."""

    file: str
    line: int
    name: str
    command: str
    documents: dict[str, Document]
    settings: list[list[str]] = field(default_factory=list)
    wanted: list[tuple[str, str, list[str]]] = field(default_factory=list)

    @property
    def words(self) -> list[str]:
        """The words; one that names copies is their names, as a shell has it."""
        words = [unescaped(word) for word in shlex.split(self.command)[1:]]
        return [name for word in words for name in self.copies(word) or [word]]

    def copies(self, word: str) -> list[str]:
        """The names of the copies of a document, numbered at the place of a *."""
        pattern, _, count = self.setting("copies") or ("", "", "0")
        return [pattern.replace("*", str(k)) for k in range(int(count))] if word == pattern else []

    def setting(self, name: str) -> list[str] | None:
        return next((line[1:] for line in self.settings if line[0] == name), None)

    @property
    def outfiles(self) -> list[tuple[str, str]]:
        """The OUTFILEs of a run that has one for each INFILE, and these."""
        pairs = (rest.split(" of ") for word, rest, _ in self.wanted if word == "outfile")
        return [(outfile, infile) for outfile, infile in pairs]

    @property
    def inputs(self) -> list[tuple[str, str]]:
        """The documents of OUTFILE, or of the first of several, each with the ranges after it."""
        own = {infile for _, infile in self.outfiles[:1]}
        return [(name, ranges) for name, ranges in self.named if not own or name in own]

    @property
    def named(self) -> list[tuple[str, str]]:
        """The documents that the command names, each with the ranges after it; OUTFILE, the last word, isn't read."""
        looks = {"--plan", "--preview", "--print-spec"} & set(self.words)
        words, stdin, found = self.words, self.setting("stdin"), list[tuple[str, str]]()
        is_each = any(word.startswith(("--each", "--suffix")) for word in words)
        if not is_each and (not looks or sum(word.endswith(".pdf") for word in words) > 1):
            words = words[:-1]
        for word in words:
            name = stdin[0] if word == "-" and stdin else word
            if name in self.documents:
                found.append((name, ""))
            elif found:
                found[-1] = found[-1][0], word
        return found


@dataclass
class Document:
    """A PDF by its name, made of lines, or one of cases/pdfs; or an image."""

    lines: list[str]
    seed: int
    path: Path | None = None
    image: str = ""

    @cached_property
    def made(self) -> Made:
        return making.made(self.lines, self.seed)

    @cached_property
    def data(self) -> bytes:
        if self.image:
            return images.image(self.lines, self.image)
        return self.path.read_bytes() if self.path else self.made.data


@dataclass
class Run:
    """How a run ended, and the folder in which it was."""

    case: Case
    programs: Programs
    folder: Path
    status: int
    output: bytes
    error: str
    seconds: float
    cost: tuple[float, float]  # seconds of the processor, and megabytes
    before: dict[str, bytes]

    @property
    def out(self) -> Path:
        return self.folder / [*self.case.outfiles, (self.case.words[-1], "")][0][0]


def unescaped(word: str) -> str:
    """A word in which \\n is the end of a line, and \\xe4 a byte that isn't UTF-8."""
    return re.sub(r"\\x(..)", lambda byte: chr(0xDC00 + int(byte[1], 16)), word.replace("\\n", "\n"))


def blocks(text: str) -> Iterator[tuple[int, str, list[str]]]:
    """Lines at column 0, with their number, and the indented lines below each."""
    head: tuple[int, str, list[str]] | None = None
    for number, line in enumerate(text.split("\n"), 1):
        if line.startswith("  ") and head:
            head[2].append(line[2:])
        elif line.strip() and not line.startswith("#"):
            if head:
                yield head
            head = number, line, []
    if head:
        yield head


def read(path: Path) -> list[Case]:
    """The cases of a file."""
    real = {one.name: Document([], 0, one) for one in sorted(PDFS.glob("*.pdf"))}
    documents, cases, name = dict(real), list[Case](), ""
    for number, head, below in blocks(path.read_text()):
        word, _, rest = head.partition(" ")
        if word == "pdf":
            documents[rest] = Document(below, 1 + (len(documents) - len(real)) % 13)
        elif word == "image":
            documents[rest] = Document(below, 0, image=rest)
        elif word == "case":
            name = rest
        elif word == "$":
            cases.append(Case(path.name, number, name, rest, dict(documents)))
        elif word == "with" and shlex.split(rest)[0] in SETTINGS:
            cases[-1].settings.append(shlex.split(rest))
        else:
            cases[-1].wanted.append((word, rest, below))
    return cases


def prepared(case: Case, folder: Path) -> None:
    """Puts the files of a case into its folder."""
    for word, _ in case.named:
        if ["pipe", word] in case.settings:
            os.mkfifo(folder / word)
            threading.Thread(target=fed, args=(folder / word, case.documents[word].data), daemon=True).start()
        else:
            (folder / word).write_bytes(case.documents[word].data)
    for kind, *rest in case.settings:
        if kind == "sized":
            os.truncate(folder / rest[0], int(rest[1]))
        elif kind == "folder":
            (folder / rest[0]).mkdir()
        elif kind == "file":
            (folder / unescaped(rest[0])).write_bytes(case.documents[rest[1]].data)
        elif kind == "copies":
            for name in case.copies(rest[0]):
                (folder / name).write_bytes(case.documents[rest[1]].data)
        elif kind == "text":
            (folder / rest[0]).write_bytes(rest[1].encode().decode("unicode_escape").encode("latin-1"))
        elif kind == "link":
            if "hard" in rest:
                os.link(folder / rest[1], folder / rest[0])
            else:
                os.symlink(rest[1], folder / rest[0])
    for kind, *rest in case.settings:
        if kind == "rights":
            (folder / rest[0]).chmod(int(rest[1], 8))


def fed(path: Path, data: bytes) -> None:
    """Writes a document to a pipe, and nothing to whoever opens it again."""
    with contextlib.suppress(OSError):
        while True:
            with open(os.open(path, os.O_WRONLY), "wb") as pipe:
                pipe.write(data)
            data = b""
            time.sleep(0.1)


def contents(folder: Path) -> dict[str, bytes]:
    """What the files of a folder hold; of a vast one, as much as a case may look at."""
    files = [path for path in sorted(folder.rglob("*")) if path.is_file()]
    return {str(path.relative_to(folder)): path.open("rb").read(MOST_COMPARED) for path in files}


def copied(programs: Programs, to: Path) -> Programs:
    """The programs where another user may read them."""
    shutil.copytree(programs.impose_pdf.parent, to)
    shutil.copy2(programs.impose, to / "impose")
    to.chmod(0o755)
    return Programs(to / programs.impose_pdf.name, to / "impose")


def runner(case: Case, folder: Path) -> list[str]:
    """What runs the program: another user, or a folder of a full device."""
    words = []
    if case.setting("user") and os.getuid() == 0:
        words = ["setpriv", "--reuid", "65534", "--regid", "65534", "--clear-groups"]
    if room := case.setting("room"):
        # Without /proc, a new file has a name from the start.
        nameless = "mount -t tmpfs none /proc; " if "named" in room else ""
        script = (
            f'mount -t tmpfs -o size={room[0]} none "$0"; mv kept.pdf "$0"/; {nameless}"$@"; s=$?'
            '; cp -a "$0"/. .; exit $s'
        )
        words = ["unshare", "-rm", "sh", "-c", script, str(folder / "small")]
        (folder / "small").mkdir()
    return words


def ran(case: Case, programs: Programs, folder: Path) -> Run:
    """Runs the command of a case in a folder."""
    inside, spare = folder / "in", folder / "tmp"
    inside.mkdir()
    spare.mkdir()
    folder.chmod(0o755)
    spare.chmod(0o777)
    inside.chmod(0o777)
    if case.setting("user"):
        programs = copied(programs, folder / "programs")
    prepared(case, inside)
    before = contents(inside)
    limits = [("limit", resource.RLIMIT_FSIZE), ("open", resource.RLIMIT_NOFILE), ("stack", resource.RLIMIT_STACK)]
    limits.append(("memory", resource.RLIMIT_AS))
    umask = case.setting("umask")
    most = next((int(rest.split()[0]) for word, rest, _ in case.wanted if word == "costs"), MOST_SECONDS)

    def limited() -> None:
        signal.signal(signal.SIGXFSZ, signal.SIG_IGN)
        if umask:
            os.umask(int(umask[0], 8))
        for name, kind in limits:
            if values := case.setting(name):
                resource.setrlimit(kind, (int(values[0]), int(values[-1])))
        resource.setrlimit(resource.RLIMIT_CPU, (most + 1, most + 1))

    impose, papersize = programs.impose, case.setting("papersize") or ["a4"]
    if named := case.setting("impose"):
        impose = Path(named[0])
    if case.setting("signal"):
        impose = folder / "sleeper"
        impose.write_text(f"#!/bin/sh\necho $$ >{folder}/asleep\nexec sleep 30\n")
        impose.chmod(0o755)
    env = {
        "PATH": os.environ["PATH"],
        "LANG": "C.UTF-8",
        "IMPOSE": str(impose),
        "PAPERSIZE": papersize[0],
        "TMPDIR": str(spare),
        "HOME": str(folder),
    }
    if case.setting("traced") is not None:
        env["IMPOSE_PDF_TRACE"] = "1"
    if date := case.setting("date"):
        env["SOURCE_DATE_EPOCH"] = date[0]
    if first := case.setting("python"):
        (folder / "sitecustomize.py").write_text(unescaped(first[0]))
        env["PYTHONPATH"] = str(folder)
    words = [*runner(case, inside), str(programs.impose_pdf), *case.words]
    began = time.monotonic()
    with source_of(case, inside) as source, tempfile.TemporaryFile() as error, open("/dev/full", "wb") as full:
        to: IO[bytes] | int = subprocess.PIPE
        match case.setting("stdout"):
            case ["full"]:
                to = full
            case ["closed"]:
                to = closed()
            case ["terminal"]:
                _, to = os.openpty()
        process = subprocess.Popen(
            words, stdin=source, stdout=to, stderr=error, cwd=inside, env=env, preexec_fn=limited
        )
        ender = threading.Timer(120, os.kill, (process.pid, signal.SIGKILL))
        ender.start()
        if sent := case.setting("signal"):
            told(process.pid, getattr(signal, "SIG" + sent[0]), folder / "asleep")
        output = process.stdout.read() if process.stdout else b""
        _, ended, used = os.wait4(process.pid, 0)
        ender.cancel()
        process.returncode = os.waitstatus_to_exitcode(ended)
        error.seek(0)
        said = error.read().decode(errors="replace")
        seconds = time.monotonic() - began
    cost = used.ru_utime + used.ru_stime, used.ru_maxrss / 1024
    return Run(case, programs, inside, process.returncode, output, said, seconds, cost, before)


def source_of(case: Case, folder: Path) -> IO[bytes]:
    """Standard input: a document in a file without a name, or its file in the folder, or a pipe, as a setting says."""
    stdin = case.setting("stdin") or [""]
    if "pipe" in stdin:
        pipe = folder.parent / "stdin"
        os.mkfifo(pipe)
        threading.Thread(target=fed, args=(pipe, case.documents[stdin[0]].data), daemon=True).start()
        return open(pipe, "rb")
    if "here" in stdin:
        return open(folder / stdin[0], "r+b")
    source = tempfile.TemporaryFile()
    source.write(case.documents[stdin[0]].data if stdin[0] else b"")
    source.seek(0)
    return source


def closed() -> int:
    """A pipe that nobody reads."""
    reader, writer = os.pipe()
    os.close(reader)
    return writer


def told(process: int, sent: signal.Signals, asleep: Path) -> None:
    """Sends a signal when impose, for which a sleeper stands, is waited for."""
    for _ in range(600):
        if asleep.exists() or os.waitid(os.P_PID, process, os.WEXITED | os.WNOHANG | os.WNOWAIT):
            break
        time.sleep(0.05)
    os.kill(process, sent)


def tidied(folder: Path) -> None:
    """Lets a folder be removed, whatever its rights are."""
    for path in [folder, *folder.rglob("*")]:
        if path.is_dir():
            path.chmod(0o755)
    shutil.rmtree(folder, ignore_errors=True)
