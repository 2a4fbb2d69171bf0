"""Who may ask, what is sent with each answer, what files may be called, and how much an answer may take."""

import os
import re
import resource
import secrets
import signal
import sys
from collections.abc import Container
from email.message import Message
from pathlib import Path

from impose_pdf.words import RANGES
from impose_pdf.writing import SIGNALS

MOST_UPLOADED = 1 << 30  # bytes of a file
MOST_KEPT = 1 << 32  # bytes of all files
MOST_ASKED = 1 << 20  # bytes of what is chosen
ROOM = 1 << 32  # bytes of memory of an answer
LIMITS = {resource.RLIMIT_AS: ROOM, resource.RLIMIT_CPU: 120, resource.RLIMIT_FSIZE: MOST_KEPT, resource.RLIMIT_CORE: 0}
SECONDS = 180  # that an answer may take
LOOPBACK = f"{int.from_bytes(bytes((127, 0, 0, 1)), sys.byteorder):08X}"  # as the system lists it
POLICY = (
    "default-src 'none'; style-src 'nonce-{0}'; script-src 'nonce-{0}'; img-src 'self' data:; connect-src 'self'; "
    "base-uri 'none'; form-action 'none'; frame-ancestors 'none'"
)
HEADS = {
    "X-Content-Type-Options": "nosniff",
    "Referrer-Policy": "same-origin",  # with no-referrer, browsers give no Origin
    "Cross-Origin-Resource-Policy": "same-origin",
    "Cross-Origin-Opener-Policy": "same-origin",
    "Content-Security-Policy": POLICY.format("none"),
    "Cache-Control": "no-store",
}


def is_ours(heads: Message, method: str, place: str) -> bool:
    """Whether a request comes from the page itself, or by its address from no page at all."""
    origins: list[str] = heads.get_all("Origin", [])
    own = [f"http://{place}"]
    return (
        heads.get_all("Host") == [place]
        and origins in ([], own)
        and (method == "GET" or origins == own)
        and heads.get("Sec-Fetch-Site", "none") in ("none", "same-origin")
        and "prefetch" not in heads.get("Sec-Purpose", "")
    )


def is_users(client: int, server: int) -> bool:
    """Whether the port at the other end is the user's own, by the system's list of connections, where there is one."""
    ends = [f"{LOOPBACK}:{port:04X}" for port in (client, server)]
    try:
        rows = [line.split() for line in Path("/proc/net/tcp").read_text().splitlines()]
    except FileNotFoundError:
        return True
    return any(row[1:3] == ends and row[7] == str(os.getuid()) for row in rows)


def is_same(given: str, secret: str) -> bool:
    """Whether a secret is given, in a time that doesn't say how much of it."""
    return secrets.compare_digest(given.encode(errors="surrogatepass"), secret.encode())


def safe(name: str) -> str:
    """A name for a file: it leads nowhere, and is no option, hidden file or RANGES."""
    last = re.split(r"[/\\]", name)[-1]
    stem, ending = os.path.splitext("".join(sign for sign in last if sign.isprintable()).lstrip(".- "))
    name = (stem[:60] or "pages") + ending[:8]
    return f"pages {name}" if RANGES.fullmatch(name) else name


def free(name: str, taken: Container[str]) -> str:
    """A safe name that isn't taken."""
    stem, ending = os.path.splitext(safe(name))
    number, name = 1, stem + ending
    while name in taken:
        number += 1
        name = f"{stem} ({number}){ending}"
    return name


def limit() -> None:
    """Limits this process. Signals end it, but for those that are ignored."""
    for number in [one for one in SIGNALS if signal.getsignal(one) != signal.SIG_IGN]:
        signal.signal(number, signal.SIG_DFL)
    for kind, most in LIMITS.items():
        _, hard = resource.getrlimit(kind)
        least = most if hard == resource.RLIM_INFINITY else min(most, hard)
        resource.setrlimit(kind, (least, least))
    signal.alarm(SECONDS)
