"""The passwords of INFILEs, which are in files, so that no list of processes shows them."""

from impose_pdf import reading
from impose_pdf.words import Request, cause_of, refusal, shown

LONGEST = 1000  # bytes


def read_passwords(request: Request) -> None:
    """Reads the passwords that a request names, unless that was done."""
    if not reading.PASSWORDS:
        words = [word for name in request.own.get("--password", []) for word in forms(read_password(request, name))]
        reading.PASSWORDS[:] = dict.fromkeys(words)


def read_password(request: Request, name: str) -> bytes:
    """The password that a file has."""
    if name == "-" and any(infile == "-" for infile, _ in request.infiles):
        raise refusal(2, "standard input is an INFILE, or has the password, and not both")
    try:
        with open(0 if name == "-" else name, "rb", closefd=name != "-") as stream:
            line = stream.readline(LONGEST + 2)
    except OSError as error:
        raise refusal(3, f"cannot read {shown(name)}: {cause_of(error)}") from None
    word = line.rstrip(b"\r\n")
    if not word or len(word) > LONGEST:
        raise refusal(2, f"{shown(name)} has no password of 1 to {LONGEST} bytes in its first line")
    return word


def forms(word: bytes) -> list[bytes]:
    """A password, and as older PDFs have it, in Latin-1."""
    try:
        return [word, word.decode().encode("latin-1")]
    except UnicodeError:
        return [word]
