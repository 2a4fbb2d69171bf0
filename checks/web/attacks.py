"""Who gets in, and what is answered then: asked without a browser. Each function is a check, named as it is."""

from __future__ import annotations

import json
import os
import re
import signal
import subprocess
import tempfile
import time
from pathlib import Path

from .serving import BOOK, PHOTOGRAPHS, ROOT, Begin, until, wanted

THIN = (
    b"%PDF-1.4\n1 0 obj<</Type/Catalog/Pages 2 0 R>>endobj\n2 0 obj<</Type/Pages/Kids[3 0 R]/Count 1>>endobj\n"
    b"3 0 obj<</Type/Page/Parent 2 0 R/MediaBox[0 0 1 99000]>>endobj\ntrailer<</Root 1 0 R>>"
)
# Commands that are refused, each for its option, or for its word if it has none.
REFUSED = (
    "booklet signature=5; booklet signature=x; booklet creep=90cm; booklet gap=40cm; booklet scale=0; booklet scale=3; "
    "booklet sheet=a44; booklet paper=a44; booklet trim=30cm; booklet numbers=2m; booklet numbers=400pt; "
    "booklet numbers-from=5; booklet pages=80; booklet pages=1-1-1-; booklet border=x; booklet margin=outer=2cm; "
    "nup 0; nup 2x; nup 5000; nup 4 skip=9; nup 4 margin=1,2,3; nup 4 gap=30cm; nup 4 scale=2; notes 900; "
    "notes 3 gap=20cm; poster 2x2 overlap=50cm; poster 100x100; poster 2x2 scale=50; poster 2x2 margin=11cm; "
    "select 99; select a; zine gap=20cm; zine margin=inner=1cm; cards 1025; cards 8 skip=99"
)
HOSTILE_NAMES = (
    *(
        "x%2F..%2F..%2Fevil.pdf",
        "..%5C..%5Cevil.pdf",
        "%2e%2e",
        "-",
        "--preview=x.pdf",
        ".hidden.pdf",
        "3-9",
        "7",
    ),
    *(
        "a%00b%0Ac%1b%5B31m.pdf",
        "%E2%80%AEfdp.exe.pdf",
        "%FF%FE.pdf",
        "x" * 5000 + ".pdf",
        "%3Cimg%20src=x%3E.pdf",
        "%20",
    ),
)


def the_address_works_once(begin: Begin) -> None:
    web = begin()
    wanted(web.ask("GET", f"/{web.key}/", Sec_Purpose="prefetch").status, 403)
    page = web.ask("GET", f"/{web.key}/")
    wanted(page.status, 303)
    wanted(web.ask("GET", page.heads["Location"]).status, 200)
    wanted(web.ask("GET", f"/{web.key}/").status, 410)


def nobody_gets_in_without_the_secret(begin: Begin) -> None:
    web = begin()
    web.begin()
    for key in (
        "",
        "A" * 32,
        "..",
        "%2e%2e",
        web.page.strip("/")[:-1],
        f"../{web.page.strip('/')}",
        "%ED%A0%80",
        "%C3%A9",
    ):
        wanted(web.ask("GET", f"/{key}/options").status, 404)
        wanted(web.ask("POST", f"/{key}/sheets", b"{}").status, 404)
    wanted(web.ask("POST", f"/{web.key}/").status, 404)


def another_user_is_refused(begin: Begin) -> None:
    if os.getuid():
        return  # who isn't root can't be another user
    web = begin()
    script = "import http.client, sys; c = http.client.HTTPConnection(sys.argv[1]); c.request('GET', sys.argv[2]); "
    words = ["/usr/bin/python3", "-c", f"{script}print(c.getresponse().status)", web.host]
    for path in (f"/{web.key}/", f"{web.begin()}options"):
        wanted(subprocess.run([*words, path], user=65534, capture_output=True, text=True).stdout, "403\n")
        wanted(subprocess.run([*words, path], capture_output=True, text=True).stdout, "410\n", "200\n")


def a_foreign_host_is_refused(begin: Begin) -> None:
    web = begin()
    page, port = web.begin(), web.host.split(":")[1]
    for host in ("evil.example", f"localhost:{port}", "127.0.0.1", f"{web.host}.evil.example"):
        wanted(web.ask("GET", page, Host=host).status, 403)
    wanted(web.raw(f"GET {page} HTTP/1.0\r\n\r\n"), 403)
    wanted(web.raw(f"GET {page} HTTP/1.1\r\nHost: {web.host}\r\nHost: evil.example\r\n\r\n"), 403)


def a_foreign_origin_is_refused(begin: Begin) -> None:
    web = begin()
    page = web.begin()
    for origin in ("http://evil.example", "null", f"https://{web.host}", "http://127.0.0.1:1"):
        wanted(web.ask("POST", f"{page}sheets", b"{}", Origin=origin).status, 403)
        wanted(web.ask("GET", f"{page}options", Origin=origin).status, 403)


def a_change_without_an_origin_is_refused(begin: Begin) -> None:
    web = begin()
    wanted(web.ask("POST", f"{web.begin()}file/x.pdf", b"%PDF-", Origin=None).status, 403)


def another_site_is_refused(begin: Begin) -> None:
    web = begin()
    for site in ("cross-site", "same-site"):
        wanted(web.ask("GET", f"{web.begin()}options", Sec_Fetch_Site=site).status, 403)
        wanted(web.ask("GET", f"/{web.key}/", Sec_Fetch_Site=site).status, 403)


def other_methods_are_refused(begin: Begin) -> None:
    web = begin()
    for method in ("PUT", "DELETE", "OPTIONS", "HEAD", "TRACE"):
        wanted(web.ask(method, web.begin()).status, 501)


def no_path_leads_out(begin: Begin) -> None:
    web = begin()
    name = web.put("book.pdf", BOOK.read_bytes())
    (web.folder / "secret.pdf").write_bytes(b"%PDF-secret")
    for path in (
        *(
            "../../../../etc/passwd",
            "..%2f..%2f..%2fetc/passwd",
            "%2e%2e/",
            "%00",
            "options/../../x",
            "html",
            "send/200/x",
        ),
        *(
            "pdf/..%2fsecret/save/x",
            f"pdf/..%2ffiles%2f{name[:-4]}/save/x",
            "leaf/..%2fsecret/1/500",
            "pdf/0123456789abcdef/save/x",
        ),
    ):
        wanted(web.ask("GET", web.page + path).status, 400, 404)
    for file in ("/etc/passwd", "../secret.pdf", "-", "missing.pdf", ""):
        wanted(web.sheets([(file, "")]).status, 400)


def names_of_files_lead_nowhere(begin: Begin) -> None:
    web = begin()
    for name in HOSTILE_NAMES:
        web.put(name, b"%PDF-")
    until(lambda: not list(web.folder.glob("part.*")), "whole files")
    stored = sorted(path.relative_to(web.folder).as_posix() for path in web.folder.rglob("*") if path.is_file())
    wanted(len(stored), len(HOSTILE_NAMES))
    for name in stored:
        assert re.fullmatch(r"files/[^/\\.\x00-\x1f-][^/\\\x00-\x1f\u202e]{0,90}", name), name
        assert not re.fullmatch(r"files/[0-9-]+", name), name


def refusals_name_their_fields(begin: Begin) -> None:
    web = begin([str(BOOK)])
    for line in REFUSED.split("; "):
        command, *words = line.split(" ")
        given = dict(word.split("=", 1) for word in words if "=" in word)
        word = "".join(word for word in words if "=" not in word)
        told = web.sheets([("pdflatex.pdf", "")], command, word, **given).last()
        wanted((line, told["option"]), (line, next(iter(given), "word")))


def a_file_with_a_taken_name_gets_another(begin: Begin) -> None:
    web = begin([str(BOOK), str(PHOTOGRAPHS), str(BOOK)])
    told = web.ask("GET", f"{web.begin()}options").last()
    wanted(told["files"], ["pdflatex.pdf", "pillow.pdf", "pdflatex (2).pdf"])
    wanted(web.put("pillow.pdf", PHOTOGRAPHS.read_bytes()), "pillow (2).pdf")


def options_are_those_of_the_table(begin: Begin) -> None:
    web = begin()
    files = [(web.put("book.pdf", BOOK.read_bytes()), "")]
    for option in (
        "preview",
        "plan",
        "replace",
        "print-spec",
        "unguarded",
        "help",
        "nothing",
        "gap=1cm --preview",
        "box",
    ):
        wanted(web.sheets(files, **{option: "x.svg"}).status, 400)
    for command in ("spec", "--help", "unbooklet"):
        wanted(web.sheets(files, command).status, 400)
    wanted(web.sheets(files, marks="bars").status, 400)
    for value in ("5mm\n--preview=y.svg", "\0", "\ud800"):
        wanted(web.sheets(files, gap=value).status, 400)
    for value in ("5mm --preview=y.svg", "-5mm", "--preview=y.svg", "9" * 200_000):
        assert "refused" in web.sheets(files, gap=value).last(), value
    for word in ("--preview=z.svg", "/etc/passwd", "-", "4 x.pdf"):
        assert "refused" in web.sheets(files, "nup", word).last(), word
    for ranges in ("--plan", "x", "1;rm"):
        assert "refused" in web.sheets([(files[0][0], ranges)]).last(), ranges
    wanted([path.name for path in web.folder.rglob("*.svg")], [])


def what_is_no_request_is_refused(begin: Begin) -> None:
    web = begin()
    for body in (
        b"",
        b"[]",
        b"{",
        b'{"command":1}',
        b"null",
        b"[" * 100_000,
        b'{"command":"booklet","options":{},"files":[]}',
    ):
        wanted(web.ask("POST", f"{web.begin()}sheets", body).status, 400)


def too_large_a_file_is_refused(begin: Begin) -> None:
    web = begin()
    head = f"POST {web.begin()}file/x.pdf HTTP/1.1\r\nHost: {web.host}\r\nOrigin: http://{web.host}\r\n"
    for length, status in ((str(2 << 30), 413), ("9" * 400, 413), ("-5", 411), ("x", 400)):
        wanted(web.raw(f"{head}Content-Length: {length}\r\n\r\n"), status)
    wanted(web.raw(f"{head}Transfer-Encoding: chunked\r\n\r\n"), 411)


def a_file_that_the_disk_has_no_room_for_is_refused(begin: Begin) -> None:
    full = "import shutil; shutil.disk_usage = lambda _: type('Disk', (), {'free': 3 << 20}); "
    web = begin(first=full)
    answer = web.ask("POST", f"{web.begin()}file/x.pdf", b"x" * (20 << 20))
    wanted((answer.status, b"larger than 3 MB" in answer.body), (413, True))


def half_a_file_is_none(begin: Begin) -> None:
    web = begin()
    head = f"POST {web.begin()}file/half.pdf HTTP/1.1\r\nHost: {web.host}\r\nOrigin: http://{web.host}\r\n"
    web.raw(f"{head}Content-Length: 100\r\n\r\nabc", ends=True)
    time.sleep(0.3)
    wanted([path.name for path in web.folder.rglob("*half*")] + [path.name for path in web.folder.glob("part*")], [])


def names_in_heads_are_escaped(begin: Begin) -> None:
    web = begin()
    made = web.sheets([(web.put("book.pdf", BOOK.read_bytes()), "")]).last()["pdf"]
    answer = web.ask("GET", f"{web.page}pdf/{made}/save/%22%0d%0aX-Evil:%201.pdf")
    wanted(answer.heads["X-Evil"], None)
    wanted(answer.heads["Content-Type"], "application/pdf")
    assert (answer.heads["Content-Disposition"] or "").startswith("attachment;"), "not saved"


def pictures_are_small(begin: Begin) -> None:
    web = begin()
    made = web.sheets([(web.put("thin.pdf", THIN), "")], "select", "1-").last()["pdf"]
    for longest in ("3000", "999999999"):
        answer = web.ask("GET", f"{web.page}leaf/{made}/1/{longest}")
        wanted((answer.status, answer.body[:4], answer.heads["Content-Type"]), (200, b"\x89PNG", "image/png"))
        wanted([int.from_bytes(answer.body[k : k + 4], "big") for k in (16, 20)], [1, 3000])
    wanted(web.ask("GET", f"{web.page}leaf/{made}/1/x").status, 400)


def a_broken_pdf_ends_one_request(begin: Begin) -> None:
    web, book = begin(), BOOK.read_bytes()
    names = [
        web.put(name, data) for name, data in (("book.pdf", book), ("broken.pdf", book[:3000]), ("empty.pdf", b""))
    ]
    for name in names[1:]:
        wanted(web.sheets([(name, "")]).last()["file"], name)
    assert "pdf" in web.sheets([(names[0], "")]).last()


def what_is_saved_is_impose_pdfs(begin: Begin) -> None:
    web = begin()
    files = [(web.put("book.pdf", BOOK.read_bytes()), "2-9"), (web.put("more.pdf", PHOTOGRAPHS.read_bytes()), "")]
    made = web.sheets(files, gap="1cm").last()["pdf"]
    saved = web.ask("GET", f"{web.page}pdf/{made}/save/x.pdf").body
    words = ["booklet", "-q", "--gap=1cm", "book.pdf", "2-9", "more.pdf", str(web.folder / "hand.pdf")]
    env = {**os.environ, "IMPOSE": str(begin.impose)}
    subprocess.run([begin.pdf / "impose-pdf", *words], cwd=web.folder / "files", env=env, check=True)
    assert saved == (web.folder / "hand.pdf").read_bytes(), "it differs"


def sheets_that_are_not_drawn_are_told_too(begin: Begin) -> None:
    web = begin([str(BOOK)])
    sheets = json.loads(web.sheets([("pdflatex.pdf", "")] * 8, "select", "1-").body.splitlines()[0])["sheets"]
    wanted([sheet["pages"][0][0] for sheet in sheets], list(range(1, 89)))


def no_path_of_the_machine_is_told(begin: Begin) -> None:
    with tempfile.TemporaryDirectory() as folder:
        impose = Path(folder) / "impose"
        impose.symlink_to(begin.impose)
        other = Begin(begin.pdf, impose)
        try:
            web = other([str(BOOK)])
            web.sheets([("pdflatex.pdf", "")], margin="15cm")
            web.sheets([(web.put("broken.pdf", b"%PDF-1.4 nothing"), "")])
            web.ask("GET", f"{web.page}leaf/0123456789abcdef/1/100")
            impose.unlink()
            assert "cannot run" in web.sheets([("pdflatex.pdf", "")]).last()["refused"], "it runs"
            told = {path for path in (str(ROOT), str(web.folder), folder, str(begin.pdf)) if path.encode() in web.said}
            wanted(told, set())
        finally:
            other.tidy()


def each_answer_has_limits(begin: Begin) -> None:
    web = begin()
    with web.open():
        (mark,) = (web.folder / "open").iterdir()
        limits = Path(f"/proc/{mark.name}/limits").read_text()
    found = dict(re.findall(r"Max (cpu time|file size|address space) +(\d+) +\d+", limits))
    wanted(found, {"cpu time": "120", "file size": str(1 << 32), "address space": str(1 << 32)})


def idle_connections_hold_nobody_up(begin: Begin) -> None:
    web = begin()
    held = [web.connect() for _ in range(40)]
    began = time.monotonic()
    wanted(web.ask("GET", web.begin()).status, 200)
    assert time.monotonic() - began < 5, "too slow"
    for one in held:
        one.close()


def nothing_is_left(begin: Begin) -> None:
    for number in (signal.SIGINT, signal.SIGTERM, signal.SIGHUP, signal.SIGKILL):
        web = begin([str(BOOK)])
        wanted(oct(web.folder.stat().st_mode)[-3:], "700")
        web.sheets([("pdflatex.pdf", "")])
        wanted(web.end(number), -number if number == signal.SIGKILL else 0)
        until(lambda: not list(web.temporary.iterdir()), f"an empty folder after signal {number}", 5)


def a_signal_while_it_forks_is_heard(begin: Begin) -> None:
    for k in range(12):
        web = begin()
        body = f"GET {web.begin()}options HTTP/1.1\r\nHost: {web.host}\r\n\r\n"
        flood = [web.connect(body) for _ in range(20)]
        time.sleep(0.001 * k)
        os.kill(web.process.pid, signal.SIGINT)
        wanted(web.process.wait(8), 0)
        until(lambda: not list(web.temporary.iterdir()), "an empty folder", 5)
        for one in flood:
            one.close()


def it_ends_after_its_page(begin: Begin) -> None:
    web = begin(gone=(1, 3600))
    opened = web.open()
    web.ask("POST", f"{web.page}closed", b"")
    time.sleep(2.5)
    wanted(web.process.poll(), None)  # another page is open
    opened.close()
    wanted(web.process.wait(8), 0)


def a_page_that_sleeps_keeps_its_files(begin: Begin) -> None:
    web = begin(gone=(1, 3600))
    opened = web.open()
    opened.close()
    until(lambda: not list((web.folder / "open").iterdir()), "no mark")
    time.sleep(2.5)
    wanted(web.process.poll(), None)


def a_killed_server_leaves_no_children(begin: Begin) -> None:
    web = begin()
    opened = web.open()
    os.kill(web.process.pid, signal.SIGKILL)
    until(lambda: not list(web.temporary.iterdir()), "an empty folder", 5)
    while opened.recv(1 << 16):
        pass
    opened.close()


def a_drawing_ends_with_the_server(begin: Begin) -> None:
    for number in (signal.SIGTERM, signal.SIGKILL):
        web = begin([], first="import os; os.close(0); ")
        made = web.sheets([(web.put("book.pdf", BOOK.read_bytes()), "")]).last()["pdf"]
        path = web.folder / f"made/{made}.pdf"
        path.unlink()
        os.mkfifo(path)  # it is drawn for ever
        asked = web.connect(f"GET {web.page}leaf/{made}/1/100 HTTP/1.1\r\nHost: {web.host}\r\n\r\n")
        until(lambda: running(str(path)), "pdftoppm")
        os.kill(web.process.pid, number)
        try:
            until(lambda: not running(str(path)) and not list(web.temporary.iterdir()), "no pdftoppm, and no folder", 5)
        finally:
            asked.close()
            for drawing in running(str(path)):
                os.kill(drawing, signal.SIGKILL)


def running(word: str) -> list[int]:
    """The programs that run and have this word."""
    return list(map(int, subprocess.run(["pgrep", "-f", word], capture_output=True).stdout.split()))


def mistakes_on_the_command_line_are_told(begin: Begin) -> None:
    env = {**os.environ, "IMPOSE": str(begin.impose)}
    for words, status, told in (
        (["--nothing"], 2, "impose-web: --nothing is no option"),
        (["missing.pdf"], 3, "impose-web: missing.pdf: no such file"),
        ([str(ROOT)], 3, "it is no file"),
    ):
        done = subprocess.run([begin.pdf / "impose-web", *words], capture_output=True, text=True, env=env)
        wanted(done.returncode, status)
        assert told in done.stderr, done.stderr


ATTACKS = [
    value for value in list(globals().values()) if getattr(value, "__module__", "") == __name__ and value is not running
]
