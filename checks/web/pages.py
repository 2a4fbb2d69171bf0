"""The page in Chromium, without a window. Each function is a check, named as it is."""

from __future__ import annotations

import atexit
import functools
import io
import os
import subprocess
import tempfile
import time
from pathlib import Path
from typing import Any

from PIL import Image
from selenium import webdriver
from selenium.webdriver.chrome.service import Service
from selenium.webdriver.common.by import By
from selenium.webdriver.common.keys import Keys

from .serving import BOOK, PHOTOGRAPHS, ROOT, Begin, Web, until, wanted

WORDS = ("--headless=new", "--no-sandbox", "--disable-dev-shm-usage", "--hide-scrollbars", "--window-size=1280,900")
# The least contrast of a text with what is below it.
CONTRAST = """
const part = x => (x /= 255) < .03928 ? x / 12.92 : ((x + .055) / 1.055) ** 2.4;
const light = c => .2126 * part(c[0]) + .7152 * part(c[1]) + .0722 * part(c[2]);
const colour = s => { const c = s.match(/[\\d.]+/g).map(Number); return c.length > 3 && c[3] === 0 ? null : c; };
let worst = 99;
for (const one of document.querySelectorAll('body *')) {
  if (one.closest('figure svg, :disabled, script, style, option') || !one.checkVisibility()) continue;
  if (![...one.childNodes].some(node => node.nodeType === 3 && node.data.trim())) continue;
  let at = one, below = null;
  while (at && !(below = colour(getComputedStyle(at).backgroundColor))) at = at.parentElement;
  const [a, b] = [light(colour(getComputedStyle(one).color)), light(below || [255, 255, 255])].sort((x, y) => x - y);
  worst = Math.min(worst, (b + .05) / (a + .05));
}
return worst;
"""


@functools.cache
def driver() -> Any:
    """The browser, which all checks share. What is saved goes to a folder of its own."""
    options: Any = webdriver.ChromeOptions()
    for word in WORDS:
        options.add_argument(word)
    folder = tempfile.TemporaryDirectory(ignore_cleanup_errors=True)
    saved = Path(folder.name) / "saved"
    saved.mkdir()
    options.add_experimental_option("prefs", {"download.default_directory": str(saved)})
    service = Service("/usr/bin/chromedriver", env={**os.environ, "TMPDIR": folder.name})
    browser: Any = webdriver.Chrome(service=service, options=options)
    browser.saved = saved
    atexit.register(folder.cleanup)
    atexit.register(browser.quit)
    return browser


class Page:
    """The page of a server, in the browser."""

    def __init__(self, web: Web):
        self.browser, self.web = driver(), web
        self.browser.get("about:blank")
        self.browser.get(web.address)
        self.address = self.browser.current_url
        until(lambda: self.run("return typeof table === 'object' && Boolean(command)"), "the page")

    def run(self, script: str, *words: Any) -> Any:
        """Runs a script in the page."""
        return self.browser.execute_script(script, *words)

    def one(self, selector: str) -> Any:
        """An element."""
        return self.browser.find_element(By.CSS_SELECTOR, selector)

    def text(self, selector: str) -> str:
        """The text of an element."""
        return str(self.one(selector).get_attribute("textContent"))

    def shows(self, selector: str, text: str) -> None:
        """Waits until an element has a text."""
        until(lambda: text in self.text(selector), f"{text!r} in {selector}")

    def choose(self, *files: Path) -> None:
        """Chooses files."""
        self.one("#choose").send_keys("\n".join(map(str, files)))

    def put(self, option: str, value: str) -> None:
        """Types a value."""
        field = self.one(f"#of-{option}")
        field.clear()
        field.send_keys(value) if value else self.run("arguments[0].oninput()", field)

    def layout(self, name: str) -> None:
        """Chooses a layout."""
        script = "[...document.querySelectorAll('#layouts label')][arguments[0]].querySelector('input').click()"
        self.run(script, self.run("return table.commands.findIndex(row => row.name === arguments[0])", name))
        self.shows("#line", f"impose-pdf {name}")

    def button(self, name: str) -> Any:
        """A button or a field by its name."""
        return self.one(f'[aria-label="{name}"]')


def a_booklet_of_two_pdfs_is_saved(begin: Begin) -> None:
    page = Page(begin())
    page.choose(BOOK, PHOTOGRAPHS)
    page.shows("#line", "pdflatex.pdf pillow.pdf")
    page.put("gap", "1cm")
    page.shows("#line", "impose-pdf booklet --gap=1cm pdflatex.pdf pillow.pdf pdflatex-booklet.pdf")
    page.shows("#how", "print at actual size, on both sides, flipped on the short edge. Fold at the dashed lines.")
    pairs = page.browser.find_elements(By.CSS_SELECTOR, ".pair")
    wanted(len(page.browser.find_elements(By.CSS_SELECTOR, "line.fold")), 2 * len(pairs))
    until(lambda: page.run("return document.querySelectorAll('image[href]').length"), "a picture")
    time.sleep(2)
    assert page.run("return document.querySelectorAll('image:not([href])').length"), "all pictures are drawn"
    page.one("#save").click()
    saved = page.browser.saved / "pdflatex-booklet.pdf"
    until(saved.exists, "the saved file")
    words = ["booklet", "-q", "--gap=1cm", str(BOOK), str(PHOTOGRAPHS), str(page.web.temporary / "hand.pdf")]
    subprocess.run([begin.pdf / "impose-pdf", *words], env={**os.environ, "IMPOSE": str(begin.impose)}, check=True)
    by_hand = (page.web.temporary / "hand.pdf").read_bytes()
    (page.web.temporary / "hand.pdf").unlink()
    until(lambda: saved.read_bytes() == by_hand, "the same bytes as impose-pdf's", 3)
    saved.unlink()


def refusals_are_at_their_fields(begin: Begin) -> None:
    page = Page(begin([str(BOOK)]))
    page.shows("#how", "print at actual size")
    page.put("margin", "25cm")
    page.shows("#bad-margin", "margins")
    wanted(page.one("#of-margin").get_attribute("aria-invalid"), "true")
    wanted(page.one("#acts").get_attribute("hidden"), "true")
    page.put("margin", "5 apples")
    page.shows("#bad-margin", "5 apples")
    page.put("margin", "")
    until(lambda: not page.text("#bad-margin") and not page.one("#acts").get_attribute("hidden"), "no refusal")
    page.button("Pages of pdflatex.pdf").send_keys("99")
    page.shows("#bad-files", "has pages 1 to 11 only")


def files_that_cannot_be_read_are_named(begin: Begin) -> None:
    web = begin()
    page, broken, locked = Page(web), web.temporary / "broken.pdf", web.temporary / "locked.pdf"
    broken.write_bytes(BOOK.read_bytes()[:3000])
    import pikepdf

    with pikepdf.open(PHOTOGRAPHS) as pdf:
        pdf.save(locked, encryption=pikepdf.Encryption(owner="owner", user="user"))
    page.choose(BOOK)
    page.shows("#how", "print at actual size")
    for file, said in ((broken, "broken.pdf can't be"), (locked, "locked.pdf opens with its password")):
        page.choose(file)
        page.shows("#bad-files", said)
        page.button(f"Remove {file.name}").click()
        until(lambda: not page.text("#bad-files") and not page.one("#acts").get_attribute("hidden"), "no refusal")
        file.unlink()


def it_is_shown_for_printing(begin: Begin) -> None:
    page = Page(begin([str(BOOK)]))
    page.shows("#how", "print at actual size")
    first = page.browser.current_window_handle
    page.one("#print").click()
    (other,) = until(lambda: set(page.browser.window_handles) - {first}, "another window")
    page.browser.switch_to.window(other)
    try:
        until(lambda: page.run("return document.contentType") == "application/pdf", "the PDF")
    finally:
        page.browser.close()
        page.browser.switch_to.window(first)


def names_are_shown_as_text(begin: Begin) -> None:
    web = begin()
    page, evil = Page(web), web.temporary / "<img src=x onerror=alert(1)>.pdf"
    evil.write_bytes(BOOK.read_bytes())
    page.choose(evil)
    page.shows("#line", "onerror")
    wanted(page.text("#files span"), evil.name)
    wanted(page.browser.find_elements(By.CSS_SELECTOR, "img"), [])
    evil.unlink()


def files_are_put_in_order_and_kept(begin: Begin) -> None:
    page = Page(begin([str(BOOK)]))
    page.run(
        "const all = new DataTransfer(); all.items.add(new File([new Uint8Array(arguments[0])], 'dropped.pdf'));"
        "dispatchEvent(new DragEvent('drop', { dataTransfer: all, bubbles: true }))",
        list(PHOTOGRAPHS.read_bytes()),
    )
    page.shows("#line", "pdflatex.pdf dropped.pdf")
    page.button("Move dropped.pdf up").click()
    page.shows("#line", "dropped.pdf pdflatex.pdf")
    page.button("Pages of pdflatex.pdf").send_keys("3-9")
    page.put("gap", "4mm")
    page.shows("#line", "--gap=4mm dropped.pdf pdflatex.pdf 3-9")
    page.browser.refresh()
    page.shows("#line", "--gap=4mm dropped.pdf pdflatex.pdf 3-9")
    page.button("Remove dropped.pdf").click()
    page.shows("#line", "--gap=4mm pdflatex.pdf 3-9")
    page.browser.refresh()
    page.shows("#line", "--gap=4mm pdflatex.pdf 3-9")


def all_is_reached_by_the_keyboard(begin: Begin) -> None:
    page, seen = Page(begin([str(BOOK)])), list[str]()
    press: Any = webdriver.ActionChains
    page.shows("#how", "print at actual size")
    while "Copy command" not in seen and len(seen) < 60:
        press(page.browser).send_keys(Keys.TAB).perform()
        seen.append(page.browser.switch_to.active_element.accessible_name)
    assert {"Save PDF", "Print", "Copy command"} <= set(seen) and all(seen), seen
    page.one("#layouts input:checked").send_keys(Keys.ARROW_RIGHT)
    page.shows("#line", "impose-pdf zine")
    page.run("document.querySelector('details').open = true")
    for control in page.browser.find_elements(By.CSS_SELECTOR, "input, select, button, a, [role=img]"):
        assert not control.is_displayed() or control.accessible_name, control.get_attribute("outerHTML")[:80]


def it_can_be_read_in_the_dark_and_in_a_narrow_window(begin: Begin) -> None:
    page = Page(begin([str(BOOK)]))
    page.put("margin", "25cm")
    page.shows("#bad-margin", "margins")
    for mode in ("light", "dark"):
        media = {"features": [{"name": "prefers-color-scheme", "value": mode}]}
        page.browser.execute_cdp_cmd("Emulation.setEmulatedMedia", media)
        found = page.run(CONTRAST)
        assert found >= 4.5, f"{mode}: {found}"
    page.browser.execute_cdp_cmd("Emulation.setEmulatedMedia", {"features": []})
    narrow(page)
    assert page.run("return document.documentElement.scrollWidth <= innerWidth"), "it scrolls sideways"
    page.browser.execute_cdp_cmd("Emulation.clearDeviceMetricsOverride", {})


def narrow(page: Page) -> None:
    """Makes the window narrow."""
    sizes = {"width": 400, "height": 860, "deviceScaleFactor": 1, "mobile": False}
    page.browser.execute_cdp_cmd("Emulation.setDeviceMetricsOverride", sizes)


def a_second_window_sees_nothing(begin: Begin) -> None:
    page = Page(begin([str(BOOK)]))
    first = page.browser.current_window_handle
    page.browser.switch_to.new_window("tab")
    try:
        page.browser.get(page.web.address)
        assert "was opened already" in page.text("body"), page.text("body")
        page.browser.get("data:text/html,<p>another origin")
        ask = "const done = arguments[1]; fetch(arguments[0]).then(() => done('taken'), () => done('refused'))"
        wanted(page.browser.execute_async_script(ask, f"{page.address}options"), "refused")
        ask = (
            "const done = arguments[1], image = new Image; image.onload = () => done('shown');"
            "image.onerror = () => done('refused'); image.src = arguments[0]"
        )
        made = next((page.web.folder / "made").iterdir()).stem
        wanted(page.browser.execute_async_script(ask, f"{page.address}leaf/{made}/1/100"), "refused")
        page.browser.get(f"data:text/html,<iframe src='{page.address}'></iframe>")
        time.sleep(0.5)
        wanted(len(list((page.web.folder / "open").iterdir())), 1)
    finally:
        page.browser.close()
        page.browser.switch_to.window(first)


def two_gigabytes_are_refused(begin: Begin) -> None:
    web = begin()
    page, large = Page(web), web.temporary / "large.pdf"
    with large.open("wb") as file:
        file.truncate(2 << 30)
    page.choose(large)
    page.shows("#bad-upload", "large.pdf can't be taken. This is larger than 1024 MB")
    page.run("table.limit = Infinity")
    page.choose(large)
    page.shows("#bad-upload", "large.pdf can't be taken.")
    large.unlink()


def an_interrupt_is_told(begin: Begin) -> None:
    web = begin([str(BOOK)])
    page = Page(web)
    page.shows("#how", "print at actual size")
    page.run("for (let k = 0; k < 9; k++) fetch('sheets', { method: 'POST', body: JSON.stringify(chosen()) })")
    wanted(web.end(), 0)
    page.shows("#bad", "impose-web has ended. Begin it again.")
    until(lambda: not list(web.temporary.iterdir()), "an empty folder", 5)


def it_ends_when_its_page_is_closed(begin: Begin) -> None:
    web = begin(gone=(1, 3600))
    page = Page(web)
    until(lambda: list((web.folder / "open").iterdir()), "a mark")
    page.browser.get("about:blank")
    wanted(web.process.wait(8), 0)


OF_PAGES = [
    value
    for value in list(globals().values())
    if getattr(value, "__module__", "") == __name__ and value not in (driver, Page, narrow)
]


def draw(pdf: Path, impose: Path) -> int:
    """Draws the pictures of the documents."""
    begin = Begin(pdf, impose)
    try:
        page = Page(begin([str(BOOK)]))
        page.put("gap", "1cm")
        page.shows("#line", "--gap=1cm")
        page.shows("#how", "print at actual size")
        time.sleep(2)
        drawn = Image.open(io.BytesIO(page.browser.get_screenshot_as_png())).convert("RGB")
        drawn.quantize(64, Image.Quantize.MAXCOVERAGE, dither=Image.Dither.NONE).save(
            ROOT / "docs/pictures/impose-web.png", optimize=True
        )
    finally:
        begin.tidy()
    return 0
