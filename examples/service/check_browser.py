"""The walk through the page in Chromium, mostly by keys, as check.py --browser takes it."""
from __future__ import annotations

import json
from pathlib import Path
from typing import TYPE_CHECKING

from chromium import Page, chromium

if TYPE_CHECKING:
    from check import Service

MARKUP = "<img src=x onerror=\"document.title='changed'\"><b>Eve</b>"
TITLE = "Over 18, and nothing else"
# The texts whose contrast to what is behind them is less than 4.5 to 1 (WCAG 1.4.3).
POOR_CONTRAST = """(() => {
  const parts = (color) => color.match(/[\\d.]+/g).map(Number);
  const linear = (part) => (part / 255 <= 0.04045 ? part / 255 / 12.92 : ((part / 255 + 0.055) / 1.055) ** 2.4);
  const light = ([red, green, blue]) => 0.2126 * linear(red) + 0.7152 * linear(green) + 0.0722 * linear(blue);
  const behind = (element) => {
    const color = parts(getComputedStyle(element).backgroundColor);
    return color[3] === 0 ? behind(element.parentElement) : color;
  };
  const isPoor = (element) => {
    const both = [light(parts(getComputedStyle(element).color)), light(behind(element))];
    return (Math.max(...both) + 0.05) / (Math.min(...both) + 0.05) < 4.5;
  };
  const hasText = (element) => [...element.childNodes].some((node) => node.nodeType === 3 && node.data.trim());
  const isShown = (element) => element.checkVisibility() && hasText(element);
  const poor = [...document.querySelectorAll("body *")].filter(isShown).filter(isPoor);
  return poor.map((element) => element.outerHTML.slice(0, 100));
})()"""
VERDICT = "document.querySelector('#verdict .title')?.textContent"


def by_browser(service: Service, pictures: Path | None) -> str | None:
    """Walks through the page. Answers why it cannot, if it cannot."""
    program = chromium()
    if program is None:
        return "no chromium"
    page = Page(program)
    try:
        page.look(1280, 1000)
        page.open(service.base + "/")
        page.wait("document.documentElement?.dataset.ready")
        walks = [_walk, _wrong_hands, _typed, _markup, _expired, _fits]
        for walk in walks:
            walk(page)
        assert not page.faults, page.faults
        if pictures:
            _take(page, pictures)
    finally:
        page.close()
    print(f"in a browser: {len(walks)} walks by keys, at 1280 and 360 pixels, light and dark")
    return None


def _focused(page: Page) -> str:
    return str(page.get("document.activeElement.id || document.activeElement.textContent"))


def _tab_to(page: Page, wanted: str) -> None:
    """Presses Tab until the element with this id, or this text, has the focus."""
    for _ in range(120):
        if _focused(page) == wanted:
            outline = page.get("getComputedStyle(document.activeElement).outlineStyle")
            assert outline != "none", f"the focus on {wanted} is not seen"
            return
        page.press("Tab")
    raise AssertionError(f"no Tab leads to {wanted}")


def _fill(page: Page, field: str, text: str) -> None:
    page.get(f"document.getElementById('{field}').focus(), document.getElementById('{field}').select()")
    page.type(text)


def _press(page: Page, button: str) -> None:
    _tab_to(page, button)
    page.press("Enter")


def _verdict(page: Page, title: str, button: str = "Check the ticket") -> None:
    """Has what was shown last checked, and waits for this verdict."""
    page.get("document.querySelector('#verdict').replaceChildren()")
    _press(page, button)
    found = page.wait(VERDICT)
    page.wait("!document.getElementById('admit').hasAttribute('aria-busy')")
    assert found[2:] == title and found[0] == ("✓" if title.startswith("Admitted") else "✕"), found


def _issue(page: Page) -> None:
    count = page.get("document.querySelectorAll('#tickets input').length")
    _press(page, "Issue a ticket to Ada")
    page.wait(f"document.querySelectorAll('#tickets input').length === {count + 1}")
    page.wait("document.querySelector('#issue-said').textContent.startsWith('Issued')")


def _show(page: Page) -> None:
    """Shows the age alone, of the chosen ticket."""
    if not page.get("document.getElementById('choice/over_18').checked"):
        _tab_to(page, "choice/over_18")
        page.press(" ")
    before = page.get("document.getElementById('presented').value")
    _press(page, "show-button")
    page.wait(f"document.getElementById('presented').value !== {json.dumps(before)}")
    page.wait("document.querySelector('#show-said').textContent.startsWith('Signed')")


def _reload(page: Page) -> None:
    page.get("delete document.documentElement.dataset.ready, location.reload()")
    page.wait("document.documentElement?.dataset.ready")


def _walk(page: Page) -> None:
    """From the ticket to the verdict. The first Tab leads to the first field."""
    page.press("Tab")
    assert _focused(page) == "event", _focused(page)
    _issue(page)
    fates = "[...document.querySelectorAll('.fate')].map((fate) => fate.textContent[0]).join('')"
    assert page.get(fates) == "HHHHH", "nothing is chosen before Ada chooses it"
    _show(page)
    assert sorted(page.get(fates)) == ["H", "H", "H", "H", "T"]
    _verdict(page, "Admitted: over 18")
    assert page.get("document.querySelector('#verdict').getAttribute('aria-live')") == "polite"
    seen = page.get("document.getElementById('seen').textContent")
    assert "Over 18: yes" in seen and "Ada" not in seen and "1990" not in seen, seen
    digests = "[...document.querySelectorAll('{} [data-digest]')].map((code) => code.dataset.digest).sort().join()"
    assert page.get(digests.format("#seen ul")) == page.get(digests.format("#choices")), "the digests are the same"
    assert "Jazz night" in page.get("document.getElementById('register').textContent")
    assert not page.unnamed(), page.unnamed()


def _wrong_hands(page: Page) -> None:
    """The same again, a copy in another visit, a claim that was changed, another key, and nothing at all."""
    _verdict(page, "Not admitted: shown before")
    _verdict(page, "Not admitted: made for another visit", "copy")
    _verdict(page, "Not admitted: changed", "change")
    _verdict(page, "Not admitted: another person's ticket", "stranger")
    page.get("document.getElementById('presented').value = ''")
    _verdict(page, "Not admitted: no ticket")
    _show(page)
    _verdict(page, "Admitted: over 18")


def _typed(page: Page) -> None:
    """What was typed stays if the office refuses it, and if the page is loaded again; so does what was shown last."""
    _fill(page, "seat", "C7")
    _fill(page, "name", " ")
    _press(page, "Issue a ticket to Ada")
    page.wait("document.getElementById('name').getAttribute('aria-invalid')")
    assert _focused(page) == "name"
    fault = page.get("document.getElementById(document.activeElement.getAttribute('aria-errormessage')).textContent")
    assert fault == "This is empty. Fill it in.", fault
    assert page.get("document.getElementById('seat').value") == "C7"
    shown = page.get("document.getElementById('presented').value")
    _reload(page)
    assert page.get("document.getElementById('seat').value") == "C7"
    assert page.get("document.getElementById('presented').value") == shown
    assert page.get("document.querySelectorAll('#tickets input').length") == 1
    assert page.get("document.getElementById('choice/over_18').checked")
    assert page.get("document.getElementById('register').textContent.includes('Jazz night')")
    _verdict(page, "Not admitted: shown before")


def _markup(page: Page) -> None:
    """A name with markup is text at each end."""
    _fill(page, "name", MARKUP)
    _issue(page)
    _tab_to(page, "choice/name")
    page.press(" ")
    _show(page)
    _verdict(page, "Admitted: over 18")
    for end in ("register", "choices", "seen"):
        assert MARKUP in page.get(f"document.getElementById('{end}').textContent"), end
    assert page.get("document.title") == TITLE and page.get("document.querySelectorAll('img, b').length") == 0


def _expired(page: Page) -> None:
    """A ticket that is over, and one that is removed."""
    page.get("document.getElementById('until').value = '2020-01-01'")
    _issue(page)
    _show(page)
    _verdict(page, "Not admitted: the ticket has expired")
    count = page.get("document.querySelectorAll('#tickets input').length")
    _press(page, "remove")
    page.wait(f"document.querySelectorAll('#tickets input').length === {count - 1}")


def _fits(page: Page) -> None:
    """Nothing is wider than the page, however narrow it is, and each text is read on what is behind it."""
    page.get("document.querySelector('#tickets input').click()")
    page.wait("document.getElementById('choice/over_18') !== null")
    page.get("for (const details of document.querySelectorAll('details')) details.open = true")
    for width in (1280, 768, 360):
        for scheme in ("light", "dark"):
            page.look(width, 1000, scheme)
            assert page.get("document.documentElement.scrollWidth") <= width, width
            for box in ("#office", "#wallet", "#door"):
                assert page.get(f"document.querySelector('{box}').getBoundingClientRect().right") <= width, (box, width)
            assert not page.get(POOR_CONTRAST), (scheme, page.get(POOR_CONTRAST))
    page.get("for (const details of document.querySelectorAll('details')) details.open = false")


def _take(page: Page, folder: Path) -> None:
    """Pictures at the end of a walk: service.png for the documents, and the whole page as each reader has it."""
    folder.mkdir(exist_ok=True)
    page.look(1280, 1000)
    page.get("sessionStorage.clear(), localStorage.clear()")
    _reload(page)
    _issue(page)
    _show(page)
    _verdict(page, "Admitted: over 18")
    page.get("document.activeElement.blur(), scrollTo(0, 0)")
    page.picture(folder / "service.png", False)
    for width in (1280, 360):
        for scheme in ("light", "dark"):
            page.look(width, 1000, scheme)
            page.picture(folder / f"whole-{width}-{scheme}.png", True)
