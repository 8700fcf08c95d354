"""The command `sdjwt-keys inspect`: the tree, the page, and what both make of tokens by other hands."""
import base64
import hashlib
import html.parser
import io
import json
import re
import sys
from pathlib import Path

import pytest
from signing import encoded, mac

import sdjwt
from sdjwt import _inspect, _inspect_page, _inspect_text, _program
from sdjwt._inspect_assets import SCRIPT, STYLE

KEY = "dGhlIHRpY2tldCBvZmZpY2Uga2V5LCBub3QgeW91cnM"
KEYS = {"keys": [{"kty": "oct", "k": KEY}]}
NOW = 1_800_000_000
ORDER = {
    "payload": {
        "iss": "tickets",
        "exp": NOW + 7200,
        "iat": NOW - 180,
        "name": "Ada",
        "seats": ["B12", "B13"],
        "extras": {"drink": "tea"},
    },
    "hide": ["/name", "/seats/1", "/extras", "/extras/drink"],
    "decoys": [{"at": "", "count": 1}],
    "key": KEY,
}
SERVICE = Path(__file__).resolve().parent.parent.parent / "examples/service"
MARKUP = "<script>alert(1)</script>\"'><img src=x onerror=alert(1)>&lt;"


def token_of(payload, *disclosures, header=None, binding=""):
    """A token of a payload and texts of disclosures, whatever they are."""
    head = encoded(json.dumps(header or {"alg": "HS256"}).encode())
    body = payload if isinstance(payload, str) else encoded(json.dumps(payload).encode())
    signature = encoded(mac(base64.urlsafe_b64decode(KEY + "="), "HS256", f"{head}.{body}".encode()))
    return "~".join([f"{head}.{body}.{signature}", *disclosures, binding])


def disclosure(*parts):
    text = encoded(json.dumps(parts).encode())
    return text, encoded(hashlib.sha256(text.encode()).digest())


def inside(token):
    return _inspect.look(sdjwt.split(token), NOW)


@pytest.fixture
def keys(tmp_path, monkeypatch, capsys):
    """Runs the program in an empty folder; answers the status and both outputs."""
    monkeypatch.chdir(tmp_path)
    monkeypatch.delenv("NO_COLOR", raising=False)
    Path("key.jwk").write_text(json.dumps(KEYS["keys"][0]), encoding="utf-8")

    def run(*words, given=b""):
        monkeypatch.setattr(sys, "stdin", io.TextIOWrapper(io.BytesIO(given)))
        capsys.readouterr()
        status = _program.run([str(word) for word in words])
        return (status, *capsys.readouterr())
    return run


def tree(keys, token, *words):
    status, out, err = keys("inspect", "-", "--now", NOW, *words, given=token.encode())
    assert (status, err) == (0, "")
    return out


def page(keys, token, *words):
    status, _, err = keys("inspect", "-", "--now", NOW, "--html", "page.html", *words, given=token.encode())
    assert err == "" and status in (0, 1)
    return Path("page.html").read_text(encoding="utf-8")


class Page(html.parser.HTMLParser):
    """The elements of a page with their attributes, and its text."""

    def __init__(self, text):
        super().__init__()
        self.elements, self.texts = [], []
        self.feed(text)

    def handle_starttag(self, tag, attrs):
        self.elements.append((tag, dict(attrs)))

    def handle_data(self, data):
        self.texts.append(data)

    def with_attribute(self, name):
        return [(tag, attributes) for tag, attributes in self.elements if name in attributes]


def test_each_claim_stands_at_its_place_with_the_disclosure_that_opens_it(keys):
    token = sdjwt.issue(ORDER)
    said = tree(keys, token)
    shown = {one["name"]: one for one in sdjwt.show(token)["disclosures"] if "name" in one}
    assert re.search(rf"─ name  \"Ada\"  opened by disclosure \d, digest {shown['name']['digest'][:10]}\.\.", said)
    assert re.search(
        r"─ extras  opened by disclosure \d.*\n     └─ drink  \"tea\"  opened by disclosure \d|─ extras  opened by "
        r"disclosure \d.*\n  │  └─ drink",
        said,
    )
    assert re.search(r"\[0\]  \"B12\"\n.*\[1\]  \"B13\"  opened by disclosure", said)
    assert "hidden or decoy  digest" in said and "1 digest that no disclosure opens" in said
    assert {one.place for one in inside(token).disclosures} == {"/name", "/seats/1", "/extras", "/extras/drink"}


def test_what_no_disclosure_opens_is_hidden_or_a_decoy(keys):
    token = sdjwt.present({"keys": KEYS, "want": ["/extras"]}, sdjwt.issue(ORDER))
    said = tree(keys, token)
    # /name, /seats/1, /extras/drink and the decoy
    assert said.count("hidden or decoy  digest") == 4 == len(inside(token).hidden())
    assert "nobody can tell which" in said and '"Ada"' not in said and '"tea"' not in said


def test_the_digests_are_those_of_the_library():
    for hash_name in ("sha-256", "sha-384", "sha-512"):
        token = sdjwt.issue({**ORDER, "sd_alg": hash_name})
        assert [one.digest for one in inside(token).disclosures] == [
            one["digest"] for one in sdjwt.show(token)["disclosures"]
        ]


def test_times_and_lengths_are_in_words(keys):
    token = sdjwt.issue(ORDER)
    said = tree(keys, token)
    assert (
        "expires 2027-01-15 10:00:00 UTC, in 2 hours" in said
        and "issued at 2027-01-15 07:57:00 UTC, 3 minutes ago" in said
    )
    assert f"SD-JWT of {len(token):,} letters, with 4 disclosures\n" in said and "signature  32 bytes" in said
    for seconds, due in (
        (NOW, "now"),
        (NOW + 1, "in 1 second"),
        (NOW - 86_400 * 2, "2 days ago"),
        (4_102_444_800, "in 72 years"),
    ):
        assert _inspect.in_words(seconds, NOW).endswith(due)
    assert _inspect.in_words(2**64 - 1, NOW) == _inspect.in_words(10**30, NOW) == "after the year 9999"


def test_what_the_key_binding_token_binds(keys):
    holder = "dGhlIGtleSBpbiBBZGEncyBwaG9uZSwgbm90IG91cnM"
    order = {"keys": KEYS, "binding": {"aud": "https://door.example", "nonce": "4711", "kid": "ada", "key": holder}}
    token = sdjwt.present(order, sdjwt.issue({**ORDER, "payload": {**ORDER["payload"], "cnf": {"kid": "ada"}}}), NOW)
    said = tree(keys, token)
    assert re.search(r'aud +"https://door.example"\n', said) and re.search(r'nonce +"4711"\n', said)
    assert (
        "issued at 2027-01-15 08:00:00 UTC, now" in said
        and "sd_hash is the digest of this JWT with these disclosures." in said
    )
    other = sdjwt.present(
        {**order, "want": ["/name"]},
        sdjwt.issue({**ORDER, "payload": {**ORDER["payload"], "cnf": {"kid": "ada"}}}),
        NOW,
    )
    mixed = token.rsplit("~", 1)[0] + "~" + other.rsplit("~", 1)[1]
    assert "sd_hash is not the digest" in tree(keys, mixed) and "sd_hash is not the digest" in page(keys, mixed)


def test_inspect_checks_nothing_and_says_so(keys):
    head, body, signature = sdjwt.issue(ORDER).split("~")[0].split(".")
    forged = f"{head}.{body}.{'A' * len(signature)}~"
    assert "inspect checks nothing" in tree(keys, forged) and "This page checks nothing" in page(keys, forged)
    assert "inspect checks nothing" in keys("inspect", "--help")[1]


def conditions(text):
    return {
        int(number): (name, state)
        for number, name, state in re.findall(r"^ {2,3}(\d+)  (\w+) +(holds|fails|not judged|not asked)$", text, re.M)
    }


@pytest.mark.parametrize("policy, number", [
    ({}, None), ({"require": ["age"]}, 23), ({"iss": "another"}, 22), ({"typ": "x"}, 8), ({"algs": ["HS512"]}, 7),
    ({"keys": {"keys": []}}, 9), ({"keys": {"keys": [{"kty": "oct", "k": "A" * 43}]}}, 10),
    ({"binding": {"aud": "a", "nonce": "n", "max_age": 1, "keys": {"keys": []}}}, 4)])
def test_the_conditions_are_those_of_the_verdict_of_the_library(policy, number, keys):
    token = sdjwt.issue(ORDER)
    Path("policy.json").write_text(json.dumps({"keys": KEYS, **policy}))
    status, said, err = keys("inspect", "-", "--policy", "policy.json", "--now", NOW, given=token.encode())
    states = conditions(said)
    assert (status, err) == (0 if number is None else 1, "") and list(states) == list(range(1, 39))
    for one, (name, state) in states.items():
        if one in (4, *range(27, 39)) and "binding" not in policy:
            assert state == "not asked"
        elif number is None or one < number:
            assert state == "holds"
        else:
            assert state == ("fails" if one == number else "not judged")
    if number is None:
        assert "accepted by the library" in said
    else:
        assert (
            f"refused {number} {states[number][0]}" in said
            and sdjwt.Refused(f"refused {number} {states[number][0]}").explanation[:20] in said
        )
    shown = page(keys, token, "--policy", "policy.json")
    assert shown.count('<li class="fails">') == (number is not None) and shown.count('<span class="mark">') == 38
    assert "`" not in shown.split("<script")[0] and "<code>nonce</code>" in shown


def test_without_a_policy_there_is_no_verdict(keys):
    token = sdjwt.issue(ORDER)
    assert conditions(tree(keys, token)) == {} and "What the policy says" not in page(keys, token)


def test_a_policy_that_can_not_be_read_is_an_error(keys):
    Path("policy.json").write_text("{")
    status, out, err = keys("inspect", "-", "--policy", "policy.json", given=sdjwt.issue(ORDER).encode())
    assert (status, out) == (6, "") and err.startswith("unreadable 1 notJson\n")


def test_colours(keys, monkeypatch):
    token = sdjwt.issue(ORDER)
    assert "\x1b" not in tree(keys, token) and "\x1b" not in tree(keys, token, "--color", "never")
    coloured = tree(keys, token, "--color", "always")
    assert re.sub(r"\x1b\[[\d;]*m", "", coloured) == tree(keys, token) and coloured.count("\x1b[0m") == len(
        re.findall(r"\x1b\[[1-9]", coloured)
    )
    monkeypatch.setattr(sys.stdout, "isatty", lambda: True, raising=False)
    monkeypatch.setenv("TERM", "xterm")
    assert _program._is_coloured("auto")
    for name, value in (("NO_COLOR", "1"), ("TERM", "dumb")):
        with monkeypatch.context() as patch:
            patch.setenv(name, value)
            assert not _program._is_coloured("auto") and _program._is_coloured("always")
    monkeypatch.setenv("NO_COLOR", "")
    assert _program._is_coloured("auto")


def test_long_values_are_cut_unless_all_is_asked_for(keys):
    token = sdjwt.issue({"payload": {"photo": "x" * 10_000}, "key": KEY})
    assert ".. (10,002 letters)" in tree(keys, token) and "x" * 100 not in tree(keys, token)
    assert "x" * 10_000 in tree(keys, token, "--full")
    shown = page(keys, token)
    assert "10,002 letters in all" in shown and "x" * 10_000 not in shown


def test_claims_are_text_on_the_page_and_never_markup(keys):
    plain = Page(
        page(
            keys,
            sdjwt.issue(
                {
                    "payload": {"a": "b", "c": "d", "e": ["f"], "g": {"h": "i"}},
                    "hide": ["/a", "/e/0", "/g"],
                    "key": KEY,
                    "kid": "k",
                    "typ": "t",
                }
            ),
        )
    )
    order = {
        "payload": {MARKUP: MARKUP, f"{MARKUP}c": MARKUP, f"{MARKUP}e": [MARKUP], f"{MARKUP}g": {MARKUP: MARKUP}},
        "key": KEY,
        "kid": MARKUP,
        "typ": MARKUP,
    }
    places = [
        f"/{name}".replace("~", "~0").replace("</script>", "<~1script>")
        for name in (MARKUP, f"{MARKUP}e", f"{MARKUP}g")
    ]
    token = sdjwt.issue({**order, "hide": [places[0], f"{places[1]}/0", places[2]]})
    shown = Page(page(keys, token))
    # sorted, because digests stand in an order of their own
    assert sorted(tag for tag, _ in shown.elements) == sorted(tag for tag, _ in plain.elements)
    assert (
        shown.elements.count(("script", {})) == 1
        and not shown.with_attribute("onerror")
        and not shown.with_attribute("src")
    )
    # a salt, a nonce and the like may be anything
    text, digest = disclosure(MARKUP, MARKUP, {MARKUP: [MARKUP]})
    binding = ".".join(
        [
            encoded(json.dumps({"alg": MARKUP, "typ": MARKUP}).encode()),
            encoded(json.dumps({"aud": MARKUP, "nonce": MARKUP, "sd_hash": MARKUP, "iat": 1}).encode()),
            "AA",
        ]
    )
    shown = page(
        keys,
        token_of(
            {"_sd": [digest, MARKUP], "x": {"...": MARKUP}, "_sd_alg": "sha-256"},
            text,
            header={"alg": MARKUP, MARKUP: MARKUP},
            binding=binding,
        ),
    )
    assert "<img" not in shown and shown.count("<script>") == 1 == shown.count("</script>") and "&lt;img src=x" in shown


def test_the_page_needs_nothing_else_and_allows_nothing_else(keys):
    shown = page(keys, sdjwt.issue(ORDER))
    parsed = Page(shown)
    policy = next(
        attributes["content"]
        for tag, attributes in parsed.elements
        if attributes.get("http-equiv") == "Content-Security-Policy"
    )
    hashes = {
        f"'sha256-{base64.b64encode(hashlib.sha256(text.encode()).digest()).decode()}'" for text in (STYLE, SCRIPT)
    }
    assert (
        policy.startswith("default-src 'none'; ")
        and set(re.findall(r"'sha256-[^']*'", policy)) == hashes
        and "unsafe" not in policy
    )
    assert f"<style>{STYLE}</style>" in shown and f"<script>{SCRIPT}</script>" in shown
    assert not any(
        name in ("src", "style", "srcset", "action") or name.startswith("on")
        for _, attributes in parsed.elements
        for name in attributes
    )
    assert all(attributes["href"].startswith("#") for _, attributes in parsed.with_attribute("href"))
    assert set(re.findall(r"https?://[^\s\"']*", shown)) == {"http://www.w3.org/2000/svg"}
    assert not re.search(r"url\(|@import|fetch\(|innerHTML|eval\(", STYLE + SCRIPT)


def test_a_line_leads_from_each_disclosure_to_its_place(keys):
    token = sdjwt.issue(ORDER)
    parsed = Page(page(keys, token))
    cards = {attributes["data-disclosure"] for _, attributes in parsed.with_attribute("data-disclosure")}
    sites = [attributes["data-opens"] for _, attributes in parsed.with_attribute("data-opens")]
    assert cards == set(sites) == {"0", "1", "2", "3"} and len(sites) == 4
    names = [attributes["id"] for _, attributes in parsed.with_attribute("id")]
    assert len(names) == len(set(names)) and {
        attributes["href"][1:] for _, attributes in parsed.with_attribute("href")
    } <= set(names)


def test_the_page_goes_where_it_is_asked_for(keys, tmp_path):
    token = sdjwt.issue(ORDER).encode()
    status, out, _ = keys("inspect", "-", "--html", "-", given=token)
    assert (
        status == 0
        and out.startswith("<!doctype html>\n")
        and out.endswith("</html>\n")
        and out.count("<!doctype") == 1
    )
    (tmp_path / "page.html").write_text("an older page that is longer " * 5000)
    assert page(keys, token.decode()).endswith("</html>\n")
    for name in (".", "no/such/folder/page.html", "a\0b", "/proc/page.html", "/dev/full"):
        status, out, err = keys("inspect", "-", "--html", name, given=token)
        assert (status, out) == (4, "") and err.startswith("unwritten "), name


BROKEN = {
    "no base64": "A",
    "no JSON": "AAAA",
    "a number": "MQ",
    "a list": encoded(b"[]"),
    "deep": encoded(b"[" * 5000 + b"]" * 5000),
    "deep objects": encoded(b'{"a":' * 300 + b"1" + b"}" * 300),
    "a fraction": encoded(b'{"a": 12.50, "b": 1e400, "c": NaN}'),
    "long digits": encoded(b'{"a": ' + b"9" * 6000 + b"}"),
    "half a pair": encoded(rb'{"\ud800": "\udfff"}'),
    "no text": encoded(b"\xff\xfe"),
    "_sd is a text": encoded(b'{"_sd": "abc"}'),
    "_sd of numbers": encoded(b'{"_sd": [1, null, {}], "x": [{"...": 1}]}'),
    "a hash that nobody knows": encoded(b'{"_sd_alg": ["x"], "_sd": ["abc"]}'),
    "exp is huge": encoded(b'{"exp": 99999999999999999999, "nbf": -5, "iat": true}'),
}


@pytest.mark.parametrize("name", BROKEN)
def test_broken_parts_are_shown_as_far_as_they_can_be_read(name, keys):
    text = BROKEN[name]
    for token in (token_of(text), token_of({"a": 1}, text), token_of({"a": 1}, binding=f"{text}.{text}.{text}"),
                  f"{text}.{encoded(b'{}')}.AA~", f"{encoded(b'{}')}.{text}.{text}~{text}~{text}.{text}.{text}"):
        said = tree(keys, token)
        assert said.startswith("SD-JWT of ") and said.encode()
        assert page(keys, token).endswith("</html>\n")


def test_numbers_stay_as_they_are_written(keys):
    said = tree(keys, token_of(encoded(b'{"a": 12.50, "b": 1e3, "c": -0, "d": 123456789012345678901234567890}')))
    found = re.findall(r"─ [abcd]  (\S+)", said)
    assert found == ["12.50", "1e3", "-0", "123456789012345678901234567890"]


def test_the_index_of_an_element_is_that_of_the_claims(keys):
    token = sdjwt.issue({**ORDER, "hide": ["/seats/0", "/seats/1"]})
    said = tree(keys, sdjwt.present({"keys": KEYS, "want": ["/seats/1"]}, token))
    assert re.search(r"\[0\]  \"B13\"  opened by disclosure", said) and "[1]" not in said
    assert "hidden or decoy  digest" in said and re.search(r"^  0  \S+  /seats/0  ", said, re.M)


def test_a_disclosure_that_belongs_to_no_digest(keys):
    said = tree(keys, token_of({"a": 1}, disclosure("s", "b", 2)[0]))
    assert "fits nowhere" in said and "belongs to no digest of this token" in said
    assert "It fits no digest of this token." in page(keys, token_of({"a": 1}, disclosure("s", "b", 2)[0]))


def test_a_digest_that_comes_twice_is_opened_once(keys):
    text, digest = disclosure("s", "b", 2)
    token = token_of({"_sd": [digest], "x": {"_sd": [digest]}}, text)
    assert tree(keys, token).count("opened by disclosure 0") == 1
    assert page(keys, token).count('id="site-0"') == 1


def test_disclosures_that_open_each_other_twice_do_not_grow_without_end(keys):
    text, digest = disclosure("s", "end", 1)
    texts = [text]
    for level in range(60):
        text, digest = disclosure("s", f"m{level}", {"a": {"_sd": [digest]}, "b": {"_sd": [digest]}})
        texts.append(text)
    token = token_of({"_sd": [digest]}, *texts)
    assert len(tree(keys, token)) < 100_000 and len(page(keys, token)) < 1_000_000


def test_a_chain_of_disclosures_that_is_very_long(keys):
    text, digest = disclosure("s", "end", 1)
    texts = [text]
    for level in range(500):
        text, digest = disclosure("s", "m", {"_sd": [digest]})
        texts.append(text)
    token = token_of({"_sd": [digest]}, *texts)
    assert "nests too deep to be shown" in tree(keys, token) and "nests too deep to be shown" in page(keys, token)


def test_names_and_values_that_a_terminal_would_obey(keys):
    token = token_of({"a\x1b[31m\x9b": "\u202e\x07", "b\nc": "\u2028", "_sd": ["\x1b[2J"]})
    for text in (tree(keys, token), page(keys, token)):
        assert not re.search("[\x00-\x09\x0b-\x1f\x7f-\x9f\u202e\u2028]", text)
    assert '"a\\u001b[31m\\u009b"  "\\u202e\\u0007"' in tree(keys, token)


def test_all_forms_of_a_token_are_shown_alike(keys):
    token = sdjwt.issue(ORDER)
    for form in ("flat", "general"):
        assert tree(keys, json.dumps(sdjwt.convert(form, token))) == tree(keys, token)


def test_the_modules_of_inspect_take_nothing_of_the_rules():
    for module in (_inspect, _inspect_text, _inspect_page):
        source = Path(module.__file__).read_text(encoding="utf-8")
        assert "hmac" not in source and "cryptography" not in source and "_library" not in source


@pytest.fixture(scope="module")
def browser():
    """A page of Chromium, led by what leads it for the check of the service."""
    if not (SERVICE / "chromium.py").is_file():
        pytest.skip("there is no examples/service beside the tests")
    sys.path.append(str(SERVICE))
    from chromium import Page as Led
    from chromium import chromium

    led = Led(chromium() or pytest.skip("there is no chromium"))
    yield led
    led.close()


# Whether each line begins at the digest of its disclosure and ends at the disclosure.
LINES = """(() => {
  const frame = document.querySelector(".join").getBoundingClientRect();
  return [...document.querySelectorAll(".lines path")].every((line, number) => {
    const card = document.getElementById(`disclosure-${number}`).getBoundingClientRect();
    const pieces = [...document.getElementById(`site-${number}`).getClientRects()];
    const first = line.getPointAtLength(0), last = line.getPointAtLength(line.getTotalLength());
    const y = first.y + frame.top, x = first.x + frame.left;
    return Math.abs(last.x + frame.left - card.left) < 2 && last.y + frame.top > card.top
      && last.y + frame.top < card.bottom
      && pieces.some((piece) => piece.top < y && y < piece.bottom && piece.left - 8 < x && x < piece.right + 8);
  });
})()"""


@pytest.mark.parametrize("scheme", ["light", "dark"])
@pytest.mark.parametrize("width", [360, 700, 1000, 1600])
def test_the_page_in_a_browser(width, scheme, browser, keys, tmp_path):
    from check_browser import POOR_CONTRAST

    payload = {**ORDER["payload"], MARKUP: MARKUP, "photo": "x" * 5000}
    page(keys, sdjwt.issue({**ORDER, "payload": payload}), "--key", "key.jwk", "--require", "nothing")
    browser.look(width, 900, scheme)
    browser.open((tmp_path / "page.html").as_uri())
    browser.wait("document.querySelectorAll('.lines path[d]').length === 4")
    assert browser.get("innerWidth") == width and browser.get("document.documentElement.scrollWidth") <= width
    assert browser.get(LINES) and not browser.get(POOR_CONTRAST)
    back = browser.get("getComputedStyle(document.body).backgroundColor")
    assert back == {"light": "rgb(255, 255, 255)", "dark": "rgb(20, 23, 30)"}[scheme]
    assert browser.get("document.title") == "Inside an SD-JWT"
    assert browser.get("document.querySelectorAll('img, script').length") == 1
    assert json.dumps(MARKUP) in browser.get("document.body.textContent") and not browser.faults


def test_a_browser_refuses_what_the_page_does_not_allow(browser, keys, tmp_path):
    """If a text of a token were markup after all, the Content-Security-Policy would be left."""
    shown = page(keys, sdjwt.issue(ORDER))
    bad = "<script>document.title = 'changed'</script><img src=/x onerror=\"document.title = 'changed'\">"
    (tmp_path / "page.html").write_text(shown.replace("<main>", f"<main>{bad}"), encoding="utf-8")
    browser.open((tmp_path / "page.html").as_uri())
    browser.wait("document.querySelectorAll('.lines path[d]').length === 4")
    assert browser.get("document.title") == "Inside an SD-JWT"
    assert any("Content Security Policy" in fault for fault in browser.faults)
    browser.faults.clear()
