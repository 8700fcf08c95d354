#!/usr/bin/env python3
"""Tries the service, with right and with wrong hands: by requests over HTTP, and in a browser.

    python3 check.py                  by requests
    python3 check.py --browser        also in Chromium, without a window; where there is none, that is said and skipped
    python3 check.py --browser --pictures FOLDER      also takes pictures of the page

What is skipped is a line "skipped: ..." of the output. The status is 0 if nothing failed.
"""
from __future__ import annotations

import argparse
import importlib.util
import json
import os
import shutil
import socket
import subprocess
import sys
import tempfile
import threading
import time
import urllib.error
import urllib.request
from base64 import urlsafe_b64decode, urlsafe_b64encode
from datetime import date
from pathlib import Path
from typing import Any, Callable

HERE = Path(__file__).resolve().parent
SLOW_SECONDS = 2
Json = dict[str, Any]
ADA: Json = {"event": "Jazz night", "name": "Ada", "seat": "B12", "born": "1990-12-10", "until": "2099-12-31"}
OVER_18 = ["/over_18"]
HOSTILE: list[Any] = [
    "", " ", "<script>document.title='x'</script>", "\"'><img src=x onerror=alert(1)>", "\x00\x01", "\u202e\U0001f600",
    "\ud800", "~" * 1_000, "a" * 50_000, "a" * 70_000, "{" * 5_000, "../../etc/passwd", "%s%n", "é" * 40_000, None,
    True, 0, -1, 10**400, 1.5, [], ["/seat", 7], ["/" * 2_000], [""] * 60, {}, {"x": 1, "y": 2},
    {"kty": "EC", "crv": "P-256", "x": "A" * 43, "y": "A" * 43}]


class Service:
    """The service, started for a check. At its end it has to have written no trace of an error."""

    def __init__(self, *options: str) -> None:
        self._errors = tempfile.TemporaryFile("w+")
        # a long time for a request, since the machine may be busy with more than this check
        words = [sys.executable, str(HERE / "service.py"), "0", "--request-seconds", "60", *options]
        self._process = subprocess.Popen(words, stdout=subprocess.PIPE, stderr=self._errors, text=True)
        assert self._process.stdout is not None
        self.base = self._process.stdout.readline().strip().rstrip("/")
        self.port = int(self.base.rpartition(":")[2] or 0)

    def __enter__(self) -> Service:
        if not self.base:
            sys.exit(self._end())
        return self

    def __exit__(self, *_: object) -> None:
        said = self._end()
        assert not said, said

    def _end(self) -> str:
        """Ends the service. Answers what it wrote as errors."""
        self._process.terminate()
        self._process.communicate(timeout=60)
        self._errors.seek(0)
        return self._errors.read()

    def ask(self, path: str, form: object = None, **headers: str) -> tuple[int, Json]:
        """The status and the JSON of an answer."""
        sent = None if form is None else form if isinstance(form, bytes) else json.dumps(form).encode()
        request = urllib.request.Request(self.base + path, sent, {"Content-Type": "application/json", **headers})
        try:
            with urllib.request.urlopen(request, timeout=20) as answer:
                return answer.status, json.load(answer)
        except urllib.error.HTTPError as fault:
            return fault.code, json.load(fault)

    def done(self, path: str, form: object = None) -> Json:
        status, answer = self.ask(path, form)
        assert status == 200, (path, status, answer)
        return answer

    def verdict(self, nonce: str, presented: str) -> Json:
        verdict: Json = self.done("/door/admit", {"nonce": nonce, "presented": presented})["verdict"]
        return verdict


class Holder:
    """A wallet with a key of its own, in the place of the browser's."""

    def __init__(self, service: Service) -> None:
        from cryptography.hazmat.primitives.asymmetric import ec
        self._service, self._key = service, ec.generate_private_key(ec.SECP256R1())
        point = self._key.public_key().public_numbers()
        self.jwk: Json = {"kty": "EC", "crv": "P-256", "x": _base64url(_32(point.x)), "y": _base64url(_32(point.y))}

    def ticket(self, **fields: str) -> str:
        form: Json = {**ADA, **fields, "holder": self.jwk}
        return str(self._service.done("/office/issue", form)["ticket"])

    def sign(self, text: str) -> str:
        from cryptography.hazmat.primitives import hashes
        from cryptography.hazmat.primitives.asymmetric import ec, utils
        r, s = utils.decode_dss_signature(self._key.sign(text.encode(), ec.ECDSA(hashes.SHA256())))
        return _base64url(_32(r) + _32(s))

    def present(self, ticket: str, demand: Json, show: list[str] = OVER_18) -> str:
        asked: Json = {"ticket": ticket, "show": show, "audience": demand["audience"], "nonce": demand["nonce"]}
        first = self._service.done("/wallet/present", asked)
        asked.update(at=first["at"], signature=self.sign(first["sign"]))
        return str(self._service.done("/wallet/present", asked)["presentation"])


def _32(number: int) -> bytes:
    return number.to_bytes(32, "big")


def _base64url(octets: bytes) -> str:
    return urlsafe_b64encode(octets).rstrip(b"=").decode()


def is_refused(verdict: Json, title: str) -> None:
    """Not admitted for this reason, with what to do, and without the words of files."""
    assert not verdict["admitted"] and verdict["title"] == f"Not admitted: {title}", verdict
    assert verdict["why"] and verdict["todo"], verdict
    words = f"{verdict['why']} {verdict['todo']}"
    assert not any(word in words for word in ("`", "policy", "binding", "skew", "`nonce`", "JSON", "kid")), words


def check_walk(service: Service) -> None:
    """A ticket is issued, one claim of it shown, and the door sees that claim and no other hidden one."""
    ada = Holder(service)
    ticket, demand = ada.ticket(), service.done("/door/ask", {})
    inside = service.done("/wallet/look", {"ticket": ticket})["view"]
    hidden = {row["label"]: row for row in inside["claims"] if row["digest"]}
    assert [*sorted(hidden)] == ["Date of birth", "Name", "Over 18", "Over 65", "Seat"] and not inside["hidden"], inside
    shown = ada.present(ticket, demand)
    answer = service.done("/door/admit", {"nonce": demand["nonce"], "presented": shown})
    assert answer["verdict"]["admitted"] and answer["verdict"]["title"] == "Admitted: over 18", answer
    seen = {row["label"]: row["text"] for row in answer["view"]["claims"]}
    assert seen["Over 18"] == "yes" and "Name" not in seen and "Ada" not in json.dumps(answer), answer
    others = {row["digest"] for label, row in hidden.items() if label != "Over 18"}
    assert set(answer["view"]["hidden"]) == others, "the door sees the digests of the other claims"
    assert answer["view"]["binding"] == {"audience": demand["audience"], "nonce": demand["nonce"]}
    assert service.done("/office")["tickets"][0]["name"] == "Ada"
    assert service.done("/door")["verdicts"][0]["title"] == "Admitted: over 18"


def check_stolen(service: Service) -> None:
    """A presentation is good once, and in no other visit."""
    ada, demand, other = Holder(service), service.done("/door/ask", {}), service.done("/door/ask", {})
    shown = ada.present(ada.ticket(), demand)
    assert service.verdict(demand["nonce"], shown)["admitted"]
    is_refused(service.verdict(demand["nonce"], shown), "shown before")
    is_refused(service.verdict(other["nonce"], shown), "made for another visit")
    is_refused(service.verdict("never given out", shown), "unknown visit")


def check_race(service: Service) -> None:
    """Of many requests at once with one nonce, one is admitted."""
    ada, demand = Holder(service), service.done("/door/ask", {})
    shown, titles = ada.present(ada.ticket(), demand), []

    def come() -> None:
        titles.append(service.verdict(demand["nonce"], shown)["title"])

    threads = [threading.Thread(target=come) for _ in range(20)]
    for thread in threads:
        thread.start()
    for thread in threads:
        thread.join()
    assert sorted(titles) == ["Admitted: over 18"] + ["Not admitted: shown before"] * 19, titles


def check_changed(service: Service) -> None:
    """A ticket of somebody who is too young, with its claim changed, and changes after the holder has signed."""
    eve = Holder(service)
    ticket = eve.ticket(born=f"{date.today().year - 10}-01-01")
    demand = service.done("/door/ask", {})
    is_refused(service.verdict(demand["nonce"], eve.present(ticket, demand)), "not over 18")
    demand = service.done("/door/ask", {})
    jwt, disclosure, binding = eve.present(ticket, demand).split("~")
    salt, name, _ = json.loads(urlsafe_b64decode(disclosure + "=" * (-len(disclosure) % 4)))
    changed = _base64url(json.dumps([salt, name, True]).encode())
    is_refused(service.verdict(demand["nonce"], f"{jwt}~{changed}~{binding}"), "changed")
    demand = service.done("/door/ask", {})
    jwt, over_18, seat, binding = eve.present(eve.ticket(), demand, [*OVER_18, "/seat"]).split("~")
    is_refused(service.verdict(demand["nonce"], f"{jwt}~{over_18}~{binding}"), "changed")
    demand = service.done("/door/ask", {})
    head, _, rest = eve.present(eve.ticket(), demand).partition(".")
    letter = "B" if rest[20] == "A" else "A"
    is_refused(service.verdict(demand["nonce"], f"{head}.{rest[:20]}{letter}{rest[21:]}"), "not from this office")


def check_others(service: Service) -> None:
    """Another holder's key, another office, another door, no signature of the holder, and no age."""
    ada, eve = Holder(service), Holder(service)
    ticket = ada.ticket()

    def refused(title: str, present: Callable[[Json], str]) -> None:
        demand = service.done("/door/ask", {})
        is_refused(service.verdict(demand["nonce"], present(demand)), title)

    refused("another person's ticket", lambda demand: eve.present(ticket, demand))
    refused("nobody vouches for it", lambda demand: ticket)
    refused("age not shown", lambda demand: ada.present(ticket, demand, ["/seat"]))
    elsewhere = {"audience": "https://elsewhere.example"}
    refused("made for another door", lambda demand: ada.present(ticket, {**demand, **elsewhere}))
    refused("made for another visit", lambda demand: ada.present(ticket, {**demand, "nonce": "mine"}))
    refused("no ticket", lambda demand: "")
    refused("no ticket", lambda demand: " \n ")
    refused("not a ticket", lambda demand: "a ticket, please")
    old = ada.ticket(until="2020-01-01")
    refused("the ticket has expired", lambda demand: ada.present(old, demand))
    with Service() as another:
        stranger = Holder(another)
        refused("not from this office", lambda demand: stranger.present(stranger.ticket(), demand))


def check_old() -> None:
    """A nonce that was given out too long ago."""
    with Service("--visit-seconds", "0.01") as service:
        ada, demand = Holder(service), service.done("/door/ask", {})
        shown = ada.present(ada.ticket(), demand)
        time.sleep(0.05)  # a fast machine has the ticket sooner
        is_refused(service.verdict(demand["nonce"], shown), "too late")
        is_refused(service.verdict(demand["nonce"], shown), "shown before")


def check_hostile(service: Service) -> int:
    """Each field of each form with what a stranger may send. Answers how many were sent."""
    ada, demand = Holder(service), service.done("/door/ask", {})
    ticket = ada.ticket()
    presented = ada.present(ticket, demand)
    forms: dict[str, Json] = {
        "/office/issue": {**ADA, "holder": ada.jwk}, "/wallet/look": {"ticket": ticket},
        "/wallet/present": {**demand, "ticket": ticket, "show": OVER_18, "at": 1, "signature": "A" * 86},
        "/door/admit": {**demand, "presented": presented}}
    tried = 0
    for path, form in forms.items():
        for name in form:
            for value in HOSTILE:
                status, answer = service.ask(path, {**form, name: value})
                assert status in (200, 413, 422), (path, name, value, status, answer)
                assert status == 200 or answer["problem"], answer
                tried += 1
        assert service.ask(path, {})[0] == 422
    nested = _hostile_token()
    deep = _base64url(b"[" * 900 + b"]" * 900)
    for value in (
            nested, ticket + "~", ticket * 2, presented[:-3], "." * 1_000, "e30.e30.~~", f"{ticket}e30.{deep}.e30"):
        assert service.ask("/wallet/look", {"ticket": value})[0] == 200
    assert service.done("/wallet/look", {"ticket": nested})["view"] is not None
    return tried


def _hostile_token() -> str:
    """A token that nobody signed, whose disclosures stand in one another at two places each."""
    from hashlib import sha256
    digest, disclosures = "end", []
    for number in range(250):
        text = _base64url(json.dumps([str(number), "<b>", {"_sd": [digest], "again": {"_sd": [digest]}}]).encode())
        digest = _base64url(sha256(text.encode()).digest())
        disclosures.append(text)
    jwt = ".".join(_base64url(json.dumps(part).encode()) for part in ({"alg": "ES256"}, {"_sd": [digest, 7, digest]}))
    return f"{jwt}.AAAA~{'~'.join(disclosures)}~"


def check_requests(service: Service) -> None:
    """Requests that are not the page's, and what comes with an answer."""
    issue: Json = {**ADA, "holder": Holder(service).jwk}
    assert service.ask("/office/issue", issue, Origin="http://evil.example")[0] == 403
    assert service.ask("/office/issue", issue, Host="evil.example")[0] == 403
    assert service.ask("/office/issue", issue, Origin="null")[0] == 403
    assert service.ask("/office/issue", issue, **{"Content-Type": "text/plain"})[0] == 415
    for body in (b"", b"{", b"[]", b"7", b"\xff", b"[" * 50_000, b'{"name": ' + b"9" * 50_000 + b"}"):
        assert service.ask("/office/issue", body)[0] in (400, 422), body
    assert service.ask("/office/issue", {"name": "x" * 200_000})[0] == 413
    for path in ("/other", "/../office.py", "/office.py", "/door/ask/"):
        assert service.ask(path)[0] == 404 and service.ask(path, {})[0] == 404, path
    with urllib.request.urlopen(service.base, timeout=20) as page:
        text, policy = page.read().decode(), page.headers["Content-Security-Policy"]
    assert "default-src 'none'" in policy and "unsafe" not in policy, policy
    assert "onclick=" not in text and "style=" not in text and "<style" not in text
    host = f"Host: localhost:{service.port}\r\n"
    head = f"POST /door/ask HTTP/1.1\r\n{host}Content-Type: application/json\r\n".encode()
    assert _raw(service, head, b"\r\n").startswith(b"HTTP/1.0 411 ")
    assert _raw(service, head, b"Content-Length: -1\r\n\r\n").startswith(b"HTTP/1.0 411 ")
    assert _raw(service, b"DELETE / HTTP/1.1\r\n\r\n").startswith(b"HTTP/1.0 501 ")
    assert b"<" not in _raw(service, b"<script> / HTTP/1.1\r\n\r\n").partition(b"\r\n\r\n")[2]
    for host in ("127.0.0.1", "[::1]") if has_ipv6() else ("127.0.0.1",):
        with urllib.request.urlopen(f"http://{host}:{service.port}/", timeout=20) as page:
            assert page.read().decode() == text, host


def has_ipv6() -> bool:
    try:
        with socket.socket(socket.AF_INET6) as tried:
            tried.bind(("::1", 0))
        return True
    except OSError:
        return False


def _raw(service: Service, *pieces: bytes, wait: float = 0.0) -> bytes:
    """What is answered to bytes that are sent piece by piece."""
    with socket.create_connection(("127.0.0.1", service.port), timeout=20) as connection:
        try:
            for piece in pieces:
                connection.sendall(piece)
                time.sleep(wait)
            return connection.recv(65_536)
        except ConnectionError:
            return b""


def check_slow() -> None:
    """A client that sends a byte now and then does not hold a thread for longer than a request may take."""
    with Service("--request-seconds", str(SLOW_SECONDS)) as service:
        host = f"Host: localhost:{service.port}\r\n"
        head = f"POST /door/ask HTTP/1.1\r\n{host}Content-Type: application/json\r\n".encode()
        slow_body = [head, b"Content-Length: 50\r\n\r\n", *[b" "] * 150]
        for pieces in (slow_body, [head, *[b"X: y\r\n"] * 90], [b"P", *[b"O"] * 150]):
            began = time.monotonic()
            answer = _raw(service, *pieces, wait=0.1)
            took = time.monotonic() - began
            assert SLOW_SECONDS - 0.2 < took < SLOW_SECONDS + 6 and b" 200 " not in answer, (took, answer)


def check_crowd() -> None:
    """With 64 connections open, the next is told to come again. Once they are gone, requests are served as before."""
    with Service() as service:
        crowd = [socket.create_connection(("127.0.0.1", service.port), timeout=20) for _ in range(64)]
        assert b" 503 " in _raw(service, b""), "there is no bound on connections"
        for connection in crowd:
            connection.close()
        end = time.monotonic() + 20
        while b" 503 " in _raw(service, b"GET /door HTTP/1.1\r\n\r\n"):
            assert time.monotonic() < end, "connections that are gone still count"
        service.done("/door/ask", {})


def check_start(service: Service) -> None:
    """What is missing is said, with what to do: the library, cryptography, or a port."""
    nowhere = {**os.environ, "SDJWT_LIBRARY": "/nowhere/libsdjwt.so"}
    with tempfile.TemporaryDirectory() as folder:
        alone = Path(shutil.copytree(HERE, Path(folder, "examples", "service")))
        for status, said, ended in (
                (1, "sh c/build.sh --look", _start(HERE, "0", environment=nowhere)),
                (1, "pip install ./sdjwt", _start(alone, "0", without="sdjwt")),
                (1, "pip install cryptography", _start(HERE, "0", without="cryptography")),
                (1, "Name another one", _start(HERE, str(service.port))),
                (2, "invalid choice: 70000", _start(HERE, "70000"))):
            assert ended.returncode == status and said in ended.stderr and "Traceback" not in ended.stderr, ended


def _start(
    folder: Path, port: str, without: str = "", environment: dict[str, str] | None = None,
) -> subprocess.CompletedProcess[str]:
    """Starts the service of a folder, as if a package was not installed."""
    start = "import runpy, sys; sys.modules[sys.argv.pop(1)] = None; sys.path.insert(0, sys.argv.pop(1)); " \
            "runpy.run_path(sys.path[0] + '/service.py', run_name='__main__')"
    words = [sys.executable, "-c", start, without or "no_package", str(folder), port]
    return subprocess.run(words, env=environment, capture_output=True, text=True, timeout=120)


def by_requests(service: Service) -> None:
    checks = [check_walk, check_stolen, check_race, check_changed, check_others, check_requests, check_start]
    for check in checks:
        check(service)
    of_their_own = [check_old, check_slow, check_crowd]
    for check_alone in of_their_own:
        check_alone()
    tried = check_hostile(service)
    print(f"by requests: {len(checks + of_their_own)} walks with right and wrong hands, and {tried} hostile fields")


def main() -> None:
    parser = argparse.ArgumentParser(description=__doc__, formatter_class=argparse.RawDescriptionHelpFormatter)
    parser.add_argument("--browser", action="store_true")
    parser.add_argument("--pictures", type=Path)
    given = parser.parse_args()
    if importlib.util.find_spec("cryptography") is None:
        print("skipped: the service (no package cryptography)")
        return
    with Service() as service:
        by_requests(service)
    if given.browser:
        from check_browser import by_browser
        with Service() as service:
            missing = by_browser(service, given.pictures)
        if missing:
            print(f"skipped: the service in a browser ({missing})")


if __name__ == "__main__":
    main()
