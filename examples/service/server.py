"""The HTTP of the service: what is let in, for how long, and what goes with each answer. It knows nothing of tickets.

Each connection is for one request. The time of a request counts from the connection to the last byte, so that a slow
client cannot hold a thread; bodies and the number of connections have a bound too.
"""
from __future__ import annotations

import errno
import io
import json
import socket
import socketserver
import sys
import threading
import time
import traceback
from collections.abc import Callable
from http.server import BaseHTTPRequestHandler, ThreadingHTTPServer
from dataclasses import dataclass
from pathlib import Path
from typing import Any

from forms import Form, WrongField

HERE = Path(__file__).resolve().parent
MOST_BYTES = 100_000
MOST_CONNECTIONS = 64
FILES = {
    "/": ("page.html", "text/html"), "/style.css": ("style.css", "text/css"),
    "/icon.svg": ("icon.svg", "image/svg+xml"), "/page.js": ("page.js", "text/javascript"),
    "/draw.js": ("draw.js", "text/javascript"), "/wallet.js": ("wallet.js", "text/javascript")}
HEADERS = {
    "Content-Security-Policy":
        "default-src 'none'; script-src 'self'; style-src 'self'; img-src 'self'; connect-src 'self'; "
        "form-action 'none'; base-uri 'none'; frame-ancestors 'none'; require-trusted-types-for 'script'",
    "X-Content-Type-Options": "nosniff", "Referrer-Policy": "no-referrer", "Cache-Control": "no-store",
    "Cross-Origin-Opener-Policy": "same-origin", "Cross-Origin-Resource-Policy": "same-origin"}
BUSY = b"HTTP/1.0 503 Service Unavailable\r\nContent-Length: 0\r\nRetry-After: 5\r\n\r\n"

Json = dict[str, Any]


@dataclass(frozen=True)
class Offer:
    """What is served: `routes` answer a form, and `states` tell what an end knows. A request may take `seconds`."""

    routes: dict[str, Callable[[Form], Json]]
    states: dict[str, Callable[[], Json]]
    seconds: float


class _Problem(Exception):
    """A request that is not answered: the status, and why in words."""

    def __init__(self, status: int, words: str) -> None:
        super().__init__(words)
        self.status, self.words = status, words


class _Until(io.RawIOBase):
    """The bytes of a connection until a moment of the monotonic clock. A wait beyond it raises socket.timeout."""

    def __init__(self, connection: socket.socket, end: float) -> None:
        super().__init__()
        self._connection, self._end = connection, end

    def readable(self) -> bool:
        return True

    def readinto(self, room: Any) -> int:
        give_until(self._connection, self._end)
        return self._connection.recv_into(room)


def _json(answer: Json) -> tuple[bytes, str]:
    return json.dumps(answer).encode(), "application/json"


def give_until(connection: socket.socket, end: float) -> None:
    """The next call on a connection may last until this moment."""
    left = end - time.monotonic()
    if left <= 0:
        raise socket.timeout("the time of the request is over")
    connection.settimeout(left)


class Request(BaseHTTPRequestHandler):
    """One request. It has to name this machine as its host and, if it says where it comes from, this page."""

    server: Server
    server_version, sys_version = "tickets", ""

    def setup(self) -> None:
        super().setup()
        self._end = time.monotonic() + self.server.offer.seconds
        self.rfile = io.BufferedReader(_Until(self.connection, self._end))

    def do_GET(self) -> None:
        self._answer(self._get)

    def do_POST(self) -> None:
        self._answer(self._post)

    def _answer(self, serve: Callable[[], tuple[bytes, str]]) -> None:
        try:
            self._need_own_page()
            content, kind = serve()
        except _Problem as problem:
            self._send_problem(problem.status, {"problem": problem.words})
        except WrongField as wrong:
            self._send_problem(422, {"problem": wrong.words, "field": wrong.field})
        except Exception:
            traceback.print_exc()
            self._send_problem(500, {"problem": "The service failed. Its terminal says why."})
        else:
            self._send(200, content, kind)

    def _need_own_page(self) -> None:
        port = self.server.server_port
        hosts = [f"localhost:{port}", f"127.0.0.1:{port}", f"[::1]:{port}"]
        host = self.headers.get("Host", "")
        if host not in hosts:
            raise _Problem(403, f"This service answers to http://localhost:{port} only.")
        if self.headers.get("Origin", f"http://{host}") != f"http://{host}":
            raise _Problem(403, "This request comes from another page.")

    def _get(self) -> tuple[bytes, str]:
        if self.path in FILES:
            name, kind = FILES[self.path]
            return (HERE / name).read_bytes(), kind
        if self.path in self.server.offer.states:
            return _json(self.server.offer.states[self.path]())
        raise _Problem(404, "There is no such page.")

    def _post(self) -> tuple[bytes, str]:
        if self.path not in self.server.offer.routes:
            raise _Problem(404, "There is no such page.")
        return _json(self.server.offer.routes[self.path](self._form()))

    def _form(self) -> Form:
        """The JSON object of the request."""
        if self.headers.get_content_type() != "application/json":
            raise _Problem(415, "The request has to be JSON.")
        try:
            form = json.loads(self._body())
        except (RecursionError, ValueError):
            raise _Problem(400, "The request is not JSON.") from None
        if not isinstance(form, dict):
            raise _Problem(400, "The request has to be a JSON object.")
        return form

    def _body(self) -> bytes:
        length = self.headers.get("Content-Length", "")
        if not (length.isascii() and length.isdigit() and len(length) < 20):
            raise _Problem(411, "The request does not say how long it is.")
        if int(length) > MOST_BYTES:
            raise _Problem(413, f"The request is too long: it has more than {MOST_BYTES:,} bytes.")
        try:
            body = self.rfile.read(int(length))
        except socket.timeout:
            raise _Problem(408, "The request took too long.") from None
        except OSError:
            raise _Problem(400, "The request was cut off.") from None
        if len(body) < int(length):
            raise _Problem(400, "The request was cut off.")
        return body

    def _send_problem(self, status: int, problem: dict[str, str]) -> None:
        """Says what is wrong. What the client still sends is read for a moment, or it might not get to read this."""
        self._end = time.monotonic() + 1
        self._send(status, *_json(problem))
        self.wfile.flush()
        self.connection.shutdown(socket.SHUT_WR)
        waiting = io.BufferedReader(_Until(self.connection, self._end))
        left = 10 * MOST_BYTES
        try:
            while left > 0 and (read := waiting.read1(65_536)):
                left -= len(read)
        except OSError:
            pass

    def _send(self, status: int, content: bytes, kind: str) -> None:
        give_until(self.connection, self._end)
        self.send_response(status)
        about = {"Content-Type": f"{kind}; charset=utf-8", "Content-Length": str(len(content))}
        for name, value in {**HEADERS, **about}.items():
            self.send_header(name, value)
        self.end_headers()
        give_until(self.connection, self._end)
        self.wfile.write(content)

    def send_error(self, code: int, message: str | None = None, explain: str | None = None) -> None:
        """What http.server says of a request that it cannot read, without its page, which repeats what was sent."""
        self._send_problem(code, {"problem": "This is no request that the service answers."})

    def log_message(self, *_: object) -> None:
        pass


class Server(ThreadingHTTPServer):
    """A port of one address. `free` has the connections that may be served at once."""

    daemon_threads = True
    block_on_close = False
    request_queue_size = MOST_CONNECTIONS

    def __init__(self, family: int, port: int, offer: Offer, free: threading.Semaphore) -> None:
        self.address_family, self.offer, self._free = family, offer, free
        super().__init__(("::1" if family == socket.AF_INET6 else "127.0.0.1", port), Request)

    def server_bind(self) -> None:
        if self.address_family == socket.AF_INET6:
            self.socket.setsockopt(socket.IPPROTO_IPV6, socket.IPV6_V6ONLY, 1)
        # not that of HTTPServer, which asks the network for a name
        socketserver.TCPServer.server_bind(self)
        self.server_name, self.server_port = "localhost", self.server_address[1]

    def process_request(self, request: Any, client_address: Any) -> None:
        """Serves a connection on a thread of its own, if one is free."""
        if self._free.acquire(blocking=False):
            try:
                super().process_request(request, client_address)
            except BaseException:
                self._free.release()
                raise
        else:
            request.settimeout(0.1)
            try:
                request.sendall(BUSY)
            except OSError:
                pass
            self.shutdown_request(request)

    def process_request_thread(self, request: Any, client_address: Any) -> None:
        try:
            super().process_request_thread(request, client_address)
        finally:
            self._free.release()

    def handle_error(self, request: Any, client_address: Any) -> None:
        # a client that goes away is none of our errors
        if not isinstance(sys.exc_info()[1], OSError):
            super().handle_error(request, client_address)


def listen(port: int, offer: Offer) -> list[Server]:
    """Servers at 127.0.0.1 and, if this machine has it, at ::1, on one port. Port 0 takes one that is free at both."""
    free = threading.BoundedSemaphore(MOST_CONNECTIONS)
    for tries_left in reversed(range(20)):
        first = Server(socket.AF_INET, port, offer, free)
        try:
            return [first, Server(socket.AF_INET6, first.server_port, offer, free)]
        except OSError as fault:
            if fault.errno != errno.EADDRINUSE:
                return [first]  # without IPv6
            first.server_close()
            if port or not tries_left:
                raise
    raise AssertionError
