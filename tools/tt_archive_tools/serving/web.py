"""Requests and answers: which are taken, what each answer has in its head, and what is said where there is no page."""

from __future__ import annotations

import socket
import sys
import threading
from functools import lru_cache
from http.server import BaseHTTPRequestHandler, ThreadingHTTPServer
from importlib.resources import files
from typing import Callable, Mapping, Sequence

from ..errors import BadQuery, NotBuilt, ProgramFailed, ToolError
from ..queries import fault_shown
from . import finding, reading
from .addresses import ROUTES, Asked
from .frame import Page
from .markup import plain
from .standing import Away, Standing

#: So many requests are answered at once, and so many connections are open.
MOST_REQUESTS = 32
_MOST_CONNECTIONS = 128
#: So many seconds a client may take for its request.
PATIENCE = 10
_HEADERS = {
    "Content-Security-Policy": "default-src 'none'; style-src 'self'; script-src 'self'; img-src 'self'; form-action 'self'; "
    "base-uri 'none'; frame-ancestors 'none'",
    "X-Content-Type-Options": "nosniff",
    "Referrer-Policy": "same-origin",
    "Cross-Origin-Resource-Policy": "same-origin",
    "Cache-Control": "no-cache",
}
_HTML, _TEXT = "text/html; charset=utf-8", "text/plain; charset=utf-8"
_FILES = {
    "/page.css": ("page.css", "text/css; charset=utf-8"),
    "/page.js": ("page.js", "text/javascript; charset=utf-8"),
    "/favicon.ico": ("favicon.svg", "image/svg+xml"),
}
_PAGES: Mapping[str, tuple[Callable[[Page], str], str]] = {
    "/": (finding.home, "/find"),
    "/find": (finding.find, "/find"),
    "/between": (finding.between, "/between"),
    "/heat": (finding.heat, "/heat"),
    "/text": (reading.text, "/find"),
    "/diff": (reading.diff, "/find"),
    "/changes": (finding.changes, "/changes"),
    "/names": (finding.names, "/names"),
    "/timeline": (finding.word, "/find"),
}


@lru_cache
def _file(name: str) -> str:
    return files(__package__).joinpath(name).read_text(encoding="utf-8")


class Server(ThreadingHTTPServer):
    """A thread for each connection, and no more of them than `_MOST_CONNECTIONS`."""

    daemon_threads = True
    request_queue_size = 64

    def __init__(self, address: tuple[str, int], archive: Standing, names: Sequence[str]) -> None:
        self.address_family = socket.AF_INET6 if ":" in address[0] else socket.AF_INET
        super().__init__(address, Handler)
        self.archive = archive
        self.hosts = hosts_of(address[0], self.server_port, names)
        self.requests = threading.BoundedSemaphore(MOST_REQUESTS)
        self._connections = threading.BoundedSemaphore(_MOST_CONNECTIONS)

    def server_bind(self) -> None:
        """Without looking up the machine's name, which `http.server` does."""
        socket.socket.setsockopt(self.socket, socket.SOL_SOCKET, socket.SO_REUSEADDR, 1)
        self.socket.bind(self.server_address)
        self.server_address = self.socket.getsockname()
        self.server_name, self.server_port = self.server_address[:2]

    def process_request(self, request, client_address) -> None:  # type: ignore[no-untyped-def]
        if self._connections.acquire(blocking=False):
            super().process_request(request, client_address)
        else:
            self.shutdown_request(request)

    def process_request_thread(self, request, client_address) -> None:  # type: ignore[no-untyped-def]
        try:
            super().process_request_thread(request, client_address)
        finally:
            self._connections.release()

    def handle_error(self, request, client_address) -> None:  # type: ignore[no-untyped-def]
        if not isinstance(sys.exc_info()[1], OSError):  # a client that went away
            super().handle_error(request, client_address)


def hosts_of(bound: str, port: int, names: Sequence[str]) -> frozenset[str]:
    """What `Host` may be. A name that a browser was made to believe is another one's."""
    literal = f"[{bound}]" if ":" in bound else bound
    here = {literal, "localhost", "127.0.0.1"}
    ports = {"", f":{port}"} if port == 80 else {f":{port}"}
    named = {name.lower() + end for name in names for end in ("", f":{port}")}
    return frozenset({host + end for host in here for end in ports} | named)


class Handler(BaseHTTPRequestHandler):
    server: Server
    server_version, sys_version, protocol_version, timeout = "tt", "", "HTTP/1.1", PATIENCE

    def do_GET(self) -> None:
        if not self.server.requests.acquire(blocking=False):
            self._plain(503, "too many requests at once", {"Retry-After": "1"})
            return
        try:
            self._answer()
        except OSError:
            raise
        except Exception:  # a fault of the pages themselves: the server stays, and tells it in its own output
            self.close_connection = True
            self._plain(500, "this page failed; what it said stands in the output of `tt serve`")
            raise
        finally:
            self.server.requests.release()

    do_HEAD = do_GET

    def _answer(self) -> None:
        hosts = self.headers.get_all("Host") or []
        if len(hosts) != 1 or hosts[0].lower() not in self.server.hosts:
            self._plain(421, "another host is asked for; `tt serve --name HOST` serves it")
        elif self.headers.get("Content-Length", "0") != "0" or "Transfer-Encoding" in self.headers:
            self.close_connection = True
            self._plain(400, "a request here has no content")
        else:
            try:
                asked = Asked.of(self.path)
            except ValueError:
                self._plain(400, "the address can't be read")
            else:
                self._routed(asked)

    def _routed(self, asked: Asked) -> None:
        if asked.path in _FILES:
            name, kind = _FILES[asked.path]
            self._send(200, _file(name), kind)
        elif asked.path not in ROUTES:
            self._plain(404, "there is no such page")
        else:
            try:
                to = asked.canonical()
                if to != self.path:
                    self._send(303, "", _TEXT, {"Location": to})
                else:
                    self._page(asked)
            except ToolError as error:
                self._fault(asked, error)

    def _page(self, asked: Asked) -> None:
        if asked.path == "/text.txt":
            text = reading.plain_text(Page(self.server.archive, asked))
            self._send(404 if text is None else 200, "there is no text then\n" if text is None else text, _TEXT)
        else:
            function, view = _PAGES[asked.path]
            self._send(200, function(Page(self.server.archive, asked, view)), _HTML)

    def _fault(self, asked: Asked, error: ToolError) -> None:
        """The form as it was filled, and why there is no answer."""
        status = 404 if isinstance(error, reading.NotThere) else 503 if isinstance(error, (Away, ProgramFailed)) else 400
        status = 501 if isinstance(error, NotBuilt) else status
        more = {"Retry-After": "5"} if status == 503 else {}
        if asked.path == "/text.txt":
            self._plain(status, str(error), more)
            return
        view = _PAGES[asked.path][1]
        page = Page(self.server.archive, asked, view)
        shown = fault_shown(page.query, error.byte) if isinstance(error, BadQuery) else error.shown
        told = "That is no query" if isinstance(error, BadQuery) else str(error)
        lines = f'<pre class="fault">{plain(chr(10).join(shown))}</pre>' if shown else ""
        body = f'<p class="error" role="alert">{plain(told)}</p>{lines}'
        self._send(status, page.rendered("No answer", body), _HTML, more)

    def _plain(self, status: int, line: str, more: Mapping[str, str] = {}) -> None:
        self._send(status, line + "\n", _TEXT, more)

    def _send(self, status: int, body: str, kind: str, more: Mapping[str, str] = {}) -> None:
        data = body.encode("utf-8", "replace")
        if self.request_version == "HTTP/0.9":  # which has no head
            self.request_version, self.close_connection = "HTTP/1.0", True
        self.send_response(status)
        closes = {"Connection": "close"} if self.close_connection else {}
        for key, value in {"Content-Type": kind, "Content-Length": str(len(data)), **_HEADERS, **more, **closes}.items():
            self.send_header(key, value)
        self.end_headers()
        if self.command != "HEAD":
            self.wfile.write(data)

    def send_error(self, code: int, message: str | None = None, explain: str | None = None) -> None:
        """What `http.server` itself refuses: a broken request, or another method."""
        self.close_connection = True
        if code == 501:
            self._plain(405, "pages are only read: GET and HEAD", {"Allow": "GET, HEAD"})
        else:
            self._plain(code, "the request can't be read")

    def log_message(self, *words: object) -> None:
        """Requests aren't logged: they tell what people look for."""
