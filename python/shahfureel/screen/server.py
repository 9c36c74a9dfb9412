"""HTTP of the screen, by the standard library: one request to a connection, checked before anything is done for it.

It listens on 127.0.0.1 alone, and answers to that name only, so that no page of another site can ask it by a name that leads here. A
connection has its own thread. What a client can make the server wait for, and what it can make it hold, has a limit; when all places
are taken, the client goes that has kept the server waiting longest.
"""

from __future__ import annotations

import errno
import io
import json
import re
import select
import signal
import socket
import socketserver
import sys
import threading
import time
from contextlib import ExitStack, suppress
from http.server import BaseHTTPRequestHandler, HTTPServer
from pathlib import Path
from typing import Any, Callable, NoReturn

from .. import exact, files, table
from ..given import Refused, Usage
from .api import CALLS, Body, Malformed, Screen

ADDRESS = "127.0.0.1"
LINE_MAX, HEAD_MAX, BODY_MAX = 8_192, 16_384, 65_536  # bytes
REQUEST_SECONDS, ANSWER_SECONDS, CLOSE_SECONDS = 10.0, 10.0, 1.0
CLIENTS_MAX, COMPUTING_MAX = 32, 4
LONG = ("plan", "day")  # calls that may take seconds: one place is always left for the others
PLACE_SECONDS = 2.0  # so long a request waits for one of the places to compute
PATIENCE_SECONDS = 0.25  # so long a new client waits for a place before another goes for it
LOOK_SECONDS = 0.05  # how often a plan looks whether its client has gone
END_SECONDS = 0.25  # how often the server looks whether it is to end

_HEAD_END = re.compile(rb"\n\r?\n")
_HEAD = re.compile(rb"[A-Z]+ (/[!-~]*) HTTP/1\.[01]\r?\n(?:[!-9;-~]+:[^\r\n\0]*\r?\n)*\r?\n")

PAGES = {
    "/": ("page.html", "text/html; charset=utf-8"),
    "/page.css": ("page.css", "text/css; charset=utf-8"),
    "/page.js": ("page.js", "text/javascript; charset=utf-8"),
}
JSON = "application/json"
HEADERS = {
    "Content-Security-Policy": "default-src 'none'; script-src 'self'; style-src 'self'; connect-src 'self'; img-src 'self' data:;"
    " base-uri 'none'; form-action 'none'; frame-ancestors 'none'",
    "X-Content-Type-Options": "nosniff",
    "Referrer-Policy": "no-referrer",
    "Cache-Control": "no-store",
    "Cross-Origin-Resource-Policy": "same-origin",
    "Cross-Origin-Opener-Policy": "same-origin",
    "Connection": "close",
}


class Fault(Exception):
    """A request that is answered by a fault: its status, words, and headers besides."""

    def __init__(self, status: int, words: str, **headers: str) -> None:
        self.status, self.words, self.headers = status, words, headers
        super().__init__(words)


# ---- JSON


def _no_number(text: str) -> NoReturn:
    raise Malformed(f'{text[:40]}: no such number is taken: amounts are texts, such as "23.5"')


def _whole(text: str) -> int:
    return int(text) if len(text) < 20 else _no_number(text)


def _object(pairs: list[tuple[str, Any]]) -> Body:
    found = dict(pairs)
    if len(found) < len(pairs):
        name = next(name for k, (name, _) in enumerate(pairs) if name in dict(pairs[:k]))
        raise Malformed(f"the field {exact.quoted(name)} is there twice: send it once")
    return found


def read_json(data: bytes) -> Body:
    """A JSON object from its bytes."""
    try:
        value = json.loads(
            data.decode("utf-8"), object_pairs_hook=_object, parse_int=_whole, parse_float=_no_number, parse_constant=_no_number
        )
    except (ValueError, RecursionError) as error:
        why = "it is nested too deeply" if isinstance(error, RecursionError) else str(error)
        raise Malformed(f"the body is no JSON in UTF-8: {why}") from None
    if not isinstance(value, dict):
        raise Malformed('the body is JSON, but no object: send one such as {"demand": "23.5"}')
    return value


# ---- a connection


class Client:
    """A client's socket, and the time that it has to send its request or to take its answer."""

    def __init__(self, connection: socket.socket) -> None:
        self.socket = connection
        self._waits: int | None = select.POLLIN  # what the server waits for: before its thread begins, the request
        self._since = self._end = time.monotonic()
        self._looked, self._gone = 0.0, False

    def within(self, seconds: float) -> None:
        """From now on it has so many seconds."""
        self._since = time.monotonic()
        self._end = self._since + seconds

    def _await(self, event: int, act: Callable[[], Any]) -> Any:
        """Receives or sends within the time that is left."""
        left = self._end - time.monotonic()
        if left <= 0:
            raise socket.timeout("the time is over")
        self.socket.settimeout(left)
        self._waits = event
        try:
            return act()
        finally:
            self._waits = None

    def receive(self, most: int) -> bytes:
        """What has come; nothing at the end of it."""
        data: bytes = self._await(select.POLLIN, lambda: self.socket.recv(most))
        return data

    def send(self, data: bytes) -> None:
        """Sends all of it."""
        rest = memoryview(data)
        while rest:
            part = rest[:65_536]
            rest = rest[self._await(select.POLLOUT, lambda: self.socket.send(part)) :]

    def _polled(self, events: int) -> bool:
        """Whether one of these has come, or the connection has ended."""
        poll = select.poll()
        try:
            poll.register(self.socket, events)
        except (OSError, ValueError):  # it is closed
            return True
        return bool(poll.poll(0))

    def awaited(self) -> float | None:
        """Since when the server waits for its request, or for it to take the answer; None where it is the server that is slow."""
        waits = self._waits
        return None if waits is None or self._polled(waits) else self._since

    def gone(self) -> bool:
        """Whether the client has closed its side; looked at from time to time."""
        if not self._gone and time.monotonic() - self._looked >= LOOK_SECONDS:
            self._looked, self._gone = time.monotonic(), self._polled(select.POLLRDHUP)
        return self._gone

    def dismiss(self) -> None:
        """Ends the connection, and what its thread waits for."""
        with suppress(OSError):
            self.socket.shutdown(socket.SHUT_RDWR)


class Handler(BaseHTTPRequestHandler):
    """One request and its answer."""

    server: Server
    request: Client
    protocol_version = "HTTP/1.1"
    command = requestline = ""

    def setup(self) -> None:
        """The base class would make files of the socket, whose reads and writes have no end in time."""

    def handle(self) -> None:
        with suppress(OSError):  # a client that has gone, or takes too long
            self._answer()
            self._drain()

    def finish(self) -> None:
        """Nothing is left to be written."""

    def handle_expect_100(self) -> bool:
        """The base class would have the body sent before anything is checked."""
        return True

    def log_message(self, format: str, *args: Any) -> None:
        """Nothing is said of a request."""

    def send_error(self, code: int, message: str | None = None, explain: str | None = None) -> NoReturn:
        """What the base class finds wrong with a request."""
        raise Fault(int(code), f"the request cannot be read: {message or code}")

    # ---- the request

    def _answer(self) -> None:
        headers: dict[str, str] = {}
        try:
            status, kind, data = self._asked()
        except Fault as fault:
            status, kind, data, headers = fault.status, JSON, _dumped({"fault": fault.words}), fault.headers
        except OSError:
            raise
        except Exception as error:  # a fault of the server's own
            self.server.say_fault(self.requestline, error)
            status, kind, data = 500, JSON, _dumped({"fault": "the server has a fault of its own: its standard error names it; ask again"})
        self._send(status, kind, data, headers)

    def _asked(self) -> tuple[int, str, bytes]:
        """The status, kind and bytes of the answer."""
        self.request.within(REQUEST_SECONDS)
        rest = self._read_head()
        self._check_host()
        path = self.path.partition("?")[0]
        name = path[len("/api/") :] if path.startswith("/api/") else ""
        if path in self.server.pages:
            self._check_method("GET", "HEAD")
            return 200, *self.server.pages[path]
        if name not in CALLS:
            raise Fault(404, f"there is no {path[:80]} here: the page is at /")
        self._check_method("POST")
        return self._call(name, self._read_body(rest))

    def _read_head(self) -> bytes:
        """Reads the request's line and headers, and returns what has come of the body."""
        head, end = b"", None
        while end is None and len(head) <= HEAD_MAX:
            head += self._received(HEAD_MAX, bool(head))
            end = _HEAD_END.search(head)
        if b"\n" not in head[:LINE_MAX]:
            raise Fault(414, f"the request's line has more than {LINE_MAX} bytes: send a shorter one")
        if end is None or end.end() > HEAD_MAX:
            raise Fault(431, f"the request's headers have more than {HEAD_MAX} bytes: send fewer")
        read = _HEAD.fullmatch(head, 0, end.end())
        if read is None:
            raise Fault(400, "the request cannot be read: send HTTP/1.1, with a path from / on")
        self.rfile = io.BytesIO(read[0])
        self.raw_requestline = self.rfile.readline()
        self.parse_request()
        self.path = read[1].decode("ascii")  # the base class takes // for /
        return head[end.end() :]

    def _received(self, most: int, begun: bool) -> bytes:
        """The next bytes of the request."""
        try:
            data = self.request.receive(most)
        except socket.timeout:
            if not begun:
                raise  # it has asked nothing
            raise Fault(408, f"the request was not complete within {REQUEST_SECONDS:.0f} seconds: send it again") from None
        if not data:
            raise ConnectionResetError("it ends before the request does")
        return data

    def _only(self, name: str) -> str | None:
        """A header that may be there once."""
        found = self.headers.get_all(name, [])
        if len(found) > 1:
            raise Fault(400, f"the header {name} is there twice: send it once")
        return found[0].strip(" \t") if found else None

    def _check_host(self) -> None:
        host, origin = self._only("Host"), self._only("Origin")
        if host is None or host.lower() not in self.server.hosts:
            raise Fault(403, f"this screen answers on this computer alone, as {self.server.url}: open that")
        if origin is not None and origin.lower() != f"http://{host.lower()}":
            raise Fault(403, f"another page may not ask this screen: open {self.server.url}")

    def _check_method(self, *methods: str) -> None:
        if self.command not in methods:
            raise Fault(405, f"{self.command[:20]} is not for this path: {' or '.join(methods)} is", Allow=", ".join(methods))

    def _read_body(self, body: bytes) -> Body:
        if (self._only("Sec-Fetch-Site") or "none") not in ("same-origin", "none"):
            raise Fault(403, f"another page may not ask this screen: open {self.server.url}")
        if self._only("Transfer-Encoding") is not None:
            raise Fault(501, "Transfer-Encoding is not taken: send the body as it is, with Content-Length")
        if (self._only("Content-Type") or "").partition(";")[0].strip().lower() != JSON:
            raise Fault(415, f"the body must be JSON, with Content-Type {JSON}")
        word = self._only("Content-Length")
        if word is None:
            raise Fault(411, "Content-Length is missing: send it, in bytes")
        if not word.isascii() or not word.isdigit():
            raise Fault(400, "Content-Length is no number of bytes: send one such as 20")
        length = int(word) if len(word) < 20 else BODY_MAX + 1
        if length > BODY_MAX:
            raise Fault(413, f"the body has more than {BODY_MAX} bytes: send less")
        if (self._only("Expect") or "").lower() == "100-continue":
            self.request.send(b"HTTP/1.1 100 Continue\r\n\r\n")
        while len(body) < length:
            body += self._received(length - len(body), True)
        try:
            return read_json(body[:length])
        except Malformed as fault:
            raise Fault(400, str(fault)) from None

    def _call(self, name: str, request: Body) -> tuple[int, str, bytes]:
        """Computes an answer in one of the places for it."""
        server = self.server
        with ExitStack() as taken:
            for places in [server.long_places, server.places] if name in LONG else [server.places]:
                if not places.acquire(timeout=PLACE_SECONDS):
                    raise Fault(503, "the screen is busy with other questions: ask again in a moment", **{"Retry-After": "1"})
                taken.callback(places.release)
            try:
                return 200, JSON, _dumped(server.screen.answer(name, request, self._go_on))
            except Malformed as fault:
                raise Fault(400, str(fault)) from None
            except Refused as refused:
                return 422, JSON, _dumped({"refused": refused.number, "words": refused.lines})
            except OSError as error:  # none of the connection's
                raise RuntimeError(str(error)) from error

    def _go_on(self) -> bool:
        """Ends what nobody waits for any more: half of a search is no answer. Else it says that nothing is to stop."""
        if self.server.ending:
            raise Fault(503, "the screen ends: start it again, and ask then")
        if self.request.gone():
            raise Fault(400, "the connection was closed at your side: keep it open until the answer has come")
        return False

    # ---- the answer

    def _send(self, status: int, kind: str, data: bytes, headers: dict[str, str]) -> None:
        fields = {"Content-Type": kind, "Content-Length": str(len(data)), **HEADERS, **headers}
        words = self.responses.get(status, ("",))[0]
        head = "".join([f"HTTP/1.1 {status} {words}\r\n", *(f"{name}: {value}\r\n" for name, value in fields.items()), "\r\n"])
        self.request.within(ANSWER_SECONDS)
        self.request.send(head.encode("ascii") + (b"" if self.command == "HEAD" else data))

    def _drain(self) -> None:
        """Takes what still comes, for a moment: closed before, the connection would take the answer from the client again."""
        self.request.within(CLOSE_SECONDS)
        self.request.socket.shutdown(socket.SHUT_WR)
        while self.request.receive(65_536):
            pass


def _dumped(body: Body) -> bytes:
    return json.dumps(body).encode("ascii")


# ---- the server


class Server(socketserver.ThreadingMixIn, HTTPServer):
    """The screen's server; the port is bound at once."""

    daemon_threads, block_on_close = True, False
    allow_reuse_port = False  # two screens at one port would answer by turns
    request_queue_size = 256

    def __init__(self, screen: Screen, port: int) -> None:
        here = Path(__file__).parent
        self.screen, self.ending = screen, False
        self.pages = {path: (kind, files.read(str(here / name), table.BYTES_MAX)) for path, (name, kind) in PAGES.items()}
        self.places, self.long_places = (threading.BoundedSemaphore(number) for number in (COMPUTING_MAX, COMPUTING_MAX - 1))
        self.clients: set[Client] = set()
        self._left = threading.Condition()
        super().__init__((ADDRESS, port), Handler)
        port = self.server_address[1]
        self.url = f"http://{ADDRESS}:{port}/"
        self.hosts = {host for name in (ADDRESS, "localhost") for host in [f"{name}:{port}", *([name] if port == 80 else [])]}

    def server_bind(self) -> None:
        socketserver.TCPServer.server_bind(self)  # HTTPServer would look its name up

    def get_request(self) -> tuple[Any, Any]:
        try:
            connection, address = super().get_request()
        except OSError:  # no descriptor is left, say: not again at once
            time.sleep(LOOK_SECONDS)
            raise
        return Client(connection), address

    def process_request(self, request: Any, client_address: Any) -> None:
        """Gives a new client a place, and a thread."""
        with self._left:
            self._make_room()
            self.clients.add(request)
        super().process_request(request, client_address)

    def _make_room(self) -> None:
        """Waits for a place. Where none is given back, the client goes that has kept the server waiting longest; one that the server
        keeps waiting does not."""
        begun = time.monotonic()
        while len(self.clients) >= CLIENTS_MAX and not self.ending:
            awaited = [(since, client) for client in self.clients for since in [client.awaited()] if since is not None]
            since, longest = min(awaited, key=lambda pair: pair[0], default=(begun, None))
            if longest is not None and time.monotonic() >= min(begun, since) + PATIENCE_SECONDS:
                longest.dismiss()
                self.clients.remove(longest)
            else:
                self._left.wait(PATIENCE_SECONDS / 5)

    def shutdown_request(self, request: Any) -> None:
        with self._left:
            self.clients.discard(request)
            self._left.notify()
        request.socket.close()

    def handle_error(self, request: Any, client_address: Any) -> None:
        error = sys.exc_info()[1]
        if isinstance(error, Exception):
            self.say_fault("a connection", error)

    def say_fault(self, of: str, error: Exception) -> None:
        """A fault of the server's own, in one line on standard error."""
        trace, place = error.__traceback__, ""
        while trace is not None:
            place, trace = f"{Path(trace.tb_frame.f_code.co_filename).name}, line {trace.tb_lineno}", trace.tb_next
        with suppress(OSError, ValueError, AttributeError):
            sys.stderr.write(f"fault of the screen: {of[:80]!r}: {type(error).__name__}: {' '.join(str(error).split())[:400]} ({place})\n")
            sys.stderr.flush()


def serve(screen: Screen, port: int, ready: Callable[[str], int]) -> int:
    """Serves until SIGINT or SIGTERM. `ready` is told the address, and ends it by a status other than 0."""
    try:
        server = Server(screen, port)
    except OSError as error:
        taken = error.errno == errno.EADDRINUSE
        why = "it is taken, by another screen perhaps" if taken else error.strerror or str(error)
        raise Usage(f"port {port}: {why}: give another one by --port, or --port 0 for any that is free") from None
    ends = {signal.SIGINT, signal.SIGTERM}
    signal.pthread_sigmask(signal.SIG_BLOCK, ends)  # of all threads that begin now, and to the end: a second one changes nothing
    try:
        threading.Thread(target=server.serve_forever, args=(END_SECONDS,), daemon=True).start()
        status = ready(server.url)
        if not status:
            signal.sigwait(ends)
        server.ending = True  # what computes ends by itself, and is not waited for
        server.shutdown()
        return status
    finally:
        server.server_close()
