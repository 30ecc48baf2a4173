"""Answers GET and HEAD at a port of 127.0.0.1 by texts that are made at that time."""
import sys
import threading
from http.server import BaseHTTPRequestHandler, ThreadingHTTPServer
from typing import Callable, Dict, Tuple

import networks

PATIENCE = 10  # seconds
HOSTS = "127.0.0.1", "localhost"

Pages = Dict[str, Tuple[str, Callable[[], str]]]


class Server(ThreadingHTTPServer):
    """`pages` are the type and the text of each path; `update` is called before a text is made,
    and raises `WrongInput` where none can be."""

    daemon_threads = True

    def __init__(self, port: int, update: Callable[[], None], pages: Pages):
        self.update, self.pages, self.lock = update, pages, threading.Lock()
        super().__init__(("127.0.0.1", port), Handler)

    def handle_error(self, request, client_address) -> None:
        """Somebody who does not wait for the answer is no fault of it."""
        if not isinstance(sys.exc_info()[1], ConnectionError):
            super().handle_error(request, client_address)

    def answer(self, path: str) -> Tuple[int, str, str]:
        """The status, the type and the text."""
        if path not in self.pages:
            return 404, "text/plain", f"here are {' '.join(self.pages)}\n"
        kind, made = self.pages[path]
        with self.lock:
            try:
                self.update()
                return 200, kind, made()
            except networks.WrongInput as fault:
                return 503, "text/plain; charset=utf-8", f"{fault}\n"


class Handler(BaseHTTPRequestHandler):
    timeout = PATIENCE  # for a request that does not come
    server_version = "hosed-metrics"

    def do_GET(self) -> None:
        self.wfile.write(self.head())

    def do_HEAD(self) -> None:
        self.head()

    def head(self) -> bytes:
        """Sends the head of the answer, and gives what follows it."""
        host = self.headers.get("Host", HOSTS[0]).rsplit(":", 1)[0]
        if host not in HOSTS:  # another name that leads here, as from a page elsewhere
            status, kind, text = 403, "text/plain", f"this is {HOSTS[0]}\n"
        else:
            status, kind, text = self.server.answer(self.path)
        content = text.encode("utf-8", "surrogateescape")
        self.send_response(status)
        self.send_header("Content-Type", kind)
        self.send_header("Content-Length", str(len(content)))
        self.send_header("Cache-Control", "no-store")
        self.end_headers()
        return content

    def log_message(self, *_) -> None:
        pass


def serve(port: int, update: Callable[[], None], pages: Pages) -> None:
    """Answers until the program is ended."""
    try:
        server = Server(port, update, pages)
    except OSError as fault:
        raise networks.WrongInput(f"127.0.0.1:{port} cannot be had: {fault.strerror}") from None
    with server:
        server.serve_forever()
