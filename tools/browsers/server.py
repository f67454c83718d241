"""One listener on the loopback address: web server for all hosts, plain and TLS, a proxy for them, and the place where the
pages ask what to do next."""

from __future__ import annotations

import json
import select
import shutil
import socket
import socketserver
import ssl
import subprocess
import tempfile
import threading
from http.server import BaseHTTPRequestHandler
from pathlib import Path
from urllib.parse import parse_qs, urlsplit

from .drivers import Missing
from .session import page_url
from .stage import PageRequest, Stage

CONTROL = "/@winproxy/"
POLL = 15.0


def certificate(folder: Path) -> ssl.SSLContext:
    """A context with a throw-away certificate, which browsers are told not to test."""
    if shutil.which("openssl") is None:
        raise Missing("openssl is missing: apt-get install openssl")
    subprocess.run(["openssl", "req", "-x509", "-newkey", "ec", "-pkeyopt", "ec_paramgen_curve:prime256v1", "-nodes", "-days", "2",
                    "-subj", "/CN=*.test", "-addext", "subjectAltName=DNS:*.test,DNS:test", "-keyout", "key.pem", "-out",
                    "certificate.pem"], cwd=folder, check=True, capture_output=True)
    context = ssl.SSLContext(ssl.PROTOCOL_TLS_SERVER)
    context.load_cert_chain(folder / "certificate.pem", folder / "key.pem")
    return context


class Handler(BaseHTTPRequestHandler):
    """A connection: plain, TLS, or either inside a tunnel that a proxy made."""

    protocol_version = "HTTP/1.1"
    scheme = "http"
    server: "Listener"

    def handle(self) -> None:
        try:
            self._look()
            super().handle()
        except (OSError, ssl.SSLError, ValueError):
            self.close_connection = True

    def finish(self) -> None:
        try:
            super().finish()
        except OSError:
            pass
        self.connection.close()

    def _look(self) -> None:
        """Begins TLS where the next byte is that of a TLS record."""
        if self.connection.recv(1, socket.MSG_PEEK) == b"\x16":
            self.connection = self.server.tls.wrap_socket(self.connection, server_side=True)
            self.scheme = "https"
            self.rfile = self.connection.makefile("rb")
            self.wfile = self.connection.makefile("wb", buffering=0)

    def do_CONNECT(self) -> None:
        self.send_response_only(200, "Connection established")
        self.end_headers()
        self._look()
        self.close_connection = False

    def do_GET(self) -> None:
        parts = urlsplit(self.path) if self.path.startswith("http") else None
        path = self.path if parts is None else f"{parts.path or '/'}{'?' + parts.query if parts.query else ''}"
        host = self.headers.get("Host", "") if parts is None else parts.netloc
        stage = self.server.stage
        if path.startswith(CONTROL):
            asked = parse_qs(urlsplit(path).query)
            if "doc" in asked:
                stage.shown(int(asked["doc"][0]), asked["token"][0])
            self._reply(200, b"", "image/svg+xml" if "doc" in asked else "text/html")
        elif "text/html" not in self.headers.get("Accept", "") or self.headers.get("Sec-Purpose"):
            self._reply(404, b"", "text/plain")
        else:
            request = PageRequest(page_url(f"{self.scheme}://{host}{path}"))
            stage.asked_for(request)
            text = self._held(request)
            if text is None:
                self.close_connection = True
            else:
                self._reply(200, text.encode(), "text/html; charset=utf-8")

    def _held(self, request: PageRequest) -> str | None:
        """The text of the page, once the coordinator lets it be shown. None where the browser gave it up."""
        while not request.released.wait(0.1):
            if select.select([self.connection], [], [], 0)[0]:
                request.given_up = True
                return None
        return request.text

    def do_POST(self) -> None:
        told = json.loads(self.rfile.read(int(self.headers["Content-Length"])))
        self._reply(200, json.dumps(self.server.stage.next_batch(told, POLL)).encode(), "text/plain")

    def _reply(self, status: int, body: bytes, kind: str) -> None:
        self.send_response(status)
        for name, value in (("Content-Type", kind), ("Content-Length", str(len(body))), ("Cache-Control", "no-store"),
                            ("Access-Control-Allow-Origin", "*"), ("Origin-Agent-Cluster", "?0")):
            self.send_header(name, value)
        self.end_headers()
        self.wfile.write(body)

    def log_message(self, format: str, *args) -> None:
        """Says nothing."""


class Listener(socketserver.ThreadingTCPServer):
    """The listener. `stage` is where the session of the moment is played."""

    daemon_threads = True
    allow_reuse_address = True
    request_queue_size = 256

    def __init__(self) -> None:
        super().__init__(("127.0.0.1", 0), Handler)
        self.stage = Stage()
        self._folder = tempfile.TemporaryDirectory()
        self.tls = certificate(Path(self._folder.name))
        threading.Thread(target=self.serve_forever, daemon=True).start()

    @property
    def port(self) -> int:
        return self.server_address[1]

    def handle_error(self, request, client_address) -> None:
        """A browser that hangs up is none of our concern."""

    def close(self) -> None:
        self.stage.clear()
        self.shutdown()
        self.server_close()
        self._folder.cleanup()
