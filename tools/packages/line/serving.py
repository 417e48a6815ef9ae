"""The session as a page on this machine: one address of the loopback, one session, no file of its own.

A request is answered only where it names this page's host, and a command only where the page itself sent it: its origin
and the token in the page must be this session's. So no other page in the same browser reaches it.
"""

import hmac
import json
import secrets
import threading
from http import HTTPStatus
from http.server import BaseHTTPRequestHandler, ThreadingHTTPServer
from typing import Any

from line.line import Line
from line.page import page, state
from projects.faults import Refusal

LOOPBACK = "127.0.0.1"
LONGEST_COMMAND = 65_536
# These read or write files of this machine, which a page has no business with.
WITH_FILES = {"save", "declare"}
POLICY = "default-src 'none'; style-src 'unsafe-inline'; script-src 'nonce-{}'; connect-src 'self'; form-action 'none'"


class Server(ThreadingHTTPServer):
    """The page's server, with the session that it shows."""

    daemon_threads = True

    def __init__(self, line: Line, port: int) -> None:
        super().__init__((LOOPBACK, port), Handler)
        self.line, self.token, self.turn = line, secrets.token_urlsafe(24), threading.Lock()

    def hosts(self) -> set[str]:
        """How the page's host may be named."""
        return {f"{LOOPBACK}:{self.server_port}", f"localhost:{self.server_port}"}


class Handler(BaseHTTPRequestHandler):
    """Answers one request."""

    server: Server
    protocol_version = "HTTP/1.1"

    def do_GET(self) -> None:
        """The page."""
        if self.headers.get("Host") not in self.server.hosts():
            self.refuse(HTTPStatus.FORBIDDEN)
        elif self.path != "/":
            self.refuse(HTTPStatus.NOT_FOUND)
        else:
            nonce = secrets.token_urlsafe(16)
            self.reply(page(self.server.line, self.server.token, nonce), "text/html; charset=utf-8", nonce)

    def do_POST(self) -> None:
        """A command, or an empty one for the state alone; it is answered with its lines and the line's state."""
        if not self.is_from_page():
            self.refuse(HTTPStatus.FORBIDDEN)
        elif self.path != "/command":
            self.refuse(HTTPStatus.NOT_FOUND)
        elif (command := self.body()) is None:
            self.refuse(HTTPStatus.BAD_REQUEST)
        else:
            with self.server.turn:
                answer = answered(self.server.line, command)
            self.reply(json.dumps(answer), "application/json", "")

    def is_from_page(self) -> bool:
        """Whether the page of this session sent the request."""
        given = self.headers.get("X-Session", "")
        origins = {f"http://{host}" for host in self.server.hosts()}
        return (
            self.headers.get("Host") in self.server.hosts()
            and self.headers.get("Origin") in origins
            and hmac.compare_digest(given.encode(), self.server.token.encode())
        )

    def body(self) -> str | None:
        """The command that was sent, or None where it is none."""
        length = self.headers.get("Content-Length", "")
        if not length.isdecimal() or int(length) > LONGEST_COMMAND:
            self.close_connection = True
            return None
        try:
            return self.rfile.read(int(length)).decode()
        except UnicodeDecodeError:
            return None

    def reply(self, text: str, kind: str, nonce: str) -> None:
        """Sends a text."""
        content = text.encode()
        self.send_response(HTTPStatus.OK)
        self.send_header("Content-Type", kind)
        self.send_header("Content-Length", str(len(content)))
        self.send_header("Content-Security-Policy", POLICY.format(nonce))
        self.send_header("X-Content-Type-Options", "nosniff")
        self.send_header("Cache-Control", "no-store")
        self.end_headers()
        self.wfile.write(content)

    def handle_one_request(self) -> None:
        """Answers a request; a browser that has left gets no answer."""
        try:
            super().handle_one_request()
        except ConnectionError:
            self.close_connection = True

    def refuse(self, status: HTTPStatus) -> None:
        """Sends nothing but a status."""
        self.send_response(status)
        self.send_header("Content-Length", "0")
        self.send_header("Connection", "close")
        self.end_headers()
        self.close_connection = True

    def log_message(self, format: str, *arguments: Any) -> None:
        """Requests aren't logged."""


def answered(line: Line, command: str) -> dict[str, Any]:
    """The lines that a command is answered, and the state that it leaves."""
    try:
        if command.split()[:1] and command.split()[0] in WITH_FILES:
            raise Refusal("NotHere: a command with a file is given at the prompt")
        lines = line.respond(command)
    except Refusal as refusal:
        lines = [f"? {refusal}"]
    return {"lines": lines, **state(line)}


def serve(line: Line, port: int) -> None:
    """Shows the session on a page until it is interrupted."""
    try:
        server = Server(line, port)
    except (OSError, OverflowError) as error:
        raise Refusal(f"port {port}: {error}") from error
    print(f"http://{LOOPBACK}:{server.server_port}/ shows {line.name}; interrupt to end", flush=True)
    with server:
        try:
            server.serve_forever()
        except KeyboardInterrupt:
            print()
