"""Starts the built program as `serve` on a free port of loopback, and sends it requests byte by byte."""
import os
import pathlib
import socket
import subprocess
import time
from collections.abc import Callable, Sequence

TOP = pathlib.Path(__file__).resolve().parent.parent.parent
PROGRAM = os.path.abspath(os.environ.get("GHG_PROGRAM") or TOP / "crates/ghg/out/ghg")
HOST = "127.0.0.1"
SECONDS = 60
# The body of the worked session of docs/SCRIPTS.md: one gas line, 291 bytes.
GAS = b"""act,kind,subject,name,year,value,low,high,unit,note
enter,span,,,1990,1991,1990,,,
enter,line,1A1a,ELEC.GAS,,Q10,,,,
enter,bind,ELEC.GAS,FC,,activity,GAS.TJ,,,
enter,bind,ELEC.GAS,EF,,factor,GAS.EF,,,
enter,activity,,GAS.TJ,1990,1000,,,TJ,
enter,factor,,GAS.EF,1990,56100,54300,58300,kg/TJ,
"""
HEADER = GAS[:GAS.index(b"\n") + 1]


def free_port() -> int:
    """A port that nobody has."""
    with socket.socket() as link:
        link.bind((HOST, 0))
        port: int = link.getsockname()[1]
        return port


class Service:
    """The program as a service of so many connections, in a `with` block; at its end it is stopped."""

    def __init__(self, connections: int, *words: str, folder: pathlib.Path | str | None = None,
                 before: Callable[[], None] | None = None, under: Sequence[str] = ()) -> None:
        """Starts it, by the command `under` if one is given, which has to become the program."""
        self.port = free_port()
        given = ["serve", "--port", str(self.port), "--connections", str(connections + 1), *words]
        self.process = subprocess.Popen([*under, PROGRAM, *given], stdin=subprocess.DEVNULL,
                                        stdout=subprocess.PIPE, cwd=folder, preexec_fn=before)

    def __enter__(self) -> "Service":
        """Waits until the program listens. The connection by which that is seen is its first."""
        until = time.monotonic() + SECONDS
        while True:
            try:
                socket.create_connection((HOST, self.port), timeout=SECONDS).close()
                return self
            except OSError:
                if self.process.poll() is not None or time.monotonic() > until:
                    self.__exit__()
                    raise AssertionError(f"the program does not serve: {self.process.returncode}") from None
                time.sleep(0.01)

    def __exit__(self, *_: object) -> None:
        if self.process.poll() is None:
            self.process.kill()
        self.process.wait()
        if self.process.stdout:
            self.process.stdout.close()

    def connect(self) -> socket.socket:
        """A connection to the program."""
        return socket.create_connection((HOST, self.port), timeout=SECONDS)

    def exchange(self, request: bytes) -> bytes:
        """Sends bytes over a connection of their own, closes its writing side, and reads to the end."""
        with self.connect() as link:
            try:
                link.sendall(request)
                link.shutdown(socket.SHUT_WR)
            except OSError:
                pass  # answered and closed already
            return read_to_the_end(link)

    def status(self) -> int:
        """The status that the program ends with."""
        return self.process.wait(timeout=SECONDS)


def read_to_the_end(link: socket.socket) -> bytes:
    """All that comes over a connection."""
    parts = []
    try:
        while part := link.recv(65536):
            parts.append(part)
    except ConnectionResetError:
        pass
    return b"".join(parts)


def post(name: str, body: bytes, *fields: str, version: str = "1.1", length: int | str | None = None) -> bytes:
    """A submission as a request."""
    lines = [f"POST /submissions/{name} HTTP/{version}", "Host: localhost", *fields]
    lines.append(f"Content-Length: {len(body) if length is None else length}")
    return "\r\n".join([*lines, "", ""]).encode("latin-1") + body


def get(table: str, year: int | str, *fields: str, version: str = "1.1") -> bytes:
    """A request for a table."""
    return "\r\n".join([f"GET /tables/{table}/{year} HTTP/{version}", *fields, "", ""]).encode("latin-1")


def reply(status: str, body: str | bytes, media: str = "application/json") -> bytes:
    """A whole reply: a text as JSON, or the bytes of a table."""
    if isinstance(body, str):
        body = b'{"reply":"%b"}' % body.encode("ascii")
    fields = [f"content-type: {media}", f"content-length: {len(body)}", "connection: close"]
    return "\r\n".join([f"HTTP/1.1 {status}", *fields, "", ""]).encode("ascii") + body


def table(body: bytes) -> bytes:
    """The whole reply with a table."""
    return reply("200 OK", body, "text/csv")
