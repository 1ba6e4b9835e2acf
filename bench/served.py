"""A `podd` that is started and ended by its process id, and a client of it over a plain socket."""
import contextlib
import os
import re
import shutil
import socket
import subprocess
import time
from collections.abc import Iterator
from typing import NamedTuple

TOP = os.path.join(os.path.dirname(os.path.abspath(__file__)), "..")
BASE, OWNER, TOKEN = "http://127.0.0.1:8080/", "https://alice.example/#me", "token-of-alice"
STATUS = re.compile(rb"HTTP/1\.[01] (\d{3})")
# How long a program, a connection and a response may take, in seconds. A program that was built with checks is slow.
PATIENCE = 60


def built(given: list[str]) -> list[str]:
    """The paths of `podd` and `podctl`: those that were given, or else those that were proved and built last."""
    programs = [os.path.abspath(path) for path in given] or [os.path.join(TOP, "crates", name, "out", name) for name in ("podd", "podctl")]
    for program in programs:
        if not os.access(program, os.X_OK):
            raise SystemExit(f"{program} is not built: run `rt run` in its crate first")
    return programs


def run(command: list[str], folder: str, **how) -> subprocess.CompletedProcess:
    """Runs a program in a folder to its end."""
    return subprocess.run(command, cwd=folder, stdout=subprocess.PIPE, stderr=subprocess.PIPE, timeout=PATIENCE, **how)


def new_store(podctl: str, folder: str) -> None:
    """Makes a store and a table of tokens in the folder."""
    done = run([podctl, "init", "--base", BASE, "--owner", OWNER], folder)
    assert done.returncode == 0, done
    shutil.copy(os.path.join(TOP, "examples", "pod.tokens"), folder)


class Counts(NamedTuple):
    """What `podctl check` prints of a store."""

    rows: int
    entries: int
    next: int


def checked(podctl: str, folder: str) -> Counts:
    """What a store holds, which must open."""
    done = run([podctl, "check"], folder)
    assert done.returncode == 0, f"the store doesn't open: {done}"
    return Counts(*map(int, re.fullmatch(rb"rows=(\d+) entries=(\d+) next=(\d+)\n", done.stdout).groups()))


def free_port() -> int:
    """A port of loopback that nothing listens on."""
    with socket.socket() as one:
        one.bind(("127.0.0.1", 0))
        return one.getsockname()[1]


def begun(program: str, folder: str, workers: int, port: int, **how) -> subprocess.Popen:
    """`podd` over the store of the folder, once it takes connections or has ended."""
    words = [program, "--port", str(port), "--workers", str(workers)]
    running = subprocess.Popen(words, cwd=folder, stdin=subprocess.DEVNULL, stdout=subprocess.DEVNULL, stderr=subprocess.DEVNULL, **how)
    end = time.monotonic() + PATIENCE
    while running.poll() is None and time.monotonic() < end:
        with contextlib.suppress(OSError), socket.create_connection(("127.0.0.1", port), timeout=1):
            break
        time.sleep(0.002)
    return running


@contextlib.contextmanager
def podd(program: str, folder: str, workers: int = 4, ports: int = 5, **how) -> Iterator[tuple[subprocess.Popen, int]]:
    """`podd` on a port that it can open, of so many that are tried, and that port. It is killed at the end of the block."""
    for _ in range(ports):
        port = free_port()
        running = begun(program, folder, workers, port, **how)
        if running.poll() != 11:
            break
    try:
        yield running, port
    finally:
        running.kill()
        running.wait()


class Response(NamedTuple):
    """A response: all of its bytes, the body, and whether it came to its end."""

    status: int
    text: bytes
    body: bytes
    is_whole: bool

    def field(self, name: bytes) -> bytes:
        """The value of the field of that name, or nothing."""
        found = re.search(rb"(?im)^" + name + rb": (.*)\r$", self.text[: len(self.text) - len(self.body)])
        return found[1] if found else b""


class Unanswered(Exception):
    """The connection ended, and no response had begun."""


class Client:
    """One connection of the owner's."""

    def __init__(self, port: int, token: str = TOKEN) -> None:
        self.socket = socket.create_connection(("127.0.0.1", port), timeout=PATIENCE)
        self.socket.setsockopt(socket.IPPROTO_TCP, socket.TCP_NODELAY, 1)
        self.token, self.rest = token, b""

    def __enter__(self) -> "Client":
        return self

    def __exit__(self, *_) -> None:
        self.socket.close()

    def request(self, method: str, path: str, body: bytes | None = None, *fields: str) -> bytes:
        """The text of a request."""
        lines = [f"{method} {path} HTTP/1.1", "Host: 127.0.0.1"]
        lines += [f"Authorization: Bearer {self.token}"] if self.token else []
        lines += [] if body is None else [f"Content-Length: {len(body)}"]
        return "\r\n".join([*lines, *fields, "", ""]).encode() + (body or b"")

    def more(self) -> bool:
        """Reads what comes next, unless that is the end."""
        try:
            piece = self.socket.recv(1 << 18)
        except ConnectionError:
            return False
        self.rest += piece
        return bool(piece)

    def length(self, has_body: bool) -> int | None:
        """The length of the response that begins what was read, once its head was."""
        head = self.rest.find(b"\r\n\r\n") + 4
        sized = re.search(rb"(?i)\r\ncontent-length: (\d+)\r\n", self.rest[:head])
        return head + int(sized[1]) if sized and has_body else head if head > 3 else None

    def response(self, has_body: bool = True) -> Response:
        """Reads one response. One that was cut after its status counts as one."""
        while (length := self.length(has_body)) is None or len(self.rest) < length:
            if not self.more():
                break
        status = STATUS.match(self.rest)
        if not status:
            raise Unanswered(self.rest)
        text, self.rest = self.rest[:length], self.rest[len(self.rest) if length is None else length :]
        return Response(int(status[1]), text, text[text.find(b"\r\n\r\n") + 4 :] if length else b"", len(text) == length)

    def ask(self, method: str, path: str, body: bytes | None = None, *fields: str) -> Response:
        """Sends a request, and reads its response."""
        try:
            self.socket.sendall(self.request(method, path, body, *fields))
        except ConnectionError as gone:
            raise Unanswered from gone
        return self.response(method != "HEAD")
