"""What a run of a program costs, and requests of the owner to `podctl pipe`."""
import json
import os
import re
import subprocess
import sys
import tempfile
from typing import NamedTuple

from stored import OWNER_IRI, copy_store

RUNS = 5
FRESH = ["pipe", "--fresh", OWNER_IRI]
OWNED = ["pipe", "--owner"]


class Cost(NamedTuple):
    """What a run took: processor seconds, of the program and of the system for it; those of the program alone; seconds of the clock; and
    the most bytes of main memory. And what it wrote: how many bytes, and its error output."""

    used: float
    user: float
    seconds: float
    memory: int
    length: int
    errors: bytes


# Starts a program and says what it took. It is a process of its own, since the memory of a process counts for those that it starts.
RUNNER = """
import json, os, sys, time
os.set_inheritable(int(sys.argv[1]), False)
began = time.perf_counter()
_, status, usage = os.wait4(os.posix_spawn(sys.argv[2], sys.argv[2:], os.environ), 0)
took = time.perf_counter() - began
os.write(int(sys.argv[1]), json.dumps([status, usage.ru_utime, usage.ru_stime, took, usage.ru_maxrss * 1024]).encode())
"""


def run(command: list[str], place: str, said: str, given=subprocess.DEVNULL, status: int = 0) -> Cost:
    """Runs a command in a folder on an input to its end with this status, with its output in the file `said`."""
    told, telling = os.pipe()
    with open(said, "wb") as to, tempfile.TemporaryFile() as errors:
        runner = subprocess.Popen([sys.executable, "-c", RUNNER, str(telling), *command], cwd=place, stdin=given, stdout=to, stderr=errors, pass_fds=[telling])
        os.close(telling)
        with os.fdopen(told) as tale:
            ended, user, system, took, memory = json.loads(tale.read())
        runner.wait()
        errors.seek(0)
        wrong = errors.read()
    assert os.waitstatus_to_exitcode(ended) == status, (command, ended, wrong)
    return Cost(user + system, user, took, memory, os.path.getsize(said), wrong)


def run_on(command: list[str], place: str, folder: str, data: str | None, runs: int = RUNS, kept: str | None = None) -> Cost:
    """The run that takes the least processor time, on an input from a file. The store in the folder is that of `kept` before each."""
    costs = []
    for _ in range(runs):
        if kept:
            copy_store(kept, place)
        with open(data or os.devnull, "rb") as given:
            costs.append(run(command, place, os.path.join(folder, "said"), given))
    return min(costs)


def said(folder: str) -> bytes:
    """What the last run wrote."""
    with open(os.path.join(folder, "said"), "rb") as file:
        return file.read()


def serve(podctl: str, requests: list[bytes], folder: str, status: bytes | None = None, runs: int = RUNS) -> Cost:
    """Serves requests of the owner to a new pod in memory. The last ones have that status, and all others a success."""
    data = os.path.join(folder, "requests")
    with open(data, "wb") as file:
        for one in requests:
            file.write(one)
    cost = run_on([podctl, *FRESH], folder, folder, data, runs)
    assert cost.errors == b"end: peer\n", cost.errors
    found = said(folder)
    good = len(re.findall(rb"HTTP/1\.1 2\d\d ", found))
    others = found.count(b"HTTP/1.1 " + status) if status else 0
    assert good + others == len(requests) and (others > 0) == bool(status), found[:300]
    return cost


def request(method: str, path: str, body: bytes = b"", kind: str = "", fields: str = "") -> bytes:
    head = f"{method} {path} HTTP/1.1\r\nHost: 127.0.0.1:8080\r\n{fields}"
    if kind:
        head += f"Content-Type: {kind}\r\nContent-Length: {len(body)}\r\n"
    return head.encode() + b"\r\n" + body


def put(path: str, body: bytes, kind: str = "application/octet-stream") -> bytes:
    return request("PUT", path, body, kind)


def get(path: str, fields: str = "") -> bytes:
    return request("GET", path, fields=fields)
