"""The files of a store, as docs/rules/store-format.md describes them, and the pods that the figures are taken of."""
import os
import shutil
from collections.abc import Iterable

OWNER_IRI = "https://alice.example/#me"
# What a record takes in a journal beside its own bytes.
FRAME = 9


def number_form(number: int) -> bytes:
    return number.to_bytes(8, "big")


def text_form(text: bytes) -> bytes:
    """A text, or bytes: how many, and then they."""
    return number_form(len(text)) + text


BASE, OWNER, MOMENT = b"http://127.0.0.1:8080/", OWNER_IRI.encode(), 784_111_777
ACL, RDF_TYPE = b"http://www.w3.org/ns/auth/acl#", b"http://www.w3.org/1999/02/22-rdf-syntax-ns#type"


def row_head(path: bytes, kind: int) -> bytes:
    return text_form(path) + bytes([kind]) + number_form(MOMENT)


def bytes_row(path: bytes, length: int) -> bytes:
    """A row of bytes."""
    return row_head(path, 3) + text_form(b"text/plain") + text_form(b"x" * length)


def graph_row(path: bytes, kind: int, triples: list[tuple[bytes, bytes, bytes]]) -> bytes:
    """A row of triples of IRIs: kind 0 is a container, 1 a document, and 2 an access list."""
    lines = sorted(triples, key=lambda triple: b"<%b> <%b> <%b> ." % triple)
    return row_head(path, kind) + number_form(len(lines)) + b"".join(b"\0" + text_form(term) for triple in lines for term in triple)


def rule(container: bytes, name: bytes, agent: bytes) -> list[tuple[bytes, bytes, bytes]]:
    """A rule that gives an agent every mode on a container and on what is below it."""
    node, top = BASE + container[1:] + b".acl#" + name, BASE + container[1:]
    pairs = [(RDF_TYPE, ACL + b"Authorization"), (ACL + b"accessTo", top), (ACL + b"default", top), (ACL + b"agent", agent)]
    return [(node, *pair) for pair in pairs + [(ACL + b"mode", ACL + mode) for mode in (b"Control", b"Read", b"Write")]]


def rules_form(container: bytes) -> list[tuple[bytes, bytes, bytes]]:
    """Ten rules, of which the last alone covers the owner."""
    agents = [b"https://agent%d.example/#me" % n for n in range(9)] + [OWNER]
    return [triple for n, agent in enumerate(agents) for triple in rule(container, b"rule%d" % n, agent)]


def first_rows() -> list[bytes]:
    """The two rows of a new pod."""
    return [graph_row(b"/", 0, []), graph_row(b"/.acl", 2, rule(b"/", b"owner", OWNER))]


# The pod of `answer` and `pages`: containers of 100 documents of 300 bytes in one container, a graph of 20 triples, and ten rules.
DOCUMENTS, MEMBERS, OTHER_ROWS = b"/a/", 100, 4


def container_path(number: int) -> bytes:
    return DOCUMENTS + b"c%04d/" % number


def document_path(number: int) -> bytes:
    return container_path(number // MEMBERS) + b"d%02d" % (number % MEMBERS)


def document_count(rows: int) -> int:
    members = rows - OTHER_ROWS
    return members - -(-members // (MEMBERS + 1))


def pod_rows(rows: int) -> list[bytes]:
    """So many rows, in the order of their paths."""
    found = [graph_row(b"/", 0, []), graph_row(b"/.acl", 2, rules_form(b"/")), graph_row(DOCUMENTS, 0, [])]
    for number in range(rows - OTHER_ROWS):
        container, place = divmod(number, MEMBERS + 1)
        found.append(bytes_row(document_path(number - container - 1), 300) if place else graph_row(container_path(container), 0, []))
    things = [BASE + b"things/%02d" % n for n in range(20)]
    return found + [graph_row(b"/graph", 1, [(thing, b"http://e.example/p", thing) for thing in things])]


def snapshot_form(rows: list[bytes]) -> bytes:
    return b"\0" + number_form(0) + text_form(BASE) + text_form(OWNER) + number_form(len(rows)) + b"".join(rows)


def entry_form(seq: int, path: bytes, row: bytes) -> bytes:
    """A PUT of a row, by the owner."""
    head = b"\2" + number_form(seq) + number_form(1) + number_form(seq) + b"\1" + text_form(OWNER) + number_form(MOMENT)
    edits = number_form(1) + b"\0" + row
    bases = number_form(1) + text_form(b"/.acl") + b"\0" + text_form(BASE + b".acl#owner") + b"\0"
    return head + b"\1" + text_form(path) + edits + bases


def write_file(place: str, name: str, data: bytes) -> str:
    path = os.path.join(place, name)
    with open(path, "wb") as file:
        file.write(data)
    return path


def copy_store(kept: str, place: str) -> None:
    for side in "ab":
        shutil.copy(os.path.join(kept, f"pod.{side}"), os.path.join(place, f"pod.{side}"))


def write_records(place: str, records: Iterable[bytes], version: bytes = b"2") -> None:
    """Writes a store of these records: the active journal, and an empty one."""
    with open(os.path.join(place, "pod.a"), "wb") as file:
        file.write(b"PODJRNL" + version + number_form(1))
        for record in records:
            file.write(b"\1" + text_form(record))
        file.write(b"\0")
    write_file(place, "pod.b", b"PODJRNL2" + number_form(0) + b"\0")


def write_pod(place: str, rows: list[bytes], size: int = 0, length: int = 0, version: bytes = b"2") -> int:
    """Writes a store with these rows and so many bytes of PUTs of documents of that length, and returns how many those are."""
    def entry(seq: int) -> bytes:
        path = b"/row-%06d" % (seq % 100)
        return entry_form(seq, path, bytes_row(path, length))
    count = size // (len(entry(0)) + FRAME)
    write_records(place, [snapshot_form(rows), *map(entry, range(count))], version)
    return count


def flat_rows(rows: int) -> list[bytes]:
    """The rows of a new pod and documents of 300 bytes, so many in all."""
    return first_rows() + [bytes_row(b"/row-%06d" % n, 300) for n in range(rows - 2)]
