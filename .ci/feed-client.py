#!/usr/bin/env python3
"""Subscribes to a document of a running pod, and checks what its feed tells.

    .ci/feed-client.py PORT TOKEN OWNER

PORT is the port of podd on 127.0.0.1, TOKEN a token of the pod's owner, and OWNER the owner's IRI. podd needs
at least two workers, since a feed holds one. It uses plain sockets and the standard library alone.

It makes a document that everyone may read, subscribes to it, and changes it by another connection: the two
notices have to come in order, each once. A ping has to be answered, a text to be dropped, and a close to be
answered. When everyone's Read is taken away, the feed has to end. The status is 0 where all of that holds."""
import base64, hashlib, json, os, socket, struct, sys, time

TIMEOUT = 15
GUID = "258EAFA5-E914-47DA-95CA-C5AB0DC85B11"
TEXT, CLOSE, PING, PONG = 1, 8, 9, 10
PATH = "/feed/x"


def fail(words):
    print(f"feed-client: {words}", file=sys.stderr)
    sys.exit(1)


def check(holds, words):
    if not holds:
        fail(words)


class Reader:
    """Reads a socket by counts and up to a separator."""

    def __init__(self, sock):
        self.sock, self.held = sock, b""

    def more(self):
        piece = self.sock.recv(65536)
        self.held += piece
        return piece != b""

    def take(self, count):
        while len(self.held) < count:
            if not self.more():
                raise EOFError
        taken, self.held = self.held[:count], self.held[count:]
        return taken

    def take_to(self, separator):
        while separator not in self.held:
            if not self.more():
                raise EOFError
        taken, self.held = self.held.split(separator, 1)
        return taken


def connect(port):
    sock = socket.create_connection(("127.0.0.1", port), TIMEOUT)
    sock.settimeout(TIMEOUT)
    return sock


def read_head(reader):
    lines = reader.take_to(b"\r\n\r\n").decode("latin-1").split("\r\n")
    fields = {}
    for line in lines[1:]:
        name, value = line.split(":", 1)
        fields[name.strip().lower()] = value.strip()
    return int(lines[0].split(" ")[1]), fields


class Owner:
    """The pod's owner, on a connection of its own."""

    def __init__(self, port, token):
        self.port, self.token = port, token
        self.sock = connect(port)
        self.reader = Reader(self.sock)

    def request(self, method, path, body="", content_type="text/turtle"):
        fields = [f"{method} {path} HTTP/1.1", f"Host: 127.0.0.1:{self.port}"]
        fields.append(f"Authorization: Bearer {self.token}")
        if body:
            fields += [f"Content-Type: {content_type}", f"Content-Length: {len(body.encode())}"]
        self.sock.sendall(("\r\n".join(fields) + "\r\n\r\n" + body).encode())
        status, got = read_head(self.reader)
        self.reader.take(int(got.get("content-length", "0")))
        return status

    def put(self, path, body):
        status = self.request("PUT", path, body)
        check(status in (201, 204), f"PUT {path}: {status}")


class Feed:
    """A subscription."""

    def __init__(self, port, path):
        self.sock = connect(port)
        self.reader = Reader(self.sock)
        key = base64.b64encode(os.urandom(16)).decode()
        fields = [f"GET {path} HTTP/1.1", f"Host: 127.0.0.1:{port}", "Upgrade: websocket"]
        fields += ["Connection: Upgrade", "Sec-WebSocket-Version: 13", f"Sec-WebSocket-Key: {key}"]
        self.sock.sendall(("\r\n".join(fields) + "\r\n\r\n").encode())
        status, got = read_head(self.reader)
        check(status == 101, f"the upgrade was answered by {status}")
        accept = base64.b64encode(hashlib.sha1((key + GUID).encode()).digest()).decode()
        check(got.get("sec-websocket-accept") == accept, "Sec-WebSocket-Accept is another")

    def send(self, opcode, payload=b""):
        mask = os.urandom(4)
        masked = bytes(b ^ mask[i % 4] for i, b in enumerate(payload))
        check(len(payload) < 126, "this client sends short frames alone")
        self.sock.sendall(bytes([0x80 | opcode, 0x80 | len(payload)]) + mask + masked)

    def frame(self):
        first, second = self.reader.take(2)
        check(first & 0x70 == 0 and first & 0x80, "a frame with an extension, or a part of a message")
        check(not second & 0x80, "a server's frame is masked")
        count = second & 0x7F
        if count == 126:
            count = struct.unpack(">H", self.reader.take(2))[0]
        elif count == 127:
            count = struct.unpack(">Q", self.reader.take(8))[0]
        return first & 0x0F, self.reader.take(count)

    def notice(self):
        opcode, payload = self.frame()
        check(opcode == TEXT, f"a frame of kind {opcode} in place of a notice")
        return json.loads(payload)

    def is_over(self):
        try:
            return self.reader.take(1) is None
        except (EOFError, ConnectionError):
            return True


def access_list(owner, everyone):
    rules = [f"<#owner> a acl:Authorization; acl:agent <{owner}>; acl:accessTo <x>; acl:mode acl:Read, acl:Write, acl:Control ."]
    if everyone:
        rules.append("<#all> a acl:Authorization; acl:agentClass foaf:Agent; acl:accessTo <x>; acl:mode acl:Read .")
    prefixes = ["@prefix acl: <http://www.w3.org/ns/auth/acl#> .", "@prefix foaf: <http://xmlns.com/foaf/0.1/> ."]
    return "\n".join(prefixes + rules) + "\n"


def main():
    port, token, owner_iri = int(sys.argv[1]), sys.argv[2], sys.argv[3]
    owner = Owner(port, token)
    owner.put(PATH, "<> <http://example.org/n> 0 .")
    owner.put(PATH + ".acl", access_list(owner_iri, True))

    feed = Feed(port, PATH)
    owner.put(PATH, "<> <http://example.org/n> 1 .")
    owner.put("/feed/other", "<> <http://example.org/n> 1 .")
    owner.put(PATH, "<> <http://example.org/n> 2 .")
    began = time.time()
    first, second = feed.notice(), feed.notice()
    print(f"feed-client: two notices within {time.time() - began:.1f} s of the second change")
    for notice in (first, second):
        check(notice.get("@context") == "https://www.w3.org/ns/activitystreams", f"the context of {notice}")
        check(notice.get("type") == "Update", f"the type of {notice}")
        check(notice.get("object", "").endswith(PATH), f"the object of {notice}")
    numbers = [int(notice["id"].removeprefix("urn:pod-entry:")) for notice in (first, second)]
    check(numbers[1] == numbers[0] + 2, f"the entries {numbers} aren't those of the two changes, in order")

    feed.send(TEXT, b"a text that nobody reads")
    feed.send(PING, b"are you there")
    check(feed.frame() == (PONG, b"are you there"), "a ping wasn't answered")

    owner.put(PATH + ".acl", access_list(owner_iri, False))
    check(feed.is_over(), "the feed goes on after Read was taken away")

    owner.put(PATH + ".acl", access_list(owner_iri, True))
    closing = Feed(port, PATH)
    closing.send(CLOSE, struct.pack(">H", 1000))
    opcode, payload = closing.frame()
    check(opcode == CLOSE and payload[:2] == struct.pack(">H", 1000), "a close wasn't answered")
    check(closing.is_over(), "the feed goes on after it was closed")
    print("feed-client: ok")


if __name__ == "__main__":
    try:
        main()
    except (EOFError, OSError, ValueError, IndexError) as error:
        fail(f"{type(error).__name__} {error}")
