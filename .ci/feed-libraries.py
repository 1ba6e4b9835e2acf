#!/usr/bin/env python3
"""Tries the clients of docs/rules/notices.md against a running pod: that for Python's `websockets`, and that for Node's `ws`.

    .ci/feed-libraries.py PORT TOKEN OWNER READER AGENT

PORT is the port of podd on 127.0.0.1, TOKEN a token of the pod's owner, OWNER the owner's IRI, READER a token of another
agent, and AGENT that agent's IRI. podd needs at least two workers, since a feed holds one.

A client is the code of the page, with that address and token. It subscribes to a document that the agent may read. The owner
deletes the document and makes it again: the two notices have to come in order. When Read is taken away, the client has to end
by itself. The status is 0 where that holds of each client whose library is installed. The others are skipped, which is said."""
import os, re, shutil, subprocess, sys, tempfile, threading, time, urllib.error, urllib.request

TIMEOUT = 20
ROOT = os.path.dirname(os.path.dirname(os.path.abspath(__file__)))
CONTAINER, PATH = "/libraries/", "/libraries/x"


def fail(words):
    print(f"feed-libraries: {words}", file=sys.stderr)
    sys.exit(1)


class Owner:
    """The pod's owner."""

    def __init__(self, port, token, iri):
        self.port, self.token, self.iri = port, token, iri

    def request(self, method, path, body=None):
        request = urllib.request.Request(f"http://127.0.0.1:{self.port}{path}", method=method, data=body and body.encode())
        request.add_header("Authorization", f"Bearer {self.token}")
        if body:
            request.add_header("Content-Type", "text/turtle")
        try:
            with urllib.request.urlopen(request, timeout=TIMEOUT) as response:
                response.read()
        except urllib.error.HTTPError as error:
            fail(f"{method} {path}: {error.code}")

    def change(self):
        self.request("PUT", PATH, "<> <http://example.org/n> 1 .")

    def share(self, agents):
        """Gives the owner all modes on the container and what is in it, and these agents Read."""
        rules = [f"<#owner> a acl:Authorization; acl:agent <{self.iri}>; acl:mode acl:Read, acl:Write, acl:Control"]
        rules += [f"<#reader> a acl:Authorization; acl:agent <{agent}>; acl:mode acl:Read" for agent in agents]
        lines = [f"{rule}; acl:accessTo <./>; acl:default <./> .\n" for rule in rules]
        self.request("PUT", f"{CONTAINER}.acl", "@prefix acl: <http://www.w3.org/ns/auth/acl#> .\n" + "".join(lines))


class Client:
    """A running client, and the kinds of the notices that it has printed."""

    def __init__(self, command, folder):
        self.text = ""
        self.process = subprocess.Popen(command, cwd=folder, stdout=subprocess.PIPE, text=True)
        threading.Thread(target=self.read, daemon=True).start()

    def read(self):
        for line in self.process.stdout:
            self.text += line

    def kinds(self):
        return re.findall(r"\b(Create|Update|Delete)\b", self.text)

    def wait(self, is_done, each=lambda: None):
        end = time.time() + TIMEOUT
        while not is_done():
            if time.time() > end:
                return False
            each()
            time.sleep(0.1)
        return True


def page_code(language, port, token):
    """The page's first code in that language, with this address and token."""
    with open(os.path.join(ROOT, "docs/rules/notices.md"), encoding="utf-8") as page:
        code = re.search(rf"```{language}\n(.*?)```", page.read(), re.DOTALL).group(1)
    return code.replace("ws://127.0.0.1:8080/a/x", f"ws://127.0.0.1:{port}{PATH}").replace("t0ken", token)


def websockets_client(port, token, folder):
    """The command that runs the page's client for `websockets`, where that is installed."""
    for python in (sys.executable, "/usr/bin/python3"):
        if os.path.exists(python) and subprocess.run([python, "-c", "import websockets"], stderr=subprocess.DEVNULL).returncode == 0:
            with open(os.path.join(folder, "client.py"), "w", encoding="utf-8") as file:
                file.write(page_code("python", port, token))
            return [python, "-u", "client.py"]
    return None


def ws_client(port, token, folder):
    """The command that runs the page's client for `ws`, where that is installed."""
    node = shutil.which("node")
    if not node:
        return None
    places = [os.environ.get("NODE_PATH", ""), "/usr/share/nodejs", "/usr/lib/node_modules", "/usr/local/lib/node_modules"]
    script = "console.log(require('path').dirname(require.resolve('ws/package.json')))"
    found = subprocess.run([node, "-e", script], capture_output=True, text=True, env={**os.environ, "NODE_PATH": ":".join(places)})
    if found.returncode != 0:
        return None
    os.mkdir(os.path.join(folder, "node_modules"))
    os.symlink(found.stdout.strip(), os.path.join(folder, "node_modules", "ws"))
    with open(os.path.join(folder, "client.mjs"), "w", encoding="utf-8") as file:
        file.write(page_code("js", port, token))
    return [node, "client.mjs"]


def check_client(name, command, folder, owner, agent):
    owner.change()
    owner.share([agent])
    client = Client(command, folder)
    try:
        if not client.wait(client.kinds, each=owner.change):
            fail(f"{name}: no notice came")
        owner.request("DELETE", PATH)
        owner.change()
        client.wait(lambda: client.kinds()[-2:] == ["Delete", "Create"])
        before, last = client.kinds()[:-2], client.kinds()[-2:]
        if set(before) != {"Update"} or last != ["Delete", "Create"]:
            fail(f"{name}: the notices are {client.kinds()}")
        owner.share([])
        if not client.wait(lambda: client.process.poll() is not None):
            fail(f"{name}: the client goes on after Read was taken away")
        if client.process.returncode != 0:
            fail(f"{name}: the client's status is {client.process.returncode}")
    finally:
        if client.process.poll() is None:
            client.process.kill()
    print(f"feed-libraries: {name}: ok")


def main():
    port, token, owner_iri, reader, agent = int(sys.argv[1]), *sys.argv[2:6]
    owner = Owner(port, token, owner_iri)
    for name, command_of in (("websockets", websockets_client), ("ws", ws_client)):
        with tempfile.TemporaryDirectory() as folder:
            command = command_of(port, reader, folder)
            if command is None:
                print(f"feed-libraries: {name} is not installed: skipped")
            else:
                check_client(name, command, folder, owner, agent)


if __name__ == "__main__":
    try:
        main()
    except (OSError, IndexError, ValueError) as error:
        fail(f"{type(error).__name__} {error}")
