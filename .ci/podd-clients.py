#!/usr/bin/env python3
"""Reads and writes a pod by the clients that people use, where they are installed: the port and a token of the owner are the arguments.

Each client makes a document, reads it back, and sees that the same request without a token is refused. A client that isn't installed is left out, and
that is said."""
import asyncio
import http.client
import json
import os
import shutil
import subprocess
import sys
import tempfile
import urllib.error
import urllib.request

PORT, TOKEN = int(sys.argv[1]), sys.argv[2]
BASE, TEXT = f"http://127.0.0.1:{PORT}", b"<#a> <http://e.example/p> \"b\" ."
SHOWN = "\"b\""
OWNER = {"Authorization": f"Bearer {TOKEN}", "Content-Type": "text/turtle"}
failed, left_out = [], []


def expect(client: str, found: object, wanted: object) -> None:
    if found != wanted:
        failed.append(f"{client}: {found!r}, wanted {wanted!r}")


def by_http_client() -> None:
    conn = http.client.HTTPConnection("127.0.0.1", PORT, timeout=10)
    found = []
    for method, headers, body in [("PUT", OWNER, TEXT), ("GET", OWNER, None), ("GET", {}, None), ("HEAD", OWNER, None), ("DELETE", OWNER, None)]:
        conn.request(method, "/clients/http-client", body=body, headers=headers)
        answer = conn.getresponse()
        found.append((answer.status, SHOWN in answer.read().decode()))
    conn.close()
    expect("http.client", found, [(201, False), (200, True), (401, False), (200, False), (204, False)])


def by_urllib() -> None:
    url, found = f"{BASE}/clients/urllib", []
    for method, headers, body in [("PUT", OWNER, TEXT), ("GET", OWNER, None), ("GET", {}, None)]:
        try:
            with urllib.request.urlopen(urllib.request.Request(url, data=body, headers=headers, method=method), timeout=10) as answer:
                found.append(answer.status)
        except urllib.error.HTTPError as error:
            found.append(error.code)
    expect("urllib", found, [201, 200, 401])


def by_requests() -> None:
    import requests

    url = f"{BASE}/clients/requests"
    with requests.Session() as session:
        found = [session.put(url, data=TEXT, headers=OWNER, timeout=10).status_code]
        answer = session.get(url, headers=OWNER | {"Accept": "application/ld+json"}, timeout=10)
        found += [answer.status_code, answer.json()[0]["http://e.example/p"], session.get(url, timeout=10).status_code]
        found.append(session.patch(url, data="INSERT DATA { <#a> <http://e.example/p> 2 }", headers=OWNER | {"Content-Type": "application/sparql-update"}, timeout=10).status_code)
    expect("requests", found, [201, 200, [{"@value": "b"}], 401, 204])


def by_aiohttp() -> None:
    import aiohttp

    async def run() -> list[int]:
        url, found = f"{BASE}/clients/aiohttp", []
        async with aiohttp.ClientSession(timeout=aiohttp.ClientTimeout(total=10)) as session:
            for method, headers, body in [("PUT", OWNER, TEXT), ("GET", OWNER, None), ("GET", {}, None)]:
                async with session.request(method, url, data=body, headers=headers) as answer:
                    found.append(answer.status)
        return found

    expect("aiohttp", asyncio.run(run()), [201, 200, 401])


def by_rdflib() -> None:
    import rdflib

    request = urllib.request.Request(f"{BASE}/clients/urllib", headers=OWNER | {"Accept": "text/turtle"})
    with urllib.request.urlopen(request, timeout=10) as answer:
        graph = rdflib.Graph().parse(data=answer.read(), format="turtle")
    expect("rdflib", [str(o) for o in graph.objects()], ["b"])


def by_wget() -> None:
    words = ["wget", "-q", "-T", "10", "-t", "1", "-O", "-", f"--header=Authorization: Bearer {TOKEN}"]
    done = subprocess.run([*words, f"{BASE}/clients/urllib"], stdout=subprocess.PIPE, text=True)
    expect("wget", (done.returncode, SHOWN in done.stdout), (0, True))
    refused = subprocess.run(["wget", "-q", "-T", "10", "-t", "1", "-O", "-", f"{BASE}/clients/urllib"], stdout=subprocess.PIPE)
    expect("wget without a token", refused.returncode != 0, True)


def by_curl() -> None:
    with tempfile.NamedTemporaryFile() as file:
        file.write(bytes(n * 31 % 251 for n in range(3_000_000)))
        file.flush()
        words = ["curl", "-s", "--max-time", "20", "-H", f"Authorization: Bearer {TOKEN}"]
        sent = subprocess.run([*words, "-o", os.devnull, "-w", "%{http_code}", "-H", "Content-Type: application/octet-stream", "-T", file.name, f"{BASE}/clients/curl"], stdout=subprocess.PIPE, text=True)
        read = subprocess.run([*words, f"{BASE}/clients/curl"], stdout=subprocess.PIPE)
        file.seek(0)
        expect("curl", (sent.stdout, read.stdout == file.read()), ("201", True))
        part = subprocess.run([*words, "-r", "31-62", f"{BASE}/clients/curl"], stdout=subprocess.PIPE)
        expect("curl with a range", part.stdout, read.stdout[31:63])


FETCH = """
const [base, token] = process.argv.slice(1);
const owner = {Authorization: `Bearer ${token}`, 'Content-Type': 'text/turtle'};
const run = async () => {
  const url = `${base}/clients/fetch`;
  const found = [(await fetch(url, {method: 'PUT', headers: owner, body: '<#a> <http://e.example/p> "b" .'})).status];
  const read = await fetch(url, {headers: {...owner, Accept: 'application/ld+json'}});
  found.push(read.status, (await read.json())[0]['http://e.example/p'][0]['@value'], (await fetch(url)).status);
  const many = await Promise.all([...Array(4)].map((_, n) => fetch(`${url}-${n}`, {method: 'PUT', headers: owner, body: ''})));
  found.push(...many.map(one => one.status));
  console.log(JSON.stringify(found));
};
run().then(() => process.exit(0), error => { console.error(error); process.exit(1); });
"""


def by_fetch() -> None:
    done = subprocess.run(["node", "-e", FETCH, BASE, TOKEN], stdout=subprocess.PIPE, text=True, timeout=30)
    expect("Node's fetch", json.loads(done.stdout or "null"), [201, 200, "b", 401, 201, 201, 201, 201])


def main() -> None:
    for client in (by_http_client, by_urllib, by_requests, by_aiohttp, by_rdflib):
        try:
            client()
        except ImportError as missing:
            left_out.append(missing.name or "?")
    for program, client in [("curl", by_curl), ("wget", by_wget), ("node", by_fetch)]:
        client() if shutil.which(program) else left_out.append(program)
    print(f"clients that aren't installed here: {', '.join(left_out) or 'none'}")
    print("\n".join(failed), end="\n" if failed else "")
    sys.exit(bool(failed))


main()
