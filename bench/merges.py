#!/usr/bin/env python3
"""Times dry runs of merges over a pair of pipes: n keys that differ on maps of m keys, and a base that lies c commits back.

Usage: bench/merges.py [M ..] (1000 and 100000 where none is named)

For each m a new run of `nessie script` is filled with m tables, by commits of up to 5,000; then a
branch is made, n tables are added on it, and the merge into `main` is tried, the least time of five,
beside its ratio to that of the first m. Then, on an empty catalogue, the same with one key that
differs and c commits on each side.
"""
import json
import sys

from commits import Session, put, request
from pages import filled, least, show


def post(target, body):
    body = json.dumps(body, separators=(",", ":")).encode()
    return f"POST /api/v2/trees{target} HTTP/1.1\r\nContent-Length: {len(body)}\r\n\r\n".encode() + body


def commit_on(branch, operations):
    return request(operations).replace(b"/trees/main/", f"/trees/{branch}/".encode(), 1)


def branch_from_main(session, name):
    session.ask(post(f"?name={name}&type=BRANCH", {"type": "BRANCH", "name": "main"}))


def head_of(session, name):
    sent = f"GET /api/v2/trees/{name} HTTP/1.1\r\n\r\n".encode()
    session.process.stdin.write(sent)
    session.process.stdin.flush()
    length = 0
    while (line := session.process.stdout.readline()) not in (b"\r\n", b""):
        if line.lower().startswith(b"content-length:"):
            length = int(line.split(b":")[1])
    return json.loads(session.process.stdout.read(length))["reference"]["hash"]


def tried(session, source):
    body = {"fromRefName": source, "fromHash": head_of(session, source), "dryRun": True}
    return least(session, post("/main/history/merge", body))


def main(sizes):
    first = {}
    for m in sizes:
        session = filled(m)
        for n in (1, 1000):
            name = f"dev{n}"
            branch_from_main(session, name)
            session.ask(commit_on(name, [put(f"u{i:07d}") for i in range(n)]))
            took = tried(session, name)
            show(f"merge of {n} keys", m, took, first.setdefault(n, took))
        session.end()
    for c in (10, 400):
        session = Session()
        branch_from_main(session, "dev")
        for i in range(c):
            session.ask(commit_on("main", [put(f"a{i}")]))
            session.ask(commit_on("dev", [put(f"b{i}")]))
        took = tried(session, "dev")
        show("merge past c commits a side", c, took, first.setdefault("c", took))
        session.end()


if __name__ == "__main__":
    main([int(word) for word in sys.argv[1:]] or [1000, 100000])
