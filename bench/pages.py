#!/usr/bin/env python3
"""Times pages of entries on maps of m keys, and pages of histories of c commits, over a pair of pipes.

Usage: bench/pages.py [M ..] (1000 and 100000 where none is named)

For each m a new run of `nessie script` is filled with m tables, by commits of up to 5,000. Then
pages of 1 and of 1,000 entries are asked for, the first ones and those behind the middle key, and
the least time of five is printed, beside its ratio to that of the first m. Then the same for a page
of 1 commit of a history of 100 and of 800.
"""
import sys

from commits import Session, put, request


def get(target):
    return b"GET /api/v2/trees/main/" + target.encode() + b" HTTP/1.1\r\n\r\n"


def least(session, sent):
    times = []
    for _ in range(5):
        status, took = session.ask(sent)
        times.append(took)
        if status != "200":
            sys.exit(f"{sent!r}: {status}")
    return min(times)


def key(n):
    return f"t{n:07d}"


def filled(m):
    session = Session()
    for start in range(0, m, 5000):
        status, _ = session.ask(request([put(key(n)) for n in range(start, min(m, start + 5000))]))
        if status != "200":
            sys.exit(f"filling: {status}")
    return session


def show(name, size, took, first):
    print(f"{name:34} {size:8} {took * 1000:10.2f} ms {took / first:8.2f}")


def main(sizes):
    first = {}
    for m in sizes:
        session = filled(m)
        middle = f"&min-key={key(m // 2)}"
        for name, target in [
            ("first page of 1", "entries?max-records=1"),
            ("first page of 1,000", "entries?max-records=1000"),
            ("page of 1 from the middle key", "entries?max-records=1" + middle),
            ("one content", f"contents/{key(m // 2)}"),
            ("contents of one key", f"contents?key={key(m // 2)}"),
        ]:
            took = least(session, get(target))
            show(name, m, took, first.setdefault(name, took))
        session.end()
    for c in (100, 800):
        session = Session()
        for n in range(c):
            session.ask(request([put(key(n))]))
        for name, target in [("history of 1 commit", "history?max-records=1"), ("history of 50 commits", "history?max-records=50")]:
            took = least(session, get(target))
            show(name, c, took, first.setdefault(name, took))
        session.end()


if __name__ == "__main__":
    main([int(word) for word in sys.argv[1:]] or [1000, 100000])
