#!/usr/bin/env python3
"""Times dry runs of transplants over a pair of pipes, and drills: commits of one key each on maps of m keys.

Usage: bench/transplants.py [M ..] (1000 and 100000 where none is named)

For each m a new run of `nessie script` is filled with m tables, by commits of up to 5,000; then a
branch is made, 100 commits of one table are made on it, and applying 1 and 100 of them to `main` is
tried, the least time of five, beside its ratio to that of the first m. Then drills of 1,000 and
10,000 commits.
"""
import json
import subprocess
import sys
import time

from commits import PROGRAM, put
from merges import branch_from_main, commit_on, head_of, post
from pages import filled, least, show


def tried(session, hashes):
    body = {"fromRefName": "dev", "hashesToTransplant": hashes, "dryRun": True}
    return least(session, post("/main/history/transplant", body))


def drilled(commits):
    words = [PROGRAM, "drill", "--seed", "7", "--commits", str(commits)]
    start = time.monotonic()
    subprocess.run(words, check=True, stdout=subprocess.DEVNULL, stderr=subprocess.DEVNULL)
    return time.monotonic() - start


def main(sizes):
    first = {}
    for m in sizes:
        session = filled(m)
        branch_from_main(session, "dev")
        hashes = []
        for i in range(100):
            session.ask(commit_on("dev", [put(f"u{i:07d}")]))
            hashes.append(head_of(session, "dev"))
        for n in (1, 100):
            took = tried(session, hashes[:n])
            show(f"transplant of {n} commits", m, took, first.setdefault(n, took))
        session.end()
    for commits in (1000, 10000):
        took = drilled(commits)
        show("drill", commits, took, first.setdefault("drill", took))


if __name__ == "__main__":
    main([int(word) for word in sys.argv[1:]] or [1000, 100000])
