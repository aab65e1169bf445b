#!/usr/bin/env python3
"""Times what docs/GATE.md has aims for, in one run: commits beside the disk calls of their entries made by hand, reads,
memory, opening, merges and new branches, on few keys and on many.

Usage: bench/aims.py [--program FILE] [--keys 1000000] [--commits 100000] [--seconds 4]

Commits by a pipe are 900 at once to one run of `nessie script`, the middle one of three runs on copies of one journal. Those
by connections are `nessie serve`'s, each connection new after 1,000 replies (bench/load.c). Disk calls by hand are those of
the same entries, on the same disk, right after. A merge adds 10 keys and is a dry run, a branch is made at the head of
`main`: the least of five by a pipe. An opening is the least of five starts, up to the first reply.
"""
import argparse
import os
import shutil
import statistics
import sys
import tempfile
import time

import commits as pipes

HERE = os.path.dirname(os.path.abspath(__file__))


def parse():
    parser = argparse.ArgumentParser(description=__doc__.split("\n\n")[0])
    parser.add_argument("--program", default=os.path.join(HERE, "..", "crates/nessie/out/nessie"))
    parser.add_argument("--keys", type=int, default=1000000)
    parser.add_argument("--commits", type=int, default=100000)
    parser.add_argument("--seconds", type=float, default=4)
    return parser.parse_args()


OPTIONS = parse()
PROGRAM = pipes.PROGRAM = os.path.abspath(OPTIONS.program)

import journal
import requests
import serve

journal.PROGRAM = requests.PROGRAM = PROGRAM

from commits import put, request
from merges import branch_from_main, commit_on, head_of, post
from pages import key
from serving import Server

ONE_RUN = 900


def show(name, told):
    print(f"{name:58} {told}", flush=True)


def filled(folder, m):
    """A journal whose `main` has m tables."""
    path = os.path.join(folder, f"{m}.journal")
    run = requests.Run(path)
    for start in range(0, m, 5000):
        run.ask(request([put(key(n)) for n in range(start, min(m, start + 5000))]))
    run.end()
    return path


def by_pipe(folder, filled_journal):
    """Commits of one new key each: their rate beside the limit, and what one adds to the memory."""
    copy, sent, ratios, rates, added = os.path.join(folder, "copy"), b"".join(request([put("n%07d" % n)]) for n in range(ONE_RUN)), [], [], []
    for _ in range(3):
        shutil.copyfile(filled_journal, copy)
        run = requests.Run(copy)
        run.ask(b"GET /api/v2/config HTTP/1.1\r\n\r\n")
        before = resident(run)
        took, (_, good) = requests.timed(run.process.stdin, run.process.stdout, sent, lambda stream: requests.read_replies(stream, ONE_RUN))
        added.append((resident(run) - before) * 1024 / ONE_RUN)
        run.end()
        if not good:
            sys.exit("a commit wasn't made")
        limit = journal.by_hand(folder, list(journal.payloads(copy))[-ONE_RUN:])
        ratios.append((limit / took, ONE_RUN / took, ONE_RUN / limit))
    ratio, rate, hand = sorted(ratios)[1]
    return f"{ratio:.2f} of the limit: {rate:.0f} a second, by hand {hand:.0f}", f"{statistics.median(added):.0f} bytes"


def resident(run):
    with open(f"/proc/{run.process.pid}/status") as told:
        return next(int(line.split()[1]) for line in told if line.startswith("VmRSS"))


def least(run, sents):
    times = []
    for sent in sents:
        began = time.perf_counter()
        run.ask(sent)
        times.append(time.perf_counter() - began)
    return min(times)


def merge_and_branch(folder, filled_journal):
    copy = os.path.join(folder, "copy")
    shutil.copyfile(filled_journal, copy)
    run = requests.Run(copy)
    branch_from_main(run, "dev")
    run.ask(commit_on("dev", [put(f"u{n}") for n in range(10)]))
    body = {"fromRefName": "dev", "fromHash": head_of(run, "dev"), "dryRun": True}
    merged = least(run, [post("/main/history/merge", body)] * 5)
    made = least(run, [post(f"?name=b{n}&type=BRANCH", {"type": "BRANCH", "name": "main"}) for n in range(5)])
    run.end()
    return merged, made


def served(load):
    for size in (1, 8):
        with Server(PROGRAM, "--workers", size) as server:
            serve.content_id_of_k(server)
            show(f"reads of one key by {size} connections", load.run(server.port, size, serve.READ))
    for size in (1, 8):
        with Server(PROGRAM, "--workers", size) as server:
            request = serve.changing("b@@", serve.content_id_of_k(server))
            serve.branches(server, size)
            told = load.run(server.port, size, request)
            server.kill()
            entries = list(journal.payloads(server.journal))[-2000:]
            hand = len(entries) / journal.by_hand(load.folder, entries)
            show(f"commits to a branch each by {size} connections", f"{told.rate / hand:.2f} of the limit: {told}, by hand {hand:.0f}")


def opened(path):
    """The seconds until a run on the journal has answered its first request."""
    began = time.perf_counter()
    run = requests.Run(path)
    run.ask(b"GET /api/v2/config HTTP/1.1\r\n\r\n")
    took = time.perf_counter() - began
    run.end()
    return took


def kept(folder, asked):
    """The journal of a server that made these changes."""
    with Server(PROGRAM, "--workers", 1) as server:
        for at in range(0, len(asked), 500):
            with server.link() as link:
                batch = asked[at : at + 500]
                link.send(b"".join(batch))
                for _ in batch:
                    assert link.reply().status == 200
        server.kill()
        path = os.path.join(folder, "whole")
        shutil.copyfile(server.journal, path)
    return path


def opening(folder, what, asked):
    """Opens a journal of these changes, and one of their first tenth: the least of five times each."""
    whole, few = kept(folder, asked), len(asked) // 10
    tenth, size = os.path.join(folder, "tenth"), 16
    for number, payload in enumerate(journal.payloads(whole)):
        if number == few:
            break
        size += 5 + len(payload)
    with open(whole, "rb") as held, open(tenth, "wb") as out:
        out.write(held.read(size) + b"\0")
    times = [min(opened(path) for _ in range(5)) for path in (tenth, whole)]
    show(f"opening {few} and {len(asked)} {what}", f"{times[0]:.3f} s and {times[1]:.2f} s ({times[1] / times[0]:.1f})")


def branches(count):
    """Requests for so many branches at the head of `main`, whose names come in no order."""
    return [post(f"?name=b{n * 40503 % 65536:05}&type=BRANCH", {"type": "BRANCH", "name": "main"}) for n in range(count)]


def main():
    with tempfile.TemporaryDirectory() as folder:
        load = serve.Load(folder, OPTIONS.seconds)
        sizes = (1000, OPTIONS.keys - 10000)
        journals = {m: filled(folder, m) for m in sizes}
        adds = {}
        for m in sizes:
            told, adds[m] = by_pipe(folder, journals[m])
            show(f"commits of one key by a pipe, on {m} keys", told)
        served(load)
        for m in sizes:
            show(f"memory that such a commit adds, on {m} keys", adds[m])
        opening(folder, "commits", [request([put("n%07d" % n)]) for n in range(OPTIONS.commits)])
        opening(folder, "references", branches(65534))
        times = [merge_and_branch(folder, journals[m]) for m in sizes]
        for name, few, many in zip(("merge of 10 keys", "a branch at a head"), *times):
            show(f"{name}, on {sizes[0]} and {sizes[1]} keys", f"{few * 1000:.2f} and {many * 1000:.2f} ms ({many / few:.1f})")
        serve.etcd(load, PROGRAM)


if __name__ == "__main__":
    main()
