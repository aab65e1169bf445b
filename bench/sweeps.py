#!/usr/bin/env python3
"""Times collections on a running `nessie serve`, beside other callers.

Usage: bench/sweeps.py [--program FILE] [--seconds 8] [--scale 1] [beside|turn|chains|gc ..] (all where none is named)

The client is bench/load.c, as in bench/serve.py. `beside` is commits to one branch of a catalogue of 100,000 contents, by one
and by eight connections: alone, and while another connection collects again and again; the ratio of the two, how many
collections there were, and the ratio outside the gaps of more than 10 ms in which no commit was answered, which the last turns of
collections make. `turn` is the longest that one reader waits, alone and while one collection runs, on catalogues of
10,000 and of 1,000,000 contents, where nothing is removed and where half is: what it waits longer is the longest turn of the
collection, at most. `chains` is a collection that keeps every commit, of 100,000 contents behind longer and longer chains, and
of 100 branches that share one. `gc` is one collection by words on these. With --scale 0.01 each catalogue has a hundredth of that.
"""
import argparse
import json
import os
import subprocess
import sys
import tempfile
import threading
import time

HERE = os.path.dirname(os.path.abspath(__file__))
sys.path[:0] = [HERE, os.path.join(HERE, "..", "tools", "clients")]

from catalogue_bodies import commit, put
from serve import READ, Load, changing, content_id_of_k, told
from serving import TOP, Server, post

AT_ONCE = 5000


def sweep(cutoff):
    body = json.dumps({"defaultCutoff": cutoff}).encode()
    return b"POST /gc/v1/sweep HTTP/1.1\r\nHost: c\r\nContent-Length: %d\r\n\r\n%s" % (len(body), body)


def fill(server, count):
    """So many contents, each at a key of its own on main."""
    with server.link() as link:
        for at in range(0, count, AT_ONCE):
            operations = [put(f"t{number:07}") for number in range(at, min(at + AT_ONCE, count))]
            assert link.ask(post("/trees/main/history/commit", commit("filled", *operations))).status == 200


def empty(server, count):
    """Takes the first so many keys away again: their contents are shown nowhere at main's head."""
    with server.link() as link:
        for at in range(0, count, AT_ONCE):
            operations = [{"type": "DELETE", "key": {"elements": [f"t{number:07}"]}} for number in range(at, min(at + AT_ONCE, count))]
            assert link.ask(post("/trees/main/history/commit", commit("emptied", *operations))).status == 200


class Collector:
    """Another connection that collects again and again until it is told to end."""

    def __init__(self, server):
        self.server, self.over, self.took, self.removed = server, threading.Event(), [], 0
        self.thread = threading.Thread(target=self.run)

    def run(self):
        while not self.over.is_set():
            with self.server.link() as link:
                for _ in range(1000):
                    if self.over.is_set():
                        return
                    began = time.perf_counter()
                    reply = link.ask(sweep("1"))
                    assert reply.status == 200, reply.raw
                    self.took.append(time.perf_counter() - began)
                    self.removed += json.loads(reply.body)["removed"]

    def __enter__(self):
        self.thread.start()
        return self

    def __exit__(self, *_):
        self.over.set()
        self.thread.join()

    def __str__(self):
        times = sorted(self.took) or [0.0]
        return f"{len(self.took)} collections, median {times[len(times) // 2] * 1000:.1f} ms, longest {times[-1] * 1000:.1f} ms, {self.removed} contents removed"


def beside(load, program, scale):
    for connections in (1, 8):
        with Server(program, "--workers", connections + 1) as server:
            request = changing("main", content_id_of_k(server))
            fill(server, int(100_000 * scale))
            alone = load.run(server.port, connections, request)
            with Collector(server) as collector:
                together = load.run(server.port, connections, request)
            print(f"commits by {connections} connections, alone:     {alone}")
            print(f"commits by {connections}, while one collects: {together}; ratio {together.rate / alone.rate:.2f}; {collector}")
            print(f"outside {together.silent:.2f} s in which no commit was answered for more than 10 ms: ratio {together.rate_outside / alone.rate:.2f}", flush=True)


def turn(load, program, scale):
    for contents in (10_000, 1_000_000):
        for part in (0, 2):
            with Server(program, "--workers", 2) as server:
                content_id_of_k(server)
                count = int(contents * scale) - 1  # beside that key
                fill(server, count)
                empty(server, count // part if part else 0)
                print(f"{count + 1} contents, a reader alone:                {load.run(server.port, 1, READ)}")
                reader = load.start(server.port, 1, READ)
                time.sleep(load.seconds / 4)
                with server.link() as link:
                    began = time.perf_counter()
                    reply = link.ask(sweep("1"))
                    took = time.perf_counter() - began
                print(f"{count + 1} contents, a reader while one collects:   {told(reader)}; the collection took {took * 1000:.1f} ms: {reply.body.decode()}", flush=True)


def kept_all(server):
    """The milliseconds that a collection takes under the cutoff NONE, the least of three."""
    took = []
    with server.link() as link:
        for _ in range(3):
            began = time.perf_counter()
            assert link.ask(sweep("NONE")).status == 200
            took.append((time.perf_counter() - began) * 1000)
    return min(took)


def chains(load, program, scale):
    with Server(program, "--workers", 2) as server:
        key = content_id_of_k(server)
        count = int(100_000 * scale)
        fill(server, count)
        first = kept_all(server)
        print(f"{count + 1} contents, a collection that keeps all commits: {first:.1f} ms")
        made = 0
        for commits in (1_000, 10_000):
            while made < commits:
                with server.link() as link:  # which ends behind its 1,000th request
                    for number in range(made, min(made + 1_000, commits)):
                        body = commit("b", put("k", f"m{number:08}", 1, key))
                        assert link.ask(post("/trees/main/history/commit", body)).status == 200
                made = min(made + 1_000, commits)
            took = kept_all(server)
            print(f"the same behind {commits} commits of one key:       {took:.1f} ms, {(took - first) / commits * 1000:.2f} us a commit", flush=True)
        for branch in range(100):
            with server.link() as link:
                name = f"/trees?name=b{branch:02}&type=BRANCH"
                assert link.ask(post(name, b'{"type":"BRANCH","name":"main"}')).status == 200
                body = commit("b", put("k", f"b{branch:08}", 1, key))
                assert link.ask(post(f"/trees/b{branch:02}/history/commit", body)).status == 200
        print(f"the same with 100 branches of a commit each: {kept_all(server):.1f} ms", flush=True)


def gc(load, program, scale):
    for contents in (10_000, 1_000_000):
        with Server(program, "--workers", 1) as server:
            count = int(contents * scale)
            fill(server, count)
            empty(server, count // 2)
            server.kill()
            began = time.perf_counter()
            subprocess.run([program, "check", server.journal], check=True, stdout=subprocess.DEVNULL)
            opened = time.perf_counter() - began
            began = time.perf_counter()
            done = subprocess.run([program, "gc", server.journal, "1"], check=True, stdout=subprocess.PIPE)
            took = time.perf_counter() - began
            began = time.perf_counter()
            subprocess.run([program, "check", server.journal], check=True, stdout=subprocess.DEVNULL)
            again = time.perf_counter() - began
            print(f"{count} contents, gc: {took:.2f} s, of which opening {opened:.2f} s; opening behind it {again:.2f} s; {done.stdout.decode().strip()}", flush=True)


PARTS = {part.__name__: part for part in (beside, turn, chains, gc)}


def main():
    parser = argparse.ArgumentParser(description=__doc__.split("\n\n")[0])
    parser.add_argument("--program", default=os.path.join(TOP, "crates/nessie/out/nessie"))
    parser.add_argument("--seconds", type=float, default=8)
    parser.add_argument("--scale", type=float, default=1)
    parser.add_argument("parts", nargs="*", choices=[*PARTS, []])
    options = parser.parse_args()
    with tempfile.TemporaryDirectory() as folder:
        load = Load(folder, options.seconds)
        for name in options.parts or PARTS:
            PARTS[name](load, os.path.abspath(options.program), options.scale)


if __name__ == "__main__":
    main()
