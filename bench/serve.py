#!/usr/bin/env python3
"""Times `nessie serve`: requests a second of 1, 8 and 64 connections, each with a worker, and what the server holds in memory.

Usage: bench/serve.py [--program FILE] [--seconds 4] [client|requests|etcd|mixed|views|memory|commits ..] (all where none is named)

The client is bench/load.c, which `cc` compiles first: one process, one request at a time on each connection, and a new
connection after each 1,000 replies. `client` says what it can do at most, by replies that a C program gives. `requests` are
reads of one key, commits of one key to one branch, and commits to a branch each; beside the commits stand the disk calls of
as many entries, made by hand. `etcd` is the same by etcd's JSON calls, if it is there. `mixed` has reads while commits run.
`views` has commits by one connection alone, and beside 1 and 8 that read: without a view, one key, and lists of 1,000, with a view held for as long as each takes.
`memory` is what the process holds with 1, 8 and 64 workers, and `commits` what commits add to it, and to a start.
"""
import argparse
import json
import os
import shutil
import subprocess
import sys
import tempfile
import time

HERE = os.path.dirname(os.path.abspath(__file__))
sys.path.insert(0, os.path.join(HERE, "..", "tools", "clients"))

from catalogue_bodies import commit, filling, put
from journal import by_hand, payloads
from serving import CONFIG, HOST, TOP, Link, Server, free_port, get, listens, post

SIZES = (1, 8, 64)
READ = get("/trees/main/contents/k")


class Load:
    """The compiled client."""

    def __init__(self, folder, seconds):
        self.folder, self.seconds = folder, seconds
        self.tool = os.path.join(folder, "load")
        subprocess.run(["cc", "-O2", "-o", self.tool, os.path.join(HERE, "load.c")], check=True)
        self.files = 0

    def start(self, port, connections, request):
        self.files += 1
        path = os.path.join(self.folder, f"request{self.files}")
        with open(path, "wb") as file:
            file.write(request)
        return subprocess.Popen([self.tool, "run", str(port), str(self.seconds), str(connections), "1000", path], stdout=subprocess.PIPE, stderr=subprocess.PIPE)

    def run(self, port, connections, request):
        return told(self.start(port, connections, request))


class Told:
    def __init__(self, numbers):
        total, good, seconds, opened, median, high, longest, silent = numbers
        self.total, self.good, self.rate, self.opened = int(total), int(good), float(total) / float(seconds), int(opened)
        self.silent = int(silent) / 1e6
        self.rate_outside = float(total) / (float(seconds) - self.silent)  # where no reply was awaited for more than 10 ms
        self.times = f"median {int(median) / 1000:.2f} ms, 99th percentile {int(high) / 1000:.2f} ms, longest {int(longest) / 1000:.1f} ms"

    def __str__(self):
        others = "" if self.good == self.total else f", {self.total - self.good} of {self.total} not 200"
        return f"{self.rate:9.0f} a second, {self.times}{others}"


def told(process):
    output, error = process.communicate()
    if process.returncode:
        sys.exit(f"the client ended in {process.returncode}: {error.decode()}")
    return Told(output.split())


def content_id_of_k(server):
    """Puts the key, and gives its content's id."""
    with server.link() as link:
        return json.loads(link.ask(post("/trees/main/history/commit", commit("first", put("k")))).body)["addedContents"][0]["contentId"]


def changing(branch, content_id):
    """A commit of the key, with a mark for a rising number."""
    return post(f"/trees/{branch}/history/commit", commit("b", put("k", "m########", 1, content_id)))


def branches(server, count):
    with server.link() as link:
        for number in range(count):
            assert link.ask(post(f"/trees?name=b{number:02}&type=BRANCH", b'{"type":"BRANCH","name":"main"}')).status == 200


def client(load, program):
    for size in SIZES:
        port = free_port()
        server = subprocess.Popen([load.tool, "answer", str(port), "260"])
        while not listens(port):
            time.sleep(0.01)
        print(f"client at most, {size:2} connections: {load.run(port, size, READ)}", flush=True)
        server.kill()
        server.wait()


def requests(load, program):
    for size in SIZES:
        with Server(program, "--workers", size) as server:
            content_id_of_k(server)
            print(f"reads of one key, {size:2} connections:           {load.run(server.port, size, READ)}", flush=True)
        with Server(program, "--workers", size) as server:
            request = changing("main", content_id_of_k(server))
            shown = load.run(server.port, size, request)
            print(f"commits to one branch, {size:2} connections:      {shown}, {limit_of(server, load)}", flush=True)
        with Server(program, "--workers", size) as server:
            request = changing("b@@", content_id_of_k(server))
            branches(server, size)
            shown = load.run(server.port, size, request)
            print(f"commits to a branch each, {size:2} connections:   {shown}, {limit_of(server, load)}", flush=True)


def limit_of(server, load):
    """The disk calls of the journal's last entries, made by hand."""
    server.kill()
    entries = list(payloads(server.journal))[-2000:]
    return f"disk calls by hand {len(entries) / by_hand(load.folder, entries):.0f} a second"


def etcd(load, program):
    if not shutil.which("etcd"):
        print("left out: etcd: Debian's etcd-server is missing")
        return
    port, peer = free_port(), free_port()
    url, peers = f"http://{HOST}:{port}", f"http://{HOST}:{peer}"
    words = ["etcd", "--data-dir", os.path.join(load.folder, "etcd"), "--listen-client-urls", url, "--advertise-client-urls", url,
             "--listen-peer-urls", peers, "--initial-advertise-peer-urls", peers, "--initial-cluster", f"default={peers}"]
    server = subprocess.Popen(words, stdout=subprocess.DEVNULL, stderr=subprocess.DEVNULL)
    try:
        time.sleep(4)
        put_one, put_each = etcd_call("put", '{"key":"aw==","value":"########"}'), etcd_call("put", '{"key":"aw@@","value":"########"}')
        with Link(port) as link:
            link.ask(put_one.replace(b"#", b"0"))
        for size in SIZES:
            for what, request in (("reads of one key", etcd_call("range", '{"key":"aw=="}')), ("puts of one key", put_one), ("puts of a key each", put_each)):
                print(f"etcd, {what}, {size:2} connections: {load.run(port, size, request)}", flush=True)
    finally:
        server.kill()
        server.wait()


def etcd_call(name, body):
    return f"POST /v3/kv/{name} HTTP/1.1\r\nHost: c\r\nContent-Type: application/json\r\nContent-Length: {len(body)}\r\n\r\n{body}".encode()


def mixed(load, program):
    """Reads by 8 connections, alone and while 8 others commit."""
    with Server(program, "--workers", 16) as server:
        request = changing("main", content_id_of_k(server))
        print(f"reads by 8 connections alone:                 {load.run(server.port, 8, READ)}")
        commits = load.start(server.port, 8, request)
        print(f"reads by 8 connections while 8 others commit: {load.run(server.port, 8, READ)}")
        print(f"the commits meanwhile:                        {told(commits)}", flush=True)


def views(load, program):
    """Commits by one connection, alone and beside connections that read: the configuration, for which no view is taken, one key, and lists of a long page, during which one is held."""
    with Server(program, "--workers", 9) as server:
        content_id = content_id_of_k(server)
        with server.link() as link:
            link.ask(post("/trees/main/history/commit", filling(1000)))
        alone = load.run(server.port, 1, changing("main", content_id))
        print(f"commits alone:                  {alone}", flush=True)
        for readers in (1, 8):
            for what, request in (("ask for the configuration", CONFIG), ("read a key", READ), ("list 1,000 keys", get("/trees/main/entries?max-records=1000"))):
                reads = load.start(server.port, readers, request)
                commits = load.run(server.port, 1, changing("main", content_id))
                print(f"commits beside {readers} that {what}: {commits}, {commits.rate / alone.rate:.2f} of those alone, beside {told(reads).rate:.0f} reads a second", flush=True)


def memory(load, program):
    """What the process holds at its start, with a connection for each worker, and at its most under load."""
    for size in SIZES:
        with Server(program, "--workers", size) as server:
            begun = server.memory()
            content_id_of_k(server)
            links = [server.link() for _ in range(size)]
            for link in links:
                link.ask(READ)
            held = server.memory()
            for link in links:
                link.close()
            load.run(server.port, size, READ)
            read = server.memory("VmHWM")
            with server.link() as link:
                link.ask(post("/trees/main/history/commit", filling(1000)))
            load.run(server.port, size, get("/trees/main/entries?max-records=1000"))
            print(f"{size:2} workers: {begun} KiB at the start, {held} with a connection each, {read} at most in reads of a key, {server.memory('VmHWM')} in lists of 1,000", flush=True)


def commits(load, program):
    """What a commit of one key adds on catalogues of m keys, and how long a start takes then."""
    for keys, count in ((1, 20000), (100, 5000), (1000, 2000), (10000, 500)):
        with Server(program, "--workers", 1) as server:
            content_id = content_id_of_k(server)
            with server.link() as link:
                for at in range(0, keys - 1, 5000):
                    link.ask(post("/trees/main/history/commit", commit("filled", *[put(f"t{number:06}") for number in range(at, min(at + 5000, keys - 1))])))
            before, size = server.memory(), os.path.getsize(server.journal)
            took = commits_one_by_one(server, content_id, count)
            added, grown = (server.memory() - before) * 1024 / count, (os.path.getsize(server.journal) - size) / count
            server.kill()
            began = time.perf_counter()
            server.start()
            started = time.perf_counter() - began
            with server.link() as link:
                assert link.ask(CONFIG).place > count
            print(f"{keys:6} keys, {count:5} commits of one: {added:9.0f} bytes of memory and {grown:.0f} of the journal a commit, {count / took:.0f} a second; a start then takes {started:.2f} s", flush=True)


def commits_one_by_one(server, content_id, count):
    began = time.perf_counter()
    request = changing("main", content_id)
    for at in range(0, count, 1000):
        with server.link() as link:
            for number in range(at, min(at + 1000, count)):
                assert link.ask(request.replace(b"########", b"%08d" % number)).status == 200
    return time.perf_counter() - began


PARTS = {part.__name__: part for part in (client, requests, etcd, mixed, views, memory, commits)}


def main():
    parser = argparse.ArgumentParser(description=__doc__.split("\n\n")[0])
    parser.add_argument("--program", default=os.path.join(TOP, "crates/nessie/out/nessie"))
    parser.add_argument("--seconds", type=float, default=4)
    parser.add_argument("parts", nargs="*", choices=[*PARTS, []])
    options = parser.parse_args()
    with tempfile.TemporaryDirectory() as folder:
        load = Load(folder, options.seconds)
        for name in options.parts or PARTS:
            PARTS[name](load, os.path.abspath(options.program))


if __name__ == "__main__":
    main()
