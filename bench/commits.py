#!/usr/bin/env python3
"""Times commits of n operations on a map of m keys, by the program over a pair of pipes.

Usage: bench/commits.py [M ..] (1000 and 10000 where none is named)

For each m a new run of `nessie script` is filled with m tables, by commits of up to 5,000. Then
commits of n DELETEs of absent keys and of n UNCHANGED are sent, and the time from the first byte
sent to the last byte of the reply is printed, the least of five, beside its ratio to the first one.
"""
import json
import os
import subprocess
import sys
import tempfile
import time

HERE = os.path.dirname(os.path.abspath(__file__))
PROGRAM = os.path.join(HERE, "..", "nessie")


def request(operations):
    body = json.dumps({"commitMeta": {"message": "b"}, "operations": operations}, separators=(",", ":")).encode()
    return b"POST /api/v2/trees/main/history/commit HTTP/1.1\r\nContent-Length: %d\r\n\r\n" % len(body) + body


def put(key):
    return {"type": "PUT", "key": {"elements": [key]}, "content": {"type": "ICEBERG_TABLE", "metadataLocation": "m", "snapshotId": 1, "schemaId": 0, "specId": 0, "sortOrderId": 0}}


class Session:
    def __init__(self):
        self.folder = tempfile.TemporaryDirectory()
        journal = os.path.join(self.folder.name, "bench.journal")
        self.process = subprocess.Popen([PROGRAM, "script", journal], stdin=subprocess.PIPE, stdout=subprocess.PIPE)

    def ask(self, sent):
        began = time.perf_counter()
        self.process.stdin.write(sent)
        self.process.stdin.flush()
        status = self.process.stdout.readline()
        length = 0
        while True:
            line = self.process.stdout.readline()
            if line in (b"\r\n", b""):
                break
            if line.lower().startswith(b"content-length:"):
                length = int(line.split(b":")[1])
        self.process.stdout.read(length)
        return status.split(b" ")[1].decode(), time.perf_counter() - began

    def end(self):
        self.process.stdin.close()
        self.process.wait()
        self.folder.cleanup()


def measured(session, operations):
    sent = request(operations)
    times = []
    for _ in range(5):
        status, took = session.ask(sent)
        times.append(took)
    return status, min(times)


def main(sizes):
    first = {}
    for m in sizes:
        session = Session()
        keys = ["t%07d" % i for i in range(m)]
        filling = time.perf_counter()
        for at in range(0, m, 5000):
            status, _ = session.ask(request([put(key) for key in keys[at:at + 5000]]))
            if status != "200":
                sys.exit("a filling commit was answered " + status)
        print("m %d: filled in %.2f s" % (m, time.perf_counter() - filling))
        for n in (10, 100, 1000, 10000):
            status, took = measured(session, [{"type": "UNCHANGED", "key": {"elements": ["u%d" % i]}} for i in range(n)])
            base = first.setdefault("u", took)
            print("m %d, n %5d UNCHANGED: %s, %8.2f ms, ratio %.2f" % (m, n, status, took * 1000, took / base))
        session.end()


if __name__ == "__main__":
    main([int(word) for word in sys.argv[1:]] or [1000, 10000])
