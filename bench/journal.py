#!/usr/bin/env python3
"""Times commits over a journal in a file, beside the same disk calls made by hand.

Usage: bench/journal.py [N] (900 commits where it isn't named; a session answers 1,000)

A run of `nessie script` gets N commits of one table each on standard input; the time of a run
without a request is taken off. By hand, each of the N entries is a write of its frame, a sync, a
write of its gate, and a sync. The rates and their ratio are printed, the best of three. Then the
journal is opened again by `nessie check`, with N and with N / 10 entries.
"""
import os
import struct
import subprocess
import sys
import tempfile
import time

HERE = os.path.dirname(os.path.abspath(__file__))
PROGRAM = os.path.join(HERE, "..", "nessie")


def commit(index):
    body = b'{"commitMeta":{"message":"b"},"operations":[{"type":"PUT","key":{"elements":["t%d"]},"content":{"type":"ICEBERG_TABLE","metadataLocation":"m","snapshotId":1}}]}' % index
    return b"POST /api/v2/trees/main/history/commit HTTP/1.1\r\nContent-Length: %d\r\n\r\n" % len(body) + body


def timed(words, sent):
    began = time.perf_counter()
    subprocess.run([PROGRAM] + words, input=sent, stdout=subprocess.PIPE, check=True)
    return time.perf_counter() - began


def payloads(path):
    with open(path, "rb") as file:
        held = file.read()
    at = 16
    while held[at] == 1:
        length = struct.unpack(">I", held[at + 1:at + 5])[0]
        yield held[at + 5:at + 5 + length]
        at += 5 + length


def by_hand(folder, entries):
    path = os.path.join(folder, "hand")
    file = os.open(path, os.O_RDWR | os.O_CREAT | os.O_TRUNC)
    os.pwrite(file, b"NESSIECJ\0\0\0\x01\0\0\0\x01\0", 0)
    os.fsync(file)
    began = time.perf_counter()
    gate = 16
    for entry in entries:
        os.pwrite(file, struct.pack(">I", len(entry)) + entry + b"\0", gate + 1)
        os.fsync(file)
        os.pwrite(file, b"\x01", gate)
        os.fsync(file)
        gate += 5 + len(entry)
    took = time.perf_counter() - began
    os.close(file)
    return took


def main(count):
    with tempfile.TemporaryDirectory() as folder:
        empty = os.path.join(folder, "empty.journal")
        start = min(timed(["script", empty], b"") for _ in range(3))
        sent = b"".join(commit(index) for index in range(count))
        runs, hands = [], []
        for turn in range(3):
            path = os.path.join(folder, "%d.journal" % turn)
            runs.append(timed(["script", path], sent) - start)
            hands.append(by_hand(folder, list(payloads(path))))
        ran, hand = min(runs), min(hands)
        print("%d commits: %.0f a second; the disk calls by hand: %.0f a second; ratio %.2f" % (count, count / ran, count / hand, hand / ran))
        few = os.path.join(folder, "few.journal")
        timed(["script", few], b"".join(commit(index) for index in range(count // 10)))
        opened = {name: min(timed(["check", os.path.join(folder, name)], b"") for _ in range(5)) - start for name in ("few.journal", "0.journal")}
        print("opening %d entries: %.1f ms; %d entries: %.1f ms" % (count // 10, opened["few.journal"] * 1000, count, opened["0.journal"] * 1000))


if __name__ == "__main__":
    main(int(sys.argv[1]) if len(sys.argv) > 1 else 900)
