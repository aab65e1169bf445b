#!/usr/bin/env python3
"""Times requests a second of one session, sent ahead over a pair of pipes, on maps of m keys.

Usage: bench/requests.py [M ..] (1000 and 100000 where none is named)

For each m a journal is filled with m tables, by commits of up to 5,000, and for each kind of request
a new run of `nessie script` on a copy of it is sent 400 of them at once. Beside each rate stands the
machine's own limit: for commits, the disk calls that their entries cost, made by hand (a write of the
frame, a sync, a write of its gate, a sync); for the others, `cat` over the same pipes, handed the
bytes of the replies. The most memory that the run held stands last.
"""
import os
import shutil
import subprocess
import sys
import tempfile
import threading
import time

from commits import PROGRAM, put, request
from journal import by_hand, payloads
from merges import branch_from_main, commit_on, head_of, post
from pages import get, key

COUNT = 400


def read_replies(stream, count):
    """Reads so many replies, and gives the bytes of all, and whether each was 200."""
    total, good = 0, True
    for _ in range(count):
        status = stream.readline()
        total += len(status)
        good = good and status.split(b" ")[1] == b"200"
        length = 0
        while (line := stream.readline()) not in (b"\r\n", b""):
            total += len(line)
            if line.startswith(b"Content-Length:"):
                length = int(line.split(b":")[1])
        total += 2 + len(stream.read(length))
    return total, good


class Run:
    """One run of the program on a journal that is there, with its pipes."""

    def __init__(self, journal):
        self.process = subprocess.Popen([PROGRAM, "script", journal], stdin=subprocess.PIPE, stdout=subprocess.PIPE)

    def ask(self, sent):
        self.process.stdin.write(sent)
        self.process.stdin.flush()
        return read_replies(self.process.stdout, 1)

    def end(self):
        """Ends the run, and gives the most memory that it held, in MB."""
        with open(f"/proc/{self.process.pid}/status") as told:
            most = next(int(line.split()[1]) for line in told if line.startswith("VmHWM"))
        self.process.stdin.close()
        self.process.wait()
        return most / 1024


def timed(stdin, stdout, sent, read):
    """The seconds from the first byte sent to the last byte read."""
    began = time.perf_counter()
    writer = threading.Thread(target=lambda: (stdin.write(sent), stdin.flush()))
    writer.start()
    told = read(stdout)
    took = time.perf_counter() - began
    writer.join()
    return took, told


def piped(total):
    """The seconds that `cat` takes to hand over so many bytes."""
    process = subprocess.Popen(["cat"], stdin=subprocess.PIPE, stdout=subprocess.PIPE)
    took, _ = timed(process.stdin, process.stdout, b"x" * total, lambda stream: stream.read(total))
    process.stdin.close()
    process.wait()
    return took


def kinds(m):
    """Each kind of request, with COUNT requests of it."""
    middle = key(m // 2)
    yield "config", b"GET /api/v2/config HTTP/1.1\r\n\r\n" * COUNT
    yield "read of one content", get("contents/" + middle) * COUNT
    yield "list of 100 entries", get("entries?max-records=100&min-key=" + middle) * COUNT
    yield "commit of one key", b"".join(request([put("n%07d" % n)]) for n in range(COUNT))


def main(sizes):
    with tempfile.TemporaryDirectory() as folder:
        for m in sizes:
            filled = os.path.join(folder, f"{m}.journal")
            run = Run(filled)
            for start in range(0, m, 5000):
                run.ask(request([put(key(n)) for n in range(start, min(m, start + 5000))]))
            run.end()
            copy = os.path.join(folder, "copy.journal")
            for name, sent in list(kinds(m)) + [("dry run of a merge", None)]:
                shutil.copyfile(filled, copy)
                run = Run(copy)
                run.ask(b"GET /api/v2/config HTTP/1.1\r\n\r\n")
                if sent is None:
                    branch_from_main(run, "dev")
                    run.ask(commit_on("dev", [put("branched")]))
                    sent = post("/main/history/merge", {"fromRefName": "dev", "fromHash": head_of(run, "dev"), "dryRun": True}) * COUNT
                took, (total, good) = timed(run.process.stdin, run.process.stdout, sent, lambda stream: read_replies(stream, COUNT))
                if not good:
                    sys.exit(f"{name}: a reply wasn't 200")
                most = run.end()
                if name.startswith("commit"):
                    limit = by_hand(folder, list(payloads(copy))[-COUNT:])
                else:
                    limit = piped(total)
                print(f"m {m:6} {name:20} {COUNT / took:9.0f} a second, limit {COUNT / limit:9.0f}, ratio {limit / took:.2f}, {most:6.1f} MB", flush=True)


if __name__ == "__main__":
    main([int(word) for word in sys.argv[1:]] or [1000, 100000])
