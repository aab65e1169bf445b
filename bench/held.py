#!/usr/bin/env python3
"""What a commit of one new key leaves allocated, by what it is for.

Usage: bench/held.py [--program FILE] [--each] [KEYS ..] (1000 and 990000 where none is named)

On a journal of so many keys, 500 commits come at once to `nessie script`. Of the last 400 each block that is still there
when all are answered is counted with the calls that asked for it (bench/live.c), and with 8 bytes of the allocator's own.
The map at the commit is what `KeyMap::with_changes` asked for, the tables what the paths to their new values took, and the
rest is the commit's own record: its entry in the log, the commit, its content, its keys. A list that grows by doubling is
counted as it stands. `--each` tells each way of calls too. The proved program keeps no frames, so of it only the sum is
told; the parts want one that was built without proofs, and optimised.
"""
import argparse
import bisect
import collections
import os
import signal
import subprocess
import sys
import tempfile
import time

import commits as pipes

HERE = os.path.dirname(os.path.abspath(__file__))
BEFORE, COUNTED = 100, 400


def parse():
    parser = argparse.ArgumentParser(description=__doc__.split("\n\n")[0])
    parser.add_argument("--program", default=os.path.join(HERE, "..", "crates/nessie/out/nessie"))
    parser.add_argument("--each", action="store_true")
    parser.add_argument("keys", nargs="*", type=int, default=[1000, 990000])
    return parser.parse_args()


OPTIONS = parse()
PROGRAM = pipes.PROGRAM = os.path.realpath(OPTIONS.program)

import requests

requests.PROGRAM = PROGRAM

from commits import put, request
from pages import key


class Names:
    """The functions of the program, by their addresses."""

    def __init__(self):
        listed = (line.split(maxsplit=2) for line in subprocess.check_output(["nm", "-C", PROGRAM], text=True).splitlines())
        found = sorted((int(words[0], 16), words[2]) for words in listed if len(words) == 3 and words[1] in "tTwW")
        self.starts, self.names = [start for start, _ in found], [name.split("::<")[0] for _, name in found]

    def of(self, address):
        at = bisect.bisect_right(self.starts, address) - 1
        return self.names[at] if at >= 0 and address < self.starts[-1] + (1 << 20) else ""


def filled(folder, count):
    path = os.path.join(folder, f"{count}.journal")
    run = requests.Run(path)
    for start in range(0, count, 5000):
        run.ask(request([put(key(number)) for number in range(start, min(count, start + 5000))]))
    run.end()
    return path


def ask(run, numbers):
    sent = b"".join(request([put("n%07d" % number)]) for number in numbers)
    requests.timed(run.process.stdin, run.process.stdout, sent, lambda stream: requests.read_replies(stream, len(numbers)))


def told(run):
    os.kill(run.process.pid, signal.SIGUSR1)
    time.sleep(1)


def held(folder, path):
    """How many blocks and bytes are left a commit, by the program's functions that asked for them, the innermost first."""
    out = os.path.join(folder, "live")
    os.environ.update(LD_PRELOAD=os.path.join(folder, "live.so"), LIVE=out)
    run = requests.Run(path)
    for name in ("LD_PRELOAD", "LIVE"):
        del os.environ[name]
    ask(run, range(BEFORE))
    told(run)
    ask(run, range(BEFORE, BEFORE + COUNTED))
    with open(f"/proc/{run.process.pid}/maps") as maps:
        base = min(int(line.split("-")[0], 16) for line in maps if line.rstrip().endswith(PROGRAM))
    told(run)
    run.end()
    names, left = Names(), collections.defaultdict(lambda: [0, 0])
    with open(out) as lines:
        for line in lines:
            blocks, size, *calls = line.split()
            way = tuple(name for name in (names.of(int(call, 16) - base) for call in calls) if name.startswith("cat_"))
            left[way][0] += int(blocks) / COUNTED
            left[way][1] += int(size) / COUNTED
    return left


def purpose(way):
    if any("KeyMap::with_changes" in name for name in way):
        return "the map at the commit"
    return "tables" if any("cat_ordered" in name for name in way) else "its own record"


def main():
    with tempfile.TemporaryDirectory() as folder:
        subprocess.run(["cc", "-O1", "-fno-omit-frame-pointer", "-shared", "-fPIC", "-o", os.path.join(folder, "live.so"),
                        os.path.join(HERE, "live.c"), "-ldl", "-lpthread"], check=True)
        for count in OPTIONS.keys:
            left = held(folder, filled(folder, count))
            sums = collections.Counter()
            for way, (_, size) in left.items():
                sums[purpose(way)] += size
            parts = ": " + ", ".join(f"{name} {size:.0f}" for name, size in sums.most_common())
            framed = any(len(way) > 1 for way in left)
            print(f"a commit on {count} keys leaves {sum(sums.values()):.0f} bytes{parts if framed else ''}", flush=True)
            for way, (blocks, size) in sorted(left.items(), key=lambda x: -x[1][1]) if OPTIONS.each else []:
                print(f"{size:8.1f} bytes in {blocks:5.2f} blocks: {' < '.join(way)}")


if __name__ == "__main__":
    main()
