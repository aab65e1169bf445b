#!/usr/bin/env python3
"""Times what a checkpoint costs and what it saves, in one run.

Usage: bench/checkpoints.py [--program FILE] [--commits 100000] [--contents 10000 1000000] [--journals FOLDER]

Opening: a journal of so many commits of one new key each, and a copy of it with a checkpoint at its end; the least of five
starts of each, up to the first reply, the two in turn. Pause: a journal of so many contents, made by commits of up to 5,000
keys; the time from a checkpoint's request to its reply, the middle one of five, one after another on one run, beside a write
and a sync of as many bytes and a write and a sync of one, made by hand on the same disk right after; what the first one adds
to the file; and the least of three openings of the journal before and behind it.
"""
import argparse
import os
import shutil
import statistics
import sys
import tempfile
import time

HERE = os.path.dirname(os.path.abspath(__file__))


def parse():
    parser = argparse.ArgumentParser(description=__doc__.split("\n\n")[0])
    parser.add_argument("--program", default=os.path.join(HERE, "..", "crates/nessie/out/nessie"))
    parser.add_argument("--commits", type=int, default=100000)
    parser.add_argument("--contents", type=int, nargs="*", default=[10000, 1000000])
    parser.add_argument("--journals")
    return parser.parse_args()


OPTIONS = parse()
# `aims` reads the words of the command line too
sys.argv = [sys.argv[0], "--program", OPTIONS.program]
import aims
import requests

CHECKPOINT = b"POST /gc/v1/checkpoint HTTP/1.1\r\n\r\n"


def checkpointed(run):
    """The seconds until a checkpoint's reply."""
    began = time.perf_counter()
    _, good = run.ask(CHECKPOINT)
    took = time.perf_counter() - began
    assert good, "a checkpoint wasn't accepted"
    return took


def with_checkpoint(path, copy):
    """A copy of the journal with a checkpoint at its end."""
    shutil.copyfile(path, copy)
    run = requests.Run(copy)
    checkpointed(run)
    run.end()
    return copy


def by_hand(folder, count):
    """The seconds of the disk calls of a payload of so many bytes."""
    path, times = os.path.join(folder, "hand"), []
    for _ in range(5):
        file = os.open(path, os.O_RDWR | os.O_CREAT | os.O_TRUNC)
        began = time.perf_counter()
        os.pwrite(file, b"\0" * count, 1)
        os.fsync(file)
        os.pwrite(file, b"\1", 0)
        os.fsync(file)
        times.append(time.perf_counter() - began)
        os.close(file)
    return statistics.median(times)


def openings(paths, count):
    """The least seconds until each journal is open, the journals in turn."""
    times = [[aims.opened(path) for path in paths] for _ in range(count)]
    return [min(of) for of in zip(*times)]


def made(name, make):
    """The journal of that name, made where it isn't there yet."""
    if os.path.exists(name):
        return name
    os.rename(make(), name)
    return name


def of_commits(folder):
    asked = [aims.request([aims.put("n%07d" % n)]) for n in range(OPTIONS.commits)]
    return made(os.path.join(folder, f"commits{OPTIONS.commits}"), lambda: aims.kept(folder, asked))


def of_contents(folder, contents):
    return made(os.path.join(folder, f"contents{contents}"), lambda: aims.filled(folder, contents))


def opening(folder, whole):
    based = with_checkpoint(whole, os.path.join(folder, "based"))
    before, behind = openings((whole, based), 5)
    sizes = os.path.getsize(whole), os.path.getsize(based)
    aims.show(f"opening {OPTIONS.commits} commits, and behind their checkpoint", f"{before:.2f} and {behind:.2f} s ({before / behind:.1f}); {sizes[0]} and {sizes[1]} bytes")


def pause(folder, contents, path):
    before = os.path.getsize(path)
    copy = os.path.join(folder, "paused")
    shutil.copyfile(path, copy)
    run = requests.Run(copy)
    run.ask(b"GET /api/v2/config HTTP/1.1\r\n\r\n")
    held = aims.resident(run)
    first = checkpointed(run)
    added = os.path.getsize(copy) - before
    times = [first] + [checkpointed(run) for _ in range(4)]
    most = run.end()
    hand = by_hand(folder, added)
    based = with_checkpoint(path, copy)
    opened = openings((path, based), 3)
    aims.show(f"checkpoint of {contents} contents", f"{statistics.median(times) * 1000:.1f} ms, by hand {hand * 1000:.1f}; {before} bytes and {added} more; {held / 1024:.0f} MB held, {most:.0f} at most; opening {opened[0]:.3f} and {opened[1]:.3f} s")


def main():
    with tempfile.TemporaryDirectory() as folder:
        journals = OPTIONS.journals or folder
        whole = of_commits(journals)
        filled = [(contents, of_contents(journals, contents)) for contents in OPTIONS.contents]
        for contents, path in filled:
            pause(folder, contents, path)
        opening(folder, whole)


if __name__ == "__main__":
    main()
