#!/usr/bin/env python3
"""Where the time of a commit goes: each system call and each sleep of the program's threads, by the kernel's tracepoints.

Usage: bench/where.py [--program FILE] [--keys 1000] [pipe|hand|N ..] (pipe, hand, 1 and 8 where none is named)

`pipe` is 900 commits of a new key each, sent at once to one run of `nessie script` on a map of so many keys; `hand` the
disk calls of their entries, made by hand by a process that does nothing else; a number so many connections to `nessie
serve`, each of which commits one key to a branch of its own, for a second. The first line of each is of a run that isn't
watched. Then, for a commit, how often each call is made, how long it takes, for how long of that the thread sleeps, for
how long of that it has been woken already and doesn't run yet, and how long it runs in the kernel; and what is outside of
calls: the program's own time. Watching takes a microsecond or two for each call. It wants root and Debian's linux-perf.
"""
import argparse
import collections
import os
import re
import shutil
import subprocess
import sys
import tempfile
import threading
import time

import commits as pipes

HERE = os.path.dirname(os.path.abspath(__file__))
ONE_RUN = 900
EVENTS = "raw_syscalls:sys_enter,raw_syscalls:sys_exit,sched:sched_switch,sched:sched_waking"
CALLS = {0: "read", 1: "write", 3: "close", 7: "poll", 8: "lseek", 9: "mmap", 10: "mprotect", 11: "munmap", 12: "brk", 17: "pread64",
         18: "pwrite64", 25: "mremap", 28: "madvise", 44: "sendto", 45: "recvfrom", 54: "setsockopt", 74: "fsync", 202: "futex", 288: "accept4"}


def parse():
    parser = argparse.ArgumentParser(description=__doc__.split("\n\n")[0])
    parser.add_argument("--program", default=os.path.join(HERE, "..", "crates/nessie/out/nessie"))
    parser.add_argument("--keys", type=int, default=1000)
    parser.add_argument("what", nargs="*", default=["pipe", "hand", "1", "8"])
    return parser.parse_args()


OPTIONS = parse()
PROGRAM = pipes.PROGRAM = os.path.abspath(OPTIONS.program)

import journal
import requests
import serve

journal.PROGRAM = requests.PROGRAM = PROGRAM

from commits import put, request
from pages import key
from serving import Server


def threads_of(pid):
    return {int(thread) for thread in os.listdir(f"/proc/{pid}/task")}


def record(path, seconds):
    subprocess.run(["perf", "record", "-q", "-a", "-m", "4096", "-e", EVENTS, "-o", path, "--", "sleep", str(seconds)],
                   check=True, stdout=subprocess.DEVNULL, stderr=subprocess.DEVNULL)


def name_of(rest):
    """The call that is entered; a futex call by what it does."""
    number = int(re.match(r"NR (\d+)", rest)[1])
    name = CALLS.get(number, str(number))
    if name == "futex":
        name += " wake" if int(re.search(r"\(\w+, (\w+)", rest)[1], 16) & 15 in (1, 10) else " wait"
    return name


def events(path):
    """Thread, microseconds, kind and the rest of each event."""
    words = ["perf", "script", "-i", path, "-F", "tid,time,event,trace"]
    with subprocess.Popen(words, stdout=subprocess.PIPE, stderr=subprocess.DEVNULL, text=True) as script:
        for line in script.stdout:
            if found := re.match(r"\s*(\d+)\s+(\d+\.\d+):\s+\w+:(\w+):\s+(.*)", line):
                yield int(found[1]), float(found[2]) * 1e6, found[3], found[4]


class Times:
    """What the calls of some threads took, from the first write to the disk to the last sync."""

    def __init__(self, path, threads):
        self.count, self.taken, self.asleep, self.woken = (collections.Counter() for _ in range(4))
        self.preempted, self.threads = 0, set()
        inside, out, wakes, began, ended = {}, {}, {}, None, None
        for thread, now, kind, rest in events(path):
            if kind == "sys_enter" and thread in threads:
                name = name_of(rest)
                if began is None and name != "pwrite64":
                    continue
                began = began or now
                inside[thread] = [name, now, 0, 0]
                self.threads.add(thread)
            elif kind == "sys_exit" and thread in inside:
                self.runs(thread, now, inside, out, wakes)
                name, since, slept, woken = inside.pop(thread)
                for counter, value in ((self.count, 1), (self.taken, now - since), (self.asleep, slept), (self.woken, woken)):
                    counter[name] += value
                if name == "fsync":
                    ended = now
            elif kind == "sched_waking":
                wakes[int(re.search(r" pid=(\d+)", rest)[1])] = now
            elif kind == "sched_switch":
                before, state, after = re.search(r"prev_pid=(\d+).*prev_state=(\w).*next_pid=(\d+)", rest).groups()
                if int(before) in threads:
                    out[int(before)] = (now, state)
                    wakes.pop(int(before), None)
                self.runs(int(after), now, inside, out, wakes)
        self.span = ended - began
        self.commits = self.count["fsync"] / 2

    def runs(self, thread, now, inside, out, wakes):
        """A thread that didn't run does so from now on."""
        if thread not in out:
            return
        since, state = out.pop(thread)
        if thread in inside:
            inside[thread][2] += now - since
            inside[thread][3] += now - max(since, wakes.get(thread, now))
        elif state == "R":
            self.preempted += now - since

    def show(self):
        each = lambda value: value / self.commits
        print(f"watched: {self.commits:.0f} commits, {self.span / self.commits:.1f} us each")
        print(f"{'a commit':14}{'calls':>8}{'us':>9}{'asleep':>9}{'woken':>9}{'running':>9}")
        for name, taken in self.taken.most_common():
            if each(taken) >= 0.05:
                print(f"{name:14}{each(self.count[name]):8.2f}{each(taken):9.1f}{each(self.asleep[name]):9.1f}"
                      f"{each(self.woken[name]):9.1f}{each(taken - self.asleep[name]):9.1f}")
        whole = each(self.span * len(self.threads))
        print(f"{'outside':22}{whole - each(sum(self.taken.values())):9.1f}, of which {each(self.preempted):.1f} another ran", flush=True)


def filled(folder, count):
    path = os.path.join(folder, "filled")
    run = requests.Run(path)
    for start in range(0, count, 5000):
        run.ask(request([put(key(number)) for number in range(start, min(count, start + 5000))]))
    run.end()
    return path


def piped(folder, journal_path, path=None):
    """The seconds of the commits, watched where a path is given, the run's threads, and its journal."""
    copy = os.path.join(folder, "copy")
    shutil.copyfile(journal_path, copy)
    run = requests.Run(copy)
    run.ask(b"GET /api/v2/config HTTP/1.1\r\n\r\n")
    sent = b"".join(request([put("n%07d" % number)]) for number in range(ONE_RUN))
    watch = threading.Thread(target=record, args=(path, 1.5)) if path else None
    if watch:
        watch.start()
        time.sleep(0.6)
    took, (_, good) = requests.timed(run.process.stdin, run.process.stdout, sent, lambda stream: requests.read_replies(stream, ONE_RUN))
    if watch:
        watch.join()
    threads = threads_of(run.process.pid)
    run.end()
    if not good:
        sys.exit("a commit wasn't made")
    return took, threads, copy


def by_hand(folder, entries, path):
    """The same entries' disk calls, made by a process of its own, watched; its threads."""
    child = os.fork()
    if child == 0:
        time.sleep(0.8)
        journal.by_hand(folder, entries)
        time.sleep(1)
        os._exit(0)
    record(path, 1.5)
    threads = threads_of(child)
    os.waitpid(child, 0)
    return threads


def served(folder, size, path):
    load = serve.Load(folder, 3)
    with Server(PROGRAM, "--workers", size) as server:
        asked = serve.changing("b@@", serve.content_id_of_k(server))
        serve.branches(server, size)
        print(f"{size} connections: {load.run(server.port, size, asked)}")
        client = load.start(server.port, size, asked)
        time.sleep(1)
        record(path, 1)
        threads = threads_of(server.process.pid)
        serve.told(client)
    Times(path, threads).show()


def main():
    with tempfile.TemporaryDirectory() as folder:
        path = os.path.join(folder, "events")
        start = filled(folder, OPTIONS.keys)
        for what in OPTIONS.what:
            if what == "pipe":
                took, _, _ = piped(folder, start)
                print(f"by a pipe: {took / ONE_RUN * 1e6:.1f} us a commit")
                _, threads, _ = piped(folder, start, path)
                Times(path, threads).show()
            elif what == "hand":
                entries = list(journal.payloads(piped(folder, start)[2]))[-ONE_RUN:]
                print(f"by hand: {journal.by_hand(folder, entries) / ONE_RUN * 1e6:.1f} us an entry")
                Times(path, by_hand(folder, entries, path)).show()
            else:
                served(folder, int(what), path)


if __name__ == "__main__":
    main()
