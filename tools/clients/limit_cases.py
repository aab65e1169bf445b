"""Time limits: silent clients, slow writers and slow readers lose their connection, and others go on meanwhile.

A read or write waits at most 10 seconds, and from a reply to the next one at most 60 seconds pass in reads. All of these
cases run at once, each on a server of its own, in some 75 seconds. A slow machine makes all of it later, so what is wanted is wide; the figures tell more.
"""
import select
import threading
import time

from catalogue_bodies import large
from serving import CONFIG, Ended, Server, get, post

LARGE = get("/trees/main/contents/large")


def seconds_to_the_end(link, began, most=90):
    """After how many seconds the connection ends, and what had come by then."""
    link.socket.settimeout(most)
    rest = link.rest()
    return time.monotonic() - began, rest


def ended_within(cases, what, least, most, took, rest):
    cases.told(what, f"its end after {least} to {most} s, without a reply", f"{took:.1f} s and {len(rest)} bytes", least <= took <= most and rest == b"")


def silent(cases, server):
    with server.link() as link:
        ended_within(cases, "a client that sends nothing", 9, 30, *seconds_to_the_end(link, time.monotonic()))


def silent_within(cases, server):
    with server.link() as link:
        link.ask(CONFIG)
        link.send(CONFIG[:30])
        ended_within(cases, "a client that stops within its second request", 9, 30, *seconds_to_the_end(link, time.monotonic()))


def slow_writer(cases, server):
    """A byte every two seconds: each read is in time, and all of them are not."""
    with server.link() as link:
        began = time.monotonic()
        for at in range(45):
            if select.select([link.socket], [], [], 2)[0]:
                break
            try:
                link.send((b"GET /" + b"x" * 100)[at:at + 1])
            except OSError:
                break
        ended_within(cases, "a client that sends a byte every two seconds", 58, 90, *seconds_to_the_end(link, began))


def slow_reader(cases, program):
    """It reads nothing, with replies of many megabytes asked for: its worker, the only one, is free again in time."""
    with Server(program, "--workers", 1) as server:
        with server.link() as link:
            link.ask(post("/trees/main/history/commit", large()))
        slow = server.link(read_room=4096)
        slow.send(LARGE * 400)
        time.sleep(0.5)
        began = time.monotonic()
        with server.link() as link:
            came = link.ask(CONFIG).status
        took = time.monotonic() - began
        cases.told("a client that reads nothing, and a second one on the only worker", "200 after 8 s at least", f"{came} after {took:.1f} s", came == 200 and 8 <= took)
        slow.close()


def patient_reader(cases, program):
    """It reads a little now and then: no limit is on that, and none is wanted here; what comes is told."""
    with Server(program, "--workers", 1) as server:
        with server.link() as link:
            link.ask(post("/trees/main/history/commit", large()))
        slow = server.link(read_room=4096)
        slow.send(LARGE * 400)
        other = server.link(seconds=0.1)
        other.send(CONFIG)
        began, served = time.monotonic(), None
        while served is None and time.monotonic() - began < 72:
            slow.socket.recv(65536)
            time.sleep(2)
            try:
                served = other.reply().status
            except (TimeoutError, Ended):
                pass
        took = time.monotonic() - began
        cases.told("a client that reads 64 KB every two seconds, and a second one on the only worker", "no more than to be told", f"{served} after {took:.0f} s", True)
        slow.close()
        other.close()


def all_held(cases, program):
    """Two silent clients hold two workers; a third client waits until one is free."""
    with Server(program, "--workers", 2) as server:
        held = [server.link() for _ in range(2)]
        time.sleep(0.3)
        began = time.monotonic()
        with server.link(seconds=60) as link:
            came = link.ask(CONFIG).status
        took = time.monotonic() - began
        cases.told("a third client, both workers being held", "200 after 8 to 30 s", f"{came} after {took:.1f} s", came == 200 and 8 <= took <= 30)
        for link in held:
            link.close()


def pool(cases, program):
    """Twelve clients that keep their connections open on four workers: those that wait get a worker when it is let go."""
    with Server(program, "--workers", 4) as server:
        links = [server.link(seconds=60) for _ in range(12)]
        began = time.monotonic()
        for link in links:
            link.send(CONFIG)
        came = []
        for link in links:
            status = link.reply().status
            came.append((status, round(time.monotonic() - began)))
        cases.told("12 connections that are kept open on 4 workers", "200 each, the last after 18 to 60 s", f"{len(came)} replies, the last after {came[-1][1]} s", {status for status, _ in came} == {200} and 18 <= came[-1][1] <= 60)
        for link in links:
            link.close()


def kept_alive(cases, server):
    """A connection on which a request comes every nine seconds stays, whatever 60 seconds are."""
    with server.link() as link:
        came = []
        for _ in range(8):
            came.append(link.ask(CONFIG).status)
            time.sleep(9)
        cases.same("a request every nine seconds, 72 seconds long", [200] * 8, came)


def others_go_on(cases, server, done):
    """A client beside all of these: the longest that it waited."""
    worst = 0.0
    link = server.link()
    for number in range(100000):
        if done.wait(0.1):
            break
        began = time.monotonic()
        if link.ask(CONFIG).closes:
            link.close()
            link = server.link()
        worst = max(worst, time.monotonic() - began)
    link.close()
    cases.told("a client beside all of these", "replies in less than any limit", f"{number} replies, the last after {worst * 1000:.1f} ms at most", worst < 9)


def run(cases):
    done = threading.Event()
    with Server(cases.program, "--workers", 8) as server:
        jobs = [(silent, server), (silent_within, server), (slow_writer, server), (kept_alive, server)]
        jobs += [(slow_reader, cases.program), (patient_reader, cases.program), (all_held, cases.program), (pool, cases.program)]
        threads = [threading.Thread(target=cases.guarded, args=("limits: " + case.__name__, case, given)) for case, given in jobs]
        beside = threading.Thread(target=cases.guarded, args=("limits: others", others_go_on, server, done))
        beside.start()
        for thread in threads:
            thread.start()
        for thread in threads:
            thread.join()
        done.set()
        beside.join()
        cases.same("limits: the server is still there", None, server.process.poll())
