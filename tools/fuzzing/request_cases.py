"""Requests: changed bytes as the input of a session, changed bytes on the connections of a server, changed bodies and targets in whole requests."""
import copy
import os
import signal
import socket
import struct
import sys
import time

sys.path.insert(0, os.path.join(os.path.dirname(os.path.abspath(__file__)), "../clients"))

import random_requests
import reply_rules
from catalogues import answered, journal, replies, told
from mutations import TEXTS, flipped, changed, inserted, mutated, noise, overwritten, renumbered
from program import Wrong, content_of, need_same, write
from serving import HOST, free_port, listens


def some_requests(rng, c, most):
    """Bytes of requests that suit a catalogue, each whole."""
    maker = random_requests.Requests(rng, c, rng.random() < 0.3)
    out = []
    for _ in range(rng.randrange(1, most + 1)):
        _, method, target, fields, body = maker.one()
        fields = fields + ([("Connection", "close")] if rng.random() < 0.02 else [])
        out.append(maker.wire(method, target, fields, body, rng.choice(["1.1"] * 30 + ["1.0"])))
    return out


def some_bytes(rng, c):
    """What is sent: requests of which some are changed, or all of them as one, or just bytes."""
    what = rng.random()
    if what < 0.05:
        return bytes(rng.randrange(256) for _ in range(rng.choice([1, 10, 300, 20000])))
    if what < 0.08:
        return rng.choice([b"\r\n", b"\r", b"GET / HTTP/1.1\r\n", b"a: b\r\n", b"0;", b"\x00"]) * rng.choice([1, 64, 66, 9000])
    parts = some_requests(rng, c, 8)
    if what < 0.35:
        return mutated(rng, b"".join(parts))
    return b"".join(mutated(rng, part, most=2) if rng.random() < 0.3 else part for part in parts)


def need_journal(case, path, before, place):
    """The journal after a session that ended at a place: the old entries, and it opens by the rules at that place, twice alike."""
    after = content_of(path)
    gate = journal.gates(before)[-1]
    need_same("the journal's old entries", before[:gate], after[:gate])
    line, status, c = told(after)
    for _ in range(2):
        need_same("check after the session", (status, line), case.program.run(["check", path]))
    need_same("the place at the end, by the journal", c.place, place)


def requests(case):
    """One input of `nessie script`."""
    c, before = case.base()
    path = write(case.path("journal"), before)
    sent = some_bytes(case.rng, c)
    write(case.path("input"), sent)
    status, output = case.program.run(["script", path], sent, {0, 8})
    found, place = reply_rules.judged(output, len(c.log))
    cuts = len(found) == 1000 or (found[-1].cuts if found else False)
    if cuts is not None and status != (8 if cuts else 0):
        raise Wrong("status %d behind %d replies, the last %s" % (status, len(found), found[-1:] and found[-1].told))
    case.count("status %d" % status)
    for reply in found:
        case.count("reply " + reply.told.partition(":")[0])
    need_journal(case, path, before, place)


class Connection:
    """One connection to a server on which some bytes are sent, in pieces, and what came."""

    def __init__(self, case, server, port):
        self.rng, self.program, self.server = case.rng, case.program, server
        self.socket = socket.create_connection((HOST, port), self.program.limit)
        self.whole = True

    def send(self, sent):
        try:
            while sent:
                size = self.rng.choice([len(sent), len(sent), 1 + self.rng.randrange(len(sent))])
                self.socket.sendall(sent[:size])
                sent = sent[size:]
            self.socket.shutdown(socket.SHUT_WR)
        except OSError:
            self.whole = False  # the server had ended the session; what it said may be lost with that

    def received(self):
        out, got = b"", b"-"
        while got:
            try:
                got = self.socket.recv(1 << 16)
                out += got
            except socket.timeout:
                self.program.need_going("a connection that has given %r" % out[-300:], self.server)
            except OSError:
                self.whole = False
                break
        return out

    def reset(self):
        self.socket.setsockopt(socket.SOL_SOCKET, socket.SO_LINGER, struct.pack("ii", 1, 0))
        self.socket.close()


def served(case, server, port, c, number, place):
    """One connection; the place at its end, or None where it isn't known."""
    sent = some_bytes(case.rng, c)
    write(case.path("input%d" % number), sent)
    link = Connection(case, server, port)
    link.send(sent)
    if case.rng.random() < 0.1:
        link.reset()
        case.count("reset")
        return None
    out = link.received()
    link.socket.close()
    found, place = reply_rules.judged(out, place, link.whole)
    case.count("whole" if link.whole else "ended by the server")
    for reply in found:
        case.count("reply " + reply.told.partition(":")[0])
    return place if link.whole else None


def connections(case):
    """Some connections of `nessie serve`, one after the other, up to the first that is cut: its session may go on beside the next."""
    c, before = case.base()
    path = write(case.path("journal"), before)
    count, port = case.rng.randrange(1, 9), free_port()
    words = ["serve", path, "%s:%d" % (HOST, port), "--workers", str(case.rng.randrange(1, 4)), "--connections", str(count)]
    with case.program.start(words) as child:
        try:
            place = talk(case, child, port, c, count)
            output, error = case.program.finish(words, child)
        except (OSError, Wrong) as error:
            child.kill()
            if child.wait() != -signal.SIGKILL:
                case.program.judged(words, {0}, child.returncode, *child.communicate())
            raise Wrong("connections: %s" % error)
    _, output = case.program.judged(words, {0}, child.returncode, output, error)
    need_same("the server's output", b"", output)
    need_journal(case, path, before, len(told(content_of(path))[2].log) if place is None else place)


def talk(case, child, port, c, count):
    until = time.monotonic() + case.program.limit
    while not listens(port):
        if child.poll() is not None:
            raise Wrong("the server doesn't listen")
        if time.monotonic() > until:
            case.program.need_going("the server's start", child)
            until += case.program.limit
        time.sleep(0.005)
    place = len(c.log)
    for number in range(count):
        before = place
        place = served(case, child, port, c, number, before)
        if place is None:
            for _ in range(number + 1, count):
                socket.create_connection((HOST, port), case.program.limit).close()
            return None
    return place


def changed_target(rng, target):
    """Another target that can stand in a request's first line."""
    out = mutated(rng, target, [flipped, changed, inserted, overwritten, renumbered], 2)
    out = bytes(b for b in out if 0x21 <= b <= 0x7e)
    return out if out.startswith(b"/") else b"/" + out


def bodies(case):
    """Whole requests of which bodies and targets are changed: each reply is the rules' reply."""
    c, before = case.base()
    path = write(case.path("journal"), before)
    maker = random_requests.Requests(case.rng, c, case.rng.random() < 0.3)
    asked, sent = [], b""
    for _ in range(case.rng.randrange(1, 9)):
        _, method, target, fields, body = maker.one()
        if body and case.rng.random() < 0.6:
            body = mutated(case.rng, body, TEXTS if case.rng.random() < 0.5 else [flipped, changed, inserted, noise, renumbered], 2)
        if case.rng.random() < 0.2:
            target = changed_target(case.rng, target)
        asked.append((method, target, fields, body))
        sent += maker.wire(method, target, fields, body)
    write(case.path("input"), sent)
    status, output = case.program.run(["script", path], sent, {0})
    side = replies.Session(copy.deepcopy(c))
    need_same("the replies", answered(side, asked, path), output)
    for reply in reply_rules.judged(output, len(c.log))[0]:
        case.count("reply " + reply.told.partition(":")[0])
    found = content_of(path)
    need_same("the journal's entries", None, journal.compared(found, side.catalogue.log))
    need_journal(case, path, before, len(side.catalogue.log))
