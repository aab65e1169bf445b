"""Catalogues that the plain rules make, the journals that hold them, and a session that goes on upon a journal."""
import json
import os
import sys

sys.path.insert(0, os.path.join(os.path.dirname(os.path.abspath(__file__)), "../../oracle"))

import catalogue as rules
import journal
import random_requests
import reading
import replies
from compare import line_of
from program import content_of, need_same

BEGUN = 1_600_000_000_000_000


def made(rng, entries):
    """A catalogue with so many entries, by random requests."""
    c = rules.Catalogue()
    maker = random_requests.Requests(rng, c, rng.random() < 0.5)
    side = replies.Session(c)
    moment = BEGUN + rng.randrange(10 ** 15) // 10 ** 4
    while len(c.log) < entries:
        _, method, target, fields, body = maker.one()
        moment += rng.randrange(2_000_000)
        side.answer(method, target, fields, body, moment)
    c.opened()
    return c


def spelled(c):
    """The journal of a catalogue."""
    return journal.written([journal.payload(entry, entry[3]) for entry in c.log])


def told(file):
    """What `check` says of a file by the rules, its status, and the catalogue."""
    try:
        c = reading.opened(file)
        return line_of(c), 0, c
    except reading.Unopened as refusal:
        return refusal.line, 3, None


def answered(side, requests, path):
    """The rules' replies to requests that the program has answered; the moments of its entries are told by its journal."""
    found = content_of(path)
    gates = journal.entry_gates(found)
    out = b""
    for method, target, fields, body in requests:
        place = side.catalogue.place
        moment = journal.moment_at(found, gates[place]) if place + 1 < len(gates) else 0
        out += side.answer(method, target, fields, body, moment)
    return out


def payloads_of(file):
    """Those of the entries."""
    gates = journal.gates(file)
    return [file[gate + 5:end] for gate, end in zip(gates, gates[1:]) if not journal.is_base(file, gate)]


def last_moment(file):
    """That of a file's last entry, or 0."""
    return journal.last_moment(file)


def wire(method, target, body):
    head = b"%s %s HTTP/1.1\r\n" % (method.encode(), target)
    return head + (b"Content-Length: %d\r\n\r\n" % len(body) if body else b"\r\n") + body


def all_reads(c):
    out = [("GET", b"/api/v2/trees", [], b"")]
    for name in sorted(c.references):
        where = b"/api/v2/trees/" + name.replace("/", "%2F").encode()
        out += [("GET", where + b"/entries", [], b""), ("GET", where + b"/history?fetch=ALL", [], b"")]
    return out


def one_commit(c):
    """A commit that is accepted: of a new table on `main`."""
    head = c.entries(c.references["main"][1])
    key = next("on%d" % number for number in range(10 ** 6) if ("on%d" % number,) not in head)
    content = {"type": "ICEBERG_TABLE", "metadataLocation": "m", "snapshotId": 1}
    operation = {"type": "PUT", "key": {"elements": [key]}, "content": content}
    body = json.dumps({"commitMeta": {"message": "on"}, "operations": [operation]}).encode()
    return "POST", b"/api/v2/trees/main/history/commit", [], body


def go_on(program, path, c):
    """A session on the journal of a catalogue reads all of it, commits once and reads on; then the journal opens with that entry too.

    Says whether the commit was accepted, as it is where the journal's draft numbers leave one.
    """
    requests = all_reads(c) + [one_commit(c), ("GET", b"/api/v2/trees/main/history?max-records=2", [], b"")]
    before, place, held = content_of(path), c.place, len(c.log)
    sent = b"".join(wire(method, target, body) for method, target, _, body in requests)
    _, output = program.run(["script", path], sent, {0})
    need_same("a session on the journal", answered(replies.Session(c), requests, path), output)
    after = content_of(path)
    gate = journal.entry_gates(after)[place]
    need_same("the journal's old entries", before[:gate], after[:gate] if before else b"")
    need_same("check after the session", line_of(c), program.run(["check", path], wants={0})[1])
    need_same("the journal's new entries", [journal.payload(entry, entry[3]) for entry in c.log[held:]], payloads_of(after)[place:])
    return c.place == place + 1
