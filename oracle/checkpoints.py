#!/usr/bin/env python3
"""Journals with checkpoints, by the plain rules alone: each opens to the catalogue that its whole log leads
to, and so does the fresh journal that begins at its last checkpoint. Cases are worked or random.

    checkpoints.py [SEED] [JOURNALS]
"""

import collections
import copy
import hashlib
import os
import random
import sys

import catalogue as rules
import journal
import random_requests
import reading
import replies
from reading import told as line

# The first commit's journal with a checkpoint behind it.
WORKED = "14e690109083e1599fa52932eb820f62bd5df3553676d5e0b6e39fb5b2c13dad"


def need(what, wanted, got):
    if wanted != got:
        raise AssertionError("%s: %r instead of %r" % (what, got, wanted))


def state(c):
    """What a catalogue is, and what its log has to know of the one before."""
    return (c.place, c.references, [(h, k.spell()) for h, k in c.commits.items()], c.contents, c.draft)


class Making:
    """A catalogue, and the payloads of its journal."""

    def __init__(self, rng):
        self.rng = rng
        self.c = rules.Catalogue()
        self.maker = random_requests.Requests(rng, self.c, rng.random() < 0.5)
        self.side = replies.Session(self.c)
        self.moment = 1_600_000_000_000_000
        self.payloads = []
        self.left = set()
        self.bases = 0

    def ask(self):
        """A random request; its entry may be of a draft that was opened earlier."""
        late = self.rng.choice(sorted(self.left)) if self.left and self.rng.random() < 0.3 else None
        last, c = self.c.draft, self.c
        if late is not None:
            c.draft = late - 1
        _, method, target, fields, body = self.maker.one()
        self.moment += self.rng.randrange(2_000_000)
        before = len(c.log)
        self.side.answer(method, target, fields, body, self.moment)
        if late is not None:
            self.left -= {late} if c.draft == late else set()
            c.draft = max(last, c.draft)
        self.payloads += [journal.payload(e, e[3]) for e in c.log[before:]]

    def step(self):
        r = self.rng.random()
        if r < 0.1:
            self.left.add(self.c.draft + 1)
            self.c.draft += 1
        elif r < 0.2:
            self.payloads.append(journal.checkpoint(self.c, self.left))
            self.bases += 1
        else:
            self.ask()


def random_journal(rng, counts):
    made = Making(rng)
    for _ in range(rng.randrange(1, 60)):
        made.step()
    made.c.opened()
    file = journal.written(made.payloads) + bytes(rng.randrange(256) for _ in range(rng.randrange(3)))
    same_by_both(made, file, counts)
    if made.bases:
        made_wrong(rng, made, counts)


def same_by_both(made, file, counts):
    whole = reading.opened(file)
    need("the catalogue", state(made.c), state(whole))
    need("the log behind the base", made.c.log[len(made.c.log) - len(whole.log):],
         [e[:4] + f[4:] for e, f in zip(whole.log, made.c.log[len(made.c.log) - len(whole.log):])])
    fresh = journal.from_last_checkpoint(file)
    need("whether there is a base", made.bases > 0, fresh is not None)
    counts["journals"] += 1
    if fresh is not None:
        again = reading.opened(fresh)
        need("the fresh journal's catalogue", state(whole), state(again))
        need("what it starts from", (whole.first, whole.taken, whole.left, whole.starts),
             (again.first, again.taken, again.left, again.starts))
        counts["with a base"] += 1
        counts["drafts that were open at it"] += len(whole.left)
        counts["entries of such drafts"] += sum(e[2] in whole.left for e in whole.log)
        counts["sweeps behind it"] += sum(e[0] == "sweep" for e in whole.log)


def made_wrong(rng, made, counts):
    """One byte of the last base is another: the file is damaged there or illegal, or opens as another state."""
    at = max(i for i, p in enumerate(made.payloads) if p[0] == journal.CHECKPOINT)
    spelled = bytearray(made.payloads[at])
    spelled[rng.randrange(1, len(spelled))] ^= 1 << rng.randrange(8)
    file = journal.written(made.payloads[:at] + [bytes(spelled)] + made.payloads[at + 1:])
    counts["changed bases: " + line(file).decode().split(" ")[1]] += 1
    old = bytearray(file)
    old[15] = 0
    gate = min(g for g in journal.gates(file)[:-1] if file[g + 5] == journal.CHECKPOINT)
    need("a checkpoint in format 1", b"nessie: damaged at %d\n" % gate, line(bytes(old)))


def worked():
    c = rules.Catalogue()
    side = replies.Session(c)
    body = (b'{"commitMeta":{"message":"one"},"operations":[{"type":"PUT","key":{"elements":["t1"]},"content":'
            b'{"type":"ICEBERG_TABLE","metadataLocation":"m1","snapshotId":1,"schemaId":0,"specId":0,'
            b'"sortOrderId":0}}]}')
    target = b"/api/v2/trees/main@" + rules.NO_ANCESTOR.hex().encode() + b"/history/commit"
    side.answer("POST", target, [], body, 1_000_000)
    entry = journal.payload(c.log[0], c.log[0][3])
    base = journal.checkpoint(c)
    file = journal.written([entry, base])
    need("the base", (252, 451), (len(base), len(file)))
    need("the journal", WORKED, hashlib.sha256(file).hexdigest())
    need("its line", line(journal.written([entry])), line(file))
    need("the same entry behind it", b"nessie: illegal entry 2\n", line(journal.written([entry, base, entry])))
    need("a draft number below the base's", b"nessie: illegal entry 2\n", line(journal.written([entry, base, late(c)])))
    need("damage behind a base", b"nessie: damaged at 273\n", line(journal.written([base, b""])))
    need("what is before a base isn't read", line(file), line(journal.written([b"", b"\x09", base])))
    need("a base without a reading", b"nessie: damaged at 16\n", line(journal.written([base[:-1]])))
    need("one that nothing is read before", line(file), line(journal.written([base[:-1], base])))
    need("a base of no `main`", b"nessie: illegal entry 0\n", line(journal.written([b"\x08" + bytes(28)])))
    need("an empty one", line(b""), line(journal.written([journal.checkpoint(rules.Catalogue())])))
    fresh(file)


def late(c):
    """A commit of a draft that nobody had open, as the next entry."""
    body = b'{"commitMeta":{"message":"two"},"operations":[{"type":"DELETE","key":{"elements":["t1"]}}]}'
    c = copy.deepcopy(c)
    replies.Session(c).answer("POST", b"/api/v2/trees/main/history/commit", [], body, 2_000_000)
    return journal.payload(c.log[1][:2] + (1,) + c.log[1][3:], 2_000_000)


def fresh(file):
    found = journal.from_last_checkpoint(file)
    need("the fresh journal", journal.HEADER + file[len(file) - 258:], found)
    need("its line", line(file), line(found))


def main():
    seed, count = [int(w) for w in sys.argv[1:] + ["1", "300"][len(sys.argv) - 1:]]
    worked()
    counts = collections.Counter()
    for number in range(count):
        try:
            random_journal(random.Random("%d %d" % (seed, number)), counts)
        except Exception:
            print("journal %d of seed %d" % (number, seed))
            raise
    print(", ".join("%s: %d" % pair for pair in sorted(counts.items())))


if __name__ == "__main__":
    main()
