"""Sessions of the program whose calls on the journal are recorded: each reply is held against the rules', and said is what was acknowledged when."""
import json
import os
import sys

HERE = os.path.dirname(os.path.abspath(__file__))
sys.path[:0] = [os.path.join(HERE, "../fuzzing"), os.path.join(HERE, "../../oracle")]

import compare
import random_requests
from catalogues import BEGUN, answered, journal, last_moment, line_of, replies, told
from images import done, events_of
from program import Wrong, content_of, environment, need_same

FIRST = {"create", "commit"}
CHANGES = {"create", "assign", "delete", "commit", "merge", "transplant", "sweep", "checkpoint"}


class Running(compare.Program):
    """`nessie script`, talked to request by request, under the library that records."""

    def __init__(self, program, path, env):
        self.serve, self.path, self.held, self.sent = False, path, b"", 0
        self.child = program.start(["script", path], env=env, bufsize=0)


def large_commit(rng):
    """A commit whose frame has several sectors."""
    operation = {"type": "UNCHANGED", "key": {"elements": ["large"]}}
    message = "".join(rng.choice("abcdefgh\u00e9") for _ in range(rng.randrange(400, 6000)))
    body = json.dumps({"commitMeta": {"message": message}, "operations": [operation]}).encode()
    return "POST", b"/api/v2/trees/main/history/commit", [], body


class Recording:
    """A journal, from what it held at first; what was done to it, and the places that were acknowledged after each call: of the last entry, and of the last checkpoint."""

    def __init__(self, program, library, path, rng):
        self.program, self.library, self.path, self.rng = program, library, path, rng
        self.first = content_of(path) if os.path.exists(path) else None
        self.c = told(self.first or b"")[2]
        self.lines = {self.c.place: line_of(self.c)}
        self.events = []
        self.acknowledged = [(self.c.place, self.c.first)]
        self.log = path + ".log"
        self.read = 0
        self.maker = random_requests.Requests(rng, self.c, rng.random() < 0.6, rng.random() < 0.6)
        self.requests = 0

    def env(self):
        """The clock goes on well behind the last entry."""
        moment = max([BEGUN] + [entry[3] for entry in self.c.log]) + 10_000_000
        return environment(LD_PRELOAD=self.library, RECORD_JOURNAL=self.path, RECORD_LOG=self.log, RECORD_CLOCK=str(moment))

    def note(self):
        """Takes the calls since the last look: what goes to the output first acknowledges what holds now."""
        now = self.c.place, self.c.first + (self.c.bases[-1] if self.c.bases else 0)
        found = content_of(self.log)[self.read:]
        self.read += len(found)
        for event in events_of(found):
            if event.kind == "x":
                raise SystemExit("the journal is changed by a call that isn't recorded: %d" % event.at)
            self.events.append(event)
            self.acknowledged.append(now if event.kind == "r" else self.acknowledged[-1])

    def request(self):
        if self.rng.random() < 0.12:
            return large_commit(self.rng)
        if self.maker.checkpointing and self.rng.random() < 0.15:
            return "POST", b"/gc/v1/checkpoint", [], b""
        while True:
            kind, method, target, fields, body = self.maker.one()
            if kind in (CHANGES if self.c.place > 3 else FIRST) or kind != "oddity" and self.rng.random() < 0.02:
                return method, target, fields, body

    def session(self, count):
        """So many requests, one after the other."""
        link, side = Running(self.program, self.path, self.env()), replies.Session(self.c)
        try:
            for _ in range(count):
                asked = self.request()
                link.send(self.maker.wire(*asked))
                got = link.reply(True)
                need_same("a reply", answered(side, [asked], self.path), got)
                self.lines[self.c.place] = line_of(self.c)
                self.note()
                self.requests += 1
            need_same("the end of a session", (b"", 0), link.ended())
        except compare.Stopped as stopped:
            raise Wrong("a session stopped, status %s: %s" % (link.child.poll(), stopped))
        finally:
            link.kill()
            link.child.stderr.close()
        self.end()

    def collection(self):
        """`nessie gc`, by words."""
        words = self.maker.policy_words()
        status, output = self.program.run(["gc", self.path, *words], env=self.env())
        moment = last_moment(content_of(self.path)) if os.path.exists(self.path) else 0
        need_same("gc", replies.collected(self.c, words, moment)[::-1], (status, output))
        self.lines[self.c.place] = line_of(self.c)
        self.note()
        self.requests += 1
        self.end()

    def end(self):
        """The calls that were recorded are all that changed the file; a new one was given its bytes behind a sync of its folder."""
        self.c.opened()
        if os.path.exists(self.path):
            need_same("the file by the calls that were recorded", done(self.first or b"", self.events), content_of(self.path))
        if not self.first and next((event.kind for event in self.events if event.kind in "wd"), "d") != "d":
            raise Wrong("a new journal gets its first bytes before its folder is synced")

    def payloads(self, first, last):
        """Those of the entries behind one place, up to another."""
        return [journal.payload(entry, entry[3]) for entry in self.c.log[first - self.c.first:last - self.c.first]]

    def without(self, chance):
        """The same with some syncs left out, as if the program hadn't made them."""
        kept = [number for number, event in enumerate(self.events) if event.kind != "s" or self.rng.random() >= chance]
        self.events = [self.events[number] for number in kept]
        self.acknowledged = self.acknowledged[:1] + [self.acknowledged[number + 1] for number in kept]
