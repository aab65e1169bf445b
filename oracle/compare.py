#!/usr/bin/env python3
"""Compares the program's replies with the plain rules', on random sessions.

    compare.py SEED SESSIONS [--program FILE] [--requests N] [--seconds N] [--record FILE] [--serve]

Each session starts a new journal, sends requests one by one to `nessie script`,
and compares each reply's bytes with the rules'. The time of a commit is asked of
the program, by a history of the commit that its reply names; that of a sweep stands
in the journal. At times the program is ended and started again on the same journal,
in some sessions behind sweeps that `nessie gc` makes, or that the rules write into
it with what no single caller can come to: places and names of others. At the end the
journal's bytes and the line of `nessie check` are compared too, and a row of reads
that is sent at once. Then the session goes on in a file that has no room for all of
its changes, and in a journal that begins at a checkpoint of its state with nearly
the last place, the last draft number, or both.
Of four sessions three have checkpoints, two at least with a start behind each; of
three one begins with a journal of format 1, and of five two have sweeps.
The first difference of each kind is printed, with the request and both replies.
With --serve the requests go over TCP to `nessie serve`, on one connection.
"""

import argparse
import collections
import json
import os
import pickle
import random
import resource
import select
import shutil
import signal
import subprocess
import sys
import tempfile
import time

import catalogue as rules
import journal
import random_requests
import replies
import served
from reading import line_of, told

WAIT = 60

# The refusals that these sessions come to. The others: `head moved` and `sweep open` want several callers
# (tools/history.py), `no memory` a limit on it (tools/refuse_allocations.sh), `hash collision` what nobody has;
# 65,535 references and 1,000,000 keys are rows of corners.py, and the other limits are out of reach.
REFUSALS = [
    "bad head", "TOO_LARGE", "NO_ROUTE", "WRONG_METHOD", "ENCODING", "bad path", "bad query", "bad body", "DOWN", "OLD_FORMAT",
    "REFERENCE_NOT_FOUND", "not a branch", "default branch", "other type", "not consecutive", "REFERENCE_ALREADY_EXISTS",
    "LIMIT Drafts", "LIMIT Log", "REFERENCE_CONFLICT", "EXPIRED", "FAULT", "content absent", "content expired"]
CONFLICTS = [
    "UNEXPECTED_HASH", "KEY_EXISTS", "KEY_DOES_NOT_EXIST", "PAYLOAD_DIFFERS", "CONTENT_ID_DIFFERS", "VALUE_DIFFERS",
    "NAMESPACE_ABSENT", "NOT_A_NAMESPACE", "NAMESPACE_NOT_EMPTY"]


class Stopped(Exception):
    pass


class Program:
    """A running `nessie script`, talked to request by request."""

    def __init__(self, program, path, before=None, serve=False):
        self.serve, self.path = serve, path
        if serve:
            self.child = served.Child(program, path, WAIT, before)
        else:
            self.child = subprocess.Popen([program, "script", path], stdin=subprocess.PIPE,
                                          stdout=subprocess.PIPE, bufsize=0, preexec_fn=before)
        self.held = b""
        self.sent = 0

    def more(self):
        ready, _, _ = select.select([self.child.stdout], [], [], WAIT)
        if not ready:
            raise Stopped("no reply within %d seconds; so far %r" % (WAIT, self.held))
        got = os.read(self.child.stdout.fileno(), 1 << 20)
        if not got:
            raise Stopped("the output ended; so far %r" % self.held)
        self.held += got

    def send(self, request):
        self.sent += 1
        self.child.stdin.write(request)
        if self.serve:
            self.child.stdin.between = True

    def reply(self, has_body):
        while b"\r\n\r\n" not in self.held:
            self.more()
        head, _, _ = self.held.partition(b"\r\n\r\n")
        size = len(head) + 4
        if has_body:
            for line in head.split(b"\r\n")[1:]:
                name, _, value = line.partition(b":")
                if name.lower() == b"content-length":
                    size += int(value)
        while len(self.held) < size:
            self.more()
        out, self.held = self.held[:size], self.held[size:]
        return out

    def ended(self):
        """The rest of the output, and the status."""
        try:
            self.child.stdin.close()
        except BrokenPipeError:
            pass
        rest = self.held + self.child.stdout.read()
        return rest, self.child.wait(WAIT)

    def kill(self):
        if self.child.poll() is None:
            self.child.kill()
            self.child.wait()
        self.child.stdin.close()
        self.child.stdout.close()


def grown_to(size):
    """What is done before the program starts, so that it writes no file past a size, and is silent about it."""
    def before():
        os.dup2(os.open(os.devnull, os.O_WRONLY), 2)
        signal.signal(signal.SIGXFSZ, signal.SIG_IGN)
        resource.setrlimit(resource.RLIMIT_FSIZE, (size, size))
    return before


def last_moment(path):
    """The moment of a journal's last entry."""
    with open(path, "rb") as f:
        return journal.last_moment(f.read())


class Comparison:
    def __init__(self, options):
        self.options = options
        self.kinds = collections.Counter()
        self.outcomes = collections.Counter()
        self.conflicts = collections.Counter()
        self.extra = collections.Counter()
        self.differences = collections.Counter()
        self.shown = {}
        self.sessions = 0
        self.compared = 0
        self.stopping = False
        self.recorded = []

    def stop(self):
        self.stopping = True

    def note(self, what):
        if self.options.record:
            self.recorded[-1].append(what)

    def difference(self, kind, where, request, wanted, got):
        self.differences[kind] += 1
        if kind not in self.shown:
            self.shown[kind] = where
            print("== DIFFERENCE %s\n   at %s\n   request %r\n   rules   %r\n   program %r"
                  % (kind, where, request, wanted, got), flush=True)

    # One session.

    def session(self, seed):
        rng = random.Random(seed)
        folder = tempfile.mkdtemp(prefix="oracle-")
        self.program = None
        try:
            path = os.path.join(folder, "j")
            c = rules.Catalogue()
            maker = random_requests.Requests(rng, c, self.sessions % 5 in (0, 2), self.sessions % 4 < 3)
            self.recorded.append([])
            self.begin(c)
            if self.sessions % 3 == 1:
                self.old_journal(c, path)
            if self.main(seed, maker, path):
                self.files(seed, c, path)
                self.without_room(seed, maker, path)
                self.at_limits(seed, maker, path + "-last")
        except Stopped as e:
            self.difference("stopped", seed, getattr(self, "request", None), None, str(e))
        finally:
            if self.program is not None:
                self.program.kill()
            shutil.rmtree(folder, ignore_errors=True)
            self.sessions += 1

    def begin(self, c):
        """What is known of a journal's bytes: a line for each of its entries, and its checkpoints."""
        self.side = replies.Session(c)
        self.lines = [line_of(c)]
        self.bases = [(0, journal.checkpoint(c))] if c.bases else []

    def start(self, path, before=None):
        self.program = Program(self.options.program, path, before, self.options.serve)

    def end(self, where, status=0):
        """The program reads to the end of its input."""
        program, self.program = self.program, None
        rest, found = program.ended()
        if rest or found != status:
            self.difference("end of a session", where, None, (b"", status), (rest, found))

    def main(self, seed, maker, path):
        """Random requests on a journal, and reopenings of it; whether all went as it should."""
        rng, c = maker.rng, maker.c
        count = rng.choice([40, 120, 250, self.options.requests])
        planned = self.planned(maker, count)
        self.start(path)
        for number in range(count):
            often = rng.random() < (0.05 if maker.sweeping else 0.004)
            if often or self.program.sent >= 990 or planned.get(number) == "reopen":
                self.end((seed, number))
                if maker.sweeping:
                    self.sweeps(maker, path)
                if maker.checkpointing and (c.format == 1 and number in planned or rng.random() < 0.5):
                    self.migrate(seed, c, path)
                self.reopen(c, path)
            kind = planned.get(number)
            if not self.step((seed, number), maker, kind if kind != "reopen" else None):
                return False
        self.end(seed)
        self.at_once(seed, maker, path)
        for what in ("no request", "too large", rng.choice(["close", "1.0"])):
            self.start(path)
            self.last(seed, maker, what)
        return True

    def planned(self, maker, count):
        """In each half of a session a checkpoint, a start upon it, and what goes on behind it; a sweep of all but the heads."""
        rng, part, out = maker.rng, max(count // 5, 1), {}
        if maker.sweeping:
            out[count // 3 + rng.randrange(part)] = "clearance"
        for first in (0, count // 2) if maker.checkpointing else ():
            at = first + rng.randrange(part)
            out[at] = "checkpoint"
            out[at + 1 + rng.randrange(part)] = "reopen"
        return out

    def reopen(self, c, path, before=None):
        self.extra["starts on a journal"] += 1
        if c.bases:
            self.extra["starts from a checkpoint"] += 1
            self.extra["entries behind it then"] += len(c.log) - c.bases[-1]
        self.start(path, before)
        c.opened()
        self.note(("opened",))

    def without_room(self, seed, maker, path):
        """The session goes on where the file may not grow past a size, until a change isn't kept; then where it may."""
        c, rng, side = maker.c, maker.rng, self.side
        side.room = rng.choice([0, 0, 150, 400, 1000, 3000])
        self.note(("room", side.room))
        self.reopen(c, path, grown_to(os.path.getsize(path) + side.room))
        after = rng.randrange(4, 10)
        for number in range(200):
            if not self.step((seed, "no room", number), maker, "checkpoint" if side.faults and after == 2 else None):
                return
            after -= side.faults is not None
            if after == 0:
                break
        status = 2 if side.faults else 0
        side.room = side.faults = None
        self.note(("room", None))
        self.end((seed, "no room"), status)
        self.checked("after a fault", seed, path, line_of(c), 0)
        self.reopen(c, path)
        for number in range(6):
            if not self.step((seed, "room again", number), maker):
                return
        self.end((seed, "room again"))
        with open(path, "rb") as f:
            found = f.read()
        # What a change that wasn't kept has left stands behind the closed gate.
        other = self.compared_bytes(c, found[:journal.gates(found)[-1] + 1])
        if other:
            self.difference("journal after a fault", seed, None, None, other)
        self.checked("after a fault, and more", seed, path, line_of(c), 0)

    def at_limits(self, seed, maker, path):
        """The same state in a journal that begins at a checkpoint of it, where few numbers are left."""
        rng, which = maker.rng, self.sessions % 3
        place = rules.LIMITS["Log"] - rng.randrange(4) if which != 2 else maker.c.place
        draft = rules.LIMITS["Drafts"] - rng.randrange(4) if which != 0 else maker.c.draft
        maker.c = c = maker.c.moved(place, draft)
        self.begin(c)
        found = journal.written([self.bases[0][1]])
        self.note(("begun", found))
        with open(path, "wb") as f:
            f.write(found)
        self.reopen(c, path)
        for number in range(24):
            if number == 14:
                self.end((seed, "last numbers"))
                if maker.sweeping:
                    self.sweeps(maker, path)
                self.reopen(c, path)
            if not self.step((seed, "last numbers", number), maker):
                return
        self.end((seed, "last numbers"))
        self.files(seed, c, path)

    def old_journal(self, c, path):
        """A journal of format 1 to begin with."""
        with open(path, "wb") as f:
            f.write(journal.OLD + b"\x00")
        c.format = 1
        self.note(("format", 1))

    def migrate(self, seed, c, path):
        """The journal is one of format 2 then, and else as it was."""
        with open(path, "rb") as f:
            found = f.read()
        got = subprocess.run([self.options.program, "migrate", path], stdout=subprocess.PIPE)
        wanted = (b"format 2 entries %d\n" % c.place, 0)
        if (got.stdout, got.returncode) != wanted:
            self.difference("migrate", seed, None, wanted, (got.stdout, got.returncode))
        with open(path, "rb") as f:
            if f.read() != journal.newer(found):
                self.difference("what migrate leaves", seed, None, None, None)
        self.extra["migrations of format %d" % c.format] += 1
        self.note(("migrated", found, journal.newer(found)))
        c.format = 2
        self.note(("format", 2))

    def sweeps(self, maker, path):
        """Sweeps that stand in the journal when it is opened again."""
        for _ in range(maker.rng.choice([0, 1, 1, 2])):
            maker.pick([self.sweep_by_words, self.sweep_by_hand])(maker, path)

    def sweep_by_words(self, maker, path):
        """A sweep that the program makes for its words, where it takes them."""
        c = maker.c
        words, before = maker.policy_words(), len(c.log)
        got = subprocess.run([self.options.program, "gc", path, *words], stdout=subprocess.PIPE)
        moment = last_moment(path) if got.returncode == 0 else 0
        wanted = replies.collected(c, words, moment)
        if (got.stdout, got.returncode) != wanted:
            self.difference("gc", words, None, wanted, (got.stdout, got.returncode))
        if len(c.log) > before:
            self.lines.append(line_of(c))
        self.note(("gc", words, moment, (got.stdout, got.returncode)))
        self.extra["gc, status %d" % wanted[1]] += 1

    def sweep_by_hand(self, maker, path):
        """A sweep that the rules write, from a policy that was resolved and with names of others' drafts."""
        c = maker.c
        if c.place == rules.LIMITS["Log"]:
            return
        with open(path, "rb") as f:
            found = f.read()
        moment = journal.last_moment(found)
        command = maker.sweep()
        removed = c.sweep(*command, moment)[1]
        with open(path, "wb") as f:
            f.write(journal.appended(found, c.log[-1]))
        self.lines.append(line_of(c))
        got = subprocess.run([self.options.program, "check", path], stdout=subprocess.PIPE)
        if (got.stdout, got.returncode) != (self.lines[-1], 0):
            self.difference("a sweep", command, None, (self.lines[-1], 0), (got.stdout, got.returncode))
        self.note(("sweep", command, moment, got.stdout))
        self.extra["sweeps"] += 1
        self.extra["contents that sweeps removed"] += removed

    def step(self, where, maker, kind=None):
        """A random request; whether the two still stand at the same state."""
        side, program = self.side, self.program
        kind, method, target, fields, body = maker.one(kind)
        self.request = maker.wire(method, target, fields, body)
        at = 0
        while maker.chance(0.04) and at < len(self.request) - 1:
            # In pieces.
            upto = maker.rng.randrange(at + 1, len(self.request))
            program.child.stdin.write(self.request[at:upto])
            self.extra["pieces before the last"] += 1
            time.sleep(0.003)
            at = upto
        program.send(self.request[at:])
        got = program.reply(method != "HEAD")
        moment = self.moment_of(program, got, target)
        wanted = side.answer(method, target, fields, body, moment or 0)
        self.note(("asked", method, target, fields, body, moment or 0, False, got))
        self.count(kind, side)
        if len(side.catalogue.log) == len(self.lines):
            self.lines.append(line_of(side.catalogue))
        if len(side.catalogue.bases) > len(self.bases):
            self.bases.append((len(side.catalogue.log), journal.checkpoint(side.catalogue)))
        if not self.same(kind, where, side, wanted, got):
            # The two may stand at different states from here on.
            return method == "GET"
        if self.new_head is not None:
            target = b"/api/v2/trees/@%s/history?max-records=1&fetch=ALL" % self.new_head.encode()
            self.request = b"GET " + target + b" HTTP/1.1\r\n\r\n"
            program.send(self.request)
            got = program.reply(True)
            wanted = side.answer("GET", target, [], b"", 0)
            self.note(("asked", "GET", target, [], b"", 0, False, got))
            self.extra["history of a new commit"] += 1
            self.same("new commit", where, side, wanted, got)
        return True

    def count(self, kind, side):
        self.compared += 1
        self.kinds[kind] += 1
        self.outcomes[kind, side.outcome] += 1
        if side.outcome == "OK" and side.route == "merge":
            self.count_base(side.catalogue)
        if side.outcome == "REFERENCE_CONFLICT":
            for _, what in side.refused.details:
                self.conflicts[kind, what] += 1

    def count_base(self, c):
        """Which sort of base the last merge had."""
        base, source, head = c.last_merge
        common = c.ancestors(source) & c.ancestors(head)
        top = [h for h in common if c.generation(h) == c.generation(base)]
        self.extra["merge, %s" % ("several bases of one generation" if len(top) > 1 else "one base")] += 1
        chains = [base in c.chain(source), base in c.chain(head)]
        self.extra["merge, base on %s of the two chains" % ("both", "one", "none")[2 - sum(chains)]] += 1

    def same(self, kind, where, side, wanted, got):
        if wanted == got:
            return True
        status = got.split(b"\r\n", 1)[0].decode("latin-1")
        try:
            message = json.loads(got.partition(b"\r\n\r\n")[2]).get("message", "")
        except ValueError:
            message = ""
        self.difference((kind, side.outcome, status, message), where, self.request, wanted, got)
        return False

    def moment_of(self, program, got, target):
        """When the call's entry was made, where the program's reply names a new commit, or tells of a sweep."""
        self.new_head = None
        path = target.partition(b"?")[0]
        if got.startswith(b"HTTP/1.1 200") and path == b"/gc/v1/sweep":
            return last_moment(program.path)
        if not got.startswith(b"HTTP/1.1 200") or not path.endswith((b"/commit", b"/merge", b"/transplant")):
            return None
        value = json.loads(got.partition(b"\r\n\r\n")[2])
        if path.endswith(b"/commit"):
            head = value["targetBranch"]["hash"]
        elif value.get("wasApplied"):
            head = value["resultantTargetHash"]
        else:
            return None
        self.new_head = head
        program.send(b"GET /api/v2/trees/@" + head.encode() + b"/history?max-records=1 HTTP/1.1\r\n\r\n")
        found = json.loads(program.reply(True).partition(b"\r\n\r\n")[2])
        self.extra["time of a new commit"] += 1
        return replies.read_instant(found["logEntries"][0]["commitMeta"]["commitTime"])

    def reads(self, maker, count):
        out = []
        while len(out) < count:
            kind, method, target, fields, body = maker.one()
            if kind in ("config", "list", "get", "entries", "history", "contents", "content", "oddity"):
                if method in ("GET", "HEAD"):
                    out.append((kind, method, target, fields, body))
        return out

    def at_once(self, seed, maker, path):
        """A row of reads in one input."""
        side = self.side
        maker.c.opened()
        self.note(("opened",))
        rows = self.reads(maker, maker.rng.randrange(1, 40))
        sent = wanted = b""
        for kind, method, target, fields, body in rows:
            sent += maker.wire(method, target, fields, body)
            wanted += side.answer(method, target, fields, body, 0)
            self.count(kind, side)
            self.extra["reads at once"] += 1
        sent += maker.rng.choice([b"", b"", b"\r\n", b"\r\n\r\n", b"\n"])
        got = subprocess.run([self.options.program, "script", path], input=sent, stdout=subprocess.PIPE)
        if (got.stdout, got.returncode) != (wanted, 0):
            self.difference("reads at once", seed, sent, (wanted, 0), (got.stdout, got.returncode))

    def last(self, seed, maker, what):
        """A request after which the session ends."""
        rng, side = maker.rng, self.side
        program, self.program = self.program, None
        kind, method, target, fields, body = self.reads(maker, 1)[0]
        self.extra["ended by " + what] += 1
        if what in ("close", "1.0"):
            version = "1.1"
            if what == "close":
                fields = fields + [("Connection", rng.choice(["close", "Close", "x, close", "close,y", " close "]))]
            else:
                version = "1.0"
            request = maker.wire(method, target, fields, body, version)
            wanted = side.answer(method, target, fields, body, 0, close=True)
            status = 0
        else:
            if what == "no request":
                request, wanted = rng.choice(NO_REQUESTS), NO_REQUEST
            else:
                request, wanted = rng.choice(TOO_LARGE), LARGE
            self.outcomes["last", "bad head" if what == "no request" else "TOO_LARGE"] += 1
            status = 8
        self.request = request
        program.send(request + rng.choice([b"", b"GET /api/v2/config HTTP/1.1\r\n\r\n", b"x"])
                     if what != "no request" else request)
        rest, found = program.ended()
        if (rest, found) != (wanted, status):
            self.difference("last: " + what, seed, request[:300], (wanted, status), (rest, found))

    def compared_bytes(self, c, found):
        self.note(("journal", found))
        return journal.compared(found, c.log, self.bases, journal.HEADER if c.format == 2 else journal.OLD)

    def checked(self, what, where, path, line, status):
        """What `check` says of a file."""
        with open(path, "rb") as f:
            self.note(("file", f.read(), line))
        got = subprocess.run([self.options.program, "check", path], stdout=subprocess.PIPE)
        if (got.stdout, got.returncode) != (line, status):
            self.difference("check " + what, where, None, (line, status), (got.stdout, got.returncode))

    def files(self, seed, c, path):
        with open(path, "rb") as f:
            found = f.read()
        other = self.compared_bytes(c, found)
        self.extra["journals"] += 1
        self.extra["checkpoints in journals"] += len(self.bases)
        if len(self.lines) == len(c.log) + 1:
            self.cuts(seed, c, path, found)
        self.extra["journal entries"] += len(c.log)
        if other:
            self.difference("journal", seed, None, None, other)
        self.checked("", seed, path, line_of(c), 0)

    def cuts(self, seed, c, path, found):
        """The file with one fault: what `check` says of it."""
        gates = journal.entry_gates(found)
        rng = random.Random(seed)
        for _ in range(3):
            b = bytearray(found)
            # A sweep more than the last place has no bytes.
            room = 2 if c.place < rules.LIMITS["Log"] else 0
            what = rng.choice(["cut", "gate", "header", "byte", "more", "bit"] + ["sweep"] * room)
            damaged = lambda n: b"nessie: damaged at %d\n" % n
            if what == "cut":
                n = min(rng.choice([rng.randrange(len(b)), rng.choice(gates), rng.choice(gates) + 1, 16, 17, 1, 0]),
                        len(b) - 1)
                b = b[:n]
                wanted = {damaged(max([g for g in gates if g < n], default=0))}
                if n == 0:
                    wanted = {self.lines[0]}
            elif what == "gate":
                i = rng.randrange(len(gates))
                b[gates[i]] = rng.choice([0, 2, 255])
                wanted = {self.lines[i]}
            elif what == "header":
                i = rng.randrange(16)
                b[i] ^= 1 << rng.randrange(8)
                version = int.from_bytes(b[8:12], "big")
                wanted = {damaged(0) if i < 8 else b"nessie: version %d\n" % version if i < 12
                          else damaged(12) if i < 15 else self.lines[len(c.log)]}
            elif what == "more":
                b += bytes(rng.randrange(256) for _ in range(rng.randrange(40)))
                wanted = {self.lines[len(c.log)]}
            elif what == "sweep":
                what, b = self.one_sweep_more(rng, c, found)
                wanted = {told(b)}
            elif what == "bit":
                b[rng.randrange(16, len(b))] ^= 1 << rng.randrange(8)
                wanted = {told(b)}
            else:
                # Of a commit each byte counts, but for the draft's number and unchanged keys.
                made = [i for i, e in enumerate(c.log) if e[0] == "commit"
                        and all(o.what != "UNCHANGED" for o in e[4][3])]
                if not made:
                    continue
                i = rng.choice(made)
                at = gates[i] + 5
                b[rng.choice([rng.randrange(at, at + 5), rng.randrange(at + 13, gates[i + 1])])] ^= (
                    1 << rng.randrange(8))
                wanted = {damaged(gates[i]), b"nessie: illegal entry %d\n" % (i + 1)}
            if self.bases or c.format == 1:
                wanted = {told(b)}
            other = path + "2"
            with open(other, "wb") as f:
                f.write(b)
            got = subprocess.run([self.options.program, "check", other], stdout=subprocess.PIPE)
            self.extra["journal with a fault: " + what] += 1
            self.note(("file", bytes(b), got.stdout))
            status = 0
            for line in wanted:
                if line.startswith(b"nessie"):
                    status = 3
                    self.extra["told of a fault: %s" % line.decode().rstrip("0123456789\n ")] += 1
            if got.stdout not in wanted or got.returncode != status:
                self.difference("journal with a fault: " + what, seed, None, (wanted, status),
                                (got.stdout, got.returncode))
            with open(other, "rb") as f:
                if b and f.read() != b:
                    self.difference("check changed a journal", seed, None, None, None)
            self.migrate_copy(seed, what, other, got)

    def migrate_copy(self, seed, what, path, checked):
        """A copy that `check` told so: `migrate` tells the same, or that it is of format 2."""
        with open(path, "rb") as f:
            found = f.read()
        got = subprocess.run([self.options.program, "migrate", path], stdout=subprocess.PIPE)
        wanted, left = checked.stdout, found
        if checked.returncode == 0:
            wanted, left = b"format 2 entries %s\n" % checked.stdout.split(b" ")[1], journal.newer(found)
        if (got.stdout, got.returncode) != (wanted, checked.returncode):
            self.difference("migrate, a journal with a fault: " + what, seed, None, (wanted, checked.returncode),
                            (got.stdout, got.returncode))
        with open(path, "rb") as f:
            if f.read() != left:
                self.difference("what migrate leaves of a journal with a fault", seed, None, None, None)

    def one_sweep_more(self, rng, c, found):
        """The file with a sweep more between its entries, which may be damage or illegal, or make one behind it so."""
        gates = journal.entry_gates(found)
        log = [e[:3] + (journal.moment_at(found, gate),) + e[4:] for e, gate in zip(c.log, gates)]
        front = [spelled for before, spelled in self.bases if before == 0][:1]
        at = rng.randrange(len(log) + 1)
        opened, policy, commits, contents = random_requests.Requests(rng, c).sweep()
        if rng.random() < 0.8:
            opened, commits = min(opened, c.first + at), [h for h in commits if rng.random() < 0.5]
        if rng.random() < 0.1:
            policy = policy[0], [("b*", (rules.ALL,))] * rng.choice([rules.MOST_PATTERNS, rules.MOST_PATTERNS + 1])
        sweep = ("sweep", c.first + at + 1, 0, log[at - 1][3] if at else 0, (opened, policy, commits, contents), None)
        spelled = bytearray(journal.payload(sweep, sweep[3]))
        what = "a sweep more"
        if rng.random() < 0.5:
            what = "a sweep more, a bit of it changed"
            spelled[rng.randrange(len(spelled))] ^= 1 << rng.randrange(8)
        later = [(e[0], e[1] + 1) + e[2:] for e in log[at:]]
        spell = lambda entries: [journal.payload(e, e[3]) for e in entries]
        return what, journal.written(front + spell(log[:at]) + [bytes(spelled)] + spell(later))

    def keep_record(self):
        if self.options.record:
            with open(self.options.record, "wb") as f:
                pickle.dump(self.recorded, f)

    def report(self):
        print("sessions %d, requests compared %d" % (self.sessions, self.compared))
        for title, counter in (("kinds", self.kinds), ("outcomes", self.outcomes), ("conflicts", self.conflicts),
                               ("also", self.extra), ("differences", self.differences)):
            print(title if counter else "no " + title)
            for k in sorted(counter, key=str):
                print("   %-60s %d" % (k if isinstance(k, str) else " / ".join(map(str, k)), counter[k]))
        sys.stdout.flush()

    def report_absent(self):
        told = {what for _, what in self.outcomes} | {what for _, what in self.conflicts}
        absent = [what for what in REFUSALS + CONFLICTS if what not in told]
        print("refusals and conflicts of %d that didn't come up: %s" % (len(REFUSALS + CONFLICTS), ", ".join(absent) or "none"))


def last_refusal(kind, message):
    value = replies.refusal_json(rules.Refused(kind, message))
    return replies.rendered(value["status"], replies.write_json(value), close=True)


NO_REQUEST = last_refusal("BAD_REQUEST", "bad head")
LARGE = last_refusal("TOO_LARGE", "body too large")

LINE = b"POST /api/v2/trees/main/contents HTTP/1.1\r\n"
NO_REQUESTS = [
    b"GET /api/v2/conf", b"GET\r\n\r\n", b"GET  HTTP/1.1\r\n\r\n", b"GET / HTTP/2.0\r\n\r\n", b"\x00", b"\r",
    b"G\x01T / HTTP/1.1\r\n\r\n", b"GET /api/v2/config HTTP/1.1\r\nHost c\r\n\r\n",
    b"GET /api/v2/config HTTP/1.1\r\nA: b", b"GET /api/v2/config HTTP/1.1\r\n\r", b"\r\n" * 8193,
    LINE + b"Content-Length: 5\r\n\r\nab", LINE + b"Content-Length: \r\n\r\n", LINE + b"Content-Length: +2\r\n\r\n{}",
    LINE + b"Content-Length: -1\r\n\r\n", LINE + b"Content-Length: 2, 2\r\n\r\n{}", LINE + b"Content-Length: 0x2\r\n\r\n{}",
    LINE + b"Content-Length: 2\r\nContent-Length: 3\r\n\r\n{} ", LINE + b"Content-Length: 02\r\nContent-Length: 2\r\n\r\n{}",
    LINE + b"Content-Length: 2\r\nTransfer-Encoding: chunked\r\n\r\n2\r\n{}\r\n0\r\n\r\n",
    LINE + b"Transfer-Encoding: gzip\r\n\r\n", LINE + b"Transfer-Encoding: chunked, chunked\r\n\r\n0\r\n\r\n",
    LINE + b"Transfer-Encoding: chunked\r\nTransfer-Encoding: chunked\r\n\r\n0\r\n\r\n",
    LINE + b"Transfer-Encoding: identity\r\n\r\n", LINE + b"Transfer-Encoding: chunked\r\n\r\n2\r\n{}\r\n0\r\nT: x\r\n\r\n",
    LINE + b"Transfer-Encoding: chunked\r\n\r\ng\r\n", LINE + b"Transfer-Encoding: chunked\r\n\r\n2\r\n{}0\r\n\r\n",
    LINE + b"Transfer-Encoding: chunked\r\n\r\n2\r\n{}\r\n", LINE + b"Transfer-Encoding: chunked\r\n\r\n",
    LINE + b"Transfer-Encoding: chunked\r\n\r\n\r\n", LINE + b"Content-Length: 99999999\r\nContent-Length: 1\r\n\r\n",
    b"GET /api/v2/config HTTP/1.1\r\n" + b"".join(b"H%d: x\r\n" % i for i in range(65)) + b"\r\n",
    b"GET /api/v2/config HTTP/1.1\r\nH: " + b"x" * 16384 + b"\r\n\r\n",
    b"HEAD /api/v2/config HTTP/1.1\r\nContent-Length: x\r\n\r\n",
]
TOO_LARGE = [
    LINE + b"Content-Length: 1048577\r\n\r\n", LINE + b"Content-Length: 99999999999999999999\r\n\r\n{}",
    b"HEAD /api/v2/config HTTP/1.1\r\nContent-Length: 1048577\r\n\r\n",
    b"GET /nowhere HTTP/1.1\r\nContent-Length: 01048577\r\n\r\n",
    LINE + b"Transfer-Encoding: chunked\r\n\r\n100001\r\n", LINE + b"Transfer-Encoding: chunked\r\n\r\n2\r\n{}\r\nFFFFF\r\n",
    LINE + b"Transfer-Encoding: chunked\r\n\r\n" + b"1;%s\r\n \r\n" % (b"x" * 1000) * 2090 + b"0\r\n\r\n",
]


def main():
    parser = argparse.ArgumentParser()
    parser.add_argument("seed", type=int)
    parser.add_argument("sessions", type=int)
    parser.add_argument("--program", default=os.path.join(
        os.path.dirname(os.path.abspath(__file__)), "../crates/nessie/out/nessie"))
    parser.add_argument("--requests", type=int, default=600)
    parser.add_argument("--seconds", type=int, default=10 ** 9)
    parser.add_argument("--record", help="a file that requests and replies are kept in, for sensitivity.py")
    parser.add_argument("--serve", action="store_true")
    options = parser.parse_args()
    options.program = os.path.abspath(options.program)
    comparison = Comparison(options)
    end = time.time() + options.seconds
    signal.signal(signal.SIGTERM, lambda *_: comparison.stop())
    for i in range(options.sessions):
        if time.time() > end or comparison.stopping:
            break
        comparison.session(options.seed * 1000003 + i)
        if i % 10 == 9:
            print("-- %d sessions, %d requests, %d differences" % (
                comparison.sessions, comparison.compared, sum(comparison.differences.values())), flush=True)
    comparison.report_absent()
    comparison.report()
    comparison.keep_record()
    return 1 if comparison.differences else 0


if __name__ == "__main__":
    sys.exit(main())
