"""Checks what clients saw against the journal's one history, by the plain rules of `oracle/`."""
import bisect
import collections
import json
import os
import sys

sys.path.insert(0, os.path.join(os.path.dirname(os.path.abspath(__file__)), "..", "..", "oracle"))

import catalogue as rules
import journal
import policies
import reading
import replies


class Damaged(Exception):
    pass


def payloads_of(held):
    """The payloads of the entries in a journal's bytes, without those of checkpoints, and the offset of its closed gate."""
    if not held.startswith(journal.HEADER):
        raise Damaged("no header")
    at, out = len(journal.HEADER), []
    while held[at:at + 1] == b"\x01":
        length = int.from_bytes(held[at + 1:at + 5], "big")
        if not journal.is_base(held, at):
            out.append(held[at + 5:at + 5 + length])
        at += 5 + length
    if at >= len(held):
        raise Damaged(f"no gate at {at}")
    return out, at


def bases_of(held):
    """The payload of each checkpoint in a journal's bytes, with the number of entries before it."""
    out, entries = [], 0
    gates = journal.gates(held)
    for gate, end in zip(gates, gates[1:]):
        if journal.is_base(held, gate):
            out.append((entries, held[gate + 5:end]))
        else:
            entries += 1
    return out


def kind_of(sent):
    return "checkpoint: " if sent.checkpoints else "change: " if sent.changes else "read: "


def fields_of(payload):
    """Place, draft and moment of an entry."""
    return int.from_bytes(payload[1:5], "big"), int.from_bytes(payload[5:13], "big"), int.from_bytes(payload[13:21], "big")


def is_sweep(payload):
    return payload[:1] == bytes([journal.KINDS["sweep"]])


def opened_in(payload):
    """Where a sweep was opened, by its entry."""
    return int.from_bytes(payload[21:25], "big")


def named_by(entry):
    """The commits and the contents that the draft of an entry had named."""
    what, command = entry[0], entry[4]
    if what == "merge":
        return {command[3]}, set()
    if what == "transplant":
        return set(command[3]), set()
    if what == "commit":
        return set(), {content_hash for _, _, content_hash in command[4].values()}
    return set(), set()


class Life:
    """One run of the server: when it was killed (both ends of that moment), and how many entries its journal had then."""

    def __init__(self, killed, gone, entries):
        self.killed, self.gone, self.entries = killed, gone, entries


class Check:
    def __init__(self, record, payloads, lives, attempts, workers, bases):
        self.record, self.payloads, self.lives, self.attempts, self.workers = record, payloads, lives, attempts, workers
        self.bases = collections.defaultdict(list)  # at each place, the payloads of its checkpoints
        for before, spelled in bases:
            self.bases[before].append(spelled)
        self.places = {}  # of each draft number, the last place that has it
        for place, payload in enumerate(payloads, 1):
            self.places[fields_of(payload)[1]] = place
        self.coming = sorted(self.places, reverse=True)  # numbers that no entry has passed yet
        self.behind = set()  # numbers below the greatest so far whose entries are still to come
        self.before, self.life = 0, 0  # the greatest number of an entry of the lives before, and the life
        self.state = rules.Catalogue()
        self.heads = []  # at each place, the heads of the references
        self.there = collections.defaultdict(list)  # of each content, the places at which it came and went
        self.sweeps = [sent for sent in record if sent.collects]
        self.sources = {bytes.fromhex(found) for sent in record for found in self.sources_in(sent)}
        self.counts = collections.Counter()
        self.differences = []

    def differs(self, what, *more):
        self.differences.append(" ".join([what, *map(str, more)]))

    def run(self, most=None):
        """The differences, all of them or the first ones."""
        self.places_rise()
        self.cuts_have_a_kill()
        self.sort()
        for place in range(len(self.payloads) + 1):
            self.heads.append({name: value[1] for name, value in self.state.references.items()})
            for sent in self.others.pop(place, []):
                self.other(sent)
            self.checkpoints(place)
            if most is not None and len(self.differences) >= most:
                break
            if place < len(self.payloads) and not self.entry(place + 1):
                break
        return self.differences

    @staticmethod
    def sources_in(sent):
        """The commits that a merge or a transplant names."""
        if not sent.target.endswith((b"/merge", b"/transplant")):
            return []
        body = json.loads(sent.body)
        return [body["fromHash"]] if "fromHash" in body else body.get("hashesToTransplant", [])

    # Orders.

    def places_rise(self):
        """Within each client, over all its connections; and no reply is older than one that had come before its request was sent."""
        latest = {}
        told = [(sent, sent.place) for sent in self.record if sent.raw is not None]
        told = [(sent, place) for sent, place in told if place is not None]
        for sent, place in told:
            before = latest.get(sent.client, -1)
            if place < before or place == before and sent.accepted:
                self.differs("a place doesn't rise:", before, "then", place, sent.name)
            latest[sent.client] = place
        ends = sorted((sent.ended, place) for sent, place in told)
        times, highest = [], []
        for ended, place in ends:
            times.append(ended)
            highest.append(max(place, highest[-1] if highest else 0))
        self.times, self.highest = times, highest
        for sent, place in told:
            if place < self.told_before(sent):
                self.differs("a reply is older than one that had come:", place, "after", self.told_before(sent), sent.name)

    def told_before(self, sent):
        """The highest place that anybody was told before the request was sent."""
        had = bisect.bisect_left(self.times, sent.began)
        return self.highest[had - 1] if had else 0

    def cuts_have_a_kill(self):
        for sent in self.record:
            if sent.raw is None and not any(sent.opened <= life.gone and sent.ended >= life.killed for life in self.lives):
                self.differs("a connection ended without a kill:", sent.name)

    def life_of_time(self, opened):
        return next((number for number, life in enumerate(self.lives) if opened <= life.gone), len(self.lives))

    def life_of_entry(self, place):
        return next((number for number, life in enumerate(self.lives) if place <= life.entries), len(self.lives))

    # Entries and replies.

    def sort(self):
        self.made, self.others, self.open = {}, collections.defaultdict(list), collections.defaultdict(list)
        self.cut, self.kept = [], collections.defaultdict(list)  # requests of checkpoints that were cut off, and accepted ones
        for sent in self.record:
            if sent.raw is None:
                if sent.checkpoints:
                    self.cut.append(sent)
                if sent.changes:
                    self.open[self.life_of_time(sent.opened)].append(sent)
                self.counts["without a reply"] += 1
            elif sent.accepted:
                if sent.place in self.made:
                    self.differs("two replies have one entry:", sent.place, sent.name, self.made[sent.place].name)
                self.made[sent.place] = sent
            else:
                self.others[sent.place or 0].append(sent)
                if sent.checkpoints and sent.status == 200:
                    self.kept[sent.place].append(sent)
        lost = [place for place in [*self.made, *self.others] if place > len(self.payloads)]
        for place in sorted(lost):
            for sent in [self.made[place]] if place in self.made else self.others[place]:
                self.differs("answered, and lost:", place, "of", len(self.payloads), sent.name)

    def answered(self, state, sent, moment=0, draft=0, between=None):
        if draft:
            state.draft = draft - 1
        session = replies.Session(state)
        session.between = between
        wanted = session.answer(sent.method, sent.target, [], sent.body, moment, close=sent.index == 1000)
        self.refused = getattr(session, "refused", None)
        return wanted, session.outcome

    def refusal(self, sent, refused):
        value = replies.refusal_json(refused)
        return replies.rendered(value["status"], replies.write_json(value), self.state.place, close=sent.index == 1000)

    def other(self, sent):
        """A reply that made no entry, on the state at its place."""
        place = self.state.place
        if (sent.collects or sent.checkpoints) and sent.status == 409:
            self.sweep_open(sent)
            return
        mark = self.state.mark()
        wanted, outcome = self.answered(self.state, sent)
        self.state.undo(mark)
        if outcome == "EXPIRED" and wanted != sent.raw and b'"EXPIRED"' in sent.raw:
            self.expired(sent, sent.json["errorDetails"]["openedPlace"])
        elif wanted == sent.raw:
            self.counts[kind_of(sent) + outcome] += 1
        elif sent.status == 507:
            self.counts["no memory"] += 1
        elif sent.changes and b'"RETRIES_SPENT"' in sent.raw:
            self.retries(sent, sent.json["errorDetails"]["heads"], outcome)
        else:
            self.differs("another reply at place", place, sent.name, "\n   rules   ", wanted, "\n   program ", sent.raw)

    def expired(self, sent, opened):
        """A draft was opened at that place, and the contents weren't there at it either."""
        refused = self.refused
        refused.details = refused.details[0], opened
        self.counts["change: EXPIRED, opened before"] += 1
        fits = self.told_before(sent) <= opened <= self.state.place and self.refusal(sent, refused) == sent.raw
        if not fits or any(self.was_there(content, opened) for content in refused.gone):
            self.differs("contents expired, and shouldn't have:", sent.name, "\n   program ", sent.raw)

    def was_there(self, content, place):
        came_and_went = self.there[content]
        return bisect.bisect_right(came_and_went, place) % 2 == 1

    def sweep_open(self, sent):
        """A collection or a checkpoint was refused: another client's, opened where the reply says, hadn't settled yet."""
        place, opened = self.state.place, (sent.json.get("errorDetails") or {}).get("place")
        self.counts[kind_of(sent) + "SWEEP_OPEN"] += 1
        fits = opened is not None and opened <= place
        fits = fits and self.refusal(sent, rules.Refused("SWEEP_OPEN", "sweep open", opened)) == sent.raw
        if not fits or not any(self.is_open(other, place, opened) for other in self.sweeps if other.client != sent.client and other.began <= sent.ended and sent.began <= other.ended):
            self.differs("no other collection was open:", sent.name, "\n   program ", sent.raw)

    def is_open(self, other, place, opened):
        """Whether another client's collection may have been open at a place, having been opened at one before."""
        if other.raw is None or other.status == 507:
            return True
        return other.accepted and other.place > place and opened_in(self.payloads[other.place - 1]) == opened

    def checkpoints(self, place):
        """Those of a place: one for each that was answered, and else one of a request that was cut off while it may have been written."""
        asked, found = self.kept[place], self.bases[place]
        if len(found) < len(asked):
            self.differs("a checkpoint was answered, and isn't there:", place, asked[0].name)
        for _ in found[len(asked):]:
            lives = {number for number in range(len(self.lives) + 1) if self.first_of(number) <= place <= self.last_of(number)}
            sent = next((sent for sent in self.cut if self.life_of_time(sent.opened) in lives), None)
            if sent is None:
                self.differs("a checkpoint that nobody asked for, behind entry", place)
            else:
                self.cut.remove(sent)
                asked = asked + [sent]
        for spelled in found:
            self.base(place, spelled, asked)

    def first_of(self, life):
        return self.lives[life - 1].entries if life else 0

    def last_of(self, life):
        return self.lives[life].entries if life < len(self.lives) else len(self.payloads)

    def base(self, place, spelled, asked):
        """A checkpoint: the state at its place, with the drafts that were open; an entry behind it is of one of these or of a later one."""
        try:
            _, draft, left, _, _, _ = reading.read_at(0, reading.Reader.checkpoint, spelled)
        except reading.Unopened:
            return self.differs("a checkpoint that can't be read, behind entry", place)
        if journal.checkpoint(self.state, left) != spelled:
            self.differs("a checkpoint of another state, behind entry", place)
        if not self.behind <= set(left):
            self.differs("an entry behind a checkpoint at place", place, "of a draft that wasn't open at it:", *self.behind - set(left))
        if len(left) >= self.workers or any(number <= self.before or self.places.get(number, place + 1) <= place for number in left):
            self.differs("a draft that can't have been open at the checkpoint at place", place, "of", *left)
        for number in self.behind & set(left):
            sent = self.made.get(self.places[number])
            if sent and not any(sent.began <= one.ended and one.began <= sent.ended for one in asked):
                self.differs("a draft was open at a checkpoint, and its request wasn't under way:", place, sent.name)
        self.counts["checkpoints in the journal"] += 1
        self.counts["checkpoints with drafts that were open"] += bool(left)
        self.counts["drafts that were open at checkpoints"] += len(left)
        self.counts["entries of such drafts"] += len(self.behind)

    def retries(self, sent, heads, outcome):
        """A call that gave up: each head is its branch's at its place, and each differs from the one before."""
        name = sent.target.decode().split("/")[4].split("@")[0]
        self.counts["change: RETRIES_SPENT"] += 1
        fits = len(heads) == self.attempts + 1 and heads[-1]["place"] == self.state.place
        for one, two in zip(heads, heads[1:]):
            fits = fits and one["place"] < two["place"] and one["hash"] != two["hash"]
        fits = fits and all(self.heads[one["place"]].get(name, b"").hex() == one["hash"] for one in heads)
        if not fits or outcome not in ("OK", "REFERENCE_CONFLICT"):
            self.differs("a call gave up, and shouldn't have:", sent.name, heads, outcome)

    def entry(self, place):
        """Makes the entry's call again; whether the history goes on."""
        payload = self.payloads[place - 1]
        stated, draft, moment = fields_of(payload)
        if stated != place:
            self.differs("entry", place, "states the place", stated)
            return False
        sent = self.made.get(place) or self.unanswered(place, payload, draft, moment)
        if sent is None:
            self.differs("entry", place, "is nobody's:", payload.hex())
            return False
        self.number(place, draft)
        before, between = set(self.state.contents), None
        if is_sweep(payload):
            between = self.between(place, payload, sent)
            if between is None:
                return False
        wanted, outcome = self.answered(self.state, sent, moment, draft, between)
        for content in before ^ set(self.state.contents):
            self.there[content].append(place)
        if self.state.place != place:
            self.differs("entry", place, "isn't accepted by the rules:", outcome, sent.name)
            return False
        if journal.payload(self.state.log[-1], moment) != payload:
            self.differs("entry", place, "isn't what was asked for:", sent.name, payload.hex())
        if sent.raw is not None and wanted != sent.raw:
            self.differs("another reply to entry", place, sent.name, "\n   rules   ", wanted, "\n   program ", sent.raw)
        self.counts["entry: " + self.state.log[-1][0] + ("" if sent.raw else ", without its reply")] += 1
        return True

    def number(self, place, draft):
        """An entry's draft number is new, and a greater one than those of entries of the lives before."""
        if self.life_of_entry(place) > self.life:
            self.life, self.before = self.life_of_entry(place), max([self.before] + [entry[2] for entry in self.state.log])
        if draft and (self.places[draft] > place or draft <= self.before):
            self.differs("entry", place, "has a draft number that is an older one's:", draft)
        while self.coming and self.coming[-1] <= draft:
            self.behind.add(self.coming.pop())
        self.behind -= {0, draft}

    def between(self, place, payload, sent):
        """Where a sweep was opened, and what drafts named until it settled; that this may be so is checked."""
        try:
            command = reading.Reader(payload).entry()[4]
        except replies.NoReading:
            self.differs("a sweep has no reading:", payload.hex())
            return None
        opened, _, commits, contents = command
        life = self.life_of_entry(place)
        least = max(self.told_before(sent), self.lives[life - 1].entries if life else 0)
        if not sent.collects or not least <= opened < place:
            self.differs("a sweep at", place, "was opened at", opened, "and not from", least, "on:", sent.name)
            return None
        if not all(self.state.known(commit) for commit in commits) or not set(commits) <= self.sources:
            self.differs("a sweep at", place, "has a commit that nobody named:", sent.name)
        for entry in self.state.log[opened:]:
            of_commits, of_contents = named_by(entry)
            if not of_commits <= set(commits) or not of_contents <= set(contents):
                self.differs("a sweep at", place, "lacks a name of the draft of entry", entry[1])
        if opened + 1 < place:
            self.counts["sweeps with entries of others between"] += 1
        self.counts["names of drafts in sweeps"] += len(commits) + len(contents)
        return opened, commits, contents

    def is_policy_of(self, sent, payload, moment):
        """Whether a sweep's entry has the policy that a request asked for."""
        try:
            asked = replies.a_policy(replies.read_json(sent.body))
            return policies.resolved(asked, moment) == reading.Reader(payload).entry()[4][1]
        except replies.NoReading:
            return False

    def unanswered(self, place, payload, draft, moment):
        """The request that was cut off whose call this entry is."""
        waiting = self.open[self.life_of_entry(place)]
        for sent in waiting:
            if is_sweep(payload) or sent.collects:
                if is_sweep(payload) and sent.collects and self.is_policy_of(sent, payload, moment):
                    waiting.remove(sent)
                    return sent
                continue
            mark = self.state.mark()
            self.answered(self.state, sent, moment, draft)
            fits = self.state.place == place and journal.payload(self.state.log[-1], moment) == payload
            self.state.undo(mark)
            if fits:
                waiting.remove(sent)
                return sent
        return None
