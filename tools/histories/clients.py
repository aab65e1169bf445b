"""Clients that commit, merge, move branches, collect and read at random, each a process with a connection of its own."""
import collections
import json
import os
import pickle
import random
import sys
import time

sys.path.insert(0, os.path.join(os.path.dirname(os.path.abspath(__file__)), "..", "clients"))

from record import Sent
from serving import NO_ANCESTOR, Ended, Link

KEYS = [(f"k{number}",) for number in range(10)] + [("n",), ("n", "a"), ("n", "b"), ("n", "m"), ("n", "m", "c")]
WIDE = [f"wide{number}" for number in range(300)]
SPACES = {("n",), ("n", "m")}
MODES = ["NORMAL", "NORMAL", "FORCE", "DROP"]
CUTOFFS = ["1", "1", "1", "2", "4", "NONE", "PT0.2S", "PT2S"]
LIMIT = 1000


class Requests:
    """Random requests of one client, by what its own replies told it."""

    def __init__(self, rng, number):
        self.rng = rng
        self.names = ["main", "main", "main", "b0", "b1", "b2", f"own{number}"]
        self.tags = ["t0", "t1"]
        self.heads = {"main": NO_ANCESTOR}  # of the references that are there, as far as was told
        self.chains = collections.defaultdict(lambda: collections.deque([NO_ANCESTOR], maxlen=12))
        self.hashes = collections.deque([NO_ANCESTOR], maxlen=60)
        self.ids = {}
        self.wide = set()  # the branches that have the wide keys, as far as was told
        self.told = 0

    def known(self, names):
        """One of these that is there, for the most part."""
        there = [name for name in names if name in self.heads]
        return self.rng.choice(there if there and self.rng.random() < 0.95 else names)

    def branch(self):
        return self.known(self.names)

    def any_name(self):
        return self.known(self.names + self.tags)

    def hash_of(self, name):
        """The head that was last seen, or another hash of its chain, or any."""
        what = self.rng.random()
        if what < 0.75 and name in self.heads:
            return self.heads[name]
        return self.rng.choice(self.chains[name] if what < 0.95 else self.hashes)

    def where(self, name, chance=0.3):
        return name + ("@" + self.hash_of(name) if self.rng.random() < chance else "")

    def source(self, name=None):
        if self.rng.random() < 0.4:
            return {"type": "DETACHED", "hash": self.rng.choice(self.hashes)}
        name = name or self.any_name()
        out = {"type": "TAG" if name in self.tags else "BRANCH", "name": name}
        if self.rng.random() < 0.3:
            out["hash"] = self.hash_of(name)
        return out

    def put(self, key):
        self.told += 1
        if key in SPACES:
            content = {"type": "NAMESPACE", "elements": list(key), "properties": {"n": str(self.told)}}
        else:
            content = {"type": "ICEBERG_TABLE", "metadataLocation": f"m{self.told}", "snapshotId": self.told}
        if key in self.ids and self.rng.random() < 0.93:
            content["id"] = self.ids[key]
        return {"type": "PUT", "key": {"elements": list(key)}, "content": content}

    def operations(self):
        keys = self.rng.sample(KEYS, self.rng.choice([1, 1, 1, 2, 3]))
        out = []
        for key in keys:
            what = self.rng.random()
            if what < 0.75:
                out.append(self.put(key))
            else:
                out.append({"type": "DELETE" if what < 0.9 else "UNCHANGED", "key": {"elements": list(key)}})
        return out

    # Each gives a method, a target, below /api/v2 unless it is a collection's, and a body.

    def commit(self):
        self.told += 1
        body = {"commitMeta": {"message": f"c{self.told}"}, "operations": self.operations()}
        return "POST", f"/trees/{self.where(self.branch(), 0.25)}/history/commit", body

    def wide_commit(self):
        """One that takes a while, so that its draft is open meanwhile: refused, or as was told last, of keys that come or go."""
        name = self.branch()
        keys = [f"absent{number}" for number in range(2000)]
        if self.rng.random() < 0.3:
            operations = [{"type": "DELETE", "key": {"elements": ["nowhere"]}}] + [self.put((key,)) for key in keys]
        else:
            operations = [{"type": "UNCHANGED", "key": {"elements": [key]}} for key in keys]
            for key in WIDE:
                put = self.put((key,))
                put["content"].pop("id", None)
                operations.append({"type": "DELETE", "key": put["key"]} if name in self.wide else put)
        return "POST", f"/trees/{name}/history/commit", {"commitMeta": {"message": "wide"}, "operations": operations}

    def merge(self):
        name = self.any_name()
        body = {"fromRefName": name, "fromHash": self.hash_of(name), "defaultKeyMergeMode": self.rng.choice(MODES)}
        return "POST", f"/trees/{self.where(self.branch(), 0.1)}/history/merge", self.flagged(body)

    def transplant(self):
        name = self.branch()
        body = {"fromRefName": name, "hashesToTransplant": [self.hash_of(name)], "defaultKeyMergeMode": self.rng.choice(MODES)}
        return "POST", f"/trees/{self.where(self.branch(), 0.1)}/history/transplant", self.flagged(body)

    def flagged(self, body):
        for flag, chance in (("dryRun", 0.1), ("returnConflictAsResult", 0.3)):
            if self.rng.random() < chance:
                body[flag] = True
        if self.rng.random() < 0.3:
            keys = self.rng.sample(KEYS, 2)
            body["keyMergeModes"] = [{"key": {"elements": list(key)}, "mergeBehavior": self.rng.choice(MODES)} for key in keys]
        return body

    def create(self):
        absent = [name for name in self.names + self.tags if name not in self.heads]
        name = self.rng.choice(absent if absent and self.rng.random() < 0.8 else self.names + self.tags)
        return "POST", f"/trees?name={name}&type={'TAG' if name in self.tags else 'BRANCH'}", self.source()

    def assign(self):
        name = self.any_name()
        return "PUT", f"/trees/{self.where(name, 0.5)}", self.source(name if self.rng.random() < 0.4 else None)

    def restart(self):
        """A branch goes back to the beginning, so that chains stay short."""
        return "PUT", f"/trees/{self.branch()}", {"type": "DETACHED", "hash": NO_ANCESTOR}

    def delete(self):
        return "DELETE", f"/trees/{self.where(self.known(self.names[3:] + self.tags), 0.5)}", None

    def collect(self):
        """What is kept of the chains: a few commits, or what isn't older than a moment ago, or all."""
        patterns = self.rng.sample(self.names + self.tags + ["b*", "own*", "*"], self.rng.choice([0, 0, 1, 2]))
        cutoffs = [{"pattern": pattern, "cutoff": self.rng.choice(CUTOFFS)} for pattern in patterns]
        return "POST", "/gc/v1/sweep", {"defaultCutoff": self.rng.choice(CUTOFFS), "cutoffs": cutoffs}

    def checkpoint(self):
        return "POST", "/gc/v1/checkpoint", self.rng.choice([None, {}])

    def listing(self):
        return "GET", "/trees" + self.rng.choice(["", "?max-records=3"]), None

    def tree(self):
        return "GET", f"/trees/{self.where(self.any_name())}", None

    def entries(self):
        query = self.rng.choice(["", "", "?max-records=4", "?prefix-key=n", "?min-key=k5&max-key=n"])
        return "GET", f"/trees/{self.where(self.any_name())}/entries{query}", None

    def history(self):
        return "GET", f"/trees/{self.where(self.any_name())}/history?max-records={self.rng.randrange(1, 8)}" + self.rng.choice(["", "&fetch=ALL"]), None

    def contents(self):
        keys = self.rng.sample(KEYS, 3)
        return "POST", f"/trees/{self.where(self.any_name())}/contents", {"requestedKeys": [{"elements": list(key)} for key in keys]}

    def content(self):
        return "GET", f"/trees/{self.where(self.any_name())}/contents/{'.'.join(self.rng.choice(KEYS))}", None

    def odd(self):
        return self.rng.choice([("GET", "/nowhere", None), ("POST", "/config", {}), ("POST", "/trees/main/history/commit", {}), ("GET", "/trees/main@x", None),
                                ("POST", "/gc/v1/sweep", {"defaultCutoff": "0"})])

    def one(self):
        kinds = {"commit": 34, "wide_commit": 2, "merge": 11, "transplant": 5, "create": 4, "assign": 4, "restart": 0.4, "delete": 2, "collect": 1, "checkpoint": 0.5, "listing": 4, "tree": 6,
                 "entries": 9, "history": 8, "contents": 4, "content": 8, "odd": 1}
        method, target, body = getattr(self, self.rng.choices(list(kinds), list(kinds.values()))[0])()
        target = target if target.startswith("/gc/") else "/api/v2" + target
        return method, target.encode(), b"" if body is None else json.dumps(body).encode()

    def learn(self, sent):
        """Takes heads, hashes and ids from a reply."""
        if sent.raw is not None and WIDE[0].encode() in sent.body and sent.status in (200, 409):
            self.wide ^= {sent.target.decode().split("/")[4]}
        if sent.raw is None or sent.status not in (200, 404):
            return
        told, path = sent.json, sent.target.decode().partition("?")[0].split("/")
        name = path[4].partition("@")[0] if len(path) > 4 else None
        if sent.status == 404 or sent.method == "DELETE":
            if "@" not in sent.target.decode() and told.get("errorCode") != "CONTENT_NOT_FOUND":
                self.heads.pop(name, None)
            return
        shown = [told.get(part) for part in ("reference", "targetBranch", "effectiveReference")] + told.get("references", [])
        for reference in shown:
            if reference:
                self.saw(reference.get("name"), reference["hash"], "@" not in sent.target.decode() or sent.method != "GET")
        for entry in told.get("logEntries", []):
            self.saw(name, entry["commitMeta"]["hash"], False)
        for added in told.get("addedContents", []):
            self.ids[tuple(added["key"]["elements"])] = added["contentId"]
        for entry in told.get("entries", []):
            if self.rng.random() < 0.8:
                self.ids[tuple(entry["name"]["elements"])] = entry["contentId"]

    def saw(self, name, commit_hash, is_head):
        self.hashes.append(commit_hash)
        if name is not None:
            self.chains[name].append(commit_hash)
        if name is not None and is_head:
            self.heads[name] = commit_hash


class Client:
    def __init__(self, number, seed, port, pause, wide):
        self.number, self.port, self.pause, self.wide = number, port, pause, wide
        self.rng = random.Random(f"{seed}/{number}")
        self.requests = Requests(self.rng, number)
        self.record, self.connections, self.link = [], 0, None

    def connect(self, stop):
        while self.link is None and not stop.is_set():
            try:
                self.link = Link(self.port, seconds=60)
                self.opened, self.index = time.monotonic_ns(), 0
                self.connections += 1
            except OSError:
                time.sleep(0.01)

    def drop(self):
        self.link.close()
        self.link = None

    def burst(self):
        """Some requests in one write, and their replies."""
        many = min(self.rng.choice([1, 1, 1, 1, 2, 3, 5]), LIMIT - self.index)
        asked = [self.requests.one() for _ in range(many)]
        wire = b"".join(b"%s %s HTTP/1.1\r\nContent-Length: %d\r\n\r\n%s" % (method.encode(), target, len(body), body) for method, target, body in asked)
        if any(b'"wide"' in body for _, _, body in asked):
            self.wide.set()
        began = time.monotonic_ns()
        lost = False
        try:
            self.link.send(wire)
        except OSError:
            lost = True
        for method, target, body in asked:
            self.index += 1
            raw = None
            if not lost:
                try:
                    raw = self.link.reply().raw
                except (OSError, Ended):
                    lost = True
            sent = Sent(self.number, self.connections, self.opened, self.index, method, target, body, began, time.monotonic_ns(), raw)
            self.record.append(sent)
            self.requests.learn(sent)
        if lost or self.index == LIMIT:
            self.drop()

    def run(self, stop):
        while not stop.is_set():
            self.connect(stop)
            for _ in range(self.rng.randrange(1, 12)):
                if self.link is not None:
                    self.burst()
            time.sleep(self.rng.random() * 2 * self.pause)


class Keeper(Client):
    """A client that asks for checkpoints alone, each a moment after another client has sent a wide commit."""

    def run(self, stop):
        self.requests.one = lambda: ("POST", b"/gc/v1/checkpoint", b"")
        while not stop.is_set():
            self.connect(stop)
            if self.wide.wait(0.1) and self.link is not None:
                self.wide.clear()
                time.sleep(self.rng.random() * 0.02)
                self.burst()


def run_client(number, seed, port, pause, wide, keeps, stop, path):
    """The whole life of a client's process: at its end the record is in the file."""
    client = (Keeper if keeps else Client)(number, seed, port, pause, wide)
    try:
        client.run(stop)
    finally:
        with open(path, "wb") as file:
            pickle.dump(client.record, file)
