#!/usr/bin/env python3
"""Compares the program with the plain rules at limits and corners, row by row.

    corners.py [--program FILE] [ROW..]
"""

import argparse
import copy
import itertools
import json
import os
import random
import shutil
import subprocess
import sys
import tempfile

import catalogue as rules
import checkpoints
import compare
import drill
import journal
import random_requests
import reading
import replies
from catalogue import NO_ANCESTOR


def table(key, value="m", content_id=None, kind="ICEBERG_TABLE"):
    content = {"type": kind, "metadataLocation": value}
    if kind == "NAMESPACE":
        content = {"type": kind, "elements": list(key)}
    if content_id is not None:
        content["id"] = replies.write_uuid(content_id)
    return {"type": "PUT", "key": {"elements": list(key)}, "content": content}


def deleted(key):
    return {"type": "DELETE", "key": {"elements": list(key)}}


def plain_meta():
    return {"message": "m", "authors": [], "signed": [], "properties": {}, "author_time": None}


def put(key, kind="ICEBERG_TABLE", given=None, elements=None, properties=None):
    content = {"type": kind, "metadataLocation": "m", "snapshotId": 0, "schemaId": 0, "specId": 0, "sortOrderId": 0}
    if kind == "NAMESPACE":
        content = {"type": kind, "elements": elements or list(key), "properties": properties or {}}
    return rules.Operation("PUT", key, content, given)


class Row(compare.Comparison):
    """One session of chosen requests."""

    def begin(self, name, path):
        self.name = name
        self.path = path
        self.unopened = False
        self.c = rules.Catalogue()
        self.recorded.append([])
        super().begin(self.c)
        self.start(path)

    def ask(self, method, target, body=b"", fields=(), wire=None, close=False):
        if isinstance(body, (dict, list)):
            body = json.dumps(body).encode()
        if isinstance(target, str):
            target = target.encode()
        if wire is None:
            wire = method.encode() + b" " + target + b" HTTP/1.1\r\n"
            for n, v in fields:
                wire += b"%s: %s\r\n" % (n.encode(), v.encode())
            wire += b"Content-Length: %d\r\n\r\n" % len(body) + body
        self.request = wire if len(wire) < 3000 else wire[:3000]
        self.program.send(wire)
        got = self.program.reply(method != "HEAD")
        moment = self.moment_of(self.program, got, target)
        wanted = self.side.answer(method, target, list(fields), body, moment or 0, close)
        self.note(("asked", method, target, list(fields), body, moment or 0, close, got))
        self.count(self.name, self.side)
        self.same(self.name, self.compared, self.side, wanted, got)
        value = json.loads(wanted.partition(b"\r\n\r\n")[2] or b"null")
        return value

    def get(self, target, **more):
        return self.ask("GET", "/api/v2/" + target, **more)

    def commit(self, where, *operations, **more):
        meta = dict({"message": "m"}, **more)
        return self.ask("POST", "/api/v2/trees/%s/history/commit" % where,
                        {"commitMeta": meta, "operations": list(operations)})

    def create(self, name, source="main", at=None, kind="BRANCH", of="BRANCH"):
        return self.ask("POST", "/api/v2/trees?name=%s&type=%s" % (name, kind),
                        {"type": of, "name": source, "hash": at})

    def merge(self, where, name, at, **more):
        return self.ask("POST", "/api/v2/trees/%s/history/merge" % where,
                        dict({"fromRefName": name, "fromHash": at}, **more))

    def transplant(self, where, name, hashes, **more):
        return self.ask("POST", "/api/v2/trees/%s/history/transplant" % where,
                        dict({"fromRefName": name, "hashesToTransplant": hashes}, **more))

    def pages(self, target):
        """All pages of a listing, by the tokens of the replies."""
        glue = "&" if "?" in target else "?"
        value = self.get(target)
        count = 1
        while value.get("hasMore") and count < 100:
            value = self.get(target + glue + "page-token=" + value["token"].replace("\x1d", "%1D"))
            count += 1
        return count

    def head(self, name="main"):
        return self.c.references[name][1].hex()

    def end(self, status=0):
        rest, found = self.program.ended()
        if (rest, found) != (b"", status):
            self.difference((self.name, "end"), None, None, (b"", status), (rest, found))

    def bytes_once(self, sent, wanted, status):
        """A whole input and the whole output that it must give."""
        got = subprocess.run([self.options.program, "script", self.path], input=sent, stdout=subprocess.PIPE)
        self.compared += 1
        if (got.stdout, got.returncode) != (wanted, status):
            self.difference((self.name, "bytes", self.compared), None, sent[:400], (wanted[-600:], status),
                            (got.stdout[-600:], got.returncode))

    # The rows.

    def row_many_references(self):
        for i in range(205):
            self.create("b%d" % i, kind="TAG" if i % 3 else "BRANCH")
        for q in ("", "?max-records=0", "?max-records=1000", "?max-records=1001", "?max-records=205",
                  "?max-records=206", "?max-records=99999999999999999999999999", "?max-records=77"):
            self.pages("trees" + q)
        self.end()

    def row_many_keys(self):
        self.commit("main", table(("n",), kind="NAMESPACE"),
                    *[table(("k%d" % i,) if i % 2 else ("n", "k.%d" % i)) for i in range(260)])
        old = self.head()
        first = self.get("trees/main/entries?max-records=100")
        self.commit("main", deleted(("k3",)), table(("zz",)))
        self.get("trees/main/entries?max-records=100&page-token=" + first["token"].replace("\x1d", "%1D"))
        for q in ("", "?max-records=0", "?max-records=1000", "?prefix-key=n&max-records=50", "?min-key=k5",
                  "?max-key=k5&min-key=k1", "?prefix-key=k1", "?min-key=n.k&max-key=n.k%1D30",
                  "?key=k1&key=n&key=n.k%1D0&key=none&max-records=2", "?min-key=z", "?max-key=a"):
            self.pages("trees/main/entries" + q)
            self.pages("trees/main@%s/entries" % old + q)
        self.end()

    def row_many_commits(self):
        for i in range(206):
            self.commit("main", table(("k",)) if i == 0 else {"type": "UNCHANGED", "key": {"elements": ["k"]}})
        chain = [h.hex() for h in self.c.chain(self.c.references["main"][1])]
        for q in ("", "?max-records=0", "?max-records=1000", "?max-records=206", "?max-records=205&fetch=ALL",
                  "?limit-hash=" + chain[203], "?limit-hash=%s&max-records=150" % chain[150],
                  "?limit-hash=%s&max-records=150" % chain[149], "?limit-hash=" + chain[-1]):
            self.pages("trees/main/history" + q)
        # A limit that the page after the token doesn't reach, since it lies before it.
        self.get("trees/main/history?page-token=h.%s&limit-hash=%s" % (chain[5], chain[3]))
        self.get("trees/main/history?page-token=h.%s&limit-hash=%s" % (chain[5], chain[5]))
        self.get("trees/main/history?page-token=h." + chain[-1])
        self.end()

    def row_many_operations(self):
        for count in (10000, 10001):
            self.commit("main", *[{"type": "UNCHANGED", "key": {"elements": ["k%d" % i]}} for i in range(count)])
        self.commit("main")
        self.commit("main", *[table(("k%d" % i,)) for i in range(3000)])
        self.end()

    def row_hundred_transplants(self):
        self.create("dev")
        for i in range(101):
            own = self.c.entries(self.c.references["dev"][1]).get(("k%d" % (i % 7),))
            self.commit("dev", table(("k%d" % (i % 7),), "v%d" % i, own and own[1]))
        chain = [h.hex() for h in reversed(self.c.chain(self.c.references["dev"][1])[:-1])]
        self.transplant("main", "dev", chain)
        self.transplant("main", "dev", chain[:100], dryRun=True)
        self.transplant("main", "dev", chain[:100])
        self.transplant("main", "dev", chain[1:])
        self.transplant("main", "dev", chain[1:], defaultKeyMergeMode="FORCE")
        self.transplant("main", "dev", [])
        self.get("trees/main/history?fetch=ALL&max-records=1000")
        self.end()

    def row_crossed_merges(self):
        self.commit("main", table(("t",)))
        for name in ("p", "q", "r"):
            self.create(name)
        for turn in range(12):
            heads = {}
            for name in ("p", "q", "r"):
                key = (name + str(turn),)
                self.commit(name, table(key))
                heads[name] = self.head(name)
            for to, of in (("p", "q"), ("q", "r"), ("r", "p"), ("p", "r")):
                self.merge(to, of, heads[of], dryRun=turn % 3 == 0)
            for to, of in (("q", "p"), ("r", "q"), ("main", "p")):
                self.merge(to, of, self.head(of), defaultKeyMergeMode=["NORMAL", "FORCE", "DROP"][turn % 3],
                           returnConflictAsResult=turn % 2 == 0)
            self.get("trees/p/entries")
            self.get("trees/main/history?max-records=3&fetch=ALL")
        self.end()

    def row_namespaces_in_merges(self):
        self.commit("main", table(("n",), kind="NAMESPACE"), table(("o",), kind="NAMESPACE"))
        self.create("dev")
        self.create("del")
        self.commit("main", table(("n", "t")), table(("o", "u")))
        self.commit("del", deleted(("n",)))
        for mode in ("NORMAL", "FORCE", "DROP"):
            for flag in (True, False):
                self.merge("main", "del", self.head("del"), defaultKeyMergeMode=mode, returnConflictAsResult=flag)
        # A table in place of a namespace that has a child.
        self.commit("del", table(("n",)))
        self.merge("main", "del", self.head("del"), defaultKeyMergeMode="FORCE", returnConflictAsResult=True)
        self.merge("main", "del", self.head("del"))
        self.transplant("main", "del", [h.hex() for h in reversed(self.c.chain(self.c.references["del"][1])[:2])],
                        defaultKeyMergeMode="FORCE", returnConflictAsResult=True)
        # A key whose namespace is gone, or is no namespace.
        self.commit("dev", table(("n", "x")))
        self.merge("del", "dev", self.head("dev"), returnConflictAsResult=True)
        self.merge("del", "dev", self.head("dev"), defaultKeyMergeMode="FORCE")
        self.commit("del", deleted(("n",)))
        self.merge("del", "dev", self.head("dev"))
        self.merge("del", "dev", self.head("dev"),
                   keyMergeModes=[{"key": {"elements": ["n", "x"]}, "mergeBehavior": "DROP"}])
        self.get("trees/del/entries")
        # What stays two steps below counts too.
        self.commit("dev", table(("g",), kind="NAMESPACE"), table(("g", "h"), kind="NAMESPACE"), table(("g", "h", "i")))
        self.commit("dev", deleted(("g",)), deleted(("g", "h")))
        self.end()

    def row_settled_ties(self):
        """Two commits of one generation, both common ancestors: the lesser hash is the base."""
        for turn in range(6):
            a, b = "a%d" % turn, "b%d" % turn
            self.create(a)
            self.create(b)
            self.commit(a, table(("a%d" % turn,)))
            at_a = self.head(a)
            self.commit(b, table(("b%d" % turn,)))
            at_b = self.head(b)
            self.merge(a, b, at_b)
            self.merge(b, a, at_a)
            self.merge(a, b, self.head(b), dryRun=True)
            self.merge(b, a, self.head(a), dryRun=True)
            self.merge(b, a, self.head(a))
            self.merge("main", b, self.head(b))
        self.end()

    def row_heads(self):
        config = replies.Session(rules.Catalogue()).answer("GET", b"/api/v2/config", [], b"", 0)
        closed = replies.Session(rules.Catalogue()).answer("GET", b"/api/v2/config", [], b"", 0, close=True)
        no_path = replies.Session(rules.Catalogue()).answer("GET", b"/x", [], b"", 0)
        line = b"GET /api/v2/config HTTP/1.1\r\n"
        self.end()
        bad = compare.NO_REQUEST
        fields = lambda n: b"".join(b"H%d: x\r\n" % i for i in range(n))
        filled = lambda n: line + b"H: " + b"x" * (n - len(line) - 7) + b"\r\n\r\n"
        for sent, wanted, status in (
                (line + fields(64) + b"\r\n", config, 0), (line + fields(65) + b"\r\n", bad, 8),
                (filled(16384), config, 0), (filled(16385), bad, 8), (b"\r\n" + filled(16382), config, 0),
                (b"\r\n" + filled(16383), bad, 8), (b"\r\n" * 8192, b"", 0), (b"\r\n" * 8192 + b"\n", bad, 8),
                (b"", b"", 0), (b"\n\n\n", b"", 0), (b"\r", bad, 8), (b" ", bad, 8), (line, bad, 8),
                (b"GET /api/v2/config HTTP/1.1\nHost: c\n\n", config, 0),
                (b"\n\nGET /api/v2/config HTTP/1.1\r\n\r\n\r\n", config, 0),
                (line + b"A:\tb\t\r\nB:   \r\nC: \xff\xfe\r\n\r\n", config, 0),
                (line + b"A : b\r\n\r\n", bad, 8), (line + b": b\r\n\r\n", bad, 8), (line + b"A: \x01\r\n\r\n", bad, 8),
                (line + b"A: b\r\n c\r\n\r\n", bad, 8), (line + b"A: \x7f\r\n\r\n", bad, 8),
                (b"GET  /api/v2/config HTTP/1.1\r\n\r\n", bad, 8), (b"GET /api/v2/config HTTP/1.1 \r\n\r\n", bad, 8),
                (b"GET /api/v2/config\r\n\r\n", bad, 8), (b"GET /api/v2/config HTTP/1.2\r\n\r\n", bad, 8),
                (b"GET /api/v2/config http/1.1\r\n\r\n", bad, 8), (b"GET x HTTP/1.1\r\n\r\n", no_path, 0),
                (b"GET * HTTP/1.1\r\n\r\n", no_path, 0), (b"GET http://a/api/v2/config HTTP/1.1\r\n\r\n", no_path, 0),
                (line + b"Connection: a, CLOSE\r\n\r\nrest", closed, 0),
                (line + b"Connection: keep-alive\r\nConnection: close\r\n\r\n" + line, closed, 0),
                (b"GET /api/v2/config HTTP/1.0\r\n\r\n" + line, closed, 0),
                (b"GET /api/v2/config HTTP/1.0\r\nConnection: keep-alive\r\n\r\n", closed, 0),
                (line + b"Connection: close-x\r\n\r\n", config, 0), (line + b"Connection: \"close\"\r\n\r\n", config, 0),
                (line + b"Content-Length: 2\r\nContent-Length: 2\r\n\r\nxx" + line + b"\r\n", config * 2, 0),
                (line + b"Content-Length: 0000000000000000000000002\r\n\r\nxx", config, 0),
                (line + b"Transfer-Encoding: CHUNKED\r\n\r\n1;a=b\r\nx\r\n0;c\r\n\r\n", config, 0),
                (line + b"Transfer-Encoding: chunked\r\n\r\n001\r\nx\r\n000\r\n\r\n" + line + b"\r\n", config * 2, 0)):
            self.bytes_once(sent, wanted, status)
        for request in compare.NO_REQUESTS:
            self.bytes_once(line + b"\r\n" + request, config + bad, 8)
        for request in compare.TOO_LARGE:
            self.bytes_once(line + b"\r\n" + request + line + b"\r\n", config + compare.LARGE, 8)

    def row_targets(self):
        """Each byte in a path and in a query, as it is and escaped."""
        for b in range(0x21, 0x7f):
            c = bytes((b,))
            for target in (b"/" + c, b"/api/v2/trees/main/contents/" + c, b"/api/v2/trees/m" + c + b"n",
                           b"/api/v2/config" + c):
                self.ask("GET", target)
            if self.program.sent > 900:
                self.end()
                self.start(self.path)
        for b in range(256):
            for target in (b"/api/v2/trees/main/contents/x%%%02x" % b, b"/api/v2/trees/x%%%02Xy" % b,
                           b"/api/v2/trees/main/entries?min-key=%%%02x" % b):
                self.ask("GET", target)
            if self.program.sent > 900:
                self.end()
                self.start(self.path)
        for text in ("\u00e9", "\u20ac", "\U0001f600", "\x80", "\u00a0", "\ufeff"):
            for where in ("/", "/api/v2/trees/", "/api/v2/trees/main/contents/", "/api/v2/trees/main/entries?key="):
                self.ask("GET", where + text)
        self.end()
        line = b"GET /api/v2/config HTTP/1.1\r\n"
        config = replies.Session(rules.Catalogue()).answer("GET", b"/api/v2/config", [], b"", 0)
        for c in (b"\x00", b"\x01", b"\t", b"\x0b", b"\x0c", b"\x1f", b"\x7f", b"\x80", b"\xc3", b"\xff", b"\xed\xa0\x80"):
            self.bytes_once(line + b"\r\nGET /x" + c + b"y HTTP/1.1\r\n\r\n", config + compare.NO_REQUEST, 8)

    def row_chunks(self):
        line = b"POST /api/v2/trees/main/contents HTTP/1.1\r\nTransfer-Encoding: chunked\r\n\r\n"
        body = b'{"requestedKeys":[]}'
        side = replies.Session(rules.Catalogue())
        good = side.answer("POST", b"/api/v2/trees/main/contents", [], body, 0)
        bad_body = side.answer("POST", b"/api/v2/trees/main/contents", [], b"", 0)
        bad, large = compare.NO_REQUEST, compare.LARGE
        self.end()
        one = lambda size: size + b"\r\n" + body + b"\r\n0\r\n\r\n"
        raw = lambda n: b"14;" + b"x" * (n - len(one(b"14;"))) + one(b"")[0:]
        for sent, wanted, status in (
                (one(b"14"), good, 0), (one(b"0014"), good, 0), (one(b"0" * 14 + b"14"), good, 0),
                (one(b"0" * 15 + b"14"), bad, 8), (one(b"14 "), good, 0), (one(b"14\t ;a=b"), good, 0), (one(b"14;"), good, 0),
                (one(b"14;\xff\x01\""), good, 0), (one(b" 14"), bad, 8), (one(b""), bad, 8), (one(b";a"), bad, 8),
                (one(b"1 4"), bad, 8), (one(b"0x14"), bad, 8), (one(b"-1"), bad, 8), (one(b"14 a"), bad, 8),
                (b"f" * 16 + b"\r\n", large, 8), (b"f" * 17 + b"\r\n", bad, 8), (b"100000\r\n" + body, bad, 8),
                (b"100001\r\n", large, 8), (b"100001", bad, 8), (b"14\n" + body + b"\r\n0\r\n\r\n", bad, 8),
                (b"14\r\n" + body + b"\n0\r\n\r\n", bad, 8), (b"14\r\n" + body + b"0\r\n\r\n", bad, 8),
                (b"14\r\n" + body + b"\r\n0\r\nX: y\r\n\r\n", bad, 8), (b"0\r\n\r\n", bad_body, 0),
                (b"0;x\r\n\r\n", bad_body, 0), (b"0\r\n", bad, 8), (b"0", bad, 8),
                (b"14\r\n" + body + b"\r\nfffed\r\n", large, 8),
                (b"14\r\n" + body + b"\r\nfffec\r\n" + b" " * 0xfffec + b"\r\n0\r\n\r\n", good, 0),
                (b"100000\r\n" + body + b" " * (0x100000 - len(body)) + b"\r\n0\r\n\r\n", good, 0),
                (raw(2097152), good, 0), (raw(2097153), large, 8), (raw(2097152)[:-1], bad, 8)):
            self.bytes_once(line + sent, wanted, status)
        # The next request begins after the last line.
        self.bytes_once((line + one(b"14")) * 3, good * 3, 0)

    def row_bodies(self):
        body = b'{"requestedKeys":[]}'
        where = "/api/v2/trees/main/contents"
        self.ask("POST", where, body + b" " * (1048576 - len(body)))
        for nested in (124, 125, 126, 127, 128, 1000):
            self.ask("POST", where, b'{"requestedKeys":[],"z":' + b"[" * nested + b"]" * nested + b"}")
            self.ask("POST", where, b'{"requestedKeys":[],"z":' + b'{"a":' * nested + b"1" + b"}" * nested + b"}")
        for text in (b'{"requestedKeys":[],"requestedKeys":null}', b'{"requestedKeys":null,"requestedKeys":[]}',
                     b'{"requested\\u004beys":[]}', b'{"requestedKeys":[{"elements":["\\ud83d\\ude00"]}]}',
                     b'{"requestedKeys":[{"elements":["\\ud83d"]}]}', b'{"requestedKeys":[{"elements":["\\ude00\\ud83d"]}]}',
                     b'{"requestedKeys":[],"a":"\\uD800"}', b'{"requestedKeys":[],"\\uDC00":1}',
                     b'{"requestedKeys":[],"a":"\\ud800\\u0041"}', b'{"requestedKeys":[],"a":"\\u00"}',
                     b'{"requestedKeys":[],"a":1e309}', b'{"requestedKeys":[],"a":-1e309}',
                     b'{"requestedKeys":[],"a":1e99999999999999999999}', b'{"requestedKeys":[],"a":0e99999999999999999999}',
                     b'{"requestedKeys":[],"a":1e-99999999999999999999}', b'{"requestedKeys":[],"a":"\xed\xa0\x80"}',
                     b'{"requestedKeys":[],"a":"\xc0\x80"}', b'{"requestedKeys":[],"a":"\xf4\x90\x80\x80"}',
                     b'{"requestedKeys":[],"a":' + b"9" * 400 + b"}", b'{"requestedKeys":[],"a":-}',
                     b'{"requestedKeys":[],"a":tru}', b'{"requestedKeys":[],"a":nullx}', b'\xa0{"requestedKeys":[]}',
                     b'{"requestedKeys":[],}', b'{"requestedKeys":[] "a":1}', b'{requestedKeys:[]}', b'\x0c{"requestedKeys":[]}',
                     b'{"requestedKeys":[]}\n\t\r ', b'{"requestedKeys":[]}\x00', b"\xfe\xff", b"[[]]", b'"x"', b"1", b"-",
                     b'{"requestedKeys":[{"elements":["a"]},{"elements":["a"],"x":1},{"elements":["b"]}]}',
                     b'{"requestedKeys":[["a"]]}', b'{"requestedKeys":["a"]}', b'{"requestedKeys":{}}'):
            self.ask("POST", where, text)
        # Numbers.
        for name, bits in (("snapshotId", 64), ("schemaId", 32), ("specId", 32), ("sortOrderId", 32)):
            for n in (2 ** (bits - 1) - 1, -2 ** (bits - 1), 2 ** (bits - 1), -2 ** (bits - 1) - 1, "1.0", "1e0", "-0",
                      "0", "00", "null", "true", "\"1\"", "[]", "2" * 40, "-1", "- 1", "0x1", "1.", "0.0", "-0.0", "0e0"):
                own = self.c.entries(self.c.references["main"][1]).get(("t",))
                given = "" if own is None else ',"id":"%s"' % replies.write_uuid(own[1])
                self.ask("POST", "/api/v2/trees/main/history/commit",
                         ('{"commitMeta":{"message":""},"operations":[{"type":"PUT","key":{"elements":["t"]},"content":'
                          '{"type":"ICEBERG_TABLE","metadataLocation":"","%s":%s%s}}]}' % (name, n, given)).encode())
        self.end()

    def row_instants(self):
        for t in ("2024-02-03T04:05:06Z", "2024-02-03T04:05:06.1Z", "2024-02-03T04:05:06.123456789Z",
                  "2024-02-03T04:05:06.1234567890Z", "2024-02-03T04:05:06.Z", "2024-02-03T04:05Z",
                  "2024-02-03T04:05:06+00:00", "2024-02-03T04:05:06-00:00", "2024-02-03T04:05:06+0100",
                  "2024-02-03T04:05:06+01", "2024-02-03T04:05:06+23:59", "2024-02-03T04:05:06+25:59",
                  "2024-02-03T04:05:06+26:00", "2024-02-03T04:05:06+01:60", "2024-02-03T04:05:60Z",
                  "2024-02-03T04:05:61Z", "2024-02-03T04:60:00Z", "2024-02-03T24:00:00Z", "2024-02-30T00:00:00Z",
                  "1900-02-29T00:00:00Z", "2000-02-29T00:00:00Z", "2100-02-29T00:00:00Z", "1970-01-01T00:00:00Z",
                  "1969-12-31T23:59:59.9999999Z", "1970-01-01T00:00:00.0000009Z", "1969-12-31T23:00:00-01:00",
                  "9999-12-30T22:00:00.999999Z", "9999-12-30T22:00:00.9999999Z", "9999-12-30T22:00:01Z",
                  "9999-12-31T00:00:00+02:00", "2024-02-03", "2024-02-03T04:05:06", "04:05:06Z", "", "Z",
                  "2024-2-3T04:05:06Z", "24-02-03T04:05:06Z", "2024-02-03  04:05:06Z", "2024-02-03_04:05:06Z",
                  "2024-02-03t04:05:06z", "2024-02-03 04:05:06,25Z", "2024-02-03T04:05:06Z ", " 2024-02-03T04:05:06Z",
                  "2024-02-03T04:05:06Zx", "2024-00-03T04:05:06Z", "2024-02-00T04:05:06Z", "0000-01-01T00:00:00Z",
                  "-000001-01-01T00:00:00Z", "now", "1706933106"):
            self.commit("main", {"type": "UNCHANGED", "key": {"elements": ["k"]}}, authorTime=t)
            self.get("trees/main/history?max-records=1")
        self.end()

    def row_many_instants(self):
        """Texts near instants, by changes of a few places."""
        rng = random.Random(8)
        dates = ["2024-02-29", "20240229", "2023-02-29", "+002024-12-31", "-000001-01-01", "1970-01-01", "9999-12-30",
                 "+0020240601", "2024-0601", "202406-01", "-000000-01-01", "+012024-01-01", "0000-01-01"]
        times = ["04:05:06", "040506", "04", "04:05", "0405", "23:59:60", "235960.5", "04:05:06.123456789", "04:0506",
                 "0405:06", "04:05:06,1", "24:00", "04:05.5", "22:00:00.9999999", "00:00"]
        offsets = ["Z", "z", "+01", "-01", "+01:30", "+0130", "-01:30:15", "+013015", "+01:30:15.5", "-01:30:15.4999999999",
                   "+25:59", "+25:59:59", "+25:59:59.5", "-00", "-00:00", "", "+1", "+01:", "\u221201", "+26", "+01:60",
                   "+0130:15", "+01:3015", "+01:30:15,5", "+01:30:60"]
        after = ["", "", "", "[UTC]", "[Europe/Paris]", "[!UTC]", "[+01:00]", "[-01]", "[!+0100]", "[+01:00:00]", "[u-ca=iso8601]",
                 "[UTC][u-ca=iso8601]", "[!u-ca=x]", "[a=b][c=d-e]", "[]", "[UTC", "[Etc/GMT+1]", "[a/b/]", "[U=x]", "[_x=1]",
                 "[1a=b]", "[a=b-]", "[a=][b]", "[UTC][UTC]", " ", "x", "[a/b=c]", "[.]", "[+30]", "[+25:59]", "[a-b]", "[a=b]x"]
        for i in range(420):
            good = rng.random() < 0.7
            t = rng.choice(dates[:2] if good else dates) + rng.choice("TTTt " if good else "T _") + (
                rng.choice(times[:11] if good else times)) + rng.choice(offsets[:13] if good else offsets) + (
                rng.choice(after[:12] if good else after))
            if rng.random() < 0.15:
                at = rng.randrange(len(t))
                t = t[:at] + rng.choice("0123456789:-+.,TZ[]! ") * rng.randrange(2) + t[at + rng.randrange(2):]
            self.commit("main", {"type": "UNCHANGED", "key": {"elements": ["k"]}}, authorTime=t)
            if self.side.outcome == "OK":
                self.get("trees/main/history?max-records=1")
            if self.program.sent > 900:
                self.end()
                self.reopen(self.c, self.path)
        self.end()

    def row_thousand(self):
        line = b"GET /api/v2/config HTTP/1.1\r\n"
        config = replies.Session(rules.Catalogue()).answer("GET", b"/api/v2/config", [], b"", 0)
        closed = replies.Session(rules.Catalogue()).answer("GET", b"/api/v2/config", [], b"", 0, close=True)
        self.end()
        self.bytes_once((line + b"\r\n") * 999, config * 999, 0)
        self.bytes_once((line + b"\r\n") * 1000, config * 999 + closed, 8)
        self.bytes_once((line + b"\r\n") * 1001, config * 999 + closed, 8)
        self.bytes_once((line + b"\r\n") * 999 + line + b"Connection: close\r\n\r\n" + line, config * 999 + closed, 0)
        self.bytes_once((line + b"\r\n") * 999 + b"x y\r\n\r\n", config * 999 + compare.NO_REQUEST, 8)

    def row_words(self):
        self.end()
        usage = (b"nessie: usage\n", 1)
        none = b"commits 0 keys 0 contents 0 place 0 head %s\n" % NO_ANCESTOR.hex().encode()
        for words, wanted in (
                ((), usage), (("x",), usage), (("script",), usage), (("script", "a", "b"), usage), (("check",), usage),
                (("check", "a", "b"), usage), (("migrate",), usage), (("migrate", "a", "b"), usage), (("drill",), usage), (("drill", "--seed", "0"), usage), (("--help",), usage),
                (("drill", "--seed", "0", "--commits", "0"), (none, 0)), (("drill", "--commits=0", "--seed=5"), (none, 0)),
                (("drill", "--seed", "18446744073709551615", "--commits", "0"), (none, 0)),
                (("drill", "--seed", "18446744073709551616", "--commits", "0"), usage),
                (("drill", "--seed", "00000000000000000005", "--commits", "0"), (none, 0)),
                (("drill", "--seed", "000000000000000000005", "--commits", "0"), usage),
                (("drill", "--seed", "0", "--commits", "1000001"), usage), (("drill", "--seed", "-1", "--commits", "0"), usage),
                (("drill", "--seed", "+1", "--commits", "0"), usage), (("drill", "--seed", "", "--commits", "0"), usage),
                (("drill", "--seed", "1a", "--commits", "0"), usage), (("drill", "--seed", "1", "--commits", "0", "x"), usage),
                (("drill", "--seed", "1", "--seed", "1", "--commits", "0"), usage), (("script", "--x", "a"), usage),
                (("gc",), usage), (("gc", "a"), usage), (("gc", "a", "0"), usage), (("gc", "a", "-1"), usage), (("gc", "a", "1", "main"), usage),
                (("gc", "a", "1", "main=0"), usage), (("gc", "a", "1", "=1"), usage), (("gc", "a", "1", "main=1=1"), usage),
                (("gc", "a", "1", "--workers", "2"), usage), (("gc", "a", "1", "main=1", "--help"), usage), (("gc", "--help"), usage),
                (("gc", "a", "P1M"), usage), (("gc", "a", "1", "b*=1", *["b*=1"] * 1000), usage), (("GC", "a", "1"), usage),
                (("help",), usage), (("--version",), usage), (("script", "--help"), usage), (("Script", "a"), usage)):
            got = subprocess.run([self.options.program, *words], stdout=subprocess.PIPE, stdin=subprocess.DEVNULL,
                                 cwd=os.path.dirname(self.path))
            self.compared += 1
            if (got.stdout, got.returncode) != wanted:
                self.difference((self.name, words), None, words, wanted, (got.stdout, got.returncode))

    def row_streams(self):
        """Files and streams that fail: the status, and what is written."""
        self.end()
        request = b"GET /api/v2/config HTTP/1.1\r\n\r\n"
        config = replies.Session(rules.Catalogue()).answer("GET", b"/api/v2/config", [], b"", 0)
        folder = os.path.dirname(self.path)
        fault, usage = b"nessie: disk fault\n", b"nessie: usage\n"

        def run(what, words, wanted, status, stdin=None, full=False):
            with open("/dev/full", "wb") as sink:
                got = subprocess.run([self.options.program, *words], stdout=sink if full else subprocess.PIPE,
                                     **(dict(stdin=stdin) if hasattr(stdin, "fileno") else dict(input=stdin or b"")))
            self.compared += 1
            if ((got.stdout or b""), got.returncode) != (wanted, status):
                self.difference((self.name, what), None, words, (wanted, status), (got.stdout, got.returncode))

        class Folder:
            def __init__(self):
                self.fd = os.open(folder, os.O_RDONLY)

            def fileno(self):
                return self.fd
        none = os.path.join(folder, "none", "j")
        for word, *more in (("script",), ("check",), ("migrate",), ("gc", "NONE")):
            run("no folder, " + word, (word, none, *more), fault, 2, request)
            run("a folder, " + word, (word, folder, *more), fault, 2, request)
        run("a full output, script", ("script", self.path), b"", 6, request, True)
        run("a full output, no request", ("script", self.path), b"", 0, b"", True)
        run("a full output, check", ("check", self.path), b"", 6, b"", True)
        run("a full output, migrate", ("migrate", self.path), b"", 6, b"", True)
        run("no input, migrate", ("migrate", self.path), b"format 2 entries 0\n", 0, Folder())
        swept = self.path + "-swept"
        run("a full output, gc", ("gc", swept, "NONE"), b"", 6, b"", True)
        run("no input, gc", ("gc", swept, "NONE"), b"kept 0 removed 0 place 2\n", 0, Folder())
        run("a full output, drill", ("drill", "--seed", "1", "--commits", "1"), b"", 6, b"", True)
        run("a full output, usage", ("x",), b"", 1, b"", True)
        run("a full output, no folder", ("check", none), b"", 6, b"", True)
        run("no input, script", ("script", self.path), b"", 5, Folder())
        run("no input, check", ("check", self.path), b"entries 0 references 1 commits 0 contents 0 head %s\n"
            % NO_ANCESTOR.hex().encode(), 0, Folder())
        run("a file, script", ("script", self.path), config, 0, request)
        new = os.path.join(folder, "new")
        open(new, "wb").close()
        run("an empty file", ("check", new), b"entries 0 references 1 commits 0 contents 0 head %s\n"
            % NO_ANCESTOR.hex().encode(), 0)
        with open(new, "rb") as f:
            if f.read() != journal.HEADER + b"\0":
                self.difference((self.name, "a new file"), None, None, None, None)

    def fresh_program(self):
        if self.program.sent > 880:
            self.end()
            self.reopen(self.c, self.path)

    def row_orders_of_refusals(self):
        """Requests with several faults at once: which is told."""
        rng = random.Random(4)
        self.commit("main", table(("t",)))
        old = self.head()
        self.commit("main", table(("u",)))
        self.create("dev", at=old)
        self.create("v", kind="TAG")
        self.commit("dev", table(("d",)))
        off, unknown = self.head("dev"), "a" * 64
        nothing = NO_ANCESTOR.hex()
        conflict = table(("t",))
        names = ("main", "v", "none", "-")
        for name, at, op in itertools.product(names, (None, self.head(), old, off, unknown, nothing), (
                [{"type": "UNCHANGED", "key": {"elements": ["k"]}}], [conflict], [conflict, conflict])):
            self.commit(name + ("@" + at if at else ""), *op)
            self.fresh_program()
        hashes = (None, old, off, unknown)
        for name, at, of, source in itertools.product(names, hashes, ("dev", "v", "none", "main"), (old, off, unknown, nothing)):
            self.merge(name + ("@" + at if at else ""), of, source, dryRun=True)
            self.fresh_program()
        lists = ([old], [off], [unknown], [nothing], [old, old], [nothing, unknown], [nothing, old], [off, old], [old, off], [old, off, nothing])
        for name, at, of, found in itertools.product(names[:3], hashes, ("dev", "v", "none"), lists):
            self.transplant(name + ("@" + at if at else ""), of, found, dryRun=True)
            self.fresh_program()
        for name, source, of, at in itertools.product(("main", "v", "none"), ("main", "v", "none"), ("BRANCH", "TAG"), hashes):
            self.create(name, source, at, "BRANCH", of)
            if "none" in self.c.references:
                self.ask("DELETE", "/api/v2/trees/none")
            self.fresh_program()
        sources = [{"type": of, "name": n, "hash": at} for of in ("BRANCH", "TAG") for n in ("main", "v", "none")
                   for at in hashes] + [{"type": "DETACHED", "hash": at} for at in hashes[1:] + (nothing,)]
        every = list(itertools.product(("dev", "v", "none", "main", "-"), ("", "?type=BRANCH", "?type=TAG"),
                                       (None, "head", old, off, unknown, nothing), sources))
        for name, kind, at, source in rng.sample(every, 420):
            if at == "head":
                at = self.head(name) if name in self.c.references else nothing
            self.ask("PUT", "/api/v2/trees/" + name + ("@" + at if at else "") + kind, source)
            self.fresh_program()
        for name, kind, at in itertools.product(("dev", "v", "none", "main", "-"), ("", "?type=BRANCH", "?type=TAG"),
                                                (None, "head", old, off, unknown, nothing)):
            if at == "head":
                at = self.head(name) if name in self.c.references else nothing
            self.ask("DELETE", "/api/v2/trees/" + name + ("@" + at if at else "") + kind)
            for lost in ("dev", "v"):
                if lost not in self.c.references:
                    self.create(lost, at=old, kind="TAG" if lost == "v" else "BRANCH")
            self.fresh_program()
        # By the bytes.
        good = json.dumps({"type": "BRANCH", "name": "main"}).encode()
        for method, path, query, encoding, body in itertools.product(
                ("PUT", "POST", "DELETE", "GET", "HEAD", "PATCH"), ("trees/none", "trees/a..b", "trees/%FF", "nowhere", "trees"),
                ("", "?type=x", "?type=TAG", "?name=x&type=TAG"), (None, "gzip", "identity"), (good, b"{}")):
            if rng.random() < 0.5:
                self.ask(method, "/api/v2/" + path + query, body, [] if encoding is None else [("Content-Encoding", encoding)])
                self.fresh_program()
        for method, query, encoding, body in itertools.product(
                ("POST", "GET", "PUT", "DELETE", "HEAD"), ("", "?defaultCutoff=0", "?max-records=x"), (None, "gzip", "identity"),
                (b'{"defaultCutoff":"9"}', b'{"defaultCutoff":"0"}', b"{}", b"")):
            for path in ("/gc/v1/sweep", "/gc/v1/sweep/", "/gc/v1", "/gc/v1/checkpoint", "/gc/v1/checkpoint/"):
                self.ask(method, path + query, body, [] if encoding is None else [("Content-Encoding", encoding)])
                self.fresh_program()
        for path, query in itertools.product(
                ("trees/main", "trees/none", "trees/a..b", "trees/main@" + unknown, "trees/@" + unknown, "trees/@" + old,
                 "trees/main@" + off, "trees/main~0", "trees/-~1", "trees/main@%s~1" % old, "trees/@%s~9" % old, "trees/none~0",
                 "trees/main~", "trees/main~00000000001", "trees/@%s~4294967295" % old, "trees/@%s~4294967296" % old), ("", "x=", "max-records=x", "page-token=e.%s.t" % unknown, "page-token=e.%s.t" % old,
                                        "page-token=h." + unknown, "page-token=h." + off, "limit-hash=" + off,
                                        "limit-hash=%s&page-token=h.%s" % (old, off), "limit-hash=x", "fetch=x", "key=.")):
            for rest in ("/entries", "/history", "", "/contents"):
                self.get(path + rest + "?" + query)
                self.fresh_program()
        self.end()

    def row_members(self):
        """Each member of each body absent, and of each other type."""
        junk = [None, True, 0, -1, 1.5, "", "x", [], {}, ["a"], [None], {"a": 1}, {"elements": ["t"]}]
        key = {"elements": ["t"]}
        self.commit("main", table(("t",)), table(("n",), kind="NAMESPACE"))
        at = self.head()
        self.create("dev")
        self.commit("dev", table(("u",)))
        dev = self.head("dev")
        meta = {"message": "m", "authors": ["a"], "allSignedOffBy": ["b"], "allProperties": {"p": ["q"]},
                "authorTime": "2024-02-03T04:05:06Z"}
        contents = [
            {"type": "ICEBERG_TABLE", "metadataLocation": "m", "snapshotId": 1, "schemaId": 2, "specId": 3, "sortOrderId": 4,
             "id": "00000000-0000-0001-0000-000000000009", "metadata": {}},
            {"type": "ICEBERG_VIEW", "metadataLocation": "m", "versionId": 1, "schemaId": 2, "sqlText": "s", "dialect": "d"},
            {"type": "DELTA_LAKE_TABLE", "metadataLocationHistory": ["a"], "checkpointLocationHistory": ["b"],
             "lastCheckpoint": "c"},
            {"type": "NAMESPACE", "elements": ["t"], "properties": {"p": "q"}},
            {"type": "UDF", "metadataLocation": "m", "versionId": "v", "signatureId": "s"}]
        modes = {"defaultKeyMergeMode": "NORMAL", "keyMergeModes": [{"key": {"elements": ["u"]}, "mergeBehavior": "DROP",
                                                                     "expectedTargetContent": None, "resolvedContent": None}],
                 "dryRun": True, "returnConflictAsResult": False, "fetchAdditionalInfo": True, "message": "m"}
        commit = "/api/v2/trees/main/history/commit"
        bodies = [("POST", commit, {"commitMeta": {"message": "m"}, "operations": [{"type": "PUT", "key": key, "content": c}]})
                  for c in contents]
        bodies += [
            ("POST", commit, {"commitMeta": meta, "operations": [{"type": "DELETE", "key": {"elements": ["none"]}, "content": 1}]}),
            ("POST", commit, {"commitMeta": {"message": ""}, "operations": [{"type": "DELETE", "key": {"elements": ["z"]}},
                                                                            {"type": "UNCHANGED", "key": {"elements": ["y"]}}]}),
            ("POST", "/api/v2/trees?name=main&type=BRANCH", {"type": "BRANCH", "name": "main", "hash": at}),
            ("POST", "/api/v2/trees?name=main&type=TAG", {"type": "DETACHED", "hash": at, "name": "x"}),
            ("PUT", "/api/v2/trees/main@" + "a" * 64, {"type": "BRANCH", "name": "main", "hash": at}),
            ("PUT", "/api/v2/trees/main@" + "a" * 64, {"type": "DETACHED", "hash": at, "name": "x", "metadata": {}}),
            ("POST", "/api/v2/trees/main/contents", {"requestedKeys": [key, {"elements": ["n"]}]}),
            ("POST", "/gc/v1/sweep", {"defaultCutoff": "NONE", "cutoffs": [{"pattern": "main", "cutoff": "9", "z": 1},
                                                                           {"pattern": "d*", "cutoff": "P1D"}], "z": {}}),
            ("POST", "/api/v2/trees/main/history/merge",
             dict(modes, fromRefName="dev", fromHash=dev, commitMeta=meta)),
            ("POST", "/api/v2/trees/main/history/transplant",
             dict(modes, fromRefName="dev", hashesToTransplant=[dev], commitMeta={"message": 1}))]

        def places(v, put, drop):
            yield put, drop
            for k in (v if isinstance(v, dict) else range(len(v)) if isinstance(v, list) else ()):
                yield from places(v[k], lambda n, k=k: v.__setitem__(k, n), lambda k=k: v.__delitem__(k))

        for method, target, body in bodies:
            count = sum(1 for _ in places(body, None, None))
            for i in range(count):
                for value in junk + [places]:
                    box = [copy.deepcopy(body)]
                    put, drop = list(places(box[0], lambda n: box.__setitem__(0, n), None))[i]
                    if value is places:
                        if drop is None:
                            continue
                        drop()
                    else:
                        put(value)
                    self.ask(method, target, json.dumps(box[0]).encode())
                    self.fresh_program()
        self.end()

    def row_closing(self):
        """Requests of all sorts after which the session ends."""
        close = [("Connection", "close")]
        self.commit("main", table(("t",)))
        refused = json.dumps({"commitMeta": {"message": "m"}, "operations": [table(("t",))]}).encode()
        for method, target, body in (
                ("POST", "trees?name=dev&type=BRANCH", {"type": "BRANCH", "name": "main"}),
                ("PUT", "trees/dev", {"type": "DETACHED", "hash": NO_ANCESTOR.hex()}), ("DELETE", "trees/dev", b""),
                ("POST", "trees/main/history/commit", refused), ("HEAD", "config", b""), ("HEAD", "nowhere", b""),
                ("GET", "nowhere", b""), ("PATCH", "trees", b"x"), ("GET", "trees/main/contents/t", b""),
                ("GET", "trees/a..b", b""), ("GET", "trees/none", b""), ("POST", "/gc/v1/sweep", b"{}"),
                ("POST", "/gc/v1/sweep", b""), ("POST", "/gc/v1/checkpoint", b"")):
            self.ask(method, target if target[0] == "/" else "/api/v2/" + target, body, close, close=True)
            self.end()
            self.reopen(self.c, self.path)
            self.get("trees")
        self.ask("POST", "/api/v2/trees/main/contents", b"{}", [("Content-Encoding", "gzip")] + close, close=True)
        self.end()

    def row_drill(self):
        self.end()
        for seed, commits in ((0, 1), (0, 2), (7, 1000), ((1 << 64) - 1, 300), (1 << 63, 40), (12345678901234567890, 500),
                              (3, 3), (99, 700)):
            got = subprocess.run([self.options.program, "drill", "--seed", str(seed), "--commits", str(commits)],
                                 stdout=subprocess.PIPE, stdin=subprocess.DEVNULL)
            wanted = (drill.drilled(seed, commits).encode(), 0)
            self.compared += 1
            if (got.stdout, got.returncode) != wanted:
                self.difference((self.name, seed, commits), None, None, wanted, (got.stdout, got.returncode))

    def row_uuids(self):
        u = "00112233-4455-6677-8899-aabbccddeeff"
        n = u.replace("-", "")
        for s in (u, u.upper(), n, "{%s}" % u, "{%s}" % n, "urn:uuid:" + u, "URN:UUID:" + u, "urn:uuid:" + n, "{" + u, u + "}",
                  "(%s)" % u, " " + u, u + " ", "", u[:-1], u.replace("-", "_"), "0x" + n, u[:-1] + "g", None, 5, [], True):
            self.commit("main", dict(table(("k",)), content={"type": "ICEBERG_TABLE", "metadataLocation": "", "id": s}))
        self.end()

    def row_disk_faults(self):
        """A file that may not grow past a size: the first change that needs more is a fault."""
        self.end()
        for seed, size in enumerate((17, 18, 60, 150, 400, 401, 1000, 2000, 3000, 5000, 8000)):
            path = "%s-%d" % (self.path, size)
            self.c = c = rules.Catalogue()
            self.recorded.append([])
            compare.Comparison.begin(self, c)
            maker = random_requests.Requests(random.Random(seed), c, False, True)
            self.side.room = size - 17
            self.note(("room", size - 17))
            self.start(path, compare.grown_to(size))
            after = 0
            while after < 60 and self.program.sent <= 900 and self.step((self.name, size, after), maker):
                after += self.side.faults is not None
            self.end(2)
            self.checked("after a fault", size, path, compare.line_of(c), 0)
        self.unopened = True

    # Sweeps.

    def sweep(self, default=None, *rules):
        body = {} if default is None else {"defaultCutoff": default}
        if rules:
            body["cutoffs"] = [{"pattern": p, "cutoff": c} for p, c in rules]
        return self.ask("POST", "/gc/v1/sweep", body)

    def three(self):
        """Three values of one table; the hashes of the commits."""
        out = []
        for value in ("m1", "m2", "m3"):
            own = self.c.entries(self.c.references["main"][1]).get(("t1",))
            self.commit("main", table(("t1",), value, own and own[1]))
            out.append(self.head())
        return out

    def collect(self, *words):
        """A sweep by the words of `gc`, between two sessions."""
        self.end()
        before = len(self.c.log)
        got = subprocess.run([self.options.program, "gc", self.path, *words], stdout=subprocess.PIPE)
        moment = compare.last_moment(self.path) if got.returncode == 0 else 0
        wanted = replies.collected(self.c, words, moment)
        self.compared += 1
        if (got.stdout, got.returncode) != wanted:
            self.difference((self.name, "gc"), None, words[:9], wanted, (got.stdout, got.returncode))
        self.note(("gc", words, moment, (got.stdout, got.returncode)))
        if len(self.c.log) > before:
            self.lines.append(compare.line_of(self.c))
        self.reopen(self.c, self.path)

    def row_sweeps(self):
        """What is read, made and moved after sweeps by the route and by words."""
        self.sweep()
        first, second, third = self.three()
        self.create("side", at=NO_ANCESTOR.hex())
        self.sweep("NONE", ("main", "2"))
        for at in (first, second, third):
            self.get("trees/main@%s/contents/t1" % at)
            self.get("trees/main@%s/contents?key=t1&key=t2" % at)
            self.create("old", at=at, kind="TAG")
            self.ask("DELETE", "/api/v2/trees/old")
            self.merge("side", "main", at, dryRun=True)
        self.get("trees/main/history?fetch=ALL")
        self.sweep("1")
        self.sweep("1")
        self.ask("PUT", "/api/v2/trees/side", {"type": "DETACHED", "hash": second})
        self.transplant("side", "main", [first, second])
        self.get("trees/main@%s/contents/t1" % second)
        own = self.c.entries(self.c.references["main"][1])[("t1",)][1]
        self.commit("main", table(("t1",), "m1", own))
        self.get("trees/main@%s/contents/t1" % first)
        self.collect("1")
        self.get("trees/main@%s/contents/t1" % first)
        self.collect("NONE")
        self.collect("P1D", "main=1", "*=NONE")
        self.collect("1")
        self.get("trees")
        self.end()

    def row_checkpoints(self):
        """What is read, made and swept where the journal goes on from a checkpoint, and where it may have none."""
        checkpoint = lambda body=b"": self.ask("POST", "/gc/v1/checkpoint", body)
        checkpoint()
        first, second, third = self.three()
        checkpoint(b"{")
        checkpoint()
        self.end()
        self.reopen(self.c, self.path)
        for at in (first, second, third):
            self.get("trees/main@%s/contents/t1" % at)
        self.sweep("1")
        self.collect("1")
        checkpoint()
        self.get("trees/main@%s/contents/t1" % second)
        self.end()
        with open(self.path, "wb") as f:
            f.write(journal.OLD + b"\0")
        self.start(self.path)
        self.c.__init__()
        self.c.format = 1
        self.note(("begun", journal.OLD + b"\0"))
        self.lines, self.bases = [compare.line_of(self.c)], []
        checkpoint()
        self.commit("main", table(("t1",)))
        checkpoint(b"{}")
        self.end()

    def row_many_patterns(self):
        self.three()
        for count in (999, 1000, 1001):
            self.sweep("2", *[("b*", "1")] * count)
        self.collect("2", *["b*=1"] * 1000)
        self.collect("2", *["b*=1"] * 1001)
        # The first that matches counts, also where it is the last.
        self.sweep("2", *[("b*", "1")] * 999 + [("main", "1")])
        self.end()

    def row_patterns(self):
        """For each pattern whether it matches: only then less than all stays."""
        names = ["dev", "dev/a", "Dev", "d", "rel/1.0", "w-x_y", "m" * 128]
        for pattern in ["main", "mai", "main*", "main/", "m*", "*", "**", "*n", "", "ma*n", "Main", "M*", "dev/*", "dev", "d*", "rel/1.*", "rel.", "rel.*",
                        "rel/*", "1*", "a..*", "a..b", "w-x_*", "m" * 128, "m" * 128 + "*", "m" * 129, "m" * 129 + "*", "\u00e9*", "main ", " main", "-"]:
            for name in names:
                if name not in self.c.references:
                    self.create(name.replace("/", "%2F"), at=NO_ANCESTOR.hex())
            for name in names + ["main"]:
                own = self.c.entries(self.c.references[name][1]).get(("t",))
                where = name.replace("/", "%2F")
                self.commit(where, table(("t",), "v%d" % self.c.place, own and own[1]))
                own = self.c.entries(self.c.references[name][1])[("t",)]
                self.commit(where, table(("t",), "v%d" % self.c.place, own[1]))
            self.sweep("NONE", (pattern, "1"), ("*", "NONE"))
            self.fresh_program()
        self.end()

    def row_cutoffs(self):
        """Each cutoff on three commits, by the route and by words: a duration or an instant that falls on a commit's time too."""
        self.three()
        chain = [self.c.commits[h].time for h in self.c.chain(self.c.references["main"][1])[:-1]]
        near = [replies.write_instant(t + d) for t in chain for d in (-1, 0, 1)]
        for text in random_requests.DURATIONS + random_requests.BAD_CUTOFFS + random_requests.INSTANTS + near + [
                "NONE", "none", "nONE", "1", "2", "3", "4", "4294967295", "P1W1D", "P1043497W", "P1043498W", "P19998Y", "P0Y0M0W0D", "PT175307616H",
                "PT175307617H", "PT18446744073709551615S", "PT18446744073709551616S", "PT000000000000000000001S", "PT0000000000000000000001S",
                "PT2562047788015215H", "PT2562047788015216H", "PT9223372036854775807S", "PT0.000000999S", "PT0.000001S", "P1DT0S", "P0DT", "PT1S1M",
                "PT1M1S", "PT1M1M", "P1Y1D", "P0M1D", "P1D\u00e9", "P1DT1H1M1.123456789S", "P1DT1H1M1,S", "PT,1S", "PT1.H", "P 1D", "P1D\n"]:
            if "\n" not in text:
                self.collect(text, "main=NONE")
            self.sweep("NONE", ("nobody", text))
            self.fresh_program()
        for text in near:
            self.three()
            self.sweep(text)
        self.end()

    # Journals that the rules write, and the program opens.

    def opened_as(self, what, file, wanted):
        """What `check` and `script` say of a file: a line of the state, or of what is wrong with it."""
        path = self.path + "-made"
        with open(path, "wb") as f:
            f.write(file)
        self.note(("file", file, wanted))
        faulty = wanted.startswith(b"nessie")
        for words, output in ((("check", path), wanted), (("script", path), wanted if faulty else b"")):
            got = subprocess.run([self.options.program, *words], stdout=subprocess.PIPE, stdin=subprocess.DEVNULL)
            self.compared += 1
            if (got.stdout, got.returncode) != (output, 3 if faulty else 0):
                self.difference((self.name, what), None, (words[0], file[:2000]), (output, 3 if faulty else 0),
                                (got.stdout, got.returncode))
        with open(path, "rb") as f:
            if f.read() != file:
                self.difference((self.name, what, "changed the file"), None, None, None, None)

    def of_log(self, c):
        return [journal.payload(e, e[3]) for e in c.log]

    def go_on(self, c):
        """The program goes on from a journal that the rules wrote, or from a checkpoint where the log has none."""
        self.end()
        found = journal.written(self.of_log(c) or [journal.checkpoint(c)])
        self.note(("begun", found))
        with open(self.path, "wb") as f:
            f.write(found)
        self.c = c
        compare.Comparison.begin(self, c)
        if c.log:
            self.lines = []
        self.reopen(c, self.path)

    def row_last_drafts(self):
        c = rules.Catalogue()
        c.create("tag", "TAG", ("BRANCH", "main", None), 3)
        c.draft = (1 << 64) - 2
        c.commit("main", None, plain_meta(), [put(("t",))], 5)
        self.go_on(c)
        self.commit("main", table(("u",)))
        self.commit("main", table(("t",)))
        self.commit("none", table(("u",)))
        self.commit("tag", table(("u",)))
        self.commit("main@" + "a" * 64, table(("u",)))
        self.commit("main")
        self.create("dev")
        self.merge("dev", "main", self.head())
        self.merge("dev", "main", self.head(), dryRun=True)
        self.merge("dev", "none", self.head())
        self.transplant("dev", "main", [self.head()])
        self.transplant("dev", "main", [NO_ANCESTOR.hex()])
        self.transplant("dev", "main", ["a" * 64])
        self.get("trees/main/entries")
        self.end()

    def row_nearly_last_drafts(self):
        c = rules.Catalogue()
        c.draft = (1 << 64) - 4
        c.commit("main", None, plain_meta(), [put(("t",))], 5)
        self.go_on(c)
        self.commit("main", table(("t",)))
        self.commit("main", table(("u",)))
        self.commit("main", table(("v",)))
        self.end()

    def row_last_places(self):
        """What is refused, and what isn't, where the log takes one entry more, and none."""
        c = rules.Catalogue()
        c.commit("main", None, plain_meta(), [put(("t",))], 5)
        first = c.references["main"][1].hex()
        c.create("dev", "BRANCH", ("BRANCH", "main", None), 6)
        c.commit("dev", None, plain_meta(), [put(("u",))], 7)
        c.create("v", "TAG", ("BRANCH", "main", None), 8)
        self.go_on(c.moved(rules.LIMITS["Log"] - 1, 9))
        for _ in range(2):
            dev, unknown = self.head("dev"), "a" * 64
            self.ask("POST", "/gc/v1/checkpoint")
            self.create("v")
            self.create("w", "none")
            self.commit("v", table(("w",)))
            self.commit("main@" + unknown, table(("w",)))
            self.merge("main", "none", dev)
            self.transplant("main", "dev", [NO_ANCESTOR.hex()])
            self.ask("DELETE", "/api/v2/trees/main")
            self.ask("DELETE", "/api/v2/trees/v?type=BRANCH")
            self.get("trees/main/contents/t")
            self.commit("main", table(("w",)))
            self.commit("main", table(("t",)))
            self.create("w")
            self.ask("PUT", "/api/v2/trees/dev@" + first, {"type": "BRANCH", "name": "main"})
            self.ask("DELETE", "/api/v2/trees/dev@" + first)
            self.ask("DELETE", "/api/v2/trees/dev")
            self.merge("main", "dev", dev, dryRun=True)
            self.merge("main", "main", first, returnConflictAsResult=True)
            self.transplant("main", "dev", [dev])
            self.sweep("1")
            self.collect("1")
        self.end()

    def row_last_references(self):
        c = rules.Catalogue()
        for i in range(65533):
            c.create("r%05d" % i, "TAG" if i % 2 else "BRANCH", ("BRANCH", "main", None), 7)
        self.go_on(c.moved(c.place, c.draft))
        self.get("trees?max-records=3&page-token=r.r65530")
        self.create("one")
        self.create("two")
        self.create("one")
        self.create("two", "none")
        self.create("two", of="TAG")
        self.ask("DELETE", "/api/v2/trees/r00000")
        self.create("two")
        self.create("three")
        self.end()

    def row_tokens(self):
        """Tokens of each form at each listing."""
        self.commit("main", table(("t",)), table(("u",)))
        self.create("v", kind="TAG")
        h, key = self.head(), "\u00e9"
        tokens = ["", "r", "r.", "r.main", "R.main", "x.main", "r.v", "r.zz", "r.a..b", "r.main.", "r.-", "main", "r." + h]
        for front in ("h.", "H.", "x.", "e.", "E.", "r.", "h", "e", ""):
            for at in (h, h.upper(), h[:-1], h + "0", "0" * 64, NO_ANCESTOR.hex()):
                tokens += [front + at + rest for rest in ("", ".", ".t", "xt", ".t.", "..t", "." + key)]
        for token in tokens:
            for listing in ("trees", "trees/main/entries", "trees/v/history"):
                self.get("%s?page-token=%s" % (listing, token.replace(key, "%C3%A9")))
                self.fresh_program()
        self.end()

    def row_pages_of_a_thousand(self):
        c = rules.Catalogue()
        for i in range(1003):
            c.create("r%04d" % i, "TAG", ("DETACHED", None, NO_ANCESTOR), i)
        for i in range(1001):
            c.commit("main", None, plain_meta(), [rules.Operation("UNCHANGED", ("k",))], 5000 + i)
        c.commit("main", None, plain_meta(), [put(("k%04d" % i,)) for i in range(1100)], 9000)
        self.go_on(c)
        for what in ("trees", "trees/main/entries", "trees/main/history"):
            for q in ("?max-records=1000", "?max-records=1001", "?max-records=4294967297", "?max-records=999"):
                self.pages(what + q)
        self.get("trees/main/contents?" + "&".join("key=k%04d" % i for i in range(0, 1100, 3)))
        self.ask("POST", "/api/v2/trees/main/contents",
                 {"requestedKeys": [{"elements": ["k%04d" % i]} for i in range(1099, -1, -1)]})
        self.end()

    def row_falling_times(self):
        """A sweep by an instant keeps what stands before the first commit that is older, and no newer one behind it."""
        c = rules.Catalogue()
        given = None
        for moment, value in (500, "m1"), (300, "m2"), (900, "m3"):
            operation = put(("t",), given=given)
            operation.content["metadataLocation"] = value
            c.commit("main", None, plain_meta(), [operation], moment)
            given = c.entries(c.references["main"][1])[("t",)][1]
        self.go_on(c)
        self.sweep("1970-01-01T00:00:00.000400Z")
        for h in c.chain(c.references["main"][1])[:-1]:
            self.get("trees/main@%s/contents/t" % h.hex())
        self.end()
        self.unopened = True

    def row_same_commit_twice(self):
        c = rules.Catalogue()
        c.create("dev", "BRANCH", ("BRANCH", "main", None), 1)
        for name in ("main", "dev"):
            c.commit(name, None, plain_meta(), [rules.Operation("UNCHANGED", ("k",))], 9)
        self.opened_as("twice", journal.written(self.of_log(c)), compare.line_of(c))
        self.go_on(c)
        self.get("trees")
        self.merge("dev", "main", self.head())
        self.get("trees/dev/history")
        self.commit("dev", table(("t",)))
        self.end()

    def row_made_checkpoints(self):
        """Journals with checkpoints at which drafts were open, and with an entry behind one that may not be there."""
        for seed in range(150):
            rng = random.Random(seed)
            made = checkpoints.Making(rng)
            for _ in range(rng.randrange(1, 30)):
                made.step()
            made.payloads.append(journal.checkpoint(made.c, made.left))
            for _ in range(rng.randrange(8)):
                made.step()
            payloads = made.payloads
            if rng.random() < 0.6:
                # Of another draft, or of a sweep opened elsewhere; another byte of the state.
                at = rng.choice([i for i, p in enumerate(payloads) if p[0] == journal.CHECKPOINT] + list(range(len(payloads))))
                spelled = bytearray(payloads[at])
                where = rng.choice([12, 12, 24, rng.randrange(len(spelled)), rng.randrange(len(spelled))]) % len(spelled)
                spelled[where] = (spelled[where] + rng.choice([-2, -1, 1, 2, 64])) % 256
                payloads = payloads[:at] + [bytes(spelled)] + payloads[at + 1:]
            file = journal.written(payloads)
            line = reading.told(file)
            self.extra["made: " + (line[8:15].decode() if line.startswith(b"nessie") else "opens")] += 1
            self.opened_as(seed, file, line)
        self.end()

    def row_wrong_checkpoints(self):
        """Checkpoints that are no state of a catalogue, each for one reason, or nearly so."""
        def made():
            c = rules.Catalogue()
            c.commit("main", None, plain_meta(), [put(("n",), "NAMESPACE"), put(("n", "t"))], 5)
            c.commit("main", None, plain_meta(), [put(("u",))], 6)
            c.create("v", "TAG", ("BRANCH", "main", None), 7)
            return c

        def on_top(c, merge_parent, generation, *ops):
            commit = rules.Commit(c.references["main"][1], merge_parent, generation, 8, plain_meta(), list(ops))
            c.keep([commit])
            c.references["main"][1] = commit.id()

        def commits(c, *order):
            c.commits = dict(enumerate([list(c.commits.values())[i] for i in order]))

        some = list(made().contents.items())
        entry = lambda i: (some[i][1][0]["type"], some[i][1][1], some[i][0])
        first = list(made().commits)[0]
        illegal = b"nessie: illegal entry 3\n"
        line = lambda commits, contents, head=None: b"entries 3 references 2 commits %d contents %d head " % (commits, contents)
        for what, change, wanted in [
                ("as it was", lambda c: None, line(2, 3)),
                ("a commit twice", lambda c: commits(c, 0, 0, 1), illegal),
                ("a parent behind its child", lambda c: commits(c, 1, 0), illegal),
                ("no parent", lambda c: commits(c, 1), illegal),
                ("a head that isn't there", lambda c: c.references["v"].__setitem__(1, bytes(32)), illegal),
                ("no main", lambda c: c.references.pop("main"), illegal),
                ("main as a tag", lambda c: c.references["main"].__setitem__(0, "TAG"), illegal),
                ("a content that is gone and shown", lambda c: c.contents.pop(some[2][0]), illegal),
                ("a content that nobody shows", lambda c: on_top(c, None, 3, (("u",), None)) or c.references["v"].__setitem__(1, first), line(3, 3)),
                ("one commit more", lambda c: on_top(c, None, 3, (("w",), entry(2))), line(3, 3)),
                ("a merge parent", lambda c: on_top(c, first, 3), line(3, 3)),
                ("no merge parent", lambda c: on_top(c, bytes(32), 3), illegal),
                ("another generation", lambda c: on_top(c, None, 2), illegal),
                ("a generation more", lambda c: on_top(c, None, 4), illegal),
                ("a key without its namespace", lambda c: on_top(c, None, 3, (("x", "y"), entry(2))), illegal),
                ("a key below a table", lambda c: on_top(c, None, 3, (("u", "y"), entry(2))), illegal),
                ("a namespace that goes", lambda c: on_top(c, None, 3, (("n",), None)), illegal),
                ("a DELETE of no key", lambda c: on_top(c, None, 3, (("w",), None)), line(3, 3))]:
            c = made()
            change(c)
            file = journal.written([journal.checkpoint(c)])
            told = reading.told(file)
            if not told.startswith(wanted):
                self.difference((self.name, what), None, None, wanted, told)
            self.opened_as(what, file, told)
        # A journal that begins at a checkpoint knows of no state before it.
        c = made()
        for opened, wanted in ((2, b"nessie: illegal entry 4\n"), (3, b"entries 4 "), (4, b"nessie: illegal entry 4\n")):
            sweep = journal.payload(("sweep", 4, 0, 8, (opened, ((rules.ALL,), []), [], []), None), 8)
            file = journal.written([journal.checkpoint(c), sweep])
            told = reading.told(file)
            if not told.startswith(wanted):
                self.difference((self.name, "sweep", opened), None, None, wanted, told)
            self.opened_as("sweep", file, told)
        base = journal.checkpoint(made())
        draft, damaged = base[5:13], b"nessie: damaged at 16\n"
        for left, wanted in (((1,), None), ((1, 1), damaged), ((0,), damaged), ((2,), damaged), ((1, 2), damaged)):
            spelled = base[:13] + rules.listed(left, rules.u64) + base[17:]
            self.opened_as(left, journal.written([spelled]), wanted or compare.line_of(made()))
        self.opened_as("in format 1", journal.OLD + journal.written([base])[16:], damaged)
        need = (2).to_bytes(8, "big")
        if draft != need:
            self.difference((self.name, "the draft number"), None, None, need, draft)
        self.end()

    def row_illegal_journals(self):
        from catalogue import Operation, content_bytes, key_bytes, listed, meta_bytes, option, text, u8, u32, u64
        hash_ = lambda b: b
        c = rules.Catalogue()
        c.create("dev", "BRANCH", ("BRANCH", "main", None), 1)
        c.commit("main", None, plain_meta(), [put(("n",), "NAMESPACE"), put(("n", "t")), put(("u",))], 2)
        first = c.references["main"][1]
        c.commit("main", None, plain_meta(), [Operation("DELETE", ("u",))], 3)
        second = c.references["main"][1]
        c.create("v", "TAG", ("BRANCH", "main", first), 4)
        whole = self.of_log(c)
        good = compare.line_of(c)
        self.opened_as("whole", journal.written(whole), good)
        damaged_at = lambda n: b"nessie: damaged at %d\n" % n
        at = len(journal.written(whole)) - 1
        illegal = b"nessie: illegal entry 5\n"
        damaged = damaged_at(at)
        nothing = meta_bytes(plain_meta())

        def last(what, wanted, kind, draft, command, head=b"", place=5, moment=5):
            p = u8(kind) + u32(place) + u64(draft) + u64(moment) + command + head
            self.opened_as(what, journal.written(whole + [p]), wanted)

        def state(change):
            other = rules.Catalogue()
            other.create("dev", "BRANCH", ("BRANCH", "main", None), 1)
            other.commit("main", None, plain_meta(), [put(("n",), "NAMESPACE"), put(("n", "t")), put(("u",))], 2)
            other.commit("main", None, plain_meta(), [Operation("DELETE", ("u",))], 3)
            other.create("v", "TAG", ("BRANCH", "main", first), 4)
            change(other)
            return compare.line_of(other), other.references

        # References.
        name = lambda n: option(n, text)
        made, _ = state(lambda o: o.create("w", "BRANCH", ("DETACHED", None, first), 5))
        last("create", made, 1, 0, text("w") + u8(1) + name(None) + option(first, hash_), first)
        last("create with both", made, 1, 0, text("w") + u8(1) + name("main") + option(first, hash_), first)
        last("create, other head", illegal, 1, 0, text("w") + u8(1) + name("main") + option(first, hash_), second)
        last("create, no head", damaged, 1, 0, text("w") + u8(1) + name("main") + option(first, hash_))
        last("create, a draft", damaged, 1, 7, text("w") + u8(1) + name("main") + option(first, hash_), first)
        last("create, no source", damaged, 1, 0, text("w") + u8(1) + name(None) + option(None, hash_), first)
        last("create, no such kind", damaged, 1, 0, text("w") + u8(3) + name("main") + option(first, hash_), first)
        last("create, kind 0", damaged, 1, 0, text("w") + u8(0) + name("main") + option(first, hash_), first)
        last("create, bad name", damaged, 1, 0, text("w.") + u8(1) + name("main") + option(first, hash_), first)
        last("create, bad source", damaged, 1, 0, text("w") + u8(1) + name("-") + option(first, hash_), first)
        last("create, not UTF-8", damaged, 1, 0, u32(1) + b"\xff" + u8(1) + name("main") + option(first, hash_), first)
        last("create, there already", illegal, 1, 0, text("dev") + u8(1) + name("main") + option(first, hash_), first)
        last("create, no such source", illegal, 1, 0, text("w") + u8(1) + name("x") + option(None, hash_), first)
        last("create, off the chain", illegal, 1, 0, text("w") + u8(1) + name("v") + option(second, hash_), second)
        last("create, unknown", illegal, 1, 0, text("w") + u8(1) + name(None) + option(bytes(32), hash_), bytes(32))
        last("create at no ancestor", state(lambda o: o.create("w", "TAG", ("DETACHED", None, NO_ANCESTOR), 5))[0], 1, 0,
             text("w") + u8(2) + name(None) + option(NO_ANCESTOR, hash_), NO_ANCESTOR)
        last("place 4", illegal, 1, 0, text("w") + u8(1) + name("main") + option(first, hash_), first, place=4)
        last("place 6", illegal, 1, 0, text("w") + u8(1) + name("main") + option(first, hash_), first, place=6)
        last("place 0", illegal, 1, 0, text("w") + u8(1) + name("main") + option(first, hash_), first, place=0)
        last("late moment", made, 1, 0, text("w") + u8(1) + name("main") + option(first, hash_), first,
             moment=253402207200999999)
        last("too late moment", damaged, 1, 0, text("w") + u8(1) + name("main") + option(first, hash_), first,
             moment=253402207201000000)
        last("early moment", made, 1, 0, text("w") + u8(1) + name("main") + option(first, hash_), first, moment=0)
        last("bytes left over", damaged, 1, 0, text("w") + u8(1) + name("main") + option(first, hash_), first + b"\x00")
        last("an option of 2", damaged, 1, 0, text("w") + u8(1) + u8(2) + option(first, hash_), first)
        for kind in (0, 7, 8, 9, 255):
            last("kind %d" % kind, damaged, kind, 0, text("w") + u8(1) + name("main") + option(first, hash_), first)
        none = option(None, hash_)
        moved, _ = state(lambda o: o.assign("dev", None, None, ("BRANCH", "main", None), 5))
        last("assign", moved, 2, 0, text("dev") + none + none + name("main") + none, second)
        last("assign, kind", moved, 2, 0, text("dev") + b"\x01\x01" + none + name("main") + none, second)
        last("assign, other kind", illegal, 2, 0, text("dev") + b"\x01\x02" + none + name("main") + none, second)
        last("assign, expected", moved, 2, 0, text("dev") + none + option(NO_ANCESTOR, hash_) + name("main") + none, second)
        last("assign, unexpected", illegal, 2, 0, text("dev") + none + option(first, hash_) + name("main") + none, second)
        last("assign, other head", illegal, 2, 0, text("dev") + none + none + name("main") + none, first)
        gone, _ = state(lambda o: o.delete("v", None, None, 5))
        last("delete", gone, 3, 0, text("v") + none + none)
        last("delete, a head", damaged, 3, 0, text("v") + none + none, first)
        last("delete main", illegal, 3, 0, text("main") + none + none)
        last("delete none", illegal, 3, 0, text("none") + none + none)
        last("delete, a draft", damaged, 3, 3, text("v") + none + none)

        # Commits.
        def spelled(ops, draft=3, fresh=None):
            out = b""
            for index, o in enumerate(ops):
                if o.what != "PUT":
                    out += key_bytes(o.key) + u8(0 if o.what == "DELETE" else 2)
                    continue
                i = o.given_id if o.given_id is not None else u64(draft) + u64(index)
                b = content_bytes(o.content, i)
                f = (1 if o.given_id is None else 0) if fresh is None else fresh
                out += key_bytes(o.key) + u8(1) + u8(f) + u32(len(b)) + b
            return u32(len(ops)) + out

        def commit(what, ops, wanted=None, draft=3, branch="main", expected=None, accepted=None, body=None, meta=None):
            meta = meta or plain_meta()
            result = {}

            def do(o):
                o.draft = draft - 1
                o.commit(branch, expected, meta, accepted or ops, 5)
                result["head"] = o.references[branch][1]
            if wanted is None:
                wanted, _ = state(do)
            head = result.get("head", first)
            last(what, wanted, 4, draft, text(branch) + option(expected, hash_) + meta_bytes(meta)
                 + (spelled(ops, draft) if body is None else body), head)

        commit("commit", [put(("x",))])
        commit("commit, draft 900", [put(("x",))], draft=900)
        commit("commit, largest draft", [put(("x",))], draft=(1 << 64) - 1)
        commit("commit, draft 1", [put(("x",))], illegal, draft=1)
        commit("commit, draft 2", [Operation("DELETE", ("n", "t"))], illegal, draft=2)
        commit("commit, draft 0", [Operation("DELETE", ("n", "t"))], damaged, draft=0)
        commit("commit, no operations", [], illegal)
        commit("commit, a key twice", [Operation("UNCHANGED", ("x",)), Operation("UNCHANGED", ("x",))], illegal)
        commit("commit, an id twice", [put(("x",), given=bytes(16)), put(("y",), given=bytes(16))], illegal)
        commit("commit, a namespace of another key", [put(("x",), "NAMESPACE", elements=["y"])], illegal)
        commit("commit, a conflict", [put(("n",), "NAMESPACE")], illegal)
        commit("commit, absent namespace", [put(("q", "t"))], illegal)
        commit("commit on a tag", [put(("x",))], illegal, branch="v")
        commit("commit on none", [put(("x",))], illegal, branch="none")
        commit("commit, bad name", [put(("x",))], damaged, branch="-")
        commit("commit, expected", [put(("x",))], expected=first)
        commit("commit, expected unknown", [put(("x",))], illegal, expected=bytes(32))
        commit("commit, unchanged", [Operation("UNCHANGED", ("x",))])
        commit("commit, order of the request", [put(("z",)), put(("b",)), Operation("DELETE", ("n", "t"))])
        many = [Operation("UNCHANGED", ("k%d" % i,)) for i in range(10001)]
        commit("commit, 10,000", many[:10000])
        commit("commit, 10,001", many, illegal)
        commit("commit, fresh of another id", [put(("x",))], damaged, body=spelled([put(("x",))], draft=4))
        commit("commit, fresh 2", [put(("x",))], damaged, body=spelled([put(("x",))], fresh=2))
        commit("commit, not fresh", [put(("x",))], illegal, body=spelled([put(("x",))], fresh=0))
        commit("commit, operation 3", [put(("x",))], damaged, body=u32(1) + key_bytes(("x",)) + u8(3))
        commit("commit, no elements", [put(("x",))], damaged, body=u32(1) + u8(0) + u8(2))
        commit("commit, empty element", [put(("x",))], damaged, body=u32(1) + u8(1) + b"\0\0" + u8(2))
        commit("commit, control", [put(("x",))], damaged, body=u32(1) + key_bytes(("\x1d",)) + u8(2))
        commit("commit, 21 elements", [put(("x",))], damaged, body=u32(1) + key_bytes(("x",) * 21) + u8(2))
        commit("commit, 501 bytes", [put(("x",))], damaged, body=u32(1) + key_bytes(("x" * 501,)) + u8(2))
        commit("commit, 500 bytes", [Operation("UNCHANGED", ("x" * 500,))])
        def raw(b):
            return u32(1) + key_bytes(("x",)) + u8(1) + u8(1) + u32(len(b)) + b
        right = content_bytes(put(("x",)).content, u64(3) + u64(0))
        commit("commit, content cut", [put(("x",))], damaged, body=raw(right[:-1]))
        commit("commit, content longer", [put(("x",))], damaged, body=raw(right + b"\0"))
        commit("commit, type 0", [put(("x",))], damaged, body=raw(b"\0" + right[1:]))
        commit("commit, type 5", [put(("x",))], damaged, body=raw(b"\5" + right[1:]))
        commit("commit, content of none", [put(("x",))], damaged, body=raw(b""))
        pairs = lambda *ps: (u8(4) + u64(3) + u64(0) + u32(1) + text("x") + u32(len(ps))
                             + b"".join(text(p) + text("") for p in ps))
        commit("commit, properties", [put(("x",), "NAMESPACE", properties={"a": "", "b": ""})], body=raw(pairs("a", "b")))
        commit("commit, properties' order", [put(("x",))], damaged, body=raw(pairs("b", "a")))
        commit("commit, properties twice", [put(("x",))], damaged, body=raw(pairs("a", "a")))
        delta = u8(3) + u64(3) + u64(0) + u32(0) + u32(0)
        commit("commit, option 2", [put(("x",))], damaged, body=raw(delta + b"\x02"))
        for time, wanted in ((253402207200999999, None), (253402207201000000, damaged)):
            commit("commit, author's time %d" % time, [put(("x",))], wanted, meta=dict(plain_meta(), author_time=time))
        def meta_of(*names):
            return text("") + u32(0) + u32(0) + u32(len(names)) + b"".join(text(n) + u32(0) for n in names) + u8(0)
        for what, meta, wanted in (("order", meta_of("b", "a"), damaged), ("twice", meta_of("a", "a"), damaged)):
            last("commit, meta's " + what, wanted, 4, 3, text("main") + none + meta + spelled([put(("x",))]), first)

        # Merges and transplants.
        from_name, nomodes = text("main"), u32(0)

        def merge(what, wanted, meta=None, from_hash=second, default=0, modes=nomodes, path=None, draft=3, branch="dev",
                  source="main", plain=True):
            result = {}

            def do(o):
                o.draft = draft - 1
                o.merge(branch, path, source, from_hash, plain_meta(), lambda k: "NORMAL", False, False, 5, ())
                result["head"] = o.references[branch][1]
            if wanted is None:
                wanted, _ = state(do)
            elif plain:
                state(do)
            last(what, wanted, 5, draft, text(branch) + option(path, hash_) + text(source) + from_hash + nothing
                 + u8(default) + modes, result.get("head", first))

        merge("merge", None)
        merge("merge, default 3", damaged, default=3)
        merge("merge, force", None, default=0)
        merge("merge at no ancestor", None, path=NO_ANCESTOR)
        merge("merge at another", illegal, path=first, plain=False)
        merge("merge into a tag", illegal, branch="v", plain=False)
        merge("merge of none", illegal, source="none", plain=False)
        merge("merge of an unknown", illegal, from_hash=bytes(32), plain=False)
        merge("merge without changes", illegal, branch="main", from_hash=first, plain=False)
        merge("merge of no ancestor", illegal, from_hash=NO_ANCESTOR, plain=False)
        merge("merge, a mode", None, modes=u32(1) + key_bytes(("q",)) + u8(2))
        merge("merge, mode 3", damaged, modes=u32(1) + key_bytes(("q",)) + u8(3))
        merge("merge, modes' order", damaged, modes=u32(2) + key_bytes(("q",)) + u8(2) + key_bytes(("p",)) + u8(2))
        merge("merge, modes twice", damaged, modes=u32(2) + key_bytes(("q",)) + u8(2) + key_bytes(("q",)) + u8(2))
        merge("merge, modes ordered", None, modes=u32(2) + key_bytes(("a", "b")) + u8(2) + key_bytes(("a!",)) + u8(2))
        merge("merge, modes ordered by paths", damaged, modes=u32(2) + key_bytes(("a!",)) + u8(2) + key_bytes(("a", "b")) + u8(2))
        merge("merge, draft 0", damaged, draft=0, plain=False)
        merge("merge, draft 2", illegal, draft=2, plain=False)

        def transplant(what, wanted, hashes, branch="dev", source="main", plain=True):
            result = {}

            def do(o):
                o.transplant(branch, None, source, hashes, lambda k: "NORMAL", False, False, 5, ())
                result["head"] = o.references[branch][1]
            if wanted is None:
                wanted, _ = state(do)
            last(what, wanted, 6, 3, text(branch) + none + text(source) + listed(hashes, hash_) + u8(0) + nomodes,
                 result.get("head", first))

        transplant("transplant", None, [first, second])
        transplant("transplant of one", None, [first])
        transplant("transplant of none", illegal, [])
        transplant("transplant of 101", illegal, [first] * 101)
        transplant("transplant of no ancestor", illegal, [NO_ANCESTOR])
        transplant("transplant, order", illegal, [second, first])
        transplant("transplant, nothing left to change", illegal, [second])
        transplant("transplant, no change", illegal, [first], branch="main")
        # A commit of nothing, with the head that it would have.
        empty = rules.Commit(second, None, 3, 5, plain_meta(), []).id()
        last("commit of nothing", illegal, 4, 3, text("main") + none + nothing + spelled([]), empty)
        last("commit of UNCHANGED", state(lambda o: o.commit("main", None, plain_meta(), [Operation("UNCHANGED", ("k",))], 5))[0], 4, 3, text("main") + none + nothing + spelled([Operation("UNCHANGED", ("k",))]), empty)
        # Sweeps.
        swept, _ = state(lambda o: o.sweep(4, ((rules.ALL,), []), [], [], 5))
        one, far = u8(1) + u32(1), 253402207201000000
        pairs = lambda *patterns: listed(patterns, lambda p: text(p) + one)

        def sweep(what, wanted, opened=4, default=one, given=pairs(), commits=(), contents=(), draft=0, more=b""):
            last("sweep, " + what, wanted, 7, draft, u32(opened) + default + given + listed(commits, hash_) + listed(contents, hash_) + more)

        other = sorted([first, second])
        for what, wanted, more in [
                ("opened here", swept, {}), ("opened at first", swept, {"opened": 0}), ("opened later", illegal, {"opened": 5}),
                ("all", swept, {"default": u8(0)}), ("no commit", damaged, {"default": u8(1) + u32(0)}), ("many", swept, {"default": u8(1) + u32(2 ** 32 - 1)}),
                ("since 1970", swept, {"default": u8(2) + u64(0)}), ("since the last moment", swept, {"default": u8(2) + u64(far - 1)}),
                ("since a later one", damaged, {"default": u8(2) + u64(far)}), ("no such cutoff", damaged, {"default": u8(3)}),
                ("patterns", swept, {"given": pairs("main", "d*", "*", "*")}), ("no pattern", damaged, {"given": pairs("")}),
                ("two stars", damaged, {"given": pairs("**")}), ("a star within", damaged, {"given": pairs("a*b")}), ("a blank", damaged, {"given": pairs("a b*")}),
                ("1,000 patterns", swept, {"given": pairs(*["m*"] * 1000)}), ("1,001 patterns", illegal, {"given": pairs(*["m*"] * 1001)}),
                ("commits", swept, {"commits": other}), ("no ancestor", swept, {"commits": [NO_ANCESTOR]}), ("an unknown commit", illegal, {"commits": [bytes(32)]}),
                ("commits' order", damaged, {"commits": other[::-1]}), ("a commit twice", damaged, {"commits": [first, first]}),
                ("any content", swept, {"contents": [bytes(32), b"\1" * 32]}), ("contents' order", damaged, {"contents": [b"\1" * 32, bytes(32)]}),
                ("a content twice", damaged, {"contents": [bytes(32)] * 2}), ("a draft", damaged, {"draft": 3}), ("a head", damaged, {"more": second})]:
            sweep(what, wanted, **more)
        # The first damage comes before an illegal entry, wherever that stands.
        self.opened_as("damage after an illegal entry", journal.written([whole[1]] + whole + [b"\x09"]),
                       damaged_at(len(journal.written([whole[1]] + whole)) - 1))
        self.opened_as("the same entry twice", journal.written(whole + whole[-1:]), illegal)
        self.opened_as("no first entry", journal.written(whole[1:]), b"nessie: illegal entry 1\n")
        self.opened_as("an empty payload", journal.written(whole[:1] + [b""]), damaged_at(len(journal.written(whole[:1])) - 1))
        self.end()

    def run(self, name):
        folder = tempfile.mkdtemp(prefix="oracle-")
        try:
            self.begin(name, os.path.join(folder, "j"))
            getattr(self, "row_" + name)()
            if not self.unopened:
                self.files(1, self.c, self.path)
        except compare.Stopped as e:
            self.difference((name, "stopped"), None, self.request, None, str(e))
        finally:
            self.program.kill()
            shutil.rmtree(folder, ignore_errors=True)
            self.sessions += 1

    def count(self, kind, side):
        super().count(kind, side)
        if len(self.c.log) == len(self.lines):
            self.lines.append(compare.line_of(self.c))
        if len(self.c.bases) > len(self.bases):
            self.bases.append((len(self.c.log), journal.checkpoint(self.c)))


def main():
    parser = argparse.ArgumentParser()
    parser.add_argument("--program", default=os.path.join(
        os.path.dirname(os.path.abspath(__file__)), "../crates/nessie/out/nessie"))
    parser.add_argument("--record", help="a file that requests and replies are kept in, for sensitivity.py")
    parser.add_argument("rows", nargs="*")
    parser.set_defaults(serve=False)
    options = parser.parse_args()
    options.program = os.path.abspath(options.program)
    row = Row(options)
    for name in options.rows or [n[4:] for n in dir(Row) if n.startswith("row_")]:
        print("-- " + name, flush=True)
        row.run(name)
    row.report()
    row.keep_record()
    return 1 if row.differences else 0


if __name__ == "__main__":
    sys.exit(main())
