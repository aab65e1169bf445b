"""Random requests, chosen by what the catalogue holds so that all outcomes are frequent."""

import copy
import json

from catalogue import (
    BRANCH, TAG, ICEBERG_TABLE, ICEBERG_VIEW, DELTA_LAKE_TABLE, NAMESPACE, UDF, NORMAL, FORCE, DROP,
    ALL, COMMITS, SINCE, NO_ANCESTOR, is_child, key_path)
from instants import GREATEST
from replies import write_instant, write_uuid

KEYS = [("a",), ("b",), ("a", "b"), ("a", "b", "c"), ("a.b",), ("a.b", "c"), ("a", "b.c"), ("t",),
        ("n",), ("n", "t"), ("n", "\u00e9 x"), ("n", "m"), ("n", "m", "t%2E"), ("t0",), ("T",), ("a!",),
        ("\uffee",), ("\U0001f600",)]
NAMES = ["main", "dev", "rel/1.0", "Rel", "w-x_y"]
ABSENT_NAMES = ["none", "Main", "de", "dev2", "m" * 128]
PATTERNS = ["*", "m*", "main*", "d*", "dev*", "r*", "R*", "rel/*", "rel/1.*", "w-x_y*", "z.*", "m" * 128 + "*"]
BAD_NAMES = ["1a", "a..b", "a.", "a/", "", "-a", "a b", "m" * 129, "\u00e9", "a%", "-"]
TEXTS = ["m1", "m2", "", "s3://x/\u00e9.json", "q\"\\\n\x7f", "\U0001f600", "nul\x00"]
JUNK = [None, True, False, 0, 1, -1, 1.5, "", "x", "a", [], {}, ["a"], [1], {"a": 1}, [None],
        {"elements": ["a"]}, "BRANCH", "PUT", "NORMAL"]
NUMBERS = ["0", "1", "-1", "2147483647", "-2147483648", "2147483648", "9223372036854775807",
           "-9223372036854775808", "9223372036854775808", "-9223372036854775809", "1.0", "1e2",
           "-0", "18446744073709551616", "null", "\"1\"", "true", "1E0", "123456789012345678901234"]
INSTANTS = ["2024-02-03T04:05:06.1234567Z", "2024-02-29T23:59:60Z", "2023-02-29T00:00:00Z",
            "1970-01-01T00:00:00Z", "1969-12-31T23:59:59.999999Z", "1970-01-01T01:00:00+01:00",
            "1970-01-01T00:59:59+01:00", "2024-02-03 04:05:06+05:30", "2024-02-03t04:05z",
            "2024-02-03T04:05:06", "2024-13-01T00:00:00Z", "", "x", "2024-02-03T24:00:00Z",
            "9999-12-30T22:00:00.999999Z", "9999-12-31T23:59:59Z", "2024-02-03T04:05:06,5-00:00",
            "2024-02-03T04:05:06.1234567890Z", "2000-02-29T12:00:00.000001-11:59",
            "2024-02-03T04:05:61Z", "2024-04-31T00:00:00Z", "2024-02-03", " 2024-02-03T04:05:06Z"]

DURATIONS = ["PT0S", "PT0.02S", "PT0.1S", "PT0.3S", "PT1S", "PT0,05s", "PT2.5S", "P0D", "P1D", "P1W", "PT0.0001H", "PT0H0M0.2S",
             "P0Y", "P0Y0M0W0DT0.4S", "P1DT1S", "PT0.000001M", "P7304484D"]
BAD_CUTOFFS = ["", "0", "0000000000", "4294967296", "00000000001", "00000000002", "00000000009", "04294967295", "-1", "+1", "1 ", " 1", "1.0", "0x1", "NONE ", "none.", "all", "P",
               "PT", "P1M", "P1Y", "P1Y2D", "P1D1W", "P1D1D", "P1DT", "p1d", "-P1D", "+P1D", "P-1D", "PT1.5H2M", "P1.5D", "P7304485D",
               "PT0.1234567891S", "PT1", "P1", "PT1D", "P1H", "PT.5S", "1 day", "PT1S ", "\u0661"]


class Raw:
    """JSON text that is written as it stands."""

    def __init__(self, text):
        self.text = text


class Pairs:
    """An object by its pairs, so that members can come twice."""

    def __init__(self, pairs):
        self.pairs = pairs


class Requests:
    def __init__(self, rng, catalogue, sweeping=False, checkpointing=False):
        self.rng = rng
        self.c = catalogue
        # Contents are removed meanwhile, so older commits are merged more often.
        self.sweeping = sweeping
        # States are written into the journal meanwhile.
        self.checkpointing = checkpointing
        # In some sessions branches mostly grow and are merged into each other, also from older commits.
        self.merging = rng.random() < 0.35
        # Whether policies may ask for durations, which depend on the moment of the call.
        self.durations = True

    def chance(self, p):
        return self.rng.random() < p

    def pick(self, items):
        return self.rng.choice(items)

    def weighted(self, pairs):
        return self.rng.choices([p[0] for p in pairs], [p[1] for p in pairs])[0]

    # Parts of requests.

    def name(self):
        r = self.rng.random()
        if r < 0.93:
            return self.pick(sorted(self.c.references))
        return self.pick(ABSENT_NAMES)

    def branch_name(self):
        branches = sorted(n for n, v in self.c.references.items() if v[0] == BRANCH)
        return self.pick(branches) if self.chance(0.91) else self.name()

    def hash_for(self, name, head=0.4):
        """A hash, on the chain of the reference or not, as bytes."""
        own = self.c.references.get(name)
        r = self.rng.random()
        if own is not None and r < head:
            return own[1]
        if own is not None and r < 0.82:
            return self.pick(self.c.chain(own[1])[:8])
        if r < 0.87:
            return NO_ANCESTOR
        if r < 0.95 and self.c.commits:
            return self.pick(list(self.c.commits)[-40:])
        return bytes(self.rng.randrange(256) for _ in range(32))

    def hex(self, h):
        s = h.hex()
        return s.upper() if self.chance(0.05) else s

    def bad_hash(self):
        return self.pick(["", "0", "g" * 64, "a" * 63, "a" * 65, "a" * 32, " " + "a" * 63])

    def escaped(self, s, plain=0.9):
        out = ""
        for b in s.encode("utf-8"):
            c = chr(b)
            if c.isalnum() and b < 128 and self.chance(plain) or c in "._-@" and self.chance(0.9):
                out += c
            else:
                out += ("%%%02X" if self.chance(0.5) else "%%%02x") % b
        return out

    def reference(self, changing=False, hash_chance=0.35, back_chance=0.2):
        """A reference in a path, as it is sent."""
        r = self.rng.random()
        if r < 0.02:
            return self.escaped(self.pick(BAD_NAMES)) or "%20"
        if r < 0.03:
            return self.pick(["main@", "@", "main@@" + "a" * 64, "%FF", "main%", "a%2", "\u00e9",
                              "main@" + self.escaped(self.bad_hash()), "@" + self.escaped(self.bad_hash()), "-@", "--",
                              "%6Dain", "main%00", "-@" + "a" * 64 + "~1", "*"])
        name = self.branch_name() if changing else self.name()
        shown = "-" if name == "main" and self.chance(0.3) else name
        out = self.escaped(shown)
        if self.chance(hash_chance):
            out += self.pick(["@", "@", "%40"]) + self.hex(self.hash_for(name))
        elif self.chance(0.12 if not changing else 0.02):
            out = "@" + self.hex(self.hash_for(name))
        if self.chance(back_chance if not changing else 0.02):
            out += self.pick(["~", "~", "%7E"]) + self.back()
        return out

    def back(self):
        """How many commits back, as it is sent."""
        if self.chance(0.9):
            return self.pick(["0", "1", "1", "2", "2", "3", "5", "9", "02", "0000000001"])
        return self.pick(["", "-1", "+1", "1.", "x", "1~1", "1@" + "a" * 64, "00000000001", "4294967295", "4294967296",
                          "9999999999", "18446744073709551617", "\u0661"])

    def path_key(self, key=None):
        if key is None:
            key = self.pick(KEYS)
        s = key_path(key)
        if self.chance(0.1):
            s = s.replace("\x1d", "\x00")
        return self.escaped(s)

    def bad_path_key(self):
        return self.pick(["a..b", ".", "a.", ".a", "%01", "a%1F", "%FF", ".".join("x" * 21),
                          "x" * 501, "%", "a%zz", ".".join("x" * 20), "x" * 500, "a%0Ab", "a+b",
                          "%C3%A9", "\u00e9", "a%2Eb", "a%1db", "%1D", "%00"])

    def key_json(self, key):
        return {"elements": list(key)}

    def bad_key_json(self):
        return self.pick([{"elements": []}, {"elements": [""]}, {"elements": ["x"] * 21},
                          {"elements": ["x"] * 20}, {"elements": ["x" * 501]},
                          {"elements": ["x" * 500]}, {"elements": ["a\x1d"]}, {"elements": ["\x00"]},
                          {"elements": ["a", 1]}, {"elements": "a"}, {"elements": None}, {}, None,
                          "a", ["a"], {"elements": ["a", None]}, {"elements": ["\x7f"]},
                          {"elements": ["x" * 249, "y" * 250]}, {"elements": ["x" * 250, "y" * 250]},
                          {"elements": ["\u00e9" * 250]}, {"elements": ["\u00e9" * 251]}])

    def number(self):
        return Raw(self.pick(NUMBERS)) if self.chance(0.03) else self.rng.randrange(3)

    def content(self, kind, key, content_id):
        t = lambda: self.pick(TEXTS[:3]) if self.chance(0.9) else self.pick(TEXTS)
        out = {"type": kind}
        if kind == ICEBERG_TABLE:
            out["metadataLocation"] = t()
            for name in ("snapshotId", "schemaId", "specId", "sortOrderId"):
                if self.chance(0.6):
                    out[name] = self.number()
        elif kind == ICEBERG_VIEW:
            out["metadataLocation"] = t()
            for name in ("versionId", "schemaId"):
                if self.chance(0.6):
                    out[name] = self.number()
            if self.chance(0.2):
                out["sqlText"] = self.pick(JUNK)
        elif kind == DELTA_LAKE_TABLE:
            for name in ("metadataLocationHistory", "checkpointLocationHistory"):
                if self.chance(0.6):
                    out[name] = [t() for _ in range(self.rng.randrange(3))]
            if self.chance(0.5):
                out["lastCheckpoint"] = self.pick([t(), None])
        elif kind == NAMESPACE:
            out["elements"] = list(key) if self.chance(0.985) else self.pick([["z"], [], list(key) + ["z"]])
            if self.chance(0.5):
                out["properties"] = {t(): t() for _ in range(self.rng.randrange(3))}
        elif kind == UDF:
            for name in ("metadataLocation", "versionId", "signatureId"):
                if self.chance(0.99):
                    out[name] = t()
        if content_id is not None:
            out["id"] = content_id
        elif self.chance(0.1):
            out["id"] = None
        if self.chance(0.03):
            out["metadata"] = self.pick(JUNK)
        return out

    def id_text(self, content_id):
        s = write_uuid(content_id)
        if self.chance(0.93):
            return s
        return self.pick([s.upper(), s.replace("-", ""), "{" + s + "}", "urn:uuid:" + s, s[:-1],
                          s + "0", "", "URN:UUID:" + s, "{" + s.replace("-", "") + "}", "{" + s])

    def random_id(self):
        if self.chance(0.5):
            return bytes(7) + bytes((self.rng.randrange(1, 30),)) + bytes(8)
        return bytes(self.rng.randrange(256) for _ in range(16))

    def meta(self, needed=True):
        out = {}
        if needed or self.chance(0.5):
            out["message"] = self.pick(TEXTS)
        if self.chance(0.3):
            out["authors"] = [self.pick(TEXTS) for _ in range(self.rng.randrange(3))]
        if self.chance(0.2):
            out["allSignedOffBy"] = [self.pick(TEXTS) for _ in range(self.rng.randrange(3))]
        if self.chance(0.3):
            out["allProperties"] = {self.pick(TEXTS + ["z", "B"]):
                                    [self.pick(TEXTS) for _ in range(self.rng.randrange(3))]
                                    for _ in range(self.rng.randrange(4))}
        if self.chance(0.25):
            out["authorTime"] = (self.pick(INSTANTS) if self.chance(0.4)
                                 else "20%02d-03-04T05:06:07.%dZ" % (self.rng.randrange(100),
                                                                     self.rng.randrange(10 ** 6)))
        return out

    # Bodies.

    def operations(self, entries):
        """Operations that are often accepted on a map with these entries."""
        ops, used = [], set()
        now = dict(entries)
        careful = self.chance(0.72)
        count = self.weighted([(1, 6), (2, 4), (3, 3), (5, 2), (9, 1)])
        for _ in range(count):
            key = self.pick(KEYS)
            if key in used:
                continue
            if careful and len(key) > 1 and key not in now:
                # Give the key its namespaces, where that can be.
                for i in range(1, len(key)):
                    front = key[:i]
                    if front not in now and front not in used:
                        ops.append({"type": "PUT", "key": self.key_json(front),
                                    "content": self.content(NAMESPACE, front, None)})
                        used.add(front)
                        now[front] = (NAMESPACE, None, None)
                if now.get(key[:-1], ("",))[0] != NAMESPACE:
                    continue
            used.add(key)
            there = now.get(key)
            if there is not None and there[1] is None:
                continue
            what = self.weighted([("PUT", 6), ("DELETE", 2 if there else 0.6), ("UNCHANGED", 1)])
            if careful and what == "DELETE" and (there is None or any(is_child(k, key) for k in now)):
                what = "PUT"
            op = {"type": what, "key": self.key_json(key)}
            if what == "PUT":
                kind = self.weighted([(ICEBERG_TABLE, 5), (ICEBERG_VIEW, 2), (DELTA_LAKE_TABLE, 2), (UDF, 2),
                                      (NAMESPACE, 5 if len(key) < 3 else 1)])
                given = None
                if there is not None and (careful or self.chance(0.7)):
                    if careful or self.chance(0.8):
                        kind = there[0]
                    given = self.id_text(there[1] if careful or self.chance(0.85) else self.random_id())
                elif not careful and self.chance(0.25):
                    given = self.id_text(self.random_id())
                op["content"] = self.content(kind, key, given)
                now[key] = (kind, None, None)
            elif what == "DELETE":
                now.pop(key, None)
                if self.chance(0.05):
                    op["content"] = self.pick(JUNK)
                if there is not None and self.chance(0.5):
                    # A rename, or nearly one.
                    new = self.pick(KEYS)
                    if new not in used and new not in now:
                        used.add(new)
                        kind = there[0] if self.chance(0.9) else self.pick(
                            [ICEBERG_TABLE, ICEBERG_VIEW, DELTA_LAKE_TABLE, NAMESPACE, UDF])
                        ops.append({"type": "PUT", "key": self.key_json(new),
                                    "content": self.content(kind, new, write_uuid(there[1]))})
                        now[new] = (kind, None, None)
            ops.append(op)
        if self.chance(0.05):
            # A key with all below it.
            top = self.pick(KEYS)
            for key in entries:
                if key not in used and (key == top or is_child(key, top)) and self.chance(0.95):
                    used.add(key)
                    ops.append({"type": "DELETE", "key": self.key_json(key)})
        given = [o for o in ops if o.get("content") and isinstance(o["content"], dict) and o["content"].get("id")]
        if len(given) > 1 and self.chance(0.06):
            given[0]["content"]["id"] = given[1]["content"]["id"]
        if not ops:
            ops.append({"type": "UNCHANGED", "key": self.key_json(self.pick(KEYS))})
        if self.chance(0.02):
            ops.append(copy.deepcopy(self.pick(ops)))
        self.rng.shuffle(ops)
        return ops

    def commit_body(self, name):
        own = self.c.references.get(name)
        entries = self.c.entries(own[1]) if own else {}
        return {"commitMeta": self.meta(), "operations": self.operations(entries)}

    def expired(self):
        """A reference, a commit of its chain and a key whose content is gone, where a few tries find one."""
        for _ in range(5 if self.sweeping else 0):
            name = self.pick(sorted(self.c.references))
            at = self.pick(self.c.chain(self.c.references[name][1]))
            gone = [key for key, entry in self.c.entries(at).items() if entry[2] not in self.c.contents]
            if gone:
                return name, at, self.pick(gone)

    def source(self):
        r = self.rng.random()
        if r < 0.2:
            found = self.expired() if self.chance(0.6) else None
            out = {"type": "DETACHED", "hash": self.hex(found[1] if found else self.hash_for(self.name()))}
            if self.chance(0.1):
                out["name"] = self.pick(JUNK)
            return out
        name = self.name()
        own = self.c.references.get(name)
        kind = own[0] if own and self.chance(0.93) else self.pick([BRANCH, TAG])
        out = {"type": kind, "name": name if self.chance(0.98) else self.pick(BAD_NAMES)}
        if self.chance(0.5):
            out["hash"] = self.hex(self.hash_for(name, 0.2))
        elif self.chance(0.1):
            out["hash"] = None
        return out

    def modes_of(self, out):
        if self.chance(0.6):
            out["defaultKeyMergeMode"] = self.pick([NORMAL, FORCE, FORCE, DROP])
        if self.chance(0.4):
            keys = self.rng.sample(KEYS, self.rng.randrange(5))
            out["keyMergeModes"] = [{"key": self.key_json(k),
                                     "mergeBehavior": self.pick([NORMAL, FORCE, DROP])} for k in keys]
            if keys and self.chance(0.04):
                out["keyMergeModes"].append(self.pick(out["keyMergeModes"]))
            for mode in out["keyMergeModes"]:
                if self.chance(0.03):
                    mode["expectedTargetContent"] = self.pick([None, {}, 1])
                if self.chance(0.03):
                    mode["resolvedContent"] = self.pick([None, {}, "x"])
        for flag, p in (("dryRun", 0.15), ("returnConflictAsResult", 0.3)):
            if self.chance(p):
                out[flag] = self.weighted([(True, 8), (False, 2), (None, 1)])
        if self.chance(0.05):
            out["fetchAdditionalInfo"] = self.pick(JUNK)
        return out

    def merge_body(self):
        name = self.name()
        out = {"fromRefName": name, "fromHash": self.hex(self.hash_for(name, 0.15 if self.sweeping else 0.35 if self.merging else 0.6))}
        found = self.expired() if self.chance(0.2) else None
        if found:
            out = {"fromRefName": found[0], "fromHash": self.hex(found[1])}
        if self.chance(0.02):
            out.update(self.pick([{"fromRefName": self.pick(BAD_NAMES)}, {"fromHash": self.bad_hash()}]))
        if self.chance(0.3):
            out["commitMeta"] = self.meta(False)
        if self.chance(0.3):
            out["message"] = self.pick(TEXTS)
        return self.modes_of(out)

    def transplant_body(self):
        name = self.name()
        own = self.c.references.get(name)
        hashes = []
        if own is not None:
            chain = self.c.chain(own[1])[:-1]
            if chain:
                count = min(len(chain), self.weighted([(1, 5), (2, 4), (3, 2), (6, 1)]))
                first = self.rng.randrange(min(len(chain) - count + 1, 12))
                hashes = [self.hex(h) for h in reversed(chain[first:first + count])]
        r = self.rng.random()
        if r < 0.06 and len(hashes) > 1:
            self.rng.shuffle(hashes)
        elif r < 0.1 and len(hashes) > 2:
            del hashes[1]
        elif r < 0.14:
            hashes.insert(self.rng.randrange(len(hashes) + 1), self.hex(self.hash_for(name, 0.1)))
        elif r < 0.15:
            hashes = self.pick([hashes + [NO_ANCESTOR.hex()], [NO_ANCESTOR.hex()] + hashes])
        elif r < 0.16 and hashes:
            hashes.append(hashes[0])
        elif r < 0.165:
            hashes = hashes[:1] * self.pick([100, 101])
        out = {"fromRefName": name if self.chance(0.98) else self.pick(BAD_NAMES), "hashesToTransplant": hashes}
        if self.chance(0.01):
            hashes.append(self.bad_hash())
        if self.chance(0.1):
            out["message"] = self.pick(JUNK)
        if self.chance(0.1):
            out["commitMeta"] = self.pick(JUNK)
        return self.modes_of(out)

    # Bodies' bytes.

    def spoiled(self, value):
        """The value with one place of it changed."""
        places = []

        def walk(v, put):
            places.append((v, put))
            if isinstance(v, dict):
                for k in v:
                    walk(v[k], lambda n, v=v, k=k: v.__setitem__(k, n))
            elif isinstance(v, list):
                for i in range(len(v)):
                    walk(v[i], lambda n, v=v, i=i: v.__setitem__(i, n))

        box = [json.loads(json.dumps(value, default=lambda r: 1))]
        walk(box[0], lambda n: box.__setitem__(0, n))
        v, put = self.pick(places)
        r = self.rng.random()
        if isinstance(v, dict) and v and r < 0.35:
            del v[self.pick(list(v))]
        elif isinstance(v, dict) and r < 0.5:
            v["elements" if self.chance(0.3) else "extra"] = self.pick(JUNK)
        elif isinstance(v, dict) and "elements" in v and r < 0.8:
            put(self.bad_key_json())
        elif isinstance(v, dict) and v and r < 0.7:
            pairs = list(v.items())
            twice = self.pick(pairs)
            pairs.insert(self.rng.randrange(len(pairs) + 1), (twice[0], self.pick(JUNK)))
            put(Pairs(pairs))
        elif isinstance(v, (int, float)) and not isinstance(v, bool) and r < 0.7:
            put(Raw(self.pick(NUMBERS)))
        elif isinstance(v, str) and r < 0.3:
            put(self.pick([v + " ", v.lower(), v.upper(), " " + v, v + "\x00"]))
        elif isinstance(v, list) and v and r < 0.3:
            v.append(self.pick(v))
        elif isinstance(v, list) and v and r < 0.5:
            del v[:]
        else:
            put(self.pick(JUNK))
        return box[0]

    def json_text(self, v):
        if isinstance(v, Raw):
            return v.text
        space = lambda: self.pick([" ", "\n", "\t", "\r"]) if self.chance(0.03) else ""
        if isinstance(v, (dict, Pairs)):
            pairs = list(v.items()) if isinstance(v, dict) else v.pairs
            if isinstance(v, dict) and self.chance(0.3):
                self.rng.shuffle(pairs)
            return "{" + ",".join(space() + self.json_text(k) + space() + ":" + space()
                                  + self.json_text(w) + space() for k, w in pairs) + "}"
        if isinstance(v, list):
            return "[" + ",".join(space() + self.json_text(w) + space() for w in v) + "]"
        return json.dumps(v, ensure_ascii=self.chance(0.5))

    def body_bytes(self, value):
        r = self.rng.random()
        if r < 0.17:
            value = self.spoiled(value)
            if self.chance(0.2):
                value = self.spoiled(value) if not _has_pairs(value) else value
        out = self.json_text(value).encode("utf-8", "surrogatepass")
        if r > 0.975:
            out = self.pick([
                out[:-1], out + b"}", out + b" x", b"", b" ", b"null", b"[]", b"{}", b"\xef\xbb\xbf" + out,
                out.replace(b'"', b"'"), out.replace(b":", b":\x0b", 1), out + b"\x00",
                out[:-1] + b',"z":"\xff"}', out[:-1] + b',"z":"\\ud800"}', out[:-1] + b',"z":NaN}',
                out[:-1] + b',"z":01}', out[:-1] + b',"z":+1}', out[:-1] + b',"z":.5}',
                out[:-1] + b',"z":1.}', out[:-1] + b',"z":"\x01"}', out[:-1] + b',"z":"\\x"}',
                out[:-1] + b',}', out[:-1] + b',"z":' + b"[" * 126 + b"]" * 126 + b"}",
                out[:-1] + b',"z":' + b"[" * 127 + b"]" * 127 + b"}",
                out[:-1] + b',"z":1e400}', out[:-1] + b',"z":1e-400}', out[:-1] + b',"z":"\\ud83d\\ude00"}',
                out[:-1] + b',"\\u007a":"\\/"}', out + out, b"// x\n" + out])
        return out

    # Sweeps.

    def cutoff(self):
        r = self.rng.random()
        if r < 0.1:
            return (ALL,)
        if r < 0.75:
            return COMMITS, self.pick([1, 1, 1, 1, 2, 2, 3, 6, (1 << 32) - 1])
        times = [c.time for c in self.c.commits.values()][-10:] + [0, GREATEST - 1]
        return SINCE, self.pick(times) + self.pick([0, 0, 1])

    def pattern(self):
        if self.chance(0.6):
            return self.pick(sorted(self.c.references)) + self.pick(["", "*"])
        return self.pick(NAMES + PATTERNS + ABSENT_NAMES)

    def some_hashes(self, known):
        out = self.rng.sample(known, min(len(known), self.weighted([(0, 12), (1, 5), (2, 2), (5, 1)])))
        return sorted(out)

    def sweep(self):
        """A sweep that may be logged: where it was opened, its policy, the commits and the contents that it names."""
        c = self.c
        # A journal is opened at its last checkpoint, and no sweep is older.
        least = c.first + (c.bases[-1] if c.bases else 0)
        opened = self.weighted([(c.place, 5), (max(c.place - self.rng.randrange(8), least), 3),
                                (self.rng.randrange(least, c.place + 1), 1)])
        patterns = [(self.pattern(), self.cutoff()) for _ in range(self.weighted([(0, 4), (1, 3), (2, 2), (4, 1)]))]
        seen = {e[2] for commit in c.commits.values() for _, e in commit.ops if e is not None}
        commits = self.some_hashes(sorted(c.commits)[-40:] + [NO_ANCESTOR])
        return opened, (self.cutoff(), patterns), commits, self.some_hashes(sorted(seen) + [bytes(32)])

    def cutoff_text(self):
        """A cutoff as it is asked for."""
        r = self.rng.random()
        if r < 0.1:
            return self.pick(["NONE", "NONE", "none", "NonE"])
        if r < 0.55:
            return self.pick(["1", "1", "1", "2", "2", "3", "6", "0000000001", "4294967295"])
        if r < 0.7 and self.durations:
            return self.pick(DURATIONS)
        if r < 0.86:
            times = [c.time for c in self.c.commits.values()][-10:] + [0, GREATEST - 1]
            s = write_instant(self.pick(times) + self.pick([0, 0, 1]))
            return self.pick([s, s, s[:-1] + "+00:00", s.replace("T", " "), s[:-1] + "9z"])
        return self.pick(BAD_CUTOFFS if r < 0.97 else INSTANTS)

    def pattern_text(self):
        if self.chance(0.97):
            return self.pattern()
        return self.pick(BAD_NAMES + ["**", "a*b", "*a", "1*", "a..*", "a.*", "a/*", "m" * 129 + "*", "\u00e9*", "a *"])

    def some_rules(self):
        return [(self.pattern_text(), self.cutoff_text()) for _ in range(self.weighted([(0, 5), (1, 3), (2, 2), (4, 1)]))]

    def policy_body(self):
        out = {}
        if self.chance(0.85):
            out["defaultCutoff"] = self.cutoff_text()
        elif self.chance(0.3):
            out["defaultCutoff"] = None
        rules = self.some_rules()
        if rules or self.chance(0.4):
            out["cutoffs"] = [{"pattern": p, "cutoff": c} for p, c in rules]
            if rules and self.chance(0.04):
                out["cutoffs"] = self.pick([1000, 1001]) * out["cutoffs"][:1]
        elif self.chance(0.2):
            out["cutoffs"] = None
        return out

    def policy_words(self):
        """What follows the journal's name among the words of `gc`."""
        out = [self.cutoff_text()] + [p + "=" + c for p, c in self.some_rules()]
        if self.chance(0.03):
            out.append(self.pick(["main", "", "=", "=1", "main=", "main=1=1", "main=1,dev=1", "help", "main =1"]))
        return out

    # Whole requests: method, target, fields, body.

    def query(self, pairs):
        pairs = list(pairs)
        if self.chance(0.08):
            pairs.insert(self.rng.randrange(len(pairs) + 1), self.pick(
                [("filter", "x"), ("x", ""), ("with-doc", "true"), ("content", "1"), ("", ""),
                 ("type", self.pick(["BRANCH", "TAG", "x"])), ("max-records", "1"), ("key", "a")]))
        if pairs and self.chance(0.04):
            k = self.pick(pairs)[0]
            pairs.append((k, self.pick(["", "1", "a", "BRANCH", "x"])))
        out = []
        for k, v in pairs:
            s = self.escaped(k, 0.98) + "="
            if v == "" and self.chance(0.3):
                s = s[:-1]
            for c in v:
                s += "+" if c == " " and self.chance(0.5) else self.escaped(c)
            out.append(s)
        s = "&".join(out)
        if self.chance(0.02):
            s = self.pick(["&" + s, s + "&", s.replace("&", "&&"), s + "&%FF=%FF", s + "&=", s + "?x"])
        return "?" + s if s or self.chance(0.02) else ""

    def page_size(self):
        r = self.rng.random()
        if r < 0.4:
            return []
        if r < 0.9:
            return [("max-records", str(self.rng.randrange(1, 5)))]
        return [("max-records", self.pick(["0", "1000", "1001", "99999999999999999999999", "", "-1",
                                           "+1", "1 ", " 1", "a", "1.0", "00", "007", "\u0661"]))]

    def get(self, target):
        return "GET", target, [], b""

    def a_config(self):
        return self.get("/api/v2/config" + self.query([]))

    def a_list(self):
        q = self.page_size()
        if self.chance(0.4):
            q.append(("page-token", self.pick(
                ["r." + self.name(), "r.a", "r.zz", "r.", "r.-", "", "x", "e.main", "R.main", "r.main.",
                 "r." + self.pick(BAD_NAMES)]) if self.chance(0.5) else "r." + self.name()))
        return self.get("/api/v2/trees" + self.query(q))

    def a_get(self):
        return self.get("/api/v2/trees/" + self.reference() + self.query([]))

    def some_key(self):
        return key_path(self.pick(KEYS)) if self.chance(0.96) else self.pick(
            ["", ".", "a..b", "\x01", "x" * 501, "zz", "0", "a.", "A"])

    def an_entries(self):
        q = self.page_size()
        for what, p in (("min-key", 0.2), ("max-key", 0.2), ("prefix-key", 0.2)):
            if self.chance(p):
                q.append((what, self.some_key()))
        if self.chance(0.2):
            q += [("key", self.some_key()) for _ in range(self.rng.randrange(1, 5))]
        if self.chance(0.35):
            h = self.hash_for(self.name()).hex()
            q.append(("page-token", "e.%s.%s" % (h, self.some_key()) if self.chance(0.9) else self.pick(
                ["e.", "e." + h, "e." + h + ".", "h." + h, "e." + h + "a", "e." + h.upper() + ".a",
                 "E." + h + ".a", "e." + h[:-1] + ".a", "e." + h + "..a", "e" + h + ".a"])))
        self.rng.shuffle(q)
        return self.get("/api/v2/trees/" + self.reference() + "/entries" + self.query(q))

    def a_history(self):
        q = self.page_size()
        name = self.name()
        if self.chance(0.4):
            q.append(("fetch", self.weighted([("ALL", 10), ("MINIMAL", 4), ("all", 1), ("", 1)])))
        if self.chance(0.3):
            q.append(("limit-hash", self.hex(self.hash_for(name, 0.1)) if self.chance(0.93) else self.bad_hash()))
        if self.chance(0.35):
            h = self.hash_for(self.name()).hex()
            q.append(("page-token", "h." + h if self.chance(0.9) else self.pick(
                ["h.", "h." + h[1:], "h." + h.upper(), "e." + h + ".a", "", h, "h." + h + "."])))
        self.rng.shuffle(q)
        where = self.reference()
        if self.chance(0.5):
            where = self.escaped(name)
        return self.get("/api/v2/trees/" + where + "/history" + self.query(q))

    def a_contents(self):
        where = "/api/v2/trees/" + self.reference() + "/contents"
        if self.chance(0.5):
            q = [("key", self.some_key()) for _ in range(self.rng.randrange(5))]
            return self.get(where + self.query(q))
        keys = [self.key_json(self.pick(KEYS)) for _ in range(self.rng.randrange(5))]
        return "POST", where, [], self.body_bytes({"requestedKeys": keys})

    def a_content(self):
        found = self.expired() if self.chance(0.4) else None
        if found:
            where, key = self.escaped(found[0]) + "@" + self.hex(found[1]), self.path_key(found[2])
        else:
            where, key = self.reference(), self.path_key() if self.chance(0.93) else self.bad_path_key()
        return self.get("/api/v2/trees/%s/contents/%s" % (where, key) + self.query([]))

    def a_create(self):
        free = [n for n in NAMES if n not in self.c.references]
        name = self.pick(free) if free and self.chance(0.6) else self.name()
        if self.chance(0.05):
            name = self.pick(BAD_NAMES)
        q = [("name", name), ("type", self.weighted([("BRANCH", 8), ("TAG", 3), ("DETACHED", .3), ("", .3),
                                                     ("branch", .3)]))]
        if self.chance(0.03):
            del q[self.rng.randrange(2)]
        self.rng.shuffle(q)
        return "POST", "/api/v2/trees" + self.query(q), [], self.body_bytes(self.source())

    def of_kind(self, where):
        if self.chance(0.7):
            return []
        return [("type", self.weighted([(BRANCH, 6), (TAG, 3), ("DETACHED", 0.3), ("", 0.3)]))]

    def an_assign(self):
        where = self.reference(hash_chance=0.4, back_chance=0.02)
        return ("PUT", "/api/v2/trees/" + where + self.query(self.of_kind(where)), [],
                self.body_bytes(self.source()))

    def a_delete(self):
        where = self.reference(hash_chance=0.4, back_chance=0.02)
        body = b"" if self.chance(0.8) else self.pick([b"{}", b"x", b"\xff"])
        return "DELETE", "/api/v2/trees/" + where + self.query(self.of_kind(where)), [], body

    def a_commit(self):
        name = self.branch_name()
        where = self.escaped(name if name != "main" or self.chance(0.8) else "-")
        if self.chance(0.45):
            where += "@" + self.hex(self.hash_for(name))
        elif self.chance(0.05):
            where = self.reference(True)
        return ("POST", "/api/v2/trees/" + where + "/history/commit" + self.query([]), [],
                self.body_bytes(self.commit_body(name)))

    def a_merge(self):
        return ("POST", "/api/v2/trees/" + self.reference(True, 0.2) + "/history/merge" + self.query([]), [],
                self.body_bytes(self.merge_body()))

    def a_transplant(self):
        return ("POST", "/api/v2/trees/" + self.reference(True, 0.2) + "/history/transplant"
                + self.query([]), [], self.body_bytes(self.transplant_body()))

    def a_sweep(self):
        return "POST", "/gc/v1/sweep" + self.query([]), [], self.body_bytes(self.policy_body())

    def a_clearance(self):
        return "POST", "/gc/v1/sweep", [], b'{"defaultCutoff":"1"}'

    def a_checkpoint(self):
        return "POST", "/gc/v1/checkpoint" + self.query([]), [], self.pick([b"", b"", b"{}", b"{", b"x", self.body_bytes({})])

    def an_oddity(self):
        if self.chance(0.5):
            target = self.pick([
                "/", "/api", "/api/v2", "/api/v2/", "/api/v2/trees/", "/api/v2/config/", "/api/v1/trees",
                "/api/v2/%63onfig", "/api/v2/trees//entries", "/api/v2/trees/main/", "/gc/v1/sweep",
                "/gc/v1/sweep/", "/gc/v1/checkpoint/", "/gc/v1/checkpoints", "/gc/v1/", "/gc/v2/sweep", "/api/v2/gc/v1/sweep", "/gc/v1/Sweep", "/gc/v1/sweep?x",
                "/api/v2/trees/main/history/", "/api/v2/trees/main/diff", "/api/v2/Config", "*",
                "/api/v2/trees/main/contents/", "/api/v2/trees/main/contents/a/b", "//api/v2/config",
                "/api/v2/trees/rel/1.0", "http://h/api/v2/config", "/api/v2/config#x", "/api/v2/config?",
                "/api/v2/trees/main/history/squash", "/api/v2/trees/main/entries/x", "/repos/a/api/v2/trees",
                "/api/v2/trees/main/contents?", "/api/v2/./config", "/gc/v1/sets", "/api/v2/trees/main?x#y",
                "/api/v2/trees/main#y", "api/v2/config", "/api/v2/namespaces", "/api/v2/trees/main%2Fentries"])
            return self.pick(["GET", "GET", "POST", "PUT", "DELETE", "HEAD"]), target, [], b""
        target = self.pick([self.a_config, self.a_list, self.a_get, self.an_entries, self.a_history,
                            self.a_contents, self.a_content, self.a_create, self.a_commit, self.a_merge,
                            self.a_transplant, self.a_sweep] + [self.a_checkpoint] * self.checkpointing)()[1]
        method = self.pick(["GET", "POST", "PUT", "DELETE", "HEAD", "HEAD", "PATCH", "OPTIONS", "TRACE",
                            "get", "X-Y"])
        return method, target, [], b"" if self.chance(0.7) else b"{}"

    def one(self, kind=None):
        """A random request, of this kind where one is given: its kind, method, target, fields and body."""
        rare = 0.25 if self.merging else 1
        kind = kind or self.weighted([
            ("config", 1), ("list", 4 * rare), ("get", 3), ("entries", 10), ("history", 9), ("contents", 7 * rare),
            ("content", 6 * rare), ("create", 9 if rare == 1 or len(self.c.references) < 4 else 2), ("assign", 6 * rare),
            ("delete", 5 * rare), ("commit", 34), ("merge", 20 if rare == 1 else 45), ("transplant", 13 * rare),
            ("sweep", 4 if self.sweeping else 0.3), ("checkpoint", 2 if self.checkpointing else 0), ("oddity", 5 * rare)])
        method, target, fields, body = getattr(self, ("an_" if kind in ("entries", "assign", "oddity")
                                                      else "a_") + kind)()
        if self.chance(0.02):
            fields = fields + [("Content-Encoding", self.pick(
                ["identity", "Identity", "gzip", "", "identity, gzip", "br"]))]
            if self.chance(0.3):
                fields.append(("content-encoding", self.pick(["identity", "gzip"])))
        return kind, method, target.encode("utf-8"), fields, body

    def wire(self, method, target, fields, body, version="1.1"):
        """The request's bytes, in one of its forms."""
        lines = [method.encode() + b" " + target + b" HTTP/" + version.encode()]
        fields = list(fields)
        if self.chance(0.5):
            fields.append(("Host", "c"))
        if self.chance(0.1):
            fields.append(self.pick([("Content-Type", "text/plain"), ("Expect", "100-continue"),
                                     ("Accept", "x/y"), ("Connection", "keep-alive"), ("Accept-Encoding", "gzip"),
                                     ("X", ""), ("Connection", "closed"), ("If-Match", "x")]))
        sent = body
        if body and self.chance(0.1):
            fields.append((self.pick(["Transfer-Encoding", "transfer-encoding"]), self.pick(["chunked", "Chunked"])))
            sent = b""
            at = 0
            while at < len(body):
                n = self.rng.randrange(1, 60) if self.chance(0.8) else len(body)
                piece = body[at:at + n]
                sent += b"%x" % len(piece) if self.chance(0.5) else b"%X" % len(piece)
                if self.chance(0.1):
                    sent += b";ext=1"
                sent += b"\r\n" + piece + b"\r\n"
                at += n
            sent += b"0\r\n\r\n"
        elif body or self.chance(0.1):
            n = "%d" % len(body)
            if self.chance(0.03):
                n = "000" + n
            fields.append((self.pick(["Content-Length", "content-length", "CONTENT-LENGTH"]), n))
            if self.chance(0.02):
                fields.append(("Content-Length", n))
        self.rng.shuffle(fields)
        for n, v in fields:
            lines.append(n.encode() + self.pick([b": ", b":", b":  "]) + v.encode())
        out = b"\r\n".join(lines) + b"\r\n\r\n" + sent
        if self.chance(0.02):
            out = b"\r\n" * self.rng.randrange(1, 4) + out
        return out


def _has_pairs(v):
    if isinstance(v, (Pairs, Raw)):
        return True
    if isinstance(v, dict):
        return any(_has_pairs(w) for w in v.values())
    return isinstance(v, list) and any(_has_pairs(w) for w in v)
