"""Texts and bytes: requests and words read to what they want, replies as they are written.

`Session(catalogue).answer(request, moment)` takes one request of the bytes
(method, target, fields, body) and gives the reply's bytes.
"""

import json
import re

import instants
import policies

from catalogue import (
    BRANCH, TAG, ICEBERG_TABLE, ICEBERG_VIEW, DELTA_LAKE_TABLE, NAMESPACE, UDF, NORMAL, FORCE, DROP, MOST_PATTERNS,
    NO_ANCESTOR, DEFAULT_BRANCH, Operation, Refused, bad, key_order, key_path)
from journal import checkpoint, payload

STATUS = {
    "BAD_REQUEST": 400, "REFERENCE_NOT_FOUND": 404, "REFERENCE_ALREADY_EXISTS": 409,
    "CONTENT_NOT_FOUND": 404, "REFERENCE_CONFLICT": 409, "EXPIRED": 409, "SWEEP_OPEN": 409, "LIMIT": 409, "OLD_FORMAT": 409,
    "COLLISION": 500,
    "FAULT": 503, "DOWN": 503, "NO_MEMORY": 507, "NO_ROUTE": 404, "WRONG_METHOD": 405,
    "TOO_LARGE": 413, "ENCODING": 415,
}
PHRASES = {
    200: "OK", 400: "Bad Request", 404: "Not Found", 405: "Method Not Allowed", 409: "Conflict",
    413: "Payload Too Large", 415: "Unsupported Media Type", 500: "Internal Server Error",
    503: "Service Unavailable", 507: "Insufficient Storage",
}

# Simple texts.

NAME = re.compile(r"[A-Za-z][A-Za-z0-9./_-]*\Z")
DIGITS = re.compile(r"[0-9]+\Z")
MOST_BACK = (1 << 32) - 1
HASH = re.compile(r"[0-9A-Fa-f]{64}\Z")


def read_hash(s):
    return bytes.fromhex(s) if HASH.match(s) else None


def is_name(s):
    return bool(NAME.match(s)) and s[-1] not in "./" and ".." not in s and len(s) <= 128


def is_pattern(s):
    """A name, or a star behind what a name may begin with."""
    front = s[:-1]
    return is_name(front) or is_name(front + "a") if s.endswith("*") else is_name(s)


def key_of(elements):
    """The key of these elements, or None where they are none."""
    if not 1 <= len(elements) <= 20 or any(e == "" for e in elements):
        return None
    if any(ord(c) < 0x20 for e in elements for c in e):
        return None
    key = tuple(elements)
    return key if len(key_path(key).encode("utf-8")) <= 500 else None


def key_of_path(s):
    return key_of([e.replace("\x1d", ".").replace("\x00", ".") for e in s.split(".")])


def read_uuid(s):
    """A UUID: 32 digits, hyphenated, in braces, or after `urn:uuid:` in either case."""
    hyphenated = r"[0-9A-Fa-f]{8}-[0-9A-Fa-f]{4}-[0-9A-Fa-f]{4}-[0-9A-Fa-f]{4}-[0-9A-Fa-f]{12}"
    if re.match(r"\{%s\}\Z" % hyphenated, s):
        s = s[1:-1]
    elif s[:9].lower() == "urn:uuid:" and re.match(hyphenated + r"\Z", s[9:]):
        s = s[9:]
    elif not re.match(r"(%s|[0-9A-Fa-f]{32})\Z" % hyphenated, s):
        return None
    return bytes.fromhex(s.replace("-", ""))


def write_uuid(b):
    h = b.hex()
    return "-".join((h[:8], h[8:12], h[12:16], h[16:20], h[20:]))


read_instant = instants.read
write_instant = instants.write


# JSON.

class NoReading(Exception):
    pass


def _integer(s):
    n = int(s)
    if s.startswith("-") and n == 0:
        return -0.0
    return n if -(1 << 63) <= n < (1 << 64) else _float(s)


def _float(s):
    f = float(s)
    if f in (float("inf"), float("-inf")):
        raise ValueError(s)
    return f


def _constant(s):
    raise ValueError(s)


def depth_of(s):
    depth = deepest = 0
    inside = escaped = False
    for c in s:
        if inside:
            if escaped:
                escaped = False
            elif c == "\\":
                escaped = True
            elif c == '"':
                inside = False
        elif c == '"':
            inside = True
        elif c in "[{":
            depth += 1
            deepest = max(deepest, depth)
        elif c in "]}":
            depth -= 1
    return deepest


def _surrogates(v):
    if isinstance(v, str):
        return any(0xD800 <= ord(c) <= 0xDFFF for c in v)
    if isinstance(v, list):
        return any(_surrogates(i) for i in v)
    if isinstance(v, dict):
        return any(_surrogates(k) or _surrogates(i) for k, i in v.items())
    return False


def read_json(body):
    try:
        s = body.decode("utf-8")
        if s.count("[") + s.count("{") > 127 and depth_of(s) > 127:
            raise NoReading
        pairs = []

        def hook(found):
            pairs.append(found)
            return dict(found)

        value = json.loads(s, parse_int=_integer, parse_float=_float, parse_constant=_constant,
                           object_pairs_hook=hook)
        # Half of a pair can stand in an escape alone.
        if "\\u" in s and (_surrogates(value) or any(_surrogates(k) or _surrogates(v) for p in pairs for k, v in p)):
            raise NoReading
        return value
    except (ValueError, RecursionError):
        raise NoReading


def write_json(value):
    return json.dumps(value, ensure_ascii=False, separators=(",", ":"), sort_keys=True).encode("utf-8")


def need(condition):
    if not condition:
        raise NoReading


def an_object(v):
    need(isinstance(v, dict))
    return v


def a_text(v):
    need(isinstance(v, str))
    return v


def an_integer(v, bits):
    if v is None:
        return 0
    need(isinstance(v, int) and not isinstance(v, bool))
    need(-(1 << (bits - 1)) <= v < (1 << (bits - 1)))
    return v


def a_flag(v):
    if v is None:
        return False
    need(isinstance(v, bool))
    return v


def texts(v):
    if v is None:
        return []
    need(isinstance(v, list))
    return [a_text(i) for i in v]


def required_list(v):
    need(isinstance(v, list))
    return v


def a_hash(v):
    h = read_hash(a_text(v))
    need(h is not None)
    return h


def a_name(v):
    need(is_name(a_text(v)))
    return v


def a_key(v):
    key = key_of([a_text(e) for e in required_list(an_object(v).get("elements"))])
    need(key is not None)
    return key


def a_meta(v, message_needed):
    v = an_object(v)
    message = v.get("message")
    if message is None:
        need(not message_needed)
    else:
        a_text(message)
    properties = v.get("allProperties")
    properties = {} if properties is None else {
        k: [a_text(t) for t in required_list(i)] for k, i in an_object(properties).items()}
    time = v.get("authorTime")
    if time is not None:
        time = read_instant(a_text(time))
        need(time is not None)
    return {"message": message, "authors": texts(v.get("authors")),
            "signed": texts(v.get("allSignedOffBy")), "properties": properties,
            "author_time": time}


def a_content(v):
    v = an_object(v)
    kind = a_text(v.get("type"))
    given = v.get("id")
    if given is not None:
        given = read_uuid(a_text(given))
        need(given is not None)
    out = {"type": kind}
    if kind == ICEBERG_TABLE:
        out["metadataLocation"] = a_text(v.get("metadataLocation"))
        out["snapshotId"] = an_integer(v.get("snapshotId"), 64)
        for name in ("schemaId", "specId", "sortOrderId"):
            out[name] = an_integer(v.get(name), 32)
    elif kind == ICEBERG_VIEW:
        out["metadataLocation"] = a_text(v.get("metadataLocation"))
        out["versionId"] = an_integer(v.get("versionId"), 64)
        out["schemaId"] = an_integer(v.get("schemaId"), 32)
    elif kind == DELTA_LAKE_TABLE:
        out["metadataLocationHistory"] = texts(v.get("metadataLocationHistory"))
        out["checkpointLocationHistory"] = texts(v.get("checkpointLocationHistory"))
        last = v.get("lastCheckpoint")
        out["lastCheckpoint"] = None if last is None else a_text(last)
    elif kind == NAMESPACE:
        out["elements"] = [a_text(e) for e in required_list(v.get("elements"))]
        properties = v.get("properties")
        out["properties"] = {} if properties is None else {
            k: a_text(t) for k, t in an_object(properties).items()}
    elif kind == UDF:
        for name in ("metadataLocation", "versionId", "signatureId"):
            out[name] = a_text(v.get(name))
    else:
        raise NoReading
    return out, given


def an_operation(v):
    v = an_object(v)
    what = a_text(v.get("type"))
    need(what in ("PUT", "DELETE", "UNCHANGED"))
    key = a_key(v.get("key"))
    if what != "PUT":
        return Operation(what, key)
    content, given = a_content(v.get("content"))
    return Operation(what, key, content, given)


def need_operations(operations):
    need(1 <= len(operations) <= 10000)
    need(len({o.key for o in operations}) == len(operations))
    given = [o.given_id for o in operations if o.given_id is not None]
    need(len(set(given)) == len(given))
    for o in operations:
        if o.what == "PUT" and o.content["type"] == NAMESPACE:
            need(tuple(o.content["elements"]) == o.key)


def need_hashes(hashes):
    need(1 <= len(hashes) <= 100)


def a_source(v):
    v = an_object(v)
    kind = a_text(v.get("type"))
    if kind == "DETACHED":
        return kind, None, a_hash(v.get("hash"))
    need(kind in (BRANCH, TAG))
    h = v.get("hash")
    return kind, a_name(v.get("name")), None if h is None else a_hash(h)


def a_mode(v):
    need(a_text(v) in (NORMAL, FORCE, DROP))
    return v


def modes(v):
    default = v.get("defaultKeyMergeMode")
    default = NORMAL if default is None else a_mode(default)
    found = {}
    given = v.get("keyMergeModes")
    for item in [] if given is None else required_list(given):
        item = an_object(item)
        key = a_key(item.get("key"))
        need(key not in found)
        need(item.get("expectedTargetContent") is None and item.get("resolvedContent") is None)
        found[key] = a_mode(item.get("mergeBehavior"))
    return default, found


# Policies of collection.

def need_patterns(pairs):
    need(len(pairs) <= MOST_PATTERNS)


def a_cutoff(s):
    found = policies.cutoff(a_text(s))
    need(found is not None)
    return found


def a_pattern(s):
    need(is_pattern(a_text(s)))
    return s


def a_policy(v):
    v = an_object(v)
    default = v.get("defaultCutoff")
    default = a_cutoff("NONE" if default is None else default)
    given = v.get("cutoffs")
    pairs = []
    for item in [] if given is None else required_list(given):
        item = an_object(item)
        pairs.append((a_pattern(item.get("pattern")), a_cutoff(item.get("cutoff"))))
    need_patterns(pairs)
    return default, pairs


def policy_of_words(default, rules):
    """The policy of the words behind a journal's name."""
    pairs = []
    for rule in rules:
        pattern, sign, cutoff = rule.partition("=")
        need(sign == "=")
        pairs.append((a_pattern(pattern), a_cutoff(cutoff)))
    need_patterns(pairs)
    return a_cutoff(default), pairs


def collected(catalogue, words, moment):
    """The line of `gc` on a catalogue that nothing else changes, and its status."""
    try:
        policy = policies.resolved(policy_of_words(words[0], words[1:]), moment)
    except NoReading:
        return b"nessie: usage\n", 1
    try:
        kept, removed = catalogue.sweep(catalogue.place, policy, [], [], moment)
    except Refused as r:
        return b"nessie: limit %d\n" % r.details[1], 9
    return b"kept %d removed %d place %d\n" % (kept, removed, catalogue.place), 0


# Paths and queries.

def percent_decoded(b):
    return re.sub(rb"%([0-9A-Fa-f]{2})", lambda m: bytes((int(m.group(1), 16),)), b)


def query_pairs(b):
    out = []
    for piece in b.split(b"&"):
        if piece:
            name, _, value = piece.partition(b"=")
            out.append(tuple(percent_decoded(p.replace(b"+", b" ")).decode("utf-8", "replace")
                             for p in (name, value)))
    return out


ROUTES = [
    ("config", rb"/api/v2/config\Z", ("GET",)),
    ("trees", rb"/api/v2/trees\Z", ("GET", "POST")),
    ("tree", rb"/api/v2/trees/([^/]+)\Z", ("GET", "PUT", "DELETE")),
    ("entries", rb"/api/v2/trees/([^/]+)/entries\Z", ("GET",)),
    ("history", rb"/api/v2/trees/([^/]+)/history\Z", ("GET",)),
    ("contents", rb"/api/v2/trees/([^/]+)/contents\Z", ("GET", "POST")),
    ("content", rb"/api/v2/trees/([^/]+)/contents/([^/]+)\Z", ("GET",)),
    ("commit", rb"/api/v2/trees/([^/]+)/history/commit\Z", ("POST",)),
    ("merge", rb"/api/v2/trees/([^/]+)/history/merge\Z", ("POST",)),
    ("transplant", rb"/api/v2/trees/([^/]+)/history/transplant\Z", ("POST",)),
    ("sweep", rb"/gc/v1/sweep\Z", ("POST",)),
    ("checkpoint", rb"/gc/v1/checkpoint\Z", ("POST",)),
]


def route_of(path):
    for name, pattern, methods in ROUTES:
        m = re.match(pattern, path, re.DOTALL)
        if m:
            return name, methods, m.groups()
    raise Refused("NO_ROUTE", "no such path")


def decoded(segment):
    try:
        return percent_decoded(segment).decode("utf-8")
    except UnicodeDecodeError:
        raise bad("bad path")


def read_reference(s, changing):
    """A reference in a path: its name or None, and its hash or None."""
    name, at, rest = s.partition("@")
    found = None
    if at:
        found = read_hash(rest)
        if found is None:
            raise bad("bad path")
    if name == "-":
        return DEFAULT_BRANCH, found
    if name == "" and at and not changing:
        return None, found
    if not is_name(name):
        raise bad("bad path")
    return name, found


def read_position(s):
    """What a read asks for: a reference in a path, and how many commits back from it."""
    s, tilde, digits = s.partition("~")
    name, found = read_reference(s, False)
    if not tilde:
        return name, found, 0
    if not DIGITS.match(digits) or len(digits) > 10 or int(digits) > MOST_BACK:
        raise bad("bad path")
    return name, found, int(digits)


class Query:
    def __init__(self, b):
        self.pairs = query_pairs(b)

    def first(self, name):
        return next((v for n, v in self.pairs if n == name), None)

    def read(self, name, reader):
        v = self.first(name)
        if v is None:
            return None
        found = reader(v)
        if found is None:
            raise bad("bad query")
        return found

    def keys(self):
        out = []
        for n, v in self.pairs:
            if n == "key":
                key = key_of_path(v)
                if key is None:
                    raise bad("bad query")
                out.append(key)
        return out

    def page_size(self):
        n = self.read("max-records", lambda v: int(v) if DIGITS.match(v) else None)
        return 200 if n in (None, 0) else min(n, 1000)

    def kind(self):
        return self.read("type", lambda v: v if v in (BRANCH, TAG) else None)


def entries_token(s):
    if len(s) < 68 or s[:2] != "e." or s[66] != ".":
        return None
    h, key = read_hash(s[2:66]), key_of_path(s[67:])
    return None if h is None or key is None else (h, key)


# Replies.

def key_json(key):
    return {"elements": list(key)}


def reference_json(shown):
    kind, name, h = shown
    out = {"hash": h.hex(), "type": kind}
    if name is not None:
        out["name"] = name
    return out


def content_json(kept):
    content, content_id = kept
    out = {k: v for k, v in content.items() if v is not None}
    out["id"] = write_uuid(content_id)
    return out


def conflict_json(conflict):
    key, what = conflict
    if key is None:
        return {"conflictType": what, "message": what}
    return {"conflictType": what, "key": key_json(key), "message": what + ": " + key_path(key)}


def refusal_json(r):
    status = STATUS[r.kind]
    code = "REFERENCE_CONFLICT" if r.kind == "EXPIRED" else r.kind
    out = {"errorCode": code, "message": r.message, "reason": PHRASES[status], "status": status}
    if r.kind == "REFERENCE_CONFLICT":
        out["errorDetails"] = {"conflicts": [conflict_json(c) for c in r.details],
                               "type": "REFERENCE_CONFLICTS"}
    if r.kind == "EXPIRED":
        out["errorDetails"] = {"keys": [key_json(k) for k in r.details[0]], "openedPlace": r.details[1],
                               "type": "EXPIRED"}
    if r.kind == "SWEEP_OPEN":
        out["errorDetails"] = {"place": r.details, "type": "SWEEP_OPEN"}
    if r.kind == "DOWN":
        out["errorDetails"] = {"faults": r.details, "type": "DOWN"}
    if r.kind == "LIMIT":
        out["errorDetails"] = {"limit": r.details[0], "number": r.details[1], "type": "LIMIT"}
    return out


def rendered(status, body, place=None, allow=None, close=False, head=False):
    out = "HTTP/1.1 %d %s\r\nContent-Type: application/json\r\n" % (status, PHRASES[status])
    if allow is not None:
        out += "Allow: %s\r\n" % ", ".join(allow)
    if place is not None:
        out += "Catalogue-Place: %d\r\n" % place
    if not head:
        out += "Content-Length: %d\r\n" % len(body)
    if close:
        out += "Connection: close\r\n"
    return (out + "\r\n").encode("ascii") + (b"" if head else body)


class Session:
    def __init__(self, catalogue):
        self.catalogue = catalogue
        self.faults = None
        # Where the next sweep was opened, and the commits and contents that drafts named meanwhile, where
        # other callers came between; None: it is opened at the place it finds, and nobody is between.
        self.between = None
        # How many bytes more the journal's file may have; None: as many as it takes.
        self.room = None

    def answer(self, method, target, fields, body, moment, close=False):
        """The reply to one request; `moment` is what the clock says if it is asked."""
        c = self.catalogue
        self.outcome = None
        allow = place = None
        self.methods = None
        self.on_state = False
        try:
            value = self.reply(method, target, fields, body, moment)
            status, place = 200, c.place
            self.outcome = "OK"
        except Refused as r:
            value, status = refusal_json(r), STATUS[r.kind]
            self.outcome = r.message if r.kind in ("BAD_REQUEST", "CONTENT_NOT_FOUND") else r.kind
            if r.kind == "LIMIT":
                self.outcome += " " + r.details[0]
            self.refused = r
            if self.on_state:
                place = c.place
            if r.kind == "WRONG_METHOD":
                allow = self.methods
        return rendered(status, write_json(value), place, allow, close, method == "HEAD")

    def reply(self, method, target, fields, body, moment):
        path, _, query = target.partition(b"?")
        self.route, self.methods, parts = route_of(path)
        if method not in self.methods:
            raise Refused("WRONG_METHOD", "method not allowed")
        for name, value in fields:
            if name.lower() == "content-encoding" and value.lower() != "identity":
                raise Refused("ENCODING", "encoding not supported")
        changing = method in ("PUT", "DELETE") or self.route in (
            "commit", "merge", "transplant", "sweep", "checkpoint")
        place = [decoded(p) for p in parts]
        where = key = None
        if place:
            where = read_reference(place[0], True) if changing else read_position(place[0])
        if len(place) == 2:
            key = key_of_path(place[1])
            if key is None:
                raise bad("bad path")
        query = Query(query)
        call = getattr(self, "%s_%s" % (method.lower(), self.route))
        try:
            # Each of these reads what is left of the bytes, and gives the call on the state.
            do = call(where, key, query, body, moment)
        except NoReading:
            raise bad("bad body")
        self.on_state = True
        if self.faults is not None and (changing or self.route == "trees" and method == "POST"):
            raise Refused("DOWN", "store is down", self.faults)
        mark = self.catalogue.mark() if self.room is not None else None
        out = do()
        if self.room is not None:
            self.need_room(mark)
        return out

    def need_room(self, mark):
        """What was accepted since is taken back where its frame finds no room in the file, and no more is tried."""
        c = self.catalogue
        entries, bases = mark[2:4]
        spelled = [payload(e, e[3]) for e in c.log[entries:]] + [checkpoint(c) for _ in c.bases[bases:]]
        size = sum(5 + len(s) for s in spelled)
        if size > self.room:
            c.undo(mark)
            self.faults = 1
            raise Refused("FAULT", "disk fault")
        self.room -= size

    def get_config(self, where, key, query, body, moment):
        return lambda: {
            "actualApiVersion": 2, "defaultBranch": DEFAULT_BRANCH, "maxSupportedApiVersion": 2,
            "minSupportedApiVersion": 2, "noAncestorHash": NO_ANCESTOR.hex()}

    def paged(self, out, more, write):
        out["hasMore"] = more is not None
        if more is not None:
            out["token"] = write(more)
        return out

    def get_trees(self, where, key, query, body, moment):
        size = query.page_size()
        after = query.read("page-token",
                           lambda v: v[2:] if v[:2] == "r." and is_name(v[2:]) else None)

        def do():
            page, more = self.catalogue.list_references(after, size)
            return self.paged({"references": [reference_json(r) for r in page]}, more,
                              lambda n: "r." + n)
        return do

    def post_trees(self, where, key, query, body, moment):
        name = query.read("name", lambda v: v if is_name(v) else None)
        kind = query.kind()
        if name is None or kind is None:
            raise bad("bad query")
        source = a_source(read_json(body))
        return lambda: {"reference": reference_json(
            self.catalogue.create(name, kind, source, moment))}

    def get_tree(self, where, key, query, body, moment):
        c = self.catalogue
        return lambda: {"reference": reference_json(c.shown(where[0], c.resolve(where)))}

    def put_tree(self, where, key, query, body, moment):
        kind = query.kind()
        source = a_source(read_json(body))
        return lambda: {"reference": reference_json(
            self.catalogue.assign(where[0], kind, where[1], source, moment))}

    def delete_tree(self, where, key, query, body, moment):
        kind = query.kind()
        return lambda: {"reference": reference_json(
            self.catalogue.delete(where[0], kind, where[1], moment))}

    def get_entries(self, where, key, query, body, moment):
        size = query.page_size()
        token = query.read("page-token", entries_token)
        least = query.read("min-key", key_of_path)
        greatest = query.read("max-key", key_of_path)
        front = query.read("prefix-key", key_of_path)
        keys = query.keys()

        def keeps(k):
            return ((least is None or key_order(k) >= key_order(least))
                    and (greatest is None or key_order(k) <= key_order(greatest))
                    and (front is None or k[:len(front)] == front)
                    and (not keys or k in keys))

        def do():
            shown, page, more = self.catalogue.entries_page(where, token, keeps, size)
            out = {"effectiveReference": reference_json(shown),
                   "entries": [{"contentId": write_uuid(e[1]), "name": key_json(k), "type": e[0]}
                               for k, e in page]}
            return self.paged(out, more, lambda m: "e.%s.%s" % (m[0].hex(), key_path(m[1])))
        return do

    def get_history(self, where, key, query, body, moment):
        size = query.page_size()
        token = query.read("page-token", lambda v: read_hash(v[2:]) if v[:2] == "h." else None)
        until = query.read("limit-hash", read_hash)
        fetch = query.read("fetch", lambda v: v if v in ("MINIMAL", "ALL") else None)

        def do():
            page, more = self.catalogue.history_page(where, token, until, size)
            out = {"logEntries": [self.log_entry(h, fetch == "ALL") for h in page]}
            return self.paged(out, more, lambda h: "h." + h.hex())
        return do

    def log_entry(self, h, with_operations):
        commit = self.catalogue.commits[h]
        parents = [commit.parent] + ([] if commit.merge_parent is None else [commit.merge_parent])
        meta = {"message": commit.meta["message"], "authors": commit.meta["authors"],
                "allSignedOffBy": commit.meta["signed"],
                "allProperties": commit.meta["properties"],
                "commitTime": write_instant(commit.time), "hash": h.hex(),
                "parentCommitHashes": [p.hex() for p in parents]}
        if commit.meta["author_time"] is not None:
            meta["authorTime"] = write_instant(commit.meta["author_time"])
        out = {"commitMeta": meta, "parentCommitHash": commit.parent.hex()}
        if with_operations:
            out["operations"] = [self.shown_operation(k, e) for k, e in commit.ops]
        return out

    def shown_operation(self, key, entry):
        if entry is None:
            return {"key": key_json(key), "type": "DELETE"}
        out = {"key": key_json(key), "type": "PUT"}
        kept = self.catalogue.contents.get(entry[2])
        if kept is not None:
            out["content"] = content_json(kept)
        return out

    def get_contents(self, where, key, query, body, moment):
        return self.contents_reply(where, query.keys())

    def post_contents(self, where, key, query, body, moment):
        v = an_object(read_json(body))
        return self.contents_reply(where, [a_key(k) for k in required_list(v.get("requestedKeys"))])

    def contents_reply(self, where, keys):
        def do():
            shown, found = self.catalogue.contents_of(where, keys)
            return {"contents": [{"content": content_json(v), "key": key_json(k)}
                                 for k, v in found],
                    "effectiveReference": reference_json(shown)}
        return do

    def get_content(self, where, key, query, body, moment):
        def do():
            shown, kept = self.catalogue.content(where, key)
            return {"content": content_json(kept), "effectiveReference": reference_json(shown)}
        return do

    def post_commit(self, where, key, query, body, moment):
        v = an_object(read_json(body))
        meta = a_meta(v.get("commitMeta"), True)
        operations = [an_operation(o) for o in required_list(v.get("operations"))]
        need_operations(operations)

        def do():
            added, shown = self.catalogue.commit(where[0], where[1], meta, operations, moment)
            return {"addedContents": [{"contentId": write_uuid(i), "key": key_json(k)}
                                      for k, i in added],
                    "targetBranch": reference_json(shown)}
        return do

    def merge_reply(self, found):
        shown = self.catalogue.shown(found["name"], found["new"])
        details = []
        for key, mode, conflict in found["details"]:
            detail = {"key": key_json(key), "mergeBehavior": mode}
            if conflict is not None:
                detail["conflict"] = conflict_json((key, conflict))
            details.append(detail)
        out = {"details": details, "effectiveTargetHash": found["old"].hex(),
               "resultantTargetHash": found["new"].hex(), "targetBranch": reference_json(shown),
               "wasApplied": found["applied"], "wasSuccessful": found["successful"]}
        if "base" in found:
            out["commonAncestor"] = found["base"].hex()
        return out

    def post_merge(self, where, key, query, body, moment):
        v = an_object(read_json(body))
        from_name = a_name(v.get("fromRefName"))
        from_hash = a_hash(v.get("fromHash"))
        given = v.get("commitMeta")
        meta = a_meta({} if given is None else given, False)
        message = v.get("message")
        if message is not None:
            a_text(message)
        if meta["message"] is None:
            meta["message"] = message
        if meta["message"] is None:
            meta["message"] = "Merge %s into %s" % (from_name, where[0])
        default, of_keys = modes(v)
        dry_run = a_flag(v.get("dryRun"))
        as_result = a_flag(v.get("returnConflictAsResult"))
        command = (where[0], where[1], from_name, from_hash, meta, default, of_keys)

        def do():
            return self.merge_reply(self.catalogue.merge(
                where[0], where[1], from_name, from_hash, meta,
                lambda k: of_keys.get(k, default), dry_run, as_result, moment, command))
        return do

    def post_transplant(self, where, key, query, body, moment):
        v = an_object(read_json(body))
        from_name = a_name(v.get("fromRefName"))
        hashes = [a_hash(h) for h in required_list(v.get("hashesToTransplant"))]
        need_hashes(hashes)
        default, of_keys = modes(v)
        dry_run = a_flag(v.get("dryRun"))
        as_result = a_flag(v.get("returnConflictAsResult"))
        command = (where[0], where[1], from_name, hashes, default, of_keys)

        def do():
            return self.merge_reply(self.catalogue.transplant(
                where[0], where[1], from_name, hashes, lambda k: of_keys.get(k, default),
                dry_run, as_result, moment, command))
        return do

    def post_sweep(self, where, key, query, body, moment):
        policy = a_policy(read_json(body))

        def do():
            opened, commits, contents = self.between or (self.catalogue.place, [], [])
            kept, removed = self.catalogue.sweep(
                opened, policies.resolved(policy, moment), commits, contents, moment)
            return {"kept": kept, "openedPlace": opened, "removed": removed}
        return do

    def post_checkpoint(self, where, key, query, body, moment):
        return lambda: {"place": self.catalogue.checkpoint()}
