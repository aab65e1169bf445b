"""The rules of the catalogue, over plain lists and dictionaries.

Everything here is replayed from whole chains: the map at a commit is made
anew from its parent's, ancestors are sets, and nothing is shared or tuned.
A catalogue holds references, commits and contents. Calls that change it take
a moment (microseconds since 1970), and answer a reply or raise `Refused`.
"""

import hashlib

NO_ANCESTOR = hashlib.sha256(b"empty").digest()
DEFAULT_BRANCH = "main"

BRANCH, TAG = "BRANCH", "TAG"

ICEBERG_TABLE, ICEBERG_VIEW, DELTA_LAKE_TABLE, NAMESPACE, UDF = (
    "ICEBERG_TABLE", "ICEBERG_VIEW", "DELTA_LAKE_TABLE", "NAMESPACE", "UDF")
TYPE_BYTES = {ICEBERG_TABLE: 1, ICEBERG_VIEW: 2, DELTA_LAKE_TABLE: 3, NAMESPACE: 4, UDF: 5}

NORMAL, FORCE, DROP = "NORMAL", "FORCE", "DROP"

LIMITS = {
    "References": 65535,
    "Log": 4294967295,
    "Commits": 4294967295,
    "Keys": 1000000,
    "Contents": 16777216,
    "Names": 16777216,
    "Drafts": (1 << 64) - 1,
}

ALL, COMMITS, SINCE = "All", "Commits", "Since"
MOST_PATTERNS = 1000


class Refused(Exception):
    """A refusal: its kind, its message, and more where the kind has more."""

    def __init__(self, kind, message="", details=None):
        super().__init__(kind, message)
        self.kind = kind
        self.message = message
        self.details = details


def bad(reason):
    return Refused("BAD_REQUEST", reason)


def not_found():
    return Refused("REFERENCE_NOT_FOUND", "reference not found")


# Bytes.

def u8(n):
    return n.to_bytes(1, "big")


def u32(n):
    return n.to_bytes(4, "big")


def u64(n):
    return n.to_bytes(8, "big")


def i32(n):
    return n.to_bytes(4, "big", signed=True)


def i64(n):
    return n.to_bytes(8, "big", signed=True)


def text(s):
    b = s.encode("utf-8")
    return u32(len(b)) + b


def listed(items, spell):
    return u32(len(items)) + b"".join(spell(i) for i in items)


def option(value, spell):
    return b"\x00" if value is None else b"\x01" + spell(value)


def key_bytes(key):
    out = u8(len(key))
    for element in key:
        b = element.encode("utf-8")
        out += len(b).to_bytes(2, "big") + b
    return out


def key_order(key):
    return tuple(element.encode("utf-8") for element in key)


def key_path(key):
    """The path form: elements joined by dots, a dot within one as U+001D."""
    return ".".join(element.replace(".", "\x1d") for element in key)


def content_bytes(content, content_id):
    kind = content["type"]
    out = u8(TYPE_BYTES[kind]) + content_id
    if kind == ICEBERG_TABLE:
        out += text(content["metadataLocation"]) + i64(content["snapshotId"])
        out += i32(content["schemaId"]) + i32(content["specId"]) + i32(content["sortOrderId"])
    elif kind == ICEBERG_VIEW:
        out += text(content["metadataLocation"]) + i64(content["versionId"])
        out += i32(content["schemaId"])
    elif kind == DELTA_LAKE_TABLE:
        out += listed(content["metadataLocationHistory"], text)
        out += listed(content["checkpointLocationHistory"], text)
        out += option(content["lastCheckpoint"], text)
    elif kind == UDF:
        out += text(content["metadataLocation"]) + text(content["versionId"]) + text(content["signatureId"])
    else:
        out += listed(content["elements"], text)
        pairs = sorted(content["properties"].items(), key=lambda p: p[0].encode("utf-8"))
        out += listed(pairs, lambda p: text(p[0]) + text(p[1]))
    return out


def entry_bytes(entry):
    kind, content_id, content_hash = entry
    return u8(TYPE_BYTES[kind]) + content_id + content_hash


def meta_bytes(meta):
    pairs = sorted(meta["properties"].items(), key=lambda p: p[0].encode("utf-8"))
    return (text(meta["message"]) + listed(meta["authors"], text) + listed(meta["signed"], text)
            + listed(pairs, lambda p: text(p[0]) + listed(p[1], text))
            + option(meta["author_time"], u64))


def operation_bytes(operation):
    key, entry = operation
    if entry is None:
        return key_bytes(key) + b"\x00"
    return key_bytes(key) + b"\x01" + entry_bytes(entry)


class Commit:
    """A commit; `ops` are pairs of key and entry (None deletes), keys ascending."""

    def __init__(self, parent, merge_parent, generation, time, meta, ops):
        self.parent = parent
        self.merge_parent = merge_parent
        self.generation = generation
        self.time = time
        self.meta = meta
        self.ops = ops

    def spell(self):
        return (b"NC1" + self.parent
                + (b"\x00" if self.merge_parent is None else b"\x01" + self.merge_parent)
                + u64(self.generation) + u64(self.time) + meta_bytes(self.meta)
                + listed(self.ops, operation_bytes))

    def id(self):
        return hashlib.sha256(self.spell()).digest()


# Conflicts.

def differs(before, now):
    if before is None and now is None:
        return None
    if before is None:
        return "KEY_EXISTS"
    if now is None:
        return "KEY_DOES_NOT_EXIST"
    if before[0] != now[0]:
        return "PAYLOAD_DIFFERS"
    if before[1] != now[1]:
        return "CONTENT_ID_DIFFERS"
    if before[2] != now[2]:
        return "VALUE_DIFFERS"
    return None


def is_child(key, of):
    return len(key) > len(of) and key[:len(of)] == of


def applied(entries, ops):
    """The map after pairs of key and entry, None deleting."""
    result = dict(entries)
    for key, entry in ops:
        if entry is None:
            result.pop(key, None)
        else:
            result[key] = entry
    return result


def namespace_conflict(key, entry, head, result):
    """What the rules on namespaces say of one change, on the map after all."""
    if entry is not None and len(key) >= 2:
        parent = result.get(key[:-1])
        if parent is None:
            return "NAMESPACE_ABSENT"
        if parent[0] != NAMESPACE:
            return "NOT_A_NAMESPACE"
    old = head.get(key)
    if old is not None and old[0] == NAMESPACE and (entry is None or entry[0] != NAMESPACE):
        if any(is_child(other, key) for other in result):
            return "NAMESPACE_NOT_EMPTY"
    return None


class Operation:
    """One operation of a request: PUT, DELETE or UNCHANGED of a key."""

    def __init__(self, what, key, content=None, given_id=None):
        self.what = what
        self.key = key
        self.content = content
        self.given_id = given_id


def judge(expected, head, operations, entry_of):
    """The conflicts of a commit's operations, keys ascending, or the map after them."""
    changes = [(o.key, entry_of(o)) for o in operations if o.what != "UNCHANGED"]
    result = applied(head, changes)
    renamed = {head[o.key][:2] for o in operations if o.what == "DELETE" and o.key in head}
    conflicts = []
    for o in sorted(operations, key=lambda o: key_order(o.key)):
        now = head.get(o.key)
        found = differs(expected.get(o.key), now)
        if found is None and o.what == "PUT":
            if o.given_id is None:
                if now is not None:
                    found = "KEY_EXISTS"
            elif now is None:
                if (o.content["type"], o.given_id) not in renamed:
                    found = "KEY_DOES_NOT_EXIST"
            elif now[0] != o.content["type"]:
                found = "PAYLOAD_DIFFERS"
            elif now[1] != o.given_id:
                found = "CONTENT_ID_DIFFERS"
        if found is None and o.what == "DELETE" and now is None:
            found = "KEY_DOES_NOT_EXIST"
        if found is None and o.what != "UNCHANGED":
            found = namespace_conflict(o.key, entry_of(o), head, result)
        if found is not None:
            conflicts.append((o.key, found))
    return conflicts, result


# Cutoffs: `(ALL,)`, `(COMMITS, count)` or `(SINCE, instant)`. A policy is a default one, and pairs of a
# pattern and its own, of which the first that matches counts.

def matches(pattern, name):
    return name.startswith(pattern[:-1]) if pattern.endswith("*") else name == pattern


def cutoff_for(policy, name):
    default, pairs = policy
    return next((cutoff for pattern, cutoff in pairs if matches(pattern, name)), default)


class Plan:
    def __init__(self, details, conflicts, ops, result):
        self.details = details
        self.conflicts = conflicts
        self.ops = ops
        self.result = result


def plan(base, source, target, mode_of):
    """What a merge makes of the target's map, key by key that the source changed."""
    changed = sorted((k for k in set(base) | set(source) if base.get(k) != source.get(k)),
                     key=key_order)
    found = {}
    ops = []
    for key in changed:
        mode = mode_of(key)
        wanted, now = source.get(key), target.get(key)
        if mode == DROP or wanted == now:
            continue
        if mode == FORCE or now == base.get(key):
            ops.append((key, wanted))
        else:
            found[key] = differs(base.get(key), now)
    result = applied(target, ops)
    for key, entry in ops:
        conflict = namespace_conflict(key, entry, target, result)
        if conflict is not None:
            found[key] = conflict
    details = [(key, mode_of(key), found.get(key)) for key in changed]
    conflicts = [(key, found[key]) for key in changed if key in found]
    return Plan(details, conflicts, ops, result)


class Catalogue:
    def __init__(self):
        self.references = {DEFAULT_BRANCH: [BRANCH, NO_ANCESTOR]}
        self.commits = {}
        self.contents = {}
        self.place = 0
        self.draft = 0
        self.maps = {NO_ANCESTOR: {}}
        self.log = []
        # What the log starts from: the place, the last draft number, those below it that may still
        # come, and the heads.
        self.first = 0
        self.taken = 0
        self.left = set()
        self.starts = {DEFAULT_BRANCH: NO_ANCESTOR}
        # The journal's format, and after how many entries of the log each checkpoint was made.
        self.format = 2
        self.bases = []

    def start(self, place, draft, left, references, commits, contents):
        """Starts from a state in place of the empty one."""
        self.first = self.place = place
        self.taken = self.draft = draft
        self.left = set(left)
        self.references = {name: [kind, head] for name, kind, head in references}
        self.starts = {name: head for name, _, head in references}
        self.keep(commits)
        self.contents = {hashlib.sha256(content_bytes(*c)).digest(): c for c in contents}

    def moved(self, place, draft):
        """The same state where another log has led to it, which ended at this place and draft number."""
        out = Catalogue()
        references = [(name, kind, head) for name, (kind, head) in self.references.items()]
        out.start(place, draft, (), references, self.commits.values(), self.contents.values())
        out.bases = [0]
        return out

    def mark(self):
        """What `undo` takes a call back to."""
        references = {name: list(own) for name, own in self.references.items()}
        return (self.place, self.draft, len(self.log), len(self.bases), references, len(self.commits), self.contents,
                len(self.contents))

    def undo(self, mark):
        """Takes back what was done since: a sweep leaves the contents that it found as they were, all else adds."""
        self.place, self.draft, entries, bases, self.references, commits, self.contents, contents = mark
        del self.log[entries:], self.bases[bases:]
        for held, count in (self.commits, commits), (self.contents, contents):
            while len(held) > count:
                held.popitem()

    def opened(self):
        """What a new opening of the log knows: drafts that left no entry are forgotten."""
        self.draft = max((e[2] for e in self.log), default=0)
        self.draft = max(self.draft, self.taken)

    def is_new(self, draft):
        """Whether an entry may have this draft number."""
        return draft == 0 or (draft > self.taken or draft in self.left) and all(draft != e[2] for e in self.log)

    def may_start(self):
        """Whether what the log starts from is a state, and none that is too large."""
        return self.is_linked() and self.is_whole() and self.is_small()

    def is_linked(self):
        """Each commit stands behind its parents, at the next generation, and each head is known."""
        generations = {NO_ANCESTOR: 0}
        for commit_hash, commit in self.commits.items():
            above = [commit.parent] + ([] if commit.merge_parent is None else [commit.merge_parent])
            if commit_hash in generations or not all(h in generations for h in above):
                return False
            generations[commit_hash] = 1 + max(generations[h] for h in above)
            if commit.generation != generations[commit_hash]:
                return False
        return all(self.known(head) for head in self.starts.values())

    def is_whole(self):
        """`main` is a branch, each key's parent is a namespace, and what is visible is there."""
        if self.references.get(DEFAULT_BRANCH, [TAG])[0] != BRANCH:
            return False
        for commit_hash in self.commits:
            now = self.entries(commit_hash)
            if any(len(k) > 1 and now.get(k[:-1], (None,))[0] != NAMESPACE for k in now):
                return False
        return all(self.visible(head) <= set(self.contents) for head in self.starts.values())

    def is_small(self):
        """It passes no limit. There may be one reference whatever the limit is."""
        return (len(self.references) <= max(1, LIMITS["References"]) and self.place <= LIMITS["Log"]
                and len(self.commits) <= LIMITS["Commits"] and len(self.contents) <= LIMITS["Contents"]
                and all(len(self.entries(h)) <= LIMITS["Keys"] for h in self.commits))

    # Looking things up.

    def known(self, commit_hash):
        return commit_hash == NO_ANCESTOR or commit_hash in self.commits

    def chain(self, head):
        out = []
        while head != NO_ANCESTOR:
            out.append(head)
            head = self.commits[head].parent
        return out + [NO_ANCESTOR]

    def generation(self, commit_hash):
        return 0 if commit_hash == NO_ANCESTOR else self.commits[commit_hash].generation

    def entries(self, commit_hash):
        todo = []
        at = commit_hash
        while at not in self.maps:
            todo.append(at)
            at = self.commits[at].parent
        for at in reversed(todo):
            commit = self.commits[at]
            self.maps[at] = applied(self.maps[commit.parent], commit.ops)
        return self.maps[commit_hash]

    def ancestors(self, commit_hash):
        seen, todo = set(), [commit_hash]
        while todo:
            at = todo.pop()
            if at in seen:
                continue
            seen.add(at)
            if at != NO_ANCESTOR:
                commit = self.commits[at]
                todo.append(commit.parent)
                if commit.merge_parent is not None:
                    todo.append(commit.merge_parent)
        seen.add(NO_ANCESTOR)
        return seen

    def base(self, a, b):
        common = self.ancestors(a) & self.ancestors(b)
        return min(common, key=lambda h: (-self.generation(h), h))

    def reference(self, name):
        if name not in self.references:
            raise not_found()
        return self.references[name]

    def on_chain(self, head, commit_hash):
        return commit_hash in self.chain(head)

    def pointed(self, name, commit_hash):
        """The commit that a read points at by a name, a hash, or both."""
        if name is None:
            if not self.known(commit_hash):
                raise not_found()
            return commit_hash
        head = self.reference(name)[1]
        if commit_hash is None:
            return head
        if not self.on_chain(head, commit_hash):
            raise not_found()
        return commit_hash

    def resolve(self, where):
        """The commit that a read speaks of: one pointed at, or one that its chain has so many further on."""
        name, commit_hash, back = where
        chain = self.chain(self.pointed(name, commit_hash))
        if back >= len(chain):
            raise not_found()
        return chain[back]

    def shown(self, name, commit_hash):
        if name is None:
            return ("DETACHED", None, commit_hash)
        return (self.references[name][0], name, commit_hash)

    # References.

    def list_references(self, after, limit):
        names = sorted(n for n in self.references if after is None or n > after)
        page = [self.shown(n, self.references[n][1]) for n in names[:limit]]
        return page, (names[limit - 1] if len(names) > limit else None)

    def source_commit(self, source):
        """Tests of names come first, then kinds, then hashes: so this is in steps."""
        kind, name, commit_hash = source
        if name is not None:
            self.reference(name)
        yield
        if name is not None and kind is not None and self.references[name][0] != kind:
            raise bad("other type")
        yield
        if name is None:
            if not self.known(commit_hash):
                raise not_found()
            yield commit_hash
        else:
            head = self.references[name][1]
            if commit_hash is not None and not self.on_chain(head, commit_hash):
                raise not_found()
            yield head if commit_hash is None else commit_hash

    def create(self, name, kind, source, moment):
        steps = self.source_commit(source)
        next(steps)
        next(steps)
        target = next(steps)
        if name in self.references:
            raise Refused("REFERENCE_ALREADY_EXISTS", "reference exists")
        if len(self.references) >= LIMITS["References"]:
            raise limit("References")
        self.need_entry()
        self.need_contents(self.entries(target).items())
        self.references[name] = [kind, target]
        self.entry("create", 0, moment, (name, kind, source), target)
        return self.shown(name, target)

    def assign(self, name, kind, expected, source, moment):
        own = self.reference(name)
        steps = self.source_commit(source)
        next(steps)
        if kind is not None and own[0] != kind:
            raise bad("other type")
        next(steps)
        target = next(steps)
        self.need_entry()
        if expected is not None and expected != own[1]:
            raise conflicts_refusal([(None, "UNEXPECTED_HASH")])
        self.need_contents(self.entries(target).items())
        own[1] = target
        self.entry("assign", 0, moment, (name, kind, expected, source), target)
        return self.shown(name, target)

    def delete(self, name, kind, expected, moment):
        own = self.reference(name)
        if name == DEFAULT_BRANCH:
            raise bad("default branch")
        if kind is not None and own[0] != kind:
            raise bad("other type")
        self.need_entry()
        if expected is not None and expected != own[1]:
            raise conflicts_refusal([(None, "UNEXPECTED_HASH")])
        shown = self.shown(name, own[1])
        del self.references[name]
        self.entry("delete", 0, moment, (name, kind, expected), None)
        return shown

    # Commits, merges, transplants.

    def entry(self, what, draft, moment, command, head):
        self.place += 1
        self.log.append((what, self.place, draft, moment, command, head))

    def need_entry(self):
        if self.place >= LIMITS["Log"]:
            raise limit("Log")

    def need_room(self, head, commits, puts):
        """What a call's commits and PUTs need, also where they stand already."""
        self.need_entry()
        if len(self.commits) + commits > LIMITS["Commits"]:
            raise limit("Commits")
        if len(self.entries(head)) + puts > LIMITS["Keys"]:
            raise limit("Keys")

    def branch(self, name):
        if self.reference(name)[0] != BRANCH:
            raise bad("not a branch")

    def take_draft(self):
        if self.draft >= LIMITS["Drafts"]:
            raise limit("Drafts")
        self.draft += 1
        return self.draft

    def keep(self, commits):
        for commit in commits:
            self.commits[commit.id()] = commit

    def commit(self, name, expected, meta, operations, moment):
        self.branch(name)
        head = self.references[name][1]
        if expected is not None and not self.on_chain(head, expected):
            raise not_found()
        draft = self.take_draft()
        entries, now = {}, self.entries(head)
        for index, o in enumerate(operations):
            if o.what == "PUT":
                content_id = o.given_id
                if content_id is None:
                    content_id = u64(draft) + u64(index)
                spelled = content_bytes(o.content, content_id)
                digest = hashlib.sha256(spelled).digest()
                entries[o.key] = (o.content["type"], content_id, digest)
        puts = len(entries)
        self.need_room(head, 1, puts)
        if len(self.contents) + puts > LIMITS["Contents"]:
            raise limit("Contents")
        then = now if expected is None else self.entries(expected)
        conflicts, _ = judge(then, now, operations, lambda o: entries.get(o.key))
        if conflicts:
            raise conflicts_refusal(conflicts)
        added = []
        for o in operations:
            if o.what == "PUT":
                kind, content_id, digest = entries[o.key]
                self.contents[digest] = (o.content, content_id)
                if o.given_id is None:
                    added.append((o.key, content_id))
        ops = sorted(((o.key, entries.get(o.key)) for o in operations if o.what != "UNCHANGED"),
                     key=lambda p: key_order(p[0]))
        made = Commit(head, None, self.generation(head) + 1, moment, meta, ops)
        self.keep([made])
        self.references[name][1] = made.id()
        self.entry("commit", draft, moment, (name, expected, meta, operations, entries), made.id())
        return added, self.shown(name, made.id())

    def merge(self, name, path_hash, from_name, from_hash, meta, mode_of, dry_run, as_result,
              moment, command=None):
        source_head = self.two_names(name, from_name)
        head = self.references[name][1]
        self.hash_of_path(head, path_hash)
        if not self.on_chain(source_head, from_hash):
            raise not_found()
        draft = self.take_draft()
        base = self.base(from_hash, head)
        self.last_merge = (base, from_hash, head)
        made = plan(self.entries(base), self.entries(from_hash), self.entries(head), mode_of)
        self.room([made], head)
        reply = {"base": base, "details": made.details, "old": head, "new": head,
                 "applied": False, "successful": True, "name": name}
        if self.settled(made.conflicts, as_result, dry_run, [made], reply):
            return reply
        generation = 1 + max(self.generation(head), self.generation(from_hash))
        commit = Commit(head, from_hash, generation, moment, meta, made.ops)
        self.accept(name, [commit], reply)
        self.entry("merge", draft, moment, command, commit.id())
        return reply

    def transplant(self, name, path_hash, from_name, hashes, mode_of, dry_run, as_result, moment,
                   command=None):
        source_head = self.two_names(name, from_name)
        head = self.references[name][1]
        self.hash_of_path(head, path_hash)
        for h in hashes:
            if not self.on_chain(source_head, h):
                raise not_found()
        if NO_ANCESTOR in hashes:
            raise bad("not consecutive")
        for before, after in zip(hashes, hashes[1:]):
            if self.commits[after].parent != before:
                raise bad("not consecutive")
        draft = self.take_draft()
        plans, target = [], self.entries(head)
        for h in hashes:
            made = plan(self.entries(self.commits[h].parent), self.entries(h), target, mode_of)
            plans.append(made)
            target = made.result
        self.room(plans, head)
        details = [d for p in plans for d in p.details]
        conflicts = [c for p in plans for c in p.conflicts]
        reply = {"details": details, "old": head, "new": head, "applied": False,
                 "successful": True, "name": name}
        if self.settled(conflicts, as_result, dry_run, plans, reply):
            return reply
        commits, parent, generation = [], head, self.generation(head)
        for h, made in zip(hashes, plans):
            if made.ops:
                generation += 1
                commit = Commit(parent, None, generation, moment, self.commits[h].meta, made.ops)
                commits.append(commit)
                parent = commit.id()
        self.accept(name, commits, reply)
        self.entry("transplant", draft, moment, command, parent)
        return reply

    def two_names(self, name, from_name):
        self.reference(name)
        source_head = self.reference(from_name)[1]
        self.branch(name)
        return source_head

    def hash_of_path(self, head, path_hash):
        if path_hash is not None and not self.on_chain(head, path_hash):
            raise not_found()

    def room(self, plans, head):
        puts = sum(1 for p in plans for _, entry in p.ops if entry is not None)
        self.need_room(head, sum(1 for p in plans if p.ops), puts)

    def settled(self, conflicts, as_result, dry_run, plans, reply):
        """Whether the reply stands already, without a commit."""
        if conflicts:
            if not as_result:
                raise conflicts_refusal(conflicts)
            reply["successful"] = False
            return True
        self.need_contents(o for p in plans for o in p.ops)
        return dry_run or not any(p.ops for p in plans)

    def need_contents(self, changes):
        """Refused where an entry that is shown or set has no content any more."""
        gone = {(key, entry[2]) for key, entry in changes if entry is not None and entry[2] not in self.contents}
        if gone:
            keys = sorted({key for key, _ in gone}, key=key_order)
            refused = Refused("EXPIRED", "contents expired", (keys, self.place))
            refused.gone = {content_hash for _, content_hash in gone}
            raise refused

    def accept(self, name, commits, reply):
        self.keep(commits)
        reply["new"] = commits[-1].id()
        reply["applied"] = True
        self.references[name][1] = reply["new"]

    # Sweeps.

    def kept(self, cutoff, head):
        """The commits of a chain up to the first that the cutoff doesn't keep. The head always is."""
        out = []
        for index, h in enumerate(self.chain(head)[:-1]):
            far = cutoff[0] == COMMITS and index >= cutoff[1]
            old = cutoff[0] == SINCE and self.commits[h].time < cutoff[1]
            if index > 0 and (far or old):
                break
            out.append(h)
        return out

    def visible(self, commit_hash):
        """The hashes of the contents that are shown at a commit."""
        return {entry[2] for entry in self.entries(commit_hash).values()}

    def states_since(self, place):
        """The heads of the references after each entry from this place on, or where the log starts."""
        heads = dict(self.starts)
        out = [dict(heads)] if place == self.first else []
        for what, number, _, _, command, head in self.log:
            if what == "delete":
                del heads[command[0]]
            elif what != "sweep":
                heads[command[0]] = head
            if number >= place:
                out.append(dict(heads))
        return out

    def saved(self, opened, policy, commits, contents):
        """What a sweep keeps: what was live at each state since it was opened, and what is named."""
        ends = {(cutoff_for(policy, name), head)
                for heads in self.states_since(opened) for name, head in heads.items()}
        shown = {h for cutoff, head in ends for h in self.kept(cutoff, head)} | set(commits)
        return set(contents).union(*(self.visible(h) for h in shown))

    def may_be_swept(self, opened, policy, commits, contents):
        """Whether a log may have such a sweep here."""
        return (self.first <= opened <= self.place and all(self.known(h) for h in commits)
                and len(policy[1]) <= MOST_PATTERNS)

    def sweep(self, opened, policy, commits, contents, moment):
        """Removes the contents that nothing kept; how many stay, and how many went."""
        self.need_entry()
        if len(commits) + len(contents) > LIMITS["Names"]:
            raise limit("Names")
        saved = self.saved(opened, policy, commits, contents)
        before = len(self.contents)
        self.contents = {h: c for h, c in self.contents.items() if h in saved}
        self.entry("sweep", 0, moment, (opened, policy, commits, contents), None)
        return len(self.contents), before - len(self.contents)

    def checkpoint(self):
        """Writes the state into the journal, which makes no entry; its place is told."""
        if self.format == 1:
            raise Refused("OLD_FORMAT", "old format")
        self.bases.append(len(self.log))
        return self.place

    # Logs.

    def again(self, what, draft, moment, command):
        """Executes what an entry of a log says; it makes an entry where that is accepted."""
        last, self.draft = self.draft, draft - 1
        if what in ("create", "assign", "delete"):
            getattr(self, what)(*command, moment)
        elif what == "commit":
            self.commit(*command[:4], moment)
        elif what in ("merge", "transplant"):
            mode_of = lambda key: command[-1].get(key, command[-2])
            getattr(self, what)(*command[:-2], mode_of, False, False, moment, command)
        elif self.may_be_swept(*command):
            self.sweep(*command, moment)
        self.draft = max(last, draft)

    # Reading.

    def at(self, where, token_hash):
        found = self.resolve(where)
        if token_hash is not None:
            if not self.known(token_hash):
                raise not_found()
            found = token_hash
        return found

    def entries_page(self, where, token, keeps, limit_):
        found = self.at(where, None if token is None else token[0])
        items = sorted(self.entries(found).items(), key=lambda i: key_order(i[0]))
        items = [i for i in items if keeps(i[0])]
        if token is not None:
            items = [i for i in items if key_order(i[0]) > key_order(token[1])]
        page = items[:limit_]
        more = (found, page[-1][0]) if len(items) > limit_ else None
        return self.shown(where[0], found), page, more

    def history_page(self, where, token, until, limit_):
        found = self.at(where, token)
        chain = self.chain(found)
        if until is not None:
            if until not in chain:
                raise not_found()
            chain = chain[:chain.index(until) + 1]
        chain = [h for h in chain if h != NO_ANCESTOR]
        return chain[:limit_], (chain[limit_] if len(chain) > limit_ else None)

    def contents_of(self, where, keys):
        found = self.resolve(where)
        entries = self.entries(found)
        out = [(k, self.contents[entries[k][2]]) for k in keys
               if k in entries and entries[k][2] in self.contents]
        return self.shown(where[0], found), out

    def content(self, where, key):
        found = self.resolve(where)
        entries = self.entries(found)
        if key not in entries:
            raise Refused("CONTENT_NOT_FOUND", "content absent")
        if entries[key][2] not in self.contents:
            raise Refused("CONTENT_NOT_FOUND", "content expired")
        return self.shown(where[0], found), self.contents[entries[key][2]]


def limit(which):
    return Refused("LIMIT", "limit reached", (which, LIMITS[which]))


def conflicts_refusal(conflicts):
    return Refused("REFERENCE_CONFLICT", "conflicts: %d" % len(conflicts), conflicts)
