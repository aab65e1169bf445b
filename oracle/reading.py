"""A journal's file read: to its base and its entries, and by these to the catalogue, or to what is wrong with it."""

from catalogue import (
    BRANCH, TAG, ICEBERG_TABLE, ICEBERG_VIEW, DELTA_LAKE_TABLE, NAMESPACE, TYPE_BYTES, NO_ANCESTOR, ALL,
    COMMITS, SINCE, Catalogue, Commit, Operation, Refused, content_bytes, key_order, u64)
from hashlib import sha256
from instants import GREATEST
from journal import CHECKPOINT, CUTOFFS, HEADER, KINDS, MODES, payload
from replies import NoReading, is_name, is_pattern, key_of, need, need_hashes, need_operations

KIND_OF, TYPE_OF, MODE_OF, CUTOFF_OF = (
    {number: name for name, number in table.items()} for table in (KINDS, TYPE_BYTES, MODES, CUTOFFS))
MOST_ENTRIES = (1 << 32) - 1


class Unopened(Exception):
    """A file that isn't opened: the line that says why."""

    def __init__(self, line):
        super().__init__(line)
        self.line = b"nessie: %s\n" % line


class Reader:
    def __init__(self, spelled):
        self.spelled = spelled
        self.at = 0

    def take(self, count):
        need(self.at + count <= len(self.spelled))
        self.at += count
        return self.spelled[self.at - count:self.at]

    def end(self):
        need(self.at == len(self.spelled))

    def number(self, size, signed=False):
        return int.from_bytes(self.take(size), "big", signed=signed)

    def chosen(self, table):
        n = self.number(1)
        need(n in table)
        return table[n]

    def hash(self):
        return self.take(32)

    def moment(self):
        n = self.number(8)
        need(n <= GREATEST)
        return n

    def text(self, size=4):
        try:
            return self.take(self.number(size)).decode("utf-8")
        except UnicodeDecodeError:
            raise NoReading

    def name(self):
        s = self.text()
        need(is_name(s))
        return s

    def pattern(self):
        s = self.text()
        need(is_pattern(s))
        return s

    def key(self):
        key = key_of([self.text(2) for _ in range(self.number(1))])
        need(key is not None)
        return key

    def option(self, read):
        return read() if self.chosen({0: False, 1: True}) else None

    def list(self, read):
        return [read() for _ in range(self.number(4))]

    def ascending(self, read, order=lambda x: x):
        """Items that are distinct and in order, by what this makes of each."""
        items = self.list(read)
        places = [order(i) for i in items]
        need(all(a < b for a, b in zip(places, places[1:])))
        return items

    def texts_to(self, read):
        return dict(self.ascending(lambda: (self.text(), read()), lambda p: p[0].encode("utf-8")))

    def reference_kind(self):
        return self.chosen({1: BRANCH, 2: TAG})

    def source(self):
        """What was said of the source's kind isn't told."""
        name, commit_hash = self.option(self.name), self.option(self.hash)
        need(name is not None or commit_hash is not None)
        return None, name, commit_hash

    def meta(self):
        return {"message": self.text(), "authors": self.list(self.text), "signed": self.list(self.text),
                "properties": self.texts_to(lambda: self.list(self.text)),
                "author_time": self.option(self.moment)}

    def modes(self):
        mode = lambda: self.chosen(MODE_OF)
        return mode(), dict(self.ascending(lambda: (self.key(), mode()), lambda p: key_order(p[0])))

    # Contents and operations.

    def content(self):
        out = {"type": self.chosen(TYPE_OF)}
        content_id = self.take(16)
        getattr(self, out["type"].lower())(out)
        self.end()
        return out, content_id

    def numbers(self, out, names):
        for name in names:
            out[name] = self.number(4, True)

    def iceberg_table(self, out):
        out["metadataLocation"], out["snapshotId"] = self.text(), self.number(8, True)
        self.numbers(out, ("schemaId", "specId", "sortOrderId"))

    def iceberg_view(self, out):
        out["metadataLocation"], out["versionId"] = self.text(), self.number(8, True)
        self.numbers(out, ("schemaId",))

    def delta_lake_table(self, out):
        out["metadataLocationHistory"] = self.list(self.text)
        out["checkpointLocationHistory"] = self.list(self.text)
        out["lastCheckpoint"] = self.option(self.text)

    def udf(self, out):
        for name in ("metadataLocation", "versionId", "signatureId"):
            out[name] = self.text()

    def namespace(self, out):
        out["elements"], out["properties"] = self.list(self.text), self.texts_to(self.text)

    def operation(self, fresh_id):
        key, what = self.key(), self.chosen({0: "DELETE", 1: "PUT", 2: "UNCHANGED"})
        if what != "PUT":
            return Operation(what, key)
        fresh = self.chosen({0: False, 1: True})
        content, content_id = Reader(self.take(self.number(4))).content()
        need(not fresh or content_id == fresh_id)
        return Operation(what, key, content, None if fresh else content_id)

    # Sweeps.

    def cutoff(self):
        kind = self.chosen(CUTOFF_OF)
        if kind == ALL:
            return (ALL,)
        bound = self.number(4) if kind == COMMITS else self.moment()
        need(kind == SINCE or bound > 0)
        return kind, bound

    def hashes(self):
        return self.ascending(self.hash)

    # Entries.

    def create(self, draft):
        return self.name(), self.reference_kind(), self.source()

    def assign(self, draft):
        return (self.name(), self.option(self.reference_kind), self.option(self.hash), self.source())

    def delete(self, draft):
        return self.name(), self.option(self.reference_kind), self.option(self.hash)

    def commit(self, draft):
        name, expected, meta = self.name(), self.option(self.hash), self.meta()
        operations = [self.operation(u64(draft) + u64(i)) for i in range(self.number(4))]
        return name, expected, meta, operations, {}

    def merge(self, draft):
        front = self.name(), self.option(self.hash), self.name(), self.hash(), self.meta()
        return front + self.modes()

    def transplant(self, draft):
        front = self.name(), self.option(self.hash), self.name(), self.list(self.hash)
        return front + self.modes()

    def sweep(self, draft):
        opened, default = self.number(4), self.cutoff()
        pairs = self.list(lambda: (self.pattern(), self.cutoff()))
        return opened, (default, pairs), self.hashes(), self.hashes()

    def entry(self):
        what = self.chosen(KIND_OF)
        place, draft, moment = self.number(4), self.number(8), None
        need((draft > 0) == (what in ("commit", "merge", "transplant")))
        moment = self.moment()
        command = getattr(self, what)(draft)
        head = None if what in ("delete", "sweep") else self.hash()
        self.end()
        return what, place, draft, moment, command, head

    # Checkpoints.

    def framed(self, read):
        inside = Reader(self.take(self.number(4)))
        out = read(inside)
        inside.end()
        return out

    def change(self):
        key = self.key()
        return key, self.option(lambda: (self.chosen(TYPE_OF), self.take(16), self.hash()))

    def written_commit(self):
        need(self.take(3) == b"NC1")
        front = self.hash(), self.option(self.hash), self.number(8), self.moment(), self.meta()
        return Commit(*front, self.ascending(self.change, lambda c: key_order(c[0])))

    def reference(self):
        return self.name(), self.reference_kind(), self.hash()

    def checkpoint(self):
        """The place, the greatest draft number, those that were open below it, and the state's three lists."""
        need(self.number(1) == CHECKPOINT)
        place, draft = self.number(4), self.number(8)
        left = self.ascending(lambda: self.number(8))
        need(all(0 < n < draft for n in left))
        references = self.ascending(self.reference, lambda r: r[0].encode("utf-8"))
        commits = self.list(lambda: self.framed(Reader.written_commit))
        contents = self.ascending(
            lambda: self.framed(Reader.content), lambda c: sha256(content_bytes(*c)).digest())
        self.end()
        return place, draft, left, references, commits, contents


def walked(file):
    """The payloads behind open gates, each with its gate's offset, and the gate that has no frame, or None."""
    out, at = [], len(HEADER)
    while file[at] == 1:
        end = at + 5 + int.from_bytes(file[at + 1:at + 5], "big")
        if end >= len(file):
            return out, at
        out.append((at, file[at + 5:end]))
        at = end
    return out, None


def read_at(gate, read, spelled):
    try:
        return read(Reader(spelled))
    except NoReading:
        raise Unopened(b"damaged at %d" % gate)


def recovered(file):
    """The base of a file, or None, and the entries behind it, each with the bytes that spell it.

    What stands before the base is walked by its lengths and not read; in format 1 all are entries.
    """
    if not file:
        return None, []
    if len(file) <= len(HEADER) or file[:8] != HEADER[:8]:
        raise Unopened(b"damaged at 0")
    version = int.from_bytes(file[8:12], "big")
    if version != 1:
        raise Unopened(b"version %d" % version)
    if any(file[12:15]):
        raise Unopened(b"damaged at 12")
    found, broken = walked(file)
    bases = [i for i, (_, p) in enumerate(found) if p[:1] == bytes([CHECKPOINT]) and file[15] == HEADER[15]]
    behind = bases[-1] + 1 if bases else 0
    base = read_at(found[behind - 1][0], Reader.checkpoint, found[behind - 1][1]) if bases else None
    entries = []
    for gate, spelled in found[behind:]:
        if len(entries) == MOST_ENTRIES:
            raise Unopened(b"damaged at %d" % gate)
        entries.append((read_at(gate, Reader.entry, spelled), spelled))
    if broken is not None:
        raise Unopened(b"damaged at %d" % broken)
    return base, entries


def is_well_made(what, command):
    """What a request has to keep before it reaches the catalogue."""
    try:
        if what == "commit":
            need_operations(command[3])
        if what == "transplant":
            need_hashes(command[3])
    except NoReading:
        return False
    return True


def opened(file):
    """The catalogue that a file's base and entries lead to. Each entry has to be just what it makes itself."""
    c = Catalogue()
    base, entries = recovered(file)
    if base is not None:
        c.start(*base)
        if len(c.commits) < len(base[4]) or not c.may_start():
            raise Unopened(b"illegal entry %d" % c.first)
    for number, ((what, _, draft, moment, command, _), spelled) in enumerate(entries):
        illegal = Unopened(b"illegal entry %d" % (c.first + number + 1))
        if not is_well_made(what, command) or not c.is_new(draft):
            raise illegal
        try:
            c.again(what, draft, moment, command)
        except Refused:
            raise illegal
        if [payload(e, moment) for e in c.log[number:]] != [spelled]:
            raise illegal
    return c


def line_of(c):
    """What `check` says of a catalogue."""
    return b"entries %d references %d commits %d contents %d head %s\n" % (
        c.place, len(c.references), len(c.commits), len(c.contents),
        c.references["main"][1].hex().encode())


def told(file):
    """What `check` says of a file."""
    try:
        return line_of(opened(bytes(file)))
    except Unopened as e:
        return e.line
