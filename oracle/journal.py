"""The file that a catalogue's log is kept in: a header, then frames of one entry or one checkpoint each."""

from catalogue import (
    TAG, NORMAL, FORCE, DROP, ALL, COMMITS, SINCE, content_bytes, key_bytes, key_order, listed, meta_bytes,
    option, text, u8, u32, u64)

OLD = b"NESSIECJ" + u32(1) + u32(0)
HEADER = b"NESSIECJ" + u32(1) + u32(1)
KINDS = {"create": 1, "assign": 2, "delete": 3, "commit": 4, "merge": 5, "transplant": 6, "sweep": 7}
MODES = {NORMAL: 0, FORCE: 1, DROP: 2}
CUTOFFS = {ALL: 0, COMMITS: 1, SINCE: 2}
CHECKPOINT = 8


def plain(b):
    return b


def kind_bytes(kind):
    return u8(2 if kind == TAG else 1)


def source_bytes(source):
    _, name, commit_hash = source
    return option(name, text) + option(commit_hash, plain)


def modes_bytes(default, of_keys):
    pairs = sorted(of_keys.items(), key=lambda p: key_order(p[0]))
    return u8(MODES[default]) + listed(pairs, lambda p: key_bytes(p[0]) + u8(MODES[p[1]]))


def cutoff_bytes(cutoff):
    kind, *bound = cutoff
    return u8(CUTOFFS[kind]) + b"".join((u32 if kind == COMMITS else u64)(n) for n in bound)


def policy_bytes(policy):
    default, pairs = policy
    return cutoff_bytes(default) + listed(pairs, lambda p: text(p[0]) + cutoff_bytes(p[1]))


def operation(o, entries):
    if o.what == "DELETE":
        return key_bytes(o.key) + u8(0)
    if o.what == "UNCHANGED":
        return key_bytes(o.key) + u8(2)
    spelled = content_bytes(o.content, entries[o.key][1])
    fresh = u8(1 if o.given_id is None else 0)
    return key_bytes(o.key) + u8(1) + fresh + u32(len(spelled)) + spelled


def command_bytes(what, command):
    if what == "create":
        name, kind, source = command
        return text(name) + kind_bytes(kind) + source_bytes(source)
    if what == "assign":
        name, kind, expected, source = command
        return (text(name) + option(kind, kind_bytes) + option(expected, plain)
                + source_bytes(source))
    if what == "delete":
        name, kind, expected = command
        return text(name) + option(kind, kind_bytes) + option(expected, plain)
    if what == "commit":
        name, expected, meta, operations, entries = command
        return (text(name) + option(expected, plain) + meta_bytes(meta)
                + listed(operations, lambda o: operation(o, entries)))
    if what == "merge":
        name, path_hash, from_name, from_hash, meta, default, of_keys = command
        return (text(name) + option(path_hash, plain) + text(from_name) + from_hash
                + meta_bytes(meta) + modes_bytes(default, of_keys))
    if what == "sweep":
        opened, policy, commits, contents = command
        return u32(opened) + policy_bytes(policy) + listed(commits, plain) + listed(contents, plain)
    name, path_hash, from_name, hashes, default, of_keys = command
    return (text(name) + option(path_hash, plain) + text(from_name) + listed(hashes, plain)
            + modes_bytes(default, of_keys))


def payload(entry, moment):
    what, place, draft, _, command, head = entry
    return (u8(KINDS[what]) + u32(place) + u64(draft) + u64(moment) + command_bytes(what, command)
            + (b"" if head is None else head))


def framed(spelled):
    return u32(len(spelled)) + spelled


def checkpoint(c, left=()):
    """The payload of a checkpoint of a catalogue; `left` are the numbers of the drafts that are open.

    Drafts that were refused and left no entry aren't in the log, and its greatest number isn't theirs.
    """
    draft = max([c.taken] + [e[2] for e in c.log])
    named = sorted(c.references.items(), key=lambda r: r[0].encode("utf-8"))
    return (u8(CHECKPOINT) + u32(c.place) + u64(draft)
            + listed(sorted(n for n in left if n < draft), u64)
            + listed(named, lambda r: text(r[0]) + kind_bytes(r[1][0]) + r[1][1])
            + listed(c.commits.values(), lambda commit: framed(commit.spell()))
            + listed(sorted(c.contents), lambda h: framed(content_bytes(*c.contents[h]))))


def written(payloads):
    frames = [b"\x01" + u32(len(p)) + p for p in payloads]
    return HEADER + b"".join(frames) + b"\x00"


def gates(file):
    """Where the gate of each entry is in a file without a fault, and last the closed one."""
    out = [len(HEADER)]
    while file[out[-1]] == 1:
        out.append(out[-1] + 5 + int.from_bytes(file[out[-1] + 1:out[-1] + 5], "big"))
    return out


def is_base(file, gate):
    """Whether the payload behind a gate is a checkpoint's."""
    return file[15:16] == HEADER[15:16] and file[gate + 1:gate + 5] != bytes(4) and file[gate + 5] == CHECKPOINT


def entry_gates(file):
    """The same without those of checkpoints."""
    found = gates(file)
    return [gate for gate in found[:-1] if not is_base(file, gate)] + found[-1:]


def last_moment(file):
    """That of a file's last entry, or 0."""
    found = entry_gates(file) if file else [0]
    return moment_at(file, found[-2]) if len(found) > 1 else 0


def newer(file):
    """The file once it is migrated."""
    return file[:15] + HEADER[15:] + file[16:] if file else HEADER + b"\x00"


def from_last_checkpoint(file):
    """The bytes of a fresh journal that opens as this one: a header of format 2, and all from the frame of
    the last checkpoint on. None where there is no checkpoint."""
    found = [gate for gate in gates(file)[:-1] if is_base(file, gate)]
    return HEADER + file[found[-1]:] if found else None


def moment_at(file, gate):
    return int.from_bytes(file[gate + 18:gate + 26], "big")


def appended(file, entry):
    """The file with one entry more."""
    spelled = payload(entry, entry[3])
    gate = gates(file)[-1]
    return file[:gate] + b"\x01" + u32(len(spelled)) + spelled + b"\x00"


def compared(found, log, bases=(), header=HEADER):
    """What differs between a file's bytes and a log, or None.

    The moments of references' calls are told by no reply, and are taken from the file. Each base is a
    checkpoint's payload, with the number of entries before it.
    """
    if found[:len(header)] != header:
        return "the header: %s" % found[:len(header)].hex()
    out = header
    last = 0
    for number, entry in enumerate(list(log) + [None]):
        for spelled in [spelled for before, spelled in bases if before == number]:
            frame = u8(1) + u32(len(spelled)) + spelled
            if found[len(out):len(out) + len(frame)] != frame:
                return "checkpoint behind entry %d: %s instead of %s" % (
                    number, found[len(out):len(out) + len(frame)].hex(), frame.hex())
            out += frame
        if entry is None:
            break
        at = len(out)
        moment = moment_at(found, at)
        if entry[0] in ("commit", "merge", "transplant", "sweep") and moment != entry[3]:
            return "entry %d: the moment is another" % entry[1]
        if moment < last:
            return "entry %d: the moment falls" % entry[1]
        last = moment
        spelled = payload(entry, moment)
        frame = u8(1) + u32(len(spelled)) + spelled
        if found[at:at + len(frame)] != frame:
            return "entry %d (%s): %s instead of %s" % (
                entry[1], entry[0], found[at:at + len(frame)].hex(), frame.hex())
        out += frame
    if found[len(out):] != b"\x00":
        return "after the last entry: %s" % found[len(out):len(out) + 40].hex()
    return None
