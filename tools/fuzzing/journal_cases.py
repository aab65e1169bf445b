"""Journals whose bytes are changed: what opens, opens to what the rules read in it, and goes on; what doesn't is refused in the rules' line, and stays as it is."""
from catalogues import go_on, journal, spelled, told
from mutations import changed, cut, doubled, flipped, moved, noise, removed, repeated
from program import content_of, need_same, write

LARGE = [0, 1, 255, 256, 65535, 1 << 20, (1 << 31) - 1, 1 << 31, (1 << 32) - 2, (1 << 32) - 1]


def enlarged(rng, b):
    """A number of four bytes is greater, or any of the numbers at an end: a frame's length, for the most part."""
    gates = [gate + 1 for gate in gates_of(b)]
    at = rng.choice(gates) if gates and rng.random() < 0.6 else rng.randrange(max(1, len(b) - 4))
    old = int.from_bytes(b[at:at + 4], "big")
    new = rng.choice([old + 1, old + rng.randrange(300), max(old - 1, 0), rng.choice(LARGE)]) % (1 << 32)
    return b[:at] + new.to_bytes(4, "big") + b[at + 4:]


def gates_of(b):
    """Where gates stand, as far as the lengths lead."""
    out, at = [], 16
    while at < len(b) and b[at] == 1 and len(out) < 1000:
        out.append(at)
        at += 5 + int.from_bytes(b[at + 1:at + 5], "big")
    return out


def gate(rng, b):
    found = gates_of(b)
    if not found:
        return changed(rng, b)
    at = rng.choice(found)
    return b[:at] + bytes([rng.choice([0, 2, 255])]) + b[at + 1:]


def header(rng, b):
    at = rng.randrange(min(16, len(b)))
    return b[:at] + bytes([b[at] ^ 1 << rng.randrange(8)]) + b[at + 1:]


def frames_of(b):
    starts = gates_of(b)
    return [b[start:end] for start, end in zip(starts, starts[1:] + [len(b) - 1])]


def shuffled(rng, b):
    """Entries that are left out, come twice or change places."""
    frames = frames_of(b)
    if len(frames) < 2:
        return cut(rng, b)
    at, to = rng.randrange(len(frames)), rng.randrange(len(frames))
    what = rng.randrange(3)
    if what == 0:
        del frames[at]
    elif what == 1:
        frames.insert(to, frames[at])
    else:
        frames[at], frames[to] = frames[to], frames[at]
    return b[:16] + b"".join(frames) + b"\x00"


def replaced(rng, b):
    """Each byte of one value within an entry is another: lists and texts change their lengths together."""
    at = rng.randrange(16, max(17, len(b)))
    old, new = b[at:at + 1] or b"\x00", bytes([rng.randrange(256)])
    return b[:at] + b[at:at + 400].replace(old, new) + b[at + 400:]


def longer(rng, b):
    return b + rng.choice([bytes(rng.randrange(2, 5000)), b"\x01" * rng.randrange(1, 300), bytes(rng.randrange(256) for _ in range(rng.randrange(1, 400))), bytes(1 << 21)])


WAYS = [cut, flipped, changed, moved, doubled, removed, noise, repeated, enlarged, gate, header, shuffled, replaced, longer]


def some_journal(case):
    """A changed journal, and how it was changed."""
    _, b = case.base()
    names = []
    for _ in range(case.rng.choice([1, 1, 1, 1, 2, 3])):
        way = case.rng.choice(WAYS)
        if b:
            b = way(case.rng, b)
            names.append(way.__name__)
    if case.rng.random() < 0.05:
        # The beginning of one and the end of another.
        _, other = case.base()
        b, names = b[:case.rng.randrange(len(b) + 1)] + other[case.rng.randrange(len(other)):], names + ["joined"]
    return b, names


def journals(case):
    b, names = some_journal(case)
    path = write(case.path("journal"), b)
    line, status, c = told(b)
    need_same("check", (status, line), case.program.run(["check", path]))
    for name in names:
        case.count("way " + name)
    if c is None:
        case.count("refused: " + line.decode().rstrip("0123456789\n "))
        for words in (["script", path], ["gc", path, "1"], ["serve", path, "nowhere"]):
            if case.rng.random() < 0.25:
                need_same(words[0], (status, line), case.program.run(words, b"GET /api/v2/trees HTTP/1.1\r\n\r\n"))
        return need_same("the file that is refused", b, content_of(path))
    case.count("opened, whole" if len(c.log) >= len(case.entries) else "opened, fewer entries")
    if b:
        need_same("the file that was checked", b, content_of(path))
    case.count("went on" if go_on(case.program, path, c) else "no draft number is left")
