"""What a power cut may leave of a file: all that was synced, and of each write since then any part."""
import struct
from typing import NamedTuple

SECTOR = 512


class Event(NamedTuple):
    """One call of the program, as record.c tells it."""
    kind: str  # w, t, s, d, r
    at: int
    size: int
    piece: bytes


def events_of(told):
    """The events of a record's bytes."""
    out, at = [], 0
    while at < len(told):
        kind, place, size = struct.unpack_from("<cQQ", told, at)
        at += 17
        piece = told[at:at + size] if kind == b"w" else b""
        at += len(piece)
        out.append(Event(kind.decode(), place, size, piece))
    return out


def put(old, at, piece):
    return old[:at].ljust(at, b"\0") + piece + old[at + len(piece):]


def done(file, events):
    """The file once these calls are done."""
    for event in events:
        if event.kind == "w":
            file = put(file, event.at, event.piece)
        elif event.kind == "t":
            file = file[:event.at].ljust(event.at, b"\0")
    return file


# What may be left of one write, over the file without it.

def nothing(rng, old, at, piece):
    return old


def whole(rng, old, at, piece):
    return put(old, at, piece)


def front(rng, old, at, piece):
    return put(old, at, piece[:rng.choice([1, len(piece) - 1, rng.randrange(len(piece) + 1)])])


def back(rng, old, at, piece):
    """The last bytes are there, and what stands before them is as it was, or zeros past the old end."""
    size = rng.randrange(len(piece) + 1)
    return put(old, at + size, piece[size:]) if size < len(piece) else old


def sectors(rng, old, at, piece):
    """Each sector is there or not; one that isn't is as it was, or holds zeros or any bytes, as all of it may past the old end."""
    out, place = old, at
    while place < at + len(piece):
        end = min((place // SECTOR + 1) * SECTOR, at + len(piece))
        new = piece[place - at:end - at]
        what = rng.randrange(4)
        if what > 0:
            out = put(out, place, new if what < 3 else rng.choice([bytes(len(new)), rng.randbytes(len(new))]))
        place = end
    return out


def zeros(rng, old, at, piece):
    return put(old, at, bytes(len(piece)))


def ones(rng, old, at, piece):
    return put(old, at, b"\x01" * len(piece))


def noise(rng, old, at, piece):
    return put(old, at, rng.randbytes(len(piece)))


def bits(rng, old, at, piece):
    """Some bits are as they are to be, others aren't."""
    return put(old, at, bytes(b ^ (1 << rng.randrange(8) if rng.random() < 0.2 else 0) for b in piece))


WAYS = [nothing, whole, front, front, back, sectors, sectors, sectors, zeros, ones, noise, bits]


def torn(rng, old, event):
    """The file after some part of a call, and how much of it."""
    if event.kind == "t":
        size = min(event.at, len(old))
        return old[:rng.choice([len(old), size, rng.randrange(size, len(old) + 1)])], "cut"
    way = rng.choice(WAYS)
    out = way(rng, old, event.at, event.piece)
    if len(out) > len(old) and rng.random() < 0.3:
        # The file isn't so long yet.
        return out[:rng.randrange(len(old), len(out) + 1)], way.__name__ + ", shorter"
    return out, way.__name__


def images(rng, first, events, more):
    """What a cut after these events may leave, each with how it came about: with none and all of the calls since the last sync, and some more."""
    synced = max((number + 1 for number, event in enumerate(events) if event.kind == "s"), default=0)
    kept = done(first, events[:synced])
    since = [event for event in events[synced:] if event.kind in "wt"]
    if not since:
        yield kept, ["all was synced"]
        return
    yield kept, ["nothing"]
    yield done(kept, since), ["whole"]
    for _ in range(more):
        out, ways = kept, []
        for event in since:
            out, way = torn(rng, out, event)
            ways.append(way)
        yield out, ways
