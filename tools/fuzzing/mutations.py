"""Changes of bytes at random."""

TOKENS = [
    b"\r\n", b"\r\n\r\n", b"\n", b"\r", b" ", b"\x00", b"\xff", b"\xc3\xa9", b"\xed\xa0\x80", b"\xf4\x90\x80\x80", b"\xef\xbb\xbf",
    b"Content-Length: 5\r\n", b"Content-Length: 1048577\r\n", b"Content-Length: 18446744073709551616\r\n", b"Content-Length: 0\r\n",
    b"Transfer-Encoding: chunked\r\n", b"Transfer-Encoding: gzip\r\n", b"Connection: close\r\n", b"Content-Encoding: gzip\r\n",
    b"Expect: 100-continue\r\n", b"HTTP/1.0", b"HTTP/1.1", b"HTTP/2.0", b"GET ", b"HEAD ", b"POST ", b"PUT ", b"DELETE ", b"/",
    b"%00", b"%FF", b"%1D", b"%2F", b"%40", b"%", b"@", b"@@", b"~1", b"?", b"&", b"=", b"#", b"+", b".", b"..", b"-", b"*", b"key=a",
    b"max-records=1&", b"page-token=", b"0\r\n\r\n", b"1\r\nx\r\n", b"FFFFFFFF\r\n", b"100000\r\n", b";x=", b":",
    b"{", b"}", b"[", b"]", b'"', b",", b"null", b"true", b"1e999", b"-0", b"0.1", b"99999999999999999999", b'"\\ud800"', b"\\u0000",
    b'"type":"PUT",', b'"id":null,', b'{"elements":["a"]}', b"BRANCH", b"TAG", b"DETACHED", b"NAMESPACE", b"FORCE", b"NONE", b"P1D",
]
NUMBERS = [b"0", b"1", b"-1", b"255", b"256", b"65535", b"65536", b"2147483648", b"4294967295", b"4294967296", b"9223372036854775808",
           b"18446744073709551615", b"18446744073709551616", b"1" * 400, b"00000000000000000001"]


def span(rng, b, most=None):
    """A place and a length within the bytes, for the most part short."""
    at = rng.randrange(len(b))
    room = len(b) - at
    return at, rng.randrange(1, min(room, rng.choice([2, 4, 16, 64, room, most or room])) + 1)


def flipped(rng, b):
    at = rng.randrange(len(b))
    return b[:at] + bytes([b[at] ^ 1 << rng.randrange(8)]) + b[at + 1:]


def changed(rng, b):
    at = rng.randrange(len(b))
    return b[:at] + bytes([rng.choice([0, 1, 2, 0x7f, 0x80, 0xff, rng.randrange(256)])]) + b[at + 1:]


def cut(rng, b):
    at = rng.randrange(len(b))
    return b[:at] if rng.random() < 0.7 else b[at:]


def removed(rng, b):
    at, size = span(rng, b)
    return b[:at] + b[at + size:]


def doubled(rng, b):
    at, size = span(rng, b)
    return b[:at + size] + b[at:at + size] * rng.choice([1, 1, 1, 2, 5]) + b[at + size:]


def moved(rng, b):
    at, size = span(rng, b)
    rest = b[:at] + b[at + size:]
    to = rng.randrange(len(rest) + 1)
    return rest[:to] + b[at:at + size] + rest[to:]


def inserted(rng, b):
    at = rng.randrange(len(b) + 1)
    return b[:at] + rng.choice(TOKENS) + b[at:]


def overwritten(rng, b):
    at = rng.randrange(len(b))
    token = rng.choice(TOKENS)
    return b[:at] + token + b[at + len(token):]


def noise(rng, b):
    at, size = span(rng, b, 200)
    return b[:at] + bytes(rng.randrange(256) for _ in range(size)) + b[at + size:]


def repeated(rng, b):
    at = rng.randrange(len(b))
    return b[:at] + b[at:at + 1] * rng.choice([2, 20, 200, 20000]) + b[at:]


def renumbered(rng, b):
    """A run of digits is another number."""
    digits = [i for i in range(len(b)) if b[i:i + 1].isdigit() and not b[i - 1:i].isdigit()]
    if not digits:
        return inserted(rng, b)
    at = rng.choice(digits)
    end = at
    while b[end:end + 1].isdigit():
        end += 1
    return b[:at] + rng.choice(NUMBERS) + b[end:]


TEXTS = [flipped, changed, cut, removed, doubled, moved, inserted, inserted, overwritten, noise, repeated, renumbered]


def mutated(rng, b, ways=TEXTS, most=5):
    for _ in range(rng.randrange(1, most + 1)):
        if b:
            b = rng.choice(ways)(rng, b)
    return b
