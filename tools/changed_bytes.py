#!/usr/bin/env python3
"""Changes each byte of the first commit's journal to each other value, and asks `nessie check` of each
of these 49,470 files what it is.

    changed_bytes.py [--program FILE] [--workers N] [FIRST LAST]

FIRST and LAST are places in the file. What is told has to be what `told` says, which was made from the
description of the format alone, and what `oracle/reading.py` reads. The first differences are printed,
and the status is 1 where there is one. `TMPDIR=/dev/shm` makes it faster.
"""

import argparse
import collections
import multiprocessing
import os
import subprocess
import sys
import tempfile

TOP = os.path.dirname(os.path.dirname(os.path.abspath(__file__)))
sys.path.insert(0, os.path.join(TOP, "oracle"))
import compare
import reading

ROOT = "2e1cfa82b035c26cbbbdae632cea070514eb8b773f616aaeaf668e2f0be8f10d"
HEAD = "f92df14c291c55081a6374c5074b1394016591b1981cd32b3bddb20a3f86d5d4"
FILE = bytes.fromhex(
    "4e4553534945434a 00000001 00000001 01 000000ac 04 00000001 0000000000000001 00000000000f4240"
    "00000004 6d61696e 01" + ROOT + "00000003 6f6e65 00000000 00000000 00000000 00"
    "00000001 01 0002 7431 01 01 0000002b"
    "01 0000000000000001 0000000000000000 00000002 6d31 0000000000000001 00000000 00000000 00000000"
    + HEAD + "00")
OF_NONE = "entries 0 references 1 commits 0 contents 0 head " + ROOT
OF_ONE = "entries 1 references 1 commits 1 contents 1 head " + HEAD
DAMAGED, ILLEGAL = "nessie: damaged at 16", "nessie: illegal entry 1"
LAST_MOMENT = 253402207200999999
IN_NAMES = b"abcdefghijklmnopqrstuvwxyzABCDEFGHIJKLMNOPQRSTUVWXYZ"


def number(at, size, place, value):
    """The number that stands there, with one byte changed."""
    changed = bytearray(FILE[at:at + size])
    changed[place - at] = value
    return int.from_bytes(changed, "big")


def told(place, value):
    """The line for the file whose byte at this place has this other value."""
    if place < 8:  # the magic
        return "nessie: damaged at 0"
    if place < 12:
        return "nessie: version %d" % number(8, 4, place, value)
    if place < 15:  # the bytes that are 0
        return "nessie: damaged at 12"
    if place == 15:  # the format's gate
        return OF_ONE
    if place == 16:  # the gate, which is closed then
        return OF_NONE
    if place < 22:  # the length, and the kind: nothing shorter, longer or of another kind reads
        return DAMAGED
    if place < 26:  # the place, which has to be 1
        return ILLEGAL
    if place < 34:  # the draft, which the new id has too
        return DAMAGED
    if place < 42:  # the moment makes another head
        return ILLEGAL if number(34, 8, place, value) <= LAST_MOMENT else DAMAGED
    if place < 46:  # the length of the branch's name
        return DAMAGED
    if place < 50:  # the branch's name: another isn't there
        others = b"0123456789./_-" if 46 < place < 49 else b"0123456789_-" if place == 49 else b""
        return ILLEGAL if value in IN_NAMES + others else DAMAGED
    if place == 50:  # that a head is expected
        return DAMAGED
    if place < 83:  # the expected head: another isn't known
        return ILLEGAL
    if place < 87:  # the message's length
        return DAMAGED
    if place < 90:  # the message, any text
        return ILLEGAL if value < 0x80 else DAMAGED
    if place < 110:  # counts, that there is no time of the author, the key's form
        return DAMAGED
    if place < 112:  # the key's element, without control characters
        return ILLEGAL if 0x20 <= value < 0x80 else DAMAGED
    if place == 112:  # a put
        return DAMAGED
    if place == 113:  # whether the id is new; one that isn't new is to be there
        return ILLEGAL if value == 0 else DAMAGED
    if place < 139:  # the content's length, its type, its id and its text's length
        return DAMAGED
    if place < 141:  # its text, any
        return ILLEGAL if value < 0x80 else DAMAGED
    if place < 193:  # its numbers, any, and the head
        return ILLEGAL
    return "nessie: damaged at 193" if value == 1 else OF_ONE  # the next gate


def read(file):
    """The line that the rules in Python have for a file."""
    try:
        return compare.line_of(reading.opened(file)).decode().strip()
    except reading.Unopened as unopened:
        return unopened.line.decode().strip()


def of_place(work):
    """How many files were tried at a place, and what differs."""
    program, place, room = work
    path = os.path.join(room, str(place))
    found = []
    for value in range(256):
        if value == FILE[place]:
            continue
        changed = bytearray(FILE)
        changed[place] = value
        with open(path, "wb") as out:
            out.write(changed)
        got = subprocess.run([program, "check", path], stdout=subprocess.PIPE, stderr=subprocess.PIPE)
        line = told(place, value)
        wanted = line, 0 if line.startswith("entries") else 3
        came = got.stdout.decode().strip(), got.returncode
        with open(path, "rb") as kept:
            is_kept = kept.read() == changed
        if came != wanted or read(bytes(changed)) != line or not is_kept:
            found.append((place, value, wanted, came, read(bytes(changed)), is_kept))
    os.remove(path)
    return place, found


def main():
    words = argparse.ArgumentParser()
    words.add_argument("--program", default=os.path.join(TOP, "crates", "nessie", "out", "nessie"))
    words.add_argument("--workers", type=int, default=2)
    words.add_argument("places", nargs="*", type=int)
    options = words.parse_args()
    first, last = options.places or (0, len(FILE) - 1)
    answers = collections.Counter(told(p, v) for p in range(first, last + 1) for v in range(256) if v != FILE[p])
    differences = []
    with tempfile.TemporaryDirectory() as room, multiprocessing.Pool(options.workers) as pool:
        for _, found in pool.imap(of_place, [(options.program, p, room) for p in range(first, last + 1)]):
            differences += found
    for difference in differences[:10]:
        print("place %d, value %d: wanted %s, came %s, read %s, the file as it was: %s" % difference)
    versions = sum(n for line, n in answers.items() if line.startswith("nessie: version"))
    for line, n in sorted(answers.items()):
        if not line.startswith("nessie: version"):
            print("%6d  %s" % (n, line))
    print("%6d  nessie: version N" % versions)
    print("%d openings, %d differences" % (sum(answers.values()), len(differences)))
    return 1 if differences else 0


if __name__ == "__main__":
    sys.exit(main())
