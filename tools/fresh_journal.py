#!/usr/bin/env python3
"""Starts a fresh journal from the last checkpoint of another: a header of format 2, and all bytes from the
checkpoint's frame on. Both open to the same catalogue; the fresh one has nothing of what stood before.

    fresh_journal.py [--program FILE] JOURNAL FRESH

JOURNAL isn't changed, and nobody may be writing it. FRESH may not be there yet. Both are opened by the
program's `check` (`./nessie` where none is named): FRESH is written whole and synced, and says the same line
as JOURNAL, or isn't left there. The status is 1 where JOURNAL has no checkpoint, or isn't opened, or FRESH
would not be as it is.
"""

import argparse
import os
import shutil
import subprocess
import sys

TOP = os.path.dirname(os.path.dirname(os.path.abspath(__file__)))
MAGIC = b"NESSIECJ\0\0\0\x01\0\0\0"
NEWER = 1
CHECKPOINT = 8


class Refused(Exception):
    """Why there is no fresh journal."""


def line_of(program, path):
    """What `check` says of a journal."""
    ran = subprocess.run([program, "check", path], stdin=subprocess.DEVNULL, capture_output=True)
    if ran.returncode:
        lines = [said.decode(errors="replace").strip().splitlines()[-1] for said in (ran.stdout, ran.stderr) if said.strip()]
        raise Refused("; ".join(lines))
    return ran.stdout


def last_checkpoint(file):
    """Where the frame of the last checkpoint begins: frames are walked by their lengths."""
    file.seek(0)
    found, at = None, len(MAGIC) + 1
    if file.read(at) == MAGIC + bytes([NEWER]):
        while True:
            file.seek(at)
            head = file.read(6)
            if head[:1] != b"\x01":
                break
            if head[5:] == bytes([CHECKPOINT]):
                found = at
            at += 5 + int.from_bytes(head[1:5], "big")
    if found is None:
        raise Refused("no checkpoint")
    return found


def write(file, partial):
    """The header and all from the last checkpoint on, synced."""
    begins = last_checkpoint(file)
    with open(partial, "xb") as out:
        out.write(MAGIC + bytes([NEWER]))
        file.seek(begins)
        shutil.copyfileobj(file, out, 1 << 20)
        out.flush()
        os.fsync(out.fileno())


def begin(program, old, fresh):
    with open(old, "rb") as file:
        if not os.fstat(file.fileno()).st_size:
            raise Refused("no checkpoint")
        said = line_of(program, old)
        partial = fresh + ".partial"
        write(file, partial)
    try:
        if line_of(program, partial) != said:
            raise Refused("it would not be the same catalogue")
        os.link(partial, fresh)
    finally:
        os.unlink(partial)
    folder = os.open(os.path.dirname(os.path.abspath(fresh)), os.O_RDONLY)
    os.fsync(folder)
    os.close(folder)


def main():
    words = argparse.ArgumentParser(description=__doc__.splitlines()[0])
    words.add_argument("--program", default=os.path.join(TOP, "nessie"))
    words.add_argument("journal")
    words.add_argument("fresh")
    asked = words.parse_args()
    try:
        begin(asked.program, asked.journal, asked.fresh)
    except (Refused, OSError) as why:
        print("fresh_journal: %s" % why, file=sys.stderr)
        return 1
    return 0


if __name__ == "__main__":
    sys.exit(main())
