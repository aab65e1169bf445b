"""Cuts power between any two disk calls of the program. `tools/power.sh` says how.

    run.py PROGRAM LIBRARY [SECONDS] [--seed N] [--images N] [--limit SECONDS] [--keep FOLDER] [--spoil]
"""
import argparse
import collections
import os
import random
import shutil
import sys
import tempfile
import time

from images import images
from session import Recording
from catalogues import go_on, journal, told
from program import Program, Wrong, need_same, write


class Cuts:
    def __init__(self, options, folder):
        self.options, self.folder = options, folder
        self.rng = random.Random(options.seed)
        self.program = Program(options.program, options.limit)
        self.counts = collections.Counter()
        self.ways = collections.Counter()
        self.until = time.monotonic() + options.seconds
        self.image = None
        self.rounds = 0

    def path(self, name):
        return os.path.join(self.folder, name)

    def recorded(self, first):
        """Sessions on a journal that holds these bytes, or that isn't there yet."""
        path, self.image = self.path("journal"), None
        for old in (path, path + ".log"):
            if os.path.exists(old):
                os.remove(old)
        if first is not None:
            write(path, first)
        recording = Recording(self.program, self.options.library, path, self.rng)
        for _ in range(self.rng.choice([1, 1, 2])):
            recording.session(self.rng.randrange(1, 12))
            if self.rng.random() < 0.4:
                recording.collection()
        if self.options.spoil:
            recording.without(0.5)
        self.counts["sessions on %s" % ("a journal that a cut had left" if first is not None else "a new journal")] += 1
        self.counts["requests and collections by words"] += recording.requests
        self.counts["entries"] += recording.c.place - recording.acknowledged[0][0]
        self.counts["checkpoints"] += len(recording.c.bases)
        self.counts["disk calls"] += sum(event.kind in "wtsd" for event in recording.events)
        return recording

    def opened(self, image, recording):
        """The places of an image's last entry and of its checkpoint, the entries between being those that were asked for, after which a session goes on; None where it is refused."""
        path = write(self.path("image"), image)
        line, status, c = told(image)
        need_same("check of the image", (status, line), self.program.run(["check", path]))
        if c is None:
            return None
        place, first, payloads = c.place, c.first, [journal.payload(entry, entry[3]) for entry in c.log]
        need_same("the image's entries", recording.payloads(first, place), payloads)
        if place in recording.lines:
            need_same("the image's state", recording.lines[place], line)
        if not go_on(self.program, path, c):
            raise Wrong("a commit upon the image is refused")
        return place, first

    def cut(self, recording, number, seen):
        """The images of a cut after so many events."""
        events, (least, base) = recording.events[:number], recording.acknowledged[number]
        replied = max((at for at, event in enumerate(events) if event.kind == "r"), default=-1)
        most = least + any(event.kind == "w" and event.at >= len(journal.HEADER) for event in events[replied + 1:])
        made = bool(recording.first) or any(event.kind == "s" for event in events[first_write(events):])
        for image, ways in images(self.rng, recording.first or b"", events, self.options.images):
            self.image = image
            self.counts["images"] += 1
            self.ways.update(ways)
            try:
                if image not in seen:
                    seen[image] = self.opened(image, recording)
                    self.counts["images that differ"] += 1
                self.judge(seen[image], least, most, base, made)
            except Wrong as wrong:
                raise Wrong("round %d, a cut after %d events, of what wasn't synced %s: %s" % (self.rounds, number, ", ".join(ways), wrong))

    def judge(self, found, least, most, base, made):
        if found is None:
            if made:
                raise Wrong("a journal that was made is refused, with %d entries acknowledged" % least)
            self.counts["refused before the journal was made"] += 1
            return
        place, first = found
        if not least <= place <= most:
            raise Wrong("%d entries, where %d were acknowledged and %d asked for" % (place, least, most))
        elif first < base or first > base and place > least:
            raise Wrong("a checkpoint at %d, where the last that was acknowledged is at %d" % (first, base))
        elif first > base:
            self.counts["with the checkpoint in flight"] += 1
        else:
            self.counts["with the call in flight" if place > least else "with what was acknowledged"] += 1

    def round(self, first):
        """Sessions and all their cuts; one of the images, to begin the next round with."""
        self.rounds += 1
        recording, seen = self.recorded(first), {}
        for number in range(len(recording.events) + 1):
            if time.monotonic() > self.until:
                break
            self.counts["cuts"] += 1
            self.cut(recording, number, seen)
        opened = [image for image, found in seen.items() if found is not None and found[0] < 40]
        return self.rng.choice(opened) if opened and self.rng.random() < 0.65 else None

    def report(self, seconds, wrong):
        for counts in (self.counts, self.ways):
            for what in sorted(counts):
                print("   %-50s %d" % (what, counts[what]))
        told = "seed %d, %d seconds, %d cuts, %d images, %d runs of the program"
        told %= self.options.seed, seconds, self.counts["cuts"], self.counts["images"], self.program.runs
        print(told + (": an image breaks the rule" if wrong else ": no image breaks the rule"), flush=True)


def first_write(events):
    return next((number for number, event in enumerate(events) if event.kind == "w"), len(events))


def main():
    parser = argparse.ArgumentParser()
    parser.add_argument("program")
    parser.add_argument("library")
    parser.add_argument("seconds", type=float, nargs="?", default=600)
    parser.add_argument("--seed", type=int, default=random.SystemRandom().randrange(10 ** 6))
    parser.add_argument("--images", type=int, default=5, help="images of a cut beside those with nothing and all of what wasn't synced")
    parser.add_argument("--limit", type=float, default=60, help="seconds that a run may take")
    parser.add_argument("--keep", default=tempfile.gettempdir(), help="the folder that an image that breaks the rule goes to")
    parser.add_argument("--spoil", action="store_true", help="half of the syncs count as not made, which has to be found")
    options = parser.parse_args()
    print("seed %d" % options.seed, flush=True)
    folder, began = tempfile.mkdtemp(prefix="nessie-power-"), time.monotonic()
    cuts, first, wrong = Cuts(options, folder), None, None
    try:
        while wrong is None and time.monotonic() < cuts.until:
            first = cuts.round(first)
    except Wrong as found:
        wrong = found
        print("WRONG %s\n   again: tools/power.sh --seed %d" % (wrong, options.seed))
        if cuts.image is not None:
            print("   the image: " + write(os.path.join(options.keep, "power-%d.journal" % options.seed), cuts.image))
    finally:
        shutil.rmtree(folder, ignore_errors=True)
    cuts.report(time.monotonic() - began, wrong)
    return 1 if (wrong is None) == options.spoil else 0


if __name__ == "__main__":
    sys.exit(main())
