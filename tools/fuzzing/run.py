"""Feeds changed bytes to the program: as requests, as journals, as words. `tools/fuzz.sh` says how.

    run.py PROGRAM [SECONDS] [--seed N] [--only KIND] [--case NUMBER] [--limit SECONDS] [--keep FOLDER]
"""
import argparse
import collections
import os
import random
import shutil
import sys
import tempfile
import time

import catalogues
import journal_cases
import request_cases
import word_cases
from program import Program, Wrong

KINDS = {
    "requests": request_cases.requests, "journals": journal_cases.journals, "bodies": request_cases.bodies,
    "words": word_cases.words, "connections": request_cases.connections,
}
# In each turn so many cases of a kind.
TURN = ["requests"] * 4 + ["journals"] * 5 + ["bodies"] * 2 + ["words"] * 3 + ["connections"]
BASES = 16


class Case:
    """One case, whose choices come from the seed, the kind and the number alone."""

    def __init__(self, fuzz, kind, number, folder):
        self.fuzz, self.kind, self.number, self.folder = fuzz, kind, number, folder
        self.rng = random.Random("%d %s %d" % (fuzz.seed, kind, number))
        self.program = fuzz.program
        self.entries = []

    def path(self, name):
        return os.path.join(self.folder, name)

    def base(self):
        """A catalogue, not to be changed, and its journal."""
        c, spelled = self.fuzz.base(self.rng.randrange(BASES))
        self.entries = c.log
        return c, spelled

    def maker(self, c):
        return catalogues.random_requests.Requests(self.rng, c)

    def count(self, what):
        self.fuzz.counts[self.kind][what] += 1


class Fuzz:
    def __init__(self, options):
        self.seed = options.seed
        self.program = Program(options.program, options.limit)
        self.keep = options.keep
        self.bases = {}
        self.cases = collections.Counter()
        self.counts = collections.defaultdict(collections.Counter)

    def base(self, number):
        if number not in self.bases:
            rng = random.Random("%d base %d" % (self.seed, number))
            c = catalogues.made(rng, [0, 1, 2, 5][number] if number < 4 else rng.randrange(6, 40))
            self.bases[number] = c, catalogues.spelled(c)
        return self.bases[number]

    def case(self, kind, number):
        """Whether a case went as it should; where it didn't, its files are kept."""
        folder = tempfile.mkdtemp(prefix="nessie-fuzz-")
        try:
            self.cases[kind] += 1
            KINDS[kind](Case(self, kind, number, folder))
            return True
        except Wrong as wrong:
            kept = os.path.join(self.keep, "fuzz-%d-%s-%d" % (self.seed, kind, number))
            shutil.rmtree(kept, ignore_errors=True)
            shutil.copytree(folder, kept)
            print("WRONG %s %d: %s" % (kind, number, wrong))
            print("   its files: %s; again: tools/fuzz.sh --seed %d --only %s --case %d" % (kept, self.seed, kind, number), flush=True)
            return False
        finally:
            shutil.rmtree(folder, ignore_errors=True)

    def report(self, seconds, good):
        count = sum(self.cases.values())
        for kind in sorted(self.cases):
            print("%s: %d cases" % (kind, self.cases[kind]))
            for what in sorted(self.counts[kind]):
                print("   %-50s %d" % (what, self.counts[kind][what]))
        told = "seed %d, %d seconds, %d cases, %d runs of the program" % (self.seed, seconds, count, self.program.runs)
        print(told + (": all cases went as they should" if good else ": a case went wrong"), flush=True)


def main():
    parser = argparse.ArgumentParser()
    parser.add_argument("program")
    parser.add_argument("seconds", type=float, nargs="?", default=600)
    parser.add_argument("--seed", type=int, default=random.SystemRandom().randrange(10 ** 6))
    parser.add_argument("--only", choices=sorted(KINDS))
    parser.add_argument("--case", type=int, help="one case, of the kind that --only names")
    parser.add_argument("--limit", type=float, default=60, help="seconds that a run may take")
    parser.add_argument("--keep", default=tempfile.gettempdir(), help="the folder that the files of a case that went wrong go to")
    options = parser.parse_args()
    print("seed %d" % options.seed, flush=True)
    fuzz = Fuzz(options)
    began = time.monotonic()
    if options.case is not None:
        good = fuzz.case(options.only, options.case)
    else:
        good, turn, number = True, [options.only] if options.only else TURN, 0
        while good and time.monotonic() - began < options.seconds:
            good = fuzz.case(turn[number % len(turn)], number)
            number += 1
    fuzz.report(time.monotonic() - began, good)
    return 0 if good else 1


if __name__ == "__main__":
    sys.exit(main())
