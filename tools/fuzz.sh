#!/bin/sh
# Feeds random and changed bytes to the built program for so many seconds (600 where none are named):
# as requests on standard input and on connections of `nessie serve`, as journals (cut, bits and bytes
# changed, blocks moved, lengths enlarged), and as words. It stops at the first crash, hang, status or
# reply that the rules don't give, keeps that case's files, and says how to make the case again; else it
# ends in 0. Whatever was sent, each reply is one of the known ones, places rise by what was accepted, and
# the journal opens at the place that was told last. A changed journal opens to just what the plain rules
# of oracle/ read in it and goes on from there, or is refused in their line and stays as it is. Whole
# requests with changed bodies and targets get the rules' replies. The last lines count cases and statuses, and
# the very last says how many cases and runs there were, and what they came to.
# It takes the program that ./nessie builds without proofs, which checks each index, sum and access as it
# runs and is built with the address sanitizer; where none is there, the proved one. Another one, as a
# program built with other checks, is named by --program FILE.
# Usage: tools/fuzz.sh [--program FILE] [SECONDS] [--seed N] [--only requests|connections|bodies|journals|words [--case NUMBER]]
top=$(CDPATH= cd -- "$(dirname -- "$0")/.." && pwd) || exit 70
command -v python3 >/dev/null || { echo "left out: all of it: python3 is missing"; exit 77; }
if [ "$1" = --program ]; then
    program=$2
    shift 2
else
    program=$top/unproved/nessie
    [ -x "$program" ] || program=$top/crates/nessie/out/nessie
    [ -x "$program" ] || { "$top/nessie" </dev/null >/dev/null; program=$top/unproved/nessie; }
fi
PYTHONHASHSEED=0 exec python3 -B "$top/tools/fuzzing/run.py" "$program" "$@"
