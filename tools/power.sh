#!/bin/sh
# Cuts power between any two disk calls of the program, for so many seconds (600 where none are named). A
# library in C, which is built here and preloaded, keeps the writes, cuts and syncs of the journal's file and
# when replies go out, while sessions and collections of random requests run. Then each file that a cut at
# each moment may leave is made: all that was synced, and of each write since then nothing, all, a front, an
# end, some sectors of 512 bytes, zeros or any bytes, with the file as long as it was or longer. `check`,
# the plain rules of oracle/ and a session that reads all and goes on look at each: it holds all that a reply
# had acknowledged and at most the call in flight more, checkpoints too, in the state that the rules give; a file is refused
# only where it was being made. Rounds go on upon files that cuts left. The first file that breaks the rule
# is kept, and ends it; else it ends in 0. The last lines count files and what they held, and the very last
# says how many cuts, files and runs there were, and what they came to.
# With --spoil half of the syncs count as not made, and the status is 0 where that is found out.
# Usage: tools/power.sh [--program FILE] [SECONDS] [--seed N] [--spoil]
top=$(CDPATH= cd -- "$(dirname -- "$0")/.." && pwd) || exit 70
for tool in python3 cc; do
    command -v "$tool" >/dev/null || { echo "left out: all of it: $tool is missing"; exit 77; }
done
if [ "$1" = --program ]; then
    program=$2
    shift 2
else
    program=$top/unproved/nessie
    [ -x "$program" ] || program=$top/crates/nessie/out/nessie
    [ -x "$program" ] || { "$top/nessie" </dev/null >/dev/null; program=$top/unproved/nessie; }
fi
work=$(mktemp -d) || exit 70
trap 'rm -rf "$work"' EXIT
cc -O1 -shared -fPIC -o "$work/record.so" "$top/tools/powercuts/record.c" || exit 70
PYTHONHASHSEED=0 python3 -B "$top/tools/powercuts/run.py" "$program" "$work/record.so" "$@"
