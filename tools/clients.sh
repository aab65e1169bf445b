#!/bin/sh
# Drives `nessie serve` with the HTTP clients that are here, and says which are missing: curl, Python's
# http.client, urllib3 and requests, plain sockets, ab, wrk, Go's net/http, Java's HttpClient, nginx.
# Each case says what it wants and what came; the last line counts them, and the status is 0 where none
# went wrong. The time limits take some 75 seconds.
# Usage: tools/clients.sh [--program FILE] [curl|python|sockets|process|faults|others|limits ..]
top=$(CDPATH= cd -- "$(dirname -- "$0")/.." && pwd) || exit 70
command -v python3 >/dev/null || { echo "left out: all of it: python3 is missing"; exit 77; }
if [ "$1" = --program ]; then
    program=$2
    shift 2
else
    "$top/nessie" </dev/null >/dev/null
    program=$top/crates/nessie/out/nessie
    [ -x "$program" ] || program=$top/unproved/nessie
fi
exec python3 -B "$top/tools/clients/run.py" "$program" "$@"
