"""The system's calls under a running server, by `strace`: the order of syncs and replies, failing syncs, failing accepts."""
import json
import os
import re
import shutil
import subprocess
import threading
import time

from catalogue_bodies import commit, put
from process_cases import run_words
from serving import CONFIG, Server, get, post

COMMIT = "/trees/main/history/commit"
SYNCS = "fsync,fdatasync"


def traced(program, folder, *words, inject=(), calls=SYNCS):
    """A server under strace, and the file that has its calls."""
    log = os.path.join(folder, f"trace{time.monotonic_ns()}")
    before = ["strace", "-D", "-f", "-qq", "-s", "300", "-o", log, "-e", "trace=" + calls]
    for what in inject:
        before += ["-e", "inject=" + what]
    return Server(program, *words, before=before), log


def replies_and_syncs(log):
    """The calls in the order in which strace saw them: how many syncs had ended, and the place of each reply that is then sent."""
    ended, out, waiting = 0, [], set()
    with open(log, errors="replace") as lines:
        for line in lines:
            thread, _, rest = line.partition(" ")
            rest = rest.strip()
            if re.match(r"f(data)?sync\(", rest):
                if rest.endswith("<unfinished ...>"):
                    waiting.add(thread)
                elif rest.endswith("= 0"):
                    ended += 1
            elif re.match(r"<\.\.\. f(data)?sync resumed", rest) and rest.endswith("= 0"):
                waiting.discard(thread)
                ended += 1
            found = re.match(r"(?:sendto|sendmsg|write)\(.*Catalogue-Place: (\d+)", rest)
            if found:
                out.append((int(found[1]), ended))
    return out


def syncs(cases, folder):
    """No reply tells of an entry before its second sync: of four clients that commit and read at once. On a busy machine 8 attempts may be spent."""
    server, log = traced(cases.program, folder, "--workers", 4, "--attempts", 64, calls=SYNCS + ",sendto,sendmsg,write")
    with server:
        def client(number):
            with server.link() as link:
                for turn in range(20):
                    link.ask(post(COMMIT, commit("s", put(f"s{number}-{turn}"))))
                    link.ask(get("/trees/main"))
        run_together([threading.Thread(target=client, args=(number,)) for number in range(4)])
        with server.link() as link:
            place = link.ask(CONFIG).place
        server.kill()
        time.sleep(0.5)
    found = replies_and_syncs(log)
    first = min((ended - 2 * place for place, ended in found), default=None)
    cases.told(f"{len(found)} replies up to place {place}, 80 of them to commits", "each sent after its place's second sync, and the syncs before the first entry", f"{first} syncs more at least", place == 80 and len(found) == 161 and first is not None and first >= 0)
    cases.told("a sync for each part of an entry, and those of a new journal", "1 to 4 more than twice the entries", found[-1][1] - 160, 1 <= found[-1][1] - 160 <= 4)


def run_together(threads):
    for thread in threads:
        thread.start()
    for thread in threads:
        thread.join()


def failing_sync(cases, folder):
    """A sync fails while it serves: that change is refused as a fault, later ones as down, reads go on, nothing answered is lost."""
    for at in (20, 21):
        server, _ = traced(cases.program, folder, inject=[f"fsync,fdatasync:error=EIO:when={at}+"])
        with server:
            with server.link() as link:
                replies = [link.ask(post(COMMIT, commit("f", put(f"f{number}")))) for number in range(15)]
                read = link.ask(get("/trees/main/entries"))
            good = [reply.status for reply in replies].count(200)
            codes = [json.loads(reply.body).get("errorCode", "accepted") for reply in replies]
            cases.same(f"sync {at} fails: the replies", ["accepted"] * good + ["FAULT"] + ["DOWN"] * (14 - good), codes)
            cases.same(f"sync {at} fails: a read after that, entries", (200, good), (read.status, len(json.loads(read.body)["entries"])))
            server.kill()
            status, line, _ = run_words(cases.program, "check", server.journal)
            entries = int(line.split()[1]) if status == 0 else None
            cases.told(f"sync {at} fails: the journal", f"{good} entries, or one more", f"status {status}, {entries}", entries in (good, good + 1))


def failing_sync_told(cases, folder):
    """Where the process ends by itself after a fault, it says what the system said."""
    server, _ = traced(cases.program, folder, "--connections", 1, inject=["fsync,fdatasync:error=EIO:when=20+"])
    with server:
        with server.link() as link:
            for number in range(15):
                link.ask(post(COMMIT, commit("f", put(f"f{number}"))))
        wants = (2, b"", f"nessie: {server.journal}: Input/output error (os error 5)\n".encode())
        cases.same("a sync failed, and the process ended: status, lines", wants, server.outcome())


def failing_accepts(cases, folder):
    server, _ = traced(cases.program, folder, "--workers", 1, calls="accept4,accept", inject=["accept4,accept:error=EMFILE:when=2..20"])
    with server:
        with server.link() as link:
            cases.same("before accepts fail", 200, link.ask(CONFIG).status)
        began = time.monotonic()
        with server.link() as link:
            came = link.ask(CONFIG).status
        cases.told("accepts fail 19 times for want of descriptors", "200 after some two seconds", f"{came} after {time.monotonic() - began:.1f} s", came == 200)
    server, _ = traced(cases.program, folder, "--workers", 2, calls="accept4,accept", inject=["accept4,accept:error=EMFILE"])
    with server:
        wants = (7, b"nessie: listener fault\n", f"nessie: 127.0.0.1:{server.port}: Too many open files (os error 24)\n".encode())
        cases.same("no accept succeeds any more: status, lines", wants, server.outcome(60))


def run(cases):
    if not shutil.which("strace") or subprocess.run(["strace", "-o", "/dev/null", "true"], stderr=subprocess.DEVNULL).returncode:
        cases.left_out("faults of the system's calls", "strace is missing, or may not trace")
        return
    folder = os.path.join(os.environ.get("TMPDIR", "/tmp"), f"nessie-faults-{os.getpid()}")
    os.makedirs(folder)
    try:
        for case in (syncs, failing_sync, failing_sync_told, failing_accepts):
            cases.guarded("faults: " + case.__name__, case, folder)
    finally:
        shutil.rmtree(folder, ignore_errors=True)
