#!/bin/sh
# Runs the built program on real files and streams, of which no contract speaks: each status with its
# lines, closed standard streams, two processes on one journal, the order of syncs and replies, each
# call of the system failing in turn, a full disk. It says what each case did, and ends in 0 only if
# all went as they should. What wants `strace`, root or a file system of its own is else left out.
# Usage: tools/check_real_files.sh [PROGRAM] (else the one that `rt ci` or ./nessie has left)
top=$(CDPATH= cd -- "$(dirname -- "$0")/.." && pwd) || exit 70
command -v python3 >/dev/null || { echo "left out: all of it: python3 is missing"; exit 0; }
if [ $# -eq 0 ]; then
    "$top/nessie" </dev/null >/dev/null
    set -- "$top/crates/nessie/out/nessie"
    [ -x "$1" ] || set -- "$top/unproved/nessie"
fi
exec python3 - "$1" "$top/tools/fresh_journal.py" <<'PYTHON'
import json, os, re, shutil, socket, subprocess, sys, tempfile

FAULT = b"nessie: disk fault\n"
NEW = b"NESSIECJ\0\0\0\x01\0\0\0\x01\0"
NO_ANCESTOR = "2e1cfa82b035c26cbbbdae632cea070514eb8b773f616aaeaf668e2f0be8f10d"
GET = b"GET /api/v2/config HTTP/1.1\r\n\r\n"
IS_ROOT = os.geteuid() == 0
NOBODY = 65534
failed = []
room = tempfile.TemporaryDirectory()
os.chmod(room.name, 0o777)
program = shutil.copy(sys.argv[1], os.path.join(room.name, "program"))
os.chmod(program, 0o755)


def commit(key, text="m"):
    content = {"type": "ICEBERG_TABLE", "metadataLocation": text, "snapshotId": 1}
    operation = {"type": "PUT", "key": {"elements": [key]}, "content": content}
    body = json.dumps({"commitMeta": {"message": "one"}, "operations": [operation]}).encode()
    head = b"POST /api/v2/trees/main/history/commit HTTP/1.1\r\nContent-Length: %d\r\n\r\n"
    return head % len(body) + body


def tell(what, passed, detail=""):
    if not passed:
        failed.append(what)
    print(("ok    " if passed else "WRONG ") + what + (f": {detail}" if detail else ""), flush=True)


def leave_out(what, why):
    print(f"left out: {what}: {why}", flush=True)


def path_of(name):
    return os.path.join(room.name, name)


def file_of(name, content):
    with open(path_of(name), "wb") as file:
        file.write(content)
    return path_of(name)


def run(words, sent=b"", before=(), closed="", **options):
    """Status, output and standard error of a run, through a shell that closes some streams."""
    line = ["sh", "-c", f'exec "$@" {closed}', "sh", *before, program, *words]
    options["stdin" if isinstance(sent, int) else "input"] = sent
    options.setdefault("stdout", subprocess.PIPE)
    done = subprocess.run(line, stderr=subprocess.PIPE, timeout=50, **options)
    return done.returncode, done.stdout or b"", done.stderr


def replies(output):
    return [int(code) for code in re.findall(rb"HTTP/1\.1 (\d+) ", output)]


def case(what, got, status, output, error=b""):
    """Output is the bytes that are wanted, or the statuses of the replies."""
    told = replies(got[1]) if isinstance(output, list) else got[1]
    shown = (told if len(told) < 20 else f"{len(told)} replies") if isinstance(output, list) else output.decode(errors="replace").strip()
    detail = f"status {got[0]}, {shown}" + (f", {got[2].decode(errors='replace').strip()}" if got[2] else "")
    passed = (got[0], told, got[2]) == (status, output, error)
    tell(what, passed, detail if passed else f"wanted {(status, output, error)}, got {got}")


def content_of(path):
    with open(path, "rb") as file:
        return file.read()


def entries(journal):
    """How many entries the journal opens with; none where it doesn't open."""
    status, output, _ = run(["check", journal])
    found = re.match(rb"entries (\d+) ", output)
    return int(found[1]) if status == 0 and found else None


def said(path, text):
    return f"nessie: {path}: {text}\n".encode()


def check_formats(held):
    """Checkpoints, and a journal of an old format; held is one of one entry."""
    checkpoint = b"POST /gc/v1/checkpoint HTTP/1.1\r\n\r\n"
    old = file_of("old", held[:15] + b"\x00" + held[16:])
    case("a checkpoint in an old format", run(["script", old], checkpoint + GET), 0, [409, 200])
    case("a migration", run(["migrate", old]), 0, b"format 2 entries 1\n")
    tell("and its file", content_of(old) == held)
    case("a checkpoint", run(["script", old], checkpoint + commit("b")), 0, [200, 200])
    found = content_of(old)
    tell("and its journal", entries(old) == 2 and found.startswith(held[:-1] + b"\x01") and found[len(held) + 4] == 8, "2 entries")
    case("a session from there on", run(["script", old], GET + commit("c")), 0, [200, 200])
    tell("and its journal", entries(old) == 3, "3 entries")
    held, fresh = content_of(old), path_of("fresh")
    begin = [sys.executable, sys.argv[2], "--program", program]
    begun = subprocess.run(begin + [old, fresh], capture_output=True)
    tell("a fresh journal from its checkpoint", begun.returncode == 0 and not begun.stderr, begun.stderr.decode().strip())
    at = held.rindex(b"\x08\0\0\0\x01") - 5
    tell("and both files", content_of(old) == held and content_of(fresh) == NEW[:16] + held[at:], f"{len(held)} and {len(held) - at + 16} bytes")
    said = run(["check", old])
    tell("and what check says of both", said[0] == 0 and said == run(["check", fresh]))
    tell("and once more, where it is there", subprocess.run(begin + [old, fresh], capture_output=True).returncode == 1 and content_of(fresh) == NEW[:16] + held[at:])
    tell("and without a checkpoint", subprocess.run(begin + [file_of("bare", NEW), path_of("fresher")], capture_output=True).stderr == b"fresh_journal: no checkpoint\n" and not os.path.exists(path_of("fresher")))
    case("a migration once more", run(["migrate", old]), 0, b"format 2 entries 3\n")
    case("a migration of a new journal", run(["migrate", path_of("migrated new")]), 0, b"format 2 entries 0\n")
    tell("and its file", content_of(path_of("migrated new")) == NEW, "a new journal")


def check_statuses():
    journal = path_of("first")
    case("a commit and a read", run(["script", journal], commit("a") + GET), 0, [200, 200])
    tell("and its journal", entries(journal) == 1, "1 entry")
    case("no request", run(["script", journal]), 0, b"")
    for words in ([], ["script"], ["check", journal, "x"], ["migrate"], ["migrate", journal, "x"], ["gc", journal], ["gc", journal, "0"], ["gc", journal, "1", "main"], ["gc", path_of("none yet"), "1", "main=P1M"], ["--help"], ["drill", "--seed", "-1", "--commits", "1"], [b"check", b"\xff"], ["serve", journal], ["serve", journal, "127.0.0.1:0", "--workers", "65"]):
        case(f"the words {words}", run(words), 1, b"nessie: usage\n")
    tell("and no journal is made for a policy without a reading", not os.path.exists(path_of("none yet")))
    held = content_of(journal)
    collected = file_of("collected", held)
    case("a collection of a journal", run(["gc", collected, "NONE", "main=1"]), 0, b"kept 1 removed 0 place 2\n")
    case("a collection of a new journal", run(["gc", path_of("collected new"), "1"]), 0, b"kept 0 removed 0 place 1\n")
    tell("and their journals", (entries(collected), entries(path_of("collected new"))) == (2, 1), "2 and 1 entries")
    for what, content, line in (
        ("another version", NEW[:11] + b"\x09" + NEW[12:], b"nessie: version 9\n"),
        ("a torn entry", NEW[:16] + b"\x01", b"nessie: damaged at 16\n"),
        ("an entry with another hash", held[:-2] + bytes([held[-2] ^ 1]) + held[-1:], b"nessie: illegal entry 1\n"),
    ):
        case(what, run(["script", file_of("other", content)], commit("b")), 3, line)
        case(f"{what}, for a collection", run(["gc", path_of("other"), "1"]), 3, line)
        case(f"{what}, for a migration", run(["migrate", path_of("other")]), 3, line)
        tell("and the file stays as it is", content_of(path_of("other")) == content)
    check_formats(held)
    folder = os.open(room.name, os.O_RDONLY)
    case("a read that fails", run(["script", journal], folder), 5, b"")
    os.close(folder)
    with open("/dev/full", "wb") as full:
        case("a write that fails", run(["script", journal], GET, stdout=full), 6, b"")
        case("a line that can't be written", run(["check", journal], stdout=full), 6, b"")
        case("a line of a migration that can't be written", run(["migrate", journal], stdout=full), 6, b"")
        case("a line of a collection that can't be written", run(["gc", collected, "1"], stdout=full), 6, b"")
        tell("and its journal", entries(collected) == 3, "3 entries")
    case("bytes that are no request", run(["script", journal], GET + b"x\r\n\r\n"), 8, [200, 400])
    large = b"POST /api/v2/trees/main/history/commit HTTP/1.1\r\nContent-Length: 1048577\r\n\r\n"
    case("a body that is too large", run(["script", journal], large), 8, [413])
    case("1,001 requests", run(["script", journal], GET * 1001), 8, [200] * 1000)
    case("an address that is none", run(["serve", journal, "nowhere"]), 7, b"nessie: listener fault\n", said("nowhere", "invalid socket address"))
    taken = socket.create_server(("127.0.0.1", 0))
    address = "127.0.0.1:%d" % taken.getsockname()[1]
    case("an address that is taken", run(["serve", "--workers", "1", journal, address]), 7, b"nessie: listener fault\n", said(address, "Address already in use (os error 98)"))
    taken.close()
    tell("and the journal stays as it is", content_of(journal) == held)
    case("a journal that can't be read, and an address that is none", run(["serve", file_of("other", NEW[:16] + b"\x01"), "nowhere"]), 3, b"nessie: damaged at 16\n")
    # A checkpoint with the last place there is, of `main` without a commit.
    full = b"\x08\xff\xff\xff\xff" + bytes(12) + b"\0\0\0\1\0\0\0\4main\1" + bytes.fromhex(NO_ANCESTOR) + bytes(8)
    file_of("full", NEW[:16] + b"\1" + len(full).to_bytes(4, "big") + full + b"\0")
    case("a log without a place left", run(["script", path_of("full")], commit("a")), 0, [409])
    case("and a collection", run(["gc", path_of("full"), "1"]), 9, b"nessie: limit 4294967295\n")
    tell("and its journal", entries(path_of("full")) == 2 ** 32 - 1, "4,294,967,295 entries")


def check_memory():
    """Want of memory, by a limit on the process: too little to start, then too little for the words, then enough."""
    if b"__asan_init" in content_of(program):
        return leave_out("want of memory", "a program that checks its accesses takes far more")

    def limited(kilobytes, words):
        return run(words, before=("sh", "-c", f'ulimit -v {kilobytes}; exec "$@"', "sh"))

    case("a drill without memory", limited(10000, ["drill", "--seed", "1", "--commits", "20000"]), 4, b"nessie: no memory\n")
    ends = [limited(kilobytes, ["w" * 120000] * 15)[:2] for kilobytes in range(5000, 16001, 500)]
    started = [end for end in ends if end[0] >= 0 and end[0] != 127]
    short, enough = (4, b"nessie: no memory\n"), (1, b"nessie: usage\n")
    few = started.count(short)
    tell("words without memory", 0 < few < len(started) and started == [short] * few + [enough] * (len(started) - few), f"status 4 {few} times")


def check_faults():
    """Where the disk fails: the line stays, and standard error says why."""
    none = path_of("none/journal")
    case("no such folder", run(["check", none]), 2, FAULT, said(none, "No such file or directory (os error 2)"))
    case("no such folder for a collection", run(["gc", none, "1"]), 2, FAULT, said(none, "No such file or directory (os error 2)"))
    case("a folder as the file", run(["script", room.name], GET), 2, FAULT, said(room.name, "Is a directory (os error 21)"))
    if not IS_ROOT:
        return leave_out("another user's files", "wants root")
    as_nobody = {"user": NOBODY, "group": NOBODY, "extra_groups": []}
    for mode, text in ((0o000, "Permission denied (os error 13)"), (0o444, "Permission denied (os error 13)")):
        path = file_of("locked away", NEW)
        os.chmod(path, mode)
        case(f"a file of mode {mode:o}", run(["check", path], **as_nobody), 2, FAULT, said(path, text))
    os.mkdir(path_of("closed"), 0o755)
    path = path_of("closed/journal")
    case("a folder that takes no file", run(["script", path], GET, **as_nobody), 2, FAULT, said(path, "Permission denied (os error 13)"))


def check_closed():
    """A closed standard stream is no journal's."""
    path = path_of("closed output")
    case("a closed output", run(["script", path], commit("a") + commit("b"), closed=">&-"), 6, b"")
    tell("and its journal", entries(path) in (0, 1), f"opens, {entries(path)} entries")
    case("a closed output, and a line", run(["check", path], closed=">&-"), 6, b"")
    case("a closed input", run(["script", path], closed="<&-"), 0, b"")
    case("a closed error stream", run(["check", path_of("none/journal")], closed="2>&-"), 2, FAULT)
    case("all three closed", run(["script", path], closed="<&- >&- 2>&-"), 0, b"")
    tell("and the journal", entries(path) in (0, 1), f"opens, {entries(path)} entries")


def check_two():
    path = path_of("shared")
    line = said(path, "another process holds the file")
    with subprocess.Popen([program, "script", path], stdin=subprocess.PIPE, stdout=subprocess.PIPE) as first:
        first.stdin.write(commit("a"))
        first.stdin.flush()
        first.stdout.readline()
        held = content_of(path)
        case("script beside script", run(["script", path], commit("b")), 2, FAULT, line)
        case("check beside script", run(["check", path]), 2, FAULT, line)
        case("gc beside script", run(["gc", path, "1"]), 2, FAULT, line)
        case("migrate beside script", run(["migrate", path]), 2, FAULT, line)
        tell("and the file stays as it is", content_of(path) == held)
        first.stdin.write(commit("b"))
        first.stdin.close()
        output = first.stdout.read()
        tell("the first goes on", first.wait() == 0 and replies(output) == [200])
    tell("and its journal", entries(path) == 2, "2 entries")


CALLS = "fsync,fdatasync,pwrite64,pread64,write,read,flock,openat,ftruncate,fstat,newfstatat,statx"


def traced(words, sent, *injected):
    """A run, and its calls of the system in their order: name, arguments, answer."""
    log = path_of("trace")
    before = ["strace", "-f", "-qq", "-o", log, "-e", "trace=" + CALLS]
    for what in injected:
        before += ["-e", "inject=" + what]
    got = run(words, sent, before)
    lines = re.findall(r"(?m)^\d+ +(\w+)\((.*)\) += (-?\d+)", content_of(log).decode(errors="replace"))
    return got, [(name, arguments, int(answer)) for name, arguments, answer in lines]


def opened(calls, path):
    """The calls, each with what it is on: the journal, its folder, input, output, or nothing of these."""
    names = {0: "input", 1: "output"}
    for name, arguments, answer in calls:
        first = arguments.split(",")[0]
        number = int(first) if first.isdigit() else None
        if name == "openat":
            named, number = arguments.split('"')[1], answer
            names[answer] = "journal" if named == path else "folder" if named == os.path.dirname(path) else None
        yield name, names.get(number)


STEPS = {
    ("flock", "journal"): "l",
    ("fsync", "folder"): "d",
    ("pwrite64", "journal"): "w",
    ("fsync", "journal"): "s",
    ("write", "output"): "r",
    ("ftruncate", "journal"): "c",
}


def steps(calls, path):
    """What a run did to its journal, its folder and its output, a letter each."""
    return "".join(STEPS.get(call, "") for call in opened(calls, path))


def check_syncs():
    """A lock is l, a sync of the folder d, a write to the journal w, a sync of it s, a write of a reply r. Opening syncs, then writes a new journal and syncs it; an entry is written, synced, closed, synced. A migration opens twice, writes its byte and syncs it."""
    path = path_of("traced")
    (status, output, _), calls = traced(["script", path], commit("a") + GET)
    word = steps(calls, path)
    tell("a new journal and a commit", status == 0 and replies(output) == [200, 200] and re.fullmatch("ldswswswsr+", word), word)
    (status, output, _), calls = traced(["script", path], commit("b"))
    word = steps(calls, path)
    tell("a commit to it", status == 0 and replies(output) == [200] and re.fullmatch("lswswsr+", word), word)
    (status, output, _), calls = traced(["gc", file_of("traced too", content_of(path)), "NONE"], b"")
    word = steps(calls, path_of("traced too"))
    tell("a collection", (status, output) == (0, b"kept 2 removed 0 place 3\n") and re.fullmatch("lswswsr+", word), word)
    held = content_of(path)
    old = file_of("traced old", held[:15] + b"\x00" + held[16:])
    (status, output, _), calls = traced(["migrate", old], b"")
    word = steps(calls, old)
    tell("a migration", (status, output) == (0, b"format 2 entries 2\n") and re.fullmatch("lsswsr+", word), word)
    for error in ("EOPNOTSUPP", "ENOLCK"):
        got, _ = traced(["check", path], b"", f"flock:error={error}:when=1")
        tell(f"no locks there, {error}", got[0] == 0 and got[1].startswith(b"entries 2 "), f"status {got[0]}")


def ordinals(calls, path):
    """Of the calls on the journal, its folder, input and output: the name, and the number among those of its name."""
    counts = {}
    for name, thing in opened(calls, path):
        counts[name] = counts.get(name, 0) + 1
        if thing:
            yield name, counts[name]


def check_injected(start):
    """Each call of the system fails once, on a new journal or on one with an entry."""
    sent = commit("b") + GET + commit("c")
    old = content_of(path_of("first")) if start else b""
    path = path_of("injected")

    def play(*injected):
        if start:
            file_of("injected", old)
        elif os.path.exists(path):
            os.remove(path)
        return traced(["script", path], sent, *injected)

    got, calls = play()
    case(f"from {start} entries, no call fails", got, 0, [200, 200, 200])
    for name, number in ordinals(calls, path):
        status, output, error = play(f"{name}:error=EIO:when={number}")[0]
        told = replies(output)
        accepted = start + [told[at] for at in (0, 2) if at < len(told)].count(200)
        now = entries(path)
        wanted = {"read": 5, "write": 6}.get(name, 2)
        line = said(path, "Input/output error (os error 5)") if wanted == 2 else b""
        passed = (status, error) == (wanted, line) and now in (accepted, accepted + 1) and set(told) <= {200, 503}
        passed = passed and (wanted != 2 or len(told) == 3 or output == FAULT)
        tell(f"from {start} entries, {name} {number} fails", passed, f"status {status}, {told or output.decode().strip()}, then {now} entries")
    for name, number in ordinals(calls, path):
        if name in ("read", "write", "pread64", "pwrite64"):
            got = play(f"{name}:error=EINTR:when={number}")[0]
            case(f"from {start} entries, {name} {number} is interrupted", got, 0, [200, 200, 200])


def check_injected_collection():
    """Each call of the system fails once, while a journal of one entry is collected: there is the entry or none, and a line tells so."""
    old, path = content_of(path_of("first")), path_of("injected")

    def play(*injected):
        file_of("injected", old)
        return traced(["gc", path, "1"], b"", *injected)

    line = b"kept 1 removed 0 place 2\n"
    got, calls = play()
    case("a collection, no call fails", got, 0, line)
    for name, number in ordinals(calls, path):
        status, output, error = play(f"{name}:error=EIO:when={number}")[0]
        wanted = (6, b"", b"") if name == "write" else (2, FAULT, said(path, "Input/output error (os error 5)"))
        now = entries(path)
        passed = (status, output, error) == wanted and now in ((2,) if name == "write" else (1, 2))
        tell(f"a collection, {name} {number} fails", passed, f"status {status}, {output.decode().strip()}, then {now} entries")
        if name in ("write", "pread64", "pwrite64"):
            case(f"a collection, {name} {number} is interrupted", play(f"{name}:error=EINTR:when={number}")[0], 0, line)


def check_injected_migration():
    """Each call of the system fails once, while a journal of one entry is migrated: it is of one format or the other, and else as it was."""
    new, path = content_of(path_of("first")), path_of("injected")
    old = new[:15] + b"\x00" + new[16:]

    def play(*injected):
        file_of("injected", old)
        return traced(["migrate", path], b"", *injected)

    line = b"format 2 entries 1\n"
    got, calls = play()
    case("a migration, no call fails", got, 0, line)
    for name, number in ordinals(calls, path):
        status, output, error = play(f"{name}:error=EIO:when={number}")[0]
        wanted = (6, b"", b"") if name == "write" else (2, FAULT, said(path, "Input/output error (os error 5)"))
        left = content_of(path)
        passed = (status, output, error) == wanted and left in ((new,) if name == "write" else (old, new))
        tell(f"a migration, {name} {number} fails", passed, f"status {status}, {output.decode().strip()}, then of format {left[15] + 1}")
        if name in ("write", "pread64", "pwrite64"):
            case(f"a migration, {name} {number} is interrupted", play(f"{name}:error=EINTR:when={number}")[0], 0, line)


def check_full():
    place = path_of("small")
    os.mkdir(place)
    if not IS_ROOT or subprocess.run(["mount", "-t", "tmpfs", "-o", "size=16k", "none", place], stderr=subprocess.DEVNULL).returncode:
        return leave_out("a full disk", "wants root and leave to mount")
    try:
        path = os.path.join(place, "journal")
        got = run(["script", path], b"".join(commit(f"k{n}", "m" * 2000) for n in range(12)))
        told = replies(got[1])
        full = told.index(503) if 503 in told else 0
        passed = got[0] == 2 and full > 0 and told == [200] * full + [503] * (12 - full) and got[2] == said(path, "No space left on device (os error 28)")
        tell("a full disk", passed, f"status {got[0]}, {told}, {got[2].decode().strip()}")
        copy = file_of("kept", content_of(path))
        tell("and its journal", entries(copy) in (full, full + 1), f"opens, {entries(copy)} entries")
    finally:
        subprocess.run(["umount", place])


check_statuses()
check_memory()
check_faults()
check_closed()
check_two()
if shutil.which("strace") and subprocess.run(["strace", "-o", path_of("trace"), "true"], stderr=subprocess.DEVNULL).returncode == 0:
    check_syncs()
    check_injected(0)
    check_injected(1)
    check_injected_collection()
    check_injected_migration()
else:
    leave_out("syncs and failing calls", "strace is missing, or may not trace")
check_full()
print(f"{len(failed)} cases went wrong" if failed else "all cases went as they should")
sys.exit(1 if failed else 0)
PYTHON
