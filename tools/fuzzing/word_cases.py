"""Command lines: words of each command, some of them changed. What is refused as usage makes no file; what the words of a whole command ask for is done."""
import copy
import os
import re
import time

import drill
import reply_rules
from catalogues import journal, last_moment, line_of, replies, told
from mutations import changed, cut, doubled, flipped, inserted, moved, noise, removed, renumbered, mutated
from program import Wrong, content_of, need_same, shown, write

NUMBERS = ["0", "1", "2", "8", "64", "65", "007", "-1", "+1", "1.5", "x", "", " 1", "18446744073709551615", "18446744073709551616", "1" * 21, "0" * 20 + "1"]
FEW = ["0", "1", "2", "37", "400"]
ADDRESSES = ["nowhere", "127.0.0.1", ":0", "127.0.0.1:70000", "", "[::1", "256.1.1.1:1", "127.0.0.1:-1", "203.0.113.1:80", "127.0.0.1:0"]
STRANGE = [b"--", b"-", b"-h", b"--help", b"-V", b"--version", b"help", b"", b"=", b"--seed", b"--commits=3", b"--workers=2", b"--attempts", b"--connections=1",
           b"script", b"serve", b"gc", b"check", b"migrate", b"drill", b"\xff\xfe", b"\xc3\xa9", b"a" * 120000, b"--seed=", b"--=1", b"-s", b"*=1", b"main=", b"NONE", b"P1D"]
LINES = {
    "check": rb"entries \d+ references \d+ commits \d+ contents \d+ head [0-9a-f]{64}\n\Z",
    "migrate": rb"format 2 entries \d+\n\Z",
    "gc": rb"kept \d+ removed \d+ place \d+\n\Z",
    "drill": rb"commits \d+ keys \d+ contents \d+ place \d+ head [0-9a-f]{64}\n\Z",
}
REFUSED = {1: rb"nessie: usage\n\Z", 2: rb"nessie: disk fault\n\Z", 3: rb"nessie: (version \d+|damaged at \d+|illegal entry \d+)\n\Z", 7: rb"nessie: listener fault\n\Z"}
CONFIG = b"GET /api/v2/config HTTP/1.1\r\n\r\n"


def command(case, maker):
    """The words of a command."""
    rng = case.rng
    name = rng.choice(["whole", "whole", "damaged", "empty", "absent", "folder", "none/journal"])
    what = rng.choice(["script", "check", "migrate", "gc", "gc", "drill", "serve"])
    number = lambda good: rng.choice(good if rng.random() < 0.8 else NUMBERS)
    if what == "drill":
        pairs = [["--seed", number(NUMBERS[:4])], ["--commits", number(FEW)]]
        rng.shuffle(pairs)
        return ["drill"] + pairs[0] + pairs[1]
    if what == "gc":
        return ["gc", name] + maker.policy_words()
    if what == "serve":
        options = [["--workers", number(["1", "4", "64"])], ["--attempts", number(["1", "8", "64"])], ["--connections", number(["0", "1", "9"])]]
        chosen = [word for option in options if rng.random() < 0.5 for word in option]
        return rng.choice([["serve", name, rng.choice(ADDRESSES)] + chosen, ["serve"] + chosen + [name, rng.choice(ADDRESSES)]])
    return [what, name]


def spoiled(rng, words):
    """One change of the words."""
    at = rng.randrange(len(words))
    what = rng.randrange(7)
    if what == 0:
        return words[:at] + words[at + 1:]
    if what == 1:
        return words[:at + 1] + words[at:]
    if what == 2:
        to = rng.randrange(len(words))
        words[at], words[to] = words[to], words[at]
        return words
    if what == 3:
        return words[:at] + [rng.choice(STRANGE)] + words[at:]
    if what == 4:
        return words[:at] + [rng.choice(STRANGE)] + words[at + 1:]
    if what == 5 and at + 1 < len(words):
        return words[:at] + [words[at] + b"=" + words[at + 1]] + words[at + 2:]
    word = mutated(rng, words[at], [flipped, changed, cut, doubled, moved, noise, removed, inserted, renumbered], 2)
    return words[:at] + [word.replace(b"\x00", b"0").replace(b"/", b"_")] + words[at + 1:]


def is_dear(words):
    """A drill of so many commits takes longer than a case should."""
    return any(5000 < int(number) <= 1_000_000 for word in words for number in re.findall(rb"\d{1,30}", word))


def is_listening(pid):
    """Whether the process listens at some port."""
    try:
        links = {os.readlink("/proc/%d/fd/%s" % (pid, name)) for name in os.listdir("/proc/%d/fd" % pid)}
    except OSError:
        return False
    sockets = {link[8:-1] for link in links if link.startswith("socket:[")}
    with open("/proc/net/tcp") as four, open("/proc/net/tcp6") as six:
        return any(line.split()[3] == "0A" and line.split()[9] in sockets for line in list(four)[1:] + list(six)[1:])


def ran(case, words, folder):
    """Status and output of a run; the status is None where it serves, and was ended."""
    # A long path is told on standard error: more than a pipe takes.
    told = case.path("output"), case.path("error")
    with open(told[0], "wb") as output, open(told[1], "wb") as error, case.program.start(words, cwd=folder, stdout=output, stderr=error) as child:
        try:
            child.stdin.write(CONFIG)
            child.stdin.close()
        except BrokenPipeError:
            pass  # it ended before it read
        until = time.monotonic() + case.program.limit
        while child.poll() is None:
            if b"serve" in words and is_listening(child.pid):
                child.kill()
                child.wait()
                return None, b""
            if time.monotonic() > until:
                case.program.need_going("the words " + shown(repr(words).encode()), child)
                until += case.program.limit
            time.sleep(0.002)
    return case.program.judged(words, {0, *REFUSED}, child.returncode, *map(content_of, told))


def files(folder):
    return {name: content_of(os.path.join(folder, name)) for name in os.listdir(folder) if os.path.isfile(os.path.join(folder, name))}


def made_folder(case, before):
    folder = case.path("here")
    os.makedirs(os.path.join(folder, "folder"))
    at = case.rng.randrange(len(before))
    write(os.path.join(folder, "whole"), before)
    write(os.path.join(folder, "damaged"), before[:at] + bytes([case.rng.randrange(256)]) + before[at + 1:])
    write(os.path.join(folder, "empty"), b"")
    return folder


def words(case):
    c, before = case.base()
    folder = made_folder(case, before)
    plain = command(case, case.maker(c))
    chosen, whole = [word.encode("utf-8", "surrogateescape") for word in plain], True
    while case.rng.random() < 0.6 and chosen:
        chosen, whole = spoiled(case.rng, chosen), False
    if b"drill" in chosen and is_dear(chosen):
        return case.count("left out, a long drill")
    write(case.path("words"), repr(chosen).encode())
    old = files(folder)
    status, output = ran(case, chosen, folder)
    new = files(folder)
    case.count("serves" if status is None else "status %d" % status)
    if status in REFUSED and not re.match(REFUSED[status], output):
        raise Wrong("the words %s: status %d, %s" % (shown(repr(chosen).encode()), status, shown(output)))
    if status in (1, 3):
        need_same("the files after words that are refused", old, new)
    if status == 0:
        need_line(chosen, output)
    if whole:
        need_done(plain, status, output, old, new, c)


def need_line(words, output):
    """Where a command was done, its line, or the reply to the one request."""
    if any(re.match(line, output) for line in LINES.values()):
        return
    found, _ = reply_rules.judged(output, int(re.search(rb"Catalogue-Place: (\d+)", output)[1]) if output else 0)
    if len(found) != 1 or found[0].status != 200:
        raise Wrong("the words %s: status 0, %s" % (shown(repr(words).encode()), shown(output)))


def is_number(text, least, most):
    return re.match(r"[0-9]{1,20}\Z", text) is not None and least <= int(text) <= most


def need_done(words, status, output, old, new, c):
    """What a command comes to by the rules, where its words are as they should be."""
    what, options = words[0], dict(zip(words, words[1:]))
    if what == "drill":
        if not (is_number(options["--seed"], 0, (1 << 64) - 1) and is_number(options["--commits"], 0, 1_000_000)):
            return need_same("a drill", (1, b"nessie: usage\n"), (status, output))
        return need_same("a drill", (0, drill.drilled(int(options["--seed"]), int(options["--commits"])).encode()), (status, output))
    if what == "serve":
        ranges = {"--workers": (1, 64), "--attempts": (1, 64), "--connections": (0, (1 << 64) - 1)}
        good = all(is_number(options[name], *ends) for name, ends in ranges.items() if name in words)
        return None if good else need_same("serve", (1, b"nessie: usage\n"), (status, output))
    name = words[1]
    if name in ("folder", "none/journal"):
        refused = what == "gc" and replies_of(words, c, 0)[0] == 1
        return need_same(what, (1, b"nessie: usage\n") if refused else (2, b"nessie: disk fault\n"), (status, output))
    line, wanted, there = told(old.get(name, b""))
    if what == "gc":
        if there is None:
            wanted, line = (1, b"nessie: usage\n") if replies_of(words, c, 0)[0] == 1 else (3, line)
        else:
            wanted, line = replies_of(words, there, last_moment(new.get(name, b"")))
    elif what == "migrate" and there is not None:
        line = b"format 2 entries %d\n" % there.place
        need_same("the migrated journal", journal.newer(old.get(name, b"")), new[name])
    elif what == "script" and there is not None:
        line = replies.Session(there).answer("GET", b"/api/v2/config", [], b"", 0)
    need_same(what, (wanted, line), (status, output))
    if there is not None and wanted == 0:
        need_same("the journal", (line_of(there), 0), told(new[name])[:2])


def replies_of(words, c, moment):
    """What `gc` says on a catalogue, which then has the collection."""
    output, status = replies.collected(copy.deepcopy(c) if moment == 0 else c, words[2:], moment)
    return status, output
