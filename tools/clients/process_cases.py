"""The process: statuses and lines, connections that are counted, the lock, a kill, copies of a journal that is written."""
import os
import shutil
import socket
import subprocess
import threading
import time

from catalogue_bodies import commit, put
from serving import CONFIG, HOST, Ended, Server, free_port, get, listens, post

COMMIT = "/trees/main/history/commit"


def run_words(program, *words):
    done = subprocess.run([program, *map(str, words)], stdin=subprocess.DEVNULL, stdout=subprocess.PIPE, stderr=subprocess.PIPE, timeout=60)
    return done.returncode, done.stdout, done.stderr


def usage(cases, folder):
    journal = os.path.join(folder, "usage.journal")
    for words in (["serve"], ["serve", journal], ["serve", journal, f"{HOST}:1", "--workers", 0], ["serve", journal, f"{HOST}:1", "--workers", 65],
                  ["serve", journal, f"{HOST}:1", "--attempts", 0], ["serve", journal, f"{HOST}:1", "--attempts", 65],
                  ["serve", journal, f"{HOST}:1", "--connections", "x"], ["serve", journal, f"{HOST}:1", "--port", 1]):
        shown = " ".join(map(str, words)).replace(journal, "J")
        cases.same(shown, (1, b"nessie: usage\n", b""), run_words(cases.program, *words))
    cases.same("no journal was made by these", False, os.path.exists(journal))


def listener_faults(cases, folder):
    journal = os.path.join(folder, "listener.journal")
    with socket.socket() as taken:
        taken.bind((HOST, 0))
        taken.listen()
        address = "%s:%d" % taken.getsockname()
        came = run_words(cases.program, "serve", journal, address)
        wants = (7, b"nessie: listener fault\n", b"nessie: %s: Address already in use (os error 98)\n" % address.encode())
        cases.same("an address that is in use", wants, came)
    for address in ("nowhere", f"{HOST}:99999", "192.0.2.1:80"):
        status, output, error = run_words(cases.program, "serve", journal, address)
        cases.told(f"the address {address}", "7 and its line", (status, output, error), (status, output) == (7, b"nessie: listener fault\n"))


def addresses(cases, folder):
    """A host's name and an address of version 6, each with one connection."""
    for host in ("localhost", "[::1]"):
        port, journal = free_port(), os.path.join(folder, f"{host}.journal")
        words = [cases.program, "serve", journal, f"{host}:{port}", "--connections", "1"]
        process = subprocess.Popen(words, stdin=subprocess.DEVNULL, stdout=subprocess.PIPE, stderr=subprocess.PIPE)
        until = time.monotonic() + 20
        while not listens(port) and process.poll() is None and time.monotonic() < until:
            time.sleep(0.01)
        if process.poll() is None:
            with socket.create_connection((host.strip("[]"), port), 20) as link:
                link.sendall(CONFIG)
                came = link.recv(12)
        else:
            came = process.communicate()
        cases.same(f"the address {host}:PORT: a reply", b"HTTP/1.1 200", came)
        process.kill() if came != b"HTTP/1.1 200" else cases.same(f"the address {host}:PORT: its end", 0, process.wait(20))


def journal_faults(cases, folder):
    damaged = os.path.join(folder, "damaged.journal")
    with open(damaged, "wb") as file:
        file.write(b"no journal, and longer than 17 bytes")
    cases.same("a file that is no journal", (3, b"nessie: damaged at 0\n", b""), run_words(cases.program, "serve", damaged, f"{HOST}:{free_port()}"))
    absent = os.path.join(folder, "absent", "a.journal")
    wants = (2, b"nessie: disk fault\n", f"nessie: {absent}: No such file or directory (os error 2)\n".encode())
    cases.same("a folder that isn't there", wants, run_words(cases.program, "serve", absent, f"{HOST}:{free_port()}"))
    with Server(cases.program) as server:
        wants = (2, b"nessie: disk fault\n", f"nessie: {server.journal}: another process holds the file\n".encode())
        cases.same("a second process on one journal", wants, run_words(cases.program, "serve", server.journal, f"{HOST}:{free_port()}"))
        cases.same("`check` of a journal that is served", wants, run_words(cases.program, "check", server.journal))
        with server.link() as link:
            cases.same("the first process serves on", 200, link.ask(CONFIG).status)


def counted(cases, folder):
    with Server(cases.program, "--workers", 3, "--connections", 5) as server:
        for number in range(5):
            with server.link() as link:
                link.ask(post(COMMIT, commit("counted", put(f"counted{number}"))))
        cases.same("--connections 5: status and output after five", (0, b"", b""), server.outcome())
        status, line, _ = run_words(cases.program, "check", server.journal)
        cases.same("its journal: status, entries", (0, b"5"), (status, line.split()[1]))
    with Server(cases.program, "--workers", 2, "--connections", 1) as server:
        with server.link() as link:
            link.ask(CONFIG)
            time.sleep(0.2)
            cases.same("--connections 1: the one goes on", 200, link.ask(CONFIG).status)
        cases.same("--connections 1: its end", (0, b"", b""), server.outcome())


def killed(cases, folder):
    """Kills by each signal while commits run: the journal opens with all that was answered."""
    for signal, name in ((15, "SIGTERM"), (2, "SIGINT"), (9, "SIGKILL")):
        with Server(cases.program) as server:
            told = []
            writer = threading.Thread(target=commits_until_the_end, args=(server, told))
            writer.start()
            wait_for(told, 20)
            server.process.send_signal(signal)
            writer.join()
            cases.same(f"{name}: the status", -signal, server.process.wait())
            status, line, _ = run_words(cases.program, "check", server.journal)
            entries = int(line.split()[1]) if status == 0 else None
            cases.told(f"{name} while commits run: the journal", f"{len(told)} entries, or one more", f"status {status}, {entries}", entries in (len(told), len(told) + 1))
            again = Server(cases.program, journal=server.journal, port=server.port)
            with again.link() as link:
                cases.same(f"{name}: the next start at the same address serves all of it", entries, link.ask(CONFIG).place)
            again.end()


def wait_for(told, count):
    until = time.monotonic() + 60
    while len(told) < count and time.monotonic() < until:
        time.sleep(0.01)


def commits_until_the_end(server, told):
    """Commits of one key, put and deleted in turn, until the server is gone; `told` gets the place of each reply."""
    operations = [put("k"), {"type": "DELETE", "key": {"elements": ["k"]}}]
    try:
        while True:
            with server.link() as link:
                for number in range(1000):
                    told.append(link.ask(post(COMMIT, commit("killed", operations[number % 2]))).place)
    except (OSError, Ended):
        pass


def copied(cases, folder):
    """A copy that is made from front to back while commits run is a journal with a front of the entries."""
    with Server(cases.program) as server:
        told, counts = [], []
        writer = threading.Thread(target=commits_until_the_end, args=(server, told))
        writer.start()
        wait_for(told, 5)
        while len(counts) < 20 and len(told) < 1500:  # a slow program's check takes longer than the commits that it checks
            copy = os.path.join(folder, f"copy{len(counts)}.journal")
            before = len(told)
            shutil.copyfile(server.journal, copy)
            status, line, _ = run_words(cases.program, "check", copy)
            counts.append(status == 0 and before <= int(line.split()[1]) <= len(told) + 1)
        server.kill()
        writer.join()
        cases.same(f"{len(counts)} copies while commits run: each opens, with all that was answered before it", [True] * max(len(counts), 5), counts)


def memory_room(cases, folder):
    """A server that may not have more memory says so to the call, or ends that connection, and goes on when there is more."""
    with Server(cases.program, "--workers", 1) as server:
        if not shutil.which("prlimit") or server.memory("VmSize") > 1 << 30:
            cases.left_out("want of memory", "prlimit is missing, or the program is one with a sanitizer")
            return
        limited(server, server.memory("VmSize") * 1024 + 30_000_000)
        came = []
        while len(came) < 400 and sum(one != 200 for one in came) < 5:
            came.append(asked_alone(server, post(COMMIT, commit("more", put(f"more{len(came)}", "x" * 900_000)))))
        limited(server, "unlimited")
        good, lost = came.count(200), came.count("ended")
        with server.link() as link:
            place = link.ask(get("/trees/main")).place
        others = sorted({str(one) for one in came} - {"200"})
        fits = 0 < good < len(came) and set(others) <= {"507", "ended"} and good <= place <= good + lost
        cases.told("commits of 900 KB past the memory that the process may have", "200, then 507 or the connection's end, and all of it there with more memory", f"{good} times 200, {others}, then place {place}", fits)


def limited(server, room):
    subprocess.run(["prlimit", "--pid", str(server.process.pid), f"--as={room}:"], check=True)


def asked_alone(server, sent):
    """The status of a reply on a connection of its own."""
    with server.link() as link:
        try:
            return link.ask(sent).status
        except (Ended, OSError):
            return "ended"


def run(cases):
    folder = os.path.join(os.environ.get("TMPDIR", "/tmp"), f"nessie-process-{os.getpid()}")
    os.makedirs(folder)
    try:
        for case in (usage, addresses, listener_faults, journal_faults, counted, killed, copied, memory_room):
            cases.guarded("process: " + case.__name__, case, folder)
    finally:
        shutil.rmtree(folder, ignore_errors=True)
