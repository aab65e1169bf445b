"""Starts and ends `nessie serve`, talks to it over plain sockets, and tells what each case wanted and what came."""
import os
import shutil
import socket
import struct
import subprocess
import tempfile
import threading
import time

HERE = os.path.dirname(os.path.abspath(__file__))
TOP = os.path.dirname(os.path.dirname(HERE))
HOST = "127.0.0.1"
NO_ANCESTOR = "2e1cfa82b035c26cbbbdae632cea070514eb8b773f616aaeaf668e2f0be8f10d"


def free_port():
    with socket.socket() as one:
        one.bind((HOST, 0))
        return one.getsockname()[1]


def listens(port):
    """Whether some process listens at the port; this takes none of its connections."""
    for name in ("tcp", "tcp6"):
        with open("/proc/net/" + name) as table:
            for line in list(table)[1:]:
                local, state = line.split()[1], line.split()[3]
                if state == "0A" and int(local.rsplit(":", 1)[1], 16) == port:
                    return True
    return False


def get(target, *fields):
    return b"\r\n".join([b"GET /api/v2" + target.encode() + b" HTTP/1.1", b"Host: c", *fields]) + b"\r\n\r\n"


def post(target, body, *fields, method=b"POST"):
    head = [method + b" /api/v2" + target.encode() + b" HTTP/1.1", b"Host: c", *fields, b"Content-Length: %d" % len(body)]
    return b"\r\n".join(head) + b"\r\n\r\n" + body


CONFIG = get("/config")


class Ended(Exception):
    """The connection ended before a reply was whole; what had come of it."""


class Reply:
    def __init__(self, raw, head, body):
        lines = head.decode("latin-1").split("\r\n")
        self.raw, self.body = raw, body
        self.status = int(lines[0].split(" ")[1])
        self.fields = {name.lower(): value.strip() for name, _, value in (line.partition(":") for line in lines[1:])}

    @property
    def place(self):
        return int(self.fields["catalogue-place"])

    @property
    def closes(self):
        return self.fields.get("connection") == "close"


class Link:
    """One connection over a plain socket."""

    def __init__(self, port, seconds=100, read_room=None):
        self.socket = socket.socket()
        if read_room is not None:
            self.socket.setsockopt(socket.SOL_SOCKET, socket.SO_RCVBUF, read_room)
        self.socket.settimeout(seconds)
        self.socket.connect((HOST, port))
        self.socket.setsockopt(socket.IPPROTO_TCP, socket.TCP_NODELAY, 1)
        self.held = b""

    def send(self, sent):
        self.socket.sendall(sent)

    def more(self):
        got = self.socket.recv(1 << 20)
        if not got:
            raise Ended(self.held)
        self.held += got

    def reply(self, head_only=False):
        while b"\r\n\r\n" not in self.held:
            self.more()
        head, _, rest = self.held.partition(b"\r\n\r\n")
        length = 0
        for line in [] if head_only else head.split(b"\r\n")[1:]:
            name, _, value = line.partition(b":")
            if name.lower() == b"content-length":
                length = int(value)
        while len(self.held) < len(head) + 4 + length:
            self.more()
        raw, self.held = self.held[:len(head) + 4 + length], self.held[len(head) + 4 + length:]
        return Reply(raw, head, raw[len(head) + 4:])

    def ask(self, sent, head_only=False):
        self.send(sent)
        return self.reply(head_only)

    def rest(self):
        """What comes until the connection ends."""
        try:
            while True:
                self.more()
        except (Ended, ConnectionResetError):
            rest, self.held = self.held, b""
            return rest

    def finish(self):
        """No more is sent; replies may still come."""
        self.socket.shutdown(socket.SHUT_WR)

    def reset(self):
        """Cuts the connection at once."""
        self.socket.setsockopt(socket.SOL_SOCKET, socket.SO_LINGER, struct.pack("ii", 1, 0))
        self.socket.close()

    def close(self):
        self.socket.close()

    def __enter__(self):
        return self

    def __exit__(self, *_):
        self.close()


class Server:
    """A running `nessie serve` on a journal in a folder of its own, unless one is named."""

    def __init__(self, program, *words, journal=None, port=None, wait=True, before=()):
        self.folder = tempfile.mkdtemp(prefix="nessie-serve-")
        self.journal = journal or os.path.join(self.folder, "served.journal")
        self.port = port or free_port()
        self.base = f"http://{HOST}:{self.port}/api/v2"
        self.words = [*before, program, "serve", self.journal, f"{HOST}:{self.port}", *map(str, words)]
        self.start(wait)

    def start(self, wait=True):
        self.process = subprocess.Popen(self.words, stdin=subprocess.DEVNULL, stdout=subprocess.PIPE, stderr=subprocess.PIPE)
        until = time.monotonic() + 60
        while wait and not listens(self.port):
            if self.process.poll() is not None or time.monotonic() > until:
                raise SystemExit(f"the server doesn't listen: {self.words}: {self.outcome(1)}")
            time.sleep(0.01)

    def outcome(self, seconds=30):
        """Status, output and standard error, once it has ended by itself."""
        output, error = self.process.communicate(timeout=seconds)
        return self.process.returncode, output, error

    def memory(self, name="VmRSS"):
        """What it holds in memory, in KiB."""
        with open(f"/proc/{self.process.pid}/status") as told:
            return next(int(line.split()[1]) for line in told if line.startswith(name + ":"))

    def kill(self):
        self.process.kill()
        self.process.wait()
        self.process.stdout.close()
        self.process.stderr.close()

    def end(self):
        if self.process.poll() is None:
            self.kill()
        shutil.rmtree(self.folder, ignore_errors=True)

    def link(self, **options):
        return Link(self.port, **options)

    def __enter__(self):
        return self

    def __exit__(self, *_):
        self.end()


class Cases:
    """What each case wanted and what came of it."""

    def __init__(self, program):
        self.program = program
        self.lock = threading.Lock()
        self.counts = {"ok": 0, "WRONG": 0, "left out": 0}

    def note(self, word, line):
        with self.lock:
            self.counts[word] += 1
            print(f"{word + ':':9} {line}", flush=True)

    def told(self, what, wants, came, passed):
        self.note("ok" if passed else "WRONG", f"{what}: wants {wants}; came {came}")

    def same(self, what, wants, came):
        self.told(what, wants, came, wants == came)

    def left_out(self, what, why):
        self.note("left out", f"{what}: {why}")

    def guarded(self, what, case, *words):
        """Runs a case; where it breaks off, that is what came."""
        try:
            case(self, *words)
        except Exception as error:
            self.told(what, "an end of the case", f"{type(error).__name__}: {str(error)[:300]}", False)

    def status(self):
        print(", ".join(f"{count} {word}" for word, count in self.counts.items()))
        return 1 if self.counts["WRONG"] or not self.counts["ok"] else 0
