"""A running `nessie serve`, talked to over one connection, in place of `nessie script` over pipes."""

import socket
import subprocess
import time


class AnyStatus(int):
    """How a connection's session ended is told nowhere."""

    def __eq__(self, other):
        return True

    def __ne__(self, other):
        return False

    __hash__ = int.__hash__


# The server ends a connection on which nothing comes for ten seconds; a slow client takes a new one in time.
IDLE = 5


class Connection:
    """What `compare.py` takes for the two pipes of a child."""

    def __init__(self, port, wait):
        self.port, self.wait = port, wait
        self.between = True  # no request is sent in part
        self.connect()

    def connect(self):
        self.socket = socket.create_connection(("127.0.0.1", self.port), self.wait)
        self.socket.setsockopt(socket.IPPROTO_TCP, socket.TCP_NODELAY, 1)
        self.written = time.monotonic()

    def write(self, sent):
        if self.between and time.monotonic() - self.written > IDLE:
            self.socket.close()
            self.connect()
        self.between, self.written = False, time.monotonic()
        try:
            self.socket.sendall(sent)
        except (BrokenPipeError, ConnectionResetError):
            pass  # the server had ended the session; what it said comes first

    def fileno(self):
        return self.socket.fileno()

    def read(self):
        out = b""
        try:
            while got := self.socket.recv(1 << 20):
                out += got
        except ConnectionResetError:
            pass
        return out

    def close(self):
        try:
            self.socket.shutdown(socket.SHUT_WR)
        except OSError:
            pass


class Child:
    def __init__(self, program, path, wait, before=None):
        with socket.socket() as one:
            one.bind(("127.0.0.1", 0))
            port = one.getsockname()[1]
        self.server = subprocess.Popen([program, "serve", path, "127.0.0.1:%d" % port, "--workers", "2"], preexec_fn=before)
        until = time.monotonic() + wait
        while True:
            try:
                self.stdin = self.stdout = Connection(port, wait)
                return
            except ConnectionRefusedError:
                if self.server.poll() is not None or time.monotonic() > until:
                    raise
                time.sleep(0.01)

    def poll(self):
        return self.server.poll()

    def kill(self):
        self.server.kill()

    def wait(self, seconds=None):
        """The session is over: the server is killed, and its session's status isn't known."""
        self.server.kill()
        self.server.wait(seconds)
        return AnyStatus(0)
