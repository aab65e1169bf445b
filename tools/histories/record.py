"""What a client sent, and what came of it."""
import json
from typing import NamedTuple, Optional


class Sent(NamedTuple):
    client: int
    connection: int  # counted by each client from 1
    opened: int  # when the connection was opened; times are nanoseconds of the one monotonic clock
    index: int  # which request of its connection it is, from 1
    method: str
    target: bytes
    body: bytes
    began: int  # when it was sent
    ended: int  # when its reply had come, or its connection was seen to have ended
    raw: Optional[bytes]  # the reply; None where the connection ended before it

    @property
    def name(self):
        return f"client {self.client}, connection {self.connection}, request {self.index}: {self.method} {self.target.decode()} {self.body.decode()}"

    @property
    def status(self):
        return int(self.raw[9:12])

    @property
    def json(self):
        return json.loads(self.raw.partition(b"\r\n\r\n")[2] or b"null")

    @property
    def place(self):
        """The place that the reply tells, or None."""
        for line in self.raw.partition(b"\r\n\r\n")[0].split(b"\r\n"):
            if line.startswith(b"Catalogue-Place: "):
                return int(line[17:])
        return None

    @property
    def changes(self):
        """Whether it asks for a change."""
        path = self.target.partition(b"?")[0]
        return self.method in ("PUT", "DELETE") or self.method == "POST" and not path.endswith((b"/contents", b"/checkpoint"))

    @property
    def collects(self):
        """Whether it asks for a collection."""
        return self.method == "POST" and self.target == b"/gc/v1/sweep"

    @property
    def checkpoints(self):
        """Whether it asks for a checkpoint."""
        return self.method == "POST" and self.target == b"/gc/v1/checkpoint"

    @property
    def accepted(self):
        """Whether its reply says that an entry was made."""
        if self.raw is None or not self.changes or self.status != 200:
            return False
        return self.json.get("wasApplied", True)
