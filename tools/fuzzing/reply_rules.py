"""What holds of every reply, whatever was sent: its head, its JSON, its status with its code and message, the places in their order."""
import re
from typing import NamedTuple, Optional

import replies
from program import Wrong, shown

HEAD = re.compile(rb"HTTP/1\.1 (\d{3}) ([A-Za-z ]+)\r\nContent-Type: application/json\r\n(?:Allow: ([A-Z, ]+)\r\n)?"
                  rb"(?:Catalogue-Place: (0|[1-9]\d*)\r\n)?(?:Content-Length: (0|[1-9]\d*)\r\n)?(Connection: close\r\n)?\r\n")
ALLOWED = {b"GET", b"GET, POST", b"GET, PUT, DELETE", b"POST"}
BY_BYTES = {"bad head", "bad path", "bad query", "bad body"}
# The messages of each code that a session with memory, a disk and room can have.
MESSAGES = {
    "BAD_REQUEST": BY_BYTES | {"not a branch", "default branch", "other type", "not consecutive"},
    "REFERENCE_NOT_FOUND": {"reference not found"},
    "REFERENCE_ALREADY_EXISTS": {"reference exists"},
    "OLD_FORMAT": {"old format"},
    "CONTENT_NOT_FOUND": {"content absent", "content expired"},
    "NO_ROUTE": {"no such path"},
    "WRONG_METHOD": {"method not allowed"},
    "TOO_LARGE": {"body too large"},
    "ENCODING": {"encoding not supported"},
}
WITHOUT_PLACE = {"NO_ROUTE", "WRONG_METHOD", "TOO_LARGE", "ENCODING"}
MERGED = {"details", "effectiveTargetHash", "resultantTargetHash", "targetBranch", "wasApplied", "wasSuccessful"}
ACCEPTED = [{"addedContents", "targetBranch"}, {"kept", "openedPlace", "removed"}]
READ = [
    {"actualApiVersion", "defaultBranch", "maxSupportedApiVersion", "minSupportedApiVersion", "noAncestorHash"},
    {"hasMore", "references"}, {"effectiveReference", "entries", "hasMore"}, {"hasMore", "logEntries"},
    {"contents", "effectiveReference"}, {"content", "effectiveReference"}, {"place"},
]


class Reply(NamedTuple):
    status: int
    place: Optional[int]
    closes: bool
    value: Optional[dict]  # None: a reply to HEAD

    @property
    def told(self):
        """The status, and the code or the message."""
        if self.value is None:
            return "%d to HEAD" % self.status
        if self.status == 200:
            return "200"
        if self.value["errorCode"] == "REFERENCE_CONFLICT":
            return "409 " + self.value["errorDetails"]["type"]
        return "%d %s" % (self.status, self.value["message"])

    @property
    def cuts(self):
        """Whether the session ends here with status 8, as far as the reply tells: yes, no, or either."""
        if self.value is None:
            return None if self.closes and self.status in (400, 413) else False
        return self.closes and self.status in (400, 413) and self.value["message"] in ("bad head", "body too large")


def need(condition, what, got):
    if not condition:
        raise Wrong("%s: %s" % (what, shown(got)))


def next_reply(out):
    """The first reply of these bytes, and the rest; None where it isn't whole."""
    head = HEAD.match(out)
    if head is None:
        need(b"\r\n\r\n" not in out, "no head of a reply", out)
        return None
    size = head.end() + (int(head[5]) if head[5] else 0)
    if len(out) < size:
        return None
    status, body = int(head[1]), out[head.end():size]
    need(replies.PHRASES.get(status, "").encode() == head[2], "a status or its phrase", out)
    need((head[3] in ALLOWED) == (status == 405), "Allow", out)
    reply = Reply(status, int(head[4]) if head[4] else None, head[6] is not None, value_of(body) if head[5] else None)
    if reply.value is not None:
        judge(reply, out[:size])
    return reply, out[size:]


def value_of(body):
    try:
        value = replies.read_json(body)
    except replies.NoReading:
        raise Wrong("no JSON: " + shown(body))
    need(isinstance(value, dict) and replies.write_json(value) == body, "JSON that isn't written as it should be", body)
    return value


def judge(reply, raw):
    value = reply.value
    if reply.status == 200:
        need(reply.place is not None, "an accepted reply without place", raw)
        members = set(value) - {"token", "commonAncestor"}
        need(members in (MERGED, {"reference"}, *ACCEPTED, *READ), "a reply's members", raw)
        need(("token" in value) == value.get("hasMore", False), "a token", raw)
        return
    code, message = value.get("errorCode"), value.get("message")
    need(value.get("status") == reply.status == replies.STATUS.get(code), "a refusal's status", raw)
    need(value.get("reason") == replies.PHRASES[reply.status], "a reason", raw)
    by_bytes = code in WITHOUT_PLACE or message in BY_BYTES
    need((reply.place is None) == by_bytes, "a refusal's place", raw)
    if code == "REFERENCE_CONFLICT":
        return judge_conflict(value, raw)
    need(message in MESSAGES.get(code, ()), "a refusal that has no cause", raw)
    need(set(value) == {"errorCode", "message", "reason", "status"}, "a refusal's members", raw)


def judge_conflict(value, raw):
    details = value.get("errorDetails", {})
    if details.get("type") == "REFERENCE_CONFLICTS":
        count = len(details["conflicts"])
        need(count > 0 and value["message"] == "conflicts: %d" % count, "a number of conflicts", raw)
    else:
        need(details.get("type") == "EXPIRED" and value["message"] == "contents expired" and details["keys"], "a conflict", raw)


def steps_of(reply):
    """By how much the place may have risen with a reply: at least, at most."""
    if reply.status != 200 or reply.value is None:
        return 0, 0
    if set(reply.value) in ACCEPTED:
        return 1, 1
    if "wasApplied" in reply.value:
        return int(reply.value["wasApplied"]), int(reply.value["wasApplied"])
    return 0, int("reference" in reply.value)


def judged(out, place, whole=True):
    """The replies of a session that began at a place, and the place at its end."""
    found = []
    while out:
        got = next_reply(out)
        if got is None:
            need(not whole, "the end of the output", out)
            break
        reply, rest = got
        need(len(found) < 1000 and not (found and found[-1].closes), "a reply after the last", out)
        if reply.place is not None:
            least, most = steps_of(reply)
            need(place + least <= reply.place <= place + most, "a place after %d" % place, out[:len(out) - len(rest)])
            place = reply.place
        found.append(reply)
        out = rest
    return found, place
