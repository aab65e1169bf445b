"""Plain sockets: what no client library sends: pipelining, pieces, connections cut in the middle."""
import json
import time

from catalogue_bodies import commit, large, put
from serving import CONFIG, Server, get, post

COMMIT = "/trees/main/history/commit"


def place(server):
    with server.link() as link:
        return link.ask(CONFIG).place


def pipelined(cases, server):
    with server.link() as link:
        sent = [get("/config"), get("/trees/main"), get("/nowhere"), get("/trees")] * 50
        link.send(b"".join(sent))
        statuses = [link.reply().status for _ in sent]
        cases.same("200 requests in one write: the statuses in order", True, statuses == [200, 200, 404, 200] * 50)
        began = place(server)
        link.send(b"".join(post(COMMIT, commit("p", put(f"pipelined{number}"))) for number in range(50)))
        places = [link.reply().place for _ in range(50)]
        cases.same("50 commits in one write: their places one after another", True, places == list(range(began + 1, began + 51)))


def in_pieces(cases, server):
    with server.link() as link:
        sent = post(COMMIT, commit("bytes", put("bytes")))
        for at in range(len(sent)):
            link.send(sent[at:at + 1])
        cases.same("a commit byte by byte", 200, link.reply().status)
        body = commit("chunks", put("chunks"))
        head = b"POST /api/v2" + COMMIT.encode() + b" HTTP/1.1\r\nTransfer-Encoding: chunked\r\n\r\n"
        link.send(head + b"%x;a=b\r\n" % len(body[:9]) + body[:9])
        time.sleep(0.1)
        link.send(b"\r\n%X\r\n" % len(body[9:]) + body[9:] + b"\r\n0\r\n\r\n" + CONFIG)
        cases.same("a commit in chunks, and a request behind it", [200, 200], [link.reply().status, link.reply().status])


def expects(cases, server):
    with server.link(seconds=1) as link:
        body = commit("expect", put("expected"))
        link.send(b"POST /api/v2" + COMMIT.encode() + b" HTTP/1.1\r\nExpect: 100-continue\r\nContent-Length: %d\r\n\r\n" % len(body))
        try:
            came = link.reply().status
        except TimeoutError:
            came = "nothing for a second"
        link.socket.settimeout(30)
        cases.same("Expect: 100-continue without its body (there are no interim replies)", "nothing for a second", came)
        cases.same("then its body", 200, link.ask(body).status)


def heads(cases, server):
    with server.link() as link:
        reply = link.ask(b"HEAD /api/v2/config HTTP/1.1\r\n\r\n", head_only=True)
        cases.same("HEAD: status, Allow, length", (405, "GET", None), (reply.status, reply.fields.get("allow"), reply.fields.get("content-length")))
        cases.same("the request behind it", 200, link.ask(CONFIG).status)
        reply = link.ask(b"GET /api/v2/config HTTP/1.0\r\n\r\n")
        cases.same("HTTP/1.0: status, close, nothing behind it", (200, True, b""), (reply.status, reply.closes, link.rest()))
    with server.link() as link:
        reply = link.ask(get("/config", b"Connection: close") + CONFIG)
        cases.same("Connection: close: status, close, nothing behind it", (200, True, b""), (reply.status, reply.closes, link.rest()))


def refused(cases, server):
    for what, sent, status in (
            ("no request", b"what is this\r\n\r\n", 400), ("two lengths", b"POST / HTTP/1.1\r\nContent-Length: 1\r\nContent-Length: 2\r\n\r\n", 400),
            ("a head of 17 KB", b"GET / HTTP/1.1\r\nA: " + b"x" * 17000 + b"\r\n\r\n", 400),
            ("a body of 1,048,577 bytes", b"POST / HTTP/1.1\r\nContent-Length: 1048577\r\n\r\n", 413)):
        with server.link() as link:
            reply = link.ask(sent)
            cases.same(f"{what}: status, close, nothing behind it", (status, True, b""), (reply.status, reply.closes, link.rest()))


def cut_requests(cases, server):
    """Connections that end in the middle of a request change nothing, and others go on."""
    began = place(server)
    sent = post(COMMIT, commit("cut", put("cut")))
    with server.link() as other:
        for at in range(1, len(sent), 7):
            link = server.link()
            link.send(sent[:at])
            link.reset() if at % 2 else link.close()
            other.ask(CONFIG)
        cases.same("cut in the middle of a request, again and again: the place", began, other.ask(CONFIG).place)
    with server.link() as link:
        link.send(sent[:-1])
        link.finish()
        reply = link.reply()
        cases.same("half closed within a request: status, message", (400, "bad head"), (reply.status, json.loads(reply.body)["message"]))
    with server.link() as link:
        link.send(CONFIG * 3)
        link.finish()
        came = [link.reply().status for _ in range(3)]
        cases.same("half closed behind three requests: statuses, the rest", ([200] * 3, b""), (came, link.rest()))


def cut_replies(cases, server):
    """Connections that end in the middle of a reply end alone."""
    with server.link() as other:
        other.ask(post(COMMIT, large(50_000)))
        reading = get("/trees/main/contents/large")
        size = len(other.ask(reading).raw)
        for number in range(30):
            link = server.link(read_room=4096)
            link.send(reading * 40)
            link.socket.recv(1000)
            link.reset() if number % 2 else link.close()
            other.ask(CONFIG)
        cases.same(f"30 cut within replies of {size} bytes: the next reply", 200, other.ask(reading).status)
    with server.link() as link:
        link.send(post(COMMIT, commit("unread", put("unread"))))
        link.reset()
    deadline = time.monotonic() + 5
    while time.monotonic() < deadline:
        with server.link() as link:
            came = link.ask(get("/trees/main/contents/unread")).status
        if came == 200:
            break
        time.sleep(0.05)
    cases.told("a commit whose client is gone at once", "200 or 404 for its key", came, came in (200, 404))


def many(cases, server):
    """More connections than workers, each with one request and its end."""
    links = [server.link() for _ in range(40)]
    for link in links:
        link.send(get("/trees/main", b"Connection: close"))
    statuses = [link.reply().status for link in links]
    for link in links:
        link.close()
    cases.same("40 connections at once: statuses", {200}, set(statuses))


def run(cases):
    with Server(cases.program) as server:
        for case in (pipelined, in_pieces, expects, heads, refused, cut_requests, cut_replies, many):
            cases.guarded("sockets: " + case.__name__, case, server)
        cases.same("sockets: the server is still there", None, server.process.poll())
