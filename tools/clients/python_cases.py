"""Python's clients: `http.client`, and `urllib3` and `requests` where they are there."""
import http.client
import importlib.util
import json

from catalogue_bodies import commit, put
from serving import HOST, Server


def over(connection, method, target, body=None, **options):
    connection.request(method, "/api/v2" + target, body, **options)
    reply = connection.getresponse()
    return reply, reply.read()


def kept(cases, server):
    connection = http.client.HTTPConnection(HOST, server.port, timeout=30)
    statuses, sockets = [], set()
    for _ in range(100):
        reply, _ = over(connection, "GET", "/trees/main")
        statuses.append(reply.status)
        sockets.add(connection.sock.getsockname() if connection.sock else None)
    cases.same("http.client: 100 requests, statuses and connections", ({200}, 1), (set(statuses), len(sockets)))
    reply, body = over(connection, "HEAD", "/config")
    cases.same("http.client: HEAD, status and body", (405, b""), (reply.status, body))
    reply, body = over(connection, "GET", "/config")
    cases.same("http.client: the request after a HEAD", (200, 2), (reply.status, json.loads(body)["actualApiVersion"]))
    pieces = iter([part.encode() for part in commit("in pieces", put("pieces")).decode().partition(",")])
    reply, _ = over(connection, "POST", "/trees/main/history/commit", pieces, encode_chunked=True, headers={"Transfer-Encoding": "chunked"})
    cases.same("http.client: a chunked upload", 200, reply.status)
    connection.close()


def thousand(cases, server):
    connection = http.client.HTTPConnection(HOST, server.port, timeout=30)
    closes = []
    for number in range(1, 1001):
        reply, _ = over(connection, "GET", "/config")
        if reply.getheader("Connection") == "close":
            closes.append(number)
    cases.same("http.client: which of 1,000 replies say close", [1000], closes)
    reply, _ = over(connection, "GET", "/config")
    cases.same("http.client: the next request, on a new connection", 200, reply.status)
    connection.close()


def too_large(cases, server):
    """The server answers before the body was read, and closes: the reply has to be seen all the same."""
    seen = []
    for _ in range(10):
        connection = http.client.HTTPConnection(HOST, server.port, timeout=30)
        try:
            reply, _ = over(connection, "POST", "/trees/main/history/commit", b"x" * 3_000_000)
            seen.append(reply.status)
        except OSError as error:
            seen.append(type(error).__name__)
        connection.close()
    cases.told("http.client: a body of 3 MB, ten times", "413, or a cut while it is sent", sorted(set(map(str, seen))), set(seen) <= {413, "BrokenPipeError", "ConnectionResetError"})


def old_version(cases, server):
    connection = http.client.HTTPConnection(HOST, server.port, timeout=30)
    connection._http_vsn, connection._http_vsn_str = 10, "HTTP/1.0"
    reply, _ = over(connection, "GET", "/config")
    cases.same("http.client as HTTP/1.0: status and Connection", (200, "close"), (reply.status, reply.getheader("Connection")))
    connection.close()


def with_urllib3(cases, server):
    import urllib3
    pool = urllib3.HTTPConnectionPool(HOST, server.port, maxsize=1, block=True, retries=False)
    statuses = {pool.request("GET", "/api/v2/trees").status for _ in range(1100)}
    cases.same("urllib3: 1,100 requests, over the last one of a connection", {200}, statuses)
    reply = pool.request("POST", "/api/v2/trees/main/history/commit", body=iter([commit("u", put("urllib3"))]), chunked=True)
    cases.same("urllib3: a chunked upload", 200, reply.status)
    pool.close()


def with_requests(cases, server):
    import requests
    with requests.Session() as session:
        replies = [session.get(server.base + "/trees/main") for _ in range(50)]
        cases.same("requests: 50 requests", {200}, {reply.status_code for reply in replies})
        reply = session.post(server.base + "/trees/main/history/commit", data=iter([commit("r", put("requests"))]))
        cases.same("requests: a chunked upload", 200, reply.status_code)
        reply = session.get(server.base + "/trees/main/contents/requests", headers={"Accept-Encoding": "gzip, br"})
        cases.same("requests: the table is there, uncompressed", ("m", None), (reply.json()["content"]["metadataLocation"], reply.headers.get("Content-Encoding")))
        reply = session.post(server.base + "/trees/main/contents", json={"requestedKeys": [{"elements": ["requests"]}]})
        cases.same("requests: contents of keys", 1, len(reply.json()["contents"]))
        reply = session.post(server.base + "/trees/main/contents", data=b"\x1f\x8b", headers={"Content-Encoding": "gzip"})
        cases.same("requests: a compressed body", (415, "ENCODING"), (reply.status_code, reply.json()["errorCode"]))


def run(cases):
    with Server(cases.program) as server:
        for case in (kept, thousand, too_large, old_version):
            cases.guarded("http.client: " + case.__name__, case, server)
        for name, case in (("urllib3", with_urllib3), ("requests", with_requests)):
            if importlib.util.find_spec(name):
                cases.guarded(name, case, server)
            else:
                cases.left_out(name, "the module is missing")
