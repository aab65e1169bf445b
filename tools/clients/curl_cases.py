"""`curl`: a tour (a table, a branch, a conflict, a merge, a collection), and the forms that it can send."""
import json
import shutil
import subprocess

from catalogue_bodies import commit, large, put
from serving import Server

SHOWN = "\n%{http_code} %{num_connects}"


def curl(*words, sent=None):
    """The bodies, statuses and counts of new connections of one run of curl."""
    done = subprocess.run(["curl", "-sS", "--max-time", "100", "-w", SHOWN + "\n", *words], input=sent, stdout=subprocess.PIPE, stderr=subprocess.PIPE)
    if done.returncode:
        raise RuntimeError(f"curl ended in {done.returncode}: {done.stderr.decode().strip()}")
    lines = done.stdout.decode().strip().split("\n")
    return lines[0] if len(lines) > 1 else "", [int(number) for number in lines[-1].split()]


def ask(server, method, target, body=None):
    words = ["-X", method, server.base + target]
    if body is not None:
        words += ["-H", "Content-Type: application/json", "--data-binary", body if isinstance(body, str) else body.decode()]
    text, (status, _) = curl(*words)
    return status, json.loads(text)


def tour(cases, server):
    status, config = ask(server, "GET", "/config")
    cases.same("curl: configuration", (200, "main"), (status, config["defaultBranch"]))
    status, made = ask(server, "POST", "/trees/main/history/commit", commit("add orders", put("orders", "s3://lake/orders/1.json")))
    cases.same("curl: a table is committed", (200, ["orders"]), (status, made["addedContents"][0]["key"]["elements"]))
    orders = made["addedContents"][0]["contentId"]
    status, branch = ask(server, "POST", "/trees?name=trial&type=BRANCH", '{"type":"BRANCH","name":"main"}')
    cases.same("curl: a branch is made", (200, made["targetBranch"]["hash"]), (status, branch["reference"]["hash"]))
    changed = commit("try", put("orders", "s3://lake/orders/2.json", 2, orders), put("returns", "s3://lake/returns/1.json"))
    status, tried = ask(server, "POST", "/trees/trial/history/commit", changed)
    cases.same("curl: a commit on the branch", 200, status)
    status, _ = ask(server, "POST", "/trees/main/history/commit", commit("append", put("orders", "s3://lake/orders/3.json", 3, orders)))
    cases.same("curl: the same table is changed on main", 200, status)
    merge(cases, server, tried["targetBranch"]["hash"])
    collect(cases, server, made["targetBranch"]["hash"])


def merge(cases, server, source):
    body = {"fromRefName": "trial", "fromHash": source}
    status, refused = ask(server, "POST", "/trees/main/history/merge", json.dumps(body))
    came = (status, [one["conflictType"] for one in refused["errorDetails"]["conflicts"]])
    cases.same("curl: a merge finds the conflict", (409, ["VALUE_DIFFERS"]), came)
    body["keyMergeModes"] = [{"key": {"elements": ["orders"]}, "mergeBehavior": "FORCE"}]
    status, merged = ask(server, "POST", "/trees/main/history/merge", json.dumps(body))
    cases.same("curl: a merge that takes the branch's side", (200, True), (status, merged["wasApplied"]))
    status, entries = ask(server, "GET", "/trees/main/entries")
    cases.same("curl: main has both tables", ["orders", "returns"], [one["name"]["elements"][0] for one in entries["entries"]])
    status, found = ask(server, "GET", "/trees/main/contents/orders")
    cases.same("curl: the table is the branch's", "s3://lake/orders/2.json", found["content"]["metadataLocation"])
    status, _ = ask(server, "DELETE", "/trees/trial")
    cases.same("curl: the branch is removed", 200, status)


def collect(cases, server, first):
    """Of four contents main's head shows two; the others were the first value of its table, and the one that the merge replaced."""
    status, found = ask(server, "GET", f"/trees/main@{first}/contents/orders")
    cases.same("curl: the first value is read", (200, "s3://lake/orders/1.json"), (status, found["content"]["metadataLocation"]))
    body = '{"defaultCutoff":"P30D","cutoffs":[{"pattern":"main","cutoff":"1"}]}'
    text, (status, _) = curl("--data-binary", body, server.base.replace("/api/v2", "/gc/v1/sweep"))
    cases.same("curl: a collection", (200, {"kept": 2, "openedPlace": 6, "removed": 2}), (status, json.loads(text)))
    status, gone = ask(server, "GET", f"/trees/main@{first}/contents/orders")
    cases.same("curl: the first value is gone", (404, "content expired"), (status, gone["message"]))
    status, refused = ask(server, "POST", "/trees?name=old&type=BRANCH", json.dumps({"type": "DETACHED", "hash": first}))
    cases.same("curl: a branch there is refused", (409, [{"elements": ["orders"]}], 7), (status, refused["errorDetails"]["keys"], refused["errorDetails"]["openedPlace"]))


def forms(cases, server):
    url = server.base + "/config"
    done = subprocess.run(["curl", "-sS", "-o", "/dev/null", "-w", "%{num_connects} ", url, *["--next", "-sS", "-o", "/dev/null", "-w", "%{num_connects} ", url] * 2], stdout=subprocess.PIPE)
    cases.same("curl: three requests, new connections of each", "1 0 0", done.stdout.decode().strip())
    done = subprocess.run(["curl", "-sS", "-I", "--max-time", "5", url], stdout=subprocess.PIPE)
    head = done.stdout.decode()
    cases.same("curl -I: status, exit, a length", ("405", 0, False), (head.split(" ")[1], done.returncode, "Content-Length" in head))
    _, came = curl("--http1.0", url)
    cases.same("curl --http1.0: status", 200, came[0])
    body = commit("chunked", put("chunked"))
    _, came = curl("-H", "Transfer-Encoding: chunked", "--data-binary", "@-", server.base + "/trees/main/history/commit", sent=body)
    cases.same("curl: a chunked upload", 200, came[0])
    _, came = curl("-H", "Expect: 100-continue", "--data-binary", "@-", server.base + "/trees/main/history/commit", sent=commit("expect", put("expect")))
    cases.same("curl: Expect: 100-continue, which has no effect, so that it sends on after a second", 200, came[0])
    _, came = curl("--data-binary", "@-", server.base + "/trees/main/history/commit", sent=large(1_000_000))
    cases.same("curl: a body of 1 MB", 200, came[0])
    _, came = curl("--data-binary", "@-", server.base + "/trees/main/history/commit", sent=b"x" * 1_100_000)
    cases.same("curl: a body that is too large", 413, came[0])
    _, came = curl(server.base + "/trees/main%2Fentries")
    cases.same("curl: a slash in a name stays escaped", 404, came[0])


def run(cases):
    if not shutil.which("curl"):
        cases.left_out("curl", "curl is missing")
        return
    with Server(cases.program) as server:
        cases.guarded("curl: tour", tour, server)
        cases.guarded("curl: forms", forms, server)
