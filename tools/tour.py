#!/usr/bin/env python3
"""Shows a branch, a conflict and a merge: sends requests to `nessie script` over a pair of pipes, and prints each beside its reply.

Usage: tools/tour.py [JOURNAL] (a new one in a folder of its own where none is named)
"""
import json
import os
import subprocess
import sys
import tempfile

TOP = os.path.dirname(os.path.dirname(os.path.abspath(__file__)))


class Session:
    """One session of the program on a journal, a request at a time."""

    def __init__(self, journal):
        program = os.path.join(TOP, "nessie")
        self.process = subprocess.Popen([program, "script", journal], stdin=subprocess.PIPE, stdout=subprocess.PIPE)

    def ask(self, title, method, target, body=None):
        sent = b"" if body is None else json.dumps(body).encode()
        head = f"{method} /api/v2{target} HTTP/1.1\r\nContent-Length: {len(sent)}\r\n\r\n"
        self.process.stdin.write(head.encode() + sent)
        self.process.stdin.flush()
        status = self.process.stdout.readline().decode().split(" ", 1)[1].strip()
        length, place = 0, "none"
        while (line := self.process.stdout.readline().strip()):
            name, value = line.decode().split(": ", 1)
            if name == "Content-Length":
                length = int(value)
            if name == "Catalogue-Place":
                place = value
        reply = json.loads(self.process.stdout.read(length))
        print(f"# {title}\n{method} {target}" + ("" if body is None else " " + json.dumps(body)))
        print(f"{status}, place {place}: {json.dumps(reply)}\n")
        return reply

    def end(self):
        self.process.stdin.close()
        return self.process.wait()


def put(key, location, snapshot, content_id=None):
    table = {"type": "ICEBERG_TABLE", "metadataLocation": location, "snapshotId": snapshot}
    if content_id is not None:
        table["id"] = content_id
    return {"type": "PUT", "key": {"elements": [key]}, "content": table}


def commit(message, *operations):
    return {"commitMeta": {"message": message}, "operations": list(operations)}


def tour(session):
    made = session.ask("A table is put on main.", "POST", "/trees/main/history/commit", commit("add orders", put("orders", "s3://lake/orders/1.json", 1)))
    orders = made["addedContents"][0]["contentId"]
    session.ask("A branch is made from main.", "POST", "/trees?name=trial&type=BRANCH", {"type": "BRANCH", "name": "main"})
    tried = session.ask(
        "On the branch the table is changed, and another one is put.",
        "POST",
        "/trees/trial/history/commit",
        commit("try a rewrite", put("orders", "s3://lake/orders/2.json", 2, orders), put("returns", "s3://lake/returns/1.json", 1)),
    )
    session.ask("Meanwhile main changes the same table.", "POST", "/trees/main/history/commit", commit("append", put("orders", "s3://lake/orders/3.json", 3, orders)))
    merge = {"fromRefName": "trial", "fromHash": tried["targetBranch"]["hash"]}
    session.ask("So a merge finds a conflict, and nothing is changed.", "POST", "/trees/main/history/merge", merge)
    merge["keyMergeModes"] = [{"key": {"elements": ["orders"]}, "mergeBehavior": "FORCE"}]
    session.ask("The branch's side is taken for that key.", "POST", "/trees/main/history/merge", merge)
    session.ask("Main has both tables.", "GET", "/trees/main/entries")
    session.ask("The table is the branch's.", "GET", "/trees/main/contents/orders")
    session.ask("The merge is one commit with two parents.", "GET", "/trees/main/history?max-records=1")
    session.ask("The branch isn't needed any more.", "DELETE", "/trees/trial")


def main():
    with tempfile.TemporaryDirectory() as folder:
        session = Session(sys.argv[1] if len(sys.argv) > 1 else os.path.join(folder, "tour.journal"))
        tour(session)
        return session.end()


if __name__ == "__main__":
    sys.exit(main())
