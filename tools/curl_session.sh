#!/bin/sh
# Talks to the program with curl, a real client: one connection on a loopback port is handed to
# `nessie script` as its standard input and output, and curl sends four requests over it.
top=$(CDPATH= cd -- "$(dirname -- "$0")/.." && pwd) || exit 70
for tool in python3 curl; do
    command -v "$tool" >/dev/null || { echo "curl_session: $tool is missing" >&2; exit 77; }
done
exec python3 - "$top" <<'PYTHON'
import json, os, socket, subprocess, sys, tempfile, threading

top = sys.argv[1]
folder = tempfile.TemporaryDirectory()
journal = os.path.join(folder.name, "curl.journal")
listener = socket.create_server(("127.0.0.1", 0))
base = f"http://127.0.0.1:{listener.getsockname()[1]}/api/v2"


def serve():
    connection, _ = listener.accept()
    with connection:
        subprocess.run([top + "/nessie", "script", journal], stdin=connection, stdout=connection)


thread = threading.Thread(target=serve)
thread.start()
table = {"type": "ICEBERG_TABLE", "metadataLocation": "s3://lake/orders/1.json", "snapshotId": 1}
body = {
    "commitMeta": {"message": "add orders"},
    "operations": [{"type": "PUT", "key": {"elements": ["orders"]}, "content": table}],
}
shown = ["-w", "\n", "--max-time", "30"]
sent = ["-H", "Content-Type: application/json", "-d", json.dumps(body)]
words = ["curl", "-sS", *shown, base + "/config", "--next", "-sS", *shown, base + "/trees/-", "--next", "-sS", *shown, *sent]
words += [base + "/trees/main/history/commit", "--next", "-sS", *shown, base + "/trees/main/contents/orders"]
done = subprocess.run(words)
thread.join(timeout=30)
folder.cleanup()
sys.exit(done.returncode)
PYTHON
