"""Load tools, Go's and Java's clients, a TLS proxy and the unit of docs/OPERATIONS.md, where they are there."""
import os
import re
import shutil
import subprocess
import time

from catalogue_bodies import commit, put
from serving import CONFIG, HERE, HOST, TOP, Server, free_port, listens, post

OPERATIONS = os.path.join(TOP, "docs", "OPERATIONS.md")


def output_of(words, seconds=120):
    done = subprocess.run(words, stdin=subprocess.DEVNULL, stdout=subprocess.PIPE, stderr=subprocess.STDOUT, timeout=seconds)
    return done.returncode, done.stdout.decode(errors="replace")


def number_of(pattern, text):
    found = re.search(pattern, text)
    return float(found[1]) if found else None


def with_ab(cases, server):
    status, text = output_of(["ab", "-q", "-n", "200", "-c", "4", server.base + "/trees/main"])
    came = (status, number_of(r"Complete requests:\s+(\d+)", text), number_of(r"Failed requests:\s+(\d+)", text), number_of(r"Non-2xx responses:\s+(\d+)", text))
    cases.same("ab: status, complete, failed, others than 200", (0, 200, 0, None), came)


def with_wrk(cases, server):
    status, text = output_of(["wrk", "-t1", "-c4", "-d3s", server.base + "/trees/main"])
    wrong = number_of(r"Non-2xx or 3xx responses: (\d+)", text)
    errors = re.search(r"Socket errors: (.*)", text)
    rate = number_of(r"Requests/sec:\s+([\d.]+)", text)
    cases.told("wrk: 3 s on 4 connections", "replies of 200 alone, no errors", f"status {status}, {rate} a second, others {wrong}, errors {errors and errors[1]}", status == 0 and wrong is None and errors is None and bool(rate))


def lines_told(cases, what, words):
    """A client that prints a line for each of its cases."""
    status, text = output_of(words)
    others = []
    for line in text.strip().split("\n"):
        word, _, rest = line.partition(" ")
        if word in ("ok", "WRONG"):
            cases.note(word, f"{what}: {rest}")
        else:
            others.append(line)
    cases.same(f"{what}: its status, and what else it said", (0, ""), (status, " ".join(others)[:300]))


def block(kind):
    """The first block of this kind in the operations page."""
    with open(OPERATIONS) as page:
        return re.search(rf"```{kind}\n(.*?)```", page.read(), re.DOTALL)[1]


def with_nginx(cases, server):
    folder, port = server.folder, free_port()
    subprocess.run(["openssl", "req", "-x509", "-newkey", "ec", "-pkeyopt", "ec_paramgen_curve:prime256v1", "-nodes", "-days", "1", "-subj", "/CN=localhost", "-keyout", folder + "/key.pem", "-out", folder + "/cert.pem"],
                   check=True, stderr=subprocess.DEVNULL)
    text = block("nginx").replace("127.0.0.1:19120", f"{HOST}:{server.port}").replace("443", str(port))
    text = re.sub(r"/etc/ssl/[\w./-]*key[\w./-]*", folder + "/key.pem", re.sub(r"/etc/ssl/[\w./-]*(cert|crt)[\w./-]*", folder + "/cert.pem", text))
    with open(folder + "/nginx.conf", "w") as file:
        file.write(f"error_log {folder}/error.log;\npid {folder}/nginx.pid;\nevents {{}}\nhttp {{\naccess_log off;\nclient_body_temp_path {folder};\nproxy_temp_path {folder};\n{text}}}\n")
    process = subprocess.Popen(["nginx", "-p", folder, "-e", folder + "/error.log", "-c", folder + "/nginx.conf", "-g", "daemon off;"], stdout=subprocess.DEVNULL, stderr=subprocess.PIPE)
    try:
        until = time.monotonic() + 10
        while not listens(port) and process.poll() is None and time.monotonic() < until:
            time.sleep(0.05)
        through_nginx(cases, server, f"https://localhost:{port}/api/v2", folder)
    finally:
        process.terminate()
        process.wait()


def through_nginx(cases, server, base, folder):
    curl = ["curl", "-sS", "--max-time", "20", "--cacert", folder + "/cert.pem", "-w", " %{http_code} %{http_version}", "-o", "/dev/null"]
    cases.same("nginx: a read through TLS", (0, " 200 2"), output_of([*curl, "--http2", base + "/config"]))
    body = commit("tls", put("behind")).decode()
    cases.same("nginx: a commit through TLS", (0, " 200 1.1"), output_of([*curl, "--http1.1", "--data-binary", body, base + "/trees/main/history/commit"]))
    with server.link() as link:
        link.ask(post("/trees?name=rel/1.0&type=BRANCH", b'{"type":"BRANCH","name":"main"}'))
    cases.same("nginx: a slash in a name goes through escaped", (0, " 200 2"), output_of([*curl, base + "/trees/rel%2F1.0/entries"]))
    chunked = [*curl, "-H", "Transfer-Encoding: chunked", "--http1.1", "--data-binary", body.replace("behind", "chunked"), base + "/trees/main/history/commit"]
    cases.same("nginx: a chunked commit through TLS", (0, " 200 1.1"), output_of(chunked))
    codes = [output_of([*curl, base + "/trees/main"])[1].split()[0] for _ in range(20)]
    cases.same("nginx: 20 reads, each a connection of its own", {"200"}, set(codes))
    time.sleep(11)
    cases.same("nginx: a read after 11 s, when the server has ended what was kept open", (0, " 200 2"), output_of([*curl, base + "/trees/main"]))
    with server.link() as link:
        cases.same("nginx: what it committed is there", 200, link.ask(CONFIG.replace(b"/config", b"/trees/main/contents/behind")).status)


def with_systemd(cases, server):
    path = os.path.join(server.folder, "nessie.service")
    with open(path, "w") as file:
        file.write(block("ini").replace("/usr/local/bin/nessie", cases.program))
    status, text = output_of(["systemd-analyze", "verify", path])
    cases.same("systemd-analyze verify of the unit: status, output", (0, ""), (status, text.strip()))


def run(cases):
    go = ["go", "run", os.path.join(HERE, "client.go")]
    java = ["java", os.path.join(HERE, "Client.java")]
    tools = (("ab", "apache2-utils", with_ab), ("wrk", "wrk", with_wrk), ("nginx", "nginx", with_nginx), ("systemd-analyze", "systemd", with_systemd))
    with Server(cases.program, "--workers", 32) as server:
        for tool, package, case in tools:
            if shutil.which(tool):
                cases.guarded(tool, case, server)
            else:
                cases.left_out(tool, f"Debian's {package} is missing")
        for tool, package, words in (("go", "golang-go", go), ("java", "default-jdk-headless", java)):
            if shutil.which(tool):
                cases.guarded(tool, lines_told, tool, [*words, server.base])
            else:
                cases.left_out(tool, f"Debian's {package} is missing")
        cases.same("others: the server is still there", None, server.process.poll())
