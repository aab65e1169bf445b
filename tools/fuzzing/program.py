"""Runs of the program, each held to what holds of every run: no signal, no hang, a status and lines that docs/API.md gives."""
import os
import re
import resource
import subprocess
import tempfile

STATUSES = set(range(10))
SAID = re.compile(rb"nessie: [^\n]*: [^\n]+\n\Z")


class Wrong(Exception):
    """What a case found: the program did what the rules don't give."""


def threads_of(pid):
    """Whether some thread of a process wants a processor, and the seconds that all of them have had one."""
    states, ticks = set(), 0
    try:
        for thread in os.listdir("/proc/%d/task" % pid):
            with open("/proc/%d/task/%s/stat" % (pid, thread)) as told:
                fields = told.read().rpartition(")")[2].split()
            states.add(fields[0])
            ticks += int(fields[11]) + int(fields[12])
    except OSError:
        return True, 0  # it has just ended
    return bool(states & set("RDZX")), ticks / os.sysconf("SC_CLK_TCK")


def without_core():
    resource.setrlimit(resource.RLIMIT_CORE, (0, 0))


def environment(**more):
    """That of a run: where the program checks its accesses, one that is wrong ends it by a signal."""
    options = os.environ.get("ASAN_OPTIONS", "")
    return dict(os.environ, ASAN_OPTIONS=options + ":abort_on_error=1", **more)


def shown(b):
    return repr(b if len(b) < 600 else b[:300] + b" .. " + b[-300:])


class Program:
    def __init__(self, file, limit):
        self.file, self.limit = os.path.abspath(file), limit
        self.runs = 0

    def start(self, words, **options):
        options.setdefault("env", environment())
        pipes = dict(stdin=subprocess.PIPE, stdout=subprocess.PIPE, stderr=subprocess.PIPE)
        self.runs += 1
        return subprocess.Popen([self.file, *words], preexec_fn=without_core, **{**pipes, **options})

    def run(self, words, sent=b"", wants=STATUSES, **options):
        """Status and output of a run."""
        with tempfile.TemporaryFile() as file:
            file.write(sent)
            file.seek(0)
            with self.start(words, stdin=file, **options) as child:
                output, error = self.finish(words, child)
        return self.judged(words, wants, child.returncode, output, error)

    def finish(self, words, child):
        """Output and standard error of a run that ends, in its time where the machine leaves it some."""
        while True:
            try:
                return child.communicate(timeout=self.limit)
            except subprocess.TimeoutExpired:
                self.need_going(words, child)

    def need_going(self, what, child):
        """A run whose time is over is let go on where the machine left it little of that."""
        ready, seconds = threads_of(child.pid)
        if not ready or seconds > self.limit / 2:
            child.kill()
            raise Wrong("a hang: %s after %d seconds, %.1f of them its own" % (what, self.limit, seconds))

    def judged(self, words, wants, status, output, error):
        words = shown(repr(words).encode())
        if status < 0:
            raise Wrong("a crash: %s, signal %d, %s" % (words, -status, shown(error)))
        if status not in wants:
            raise Wrong("%s ends in status %d, %s, %s" % (words, status, shown(output), shown(error)))
        if not (SAID.match(error) if status in (2, 7) else error == b""):
            raise Wrong("%s ends in status %d, and says on standard error %s" % (words, status, shown(error)))
        return status, output


def content_of(path):
    with open(path, "rb") as file:
        return file.read()


def write(path, content):
    with open(path, "wb") as file:
        file.write(content)
    return path


def need_same(what, wanted, got):
    if wanted != got:
        at = next((i for i, (a, b) in enumerate(zip(wanted, got)) if a != b), min(len(wanted), len(got))) if isinstance(wanted, bytes) else 0
        if isinstance(wanted, bytes) and at > 200:
            wanted, got = wanted[at - 200:], got[at - 200:]
        raise Wrong("%s: the rules give %s, the program %s" % (what, shown(wanted) if isinstance(wanted, bytes) else wanted, shown(got) if isinstance(got, bytes) else got))
