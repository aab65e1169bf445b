#!/usr/bin/env python3
"""Random clients on a running `nessie serve`, which is killed now and then; each reply is then checked against one history.

    history.py [--seed 1] [--seconds 30] [--clients 8] [--workers N] [--attempts 8] [--kill-every 3] [--program FILE] [--spoil]

N clients commit, merge, transplant, move branches, collect and read for that many seconds, and one more asks for checkpoints while
commits of many operations are under way, on a worker each unless another number is named. The server is killed by SIGKILL at random moments, so many seconds apart in the mean (0: never), and
started again on the same journal. At the end the journal's entries are made again one by one by the plain rules of
`oracle/`, and it is checked that:

- each accepted reply is the rules' reply to that entry's call, and the entry is what was asked for;
- each other reply is the rules' reply on the state at the place that it tells;
- each collection kept and removed as many contents as the rules say, by where its entry says that it was opened and what drafts
  named until it settled; that may be so: it was opened behind all that had been told, and has the names of each draft whose entry
  came between, and commits that somebody named;
- a collection that was refused met another one that was open, and contents that are told as expired were gone already where the
  reply says that the call began;
- each entry without a reply is the call of a request whose connection was cut by a kill;
- each checkpoint that was answered is in the journal, and each other one there is of a request that was cut off; it is the rules'
  state at its place, and an entry behind it is of a draft that was open at it, and whose request was under way then, or of a later
  one; no draft counts as open that had its entry, or that was of a run before;
- draft numbers are new, and greater than those of the runs before;
- places rise within each client, and no reply is older than one that had come before its request was sent;
- nothing that was answered is lost by a kill, and what the journal held at a kill it holds to the end.

With --spoil the record is then spoiled in some ways, each of which has to be found. The last line is the verdict.
"""
import argparse
import multiprocessing
import os
import pickle
import random
import re
import subprocess
import sys
import time

HERE = os.path.dirname(os.path.abspath(__file__))
sys.path[:0] = [os.path.join(HERE, part) for part in ("histories", "clients", "../oracle")]

from check import Check, Life, bases_of, opened_in, payloads_of
from clients import run_client
from compare import line_of
from serving import TOP, Server


def read(path):
    with open(path, "rb") as file:
        return file.read()


def killing(server, rng, options):
    """Kills the server and starts it again, until the time is over; its lives, and the journal's bytes at each kill."""
    lives, held = [], []
    until = time.monotonic() + options.seconds
    while True:
        pause = rng.random() * 2 * options.kill_every if options.kill_every else options.seconds
        if time.monotonic() + pause >= until:
            time.sleep(max(0, until - time.monotonic()))
            return lives, held
        time.sleep(pause)
        killed = time.monotonic_ns()
        server.kill()
        gone = time.monotonic_ns()
        found = read(server.journal)
        payloads, gate = payloads_of(found)
        lives.append(Life(killed, gone, len(payloads)))
        held.append(found[:gate])
        server.start()


def run_clients(server, rng, options):
    """Runs clients and kills, and gives what all of the clients saw, the lives, and the journal's bytes at each kill."""
    context = multiprocessing.get_context("fork")
    stop = context.Event()
    wide = context.Event()
    paths = [os.path.join(server.folder, f"client{number}") for number in range(options.clients + 1)]
    clients = [context.Process(target=run_client, args=(number, options.seed, server.port, options.pause, wide, number == options.clients, stop, path)) for number, path in enumerate(paths)]
    for client in clients:
        client.start()
    lives, held = killing(server, rng, options)
    stop.set()
    for client in clients:
        client.join(90)
    failed = [f"client {number} ended in {client.exitcode}" for number, client in enumerate(clients) if client.exitcode != 0]
    record = []
    for path in paths:
        if os.path.exists(path):
            record += pickle.loads(read(path))
    return record, lives, held, failed


def checked(record, payloads, lives, options, bases, most=None):
    check = Check(record, payloads, lives, options.attempts, options.workers, bases)
    return check, check.run(most)


def is_read_at_the_place_before(before, sent):
    """Whether these are replies to one client at one place, the second one a read's."""
    together = before.client == sent.client and before.raw and sent.raw and not sent.changes and sent.status == 200
    return together and sent.place and before.place == sent.place


def left_in(spelled):
    """The numbers of the drafts that were open at a checkpoint."""
    count = int.from_bytes(spelled[13:17], "big")
    return [int.from_bytes(spelled[at:at + 8], "big") for at in range(17, 17 + 8 * count, 8)]


def with_left(spelled, left):
    """The checkpoint with other numbers of open drafts."""
    return spelled[:13] + len(left).to_bytes(4, "big") + b"".join(n.to_bytes(8, "big") for n in left) + spelled[17 + 8 * len(left_in(spelled)):]


def ways_to_spoil(record, payloads, bases):
    """Ways in which the record is made wrong, each with the record, the payloads and the checkpoints that it leaves."""
    made = [number for number, sent in enumerate(record) if sent.accepted]
    reads = [number for number in range(1, len(record)) if is_read_at_the_place_before(record[number - 1], record[number])]
    middle, last = made[len(made) // 2], max(made, key=lambda number: record[number].place)

    def changed(number, **what):
        return record[:number] + [record[number]._replace(**what)] + record[number + 1:]

    def other_entry(place, start, spelled):
        payload = payloads[place - 1]
        return payloads[:place - 1] + [payload[:start] + spelled + payload[start + len(spelled):]] + payloads[place:]

    def other_base(number, place, spelled):
        return bases[:number] + [(place, spelled)] + bases[number + 1:]

    def first(fits):
        return next((number for number, sent in enumerate(record) if sent.raw is not None and fits(sent)), None)

    yield "the last entry that was answered is lost", record, payloads[:record[last].place - 1], bases
    yield "an entry that nobody asked for", record[:middle] + record[middle + 1:], payloads, bases
    yield "two replies of one entry", record + [record[middle]], payloads, bases
    one = reads[len(reads) // 2]
    place = record[one].place
    yield "a reply that tells an older place", changed(one, raw=record[one].raw.replace(b"Place: %d\r" % place, b"Place: %d\r" % (place - 1))), payloads, bases
    yield "another byte in a read's reply", changed(one, raw=record[one].raw[:-2] + b"!}"), payloads, bases
    at = record[middle].place
    if record[middle].target.endswith(b"/commit"):
        yield "another moment in an entry", record, other_entry(at, 20, bytes([payloads[at - 1][20] ^ 1])), bases
    yield "two entries change places", record, payloads[:at - 1] + [payloads[at], payloads[at - 1]] + payloads[at + 1:], bases
    numbers = [int.from_bytes(payload[5:13], "big") for payload in payloads]
    merge = next((number for number in made if record[number].target.endswith(b"/merge") and any(numbers[:record[number].place - 1])), None)
    if merge is not None:
        place = record[merge].place
        yield "a draft number twice", record, other_entry(place, 5, max(numbers[:place - 1]).to_bytes(8, "big")), bases
    sweep = next((number for number in made if record[number].collects and opened_in(payloads[record[number].place - 1]) > 0), None)
    if sweep is not None:
        raw = re.sub(rb'"removed":(\d+)', lambda found: b'"removed":%d' % (int(found[1]) + 1), record[sweep].raw)
        yield "a collection that removed one more", changed(sweep, raw=raw), payloads, bases
        at = record[sweep].place
        yield "a collection that was opened before", record, other_entry(at, 21, (opened_in(payloads[at - 1]) - 1).to_bytes(4, "big")), bases
    cut = next((number for number, sent in enumerate(record) if sent.raw is None), None)
    if cut is not None:
        yield "a connection that ended with no kill", changed(cut, opened=record[cut].ended + 10 ** 12, ended=record[cut].ended + 10 ** 12), payloads, bases
    spent = first(lambda sent: b'"RETRIES_SPENT"' in sent.raw)
    if spent is not None:
        raw = re.sub(rb'"hash":"(.)', lambda found: b'"hash":"' + (b"1" if found[1] == b"0" else b"0"), record[spent].raw, count=1)
        yield "a call that gave up at another head", changed(spent, raw=raw), payloads, bases
    expired = first(lambda sent: b'"EXPIRED"' in sent.raw)
    if expired is not None:
        raw = re.sub(rb'"openedPlace":(\d+)', lambda found: b'"openedPlace":%d' % (int(found[1]) + 1), record[expired].raw)
        yield "contents that expired for a call of a later place", changed(expired, raw=raw), payloads, bases
    kept = first(lambda sent: sent.checkpoints and sent.status == 200 and sent.place > 0)
    if kept is not None:
        place = record[kept].place
        number = next((number for number, (before, _) in enumerate(bases) if before == place), None)
    if kept is None or number is None:
        return
    spelled = bases[number][1]
    yield "a checkpoint is lost", record, payloads, bases[:number] + bases[number + 1:]
    yield "a checkpoint twice", record, payloads, bases[:number] + [bases[number]] + bases[number:]
    yield "a checkpoint stands an entry before", record, payloads, other_base(number, place - 1, spelled)
    yield "another draft number in a checkpoint", record, payloads, other_base(number, place, spelled[:12] + bytes([spelled[12] ^ 1]) + spelled[13:])
    raw = re.sub(rb'("place":|Place: )(\d+)', lambda found: found[1] + b"%d" % (int(found[2]) - 1), record[kept].raw)
    yield "a checkpoint's reply tells the place before", changed(kept, raw=raw), payloads, bases
    had = [n for n in numbers[:place] if n and n < int.from_bytes(spelled[5:13], "big")]
    if had:
        yield "a draft that had its entry counts as open", record, payloads, other_base(number, place, with_left(spelled, sorted({*left_in(spelled), had[0]})))
    late = {draft: place for place, draft in enumerate(numbers, 1)}
    open_at = [number for number, (before, spelled) in enumerate(bases) if any(late.get(n, 0) > before for n in left_in(spelled))]
    for number in open_at[:1]:
        place, spelled = bases[number]
        yield "no draft counts as open, and one was", record, payloads, other_base(number, place, with_left(spelled, []))


def spoil(record, payloads, lives, options, bases):
    """Whether each way to spoil the record is found."""
    missed = []
    for what, other, left, kept in ways_to_spoil(record, payloads, bases):
        _, differences = checked(other, left, lives, options, kept, 1)
        print(f"   spoiled, {what}: {'found: ' + differences[0][:100] if differences else 'NOT FOUND'}", flush=True)
        missed += [] if differences else ["spoiled, and not found: " + what]
    return missed


def report(check, record, lives, options):
    kept = sum(1 for sent in record if sent.raw is not None)
    print(f"{options.clients} clients, {kept} replies, {len(record) - kept} requests cut off, {len(lives)} kills, {len(check.payloads)} entries")
    for what in sorted(check.counts, key=str):
        print(f"   {what:50} {check.counts[what]}")


def main():
    parser = argparse.ArgumentParser(description=__doc__.split("\n\n")[0])
    parser.add_argument("--seed", type=int, default=1)
    parser.add_argument("--seconds", type=float, default=30)
    parser.add_argument("--clients", type=int, default=8)
    parser.add_argument("--workers", type=int)
    parser.add_argument("--attempts", type=int, default=8)
    parser.add_argument("--kill-every", type=float, default=3)
    parser.add_argument("--pause", type=float, default=0.06, help="seconds that a client pauses in the mean after some requests")
    parser.add_argument("--program", default=os.path.join(TOP, "crates/nessie/out/nessie"))
    parser.add_argument("--spoil", action="store_true")
    options = parser.parse_args()
    options.workers = options.workers or options.clients + 1
    rng = random.Random(options.seed)
    with Server(os.path.abspath(options.program), "--workers", options.workers, "--attempts", options.attempts) as server:
        record, lives, held, differences = run_clients(server, rng, options)
        server.kill()
        found = read(server.journal)
        line = subprocess.run([options.program, "check", server.journal], stdout=subprocess.PIPE).stdout
    payloads, gate = payloads_of(found)
    differences += [f"what the journal held at kill {number} isn't its beginning" for number, front in enumerate(held, 1) if not found.startswith(front)]
    bases = bases_of(found)
    check, more = checked(record, payloads, lives, options, bases)
    differences += more
    if not more and line != line_of(check.state):
        differences.append(f"check says {line}, the rules {line_of(check.state)}")
    if len(payloads) == 0:
        differences.append("no entry was made")
    report(check, record, lives, options)
    if options.spoil and not differences:
        differences += spoil(record, payloads, lives, options, bases)
    for difference in differences[:20]:
        print("== DIFFERENCE " + difference)
    print(f"verdict: {len(differences)} differences" if differences else "verdict: one history; no differences")
    return 1 if differences else 0


if __name__ == "__main__":
    sys.exit(main())
