"""The large input that is made from a number: `drilled(seed, commits)` is the line printed."""

import catalogue as rules
from catalogue import ICEBERG_TABLE, Operation


def drilled(seed, commits):
    c = rules.Catalogue()
    x = seed
    for i in range(1, commits + 1):
        x = (x * 6364136223846793005 + 1442695040888963407) % (1 << 64)
        r = x >> 33
        key = ("t%d" % (r % 1000),)
        there = c.entries(c.references["main"][1]).get(key)
        if there is not None and (r // 1000) % 4 == 0:
            operation = Operation("DELETE", key)
        else:
            content = {"type": ICEBERG_TABLE, "metadataLocation": "m%d" % i, "snapshotId": i,
                       "schemaId": 0, "specId": 0, "sortOrderId": 0}
            operation = Operation("PUT", key, content, None if there is None else there[1])
        meta = {"message": "drill %d" % i, "authors": [], "signed": [], "properties": {},
                "author_time": None}
        c.commit("main", None, meta, [operation], i * 1000000)
    return line_of(c)


def line_of(c):
    head = c.references["main"][1]
    return "commits %d keys %d contents %d place %d head %s\n" % (
        len(c.commits), len(c.entries(head)), len(c.contents), c.place, head.hex())
