#!/usr/bin/env python3
# Prints canonical roots, by the independent model: of lists of so many operations, in which the first so many write one key and
# the others a key each, with a last commit whose floor is the last write of that one key; over chunks of 32 bytes, in mountain
# ranges and where merges are delayed. `crates/qm_tests/src/grafts.rt` has them as rows.
import os
import sys

sys.path.insert(0, os.path.join(os.path.dirname(os.path.abspath(__file__)), "..", "model"))
import model

ROWS = [(4, 3), (255, 3), (256, 200), (257, 200), (300, 250), (511, 280), (512, 280), (513, 280), (799, 600)]


def operations(count, first):
    yield ("C", None, 0)
    for i in range(1, count - 1):
        yield ("U", b"k" if i < first else b"k" + i.to_bytes(2, "big"), b"v")
    yield ("C", None, first - 1)


for count, first in ROWS:
    roots = []
    for family in ("mmr", "mmb"):
        engine = model.Engine(True, False, family)
        entries = [model.Entry(op, model.encode(op)) for op in operations(count, first)]
        roots.append(model.OpList(engine, None, entries).canonical().hex())
    print(count, first, *roots)
