#!/usr/bin/env python3
"""Prints the table of roots in crates/qm_tests/src/trees.rt, computed apart from the crates.

A line for each tree of 1 to 40 leaves: the digest of its roots in a row, with 0, 1, .. inactive
peaks up to all of them. Leaf k has the one byte k + 1.
"""
from hashlib import sha256

LEAVES = 40


def digest(*parts):
    return sha256(b"".join(parts)).digest()


def number(n):
    return n.to_bytes(8, "big")


def subtree(first, count, place):
    """The digest over `count` leaves, a power of two, whose nodes are numbered from `place` on.

    The left half's nodes come first, then the right half's, and the node itself last.
    """
    if count == 1:
        return digest(number(place), bytes([first + 1]))
    half = count // 2
    nodes = count - 1
    left = subtree(first, half, place)
    right = subtree(first + half, half, place + nodes)
    return digest(number(place + 2 * nodes), left, right)


def peaks(leaves):
    """The digests of the perfect trees side by side, each the largest that there is room for."""
    found = []
    first = place = 0
    while first < leaves:
        count = 1
        while 2 * count <= leaves - first:
            count *= 2
        found.append(subtree(first, count, place))
        first += count
        place += 2 * count - 1
    return found


def root(leaves, inactive):
    """The inactive peaks are folded from the left, and what that gives and the rest from the right."""
    row = peaks(leaves)
    for _ in range(inactive - 1):
        row[:2] = [digest(row[0], row[1])]
    while len(row) > 1:
        row[-2:] = [digest(row[-2], row[-1])]
    return digest(number(leaves), number(inactive), *row)


def roots(leaves):
    return [root(leaves, inactive) for inactive in range(len(peaks(leaves)) + 1)]


if __name__ == "__main__":
    for leaves in range(1, LEAVES + 1):
        print(digest(*roots(leaves)).hex())
