"""Prints a script of batches of writes over 1,024 keys.

    python3 docs/load.py 2000 8 | time crates/qmdb/out/qmdb run any unordered mmr
    python3 docs/load.py 400 8 chain | time crates/qmdb/out/qmdb run any unordered mmr
    python3 docs/load.py 200 1000 hold | time crates/qmdb/out/qmdb run any unordered mmr
    python3 docs/load.py 980 1000 dead 2 | time crates/qmdb/out/qmdb run any unordered mmr

Each batch is applied before the next begins or, with the word chain, stands on the one before, and the last is applied
in one step at the end. A quarter of the writes are deletions. The numbers are those of a linear congruence, so every run
prints one script. Any other word is the policy of each batch. With the word dead each batch writes the same keys under
hold, so that all but the last batch's updates are dead, and so many empty batches follow that are merkleized under the
policy that moves the floor past them, none of which is applied.
"""

import sys


def numbers():
    number = 1
    while True:
        number = (number * 1664525 + 1013904223) % 2**32
        yield number


def dead(batches, writes, empty):
    for batch in range(1, batches + 1):
        print("batch")
        for write in range(writes):
            print(f"put {batch} {write:06x} -")
        print(f"merkleize {batch} hold none")
        print(f"apply {batch}")
    for batch in range(batches + 1, batches + empty + 1):
        print("batch")
        print(f"merkleize {batch} bounded:1:18446744073709551615 none")


def updates(batches, writes, is_chain, policy):
    source = numbers()
    for batch in range(1, batches + 1):
        print(f"child {batch - 1}" if is_chain and batch > 1 else "batch")
        for _ in range(writes):
            number = next(source)
            key = f"{(number >> 16) % 1024:04x}"
            if (number >> 12) % 4 == 0:
                print(f"del {batch} {key}")
            else:
                print(f"put {batch} {key} {number:08x}")
        print(f"merkleize {batch} {policy} none")
        if not is_chain:
            print(f"apply {batch}")
    if is_chain:
        print(f"apply {batches}")


def main():
    batches, writes = int(sys.argv[1]), int(sys.argv[2])
    word = sys.argv[3] if sys.argv[3:] else "prop"
    print("open")
    if word == "dead":
        dead(batches, writes, int(sys.argv[4]))
    else:
        updates(batches, writes, word == "chain", "prop" if word == "chain" else word)
    print("info")
    print("root")

main()
