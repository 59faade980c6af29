#!/usr/bin/env python3
"""Prints what the functions of a crate take of its check, the dearest first: seconds between the modules that one process saved, in the order in which
it saved them. Begin with an empty out/ and one job:

    cd crates/qm_merkle && rm -rf out && rt check --jobs 1 && python3 ../../docs/proof_times.py out/incremental

A line that ends with Proof is the search for a function's proof, one without it is the layout of its control flow."""
import collections
import os
import re
import sys


def saved(folder):
    """The modules below a folder: when each was saved, and of which function it is."""
    for place, _, names in os.walk(folder):
        for name in names:
            if name.endswith(".oantt"):
                parts = re.split(r"[.-]", name.removeprefix("Rattle-").removesuffix(".oantt"))
                yield os.stat(f"{place}/{name}").st_mtime, ".".join(parts[1:-1])


def main(folder):
    times, last = collections.Counter(), None
    for time, function in sorted(saved(folder)):
        # a longer pause is one between two checks
        if last is not None and time - last < 120:
            times[function] += time - last
        last = time
    print(f"{sum(times.values()):7.1f} all")
    for function, seconds in times.most_common(30):
        print(f"{seconds:7.1f} {function}")


if __name__ == "__main__":
    main(sys.argv[1])
