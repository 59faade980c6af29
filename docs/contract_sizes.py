#!/usr/bin/env python3
"""Prints, for each crate, how long its contracts are: its public functions with clauses, their clauses, how many have over seven, and its clause lines (those
that begin with `ensures`, `requires`, `→`, `×` or `⊎`), with those over 100 and over 200 columns. Columns are characters.

    python3 docs/contract_sizes.py              this tree
    python3 docs/contract_sizes.py COMMIT       beside an older one: each number before and now
    python3 docs/contract_sizes.py --long qm_any   the public contracts of a crate with over seven clauses"""
import collections
import re
import subprocess
import sys

ROOT = subprocess.run(["git", "rev-parse", "--show-toplevel"], capture_output=True, text=True, check=True).stdout.strip()
FUNCTION = re.compile(r"(pub )?(?:pub\([a-z]+\) )?(?:final )?(?:const )?fn (\w+)")
TRAIT = re.compile(r"pub trait (\w+)")


def sources(commit):
    """The sources of each crate, as (crate, file, text)."""
    names = subprocess.run(["git", "ls-tree", "-r", "--name-only", commit, "crates"] if commit else ["git", "ls-files", "crates"],
                           cwd=ROOT, capture_output=True, text=True, check=True).stdout.split("\n")
    for name in names:
        parts = name.split("/")
        if name.endswith(".rt") and len(parts) > 3 and parts[2] == "src":
            text = subprocess.run(["git", "show", f"{commit}:{name}"], cwd=ROOT, capture_output=True, text=True, check=True).stdout if commit else open(f"{ROOT}/{name}").read()
            yield parts[1], "/".join(parts[3:]), text


def contracts(text):
    """The public functions of a file with how many clauses each has; those of a public trait are public."""
    name, clauses, in_trait = None, 0, False
    for line in text.split("\n"):
        if not line.startswith(" ") and line.strip():
            in_trait = bool(TRAIT.match(line)) or (in_trait and line.startswith((">", "where", ")")))
        word = line.strip()
        function = FUNCTION.match(word)
        if function:
            if name and clauses:
                yield name, clauses
            name, clauses = (function.group(2) if function.group(1) or in_trait else None), 0
        if re.match(r"(ensures|requires)\b", word):
            clauses += 1
    if name and clauses:
        yield name, clauses


def measured(commit):
    """For each crate: functions, clauses, functions over seven, clause lines, those over 100 and over 200 columns."""
    sizes, long = collections.defaultdict(lambda: [0] * 6), collections.defaultdict(list)
    for crate, file, text in sources(commit):
        row = sizes[crate]
        for name, clauses in contracts(text):
            row[0] += 1
            row[1] += clauses
            if clauses > 7:
                row[2] += 1
                long[crate].append((clauses, f"{file}::{name}"))
        for line in text.split("\n"):
            if re.match(r"(ensures|requires|→|×|⊎)", line.strip()):
                row[3] += 1
                row[4] += len(line) > 100
                row[5] += len(line) > 200
    return sizes, long


def main(words):
    if words[:1] == ["--long"]:
        for clauses, name in sorted(measured(None)[1][words[1]], reverse=True):
            print(clauses, name)
        return
    now = measured(None)[0]
    before = measured(words[0])[0] if words else None
    print(f"{'crate':14}" + "".join(f"{head:>16}" for head in ("functions", "clauses", "over seven", "clause lines", "over 100", "over 200")))
    rows = sorted(set(now) | set(before or {}))
    for crate in rows + ["all"]:
        line = f"{crate:14}"
        for at in range(6):
            new = sum(row[at] for row in now.values()) if crate == "all" else now[crate][at]
            if before is None:
                line += f"{new:16}"
            else:
                old = sum(row[at] for row in before.values()) if crate == "all" else before[crate][at]
                line += f"{old:>8} {new:>7}"
        print(line)


if __name__ == "__main__":
    main(sys.argv[1:])
