#!/usr/bin/env python3
"""Tries wrong bodies over the program's rows and the tests, outside the gate: those whose proof is dear to refuse.

    python3 docs/wrong_bodies.py [CRATE[/NAME] ..]

Each file docs/wrong_bodies/CRATE/NAME.edit is written as a must-fail edit is. It is applied to a copy of the sources, the
copy's `qmdb_rows` is built without a proof (`rt try --cases`) and run over its rows, some at a time, and the first row that
does not come out as in its stdout is told. Where `qm_proof_rows` stands on the crate, its rows are tried before, since they
take less. Where no row changes, the copy's `qm_tests` is run (`rt try --test`), and the first test that fails is told. The
sources as they stand go first, and change no row. Rows of inputs of many megabytes are left out, since such a build is slow.
The status is 1 where some body changes no row and fails no test. A body takes some minutes."""
import contextlib
import os
import re
import shutil
import subprocess
import sys
import tempfile

TOP = os.path.dirname(os.path.dirname(os.path.abspath(__file__)))
BODIES = f"{TOP}/docs/wrong_bodies"
# How many rows one run of a program takes: it has a minute.
AT_ONCE = {"qmdb_rows": 40, "qm_proof_rows": 400}
# The status of `rt try` where some run gave no answer in its time, as beside much else: then a row may differ though the body is right.
NO_ANSWER = 6


def read(path):
    with open(path, encoding="utf-8") as it:
        return it.read()


def write(path, text):
    with open(path, "w", encoding="utf-8") as it:
        it.write(text)


@contextlib.contextmanager
def wrong(edit, crate):
    """Applies an edit to a crate while what is inside runs."""
    lines = [line.split(": ", 1) for line in read(edit).splitlines() if ": " in line]
    file = f"{crate}/{lines[0][1]}"
    was = text = read(file)
    for (_, old), (_, new) in zip(lines[1::2], lines[2::2]):
        if text.count(old) != 1:
            sys.exit(f"{edit}: stands {text.count(old)} times: {old}")
        text = text.replace(old, new)
    write(file, text)
    yield
    write(file, was)


def rows_of(folder):
    """The rows of a program's folder: name, input and output of each, where one that goes on with the row before has it in front."""
    given = re.split(r"(?m)^(?=(?:case|again) )", read(f"{folder}/stdin"))[1:]
    told = re.split(r"(?m)^(?=case )", read(f"{folder}/stdout"))[1:]
    rows = []
    for text, out in zip(given, told, strict=True):
        goes_on = text.startswith("again") or re.search(r"(?m)^keep$", text)
        if goes_on:
            name, before, came = rows.pop()
            rows.append((name, before + text, came + out))
        else:
            rows.append((out.splitlines()[0], text, out))
    return [row for row in rows if not re.search(r"(?m)^fill ", row[1])]


def proof_rows_of(folder):
    """The rows of the program that checks proofs: one in a line."""
    given = [line for line in read(f"{folder}/stdin").splitlines(True) if line.strip() and not line.startswith("#")]
    told = read(f"{folder}/stdout").splitlines(True)
    return [(line.partition(": ")[0], line, out) for line, out in zip(given, told, strict=True)]


def below(crate):
    """A crate and all that it stands on."""
    lines = (line.partition("#")[0].partition(":") for line in read(f"{TOP}/crates.txt").splitlines())
    stands = {name.split()[0]: deps.split() for name, _, deps in lines if name.split()}
    found, ahead = set(), [crate]
    while ahead:
        name = ahead.pop()
        if name in stands and name not in found:
            found.add(name)
            ahead.extend(stands[name])
    return found


def changed(program, rows):
    """The first row that does not come out as it should, or None."""
    count = AT_ONCE[os.path.basename(program)]
    with tempfile.TemporaryDirectory() as folder:
        for at in range(0, len(rows), count):
            write(f"{folder}/{at:04}", "".join(row[1] for row in rows[at : at + count]))
        ran = subprocess.run(["rt", "try", "--cases", folder], cwd=program, stdin=subprocess.DEVNULL, capture_output=True, text=True, errors="replace")
    said = "\n" + ran.stdout + ran.stderr
    late = " (some rows had no answer in time)" if ran.returncode == NO_ANSWER else ""
    for name, _, out in rows:
        if "\n" + out not in said:
            return name + late
    return None


def failed(tests):
    """The first of a crate's tests that fails, or None."""
    ran = subprocess.run(["rt", "try", "--test"], cwd=tests, stdin=subprocess.DEVNULL, capture_output=True, text=True, errors="replace")
    said = ran.stdout + ran.stderr
    if "test result: " not in said:
        sys.exit(f"{tests}: the tests were not run")
    found = re.search(r"(?m)^test (\S+) \.\.\. (?!ok$)", said)
    return found and f"test {found[1]}"


def main(chosen):
    every = sorted(f"{crate}/{name}" for crate in os.listdir(BODIES) for name in os.listdir(f"{BODIES}/{crate}"))
    rows = {"qm_proof_rows": proof_rows_of(f"{TOP}/crates/qm_proof_rows"), "qmdb_rows": rows_of(f"{TOP}/crates/qmdb_rows")}
    stands = {name: below(name) for name in rows}
    sound = set()
    missed = 0
    with tempfile.TemporaryDirectory() as copy:
        shutil.copytree(f"{TOP}/crates", f"{copy}/crates", ignore=shutil.ignore_patterns("out"))
        for name in ("crates.txt", "HANDLES"):
            shutil.copy(f"{TOP}/{name}", copy)

        def seen_by(it):
            """The first row or test that tells a wrong body, or None."""
            crate = it.partition("/")[0]
            for name in rows:
                if crate not in stands[name]:
                    continue
                program = f"{copy}/crates/{name}"
                row = None if name in sound else changed(program, rows[name])
                if row:
                    sys.exit(f"the sources as they stand change {row}: no body was tried")
                sound.add(name)
                with wrong(f"{BODIES}/{it}", f"{copy}/crates/{crate}"):
                    row = changed(program, rows[name])
                if row:
                    return f"{name}: {row}"
            with wrong(f"{BODIES}/{it}", f"{copy}/crates/{crate}"):
                return failed(f"{copy}/crates/qm_tests")

        for it in every:
            if chosen and not any(it.startswith(word) for word in chosen):
                continue
            seen = seen_by(it)
            print(f"{it}: {seen or 'NO ROW CHANGES AND NO TEST FAILS'}", flush=True)
            missed += not seen
    return 1 if missed else 0


if __name__ == "__main__":
    sys.exit(main(sys.argv[1:]))
