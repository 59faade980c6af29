#!/usr/bin/env python3
"""Tells whether each snippet of docs/USING.md is text of crates/qm_using, line for line.

    python3 docs/using.py"""
import pathlib
import re
import sys

ROOT = pathlib.Path(__file__).resolve().parent.parent
PAGE = (ROOT / "docs/USING.md").read_text()
SOURCES = {path.name: path.read_text() for path in sorted((ROOT / "crates/qm_using/src").glob("*.rt"))}

strange = [snippet for snippet in re.findall(r"```rust\n(.*?)```", PAGE, re.S) if not any(snippet in text for text in SOURCES.values())]
for snippet in strange:
    print("in no file of qm_using:\n" + snippet)
sys.exit(1 if strange else 0)
