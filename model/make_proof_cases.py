"""Writes the rows of crates/qm_proof_rows and what they are to tell: its stdin and stdout.

    python3 make_proof_cases.py FOLDER        # FOLDER/stdin and FOLDER/stdout

Lists, proofs and verdicts are this model's. Each proof is told once as it was made, which is
to be a yes, and then changed in one part at a time, which is to be a no. Where a change leaves
what is shown true, or a proof shows nothing as it was made, the row is written one by one, with
the reason beside it.
"""

import os
import sys

sys.path.insert(0, os.path.dirname(os.path.abspath(__file__)))

import model as m  # noqa: E402

MOST = 2**64 - 1
OPERATION = ("location", "chunk")
RANGE = ("leaves", "inactive", "digests", "pending", "partial", "ops")
# The words of each kind of check, in their order.
WORDS = {
    "held-unordered": ("root", "key", "value") + OPERATION + RANGE,
    "held-ordered": ("root", "key", "value", "next") + OPERATION + RANGE,
    "absent-update": ("root", "key", "before", "value", "next") + OPERATION + RANGE,
    "absent-commit": ("root", "key", "metadata") + OPERATION + RANGE,
    "range": ("root", "start", "items", "chunks") + RANGE,
    "witness": ("root", "ops", "grafted", "pending", "bits", "partial"),
}
LISTS = ("items", "chunks", "digests")
OPTIONS = ("pending", "partial", "metadata")
# What a check claims; the rest is its proof.
CLAIMED = ("root", "key", "value", "next", "before", "metadata", "start", "items", "chunks")

inp, out, names = [], [], set()


# --------------------------------------------------------------------------
# Checks: a kind, an engine, and the words by their names.
# --------------------------------------------------------------------------


def parts_of_range(proof):
    (leaves, inactive, digests), pending, partial, ops = proof
    return dict(leaves=leaves, inactive=inactive, digests=digests, pending=pending, partial=partial, ops=ops)


def parts_of_operation(proof):
    location, chunk, range_proof = proof
    return dict(location=location, chunk=chunk, **parts_of_range(range_proof))


def range_of(c):
    return ((c["leaves"], c["inactive"], c["digests"]), c["pending"], c["partial"], c["ops"])


def operation_of(c):
    return (c["location"], c["chunk"], range_of(c))


def check(kind, lst, **words):
    return dict(kind=kind, engine=lst.engine, root=lst.canonical(), **words)


def check_at(kind, lst, location, **claimed):
    return check(kind, lst, **claimed, **parts_of_operation(m.make_operation_proof(lst, location)))


def held(lst, key):
    operation, next_key = m.make_key_proof(lst, key)
    c = update_at(lst, operation[0])
    assert c.get("next") == next_key
    return c


def update_at(lst, location):
    """That the update at a location is its key's, live or not."""
    op = lst.operations()[location]
    kind = "held-ordered" if lst.engine.ordered else "held-unordered"
    claimed = dict(zip(("key", "value", "next"), op[1:]))
    return check_at(kind, lst, location, **claimed)


def absent(lst, key):
    kind, operation, what = m.make_exclusion_proof(lst, key)
    if kind == "Commit":
        return commit_at(lst, operation[0], key)
    return span_at(lst, operation[0], key)


def span_at(lst, location, key):
    """That a key is absent by the update at a location, whatever its span."""
    op = lst.operations()[location]
    return check_at("absent-update", lst, location, key=key, before=op[1], value=op[2], next=op[3])


def commit_at(lst, location, key):
    """That a key is absent by the commit at a location, whatever its floor."""
    return check_at("absent-commit", lst, location, key=key, metadata=lst.operations()[location][1])


def stands(lst, a, b):
    span = lst.engine.span
    chunks = [lst.chunk(c) for c in range(a // span, (b - 1) // span + 1)]
    proof = parts_of_range(m.make_range_proof(lst, a, b))
    return check("range", lst, start=a, items=lst.operations()[a:b], chunks=chunks, **proof)


def witness(lst):
    grafted, pending, partial = m.make_witness(lst)
    bits, digest = partial or (0, None)
    return check("witness", lst, ops=lst.root(), grafted=grafted, pending=pending, bits=bits, partial=digest)


def verdict(c):
    """What the model says to a check."""
    kind, engine, root = c["kind"], c["engine"], c["root"]
    if kind == "witness":
        partial = None if c["partial"] is None else (c["bits"], c["partial"])
        return m.verify_witness((c["grafted"], c["pending"], partial), c["ops"], root)
    if kind == "range":
        return m.verify_range(engine, range_of(c), c["start"], c["items"], c["chunks"], root)
    if kind == "absent-commit":
        return m.verify_exclusion(engine, ("Commit", operation_of(c), c["metadata"]), c["key"], root)
    if kind == "absent-update":
        update = ("U", c["before"], c["value"], c["next"])
        return m.verify_exclusion(engine, ("KeyValue", operation_of(c), update), c["key"], root)
    return m.verify_key(engine, (operation_of(c), c.get("next")), c["key"], c["value"], root)


def said(name, value):
    """A word."""
    if value is None:
        return "none"
    if isinstance(value, int):
        return str(value)
    if name == "items":
        value = [m.encode(op) for op in value]
    if name in LISTS:
        return ",".join(v.hex() for v in value) or "-"
    return value.hex() or "-"


# --------------------------------------------------------------------------
# Rows.
# --------------------------------------------------------------------------


def section(text):
    inp.extend(([""] if inp else []) + ["# " + text])


def row(name, c, shows):
    """A row that is to be a yes or a no, which is the model's verdict too."""
    assert verdict(c) == shows, name
    assert name not in names and ": " not in name, name
    names.add(name)
    inp.append("%s: %s %s" % (name, c["kind"], " ".join(said(w, c[w]) for w in WORDS[c["kind"]])))
    out.append("%s: %s" % (name, "yes" if shows else "no"))


def refused(name, c, what, **parts):
    row("%s, %s" % (name, what), {**c, **parts}, False)


def flipped(data, i):
    return data[:i] + bytes([data[i] ^ 1 << i % 8]) + data[i + 1 :]


def with_one(values, i, value):
    return values[:i] + [value] + values[i + 1 :]


def with_bit(chunk, place, is_set):
    data = bytearray(chunk)
    data[place // 8] = data[place // 8] & ~(1 << place % 8) | is_set << place % 8
    return bytes(data)


def places(data, every, turn=0):
    """The bytes that are changed: each, or one in 32."""
    if every:
        return range(len(data))
    return [(7 * turn + 3 + i) % len(data) for i in range(0, len(data), 32)]


def changes(c, every):
    """A check with one part changed at a time, and what is changed."""
    for name in WORDS[c["kind"]]:
        value = c[name]
        if isinstance(value, int):
            if name != "bits" or c["partial"] is not None:
                yield from changes_of_number(name, value, every)
        elif name in LISTS:
            yield from changes_of_list(name, value, every)
        elif value is None:
            yield "%s added" % name, {name: bytes(32)}
        else:
            for i in places(value, every and name != "root"):
                yield "byte %d of %s" % (i, name), {name: flipped(value, i)}
            if name in OPTIONS:
                yield "no %s" % name, {name: None}
            elif name in CLAIMED and name != "root":
                yield "%s longer" % name, {name: value + b"\0"}


def changes_of_number(name, value, every):
    for other in [value - 1, value + 1] + ([2**32, MOST] if every else []):
        if other >= 0:
            yield "%s %d" % (name, other), {name: other}


def changes_of_list(name, values, every):
    for i, value in enumerate(values):
        if every or i in (0, len(values) - 1):
            yield "%s without %d" % (name, i), {name: values[:i] + values[i + 1 :]}
        if name == "items":
            for what, op in changes_of_operation(value, every):
                yield "item %d, %s" % (i, what), {name: with_one(values, i, op)}
        else:
            for j in places(value, every, turn=i):
                yield "byte %d of %s %d" % (j, name, i), {name: with_one(values, i, flipped(value, j))}
    zeros = ("D", b"") if name == "items" else bytes(32)
    yield "%s and one more" % name, {name: values + [zeros]}
    yield "%s after one more" % name, {name: [zeros] + values}
    if len(values) > 1 and values[0] != values[1]:
        yield "first two %s swapped" % name, {name: [values[1], values[0]] + values[2:]}


def changes_of_operation(op, every):
    for part in range(1, len(op) if every else 2):
        if isinstance(op[part], int):
            yield "floor %d" % (op[part] + 1), op[:part] + (op[part] + 1,)
        elif op[part] is not None:
            for i in places(op[part], every) if op[part] else []:
                yield "byte %d of part %d" % (i, part), op[:part] + (flipped(op[part], i),) + op[part + 1 :]
    yield "of another sort", ("D", op[1]) if op[0] == "U" else ("U", b"61", b"01")


def table(name, c, every=False, but=()):
    """A proof as it was made, and with each part changed, but for those parts of which a change shows the same."""
    row(name, c, True)
    for what, parts in changes(c, every):
        if not set(parts) & set(but):
            refused(name, c, what, **parts)
    for other, what in others:
        if other != c["root"]:
            refused(name, c, "root of " + what, root=other)
    if "ops" in c:
        refused(name, c, "root of its operations", root=c["ops"])
    if "chunk" in c:
        place = c["location"] % c["engine"].span
        assert c["chunk"][place // 8] >> place % 8 & 1
        refused(name, c, "its bit cleared", chunk=with_bit(c["chunk"], place, 0))


# --------------------------------------------------------------------------
# Lists.
# --------------------------------------------------------------------------


def grown(ordered, policy, batches):
    """The list of these batches, each a list of writes and its metadata."""
    lst = m.fresh_list(m.Engine(True, ordered, "mmr"))
    for writes, metadata in batches:
        lst = lst.extend(m.step(lst, writes, policy, metadata)[0])
    return lst


def old_updates(lst, chunk):
    """The locations in a chunk of updates that are not active."""
    span, live = lst.engine.span, set(lst.live().values())
    return [i for i, op in enumerate(lst.operations()) if i // span == chunk and op[0] == "U" and i not in live]


def puts(numbers, value):
    return [(b"%04x" % (7 * n), bytes([value])) for n in numbers]


TWO = [([(b"\x61", b"\1"), (b"\x63", b"\3")], b"\xaa")]
fresh = grown(True, ("hold",), [])
two = grown(True, ("hold",), TWO)
two_unordered = grown(False, ("hold",), TWO)
one = grown(True, ("hold",), [([(b"\x61", b"\1")], None)])
emptied = grown(True, ("hold",), TWO + [([(b"\x61", None), (b"\x63", None)], b"\xbb")])
# 600 operations, live ones in each of three chunks, of which the last has 88 bits
wide = grown(
    False,
    ("hold",),
    [(puts(range(300), 1), None), (puts(range(90, 290), 2), None), (puts(range(100, 196), 3), b"\xcc")],
)
# 512 operations, so that no chunk is partial
whole = grown(False, ("hold",), [(puts(range(300), 1), None), (puts(range(90, 299), 2), None)])
# the floor is past the second of three chunks, whose bits may be pruned
moved = grown(True, ("prop",), [(puts(range(i, i + 8), i % 251), None) for i in range(38)])
assert (wide.size, whole.size) == (600, 512) and 512 < moved.floor() < moved.size < 768
assert moved.chunk(0) + moved.chunk(1) == bytes(64) and moved.grafted_inactive() == 1
others = [
    (fresh.canonical(), "the fresh database"),
    (two.canonical(), "two keys"),
    (wide.canonical(), "600 operations"),
]

section("Two keys of an ordered database: each byte of each proof.")
table("held 61", held(two, b"\x61"), every=True)
refused("held 61", held(two, b"\x61"), "value 02", value=b"\2")
refused("held 61", held(two, b"\x61"), "key 63", key=b"\x63")
refused("held 61", held(two, b"\x61"), "the proof of 63", **parts_of_operation(m.make_key_proof(two, b"\x63")[0]))
table("held 63", held(two, b"\x63"))
table("absent 62", absent(two, b"\x62"), every=True, but=["key"])
table("two operations", stands(two, 1, 3), every=True)
table("all operations", stands(two, 0, 4))
table("witness", witness(two), every=True)
table("held 61, unordered", held(two_unordered, b"\x61"))

section("An absence by an update holds of each key between its ends, and of no other. After the last key comes the first.")
between = absent(two, b"\x62")
for key in (b"\x61\0", b"\x61\xff", b"\x62\0", b"\x62\xff\xff"):
    row("absent between 61 and 63 " + key.hex(), {**between, "key": key}, True)
for key in (b"", b"\0", b"\x60\xff", b"\x61", b"\x63", b"\x63\0", b"\xff"):
    row("not absent between 61 and 63 " + (key.hex() or "-"), {**between, "key": key}, False)
around = absent(two, b"\x64")
for key in (b"", b"\0", b"\x60\xff", b"\x63\0", b"\xff"):
    row("absent around, from 63 to 61 " + (key.hex() or "-"), {**around, "key": key}, True)
for key in (b"\x61", b"\x61\0", b"\x62", b"\x63"):
    row("not absent around, from 63 to 61 " + key.hex(), {**around, "key": key}, False)
alone = absent(one, b"\x62")
for key in (b"", b"\x60", b"\x61\0", b"\x62"):
    row("absent beside 61 alone " + (key.hex() or "-"), {**alone, "key": key}, True)
row("not absent beside 61 alone 61", {**alone, "key": b"\x61"}, False)

section("An absence by a commit that is active at its own floor holds of every key; no other commit shows one.")
empty = absent(fresh, b"\x61")
table("absent 61, fresh", empty, every=True, but=["key"])
table("absent 61, all deleted", absent(emptied, b"\x61"), but=["key"])
for key in (b"", b"\x60", b"\x63", b"\xff" * 40):
    row("absent, fresh, " + (key.hex() or "-"), {**empty, "key": key}, True)
refused("absent 62 by the commit", commit_at(two, 3, b"\x62"), "whose floor is another")
refused("absent 62 by the commit", commit_at(two, 0, b"\x62"), "which is not the last")
refused("absent 61 by the commit", commit_at(emptied, 3, b"\x61"), "before the deletes")

section("What stands there and is not active: by the bit alone the old updates of a key are told from its live one.")
for lst, chunk, which in (
    (wide, 0, "in the first of three chunks"),
    (wide, 1, "in the second of three chunks"),
    (moved, 0, "in a chunk whose bits may be pruned"),
    (moved, 2, "in the last chunk"),
):
    location = old_updates(lst, chunk)[-1]
    old = update_at(lst, location)
    refused("an old update", old, which)
    set_there = with_bit(old["chunk"], location % 256, 1)
    refused("an old update", old, which + ", with its bit set", chunk=set_there)
spanned = span_at(moved, 1, b"%04x" % 1)
assert m.in_span(spanned["before"], spanned["next"], spanned["key"])
refused("absent by an old update", spanned, "whose span has the key")

section("600 operations of an unordered database, in two whole chunks and one of 88 bits: one byte in 32.")
for key, where in ((puts([0], 0)[0][0], "first"), (puts([95], 0)[0][0], "second"), (puts([150], 0)[0][0], "last")):
    assert wide.update(key)[0] // 256 == ("first", "second", "last").index(where)
    c, name = held(wide, key), "held in the %s of three chunks" % where
    table(name, c)
    plain = m.make_proof(wide, c["location"], c["location"] + 1)[2]
    refused(name, c, "digests that no chunks are grafted onto", digests=plain)
for place in (0, 87, 88, 255):
    bit = c["chunk"][place // 8] >> place % 8 & 1
    refused(name, c, "bit %d turned" % place, chunk=with_bit(c["chunk"], place, 1 - bit))
row("operations at the end of a chunk", stands(wide, 253, 256), True)
table("operations over two chunks", stands(wide, 254, 259))
table("operations of a whole and of the partial chunk", stands(wide, 510, 514))
table("witness of 600 operations", witness(wide))
row("all 600 operations", stands(wide, 0, 600), True)

section("512 operations: no chunk is partial.")
table("held in the second of two chunks", held(whole, puts([200], 0)[0][0]))
over = stands(whole, 255, 257)
row("operations of two whole chunks", over, True)
refused("operations of two whole chunks", over, "partial added", partial=bytes(32))
refused("operations of two whole chunks", over, "chunks swapped", chunks=over["chunks"][::-1])
table("witness of 512 operations", witness(whole))

section("An ordered database whose floor is past two chunks: their bits are clear, and may be pruned.")
live = moved.sorted_keys()
table("held past the pruned chunks", held(moved, live[2]))
table("absent past the pruned chunks", absent(moved, live[2] + b"\0"), but=["key"])
row("absent before the first key", absent(moved, b"!"), True)
row("absent after the last key", absent(moved, b"~"), True)
table("operations of a pruned chunk", stands(moved, 254, 256))
row("operations of both pruned chunks", stands(moved, 255, 257), True)
row("operations of a pruned chunk and the last", stands(moved, 511, 513), True)
table("witness past the pruned chunks", witness(moved))

section("Chunks that are too many, too few or others than those of the locations.")
for a, b, which in (
    (250, 254, "of the first chunk"),
    (254, 258, "of two chunks"),
    (508, 516, "of the last two chunks"),
    (520, 530, "of the last chunk"),
):
    c = stands(wide, a, b)
    first, count = a // 256, len(c["chunks"])
    name = "operations " + which
    row(name, c, True)
    refused(name, c, "no chunk", chunks=[])
    refused(name, c, "a chunk of zeros too many", chunks=c["chunks"] + [bytes(32)])
    refused(name, c, "the next chunk too many", chunks=c["chunks"] + [wide.chunk(min(first + count, 2))])
    refused(name, c, "two chunks too many", chunks=c["chunks"] + [bytes(32), bytes(32)])
    refused(name, c, "the chunks of others", chunks=[wide.chunk((first + i + 1) % 3) for i in range(count)])
    refused(name, c, "one operation less", items=c["items"][:-1])
    refused(name, c, "no operation", items=[])

section("Numbers that no list has.")
some, single = stands(two, 1, 3), held(two, b"\x61")
for what, parts in (
    ("no leaves", dict(leaves=0)),
    ("as many leaves as there may be", dict(leaves=2**62)),
    ("one leaf more than there may be", dict(leaves=2**62 + 1)),
    ("half of all numbers as leaves", dict(leaves=2**63)),
    ("the greatest number of leaves", dict(leaves=MOST)),
    ("the greatest number of inactive peaks", dict(inactive=MOST)),
    ("all that is greatest", dict(leaves=MOST, inactive=MOST, digests=[])),
    ("more digests than a tree has nodes beside", dict(digests=[bytes([i]) * 32 for i in range(200)])),
):
    for c, name in ((some, "two operations"), (single, "held 61")):
        refused(name, c, what, **parts)
for number in (2**62 - 1, 2**62, 2**63 - 1, 2**63, MOST - 1, MOST):
    if number != MOST:
        refused("two operations", some, "from %d on" % number, start=number)
        refused("held 61", single, "at %d" % number, location=number)
    refused("two operations", some, "from %d on in so many leaves" % number, start=number, leaves=number)
    refused("held 61", single, "at %d in so many leaves" % number, location=number, leaves=number)

section("A root that is hashed over digests of chunks that no list of so many operations has: the numbers alone tell.")
PENDING, PARTIAL = b"\x5a" * 32, b"\xa5" * 32
for lst, name in ((two, "two keys"), (wide, "600 operations"), (whole, "512 operations")):
    there = lst.partial_digest()
    other = None if there else PARTIAL
    # a mountain range has no pending chunk
    for pending, partial, what in (
        (PENDING, there, "a pending chunk"),
        (None, other, "no partial chunk" if there else "a partial chunk"),
        (PENDING, other, "both others"),
    ):
        root = m.canonical_root(lst.engine.N, lst.size, lst.root(), lst.grafted_root(), pending, partial)
        parts = dict(root=root, pending=pending, partial=partial)
        first = min(lst.live().values())
        refused("a root over %s, of %s" % (what, name), stands(lst, 1, 3), "operations", **parts)
        refused("a root over %s, of %s" % (what, name), update_at(lst, first), "held", **parts)
# a witness names what is hashed, whatever a list of so many operations has
for lst, name in ((two, "two keys"), (whole, "512 operations")):
    root = m.canonical_root(lst.engine.N, 5, lst.root(), lst.grafted_root(), PENDING, PARTIAL)
    named = dict(root=root, pending=PENDING, bits=5, partial=PARTIAL)
    row("a witness over a pending chunk, of " + name, {**witness(lst), **named}, True)
    refused("a witness over a pending chunk, of " + name, witness(lst), "which it does not name", root=root)

folder = sys.argv[1]
with open(folder + "/stdin", "w") as it:
    it.write("\n".join(inp) + "\n")
with open(folder + "/stdout", "w") as it:
    it.write("\n".join(out) + "\n")
print("%d rows, %d of them yes" % (len(out), sum(o.endswith(": yes") for o in out)))
