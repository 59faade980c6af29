"""Each bit of `log` and `sums` of small folders flipped in turn, committed and with an uncommitted end: what an opening makes of it."""
import collections
import os
import shutil
import subprocess

from common import PROGRAM as B, ROOM as tmp
import model
import qmdb

W = lambda k: ["run", "any", k, "mmr"]
def go(k, lines, w): return subprocess.run([B] + W(k), input=("\n".join(lines) + "\n").encode(), cwd=w, stdout=subprocess.PIPE, stderr=subprocess.PIPE)
S = ["open","batch","put 1 61 01","put 1 62 02","put 1 6263 0a0b","merkleize 1 prop none","apply 1","commit","batch","put 2 61 03","del 2 62","merkleize 2 prop aa","apply 2"]
P = S + ["prune 5", "batch", "put 3 64 -", "merkleize 3 bounded:3:3 -", "apply 3"]
runs = {"committed": S + ["commit"], "pruned": P + ["sync"], "uncommitted": S, "pruned, uncommitted": P, "rewound": S + ["commit","batch","put 3 64 07","merkleize 3 prop none","apply 3","commit","close","open max=9","commit"]}
tot = collections.Counter(); bad = []
def bits_of(sums):
    """The bits of the records, and each 97th of the room after them."""
    used = len(sums.rstrip(b"\0")) // 32 * 32 + 32
    return list(range(8 * used)) + list(range(8 * used, 8 * len(sums), 97))
look = ["open", "info", "root"]
for kind in ("ordered", "unordered"):
    for name, lines in runs.items():
        base = os.path.join(tmp, "base"); shutil.rmtree(base, ignore_errors=True); os.makedirs(base)
        p = go(kind, lines, base); assert p.returncode == 0, (name, p)
        d = os.path.join(base, "qmdb-data")
        log = open(d + "/log", "rb").read(); sums = open(d + "/sums", "rb").read(); whole = qmdb.read_log(log)
        # where the last commit's record says that the committed part ends
        ends = [int.from_bytes(sums[i:i+8], "big") for i in range(32, len(sums), 32) if int.from_bytes(sums[i+16:i+24], "big") == 3]
        bound = ends[-1]; low = len(qmdb.read_log(log[:bound])[2])
        for f, data in (("log", log), ("sums", sums)):
            for i in range(8 * len(data)) if f == "log" else bits_of(sums):
                w = os.path.join(tmp, "w"); shutil.rmtree(w, ignore_errors=True); shutil.copytree(base, w)
                img = bytearray(data); img[i // 8] ^= 1 << (i % 8); open(w + "/qmdb-data/" + f, "wb").write(img)
                before = {n: open(w + "/qmdb-data/" + n, "rb").read() for n in os.listdir(w + "/qmdb-data")}
                p = go(kind, look, w)
                after = {n: open(w + "/qmdb-data/" + n, "rb").read() for n in os.listdir(w + "/qmdb-data")}
                part = "committed log" if f == "log" and i // 8 < bound else "uncommitted log" if f == "log" else "sums"
                if p.returncode == 6:
                    r = "broken, told" if b"sums" in p.stderr or b"log" in p.stderr else "broken, not told"
                    if before != after: r = "BROKEN BUT WRITTEN"
                elif p.returncode == 0 and p.stdout.startswith(b"open"):
                    n = int(p.stdout.split(b"\n")[0].split(b" ")[3]) - whole[0]
                    got = qmdb.read_log(after["log"]) if n else None
                    m = model.Store(whole[0], whole[1], list(whole[2][:n]), keeps_all=True)
                    out = qmdb.run_program(W(kind), ("\n".join(look) + "\n").encode(), m, 9)
                    right = out == (p.returncode, p.stdout)
                    r = "opened, whole" if right and n == len(whole[2]) else "opened at the last commit or later" if right and n >= low else "LOST" if right else "WRONG LIST"
                else: r = "status %d %s" % (p.returncode, p.stdout[:30])
                tot[(kind, name, part, r)] += 1
                if r.isupper() or r.startswith("status") or (part == "committed log" and not r.startswith("broken")): bad.append((kind, name, f, i, r))
print(sum(tot.values()), "flips", len(bad), "bad")
for k in sorted(tot): print("  ", k, tot[k])
for b in bad[:10]: print("BAD", b)
