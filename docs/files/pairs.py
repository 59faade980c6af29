"""Pairs of processes over one folder, one that waits for its input while the other runs, and 400 at once: each folder is that of an order, or of the one that was let in."""
import collections
import os
import random
import shutil
import subprocess
import time

from common import PROGRAM as B, ROOM as tmp
import model
import qmdb

W = ["run","any","ordered","mmr"]
def t(*l): return ("\n".join(l) + "\n").encode()
# 1. A starts (reads the log), B runs and commits, then A gets its input and commits.
def staged(a, b, setup):
    w = os.path.join(tmp, "w"); shutil.rmtree(w, ignore_errors=True); os.makedirs(w)
    if setup: subprocess.run([B] + W, input=setup, cwd=w, stdout=subprocess.PIPE, check=True)
    A = subprocess.Popen([B] + W, stdin=subprocess.PIPE, stdout=subprocess.PIPE, stderr=subprocess.PIPE, cwd=w); time.sleep(0.05)
    pb = subprocess.run([B] + W, input=b, cwd=w, stdout=subprocess.PIPE)
    oa, ea = A.communicate(a)
    pc = subprocess.run([B] + W, input=t("open", "info", "root", "range * *"), cwd=w, stdout=subprocess.PIPE)
    return (A.returncode, oa), (pb.returncode, pb.stdout), (pc.returncode, pc.stdout)
setup = t("open","batch","put 1 61 01","merkleize 1 prop none","apply 1","commit")
for name, a, b in (
  ("append over append", t("open","batch","put 1 62 02","merkleize 1 prop none","apply 1","commit","root"), t("open","batch","put 1 63 03","put 1 64 04","put 1 65 05","merkleize 1 prop none","apply 1","commit","root")),
  ("A appends, B pruned", t("open","batch","put 1 62 02","merkleize 1 prop none","apply 1","commit","root"), t("open","batch","put 1 63 03","merkleize 1 prop none","apply 1","prune 4","root")),
  ("A prunes, B appended", t("open","prune 2","root"), t("open","batch","put 1 63 03","merkleize 1 prop none","apply 1","commit","root")),
  ("A on a missing folder, B made it", None, None)):
    if a is None:
        r = staged(t("open","batch","put 1 62 02","merkleize 1 prop none","apply 1","commit","root"), t("open","batch","put 1 63 03","merkleize 1 prop none","apply 1","commit","root"), None)
    else: r = staged(a, b, setup)
    print("==", name)
    for n, x in zip(("A", "B", "afterwards"), r): print("  ", n, x[0], x[1].decode().replace("\n", " | ")[:400])
# 2. truly at once
res = collections.Counter(); rng = random.Random(3); ex = {}
def sc(rng, tag):
    l = ["open"]; h = 0
    for _ in range(rng.randrange(2, 12)):
        l.append("batch"); h += 1
        for _ in range(rng.randrange(1, 40)): l.append("put %d %s%02x %s" % (h, tag, rng.randrange(256), "%02x" % rng.randrange(256) * rng.randrange(1, 60)))
        l += ["merkleize %d prop none" % h, "apply %d" % h, "commit"]
        if rng.random() < 0.3: l.append("prune %d" % rng.randrange(1, 30))
    return l
for i in range(400):
    w = os.path.join(tmp, "w"); shutil.rmtree(w, ignore_errors=True); os.makedirs(w)
    subprocess.run([B] + W, input=setup, cwd=w, stdout=subprocess.PIPE, check=True)
    a, b = sc(rng, "aa"), sc(rng, "bb")
    for k, l in enumerate((a, b)):
        f = open(os.path.join(w, "in%d" % k), "wb"); f.write(t(*l)); f.close()
    ps = [subprocess.Popen([B] + W, stdin=open(os.path.join(w, "in%d" % k)), stdout=subprocess.PIPE, stderr=subprocess.PIPE, cwd=w) for k in (0, 1)]
    outs = [p.communicate()[0] for p in ps]; sts = tuple(p.returncode for p in ps)
    pc = subprocess.run([B] + W, input=t("open","info"), cwd=w, stdout=subprocess.PIPE)
    # serial results
    serial = []
    for x, y in ((a, b), (b, a)):
        s = model.Store(keeps_all=True); qmdb.run_program(W, setup, s, 9); qmdb.run_program(W, t(*x), s, 9); qmdb.run_program(W, t(*y), s, 9); serial.append((s.start, s.head, s.items))
    if 6 in sts:
        serial = []
        s = model.Store(keeps_all=True); qmdb.run_program(W, setup, s, 9); qmdb.run_program(W, t(*(b if sts[0] == 6 else a)), s, 9); serial.append((s.start, s.head, s.items))
    g = qmdb.load_folder(os.path.join(w, "qmdb-data"))
    kind = "serial" if (g.start, g.head, g.items) in serial else ("opens with other list" if pc.stdout.startswith(b"open") else pc.stdout.split(b"\n")[0].decode())
    res[(sts, kind if not kind.startswith("refused H") else "refused HistoricalFloorPruned")] += 1
print("== at once, 400 pairs"); 
for k in res: print("  ", k, res[k])
