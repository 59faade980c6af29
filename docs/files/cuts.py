"""Power cuts: after each call of the system in a run, each state of the disk that unsynced writes may leave is opened.
cuts.py MODE SECTOR MOST FIRST LAST | cuts.py MODE SECTOR MOST small|many, where MODE is order or sectors, and with FREE=1 names reach the disk in any order.
With OLD=1 the run is over a folder without sums, with REWINDS=1 most of its openings rewind."""
import collections
import hashlib
import itertools
import os
import random
import re
import shutil
import subprocess
import sys
import time

from common import PROGRAM as B, ROOM, anew, content
import model
import qmdb
from disk import Disk, parse

TR = "openat,lseek,read,write,pwrite64,fsync,fdatasync,rename,unlink,ftruncate,mkdir,close"


def trace(words, lines, work, log):
    p = subprocess.run(["strace", "-xx", "-s", "100000000", "-o", log, "-e", "trace=" + TR, B] + words, input=("\n".join(lines) + "\n").encode(), cwd=work, stdout=subprocess.PIPE, stderr=subprocess.PIPE)
    assert p.returncode == 0, (p.returncode, p.stderr, p.stdout[-200:])
    return p.stdout.decode().split("\n")[:-1], parse(log)
EMPTY = (0, b"", ())
LOOK = ["open", "info", "root", "meta"]
def run(words, lines, tmp, mode, sector, most, rng, setup=None, free=False):
    work = os.path.join(tmp, "w"); data = os.path.join(work, "qmdb-data"); log = os.path.join(tmp, "log")
    save = os.path.join(tmp, "s0"); shutil.rmtree(save, ignore_errors=True)
    def fresh():
        shutil.rmtree(work, ignore_errors=True); os.makedirs(work)
        if setup is not None: shutil.copytree(setup, data)
    fresh()
    if setup is not None: shutil.copytree(setup, save)
    store = qmdb.load_folder(data); eng = qmdb.parse_words(words, 9)[1]; m = qmdb.Machine(eng, store); states = []; replies = []
    start = content(store)
    for line in lines: replies.append(m.execute(qmdb.parse_line(line.encode(), 9))); states.append(content(store))
    counts = []; opc = []
    for i in range(1, len(lines) + 1):
        fresh(); _, o = trace(words, lines[:i], work, log); counts.append(sum(1 for x in o if x[0] in ("fsync", "fsyncdir"))); opc.append(len(o))
    fresh(); out, ops = trace(words, lines, work, log); assert out == replies, "program differs from the model"
    disk = Disk(save if setup is not None else None); res = collections.Counter(); seen = set(); ex = {}; fs = 0
    def names_states():
        if not free: return disk.folder_states()
        outs = [dict(disk.durable_names)]
        pend = disk.pending_names
        for pick in itertools.product((0, 1), repeat=min(len(pend), 6)):
            cur = dict(disk.durable_names); ok = True
            for on, p in zip(pick, pend):
                if not on: continue
                if p[0] == "link": cur[p[1]] = p[2]
                elif p[0] == "rename": cur.pop(p[1], None); cur[p[2]] = p[3]
                else: cur.pop(p[1], None)
            outs.append(cur)
        return outs
    for k in range(len(ops) + 1):
        if k:
            op = ops[k - 1]
            if op[0] == "touch": op = ("create", op[1]) if op[1] not in disk.names else ("bind", -1, op[1])
            disk.step(op)
            if op[0] in ("fsync", "fsyncdir"): fs += 1
        low = -1
        for i in range(len(lines)):
            if counts[i] > fs: break
            if counts[i] > (counts[i - 1] if i else 0) and not lines[i].startswith("apply"): low = i
        done = sum(1 for x in opc if x <= k)
        kill = [states[done - 1] if done else start] + ([states[done]] if done < len(states) else [])
        for names in [None] + names_states():
            is_kill = names is None
            if is_kill: names = disk.names
            files = sorted(names); alts = [[disk.inodes[names[n]].now] if is_kill else sorted(disk.file_states(names[n], rng, sector, most, mode)) for n in files]
            total = 1
            for a in alts: total *= len(a)
            if total <= 4 * most: combos = list(itertools.product(*alts))
            else:
                combos = [tuple(rng.choice(a) for a in alts) for _ in range(3 * most)]
                combos += [tuple(disk.inodes[names[n]].now if j != i else v for j, n in enumerate(files)) for i in range(len(files)) for v in rng.sample(alts[i], min(len(alts[i]), most // 2))]
                combos += [tuple(disk.inodes[names[n]].durable if j != i else v for j, n in enumerate(files)) for i in range(len(files)) for v in rng.sample(alts[i], min(len(alts[i]), most // 2))]
            for c in combos:
                h = hashlib.sha256(repr((files, c, low, kill if is_kill else None)).encode()).digest()
                if h in seen: continue
                seen.add(h)
                d = os.path.join(tmp, "i"); dd = os.path.join(d, "qmdb-data"); shutil.rmtree(d, ignore_errors=True); os.makedirs(dd)
                for n, v in zip(files, c): open(os.path.join(dd, n), "wb").write(v)
                q = subprocess.run([B] + words, input=("\n".join(LOOK) + "\n").encode(), cwd=d, stdout=subprocess.PIPE, stderr=subprocess.PIPE)
                if q.returncode != 0: what = "STATUS %d %s" % (q.returncode, re.sub("[0-9]+", "N", q.stderr.decode().split("\n")[0]))
                elif not q.stdout.startswith(b"open"): what = "REFUSED " + q.stdout.split(b"\n")[0].decode()[:30]
                else:
                    got = content(qmdb.load_folder(dd))
                    ms = model.Store(got[0], got[1], list(got[2]), keeps_all=True)
                    mst, mout = qmdb.run_program(words, ("\n".join(LOOK) + "\n").encode(), ms, 9)
                    cands = kill if is_kill else [s for s in states[max(low, 0):]] + ([start] if low < 0 else [])
                    left = [n for n in os.listdir(dd) if n.endswith(".new") or n == "destroyed"]
                    if (mst, mout) != (0, q.stdout): what = "DIFFERS FROM MODEL"
                    elif got in cands: what = "ok"
                    elif EMPTY in cands and got[0] == 0 and len(got[2]) == 1: what = "ok, fresh"
                    else: what = "WRONG LIST"
                    if left: what += ", LEAVINGS"
                if is_kill: what += " (kill)"
                res[what] += 1
                if (not what.startswith("ok") or "LEAV" in what) and what not in ex: ex[what] = (k, [(o[0], o[1:] if o[0] != "write" else (o[1], o[2], len(o[3]))) for o in ops[:k][-6:]], low, lines[low] if low >= 0 else None, files, [len(v) for v in c], q.stdout, q.stderr)
    return res, ex, len(ops)
hx = lambda n, b: ("%02x" % b) * n
SMALL = ["open","batch","put 1 61 01","put 1 62 02","merkleize 1 prop none","apply 1","commit","batch","put 2 61 03","del 2 62","merkleize 2 prop aa","apply 2","batch","put 3 63 05","merkleize 3 prop none","apply 3","prune 4","sync","crash 3","open","batch","put 4 64 07","merkleize 4 prop none","apply 4","open max=9","destroy","open","batch","put 5 61 01","merkleize 5 prop none","apply 5"]
MANY = ["open"] + sum([["batch", "put %d %02x %02x" % (b, b, b), "merkleize %d prop none" % b, "apply %d" % b] + (["commit"] if b % 5 == 0 else []) for b in range(1, 13)], [])
def old_folder(words, tmp):
    """A folder that the model wrote, without sums, where that is asked for."""
    if not os.environ.get("OLD"): return None
    store = model.Store(keeps_all=True)
    qmdb.run_program(words, b"open\nbatch\nput 1 61 01\nput 1 62 02\nmerkleize 1 prop none\napply 1\ncommit\n", store, 9)
    anew(os.path.join(tmp, "old")); open(os.path.join(tmp, "old", "log"), "wb").write(qmdb.log_bytes(store))
    return os.path.join(tmp, "old")


if __name__ == "__main__":
    mode, sector, most = sys.argv[1], int(sys.argv[2]), int(sys.argv[3])
    tmp = ROOM; tot = collections.Counter(); shown = {}; t0 = time.time(); limit = float(os.environ.get("LIMIT", "300")); free = bool(os.environ.get("FREE"))
    if not sys.argv[4].isdigit():
        r, e, n = run(["run","any","ordered","mmr"], {"small": SMALL, "many": MANY}[sys.argv[4]], tmp, mode, sector, most, random.Random(1), free=free)
        tot += r; shown = e; seed = sys.argv[4]
    else:
        for seed in range(int(sys.argv[4]), int(sys.argv[5])):
            rng = random.Random("pl%d" % seed); w = ["run", "any", rng.choice(("ordered", "unordered")), "mmr"]
            kl, vl = rng.choice(((1, 1), (1, 1), (2, 4), (4, 8), (8, 8), (20, 32), (32, 64))); lines = ["open"]; b = 0
            for _ in range(rng.randrange(2, 6)):
                b += 1; lines.append("batch")
                for _ in range(rng.randrange(1, int(os.environ.get("PUTS", "6")))):
                    k = "".join("%02x" % rng.randrange(256) for _ in range(kl)); v = "".join("%02x" % rng.choice((0, 1, rng.randrange(256))) for _ in range(vl)); lines.append("put %d %s %s" % (b, k, v))
                lines += ["merkleize %d prop none" % b, "apply %d" % b]; r = rng.random()
                if os.environ.get("REWINDS") and r > 0.4: lines += ["close", "open max=%d" % rng.randrange(2, 40)]
                elif r < 0.3: lines.append("commit")
                elif r < 0.45: lines.append("prune %d" % rng.randrange(1, 3))
                elif r < 0.5: lines += ["crash 0", "open"]
                elif r < 0.55: lines += ["destroy", "open"]
                elif r < 0.65: lines += ["close", "open max=%d" % rng.randrange(2, 40)]
                if lines[-1].startswith("open"): lines.append("info")
            lines.append("sync")
            # handles are numbered anew by an opening that is refused: drop what the model refuses
            try: r, e, n = run(w, lines, tmp, mode, sector, most, rng, setup=old_folder(w, tmp), free=free)
            except AssertionError as a: print("ASSERT", seed, str(a)[:200]); continue
            tot += r
            for x in e: shown.setdefault(x, (seed, e[x]))
            if time.time() - t0 > limit: break
    print(mode, sector, "free names" if free else "names in order", "last", seed, "images", sum(tot.values()), dict(tot), "%.0f s" % (time.time() - t0))
    for x in shown: print("EX", x, shown[x])
