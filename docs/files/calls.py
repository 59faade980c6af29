"""Each call of the system over the folder fails in turn, or the program is killed before it: what the next opening has."""
import collections
import os
import re
import shutil
import subprocess

from common import PROGRAM as B, ROOM as tmp, content
import qmdb

CALLS = "openat,pread64,pwrite64,lseek,read,fsync,fdatasync,rename,unlink,ftruncate,mkdir,statx,newfstatat,fstat,flock,getdents64,getrandom,fchmod,close"
S1 = ["open","batch","put 1 61 01","put 1 62 02","merkleize 1 prop none","apply 1","commit","batch","put 2 61 03","merkleize 2 prop aa","apply 2","prune 4","get 61","sync","crash 3","open","batch","put 3 64 07","merkleize 3 prop none","apply 3","open max=8","info","root","destroy","open","sync","info"]
S2 = ["open","prune 2","batch","put 1 65 05","merkleize 1 prop none","apply 1","commit","info","root","close"]
SETUP = ["open","batch","put 1 61 01","put 1 62 02","merkleize 1 prop none","apply 1","commit"]
EMPTY = (0, b"", ())
def go(words, lines, w, inj=None, log="/dev/null"):
    pre = ["strace", "-o", log, "-e", "trace=" + CALLS] + (["-e", "inject=" + inj] if inj else []) if inj or log != "/dev/null" else []
    return subprocess.run(pre + [B] + words, input=("\n".join(lines) + "\n").encode(), cwd=w, stdout=subprocess.PIPE, stderr=subprocess.PIPE, timeout=30)
tally = collections.Counter(); bad = []
for kind in ("ordered", "unordered"):
    words = ["run", "any", kind, "mmr"]
    for name, setup, lines in (("fresh", None, S1), ("old", "old", S2), ("again", SETUP, S2)):
        base = os.path.join(tmp, "base"); shutil.rmtree(base, ignore_errors=True); os.makedirs(base)
        if setup:
            go(words, SETUP, base)
            if setup == "old": os.remove(base + "/qmdb-data/sums")
        store = qmdb.load_folder(base + "/qmdb-data"); start = content(store); eng = qmdb.parse_words(words, 9)[1]; m = qmdb.Machine(eng, store); states = []; replies = []
        for l in lines: replies.append(m.execute(qmdb.parse_line(l.encode(), 9))); states.append(content(store))
        whole = "".join(r + "\n" for r in replies).encode(); log = os.path.join(tmp, "log"); w = os.path.join(tmp, "w")
        def fresh(): shutil.rmtree(w, ignore_errors=True); shutil.copytree(base, w)
        fresh(); p = go(words, lines, w, log=log); assert (p.returncode, p.stdout) == (0, whole), p
        counts = collections.Counter(); pre = None
        for l in open(log):
            mm = re.match(r"(\w+)\(", l)
            if mm:
                if pre is None and "qmdb-data" in l: pre = dict(counts)
                counts[mm.group(1)] += 1
        for call in counts:
            for n in range(pre.get(call, 0) + 1, counts[call] + 1):
                for how in ("error=EIO", "error=ENOSPC", "error=ENOMEM", "signal=KILL") if call != "close" else ("error=EIO",):
                    fresh(); p = go(words, lines, w, "%s:%s:when=%d" % (call, how, n)); st = p.returncode; out = p.stdout
                    q = go(words, ["open", "info", "root"], w)
                    why = ""
                    if how == "signal=KILL": cands = [start] + states; k = None
                    elif st == 0: cands = [states[-1]]; why = "" if out == whole else "text"
                    elif st in (5, 6):
                        k = out.count(b"\n") - (st == 6)
                        if not whole.startswith(out[:-12] if st == 6 else out): why = "text"
                        cands = [states[k - 1] if k else start, states[min(k, len(states) - 1)]]
                        if st == 5: cands = [start] + states
                    elif st == 3 and not out: cands = [start]
                    else: cands = []; why = "status %d" % st
                    if q.returncode or not q.stdout.startswith(b"open"): why += " then %d %s %s" % (q.returncode, q.stdout[:30], q.stderr[:80])
                    else:
                        got = content(qmdb.load_folder(w + "/qmdb-data"))
                        if not (got in cands or EMPTY in cands and got[0] == 0 and len(got[2]) == 1): why += " list"
                        if [x for x in os.listdir(w + "/qmdb-data") if x.endswith(".new") or x == "destroyed"]: why += " leavings"
                    tally[(name, how, st, "bad" if why else "ok")] += 1
                    if why: bad.append((kind, name, call, n, how, st, why, out[-60:], p.stderr[:60]))
print(sum(tally.values()), len(bad), "bad")
for k in sorted(tally, key=str): print("  ", k, tally[k])
for b in bad[:25]: print("BAD", b)
