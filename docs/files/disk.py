"""A model of a disk under the calls that a trace has: of each file the bytes that a sync made stable and the writes and cuts that were not synced, and
of the folder its names as they were synced, and later creations, renames and removals."""
import itertools
import os
import re


def unq(s):
    return bytes(int(x, 16) for x in s.split("\\x")[1:])


def parse(log):
    fds = {}; ops = []
    for l in open(log):
        m = re.match(r'openat\(AT_FDCWD, "((?:\\x[0-9a-f]{2})*)", ([A-Z_|]+).*= (\d+)$', l)
        if m:
            name = unq(m.group(1)).decode(); fd = int(m.group(3)); fds.pop(fd, None)
            if not name.startswith("qmdb-data"): continue
            if "O_CREAT" in m.group(2):
                if "O_EXCL" in m.group(2): ops.append(("create", name[10:]))
                else: ops.append(("touch", name[10:]))
                fds[fd] = ["file", 0]; ops.append(("bind", fd, name[10:]))
            elif name in ("qmdb-data/.", "qmdb-data/"): fds[fd] = ["dir"]
            else: fds[fd] = ["file", 0]; ops.append(("bind", fd, name[10:]))
            continue
        m = re.match(r'lseek\((\d+), (-?\d+), SEEK_(SET|CUR|END)\) += (\d+)$', l)
        if m and int(m.group(1)) in fds: fds[int(m.group(1))][1] = int(m.group(4)); continue
        m = re.match(r'read\((\d+), .*\) += (\d+)$', l)
        if m and int(m.group(1)) in fds: fds[int(m.group(1))][1] += int(m.group(2)); continue
        m = re.match(r'write\((\d+), "((?:\\x[0-9a-f]{2})*)", \d+\) += (\d+)$', l)
        if m and int(m.group(1)) in fds:
            fd = int(m.group(1)); b = unq(m.group(2))[:int(m.group(3))]; ops.append(("write", fd, fds[fd][1], b)); fds[fd][1] += len(b); continue
        m = re.match(r'pwrite64\((\d+), "((?:\\x[0-9a-f]{2})*)", \d+, (\d+)\) += (\d+)$', l)
        if m and int(m.group(1)) in fds: ops.append(("write", int(m.group(1)), int(m.group(3)), unq(m.group(2))[:int(m.group(4))])); continue
        m = re.match(r'ftruncate\((\d+), (\d+)\) += 0$', l)
        if m: ops.append(("trunc", int(m.group(1)), int(m.group(2)))); continue
        m = re.match(r'f(?:data)?sync\((\d+)\) += 0$', l)
        if m: fd = int(m.group(1)); ops.append(("fsyncdir",) if fds[fd][0] == "dir" else ("fsync", fd)); continue
        m = re.match(r'rename\("((?:\\x[0-9a-f]{2})*)", "((?:\\x[0-9a-f]{2})*)"\) += 0$', l)
        if m: ops.append(("rename", unq(m.group(1)).decode()[10:], unq(m.group(2)).decode()[10:])); continue
        m = re.match(r'unlink\("((?:\\x[0-9a-f]{2})*)"\) += 0$', l)
        if m: ops.append(("unlink", unq(m.group(1)).decode()[10:])); continue
        m = re.match(r'close\((\d+)\) += 0$', l)
        if m: fds.pop(int(m.group(1)), None)
    return ops


class Inode:
    def __init__(self, data=b""):
        self.durable = bytes(data); self.now = bytes(data)
        self.pending = []   # ("w", off, bytes) or ("t", size)

    def apply(self, cur, p):
        cur = bytearray(cur)
        if p[0] == "w":
            if len(cur) < p[1]: cur += bytes(p[1] - len(cur))
            cur[p[1]:p[1] + len(p[2])] = p[2]
        else:
            if p[1] <= len(cur): del cur[p[1]:]
            else: cur += bytes(p[1] - len(cur))
        return bytes(cur)

class Disk:
    """State after a prefix of the operations."""
    def __init__(self, folder=None):
        self.inodes = []; self.names = {}; self.durable_names = {}; self.pending_names = []; self.bound = {}
        if folder and os.path.isdir(folder):
            for n in os.listdir(folder):
                self.inodes.append(Inode(open(os.path.join(folder, n), "rb").read()))
                self.names[n] = self.durable_names[n] = len(self.inodes) - 1

    def step(self, op):
        k = op[0]
        if k == "create":
            n = op[1]
            if n in self.names:
                i = self.inodes[self.names[n]]; i.pending.append(("t", 0)); i.now = b""
            else:
                self.inodes.append(Inode()); self.names[n] = len(self.inodes) - 1
                self.pending_names.append(("link", n, self.names[n]))
        elif k == "bind": self.bound[op[1]] = self.names[op[2]]
        elif k == "write":
            i = self.inodes[self.bound[op[1]]]; p = ("w", op[2], op[3]); i.pending.append(p); i.now = i.apply(i.now, p)
        elif k == "trunc":
            i = self.inodes[self.bound[op[1]]]; p = ("t", op[2]); i.pending.append(p); i.now = i.apply(i.now, p)
        elif k == "fsync":
            i = self.inodes[self.bound[op[1]]]; i.durable = i.now; i.pending = []
        elif k == "rename":
            i = self.names.pop(op[1]); self.names[op[2]] = i; self.pending_names.append(("rename", op[1], op[2], i))
        elif k == "unlink":
            del self.names[op[1]]; self.pending_names.append(("unlink", op[1]))
        elif k == "fsyncdir":
            self.durable_names = dict(self.names); self.pending_names = []

    def folder_states(self):
        """Names after each prefix of the pending changes of the folder (journaled order)."""
        out = []; cur = dict(self.durable_names); out.append(dict(cur))
        for p in self.pending_names:
            if p[0] == "link": cur[p[1]] = p[2]
            elif p[0] == "rename": cur.pop(p[1], None); cur[p[2]] = p[3]
            else: cur.pop(p[1], None)
            out.append(dict(cur))
        return out

    def file_states(self, i, rng, sector, most, mode):
        """Contents an inode may have.  Mode `order`: the writes in order, the last one cut at any byte.
        Mode `sectors`: each sector of the writes old (or zero) or new, with each size that was passed."""
        n = self.inodes[i]
        outs = {n.durable, n.now}
        cur = n.durable
        if not n.pending: return list(outs)
        for p in n.pending:
            if p[0] == "w":
                for cut in range(0, len(p[2]) + 1, 1 if len(p[2]) < 400 else max(1, len(p[2]) // 300)):
                    outs.add(n.apply(cur, ("w", p[1], p[2][:cut])))
            cur = n.apply(cur, p); outs.add(cur)
        if mode == "sectors":
            final = n.now; base = n.durable
            # no truncation among pending, else prefix states only (and truncated ones)
            sizes = sorted({len(base), len(final)} | {p[1] + len(p[2]) for p in n.pending if p[0] == "w"})
            dirty = sorted({s for p in n.pending if p[0] == "w" for s in range(p[1] // sector, (p[1] + len(p[2]) - 1) // sector + 1)})
            cases = []
            if 2 ** len(dirty) <= most:
                cases = list(itertools.product((0, 1), repeat=len(dirty)))
            else:
                cases = [tuple(rng.randrange(2) for _ in dirty) for _ in range(most)]
                for k in range(len(dirty)):
                    cases.append(tuple(0 if j == k else 1 for j in range(len(dirty))))
            for c in cases:
                for size in sizes:
                    img = bytearray(base[:size].ljust(size, b"\0"))
                    for s, on in zip(dirty, c):
                        a, z = s * sector, min((s + 1) * sector, size)
                        if on and a < z: img[a:z] = final[a:z].ljust(z - a, b"\0")
                    outs.add(bytes(img))
        return list(outs)
