"""What 1,000 commits wait for, in seconds, side by side: one sync of a log; that and a sync of data into room that was taken ahead; that and a whole sync of
a file that grows. syncs.py FOLDER.."""
import os
import sys
import time

ROOM, COMMITS, TURNS = 16384, 1000, 7


def commits(folder, how):
    names = [os.path.join(folder, name) for name in ("try-log", "try-sums")]
    log, sums = [os.open(name, os.O_CREAT | os.O_RDWR | os.O_TRUNC) for name in names]
    at = room = 0; began = time.time()
    for i in range(COMMITS):
        os.pwrite(log, bytes(700), 700 * i)
        if how != "one": at += 32
        os.fsync(log)
        if how == "data":
            if room < at + 64:
                os.pwrite(sums, bytes(ROOM), room); room += ROOM
            os.pwrite(sums, b"\1" * 64, at); at += 64; os.fdatasync(sums)
        if how == "whole":
            os.pwrite(sums, b"\1" * 64, at); at += 64; os.fsync(sums)
    took = time.time() - began
    for fd, name in zip((log, sums), names): os.close(fd); os.remove(name)
    return took


for folder in sys.argv[1:] or ["."]:
    times = {how: [] for how in ("one", "data", "whole")}
    for _ in range(TURNS):
        for how in times: times[how].append(commits(folder, how))
    print(folder, *("%s: %.2f %.2f %.2f" % (how, min(t), sorted(t)[TURNS // 2], max(t)) for how, t in times.items()), sep="\n  ")
