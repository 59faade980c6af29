"""What the scripts of this folder share: the program (QMDB, or the one that the gate built), the model, and a folder to work in."""
import os
import shutil
import sys
import tempfile

HERE = os.path.dirname(os.path.abspath(__file__))
sys.path.insert(0, os.environ.get("MODEL", os.path.join(HERE, "..", "..", "model")))
sys.setrecursionlimit(10000)
PROGRAM = os.path.abspath(os.environ.get("QMDB", os.path.join(HERE, "..", "..", "crates", "qmdb", "out", "qmdb")))
ROOM = tempfile.mkdtemp(prefix="files", dir=os.environ.get("OUT", "/dev/shm"))


def anew(path, base=None):
    """An empty folder at a path, or a copy of another one."""
    shutil.rmtree(path, ignore_errors=True)
    if base: shutil.copytree(base, path)
    else: os.makedirs(path)


def content(store):
    return (store.start, store.head, tuple(store.items))
