#!/usr/bin/env python3
"""Runs a second server that follows a first one by its pages, so that reads scale over processes and machines:

    examples/replica.py http://127.0.0.1:8017 replica.db 8018 [--workers 8]

The second server listens at the port 8018, over the store replica.db, which is made of the first server's window where it
isn't there. Its places are those of the first server, so a length that one of them told is a `since` for the other. What
stands behind the port goes to `graphjet serve`. Nothing else may post to it. Where it has missed more than a window, the
store is made anew. The first server has to have a store too: where it begins from less than it had, its replica ends.
"""

import os
import signal
import sqlite3
import subprocess
import sys
import time

HERE = os.path.dirname(os.path.abspath(__file__))
sys.path.insert(0, os.path.join(HERE, "..", "clients", "python"))
try:
    import graphjet as gj
except ImportError as error:
    sys.exit("replica.py: %s" % error)

PROGRAM = os.environ.get("GRAPHJET") or os.path.join(HERE, "..", "graphjet")
KINDS = ["click", "favorite", "retweet", "reply", "tweet"]
PASSING = (gj.NoServer, gj.ReplyLost, gj.StoreFailed, gj.NoMemory, gj.NotAccepted, gj.Accepted, gj.NoLook)


def configuration(stats):
    return ["--capacity", str(stats["capacity"]), "--segments", str(stats["segments"])]


def copy_window(first, path):
    """Makes a store of all that the first server's window has. The program makes its tables."""
    new, stats = path + ".new", first.stats()
    for name in (new, new + "-wal", new + "-shm", path + "-wal", path + "-shm"):
        if os.path.exists(name):
            os.remove(name)
    words = [PROGRAM, "replay", "--store", new, *configuration(stats)]
    if subprocess.run(words, stdin=subprocess.DEVNULL).returncode:
        sys.exit("replica.py: the store %s was not made" % new)
    place, store = stats["base"], sqlite3.connect(new)
    while place < stats["length"]:
        page = first.log(place)
        rows = [(place + i, r["user"], r["post"], KINDS.index(r["kind"]), r["at"]) for i, r in enumerate(page["items"])]
        store.executemany("INSERT INTO kept2 (place, usr, post, kind, moment) VALUES (?, ?, ?, ?, ?)", rows)
        place += len(rows)
    store.commit()
    store.close()
    os.replace(new, path)


def follow(first, second, server):
    """Posts the first server's pages to the second one, until one that is due has left the window."""
    while server.poll() is None:
        try:
            length = second.stats()["length"]
            items = first.log(length)["items"]
            if items and second.post(items)["from"] != length:
                sys.exit("replica.py: something else posts to the replica")
            time.sleep(0 if items else 0.02)
        except gj.Gone:
            return
        except gj.Ahead:
            sys.exit("replica.py: the first server has lost interactions that its replica has")
        except PASSING:
            time.sleep(0.5)
    sys.exit(server.returncode)


def main(url, path, port, *options):
    first = gj.Client(url, connections=1)
    while True:
        if not os.path.exists(path):
            copy_window(first, path)
        words = [PROGRAM, "serve", "--store", path, "--port", port, *configuration(first.stats()), *options]
        server = subprocess.Popen(words, stdout=subprocess.PIPE)
        try:
            if not server.stdout.readline().startswith(b"ready"):
                sys.exit(server.wait())  # it has told why
            with gj.Client("http://127.0.0.1:" + port, connections=1) as second:
                follow(first, second, server)
        finally:
            server.terminate()
            server.wait()
        os.remove(path)


if len(sys.argv) < 4:
    sys.exit("usage: replica.py URL STORE PORT [options of graphjet serve]")
signal.signal(signal.SIGTERM, lambda *_: sys.exit(0))
try:
    main(*sys.argv[1:])
except (gj.Error, OSError, ValueError, sqlite3.Error) as error:
    sys.exit("replica.py: %s" % error)
