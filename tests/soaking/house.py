"""The server as a process over its store: started, sampled, killed and started again; and the rows of its file."""

import os
import shutil
import socket
import sqlite3
import subprocess
import tempfile
import threading
import time

from bodies import KINDS, Item

PATIENCE = 20  # seconds for a start, and for a reply
SAMPLE = 0.05  # seconds between two looks at the memory


class Wrong(Exception):
    """What must not be."""


def free_port():
    with socket.socket() as probe:
        probe.bind(("127.0.0.1", 0))
        return probe.getsockname()[1]


class House:
    """A server over one store, which is started again and again at one port."""

    def __init__(self, program, folder, capacity, segments, workers):
        self.program = program
        self.store = os.path.join(folder, "posts.db")
        self.capacity, self.segments, self.workers = capacity, segments, workers
        self.port = free_port()
        self.process = None
        self.killed_at = None
        self.samples = []  # of the last life: when, and the resident memory in kB
        self.most_memory = 0
        self.slowest_start = 0
        self.starts = 0

    def start(self):
        words = [self.program, "serve", "--port", str(self.port), "--store", self.store]
        words += ["--workers", str(self.workers), "--capacity", str(self.capacity), "--segments", str(self.segments)]
        begun = time.monotonic()
        self.process = subprocess.Popen(words, stdout=subprocess.PIPE, stderr=subprocess.PIPE)
        watch = threading.Timer(PATIENCE, self.process.kill)
        watch.start()
        line = self.process.stdout.readline()
        watch.cancel()
        if line != b"ready %d\n" % self.port:
            out, err = self.process.communicate()
            raise Wrong(f"start {self.starts}: {line + out!r}, status {self.process.returncode}, {err!r}")
        self.slowest_start = max(self.slowest_start, time.monotonic() - begun)
        self.starts += 1
        self.killed_at = None
        self.samples = []
        threading.Thread(target=self.sample, args=(self.process,), daemon=True).start()

    def sample(self, process):
        while process.returncode is None:
            memory = resident(process.pid)
            if memory is None:
                return
            self.samples.append((time.monotonic(), memory))
            self.most_memory = max(self.most_memory, memory)
            time.sleep(SAMPLE)

    def check_alive(self):
        """It hasn't ended by itself."""
        if self.process.poll() is not None:
            out, err = self.process.communicate()
            raise Wrong(f"the server ended by itself: status {self.process.returncode}, {out!r}, {err!r}")

    def kill(self):
        """Ends it at once, by its own number, and makes sure that it hadn't ended before."""
        self.check_alive()
        self.killed_at = time.monotonic()
        self.process.kill()
        out, err = self.process.communicate()
        if (out, err) != (b"", b""):
            raise Wrong(f"the server wrote {out!r} and {err!r}")

    def stop(self):
        """Whatever it does."""
        if self.process and self.process.poll() is None:
            self.process.kill()
            self.process.communicate()

    def connect(self, small=False):
        connection = socket.socket()
        if small:
            connection.setsockopt(socket.SOL_SOCKET, socket.SO_RCVBUF, 4096)
        connection.settimeout(PATIENCE)
        connection.setsockopt(socket.IPPROTO_TCP, socket.TCP_NODELAY, 1)
        try:
            connection.connect(("127.0.0.1", self.port))
        except OSError:
            connection.close()
            raise
        return connection

    def rows(self):
        """The first place that the file holds and the interactions from there on, read from a copy of it and its log."""
        with tempfile.TemporaryDirectory() as folder:
            copy = os.path.join(folder, "copy.db")
            for end in ("", "-wal"):
                if os.path.exists(self.store + end):
                    shutil.copyfile(self.store + end, copy + end)
            connection = sqlite3.connect(copy)
            try:
                sound = connection.execute("PRAGMA integrity_check").fetchall()
                conf = connection.execute("SELECT version, capacity, segments FROM conf").fetchall()
                rows = connection.execute("SELECT place, usr, post, kind, moment FROM kept2 ORDER BY place").fetchall()
            finally:
                connection.close()
        if sound != [("ok",)] or conf != [(2, self.capacity, self.segments)]:
            raise Wrong(f"the file: {sound}, it keeps {conf}")
        first = rows[0][0] if rows else 0
        if [row[0] for row in rows] != list(range(first, first + len(rows))) or first % self.capacity:
            raise Wrong(f"the places of the rows from {first} on")
        return first, [Item(user, post, KINDS[kind], at) for _, user, post, kind, at in rows]


def resident(pid):
    """VmRSS in kB, or None where the process has ended."""
    try:
        with open(f"/proc/{pid}/status") as file:
            for line in file:
                if line.startswith("VmRSS:"):
                    return int(line.split()[1])
    except OSError:
        pass
    return None
