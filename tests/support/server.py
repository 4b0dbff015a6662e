"""The built program as a server on a free port of 127.0.0.1, for the scripts of tests/ that need one. They run after
`rt ci`, which leaves the program; GRAPHJET names another one."""

import atexit
import os
import socket
import subprocess
import sys
import threading

TOP = os.path.dirname(os.path.dirname(os.path.dirname(os.path.abspath(__file__))))
PROGRAM = os.environ.get("GRAPHJET") or os.path.join(TOP, "crates", "graphjet", "out", "graphjet")

# No wait is longer than this, in seconds.
PATIENCE = 20

RUNNING = []


def same(wanted, got, what):
    if wanted != got:
        raise AssertionError(f"{what}: wanted {wanted!r}, got {got!r}")


def free_port():
    with socket.socket() as probe:
        probe.bind(("127.0.0.1", 0))
        return probe.getsockname()[1]


class Server:
    """The program as it serves. It is killed where it hasn't ended by itself."""

    def __init__(self, *options, port=None):
        self.port = port or free_port()
        self.url = f"http://127.0.0.1:{self.port}"
        words = [PROGRAM, "serve", "--port", str(self.port), *options]
        self.process = subprocess.Popen(words, stdout=subprocess.PIPE, stderr=subprocess.PIPE)
        RUNNING.append(self.process)

    def __enter__(self):
        line = self.process.stdout.readline()
        if line != b"ready %d\n" % self.port:
            status = self.process.wait(PATIENCE)
            raise AssertionError(f"not ready: {line!r}, status {status}, {self.process.stderr.read()!r}")
        return self

    def __exit__(self, *_):
        self.kill()

    def kill(self):
        self.process.kill()
        self.process.communicate()

    def ends(self, line):
        """It ended by itself, with this last line."""
        out, err = self.process.communicate(timeout=PATIENCE)
        same((line, b"", 0), (out, err, self.process.returncode), "the end of serving")


def stop_all():
    """Ends the processes that still run."""
    for process in RUNNING:
        if process.poll() is None:
            process.terminate()
    for process in RUNNING:
        try:
            process.wait(PATIENCE)
        except subprocess.TimeoutExpired:
            process.kill()


def begin(script, seconds):
    """Says what is missing, and ends the script where it takes longer than this. At its end no process is left."""
    if sys.version_info < (3, 9):
        sys.exit(f"{script}: needs Python 3.9 or later")
    if not os.access(PROGRAM, os.X_OK):
        sys.exit(f"{script}: {PROGRAM} isn't built; run rt ci first")

    def end():
        print(f"{script}: not done after {seconds} seconds", file=sys.stderr, flush=True)
        stop_all()
        os._exit(1)

    atexit.register(stop_all)
    watch = threading.Timer(seconds, end)
    watch.daemon = True
    watch.start()
