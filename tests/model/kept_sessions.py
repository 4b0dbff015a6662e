"""Random sessions over windows that a store keeps, run through the program and through the model, and compared.

    python3 tests/model/kept_sessions.py --program crates/graphjet/out/graphjet --count 2000 --seed 1

Each number fixes a few streams, which run one after another over one store, mostly with the same capacity and segments.
The program's output, its status and its line on standard error must be the model's, byte for byte, and at the end the
rows of the file, read by Python's own sqlite3, must be the end of the model's history from a place that no window needs.
"""

import random
import sqlite3
import subprocess
import sys
import tempfile
from pathlib import Path

from agreement import compare
from bodies import KINDS
from model import OPTIONS, ROUTES, STORE, run
from streams import a_session

LONGEST_RUN = 120  # seconds


def some_options(rng):
    return ["--capacity", str(rng.choice([16, 16, 17, 32, 4096])), "--segments", str(rng.choice([1, 1, 2, 3, 64]))]


class KeptSession:
    """Streams over one store by their number: the options of each run, and its stream."""

    def __init__(self, number):
        rng = random.Random(number)
        self.number = number
        usual = some_options(rng)
        self.parts = [
            (usual if rng.random() < 0.9 else some_options(rng), a_session(rng, ROUTES))
            for _ in range(rng.randint(2, 4))
        ]

    def run_program(self, program, store):
        for options, stream in self.parts:
            command = [str(program), "replay", *options, STORE, str(store)]
            ended = subprocess.run(command, input=stream, capture_output=True, timeout=LONGEST_RUN)
            yield ended.stdout, ended.returncode, ended.stderr

    def run_model(self, store, histories):
        known = {**OPTIONS, STORE: None}
        for options, stream in self.parts:
            arguments = ["replay", *options, STORE, str(store)]
            yield run(arguments, stream, known, ROUTES, histories)

    def difference(self, program):
        """What differs, or None."""
        with tempfile.TemporaryDirectory() as folder:
            store, histories = Path(folder) / "store", {}
            runs = zip(self.run_program(program, store), self.run_model(store, histories))
            for at, (found, expected) in enumerate(runs):
                if found != expected:
                    return f"run {at}: program {found[1:]}, model {expected[1:]}, outputs of {len(found[0])} and {len(expected[0])} bytes"
            return differing_rows(store, histories[str(store)])


def differing_rows(store, history):
    """What differs between the rows of the file and the end of the history, or None."""
    with sqlite3.connect(store) as connection:
        rows = connection.execute("SELECT place, usr, post, kind, moment FROM kept2 ORDER BY place").fetchall()
        conf = connection.execute("SELECT version, capacity, segments FROM conf").fetchall()
    connection.close()
    if conf != [(2, history.capacity, history.segments)]:
        return f"the file keeps {conf}"
    first = rows[0][0] if rows else 0
    if first % history.capacity or first > history.base():
        return f"the rows begin at {first}, and the window at {history.base()}"
    kept = [
        (place, item.user, item.post, KINDS.index(item.kind), item.at)
        for place, item in enumerate(history.items[first:], first)
    ]
    return None if rows == kept else f"the file has other rows from {first} on"


if __name__ == "__main__":
    sys.exit(compare("random sessions over kept windows", "kept session", 2000, KeptSession))
