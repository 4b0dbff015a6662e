"""Random lines of pages, run through the program's follower and through the model's, and compared.

    python3 tests/model/follow_sessions.py --program crates/graphjet/out/graphjet --count 1000 --seed 1

Each number fixes a history, its pages, and what became of them on the way: lost, doubled, shuffled, cut or spoilt.
"""

import json
import random
import subprocess
import sys

from agreement import compare
from bodies import KINDS
from following import LONGEST_LINE, follow
from streams import BODY_LETTERS, ODD_VALUES, an_id, a_moment, mutated, text_of

LONGEST_RUN = 120  # seconds
LINES = {0: b"", 6: b"truncated input\n", 9: b"stopped early\n"}


def some_items(rng, count):
    return [
        {"user": an_id(rng), "post": an_id(rng), "kind": rng.choice(KINDS), "at": a_moment(rng)}
        for _ in range(count)
    ]


def some_pages(rng, start):
    """Pages of one history from the place on, in their order, some over others."""
    items, at, pages = some_items(rng, rng.choice([3, 20, 60, 60, 2500])), 0, []
    while at < len(items):
        size = rng.choice([0, 1, 5, 17, 1000])
        part = items[at : at + size]
        length = start + at + len(part) + rng.choice([0, 0, 3])
        pages.append({"length": length, "from": start + at, "items": part})
        at += max(0, len(part) - rng.choice([0, 0, 0, 1, 4])) or 1
    return pages


def spoilt(rng, page):
    """A page that is most often none."""
    page = json.loads(json.dumps(page))
    way = rng.randrange(7)
    if way == 0:
        return rng.choice(ODD_VALUES).encode()
    if way == 1:
        del page[rng.choice(list(page))]
    elif way == 2:
        page[rng.choice(["x", "base", "Length"])] = 0
    elif way == 3:
        page["length"] = page["from"] + len(page["items"]) - rng.choice([0, 1])
    elif way == 4 and page["items"]:
        item = rng.choice(page["items"])
        item[rng.choice(list(item))] = rng.choice([None, -1, 2**63, "like", 2**63 - 1, 1.5])
    elif way == 5:
        page[rng.choice(["length", "from"])] = rng.choice([-1, 0, 2**48, 2**48 + 1, None, "1"])
    else:
        return mutated(rng, text_of(rng, page).replace("\n", "").encode(), BODY_LETTERS).replace(b"\n", b"")
    return json.dumps(page).encode()


class Lines:
    """What a follower gets, by its number: its arguments and its input."""

    def __init__(self, number):
        rng = random.Random(number)
        self.number = number
        self.capacity, self.segments = rng.choice([16, 16, 17, 4096]), rng.choice([1, 2, 3, 64])
        self.start = self.capacity * rng.choice([0, 0, 0, 1, 5, (2**48 - 4000) // self.capacity])
        pages = some_pages(rng, self.start)
        if rng.random() < 0.7:
            pages = [page for page in pages if rng.random() < 0.9]
        if rng.random() < 0.7:
            pages += rng.sample(pages, rng.randint(0, len(pages)))
        if rng.random() < 0.5:
            rng.shuffle(pages)
        lines = []
        for page in pages:
            lines.append(spoilt(rng, page) if rng.random() < 0.1 else text_of(rng, page).replace("\n", "").encode())
        if rng.random() < 0.03:
            wide = LONGEST_LINE + rng.choice([-1, 0, 1, 5000])
            lines.insert(rng.randint(0, len(lines)), b"{}" + b" " * (wide - 2))
        if rng.random() < 0.1:
            lines.insert(rng.randint(0, len(lines)), rng.choice([b"", b" ", b"\r", b"\xff"]))
        self.input = b"".join(line + b"\n" for line in lines)
        if rng.random() < 0.15:
            self.input = self.input[: rng.randrange(len(self.input) + 1)]

    def difference(self, program):
        """What differs, or None."""
        options = ["--capacity", self.capacity, "--segments", self.segments, "--start", self.start]
        command = [str(program), "follow", *map(str, options)]
        ended = subprocess.run(command, input=self.input, capture_output=True, timeout=LONGEST_RUN)
        output, status = follow(self.input, self.capacity, self.segments, self.start)
        if (ended.stdout, ended.returncode, ended.stderr) == (output, status, LINES[status]):
            return None
        return f"{command[1:]}: program {ended.stdout[-200:]}, {ended.returncode}, {ended.stderr}; model {output[-200:]}, {status}"


if __name__ == "__main__":
    sys.exit(compare("random pages, by the program and the model", "follower", 1000, Lines))
