#!/usr/bin/env python3
"""Posts JSON lines from standard input, an interaction each, as kcat or a log shipper writes them:

    kcat -C -b BROKER -t interactions -o beginning -u | examples/feed.py 5 feed.json [http://127.0.0.1:8017]

    {"user": 1, "post": 10, "kind": "click", "at": 1700000000}

5 is a producer's number, which no other process uses. The file tells how many lines are in: started again over the same
input, feed.py passes these over. A batch whose reply was lost is looked for in the history, and is posted again under its
number where it isn't there: so each line acts once, over restarts of feed.py and of a server with a store.
"""

import json
import os
import sys
import time

sys.path.insert(0, os.path.join(os.path.dirname(os.path.abspath(__file__)), "..", "clients", "python"))
try:
    import graphjet as gj
except ImportError as error:
    sys.exit("feed.py: %s" % error)

LARGEST, PATIENCE = 1000, 60  # lines of a batch, and seconds for a server that is away
PASSING = (gj.NoServer, gj.ReplyLost, gj.StoreFailed, gj.NoMemory, gj.NotAccepted, gj.NoLook)


def batches(passed, size):
    """Lists of lines as they come, after those that are passed over. The first has the size that it had before, if any."""
    lines, held, piece = [], b"", b"."
    while piece:
        piece = os.read(0, 65536)
        *whole, held = (held + (piece or b"\n" * bool(held))).split(b"\n")
        lines += whole[passed:]
        passed -= min(passed, len(whole))
        while lines and len(lines) >= size:
            batch, lines, size = lines[: size or LARGEST], lines[size or LARGEST :], 0
            yield batch
    if passed or size:
        raise ValueError("the input has fewer lines than were posted before")


class Feed:
    def __init__(self, producer, path, url="http://127.0.0.1:8017"):
        self.client, self.path = gj.Client(url, connections=1), path
        self.state = {"lines": 0, "length": self.client.stats()["length"], "doubt": 0, "number": None}
        if os.path.exists(path):
            with open(path) as file:
                self.state.update(json.load(file))
        self.begin = lambda number=None: gj.Producer(self.client, int(producer), number, patience=0)
        self.producer = self.begin(self.state["number"] if self.state["doubt"] else None)

    def save(self, **changed):
        self.state.update(changed)
        with open(self.path + ".new", "w") as file:
            json.dump(self.state, file)
        os.replace(self.path + ".new", self.path)

    def found(self, batch):
        """What the reply to the batch would have told, where it stands after what is known to be in; else None."""
        place, items = self.state["length"], []
        try:
            for more in iter(lambda: self.client.log(place + len(items))["items"], []):
                items += more
        except gj.Ahead:
            return None
        ends = [end for end in range(len(batch), len(items) + 1) if items[end - len(batch) : end] == batch]
        return {"length": place + ends[0]} if ends else None

    def post(self, batch):
        """Posts the batch; where an earlier try may have brought it in, it is looked for first."""
        end, told = time.monotonic() + PATIENCE, None
        while told is None:
            try:
                told = self.found(batch) if self.state["doubt"] else None
                if told is None:
                    self.save(number=self.producer.next_number(), doubt=len(batch))
                    told = self.producer.post(batch)
                else:
                    self.producer = self.begin()
            except gj.Skipped:
                self.producer = self.begin()  # the server was started anew, and forgot the numbers
            except PASSING:
                if time.monotonic() > end:
                    raise
                time.sleep(0.2)
        self.save(lines=self.state["lines"] + len(batch), length=told.get("length", self.state["length"]), doubt=0)


if len(sys.argv) not in (3, 4):
    sys.exit("usage: feed.py PRODUCER STATE [URL] < LINES")
feed = None
try:
    feed = Feed(*sys.argv[1:])
    for lines in batches(feed.state["lines"], feed.state["doubt"]):
        feed.post([{"at": 0, **json.loads(line)} for line in lines])
    print("%d lines are in" % feed.state["lines"])
except (gj.Error, OSError, TypeError, ValueError) as error:
    sys.exit("feed.py: %s%s" % ("after line %d: " % feed.state["lines"] if feed else "", error))
