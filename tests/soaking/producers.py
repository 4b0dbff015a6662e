"""Producers that number their batches over connections that break, and repeat each until it is acknowledged."""

import json
import random
import threading
import time
from collections import Counter

from bodies import KINDS, Item
from house import Wrong
from talk import Talk, reply_end

PRODUCERS = [1, 2, 3, 512, 1000, 1022, 1023, 1024]
MOST_ITEMS = 120_000  # of all batches together, so that the window still holds the first
LONGEST_BATCH = 40


def request(method, path, body=b""):
    return b"%s %s HTTP/1.1\r\nContent-Length: %d\r\n\r\n%s" % (method, path, len(body), body)


def a_batch(producer, number, rng):
    """Its interactions say whose they are, which batch it is and where in it they stand."""
    count = rng.randint(1, LONGEST_BATCH)
    return [Item(producer, number, rng.choice(KINDS), i) for i in range(count)]


def post(producer, number, items):
    tree = {"items": [item._asdict() for item in items], "producer": producer, "number": number}
    return request(b"POST", b"/interactions", json.dumps(tree, separators=(",", ":")).encode())


class Producer:
    """One producer. Its last batch alone may be on its way."""

    WAYS = {"ask": 6, "ask_twice": 1, "drip": 1, "cut": 4, "drop": 4, "read_a_part": 2}

    def __init__(self, house, producer, rng, counts):
        self.house, self.producer, self.rng, self.counts = house, producer, rng, counts
        self.batches = []  # those that were acknowledged: their interactions and where they begin
        self.talk = None
        self.wrong = None

    def run(self, stop):
        try:
            while not stop.is_set():
                self.deliver(a_batch(self.producer, len(self.batches) + 1, self.rng))
                if self.rng.random() < 0.2:
                    self.ask_again()
        except Exception as error:
            self.wrong = error

    def deliver(self, items):
        """Sends the batch until it is acknowledged."""
        number, may_be_there = len(self.batches) + 1, False
        message = post(self.producer, number, items)
        ways = [way for way, weight in self.WAYS.items() for _ in range(weight)]
        while True:
            self.counts["sent"] += 1
            way = self.rng.choice(ways)
            try:
                replies = getattr(self, way)(message)
            except OSError as error:
                raise Wrong(f"{way}: {error!r}") from error
            if replies:
                break
            may_be_there = may_be_there or way != "cut"
        for status, tree in replies:
            repeated = tree.pop("repeated", False)
            start = self.batches[-1][1] if len(self.batches) == number else tree.get("from")
            if (status, tree) != (200, {"from": start, "length": start + len(items)}) or repeated not in (False, True):
                raise Wrong(f"batch {number} of producer {self.producer} was answered {status} {tree}")
            if repeated and not may_be_there:
                raise Wrong(f"batch {number} of producer {self.producer} was repeated, and not sent before")
            if not repeated and len(self.batches) == number:
                raise Wrong(f"batch {number} of producer {self.producer} acted twice")
            if len(self.batches) < number:
                self.batches.append((items, start))
                self.counts["acknowledged as repeated" if repeated else "acknowledged at once"] += 1
            may_be_there = True

    def ask_again(self):
        """The last number, an earlier one, or one too many: nothing enters by it."""
        last = len(self.batches)
        number = self.rng.choice([last, self.rng.randint(1, last), last + 2, 2**48])
        items, start = self.batches[number - 1] if number <= last else ([Item(0, 0, "click", 0)], None)
        if number == last:
            wanted = (200, {"from": start, "length": start + len(items), "repeated": True})
        else:
            wanted = (409, {"error": "old" if number < last else "skipped", "last": last})
        (found,) = self.ask(post(self.producer, number, items))
        if found != wanted:
            raise Wrong(f"number {number} after {last} of producer {self.producer} was answered {found}, and not {wanted}")
        self.counts[f"asked again: {wanted[1].get('error', 'repeated')}"] += 1

    # The ways of sending; each gives the replies that were read.

    def at(self):
        """A connection that is open."""
        if self.talk is None:
            self.talk = Talk(self.house, "produces")
        return self.talk

    def over(self, reset=None):
        talk, self.talk = self.talk, None
        talk.leave(self.rng.random() < 0.5 if reset is None else reset)
        self.counts["connections that broke"] += 1
        return []

    def answers(self, count):
        """Reads as many replies."""
        talk, found, at = self.talk, [], self.talk.read_to
        if not talk.read_replies(talk.replies + count):
            raise Wrong("the connection ended")
        for _ in range(count):
            begin, end = reply_end(talk.received, at)
            found.append((int(talk.received[at + 9 : at + 12]), json.loads(talk.received[begin:end])))
            at = end
        if self.rng.random() < 0.2:
            talk.finish()
            self.talk = None
        return found

    def ask(self, message):
        self.at().send(message)
        return self.answers(1)

    def ask_twice(self, message):
        self.at().send(message * 2)
        return self.answers(2)

    def drip(self, message):
        self.at().drip(message[:150], 0.0005)
        self.talk.send(message[150:])
        return self.answers(1)

    def cut(self, message):
        self.at().send(message[: self.rng.randrange(len(message))])
        return self.over()

    def drop(self, message):
        self.at().send(message)
        if self.rng.random() < 0.5:
            time.sleep(self.rng.random() * 0.01)
        return self.over()

    def read_a_part(self, message):
        self.at().send(message)
        self.talk.connection.recv(self.rng.randint(1, 60))
        return self.over()


class Follower:
    """Reads the pages of the history from its first place on."""

    def __init__(self, house):
        self.house = house
        self.items = []
        self.pages = 0
        self.wrong = None

    def run(self, stop):
        try:
            talk = Talk(self.house, "follows")
            while not stop.is_set():
                if not self.take_page(talk):
                    time.sleep(0.01)
            while self.take_page(talk):
                pass
            talk.finish()
        except Exception as error:
            self.wrong = error

    def take_page(self, talk):
        """Whether the page from the next place on had something."""
        talk.send(request(b"GET", b"/log/%d" % len(self.items)))
        at = talk.read_to
        if not talk.read_replies(talk.replies + 1):
            raise Wrong("the connection ended")
        begin, end = reply_end(talk.received, at)
        status, page = int(talk.received[at + 9 : at + 12]), json.loads(talk.received[begin:end])
        items = [Item(**item) for item in page.get("items", [])]
        due = min(1000, page.get("length", 0) - len(self.items))
        if status != 200 or page.get("from") != len(self.items) or len(items) != due:
            raise Wrong(f"the page from {len(self.items)} on is {status} {str(page)[:200]}")
        self.items += items
        self.pages += 1
        return bool(items)


class Numbering:
    def __init__(self, settings, house):
        self.settings, self.house = settings, house
        self.counts = Counter()
        self.producers = [
            Producer(house, producer, random.Random(f"{settings.seed} {producer}"), self.counts) for producer in PRODUCERS
        ]
        self.follower = Follower(house)

    def run(self):
        self.house.start()
        stop = threading.Event()
        threads = [threading.Thread(target=each.run, args=(stop,)) for each in self.producers]
        for each in threads:
            each.start()
        # It follows while they produce, where a worker is left for it, and to the end after them.
        ended = threading.Event()
        follows = threading.Thread(target=self.follower.run, args=(ended,))
        follows.start()
        until = time.monotonic() + self.settings.seconds
        while time.monotonic() < until and len(self.follower.items) < MOST_ITEMS * 3 // 4:
            time.sleep(0.05)
            self.house.check_alive()
        stop.set()
        for each in threads:
            each.join()
        ended.set()
        follows.join()
        for each in [*self.producers, self.follower]:
            if each.wrong:
                raise Wrong(f"{each.wrong}") from each.wrong
        self.check()
        self.house.kill()

    def check(self):
        """Each batch stands in the history once, in order, where its acknowledgment says."""
        history = self.follower.items
        for each in self.producers:
            items = [item for batch, _ in each.batches for item in batch]
            if [item for item in history if item.user == each.producer] != items:
                raise Wrong(f"the interactions of producer {each.producer} in the history are others than those that it sent")
            for batch, start in each.batches:
                if history[start : start + len(batch)] != batch:
                    raise Wrong(f"a batch of producer {each.producer} doesn't stand at {start}")
        if len(history) != sum(len(batch) for each in self.producers for batch, _ in each.batches):
            raise Wrong(f"the history has {len(history)} interactions")
        if self.house.rows() != (0, history):
            raise Wrong("the file has other rows than the pages")

    def tell(self):
        for what, count in sorted(self.counts.items()):
            print(f"{what}: {count}")
        print(f"batches of each producer: {[len(each.batches) for each in self.producers]}")
        print(f"interactions: {len(self.follower.items)}, in {self.follower.pages} pages")
        print(f"memory: {self.house.most_memory} kB at most")
