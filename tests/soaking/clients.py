"""The ways of clients: polite ones, and those that send in pieces, break off, leave or don't read."""

import json
import threading
import time

import streams
from model import ROUTES
from talk import Talk, cut
from truth import FIRST_NUMBER, batch_in

QUERIES = [route for route in ROUTES if route != "interactions"]
LONGEST_BATCH = 60
LONG_BODY = 1_048_577


class Budget:
    """How many interactions may still be sent in a round, so that the file holds all of them at its end; and the numbers of
    batches."""

    def __init__(self):
        self.lock = threading.Lock()
        self.left = 0
        self.number = FIRST_NUMBER

    def take(self, most):
        """A number, and how many interactions its batch may have, at most so many."""
        with self.lock:
            count = min(most, self.left)
            self.left -= count
            self.number += 1
            return self.number, count


class Client:
    """A client, with its own random choices."""

    WAYS = {
        "talks": 6,
        "sends all at once": 4,
        "drips": 2,
        "breaks off": 4,
        "leaves without reading": 4,
        "doesn't read": 1,
        "sends broken bytes": 4,
        "sends too long a body": 1,
        "knocks": 1,
        "posts much": 1,
    }

    def __init__(self, house, budget, rng):
        self.house, self.budget, self.rng = house, budget, rng
        self.met = []  # the talks of this round
        self.wrong = None

    def run(self, stop, pace):
        try:
            self.play(stop, pace)
        except Exception as error:
            self.wrong = error

    def play(self, stop, pace):
        """Talks until it is told to stop. An error of the connection is kept with the talk."""
        ways = [name for name, weight in self.WAYS.items() for _ in range(weight)]
        while not stop.is_set():
            way = self.rng.choice(ways)
            try:
                talk = Talk(self.house, way, small=way == "doesn't read")
            except OSError:
                time.sleep(0.01)  # the server was killed, or many connect
                continue
            self.met.append(talk)
            try:
                getattr(self, way.replace(" ", "_").replace("'", ""))(talk)
            except OSError as error:
                talk.broke = (time.monotonic(), error)
                talk.connection.close()
            time.sleep(self.rng.random() * pace)

    def a_post(self, most=LONGEST_BATCH):
        """A message that posts a batch, or asks something where no more may be posted."""
        number, count = self.budget.take(self.rng.randint(1, most))
        if count == 0:
            return self.a_query()
        tree = streams.a_batch(self.rng, count)
        for item in tree["items"]:
            if item.get("at", 0) >= FIRST_NUMBER:
                item["at"] = 5
        tree["items"][0]["at"] = number
        return streams.a_message(self.rng, "POST", b"/interactions", streams.text_of(self.rng, tree).encode())

    def a_query(self):
        while True:
            message = streams.a_good_message(self.rng, QUERIES)
            if b"/interactions" not in message:
                return message

    def a_refused(self):
        while True:
            message = streams.a_refused_message(self.rng, ROUTES)
            if not any(batch_in(found) for _, found in cut(message)[0]):
                return message

    def a_message(self):
        return self.rng.choice([self.a_post, self.a_post, self.a_query, self.a_query, self.a_refused])()

    def some(self, most):
        return [self.a_message() for _ in range(self.rng.randint(1, most))]

    # The ways.

    def talks(self, talk):
        for i, message in enumerate(self.some(8)):
            talk.send(message)
            if not talk.read_replies(i + 1):
                break
        if self.rng.random() < 0.7:
            talk.finish()
        else:
            talk.leave()

    def sends_all_at_once(self, talk):
        talk.send(b"".join(self.some(12)))
        talk.finish()

    def drips(self, talk):
        message = self.rng.choice([self.a_query, lambda: self.a_post(1)])()
        talk.drip(message[:400], 0.0005)
        talk.send(message[400:])
        talk.finish()

    def breaks_off(self, talk):
        message = self.a_post()
        begun = self.some(3) if self.rng.random() < 0.5 else []
        talk.send(b"".join(begun) + message[: self.rng.randrange(len(message))])
        if begun and self.rng.random() < 0.5:
            talk.read_some()
        talk.leave(self.rng.random() < 0.5)

    def leaves_without_reading(self, talk):
        talk.send(b"".join(self.some(6)))
        if self.rng.random() < 0.5:
            time.sleep(self.rng.random() * 0.02)
        talk.leave(self.rng.random() < 0.5)

    def doesnt_read(self, talk):
        """The replies are more than the system holds for it, so that a worker waits until it leaves."""
        body = json.dumps({"seeds": list(range(1, 13)), "steps": 2000, "top": 100, "proof": 10}).encode()
        talk.send(streams.a_message(self.rng, "POST", b"/walk", body) * self.rng.choice([5, 50, 400]))
        time.sleep(self.rng.random() * 0.5)
        if self.rng.random() < 0.3:
            talk.read_some()
        talk.leave(self.rng.random() < 0.5)

    def sends_broken_bytes(self, talk):
        parts = [self.a_message() for _ in range(self.rng.choice([0, 0, 1, 2]))]
        talk.send(b"".join(parts) + self.rng.choice(streams.LAST_MESSAGES)(self.rng))
        talk.finish()

    def sends_too_long_a_body(self, talk):
        length = LONG_BODY + self.rng.choice([0, 0, 500_000, 3_000_000])
        talk.send(b"POST /interactions HTTP/1.1\r\nContent-Length: %d\r\n\r\n" % length + b"x" * min(length, 2_000_000))
        talk.finish()

    def knocks(self, talk):
        talk.leave(self.rng.random() < 0.5)

    def posts_much(self, talk):
        talk.send(self.a_post(1000))
        talk.read_replies(1)
        talk.finish()
