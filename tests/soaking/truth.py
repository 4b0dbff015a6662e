"""What is known of the history, and whether each reply agrees with it.

Each batch that is sent has a number of its own as the moment of its first interaction. So the rows of the file tell which
batches are in the history, and where; then each reply must be the model's, byte for byte, over the beginning of the history
that it names.
"""

import json
from collections import Counter

from answers import History
from bodies import Refusal, read_body
from house import Wrong
from model import ROUTES, STATUS_OF_REFUSED, reply_to, response, route_of
from talk import cut, reply_end

FIRST_NUMBER = 1_000_000  # of a batch; all other moments are smaller

FIXED = {
    b'{"error":"memory"}': "memory",
    b'{"error":"memory","accepted":false}': "not accepted",
    b'{"error":"memory","accepted":true}': "accepted",
    b'{"error":"no_look"}': "no_look",
    b'{"error":"store"}': "store",
}


def batch_in(message):
    """The interactions that the message posts, or None."""
    found = route_of(message.path, ROUTES)
    if not found or found[0] != "interactions" or message.method != "POST":
        return None
    try:
        return read_body("interactions", message.body).items
    except Refusal:
        return None


class Beginning(History):
    """The first so many interactions of the history."""

    def __init__(self, truth, length):
        self.capacity, self.segments = truth.capacity, truth.segments
        self.truth, self.until = truth, length

    @property
    def items(self):
        return self.truth.items[: self.until]

    def length(self):
        return self.until

    def base(self):
        newest = max(0, self.until - 1) // self.capacity
        return self.capacity * max(0, newest - self.segments + 1)

    def window(self):
        return self.truth.items[self.base() : self.until]


class Truth:
    def __init__(self, capacity, segments):
        self.capacity, self.segments = capacity, segments
        self.items = []
        self.latest = []  # by place: when the latest batch up to it began to be sent
        self.counts = Counter()

    def learn(self, house, talks):
        """Takes in the rows of the file, and checks each talk since the last time by them."""
        sent = {}
        for talk in talks:
            talk.messages, talk.refusal = cut(bytes(talk.sent))
            talk.batches = {}
            for i, (at, message) in enumerate(talk.messages):
                if items := batch_in(message):
                    talk.batches[i] = items[0].at
                    sent[items[0].at] = (items, talk.begun_at(at))
        places = self.take_rows(*house.rows(), sent)
        for talk in talks:
            try:
                self.check(talk, places, house.killed_at)
            except Wrong as wrong:
                raise Wrong(f"{talk.way}: {wrong}; it sent {bytes(talk.sent)!r}, and read {bytes(talk.received)!r}") from None

    def take_rows(self, first, items, sent):
        """Where each batch stands that has entered since."""
        known = len(self.items)
        if first > known or first + len(items) < known:
            raise Wrong(f"the file has the places {first} to {first + len(items)}, and {known} were there before")
        if items[: known - first] != self.items[first:]:
            raise Wrong(f"rows before the place {known} are others now")
        new, places, at = items[known - first :], {}, 0
        while at < len(new):
            number = new[at].at
            if number not in sent or number in places:
                raise Wrong(f"at the place {known + at} stands {new[at]}, which was {'kept twice' if number in places else 'never sent'}")
            batch, begun = sent[number]
            if new[at : at + len(batch)] != batch:
                raise Wrong(f"at the place {known + at} the batch {number} isn't whole")
            places[number] = known + at
            latest = max(begun, self.latest[-1] if self.latest else 0)
            self.latest += [latest] * len(batch)
            at += len(batch)
        self.items += new
        self.counts["batches kept"] += len(places)
        return places

    def check(self, talk, places, killed_at):
        """The replies to a talk, one by one."""
        self.counts["connections"] += 1
        entered = [places.get(number) for number in talk.batches.values()]
        there = [place for place in entered if place is not None]
        if entered[: len(there)] != there or there != sorted(there):
            raise Wrong(f"its batches entered at the places {entered}")
        at = seen = answered = 0
        for i, (_, message) in enumerate(talk.messages):
            found = reply_end(talk.received, at)
            if found is None:
                break
            reply = bytes(talk.received[at : found[1]]), bytes(talk.received[found[0] : found[1]])
            seen = self.check_reply(message, reply, talk.batches.get(i), places, seen, talk.read_at(found[1]))
            at = found[1]
            answered += 1
        rest = bytes(talk.received[at:])
        if answered == len(talk.messages) and talk.refusal and rest:
            wanted = response(STATUS_OF_REFUSED[talk.refusal], {"error": talk.refusal}, True)
            if not wanted.startswith(rest):
                raise Wrong(f"the refusal of {talk.refusal} is {rest!r}")
            answered += rest == wanted
            self.counts["refusals of bytes"] += rest == wanted
            rest = b""
        if not b"HTTP/1.1 ".startswith(rest[:9]) or answered == len(talk.messages) and rest:
            raise Wrong(f"more was read: {rest!r}")
        whole = len(talk.messages) + (talk.refusal is not None)
        if talk.ended and not (killed_at and talk.ended >= killed_at) and answered < whole:
            raise Wrong(f"{answered} of {whole} replies came by the end")
        # Where the server closes first, what is sent still may reset the connection.
        closes = talk.refusal or talk.messages and talk.messages[-1][1].close
        if talk.broke and not closes and not (killed_at and talk.broke[0] >= killed_at):
            raise Wrong(f"{talk.broke[1]!r}")
        for number in list(talk.batches.values())[answered_batches(talk, answered) :]:
            self.counts["batches kept and not acknowledged"] += number in places

    def check_reply(self, message, reply, number, places, seen, read_at):
        """The length of the history that the reply shows to be seen."""
        whole, body = reply
        self.counts["replies"] += 1
        tree = json.loads(body)
        if whole.startswith(b"HTTP/1.1 503 "):
            return self.check_fixed(message, reply, number, places, seen)
        if number is None:
            length = tree.get("length", seen)
            if type(length) is int and length > len(self.items):
                raise Wrong(f"a reply names the length {length}, and {len(self.items)} are kept: {body!r}")
            status, wanted, allow = reply_to(Beginning(self, length), {}, message, ROUTES)
        else:
            if number not in places:
                raise Wrong(f"the batch {number} was answered {body!r}, and isn't kept")
            self.counts["batches acknowledged"] += 1
            size = len(batch_in(message))
            if places[number] < seen:
                raise Wrong(f"{body!r} comes after the length {seen} was named")
            length = places[number] + size
            status, wanted, allow = 200, {"from": places[number], "length": length}, None
        if whole != response(status, wanted, message.close, allow):
            raise Wrong(f"a reply is {whole!r}, and not {status} {wanted}")
        if length < seen:
            raise Wrong(f"the length {length} comes after {seen}")
        if length and self.latest[length - 1] > read_at:
            raise Wrong(f"a reply is over {length} interactions, and not all were sent yet")
        return length

    def check_fixed(self, message, reply, number, places, seen):
        """A reply that no memory was found, that no look was granted, or that the store failed."""
        whole, body = reply
        word = FIXED.get(body)
        self.counts[f"fixed replies: {word}"] += 1
        to_a_post = word in ("not accepted", "accepted", "store")
        if word is None or to_a_post and number is None and word != "not accepted":
            raise Wrong(f"a reply is {whole!r}")
        if number is not None and (number in places) != (word == "accepted"):
            raise Wrong(f"the batch {number} was answered {body!r}, and is {'' if number in places else 'not '}kept")
        return seen


def answered_batches(talk, answered):
    """How many of the talk's batches are among its first so many messages."""
    return sum(i < answered for i in talk.batches)
