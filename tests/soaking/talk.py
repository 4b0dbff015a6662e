"""One connection of a client: what it sent and when, and what it read and when."""

import socket
import struct
import time

from heads import NeedMore, Refused, take_message


def cut(sent):
    """The messages that a server takes from the bytes, each with the place where it begins, and the refusal at their end."""
    messages, at = [], 0
    while True:
        try:
            message, rest = take_message(sent[at:])
        except NeedMore:
            return messages, None
        except Refused as refused:
            return messages, refused.args[0]
        messages.append((at, message))
        at = len(sent) - len(rest)
        if message.close:
            return messages, None


def reply_end(received, at):
    """Where the body of the reply at this place begins and ends, or None where it isn't whole."""
    head = received.find(b"\r\n\r\n", at)
    if head < 0:
        return None
    for line in bytes(received[at:head]).split(b"\r\n"):
        if line.startswith(b"Content-Length: "):
            end = head + 4 + int(line[16:])
            return (head + 4, end) if end <= len(received) else None
    raise ValueError(f"a reply without a length: {bytes(received[at:head])!r}")


class Talk:
    """A connection. An error of it is kept, with the moment."""

    def __init__(self, house, way, small=False):
        self.way = way
        self.sent, self.received = bytearray(), bytearray()
        self.marks, self.stamps = [], []
        self.ended = self.broke = None
        self.replies = self.read_to = 0
        self.connection = house.connect(small)

    def send(self, piece):
        """What is counted as sent may have been cut by an error."""
        self.marks.append((len(self.sent), time.monotonic()))
        self.sent += piece
        self.connection.sendall(piece)

    def drip(self, piece, pause):
        for byte in piece:
            self.send(bytes([byte]))
            time.sleep(pause)

    def read_some(self):
        piece = self.connection.recv(65536)
        self.received += piece
        self.stamps.append((len(self.received), time.monotonic()))
        if not piece:
            self.ended = time.monotonic()
        return bool(piece)

    def read_replies(self, count):
        """Reads until so many replies are there in all, or the end. Whether they are there."""
        while True:
            while (found := reply_end(self.received, self.read_to)) is not None:
                self.read_to = found[1]
                self.replies += 1
            if self.replies >= count:
                return True
            if not self.read_some():
                return False

    def finish(self):
        """Says that no more is sent, and reads to the end."""
        self.connection.shutdown(socket.SHUT_WR)
        while self.read_some():
            pass
        self.connection.close()

    def leave(self, reset=False):
        if reset:
            self.connection.setsockopt(socket.SOL_SOCKET, socket.SO_LINGER, struct.pack("ii", 1, 0))
        self.connection.close()

    def begun_at(self, place):
        """When the byte at this place began to be sent."""
        return max(when for at, when in self.marks if at <= place)

    def read_at(self, place):
        """When what ends at this place was read."""
        return next(when for at, when in self.stamps if at >= place)
