"""From a stream's bytes to messages (HTTP/1.1, RFC 9112, in this server's own profile)."""

import re
from typing import NamedTuple

HEAD_ROOM = 8192
MOST_FIELDS = 64
LONGEST_BODY = 1048576

EMPTY_LINES = re.compile(rb"(?:\r?\n)*")
HEAD_END = re.compile(rb"\n\r?\n")
TOKEN = rb"[!#$%&'*+\-.^_`|~0-9A-Za-z]+"
REQUEST_LINE = re.compile(rb"(%s) ([\x21-\x7e\x80-\xff]+) HTTP/1\.([01])\r?\n" % TOKEN)
FIELD_LINE = re.compile(rb"(%s):([\t\x20-\x7e\x80-\xff]*)\r?\n" % TOKEN)
LAST_LINE = re.compile(rb"\r?\n")
DIGITS = re.compile(rb"[0-9]+")


class Message(NamedTuple):
    method: str  # GET, POST, or any other
    path: str
    body: bytes
    close: bool  # whether the connection closes after the reply


class Refused(Exception):
    """No message can be cut: `head`, `head_long`, `coded`, `length` or `body_long`."""


class NeedMore(Exception):
    """Neither a whole message nor a refusal is there yet."""


def is_between_messages(rest):
    """Whether the bytes are empty lines only."""
    return EMPTY_LINES.fullmatch(rest) is not None


def take_message(rest):
    """The message at the front of the bytes, and what follows it."""
    start = EMPTY_LINES.match(rest).end()
    found = HEAD_END.search(rest, start, HEAD_ROOM)
    if not found:
        raise Refused("head_long") if len(rest) >= HEAD_ROOM else NeedMore
    end = found.end()
    method, target, minor, fields = read_head(rest[start:end])
    length = body_length(fields)
    if len(rest) < end + length:
        raise NeedMore
    close = asks_for_close(method, minor, fields)
    path = target.partition("?")[0]
    return Message(method, path, rest[end : end + length], close), rest[end + length :]


def read_head(head):
    """The method, the target, the minor version and the fields of a whole head."""
    line = REQUEST_LINE.match(head)
    if not line:
        raise Refused("head")
    try:
        target = line[2].decode("utf-8")
    except UnicodeDecodeError:
        raise Refused("head") from None
    fields, at = [], line.end()
    while field := FIELD_LINE.match(head, at):
        fields.append((field[1].lower(), field[2].strip(b" \t")))
        at = field.end()
    if not LAST_LINE.fullmatch(head, at) or len(fields) > MOST_FIELDS:
        raise Refused("head")
    return line[1].decode("ascii"), target, int(line[3]), fields


def values_of(name, fields):
    return [value for field, value in fields if field == name]


def body_length(fields):
    if values_of(b"transfer-encoding", fields):
        raise Refused("coded")
    lengths = values_of(b"content-length", fields)
    if not lengths:
        return 0
    if len(lengths) > 1 or not DIGITS.fullmatch(lengths[0]):
        raise Refused("length")
    digits = lengths[0].lstrip(b"0") or b"0"
    if len(digits) > 7 or int(digits) > LONGEST_BODY:
        raise Refused("body_long")
    return int(digits)


def asks_for_close(method, minor, fields):
    lists = values_of(b"connection", fields)
    options = [option.strip(b" \t").lower() for one in lists for option in one.split(b",")]
    if b"close" in options or method == "HEAD":
        return True
    return minor == 0 and b"keep-alive" not in options
