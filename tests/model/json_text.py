"""JSON (RFC 8259) from bytes to a tree, with the limits of the Rust crate serde_json.

An object is a dict, in which the last value of a name stays; an array is a list. A whole number
from 0 to 2^64 - 1 that is written in digits alone is an int, and every other number is a float,
also a negative one and `-0`.
"""

import re

DEEPEST = 127  # arrays and objects, one within the other

BLANK = re.compile(r"[ \t\n\r]*")
PLAIN = re.compile(r'[^"\\\x00-\x1f]*')
NUMBER = re.compile(r"-?(?:0|[1-9][0-9]*)(?:\.[0-9]+)?(?:[eE][+-]?[0-9]+)?")
HEX = re.compile(r"[0-9a-fA-F]{4}")
ESCAPES = {'"': '"', "\\": "\\", "/": "/", "b": "\b", "f": "\f", "n": "\n", "r": "\r", "t": "\t"}
LITERALS = {"true": True, "false": False, "null": None}


class NoReading(Exception):
    """The bytes are no JSON text."""


def tree_of(body):
    """The tree of the bytes; raises NoReading where they have none."""
    try:
        text = body.decode("utf-8")
    except UnicodeDecodeError:
        raise NoReading from None
    tree, at = read_value(text, 0, DEEPEST)
    if at != len(text):
        raise NoReading
    return tree


def skip_blanks(text, at):
    return BLANK.match(text, at).end()


def read_value(text, at, room):
    """The value at a place, and the place after it and its blanks."""
    at = skip_blanks(text, at)
    first = text[at : at + 1]
    if first == "{":
        tree, at = read_object(text, at + 1, room)
    elif first == "[":
        tree, at = read_array(text, at + 1, room)
    elif first == '"':
        tree, at = read_string(text, at + 1)
    else:
        tree, at = read_word(text, at)
    return tree, skip_blanks(text, at)


def read_object(text, at, room):
    if room == 0:
        raise NoReading
    members = {}
    at = skip_blanks(text, at)
    if text.startswith("}", at):
        return members, at + 1
    while True:
        at = skip_blanks(text, at)
        if not text.startswith('"', at):
            raise NoReading
        name, at = read_string(text, at + 1)
        at = skip_blanks(text, at)
        if not text.startswith(":", at):
            raise NoReading
        members[name], at = read_value(text, at + 1, room - 1)
        if text.startswith("}", at):
            return members, at + 1
        if not text.startswith(",", at):
            raise NoReading
        at += 1


def read_array(text, at, room):
    if room == 0:
        raise NoReading
    elements = []
    at = skip_blanks(text, at)
    if text.startswith("]", at):
        return elements, at + 1
    while True:
        element, at = read_value(text, at, room - 1)
        elements.append(element)
        if text.startswith("]", at):
            return elements, at + 1
        if not text.startswith(",", at):
            raise NoReading
        at += 1


def read_word(text, at):
    for name, tree in LITERALS.items():
        if text.startswith(name, at):
            return tree, at + len(name)
    found = NUMBER.match(text, at)
    if not found:
        raise NoReading
    return number_of(found.group()), found.end()


def number_of(numeral):
    if numeral.isdigit() and len(numeral) <= 20 and int(numeral) < 2**64:
        return int(numeral)
    nearest = float(numeral)
    if abs(nearest) == float("inf"):
        raise NoReading
    return nearest


def read_string(text, at):
    """The string whose opening quote stands before this place, without its escapes."""
    parts = []
    while True:
        plain = PLAIN.match(text, at)
        parts.append(plain.group())
        at = plain.end()
        if text.startswith('"', at):
            return "".join(parts), at + 1
        if not text.startswith("\\", at):
            raise NoReading  # a control character, or the end of the text
        part, at = read_escape(text, at + 1)
        parts.append(part)


def read_escape(text, at):
    """What stands for the escape whose backslash is before this place."""
    short = text[at : at + 1]
    if short in ESCAPES:
        return ESCAPES[short], at + 1
    unit, at = read_unit(text, at)
    if 0xDC00 <= unit < 0xE000:
        raise NoReading  # the second half of a pair, without the first
    if not 0xD800 <= unit < 0xDC00:
        return chr(unit), at
    if not text.startswith("\\", at):
        raise NoReading
    second, at = read_unit(text, at + 1)
    if not 0xDC00 <= second < 0xE000:
        raise NoReading
    return chr(0x10000 + (unit - 0xD800) * 0x400 + (second - 0xDC00)), at


def read_unit(text, at):
    """The number of `u` and four digits of base 16."""
    digits = HEX.match(text, at + 1)
    if not text.startswith("u", at) or not digits:
        raise NoReading
    return int(digits.group(), 16), digits.end()
