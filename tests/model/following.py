"""The follower, written a second time in plain Python: from lines of pages to what is said of each."""

from bodies import ITEM, Refusal, read_fields
from json_text import NoReading, tree_of

LONGEST_LINE = 1048576
LONGEST_PAGE = 1000
LAST_PLACE = 2**48


class NoPage(Exception):
    """A line that is no page."""


def number_of(tree):
    if type(tree) is not int or tree > LAST_PLACE:
        raise NoPage
    return tree


def page_of(line):
    """The place at which a page begins, and its items."""
    try:
        tree = tree_of(line)
    except NoReading:
        raise NoPage from None
    if type(tree) is not dict or tree.keys() != {"length", "from", "items"}:
        raise NoPage
    length, start, items = number_of(tree["length"]), number_of(tree["from"]), tree["items"]
    if type(items) is not list or len(items) > LONGEST_PAGE or start + len(items) > length:
        raise NoPage
    for item in items:
        if type(item) is not dict or item.keys() != {name for name, _, _ in ITEM}:
            raise NoPage
    try:
        return start, [read_fields(item, ITEM, "items") for item in items]
    except Refusal:
        raise NoPage from None


def base_of(start, length, capacity, segments):
    """The first place of the window, where the history begins at a place."""
    if length == start:
        return start
    return max(start, capacity * ((length - 1) // capacity - segments + 1))


def follow(lines, capacity, segments, start):
    """What is written, and the status."""
    length, output = start, b""
    *whole, rest = lines.split(b"\n")
    for line in whole:
        if len(line) > LONGEST_LINE:
            return output, 9
        try:
            first, items = page_of(line)
        except NoPage:
            output += b"bad\n"
            continue
        end = first + len(items)
        if first > length:
            output += b"ahead\n"
        elif end <= length:
            output += b"old\n"
        else:
            output += b"added %d\n" % (end - length)
            length = end
    if rest:
        return output, 9 if len(rest) > LONGEST_LINE else 6
    base = base_of(start, length, capacity, segments)
    return output + b"length %d base %d\n" % (length, base), 0
