"""From a request's body, or the identifier in its path, to what it asks for."""

import re
from types import SimpleNamespace
from typing import NamedTuple

from json_text import NoReading, tree_of

MAX_ID = 9223372036854775807
KINDS = ("click", "favorite", "retweet", "reply", "tweet")


class Item(NamedTuple):
    """One interaction."""

    user: int
    post: int
    kind: str
    at: int  # when it happened, in whole seconds, as its poster tells


class Refusal(Exception):
    """What is wrong, `json`, `field` or `range`, and the name of the part that is."""


# The forms of a field's value: each function takes the name and the tree, and gives the value.


def number(least, most):
    def read(name, tree):
        if type(tree) is not int:
            raise Refusal("field", name)
        if not least <= tree <= most:
            raise Refusal("range", name)
        return tree

    return read


identifier = number(0, MAX_ID)
moment = number(0, MAX_ID)


def truth(name, tree):
    if type(tree) is not bool:
        raise Refusal("field", name)
    return tree


def kind(name, tree):
    if type(tree) is not str:
        raise Refusal("field", name)
    if tree not in KINDS:
        raise Refusal("range", name)
    return tree


def array(name, tree, most=None):
    """The array itself, where its length is from 1 to `most`."""
    if type(tree) is not list:
        raise Refusal("field", name)
    if not tree or (most and len(tree) > most):
        raise Refusal("range", name)
    return tree


def identifiers(name, tree):
    found, seen = [], set()
    for element in array(name, tree, 1000):
        id = identifier(name, element)
        if id in seen:
            raise Refusal("range", name)
        found.append(id)
        seen.add(id)
    return found


def kinds(name, tree):
    return {kind(name, element) for element in array(name, tree)}


def items(name, tree):
    return [Item(**read_fields(element, ITEM, name)) for element in array(name, tree, 4096)]


def weighted_seeds(name, tree):
    """The weights of the seed users, by their identifiers."""
    weights = {}
    for element in array(name, tree, 1000):
        seed = read_fields(element, WEIGHTED, name)
        if seed["user"] in weights:
            raise Refusal("range", name)
        weights[seed["user"]] = seed["weight"]
    return weights


def leasts(name, tree):
    """A number for each kind, and 0 where none is given."""
    if type(tree) is not dict:
        raise Refusal("field", name)
    if not tree.keys() <= set(KINDS):
        raise Refusal("field", "unknown")
    return {kind: number(0, 1000)(name, tree.get(kind, 0)) for kind in KINDS}


# The tables of fields, in the order in which they are read: name, form, default.

NEEDED = object()

ITEM = [
    ("user", identifier, NEEDED),
    ("post", identifier, NEEDED),
    ("kind", kind, NEEDED),
    ("at", moment, 0),
]

WEIGHTED = [("user", identifier, NEEDED), ("weight", number(1, 1000000), NEEDED)]

SEEDS = ("seeds", identifiers, NEEDED)
STEPS = ("steps", number(1, 100000), NEEDED)
SEED = ("seed", number(0, 2**64 - 1), 0)
MASK = ("kinds", kinds, set(KINDS))
TOP = ("top", number(1, 100), 10)
PROOF = ("proof", number(0, 10), 3)
SINCE = ("since", number(0, 2**48), 0)
NOT_BEFORE = ("not_before", moment, 0)

FIELDS = {
    "interactions": [
        ("items", items, NEEDED),
        ("producer", number(0, 1024), 0),
        ("number", number(0, 2**48), 0),
    ],
    "walk": [
        SEEDS,
        STEPS,
        SEED,
        MASK,
        ("reset", number(0, 10000), 0),
        TOP,
        PROOF,
        ("hide", truth, False),
        SINCE,
        NOT_BEFORE,
    ],
    "subgraph": [
        SEEDS,
        ("iterations", number(1, 20), NEEDED),
        MASK,
        TOP,
        PROOF,
        SINCE,
        NOT_BEFORE,
    ],
    "similar": [("post", identifier, NEEDED), STEPS, SEED, MASK, TOP, SINCE, NOT_BEFORE],
    "count": [
        ("seeds", weighted_seeds, NEEDED),
        MASK,
        ("least", leasts, dict.fromkeys(KINDS, 0)),
        TOP,
        PROOF,
        SINCE,
        NOT_BEFORE,
    ],
}


def read_fields(tree, table, whole):
    """The values of the table's fields; `whole` names the object itself."""
    if type(tree) is not dict:
        raise Refusal("field", whole)
    if not tree.keys() <= {name for name, _, _ in table}:
        raise Refusal("field", "unknown")
    values = {}
    for name, form, default in table:
        if name in tree:
            values[name] = form(name, tree[name])
        elif default is NEEDED:
            raise Refusal("field", name)
        else:
            values[name] = default
    return values


def read_body(route, body):
    """What a body asks for on one of the five routes that read one."""
    try:
        tree = tree_of(body)
    except NoReading:
        raise Refusal("json", None) from None
    ask = SimpleNamespace(**read_fields(tree, FIELDS[route], "body"))
    if route == "interactions" and (ask.producer == 0) != (ask.number == 0):
        raise Refusal("range", "number")
    return ask


def read_digits(name, part, most):
    """The number up to the most that is the last part of a path."""
    if not re.fullmatch("[0-9]+", part):
        raise Refusal("field", name)
    digits = part.lstrip("0") or "0"
    if len(digits) > 19 or int(digits) > most:
        raise Refusal("range", name)
    return int(digits)


def read_id(part):
    return read_digits("id", part, MAX_ID)


def read_from(part):
    return read_digits("from", part, 2**48)
