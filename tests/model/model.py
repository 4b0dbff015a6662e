"""The whole replay, written a second time in plain Python: from a stream's bytes to the replies.

It follows the rules of the server as they are said in words, and shares no code with it:

    heads      bytes to messages
    json_text  a body's bytes to a tree
    bodies     a tree to what is asked for
    draws      the words of a seed
    answers    the window, walks, rankings and the other answers
"""

import json
import re

from answers import History, answer_log, answer_query, answer_stats, answer_vertex, post_batch
from bodies import Refusal, read_body, read_from, read_id
from heads import NeedMore, Refused, is_between_messages, take_message

FINISHED, USAGE, TRUNCATED, STOPPED, CONF_DIFFERS = 0, 2, 6, 9, 11

LINES_ON_ERR = {
    FINISHED: b"",
    USAGE: b"usage: graphjet replay|serve|load|follow [options]\n",
    TRUNCATED: b"truncated input\n",
    STOPPED: b"stopped early\n",
}

REASONS = {
    200: "OK",
    400: "Bad Request",
    404: "Not Found",
    405: "Method Not Allowed",
    409: "Conflict",
    413: "Content Too Large",
    431: "Request Header Fields Too Large",
    501: "Not Implemented",
}

STATUS_OF_REFUSED = {"head": 400, "head_long": 431, "coded": 501, "length": 400, "body_long": 413}

# The method of each route. A path is a route by itself, but for those that end in a number.
ROUTES = {
    "interactions": "POST",
    "walk": "POST",
    "subgraph": "POST",
    "similar": "POST",
    "count": "POST",
    "users": "GET",
    "posts": "GET",
    "stats": "GET",
    "log": "GET",
}
WITH_ID = ("users", "posts", "log")
FIRST_ROUTES = {name: ROUTES[name] for name in ("interactions", "walk", "users", "posts", "stats")}

# The least and the largest value of each option of the word `replay` that is a number.
OPTIONS = {"--capacity": (16, 65536), "--segments": (1, 64)}
STORE = "--store"
VERSION = 2


def route_of(path, routes):
    """The route's name and the path's identifier (None where it has none), or None."""
    for name in routes:
        front, id = f"/{name}/", path.removeprefix(f"/{name}/")
        if name not in WITH_ID and path == f"/{name}":
            return name, None
        if name in WITH_ID and path.startswith(front) and id and "/" not in id:
            return name, id
    return None


def reply_to(history, producers, message, routes):
    """The status and the tree of a message's reply, and the method that the route allows if it
    isn't the message's. A good batch joins the history."""
    found = route_of(message.path, routes)
    if not found:
        return 404, {"error": "route"}, None
    name, id = found
    if message.method != routes[name]:
        return 405, {"error": "method"}, routes[name]
    try:
        return *answer(history, producers, name, id, message.body), None
    except Refusal as refusal:
        what, part = refusal.args
        tree = {"error": what} if part is None else {"error": what, "name": part}
        return 400, tree, None


def answer(history, producers, name, id, body):
    if name == "stats":
        return answer_stats(history)
    if name == "log":
        return answer_log(history, read_from(id))
    if id is not None:
        return answer_vertex(history, name.removesuffix("s"), read_id(id))
    ask = read_body(name, body)
    if name != "interactions":
        return answer_query(history, name, ask)
    return post_batch(history, producers, ask)


def response(status, tree, close, allow=None):
    """The bytes of a reply."""
    body = json.dumps(tree, separators=(",", ":"))
    lines = [
        f"HTTP/1.1 {status} {REASONS[status]}",
        "Content-Type: application/json",
        f"Content-Length: {len(body)}",
        "Connection: " + ("close" if close else "keep-alive"),
    ]
    if allow:
        lines.append(f"Allow: {allow}")
    return ("\r\n".join(lines) + "\r\n\r\n" + body).encode("ascii")


def replay(input_bytes, history, routes=ROUTES):
    """The output and the status of one session, from the history on, to which it adds."""
    output, rest = b"", input_bytes
    producers = {}  # what was noted last of each, which no run hands on
    while True:
        try:
            message, rest = take_message(rest)
        except NeedMore:
            return output, FINISHED if is_between_messages(rest) else TRUNCATED
        except Refused as refused:
            error = refused.args[0]
            return output + response(STATUS_OF_REFUSED[error], {"error": error}, True), STOPPED
        status, tree, allow = reply_to(history, producers, message, routes)
        output += response(status, tree, message.close, allow)
        if message.close:
            return output, STOPPED


def values_of(arguments, options):
    """The options' values by name, or None where the program refuses its arguments."""
    if arguments[:1] != ["replay"]:
        return None
    values, left = {}, arguments[1:]
    while left and left != ["--"]:
        name, equals, value = left.pop(0).partition("=")
        if not equals and left:
            value = left.pop(0)
        if name in values or not is_value(name, value, options):
            return None
        values[name] = value if name == STORE else int(value)
    return {name.removeprefix("--"): value for name, value in values.items()}


def is_value(name, value, options):
    if name == STORE:
        return value != "" and STORE in options
    if name not in options or not re.fullmatch("[0-9]{1,20}", value):
        return False
    least, most = options[name]
    return least <= int(value) <= most


def differing(kept, asked):
    """The line for a store that keeps another configuration."""
    texts = (f"version {VERSION} capacity {c} segments {s}" for c, s in (kept, asked))
    return "kept {}, asked {}\n".format(*texts).encode("ascii")


def run(arguments, input_bytes, options=OPTIONS, routes=ROUTES, stores=None):
    """What a run of the program gives: its output, its status, and its line on standard error. The histories that are
    kept stand in `stores` by their paths."""
    values = values_of(arguments, options)
    if values is None:
        return b"", USAGE, LINES_ON_ERR[USAGE]
    asked = (values.get("capacity", 4096), values.get("segments", 4))
    history = History(*asked)
    if "store" in values:
        history = stores.setdefault(values["store"], history)
        kept = (history.capacity, history.segments)
        if kept != asked:
            return b"", CONF_DIFFERS, differing(kept, asked)
    output, status = replay(input_bytes, history, routes)
    return output, status, LINES_ON_ERR[status]
