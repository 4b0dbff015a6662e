"""Random streams of bytes for sessions: good requests, odd bodies and hostile heads."""

import json

from bodies import KINDS
from json_text import NoReading, tree_of

IDS_AT_THE_EDGE = [0, 2**53 + 1, 2**63 - 1]


# Good requests.


def an_id(rng):
    """Small mostly, so that interactions meet."""
    return rng.choice(IDS_AT_THE_EDGE) if rng.random() < 0.02 else rng.randint(1, 12)


def a_moment(rng):
    """Small mostly, so that many moments are the same."""
    return rng.choice([0, 2**63 - 1]) if rng.random() < 0.05 else rng.randint(0, 20)


def a_batch(rng, length):
    some_kinds = rng.sample(KINDS, rng.randint(1, 5))
    spread = rng.choice([3, 6, 12, 12, 400])
    share_with_moment = rng.choice([0, 0.5, 1, 1])
    items = []
    for _ in range(length):
        small = rng.random() < 0.98
        user = rng.randint(1, spread) if small else an_id(rng)
        post = rng.randint(1, spread) if small else an_id(rng)
        items.append({"user": user, "post": post, "kind": rng.choice(some_kinds)})
        if rng.random() < share_with_moment:
            items[-1]["at"] = a_moment(rng)
    return {"items": items}


def some_seeds(rng):
    if rng.random() < 0.02:
        return rng.sample(range(1, 2000), rng.choice([999, 1000, 1001]))
    return list({an_id(rng) for _ in range(rng.randint(1, 5))})


def some_weighted(rng):
    weight = lambda: rng.choice([1, 1000000, rng.randint(1, 5), rng.randint(1, 5)])
    return [{"user": user, "weight": weight()} for user in some_seeds(rng)]


def some_leasts(rng):
    some_kinds = rng.sample(KINDS, rng.choice([0, 1, 1, 1, 1, 2]))
    return {kind: rng.choice([0, 1, 1, 1, 1, 2]) for kind in some_kinds}


def steps(rng):
    if rng.random() < 0.01:
        return 100000
    return rng.choice([1, 2, 3, 7, rng.randint(1, 60), rng.randint(1, 3000)])


def since(rng):
    return rng.choice([0, 0, 1, rng.randint(0, 9), rng.randint(0, 60), 2**48])


OPTIONAL = {
    "producer": lambda rng: rng.choice([0, 1, 1, 2, 1024]),
    "number": lambda rng: rng.choice([0, 1, 1, 1, 2, 2, 3, 4]),
    "seed": lambda rng: rng.choice([0, 1, 2**64 - 1, rng.randrange(2**64), rng.randrange(100)]),
    "kinds": lambda rng: [rng.choice(KINDS) for _ in range(rng.randint(1, 4))],
    "reset": lambda rng: rng.choice([0, 1, 1500, 5000, 9999, 10000]),
    "top": lambda rng: rng.choice([1, 2, 3, 10, 100]),
    "proof": lambda rng: rng.choice([0, 1, 2, 10]),
    "hide": lambda rng: rng.random() < 0.7,
    "least": some_leasts,
    "since": since,
    "not_before": lambda rng: rng.choice([0, 1, a_moment(rng), a_moment(rng), a_moment(rng)]),
}
NEEDED = {
    "interactions": {"items": lambda rng: a_batch(rng, rng.randint(1, 12))["items"]},
    "walk": {"seeds": some_seeds, "steps": steps},
    "subgraph": {"seeds": some_seeds, "iterations": lambda rng: rng.choice([1, 2, 3, 7, 20])},
    "similar": {"post": an_id, "steps": steps},
    "count": {"seeds": some_weighted},
}
AT_THE_LIMITS = {
    "producer": "0 1 1024 1025 -1",
    "number": "0 1 281474976710656 281474976710657 -1",
    "steps": "0 1 100000 100001",
    "iterations": "0 1 20 21",
    "seed": "0 18446744073709551615 18446744073709551616",
    "reset": "0 10000 10001",
    "top": "0 1 100 101",
    "proof": "0 10 11",
    "since": "281474976710656 281474976710657",
    "not_before": "-1 0 9223372036854775807 9223372036854775808 18446744073709551616",
    "post": "0 9223372036854775807 9223372036854775808",
    "seeds": "[] [9223372036854775808] [1,1] [1,2,1] [3,9223372036854775807,0] [1,-1] [1,1,null]",
    "kinds": '[] ["like"] ["click","reply","click"] ["click","like",1] ["click",1,"like"]',
    "hide": "true false",
    "items": "[]",
    "least": """
        {} [] {"click":0} {"tweet":1000} {"tweet":1001} {"reply":-1} {"like":0} {"click":null}
        {"tweet":-1,"click":1001} {"reply":1001,"retweet":1.0} {"favorite":1,"click":1}
    """,
}
WEIGHTED_AT_THE_LIMITS = """
    [] {} [1] [{"user":0,"weight":1}] [{"user":9223372036854775807,"weight":1000000}]
    [{"user":2,"weight":0}] [{"user":2,"weight":1000001}] [{"user":9223372036854775808,"weight":0}]
    [{"user":1,"weight":1},{"user":1,"weight":1}] [{"user":1,"weight":1},{"user":1,"weight":0}]
    [{"user":1,"weight":1},{"weight":2,"user":2},{"user":1,"weight":3},null]
"""
OPTIONAL_OF = {
    "interactions": ["producer", "number"],
    "walk": [name for name in OPTIONAL if name not in ("least", "producer", "number")],
    "subgraph": ["kinds", "top", "proof", "since", "not_before"],
    "similar": ["seed", "kinds", "top", "since", "not_before"],
    "count": ["kinds", "least", "top", "proof", "since", "not_before"],
}


def a_body(rng, route):
    body = {name: value(rng) for name, value in NEEDED[route].items()}
    share = rng.choice([0.1, 0.3, 0.6])
    if route == "interactions":
        share = rng.choice([0, 0, 0.5, 0.95])
    for name in OPTIONAL_OF[route]:
        if rng.random() < share:
            body[name] = OPTIONAL[name](rng)
    names = list(body)
    rng.shuffle(names)
    return {name: body[name] for name in names}


# Texts of bodies.


def escaped(rng, text):
    """The same text, with some characters written as escapes."""
    found = ""
    for char in text:
        digits = rng.choice(["%04x", "%04X"]) % ord(char)
        found += "\\u" + digits if rng.random() < 0.2 else char
    return found


def text_of(rng, tree):
    """A tree as JSON text, now and then with blanks, escapes and a name twice."""
    if rng.random() < 0.7:
        return json.dumps(tree, separators=(",", ":"))
    blank = lambda: rng.choice(["", "", " ", "\t", "\r\n", "  "])
    if isinstance(tree, dict):
        members = [(name, text_of(rng, value)) for name, value in tree.items()]
        if members and rng.random() < 0.1:
            members.insert(0, (members[-1][0], rng.choice(ODD_VALUES)))
        inner = [f'{blank()}"{escaped(rng, name)}"{blank()}:{value}' for name, value in members]
        return blank() + "{" + ",".join(inner) + blank() + "}" + blank()
    if isinstance(tree, list):
        return blank() + "[" + ",".join(text_of(rng, value) for value in tree) + "]" + blank()
    if isinstance(tree, str):
        return f'{blank()}"{escaped(rng, tree)}"{blank()}'
    return blank() + json.dumps(tree) + blank()


def is_tree(text):
    try:
        tree_of(text.encode())
        return True
    except NoReading:
        return False


ODD_NUMBERS = """
    0 -0 -1 1.0 1.5 1e2 1E+2 1e-2 0e0 0.0 01 00 1. .5 +1 - 1e 1e+ 0x1 NaN Infinity -Infinity
    1e308 1e309 1e400 -1e400 1e-400 1e99999999999999999999 0e99999999999999999999
    1.7976931348623157e308 1.7976931348623159e308
    9223372036854775807 9223372036854775808 18446744073709551615 18446744073709551616
    -9223372036854775808 -9223372036854775809 340282366920938463463374607431768211456
    281474976710656 281474976710657 100 101 1000 1001 10000 10001 100000 100001 20 21 11
""".split()
ODD_NUMBERS += ["9" * 308, "9" * 310, "9" * 5000, "1" + "0" * 400 + "e-400", "0." + "0" * 400 + "1"]
ODD_STRINGS = r"""
    "" "click" "favorite" "retweet" "reply" "tweet" "like" "Click" "clic" "clicks"
    "clic\u006b" "\u0063lick"
    "\ud83d\ude00" "\uD83D\uDE00" "\ud83d" "\ude00" "\ud83d\u0041" "\ud83dx" "\ud83d\ud83d\ude00"
    "\u12" "\u12g4" "\U0041" "\x41" "\ "\" "\u0000" "\b\f\n\r\t\/\\\"" "a 'click' click
""".split()
ODD_STRINGS += ['"click "', '" click"', '"\t"', '"\n"', '"\x00"', '"\x7f"']
ODD_STRINGS += ['"\u00e9\u2028\U0001f600"']
ODD_VALUES = [
    *ODD_NUMBERS,
    *ODD_STRINGS,
    *"true false null True nul truex tru truefalse , : [ ] { } // /**/".split(),
    *"[] [[]] [null] [1] [1,1] [1,] [,1] [1:2] [-1] [1.0] [1} {} {]".split(),
    *'[1,"a"] {"a":1} {"a":1,} {"a"} {1:1} {,} {"a":1,,} {"a":} {:1} {"a":1:2}'.split(),
    *'{"a","b"} ["a":1] {"a":1]'.split(),
    *'["click"] ["click","click"] ["click",1] ["like"] ["tweet",null] [true]'.split(),
    *"[9223372036854775807] [9223372036854775808] [18446744073709551616] [1,2,3,1]".split(),
    *["", " ", "1 2", "[1 2]", '{"a" 1}', "1,", "\ufeff1", "\u00a01", "\x0c1", "\x001"],
]
ODD_TREES = [text for text in ODD_VALUES if is_tree(text)]
ODD_NAMES = r"x Steps st\u0065ps steps\u0000 seeds item \u0069tems since user weight least".split()
ODD_NAMES += "producer number Producer from".split()
ODD_NAMES += ["", "steps ", "\u00e9", "at", "not_before", "Not_before", "notbefore"]
ODD_ITEMS = """
    1 null [] {} "" true {"x":0}
    {"user":1,"post":2} {"user":1,"kind":"click"} {"post":1,"kind":"click"}
    {"user":1,"post":2,"kind":"click","x":0} {"user":"1","post":-2,"kind":"like"}
    {"user":1,"post":2,"kind":"click","kind":"like"}
    {"user":1,"post":2,"kind":"like","kind":"click"}
    {"user":9223372036854775808,"post":2,"kind":3}
    {"user":18446744073709551616,"post":2,"kind":"like"}
    {"user":1,"post":9223372036854775808,"kind":"like"} {"user":1,"post":1.0,"kind":"like"}
    {"user":9223372036854775807,"post":0,"kind":"tweet"} {"user":1,"post":2,"kind":["click"]}
    {"user":1,"post":2,"kind":null} {"user":null,"post":2,"kind":"click"}
    {"user":1,"post":2,"kind":"click","at":-1} {"user":1,"post":2,"kind":"click","at":null}
    {"user":1,"post":2,"kind":"like","at":-1} {"at":-1,"user":-1} {"at":1,"kind":"click","user":1}
    {"user":1,"post":2,"kind":"click","at":9223372036854775808}
    {"user":1,"post":2,"kind":"click","at":9223372036854775807}
    {"user":1,"post":2,"kind":"click","at":18446744073709551616}
    {"user":1,"post":2,"kind":"click","at":"1"} {"user":1,"post":2,"kind":"click","at":1.0}
    {"user":1,"post":2,"kind":"click","at":1,"at":2} {"user":1,"post":2,"kind":"click","At":1}
    {"user":1,"post":2,"kind":"click","not_before":1}
""".split()


ODD_SEEDS = """
    1 null [] {} "" true {"x":0} {"user":1} {"weight":1} {"user":1,"weight":1,"x":0} {"user":1,"post":1}
    {"user":1,"weight":-1} {"user":1,"weight":null} {"user":1,"weight":1.0} {"user":1,"weight":"1"}
    {"user":2,"weight":0} {"user":2,"weight":1000001} {"user":2,"weight":18446744073709551616}
    {"user":9223372036854775808,"weight":-1} {"user":-1,"weight":0} {"user":"1","weight":1}
    {"user":9223372036854775807,"weight":1} {"user":0,"weight":1000000} {"weight":2,"user":3}
    {"user":2,"user":3,"weight":4} {"user":4,"weight":0,"weight":1} {"user":4,"weight":1,"weight":0}
    {"user":1,"Weight":1} {"u\u0073er":5,"weight":1} {"user":6,"weight":[1]} {"user":1,"weight":2}
""".split()
ODD_ELEMENTS = {
    "interactions": ("items", '{"user":1,"post":2,"kind":"click"}', ODD_ITEMS),
    "count": ("seeds", '{"user":1,"weight":2}', ODD_SEEDS),
}


def limits(route, name):
    """The texts of a field's values at its limits."""
    weighted = route == "count" and name == "seeds"
    return (WEIGHTED_AT_THE_LIMITS if weighted else AT_THE_LIMITS[name]).split()


def nested(rng):
    depth = rng.choice([1, 2, 60, 125, 126, 127, 128, 129, 200, 5000])
    shape = rng.choice(["array", "object", "open", "mixed"])
    if shape == "object":
        return '{"a":' * depth + "1" + "}" * depth
    if shape == "open":
        return rng.choice(["[", '{"a":', "[1,"]) * depth
    if shape == "mixed":
        return '[{"a":' * (depth // 2) + "[]" + "}]" * (depth // 2)
    return "[" * depth + rng.choice(["", "1"]) + "]" * depth


def an_odd_body(rng, route):
    """A body that is near to a good one, as bytes."""
    body = {name: text_of(rng, value) for name, value in a_body(rng, route).items()}
    way = rng.randrange(15)
    names = list(NEEDED[route]) + OPTIONAL_OF[route]
    if way >= 8:
        for name in rng.sample(names, min(len(names), rng.choice([1, 1, 2]))):
            body[name] = rng.choice(limits(route, name))
    elif way == 0:
        return rng.choice([*ODD_VALUES, nested(rng)]).encode()
    if way == 1:
        del body[rng.choice(list(body))]
    elif way == 2:
        body[rng.choice(ODD_NAMES)] = rng.choice(["0", "[1]", *ODD_VALUES])
    elif way in (3, 5) and route in ODD_ELEMENTS:
        name, good, odd = ODD_ELEMENTS[route]
        elements = [rng.choice([good, rng.choice(odd)]) for _ in range(rng.randint(1, 5))]
        body[name] = "[" + ",".join(elements) + "]"
    elif way == 4:
        body[rng.choice(list(body))] = nested(rng)
    else:
        for _ in range(rng.choice([1, 1, 2])):
            body[rng.choice(names)] = rng.choice(rng.choice([ODD_VALUES, ODD_TREES, ODD_TREES]))
    text = "{" + ",".join(f'"{name}":{value}' for name, value in body.items()) + "}"
    found = text.encode()
    if rng.random() < 0.2:
        found = mutated(rng, found, BODY_LETTERS)
    return found


BODY_LETTERS = b'{}[]",:0123456789.eE+-\\u \t\n\x00\x1f\x7f\x80\xc0\xe9\xed\xff'


def mutated(rng, stream, letters):
    """The stream with a few bytes changed, taken out, put in or doubled."""
    found = bytearray(stream)
    for _ in range(rng.choice([1, 1, 2, 5])):
        at = rng.randrange(len(found) + 1)
        way = rng.randrange(4)
        if way == 0:
            found[at:at] = bytes([rng.choice(letters)])
        elif way == 1:
            del found[at : at + 1]
        elif way == 2:
            found[at : at + 1] = bytes([rng.choice(letters)])
        else:
            found[at:at] = found[at : at + rng.randint(1, 8)]
    return bytes(found)


# Messages.


def lines(text):
    """The lines of a table as bytes, with the escapes of Python in them taken as such."""
    found = [line.strip(" ") for line in text.strip("\n ").split("\n")]
    return [line.encode().decode("unicode_escape").encode("latin-1") for line in found]


HARMLESS = lines(r"""
    Host: 127.0.0.1:8017
    Accept: */*
    User-Agent:curl/8.5.0
    Expect: 100-continue
    Content-Type: application/json
    Content-Lengths: x
    Transfer-Encodings: chunked
    X: \t\xff\x80\x20
    !#$%&'*+-.^_`|~09azAZ:
    a: b: c
    Connection: keep-alive
    connection: upgrade ,\t keep-Alive
    Connection:
    Connection: closed, keep-alives,,
    Connection: clos
    Connection: close x
    Connection: a close
    Connections: close
""")
CLOSING = lines(r"""
    Connection: close
    connection:CLOSE
    CONNECTION: keep-alive,\tcLose\t
    Connection: a,close ,b
    Connection: ,close
""")
ODD_METHODS = "GET GET POST POST PUT get Post OPTIONS GETS PATCH x!~ DELETE".split()
ODD_TARGETS = b"""
    / * /none /walk /interactions /subgraph /similar /stats /users /posts ?/stats /stats/ stats
    /users/ /users/1 /users/1/ /users//1 /users/1/2 //users/1 /users/abc /users/+1 /users/-1 users/1
    /users/1a /users/0x1 /counts /users/%31 /users/{id} /posts/* /users/1.0 /USERS/1 /Stats /walk/ /walk?
    /posts/9223372036854775807 /posts/9223372036854775808 /posts/18446744073709551616 /userss/1
    http://127.0.0.1/stats /walk/1 /interactions/ /count /log /log/ /log/x /log/-1 /log/1/2 /logs/1 /stats#x /userz
    /users/1?/2 /users/?1
""".split()
ODD_TARGETS += [b"/users/" + b"9" * 6000, b"/posts/" + b"0" * 6000 + b"7", b"/walk?" + b"a" * 3000]
ODD_TARGETS += [path.encode() for path in ("/users/\u0661", "/users/1\u00e9", "/stats?\u00e9")]
COMMON = [b"/stats", b"/users/3", b"/walk", b"/none"]


def a_message(rng, method, target, body=None, fields=(), version=b"1.1"):
    end = lambda: b"\n" if rng.random() < 0.1 else b"\r\n"
    fields = list(fields)
    while rng.random() < 0.3:
        fields.append(rng.choice(HARMLESS))
    if body is not None:
        name = rng.choice([b"Content-Length", b"content-length", b"CONTENT-lengtH"])
        blank = rng.choice([b" ", b" ", b"", b"\t", b"   "])
        zeros = rng.choice([b"", b"", b"", b"000", b"0" * 30])
        after = rng.choice([b"", b"", b" ", b"\t"])
        fields.append(name + b":" + blank + zeros + b"%d" % len(body) + after)
    rng.shuffle(fields)
    head = b"%s %s HTTP/%s" % (method.encode(), target, version) + end()
    return head + b"".join(field + end() for field in fields) + end() + (body or b"")


def a_good_message(rng, routes):
    route = rng.choice([*routes, "interactions", "walk"])
    if route == "stats":
        return a_message(rng, "GET", rng.choice([b"/stats", b"/stats?", b"/stats?x=/1?"]))
    if route == "log":
        place = rng.choice([0, 0, rng.randint(0, 9), rng.randint(0, 60), rng.randint(0, 400), 2**48, 2**48 + 1])
        return a_message(rng, "GET", b"/log/" + b"0" * rng.choice([0, 0, 0, 25]) + b"%d" % place)
    if route in ("users", "posts"):
        id = "0" * rng.choice([0, 0, 0, 1, 25]) + str(an_id(rng))
        return a_message(rng, "GET", f"/{route}/{id}".encode() + rng.choice([b"", b"", b"?a"]))
    body = text_of(rng, a_body(rng, route)).encode()
    return a_message(rng, "POST", b"/" + route.encode(), body)


def a_refused_message(rng, routes):
    """A message whose reply is most often a refusal, and which leaves the session open."""
    if rng.random() < 0.7:
        route = rng.choice([name for name in routes if name in NEEDED])
        return a_message(rng, "POST", b"/" + route.encode(), an_odd_body(rng, route))
    body = rng.choice([None, b"", b"{}"])
    return a_message(rng, rng.choice(ODD_METHODS), rng.choice(ODD_TARGETS), body)


# Messages that most often end the session: they ask for close, or their head is hostile.


def closing(rng):
    method = rng.choice(["GET", "POST", "HEAD", "HEAD", "head", "HEADS"])
    fields = [rng.choice([*CLOSING, *HARMLESS]) for _ in range(rng.randint(0, 3))]
    return a_message(rng, method, rng.choice(COMMON), fields=fields)


def of_another_version(rng):
    version = rng.choice(b"1.0 1.0 1.0 1.1 2.0 1.2 0.9 1.10 1".split() + [b"1.1 ", b""])
    fields = [rng.choice([*HARMLESS, *CLOSING]) for _ in range(rng.randint(0, 2))]
    return a_message(rng, "GET", rng.choice(COMMON), fields=fields, version=version)


def with_many_fields(rng):
    fields = [rng.choice(HARMLESS)] * rng.choice([40, 60, 63, 64, 65, 66])
    return a_message(rng, "GET", rng.choice(COMMON), fields=fields)


ODD_LENGTHS = lines(r"""
    0
    1
    1048575
    1048576
    1048577
    9999999
    10000000
    99999999999999999999999
    18446744073709551616
    -1
    +0
    0x0
    1.0
    1e0
    0,0
    0 0
    x
    \t0\t
    0\x0b
    \xc2\xb2
    \xd9\xa1
""")
ODD_LENGTHS += [b"", b" ", b"0" * 4000, b"0" * 4000 + b"1048577", b"9" * 5000]


def with_an_odd_length(rng):
    return a_message(
        rng, "POST", rng.choice(COMMON), fields=[b"Content-Length:" + rng.choice(ODD_LENGTHS)]
    )


def with_two_lengths(rng):
    length = b"Content-Length: " + rng.choice([b"2", b"2", b"3", b"x"])
    return a_message(rng, "POST", rng.choice(COMMON), b"{}", fields=[length])


def coded(rng):
    name = rng.choice([b"Transfer-Encoding", b"transfer-encoding", b"TRANSFER-ENCODING"])
    fields = [name + b":" + rng.choice([b" chunked", b"", b" identity"])]
    if rng.random() < 0.5:
        fields.append(rng.choice([b"Content-Length: x", b"Content-Length: 9999999", b"a: b"]))
    return a_message(rng, "POST", rng.choice(COMMON), fields=fields)


ODD_HEADS = lines(r"""
    GET
    GET\x20
    GET /stats
    GET /stats\x20
    GET /stats HTTP/1.
    GET /stats HTTP/1.1\x20
    \x20GET /stats HTTP/1.1
    GET  /stats HTTP/1.1
    GET /stats  HTTP/1.1
    GET\t/stats HTTP/1.1
    GET /st ats HTTP/1.1
    GET /stats http/1.1
    GET /stats HTTP/11
    GET /stats HTTP/1.1
    GET /stats HTTP/1.1\r
    G(T /stats HTTP/1.1
    G\xc3\xa9T /stats HTTP/1.1
    /stats HTTP/1.1
    \rGET /stats HTTP/1.1
    GET /\xff HTTP/1.1
    GET /\xed\xa0\x80 HTTP/1.1
    GET /\xc0\x80 HTTP/1.1
    GET /\xf4\x90\x80\x80 HTTP/1.1
    GET /\xf0\x9f\x98\x80 HTTP/1.1
    GET /\xc3 HTTP/1.1
    GET /\x7f HTTP/1.1
    GET /stats HTTP/1.1\r\na
    GET /stats HTTP/1.1\r\n: a
    GET /stats HTTP/1.1\r\na : b
    GET /stats HTTP/1.1\r\n a: b
    GET /stats HTTP/1.1\r\na: b\r\n c
    GET /stats HTTP/1.1\r\na: b\r\n\tc
    GET /stats HTTP/1.1\r\na: b\x00
    GET /stats HTTP/1.1\r\na: \x7f
    GET /stats HTTP/1.1\r\na: b\rc: d
    GET /stats HTTP/1.1\r\na(b): c
    GET /stats HTTP/1.1\r\n\xc3\xa9: c
    GET /stats HTTP/1.1\r\na:\x0bb
    GET /stats HTTP/1.1\ra: b
    GET /stats HTTP/1.1\r\r
    GET /stats HTTP/1.1\r\na: b\r\r
    GET /stats HTTP/1.0\nConnection: keep-alive
    GET /stats HTTP/1.0\r\nConnection: keep-alive\nConnection: x
    \r
    \x00
""")


def with_an_odd_head(rng):
    return rng.choice(ODD_HEADS) + rng.choice([b"\r\n\r\n", b"\n\n", b"\r\n\n", b"\n\r\n", b""])


HEAD_LETTERS = b"\r\n\r\n\r\n \t:/?,;aGETPOSTHCcl01.\x00\x0b\x1f\x7f\x80\xc3\xa9\xff{}\"()"


def with_a_mutated_head(rng):
    return mutated(rng, a_message(rng, "GET", rng.choice(COMMON)), HEAD_LETTERS)


def noise(rng):
    return bytes(rng.choice(HEAD_LETTERS) for _ in range(rng.choice([1, 5, 40, 9000])))


def at_the_limit(rng):
    """A head whose end is near the place up to which it is looked for."""
    blank = rng.choice([b"", b"\r\n", b"\n" * 100, b"\r\n" * 2000, b"\r\n" * 4094, b"\n" * 8180])
    front, back = rng.choice(
        [
            (b"GET /stats HTTP/1.1\r\na: ", b""),
            (b"GET /none HTTP/1.0\r\na:", b""),
            (b"GET /users/1?", b" HTTP/1.1"),
        ]
    )
    end = rng.choice([b"\r\n\r\n", b"\n\n", b"\r\n\n", b"\n\r\n"])
    wanted = 8192 + rng.choice([-2, -1, 0, 1, 2, 500])
    fill = max(0, wanted - len(blank + front + back + end))
    return blank + front + b"b" * fill + back + end


LAST_MESSAGES = [
    closing,
    closing,
    of_another_version,
    with_many_fields,
    with_an_odd_length,
    with_two_lengths,
    coded,
    with_an_odd_head,
    with_an_odd_head,
    with_a_mutated_head,
    at_the_limit,
    noise,
]


def a_long_body(rng):
    """A body about as long as a body may be, most of it blanks."""
    body = text_of(rng, a_body(rng, "walk")).encode()
    length = 1048576 + rng.choice([-1, 0, 0, 1])
    return a_message(rng, "POST", b"/walk", body + b" " * (length - len(body)))


def each_limit(rng, route):
    """Each field of a route at each of its limits, in a body that is good but for that."""
    needed = {name: value(rng) for name, value in NEEDED[route].items()}
    good = {name: json.dumps(value) for name, value in needed.items()}
    for name in [*good, *OPTIONAL_OF[route]]:
        for limit in limits(route, name):
            members = [f'"{n}":{value}' for n, value in {**good, name: limit}.items()]
            body = "{" + ",".join(members) + "}"
            yield a_message(rng, "POST", b"/" + route.encode(), body.encode())


# Sessions.


def empty_lines(rng):
    return b"".join(rng.choice([b"\r\n", b"\n"]) for _ in range(rng.choice([0, 0, 0, 0, 1, 2, 9])))


def a_session(rng, routes):
    """The bytes of one session."""
    parts = []
    way = rng.random()
    if way < 0.005:  # past the default window
        for length in rng.choice([[4096] * 4 + [1, 4095, 1], [4096, 4095, 4097, 3000, 4096, 4096]]):
            body = json.dumps(a_batch(rng, length)).encode()
            parts.append(a_message(rng, "POST", b"/interactions", body))
            parts.append(a_message(rng, "GET", b"/stats"))
            parts.append(a_good_message(rng, routes))
    elif way < 0.01:
        parts.append(a_long_body(rng))
    elif way < 0.02:
        parts += each_limit(rng, rng.choice([name for name in routes if name in NEEDED]))
    elif way < 0.8:  # with something to find
        length = rng.randint(13, 300) if way < 0.1 else rng.randint(2, 40)
        body = text_of(rng, a_batch(rng, length)).encode()
        parts.append(a_message(rng, "POST", b"/interactions", body))
    for _ in range(rng.choice([0, 1, 2, 4, 8, 12])):
        message = a_refused_message if rng.random() < 0.35 else a_good_message
        parts.append(message(rng, routes))
    if rng.random() < 0.5:
        parts.append(rng.choice(LAST_MESSAGES)(rng))
        parts += [a_good_message(rng, routes) for _ in range(rng.choice([0, 0, 1, 2]))]
    stream = b"".join(empty_lines(rng) + part for part in parts) + empty_lines(rng)
    if rng.random() < 0.15:
        stream = stream[: rng.randrange(len(stream) + 1)]
    elif stream and rng.random() < 0.1:
        stream = mutated(rng, stream, HEAD_LETTERS + BODY_LETTERS)
    return stream
