"""Sessions worked by hand: what is given to the server, and all that it must answer.

`check_model.py` runs each of them on the model, and on the built program too.
"""

import json
from typing import NamedTuple

DEFAULT = (4096, 4)  # the interactions of a segment, and the segments of the window
LAST = 9223372036854775807  # the largest identifier, and the last moment

# The line on standard error, by the status.
LINES = {
    0: b"",
    2: b"usage: graphjet replay|serve|load|follow [options]\n",
    6: b"truncated input\n",
    9: b"stopped early\n",
}


class Row(NamedTuple):
    says: str
    stream: bytes
    replies: list  # all of them, each as its status and its body
    status: int = 0
    contains: tuple = ()  # parts of the output
    conf: tuple = DEFAULT


def get(path):
    return f"GET {path} HTTP/1.1\r\n\r\n".encode()


def post(path, body):
    body = body.encode() if isinstance(body, str) else body
    return f"POST {path} HTTP/1.1\r\nContent-Length: {len(body)}\r\n\r\n".encode() + body


def batch(*interactions):
    """A batch of interactions: each is a user, a post, a kind, and its moment where it has one."""
    names = ("user", "post", "kind", "at")
    items = [dict(zip(names, interaction)) for interaction in interactions]
    return post("/interactions", json.dumps({"items": items}))


def posted(start, length):
    return 200, '{"from":%d,"length":%d}' % (start, length)


def found(length, *results):
    return 200, '{"length":%d,"results":[%s]}' % (length, ",".join(results))


def measured(measure):
    return lambda post, number, proof: '{"post":%d,"%s":%d,"proof":%s}' % (
        *(post, measure, number),
        json.dumps(proof, separators=(",", ":")),
    )


VISITS, UNITS, WEIGHT = measured("visits"), measured("units"), measured("weight")


def refused(what, name=None):
    return 400, '{"error":"%s"%s}' % (what, ',"name":"%s"' % name if name else "")


NO_ROUTE = (404, '{"error":"route"}')
NO_METHOD = (405, '{"error":"method"}')
EMPTY = '{"length":0,"base":0,"capacity":4096,"segments":4,"kinds":%s}'
NO_KINDS = '{"click":0,"favorite":0,"retweet":0,"reply":0,"tweet":0}'
EMPTY_STATS = (200, EMPTY % NO_KINDS)

FIRST = post("/interactions", '{"items":[{"user":1,"post":10,"kind":"favorite"}]}')


# Streams and their ends.


def whole_sessions():
    for blank in [b"", b"\r\n\n\r\n"]:
        yield Row("no message gives no output", blank, [])
    head = (
        "HTTP/1.1 200 OK\r\nContent-Type: application/json\r\n"
        "Content-Length: %d\r\nConnection: keep-alive\r\n\r\n"
    )
    first, second = posted(0, 1), found(1, VISITS(10, 3, [1]))
    output = head % 21 + first[1] + head % 59 + second[1]
    stream = FIRST + post("/walk", '{"seeds":[1],"steps":6}')
    yield Row("a post and a walk", stream, [first, second], contains=(output.encode(),))
    as_curl_sends_it = (
        "POST /walk HTTP/1.1\r\nHost: 127.0.0.1:8017\r\nUser-Agent: curl/8.5.0\r\n"
        "Accept: */*\r\nContent-Type: application/json\r\nContent-Length: 23\r\n\r\n"
        '{"seeds":[1],"steps":6}'
    )
    yield Row("a head as curl sends it", as_curl_sends_it.encode(), [found(0)])


def cut_sessions():
    for end in range(1, len(FIRST)):
        yield Row(f"a message is cut at byte {end}", FIRST[:end], [], status=6)
    yield Row("a lone carriage return", get("/none") + b"\r", [NO_ROUTE], status=6)


# Queries.


def walks():
    """Walks whose every choice is forced."""
    none, three = found(1), found(1, VISITS(10, 3, [1]))
    for body, reply in [
        ('{"seeds":[1],"steps":6}', three),
        ('{"seeds":[1],"steps":6,"reset":10000}', found(1, VISITS(10, 2, [1]))),
        ('{"seeds":[9],"steps":6}', none),
        ('{"seeds":[1],"steps":1}', none),
        ('{"seeds":[1],"steps":6,"hide":true}', none),
        ('{"seeds":[1],"steps":6,"kinds":["click"]}', none),
        ('{"seeds":[1],"steps":6,"proof":0}', found(1, VISITS(10, 3, []))),
        ('{"seeds":[1],"steps":1,"since":1}', none),
        ('{"seeds":[1],"steps":1,"since":2}', (409, '{"error":"behind","length":1}')),
    ]:
        yield Row(body, FIRST + post("/walk", body), [posted(0, 1), reply])


def subgraphs():
    """Units spread over the seeds' own interactions, and the first ones carry what is left over."""
    three = batch((1, 10, "click"), (1, 20, "click"), (2, 20, "click"))
    for iterations, of_20, of_10 in [(1, 1572864, 524288), (2, 1441792, 655360)]:
        ask = post("/subgraph", '{"seeds":[2,1],"iterations":%d}' % iterations)
        reply = found(3, UNITS(20, of_20, [1, 2]), UNITS(10, of_10, [1]))
        yield Row(f"{iterations} iterations", three + ask, [posted(0, 3), reply])
    three = batch((1, 10, "click"), (1, 20, "click"), (1, 10, "reply"))
    ask = post("/subgraph", '{"seeds":[1],"iterations":1}')
    reply = found(3, UNITS(10, 699051, [1]), UNITS(20, 349525, [1]))
    yield Row("two units are left over", three + ask, [posted(0, 3), reply])


def similarities():
    lonely = post("/similar", '{"post":10,"steps":4}')
    yield Row("no other post", FIRST + lonely, [posted(0, 1), found(1)])
    two = batch((1, 10, "click"), (1, 20, "click"))
    result = '{"post":20,"co":1,"degree":1}'
    for seed in range(6):
        ask = post("/similar", '{"post":10,"steps":2,"seed":%d}' % seed)
        reply = found(2, result) if seed == 5 else found(2)
        yield Row(f"a trip of seed {seed}", two + ask, [posted(0, 2), reply])


COUNTED = [(1, 10, "click"), (1, 20, "click"), (2, 20, "click")]


def counts():
    """A post has the weights of the seed users that interacted with it, each once."""
    both, of_10 = WEIGHT(20, 8, [1, 2]), WEIGHT(10, 3, [1])
    two = '"seeds":[{"user":1,"weight":3},{"user":2,"weight":5}]'
    for fields, results in [
        (two, [both, of_10]),
        ('"seeds":[{"weight":5,"user":2},{"user":1,"weight":3}]', [both, of_10]),
        (two + ',"top":1', [both]),
        (two + ',"proof":1', [WEIGHT(20, 8, [1]), of_10]),
        (two + ',"proof":0,"least":{}', [WEIGHT(20, 8, []), WEIGHT(10, 3, [])]),
        (two + ',"least":{"click":1}', [both, of_10]),
        (two + ',"least":{"click":2}', [both]),
        (two + ',"least":{"click":3}', []),
        (two + ',"least":{"tweet":1,"click":1}', []),
        (two + ',"kinds":["reply"]', []),
        ('"seeds":[{"user":2,"weight":1000000}]', [WEIGHT(20, 1000000, [2])]),
        ('"seeds":[{"user":1,"weight":1}]', [WEIGHT(10, 1, [1]), WEIGHT(20, 1, [1])]),
        ('"seeds":[{"user":9,"weight":1}]', []),
        (two + ',"since":3', [both, of_10]),
    ]:
        ask = post("/count", "{%s}" % fields)
        yield Row(f"a count {fields}", batch(*COUNTED) + ask, [posted(0, 3), found(3, *results)])
    ask = post("/count", '{%s,"since":4}' % two)
    behind = (409, '{"error":"behind","length":3}')
    yield Row("a count of a longer history", batch(*COUNTED) + ask, [posted(0, 3), behind])


def counts_by_kind():
    """A seed user counts once for each kind, and only what the mask lets through is looked at."""
    six = batch(
        *[(1, 10, "click", 5), (1, 10, "click", 5), (1, 10, "reply", 9), (2, 10, "reply", 5)],
        *[(3, 10, "click", 9), (2, 20, "tweet", 9)],
    )
    seeds = '"seeds":[{"user":1,"weight":2},{"user":2,"weight":4},{"user":3,"weight":8}]'
    all_of_10, of_20 = WEIGHT(10, 14, [1, 2, 3]), WEIGHT(20, 4, [2])
    for fields, results in [
        ("", [all_of_10, of_20]),
        (',"least":{"reply":2}', [all_of_10]),
        (',"least":{"click":2,"reply":2}', [all_of_10]),
        (',"least":{"click":3}', []),
        (',"least":{"tweet":1}', [of_20]),
        (',"kinds":["click"]', [WEIGHT(10, 10, [1, 3])]),
        (',"kinds":["click"],"least":{"reply":1}', []),
        (',"not_before":9', [WEIGHT(10, 10, [1, 3]), of_20]),
        (',"not_before":9,"least":{"click":1,"reply":1}', [WEIGHT(10, 10, [1, 3])]),
        (',"not_before":9,"least":{"reply":2}', []),
        (',"not_before":9,"kinds":["reply"]', [WEIGHT(10, 2, [1])]),
        (',"not_before":10', []),
    ]:
        ask = post("/count", "{%s%s}" % (seeds, fields))
        yield Row(f"a count of three{fields}", six + ask, [posted(0, 6), found(6, *results)])


def moments():
    """Only interactions from `not_before` on are eligible, and one without a moment has 0."""
    three = batch((1, 10, "click", 100), (1, 20, "click", 50), (2, 10, "click"))
    all_units = found(3, UNITS(10, 1572864, [1, 2]), UNITS(20, 524288, [1]))
    for field, reply in [
        (',"not_before":100', found(3, UNITS(10, 1048576, [1]))),
        (',"not_before":0', all_units),
        ("", all_units),
        (',"not_before":101', found(3)),
        (',"not_before":%d' % LAST, found(3)),
        (',"not_before":%d' % (LAST + 1), refused("range", "not_before")),
        (',"not_before":-1', refused("field", "not_before")),
        (',"not_before":null', refused("field", "not_before")),
        (',"not_before":-1,"since":-1', refused("field", "since")),
    ]:
        ask = post("/subgraph", '{"seeds":[1,2],"iterations":1%s}' % field)
        yield Row(f"units{field}", three + ask, [posted(0, 3), reply])
    for at, walked in [(100, [VISITS(10, 3, [1])]), (101, [])]:
        ask = post("/walk", '{"seeds":[1],"steps":6,"not_before":%d}' % at)
        yield Row(f"a walk from {at} on", three + ask, [posted(0, 3), found(3, *walked)])
    two = batch((1, 10, "click", LAST), (1, 20, "click", 50))
    for at, results in [(50, ['{"post":20,"co":1,"degree":1}']), (51, [])]:
        ask = post("/similar", '{"post":10,"steps":2,"seed":5,"not_before":%d}' % at)
        yield Row(f"a trip from {at} on", two + ask, [posted(0, 2), found(2, *results)])


def all_moments():
    """What is hidden, degrees, the last ends and the counts look at all kinds and moments."""
    four = [(1, 10, "reply", 0), (2, 10, "click", 9), (1, 20, "click", 9), (2, 20, "click", 9)]
    for field in ["", ',"not_before":9', ',"kinds":["click"]']:
        ask = post("/walk", '{"seeds":[1],"steps":1000,"hide":true%s}' % field)
        yield Row(f"hide{field}", batch(*four) + ask, [posted(0, 4), found(4)])
    ends = '[{"post":20,"kind":"click"},{"post":10,"kind":"reply"}]'
    user = '{"length":4,"user":1,"degree":2,"recent":%s}' % ends
    kinds = '{"click":3,"favorite":0,"retweet":0,"reply":1,"tweet":0}'
    stats = '{"length":4,"base":0,"capacity":4096,"segments":4,"kinds":%s}' % kinds
    replies = [posted(0, 4), (200, user), (200, stats)]
    yield Row("a user and the counts", batch(*four) + get("/users/1") + get("/stats"), replies)


# The window.


def windows():
    """A segment goes with the interaction after the full window."""
    for segments, full, left in [(2, 32, 17), (64, 1024, 1009)]:
        conf = (16, segments)
        many = batch((1, 10, "click"), *[(2, 20, "click")] * (full - 1))
        one = batch((2, 20, "click"))
        ends = '[{"post":10,"kind":"click"}]'
        seen = (200, '{"length":%d,"user":1,"degree":1,"recent":%s}' % (full, ends))
        gone = (200, '{"length":%d,"user":1,"degree":0,"recent":[]}' % (full + 1))
        stats = '{"length":%d,"base":16,"capacity":16,"segments":%d,"kinds":%s}' % (
            *(full + 1, segments),
            NO_KINDS.replace("0", str(left), 1),
        )
        first, last = posted(0, full), posted(full, full + 1)
        yield Row(f"{segments} full segments", many + get("/users/1"), [first, seen], conf=conf)
        stream = many + one + get("/users/1") + get("/stats")
        replies = [first, last, gone, (200, stats)]
        yield Row(f"{segments} segments and one interaction", stream, replies, conf=conf)


def long_batches():
    """A batch may be longer than the window."""
    long = batch(*[(1, 10, "click")] * 4096)
    too_long = batch(*[(1, 10, "click")] * 4097)
    empty = post("/interactions", '{"items":[]}')
    wrong = refused("range", "items")
    kinds = NO_KINDS.replace("0", "16", 1)
    stats = '{"length":4096,"base":4080,"capacity":16,"segments":1,"kinds":%s}' % kinds
    yield Row(
        "a batch of 4096",
        long + too_long + empty + get("/stats"),
        [posted(0, 4096), wrong, wrong, (200, stats)],
        conf=(16, 1),
    )
    stream = post("/interactions", LONGEST_ITEMS) + get("/users/7")
    nobody = (200, '{"length":4096,"user":7,"degree":0,"recent":[]}')
    yield Row("the longest body with items alone", stream, [posted(0, 4096), nobody])


LONGEST_ITEM = '{"user":%d,"post":%d,"kind":"favorite","at":%d}' % (LAST, LAST, LAST)
LONGEST_ITEMS = '{"items":[' + ",".join([LONGEST_ITEM] * 4096) + "]}"  # 405515 bytes


def vertices():
    rows = [(7, place, "tweet", 25 - place) for place in range(25)]
    recent = ",".join('{"post":%d,"kind":"tweet"}' % place for place in range(24, 4, -1))
    user = '{"length":25,"user":7,"degree":25,"recent":[%s]}' % recent
    vertex = '{"length":25,"post":3,"degree":1,"recent":[{"user":7,"kind":"tweet"}]}'
    stream = batch(*rows) + get("/users/007") + get("/posts/3")
    yield Row("the last twenty ends", stream, [posted(0, 25), (200, user), (200, vertex)])


def one_favorite(**more):
    items = [{"user": 1, "post": 10, "kind": "favorite"}]
    return post("/interactions", json.dumps({"items": items, **more}))


def repeated(start, length):
    return 200, '{"from":%d,"length":%d,"repeated":true}' % (start, length)


def out_of_turn(what, last):
    return 409, '{"error":"%s","last":%d}' % (what, last)


def numbers():
    """A producer's number acts once, and the next one alone is taken."""
    sent = [one_favorite(producer=5, number=number) for number in (1, 1, 3, 2, 1)]
    kinds = NO_KINDS.replace('"favorite":0', '"favorite":2')
    stats = (200, '{"length":2,"base":0,"capacity":4096,"segments":4,"kinds":%s}' % kinds)
    replies = [posted(0, 1), repeated(0, 1), out_of_turn("skipped", 1), posted(1, 2), out_of_turn("old", 2), stats]
    yield Row("one producer", b"".join(sent) + get("/stats"), replies)
    sent = [one_favorite(producer=producer, number=1) for producer in (1, 1024, 2, 1)] + [one_favorite()]
    replies = [posted(0, 1), posted(1, 2), posted(2, 3), repeated(0, 1), posted(3, 4)]
    yield Row("each producer has numbers of its own", b"".join(sent), replies)
    other = '{"number":1,"items":[{"kind":"click","post":20,"user":2}],"producer":5}'
    stream = one_favorite(producer=5, number=1) + post("/interactions", other)
    yield Row("a number repeats whatever its items", stream, [posted(0, 1), repeated(0, 1)])
    for fields, what, name in [
        ({"producer": 1025, "number": 1}, "range", "producer"),
        ({"producer": -1, "number": 1}, "field", "producer"),
        ({"producer": 5}, "range", "number"),
        ({"number": 5}, "range", "number"),
        ({"producer": 5, "number": 2**48 + 1}, "range", "number"),
        ({"producer": 1025, "number": "1"}, "range", "producer"),
        ({"producer": 0, "number": "1"}, "field", "number"),
    ]:
        yield Row(f"numbers {fields}", one_favorite(**fields), [refused(what, name)])
    last = one_favorite(producer=5, number=2**48)
    yield Row("the last number", last, [out_of_turn("skipped", 0)])
    yield Row("zeros stand for no number", one_favorite(producer=0, number=0) * 2, [posted(0, 1), posted(1, 2)])


def pages():
    """The interactions from a place on, a thousand at most, as long as the window has the place."""
    first = '{"length":1,"from":0,"items":[{"user":1,"post":10,"kind":"favorite","at":0}]}'
    replies = [posted(0, 1), (200, first), (200, '{"length":1,"from":1,"items":[]}'), (409, '{"error":"ahead","length":1}')]
    yield Row("three places", FIRST + b"".join(get(f"/log/{place}") for place in range(3)), replies)
    gone = (409, '{"error":"gone","length":33,"base":16}')
    items = ['{"user":7,"post":%d,"kind":"tweet","at":0}' % place for place in range(33)]
    last = (200, '{"length":33,"from":16,"items":[%s]}' % ",".join(items[16:]))
    stream = batch(*[(7, place, "tweet") for place in range(33)]) + get("/log/15") + get("/log/16")
    yield Row("a place before the window", stream, [posted(0, 33), gone, last], conf=(16, 2))
    items = ['{"user":7,"post":%d,"kind":"tweet","at":3}' % place for place in range(1002)]
    whole = (200, '{"length":1002,"from":2,"items":[%s]}' % ",".join(items[2:]))
    page = (200, '{"length":1002,"from":1,"items":[%s]}' % ",".join(items[1:1001]))
    stream = batch(*[(7, place, "tweet", 3) for place in range(1002)]) + get("/log/1") + get("/log/02?x")
    yield Row("a thousand interactions", stream, [posted(0, 1002), page, whole])
    for path, reply in [
        ("/log/x", refused("field", "from")),
        ("/log/-1", refused("field", "from")),
        ("/log/%d" % 2**48, (409, '{"error":"ahead","length":0}')),
        ("/log/%d" % (2**48 + 1), refused("range", "from")),
        ("/log", NO_ROUTE),
        ("/log/", NO_ROUTE),
    ]:
        yield Row(path, get(path), [reply])
    yield Row("a page by POST", post("/log/0", "{}"), [NO_METHOD], contains=(b"\r\nAllow: GET\r\n",))


# Heads.


def refused_streams():
    """A refusal of the stream closes it."""
    blank = b"\r\n" * 4096
    for stream, status, error in [
        (b"POST /walk HTTP/1.1\r\nContent-Length: 1048577\r\n\r\n", 413, "body_long"),
        (b"POST /walk HTTP/1.1\r\nContent-Length: 5x\r\n\r\n", 400, "length"),
        (b"GET / HTTP/1.1\r\nContent-Length: 0\r\ncontent-length:0\r\n\r\n", 400, "length"),
        (b"GET / HTTP/1.1\r\nContent-Length: x\r\ntransfer-ENCODING: x\r\n\r\n", 501, "coded"),
        (b"a" * 8192, 431, "head_long"),
        (blank, 431, "head_long"),
        (b"GET\r\n\r\n", 400, "head"),
        (b"GET /stats HTTP/2.0\r\n\r\n", 400, "head"),
        (b"GET  /stats HTTP/1.1\r\n\r\n", 400, "head"),
        (b"GET /\xff HTTP/1.1\r\n\r\n", 400, "head"),
        (b"GET /stats HTTP/1.1\r\na : 1\r\n\r\n", 400, "head"),
        (b"GET /stats HTTP/1.1\r\na: 1\r\n b\r\n\r\n", 400, "head"),
        (b"GET /stats HTTP/1.1\r\n" + b"a:\r\n" * 65 + b"\r\n", 400, "head"),
    ]:
        reply = (status, '{"error":"%s"}' % error)
        closes = b"\r\nConnection: close\r\n"
        yield Row(str(stream[:60]), stream + get("/stats"), [reply], status=9, contains=(closes,))
    yield Row("blank lines that end with a lone carriage return", blank[:-1], [], status=6)
    yield Row("blank lines alone", blank[:-2], [])


def whole_heads():
    fields = b"GET /none HTTP/1.1\n" + b"a:\n" * 64 + b"\n"
    longest = b"GET /" + b"a" * 8175 + b" HTTP/1.1\r\n\n"  # 8192 bytes
    for stream in [fields, longest]:
        yield Row("a head at its limit", stream, [NO_ROUTE])
    yield Row("past the limit", b"\n" + longest, [(431, '{"error":"head_long"}')], status=9)


def closings():
    for head, status, reply in [
        (b"GET /stats HTTP/1.1\r\n", 0, EMPTY_STATS),
        (b"GET /stats HTTP/1.0\r\n", 9, EMPTY_STATS),
        (b"GET /stats HTTP/1.0\r\nConnection: Keep-Alive\r\n", 0, EMPTY_STATS),
        (b"GET /stats HTTP/1.0\r\nConnection: keep-alive, x, CLOSE\r\n", 9, EMPTY_STATS),
        (b"GET /stats HTTP/1.1\r\nconnection:x\r\nCONNECTION:\ty ,\tclose\t\r\n", 9, EMPTY_STATS),
        (b"GET /stats HTTP/1.1\r\nconnection: closed\r\n", 0, EMPTY_STATS),
        (b"HEAD /stats HTTP/1.1\r\n", 9, NO_METHOD),
        (b"head /stats HTTP/1.1\r\n", 0, NO_METHOD),
    ]:
        replies = [reply] if status else [reply, EMPTY_STATS]
        yield Row(str(head), head + b"\r\n" + get("/stats"), replies, status=status)


# Refused requests, which leave the session open.


def refused_bodies():
    seeds = ",".join(str(id) for id in range(1001))
    for body, what, name in [
        ("{", "json", None),
        ("", "json", None),
        (b"\xff", "json", None),
        ('{"seeds":[1],"steps":1}x', "json", None),
        ("[" * 200, "json", None),
        ("[]", "field", "body"),
        ('{"seeds":[1],"steps":1,"x":0}', "field", "unknown"),
        ('{"seeds":[1],"steps":1,"at":0}', "field", "unknown"),
        ('{"x":0}', "field", "unknown"),
        ('{"seeds":[1]}', "field", "steps"),
        ('{"seeds":[1],"steps":"6"}', "field", "steps"),
        ('{"seeds":[1],"steps":6.0}', "field", "steps"),
        ('{"seeds":[1],"steps":1e2}', "field", "steps"),
        ('{"seeds":[1],"steps":-1}', "field", "steps"),
        ('{"seeds":[1],"steps":null}', "field", "steps"),
        ('{"seeds":[1],"steps":18446744073709551616}', "field", "steps"),
        ('{"seeds":[1],"steps":18446744073709551615}', "range", "steps"),
        ('{"seeds":[1],"steps":0}', "range", "steps"),
        ('{"seeds":[1],"steps":1,"steps":0}', "range", "steps"),
        ('{"seeds":[1,1],"steps":5}', "range", "seeds"),
        ('{"seeds":[],"steps":5}', "range", "seeds"),
        ('{"seeds":[%s],"steps":5}' % seeds, "range", "seeds"),
        ('{"seeds":[null],"steps":5}', "field", "seeds"),
        ('{"seeds":[9223372036854775808],"steps":5}', "range", "seeds"),
        ('{"seeds":[1],"steps":5,"kinds":[]}', "range", "kinds"),
        ('{"seeds":[1],"steps":5,"kinds":["like"]}', "range", "kinds"),
        ('{"seeds":[1],"steps":5,"kinds":[1]}', "field", "kinds"),
        ('{"seeds":[1],"steps":5,"hide":1}', "field", "hide"),
        ('{"seeds":[1],"steps":5,"since":281474976710657}', "range", "since"),
        ('{"seeds":[1],"steps":5,"not_before":9223372036854775808}', "range", "not_before"),
    ]:
        stream = post("/walk", body) + get("/none")
        yield Row(f"{body[:60]!r}", stream, [refused(what, name), NO_ROUTE])


def refused_counts():
    """The faults of seed users and of the least are named in their order."""
    one = '{"user":1,"weight":1}'
    many = ",".join('{"user":%d,"weight":1}' % id for id in range(1001))
    for fields, what, name in [
        ('"least":[]', "field", "seeds"),
        ('"seeds":%s,"x":1' % one, "field", "unknown"),
        ('"seeds":[%s],"steps":1' % one, "field", "unknown"),
        ('"seeds":' + one, "field", "seeds"),
        ('"seeds":[]', "range", "seeds"),
        ('"seeds":[%s]' % many, "range", "seeds"),
        ('"seeds":[%s,null]' % many, "range", "seeds"),
        ('"seeds":[1]', "field", "seeds"),
        ('"seeds":[null,{"user":-1}]', "field", "seeds"),
        ('"seeds":[{"user":-1},null]', "field", "user"),
        ('"seeds":[{"user":-1,"id":1}]', "field", "unknown"),
        ('"seeds":[{}]', "field", "user"),
        ('"seeds":[{"weight":0}]', "field", "user"),
        ('"seeds":[{"user":9223372036854775808,"weight":0}]', "range", "user"),
        ('"seeds":[{"user":1}]', "field", "weight"),
        ('"seeds":[{"user":1,"weight":1.0}]', "field", "weight"),
        ('"seeds":[{"user":1,"weight":0}]', "range", "weight"),
        ('"seeds":[{"user":1,"weight":1000001}]', "range", "weight"),
        ('"seeds":[%s,{"user":1,"weight":0}]' % one, "range", "weight"),
        ('"seeds":[%s,{"user":1,"weight":2}]' % one, "range", "seeds"),
        ('"seeds":[%s,{"user":1,"weight":2},null]' % one, "range", "seeds"),
        ('"seeds":[null],"kinds":1,"least":1', "field", "seeds"),
        ('"seeds":[%s],"kinds":[],"least":1' % one, "range", "kinds"),
        ('"seeds":[%s],"least":null' % one, "field", "least"),
        ('"seeds":[%s],"least":[],"top":0' % one, "field", "least"),
        ('"seeds":[%s],"least":{"like":0,"click":-1}' % one, "field", "unknown"),
        ('"seeds":[%s],"least":{"click":1001}' % one, "range", "least"),
        ('"seeds":[%s],"least":{"tweet":-1,"click":1001}' % one, "range", "least"),
        ('"seeds":[%s],"least":{"tweet":1001,"click":"1"}' % one, "field", "least"),
        ('"seeds":[%s],"least":{},"top":0,"proof":11' % one, "range", "top"),
        ('"seeds":[%s],"proof":11,"since":-1' % one, "range", "proof"),
        ('"seeds":[%s],"since":-1,"not_before":-1' % one, "field", "since"),
        ('"seeds":[%s],"not_before":-1' % one, "field", "not_before"),
    ]:
        stream = post("/count", "{%s}" % fields) + get("/none")
        yield Row(fields[-60:], stream, [refused(what, name), NO_ROUTE])
    good = '{"seeds":[%s],"least":{"click":1000,"favorite":1000,"retweet":1000,"reply":1000,"tweet":1000}}'
    all_but_one = many.rpartition(",{")[0]
    yield Row("a count at its limits", post("/count", good % all_but_one), [found(0)])


def refused_items():
    """An item's faults are named in their order, and nothing of its batch is accepted."""
    good = '{"user":1,"post":2,"kind":"tweet"}'
    for element, what, name in [
        ("1", "field", "items"),
        ('{"user":1,"x":1}', "field", "unknown"),
        ('{"user":1,"post":2,"kind":"tweet","not_before":0}', "field", "unknown"),
        ('{"post":-1,"kind":1}', "field", "user"),
        ('{"user":1,"post":9223372036854775808,"kind":1}', "range", "post"),
        ('{"user":1,"post":2}', "field", "kind"),
        ('{"user":1,"post":2,"kind":"like","at":-1}', "range", "kind"),
        ('{"user":1,"post":2,"kind":"click","at":-1}', "field", "at"),
        ('{"user":1,"post":2,"kind":"click","at":null}', "field", "at"),
        ('{"user":1,"post":2,"kind":"click","at":9223372036854775808}', "range", "at"),
    ]:
        body = '{"items":[%s,%s,{}]}' % (good, element)
        stream = post("/interactions", body) + get("/stats")
        yield Row(element, stream, [refused(what, name), EMPTY_STATS])


def paths():
    for path, reply in [
        ("/users/abc", refused("field", "id")),
        ("/users/+1", refused("field", "id")),
        ("/users/%31", refused("field", "id")),
        ("/posts/9223372036854775808", refused("range", "id")),
        ("/posts/" + "9" * 5000, refused("range", "id")),
        ("/users/" + "0" * 5000, (200, '{"length":0,"user":0,"degree":0,"recent":[]}')),
        ("/posts/01?x", (200, '{"length":0,"post":1,"degree":0,"recent":[]}')),
        ("/users/", NO_ROUTE),
        ("/users/1/", NO_ROUTE),
        ("/none", NO_ROUTE),
        ("?/stats", NO_ROUTE),
        ("/walk", NO_METHOD),
        ("/count", NO_METHOD),
        ("/count/", NO_ROUTE),
    ]:
        yield Row(path[:40], get(path), [reply])
    for stream, method in [(get("/walk"), b"POST"), (post("/users/x", "{"), b"GET")]:
        allow = b"keep-alive\r\nAllow: " + method + b"\r\n\r\n"
        yield Row(f"{method} is allowed", stream, [NO_METHOD], contains=(allow,))


SECTIONS = [
    *[whole_sessions, cut_sessions, walks, subgraphs, similarities, counts, counts_by_kind],
    *[moments, all_moments, numbers, pages],
    *[windows, long_batches, vertices, refused_streams, whole_heads, closings],
    *[refused_bodies, refused_counts, refused_items, paths],
]

# What the program's words are, and its status without input.
WORDS = [
    ([], 2),
    (["replays"], 2),
    (["replay"], 0),
    (["replay", "x"], 2),
    (["replay", "--help"], 2),
]

# The same with options, of a program that has them.
OPTIONS = [
    (["replay", "--capacity", "16", "--segments=2"], 0),
    (["replay", "--segments", "64"], 0),
    (["replay", "--segments", "65"], 2),
    (["replay", "--capacity", "15"], 2),
    (["replay", "--capacity"], 2),
    (["replay", "--capacity", "16", "--capacity", "16"], 2),
]
