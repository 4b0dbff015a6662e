"""What each query answers over the window of the history, as a tree in the order of its names."""

from collections import Counter, defaultdict
from fractions import Fraction
from itertools import islice

from bodies import KINDS
from draws import pick, resets, words

FIRST_UNITS = 2**20
MOST_RECENT = 20
LONGEST_PAGE = 1000


class History:
    """All accepted interactions. A query sees the window at their end."""

    def __init__(self, capacity, segments):
        self.capacity = capacity
        self.segments = segments
        self.items = []

    def length(self):
        return len(self.items)

    def base(self):
        """The window's first place: a segment goes with the interaction after the full window."""
        if not self.items:
            return 0
        newest = (self.length() - 1) // self.capacity
        return self.capacity * max(0, newest - self.segments + 1)

    def window(self):
        return self.items[self.base() :]


def eligible(window, ask):
    """The interactions that the query looks at: by their kind and by their moment."""
    return [item for item in window if item.kind in ask.kinds and item.at >= ask.not_before]


def ends(window, ask):
    """For each user the posts, and for each post the users, of the eligible interactions.

    The oldest comes first, and repeats stay.
    """
    posts_of, users_of = defaultdict(list), defaultdict(list)
    for item in eligible(window, ask):
        posts_of[item.user].append(item.post)
        users_of[item.post].append(item.user)
    return posts_of, users_of


def visits(window, ask):
    """How often a walk of `steps` steps from the seed users is at each post."""
    posts_of, users_of = ends(window, ask)
    found = Counter()
    user = post = None  # neither: the walk is about to choose a seed user
    for word in islice(words(ask.seed), ask.steps):
        if user is not None:
            posts = posts_of.get(user)
            user = None
            if posts:
                post = posts[pick(word, len(posts))]
                found[post] += 1
        elif post is not None:
            users = users_of[post]
            user = None if resets(word, ask.reset) else users[pick(word, len(users))]
            post = None
        else:
            user = ask.seeds[pick(word, len(ask.seeds))]
    return found


def half_step(edges, units):
    """The units on the far side, once each vertex gave its own to its edges.

    An edge is the giver and the taker. Each edge carries an equal share, and the first ones
    carry what is left over, one unit each.
    """
    degree = Counter(giver for giver, _ in edges)
    served, taken = Counter(), Counter()
    for giver, taker in edges:
        share, left_over = divmod(units[giver], degree[giver])
        taken[taker] += share + (1 if served[giver] < left_over else 0)
        served[giver] += 1
    return taken


def masses(window, ask):
    """The units of each post, after they spread over the seed users' own interactions."""
    seeds = set(ask.seeds)
    out = [(item.user, item.post) for item in eligible(window, ask) if item.user in seeds]
    back = [(post, user) for user, post in out]
    units = half_step(out, {user: FIRST_UNITS for user, _ in out})
    for _ in range(ask.iterations - 1):
        units = half_step(out, half_step(back, units))
    return units


def shared(window, ask):
    """How often a walk of two-step trips from the post comes to each other post."""
    posts_of, users_of = ends(window, ask)
    co = Counter()
    user = None  # the walk is at the post itself
    for word in islice(words(ask.seed), ask.steps):
        if user is None:
            users = users_of.get(ask.post)
            if users:
                user = users[pick(word, len(users))]
        else:
            posts = posts_of[user]
            post = posts[pick(word, len(posts))]
            if post != ask.post:
                co[post] += 1
            user = None
    return co


def weights(window, ask):
    """For each post the sum of the weights of the seed users that interacted with it.

    A post that too few of them interacted with by some kind has none.
    """
    by_kind = defaultdict(set)
    for item in eligible(window, ask):
        if item.user in ask.seeds:
            by_kind[item.post, item.kind].add(item.user)
    found = {}
    for post in {post for post, _ in by_kind}:
        users_by = {kind: by_kind.get((post, kind), set()) for kind in KINDS}
        if all(len(users_by[kind]) >= ask.least[kind] for kind in KINDS):
            found[post] = sum(ask.seeds[user] for user in set().union(*users_by.values()))
    return found


def ranked(numbers, top):
    """Posts with their numbers above 0: the largest first, then the lower identifier."""
    pairs = [(post, number) for post, number in numbers.items() if number > 0]
    return sorted(pairs, key=lambda pair: (-pair[1], pair[0]))[:top]


def with_proofs(window, ask, name, pairs):
    """The results of a ranking, each with the seed users that lead to the post."""
    _, users_of = ends(window, ask)
    results = []
    for post, number in pairs:
        social_proof = sorted(set(ask.seeds) & set(users_of[post]))[: ask.proof]
        results.append({"post": post, name: number, "proof": social_proof})
    return results


def answer_walk(window, ask):
    found = visits(window, ask)
    if ask.hide:  # by all interactions of the seed users, and not by the eligible ones alone
        seeds = set(ask.seeds)
        for post in {item.post for item in window if item.user in seeds}:
            found.pop(post, None)
    return with_proofs(window, ask, "visits", ranked(found, ask.top))


def answer_subgraph(window, ask):
    return with_proofs(window, ask, "units", ranked(masses(window, ask), ask.top))


def answer_similar(window, ask):
    """The other posts by co^2 over their degree: the largest first, then the lower identifier."""
    _, users_of = ends(window, ask)
    scores = [(co, len(users_of[post]), post) for post, co in shared(window, ask).items()]
    scores.sort(key=lambda score: (-Fraction(score[0] ** 2, score[1]), score[2]))
    return [{"post": post, "co": co, "degree": degree} for co, degree, post in scores[: ask.top]]


def answer_count(window, ask):
    return with_proofs(window, ask, "weight", ranked(weights(window, ask), ask.top))


QUERIES = {
    "walk": answer_walk,
    "subgraph": answer_subgraph,
    "similar": answer_similar,
    "count": answer_count,
}


def answer_query(history, route, ask):
    """The status and the tree of the reply to a query with a body."""
    if ask.since > history.length():
        return 409, {"error": "behind", "length": history.length()}
    results = QUERIES[route](history.window(), ask)
    return 200, {"length": history.length(), "results": results}


def answer_vertex(history, side, id):
    """A user or a post, with its degree and its last ends, the newest first, of all kinds and
    moments."""
    across = "post" if side == "user" else "user"
    of_vertex = [item for item in history.window() if getattr(item, side) == id]
    recent = of_vertex[::-1][:MOST_RECENT]
    return 200, {
        "length": history.length(),
        side: id,
        "degree": len(of_vertex),
        "recent": [{across: getattr(item, across), "kind": item.kind} for item in recent],
    }


def answer_stats(history):
    counts = Counter(item.kind for item in history.window())
    return 200, {
        "length": history.length(),
        "base": history.base(),
        "capacity": history.capacity,
        "segments": history.segments,
        "kinds": {kind: counts[kind] for kind in KINDS},
    }


def answer_log(history, start):
    """The interactions from a place on, if the window has it."""
    if start < history.base():
        return 409, {"error": "gone", "length": history.length(), "base": history.base()}
    if start > history.length():
        return 409, {"error": "ahead", "length": history.length()}
    items = history.items[start : start + LONGEST_PAGE]
    return 200, {"length": history.length(), "from": start, "items": [item._asdict() for item in items]}


def post_batch(history, producers, ask):
    """Takes a batch, a numbered one at most once. `producers` has the last number of each and its reply."""
    last, reply = producers.get(ask.producer, (0, None))
    if ask.producer and ask.number == last:
        return 200, {**reply, "repeated": True}
    if ask.producer and ask.number != last + 1:
        return 409, {"error": "old" if ask.number < last else "skipped", "last": last}
    before = history.length()
    history.items += ask.items
    reply = {"from": before, "length": history.length()}
    if ask.producer:
        producers[ask.producer] = (ask.number, reply)
    return 200, reply
