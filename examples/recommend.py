#!/usr/bin/env python3
"""A made-up site: 300 users and 600 posts in six clusters of interests. A user's interactions are with posts of its own
cluster, but for one in ten. They are posted, and each user is recommended the first five posts of a walk that it has not
interacted with. Nothing tells the server of clusters; how many of these posts are of the user's own is written.

    examples/recommend.py [http://127.0.0.1:8017 [docs/recommend.png]]
"""

import os
import random
import sys

sys.path.insert(0, os.path.join(os.path.dirname(os.path.abspath(__file__)), "..", "clients", "python"))
try:
    from graphjet import Client, Error
except ImportError as error:
    sys.exit("recommend.py: %s" % error)

USERS, POSTS, CLUSTERS, EACH = 300, 600, 6, 20


def cluster(vertex, of):
    """Users and posts are numbered cluster by cluster."""
    return vertex * CLUSTERS // of


def made_up(rng):
    """The site's interactions, in the order in which they happen. Of a cluster's posts the first ones are the best liked."""
    size, made = POSTS // CLUSTERS, []
    for user in range(USERS):
        for _ in range(EACH):
            own = cluster(user, USERS) if rng.random() < 0.9 else rng.randrange(CLUSTERS)
            post = own * size + int(size * rng.random() ** 1.5)
            made.append({"user": user, "post": post, "kind": rng.choice(["click", "click", "favorite", "retweet"])})
    rng.shuffle(made)
    return made


def draw(made, recommended, path):
    """Both as points, a row a user and a column a post, so that clusters are squares."""
    try:
        import matplotlib
    except ImportError:
        sys.exit("recommend.py: no picture, since there is no matplotlib (Debian: apt-get install python3-matplotlib)")
    matplotlib.use("Agg")
    from matplotlib import pyplot

    figure, sides = pyplot.subplots(1, 2, figsize=(11, 4.6), sharey=True, constrained_layout=True)
    did = [(item["post"], item["user"]) for item in made]
    for side, title, pairs in zip(sides, ("What users did", "What they are recommended"), (did, recommended)):
        own = [cluster(post, POSTS) == cluster(user, USERS) for post, user in pairs]
        for colour, mark in (("tab:blue", True), ("tab:red", False)):
            points = [pair for pair, is_own in zip(pairs, own) if is_own == mark]
            side.scatter(*zip(*points) if points else ((), ()), s=3, c=colour, linewidths=0)
        side.set_title("%s: %.1f %% in their own cluster" % (title, 100 * sum(own) / len(own)))
        side.set_xlabel("post")
        side.set_xlim(0, POSTS)
    sides[0].set_ylabel("user")
    sides[0].set_ylim(0, USERS)
    figure.savefig(path, dpi=110)


def main(url="http://127.0.0.1:8017", picture=None):
    made, recommended = made_up(random.Random(1)), []
    with Client(url, connections=1) as client:
        if client.stats()["length"]:
            sys.exit("recommend.py: the server has a history, and this would add to it")
        for begin in range(0, len(made), 1000):
            client.post(made[begin : begin + 1000])
        for user in range(USERS):
            walk = client.walk([user], 1000, reset=5000, hide=True, top=5, since=len(made))
            recommended += [(result["post"], user) for result in walk["results"]]
    own = sum(cluster(post, POSTS) == cluster(user, USERS) for post, user in recommended)
    print("%d of %d recommended posts are of the user's own cluster" % (own, len(recommended)))
    if picture:
        draw(made, recommended, picture)


if len(sys.argv) > 3:
    sys.exit("usage: recommend.py [URL [PICTURE]]")
try:
    main(*sys.argv[1:])
except (Error, OSError, ValueError) as error:
    sys.exit("recommend.py: %s" % error)
