#!/usr/bin/env python3
"""Prints what /stats of servers tells, in Prometheus' text form, for its textfile collector:

    examples/metrics.py http://127.0.0.1:8017 http://127.0.0.1:8018 > graphjet.prom.new && mv graphjet.prom.new graphjet.prom

graphjet_up is 0 for a server that doesn't answer, and the status is then 1. What a replica lags behind is the difference of
the lengths.
"""

import os
import sys

sys.path.insert(0, os.path.join(os.path.dirname(os.path.abspath(__file__)), "..", "clients", "python"))
try:
    from graphjet import Client, Error
except ImportError as error:
    sys.exit("metrics.py: %s" % error)

NUMBERS = [
    ("up", "gauge", "Whether the server answers."),
    ("length", "counter", "Interactions that were accepted."),
    ("base", "counter", "Interactions that have left the window."),
    ("capacity", "gauge", "Interactions of a segment."),
    ("segments", "gauge", "Segments of the window."),
    ("window", "gauge", "Interactions in the window, by kind."),
]


def stats_of(url):
    """What the server tells, or that it doesn't answer."""
    try:
        with Client(url, connections=1, timeout=5) as client:
            return {"up": 1, **client.stats()}
    except Error as error:
        print("metrics.py: %s: %s" % (url, error), file=sys.stderr)
        return {"up": 0}


def main(urls):
    told = {url: stats_of(url) for url in urls}
    for name, kind, text in NUMBERS:
        print("# HELP graphjet_%s %s\n# TYPE graphjet_%s %s" % (name, text, name, kind))
        for url, stats in told.items():
            if name in stats:
                print('graphjet_%s{server="%s"} %d' % (name, url, stats[name]))
            for each, count in stats.get("kinds", {}).items():
                if name == "window":
                    print('graphjet_window{server="%s",kind="%s"} %d' % (url, each, count))
    return 0 if all(stats["up"] for stats in told.values()) else 1


try:
    sys.exit(main(sys.argv[1:] or ["http://127.0.0.1:8017"]))
except ValueError as error:
    sys.exit("metrics.py: %s" % error)
