"""The run of many random cases, each by the program and by the model."""

import argparse
from concurrent.futures import ThreadPoolExecutor
from pathlib import Path


def arguments(description, first, count):
    """The options that all comparisons have: `first` says what the first number is of, and `count` how many there are."""
    parser = argparse.ArgumentParser(description=description)
    parser.add_argument("--program", required=True)
    parser.add_argument("--count", type=int, default=count)
    parser.add_argument("--seed", type=int, default=1, help=f"the number of the first {first}")
    parser.add_argument("--jobs", type=int, default=2, help="programs that run at a time")
    return parser


def compare(description, name, count, case):
    """The status of a comparison. `case` makes the case with a number; the first one that differs is told."""
    settings = arguments(description, name, count).parse_args()
    program = Path(settings.program).resolve()
    numbers = range(settings.seed, settings.seed + settings.count)
    with ThreadPoolExecutor(settings.jobs) as pool:
        for number, what in zip(numbers, pool.map(lambda number: case(number).difference(program), numbers)):
            if what:
                print(f"{name} {number} differs: {what}")
                return 1
    print(f"{settings.count} {name}s agree")
    return 0
