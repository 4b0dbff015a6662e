"""Random sessions, run through the program and through the model, and compared.

    python3 tests/model/sessions.py --program crates/graphjet/out/graphjet --count 2000 --seed 1

Each session is a stream of bytes that its number fixes. The program gets it on its standard
input; its output, its status and its line on standard error must be the model's, byte for byte.
At the first session that differs, the number, the stream and both answers are shown, and
`--count 1 --seed` with that number runs it again.
"""

import os
import random
import subprocess
import sys
import tempfile
import threading
import time
from concurrent.futures import ThreadPoolExecutor
from pathlib import Path

from agreement import arguments
from heads import NeedMore, Refused, take_message
from model import FIRST_ROUTES, OPTIONS, ROUTES, run
from streams import a_session

LONGEST_RUN = 120  # seconds
WHOLE = 65536  # bytes that are written at a time where a stream isn't handed over in small pieces

ODD_ARGUMENTS = [
    *[[], [""], ["replays"], ["Replay"], ["-h"], ["--help"], ["--version"]],
    *[["replay", "x"], ["replay", ""], ["replay", "replay"], ["replay", "--help"]],
    *[["replay", "-V"], ["replay", "--none", "1"], ["replay", "--none=1"]],
]


def some_arguments(rng, options):
    if rng.random() < 0.01:
        return rng.choice(ODD_ARGUMENTS)
    arguments = ["replay"]
    for name, (least, most) in options.items():
        if rng.random() < 0.7:
            good = rng.choice([least, least, least + 1, most])
            value = good if rng.random() < 0.95 else rng.choice([least - 1, most + 1])
            text = "0" * rng.choice([0, 0, 2]) + str(value)
            arguments += [f"{name}={text}"] if rng.random() < 0.5 else [name, text]
    return arguments


class Session:
    """A session by its number: its arguments, its stream, and how the stream is handed over."""

    def __init__(self, number, settings):
        rng = random.Random(number)
        self.number = number
        self.arguments = some_arguments(rng, settings.options)
        self.stream = a_session(rng, settings.routes)
        self.piece = rng.choice([WHOLE] * 5 + [rng.choice([1, 3, 100, 5000])])
        if len(self.stream) > 20000:
            self.piece = WHOLE

    def run_program(self, program):
        """The program's output, status and line on standard error."""
        with tempfile.TemporaryFile() as output, tempfile.TemporaryFile() as lines:
            command = [str(program), *self.arguments]
            running = subprocess.Popen(command, stdin=subprocess.PIPE, stdout=output, stderr=lines)
            with running:
                guard = threading.Timer(LONGEST_RUN, running.kill)
                guard.start()
                self.hand_over(running.stdin)
                status = running.wait()
                guard.cancel()
            output.seek(0)
            lines.seek(0)
            return output.read(), status, lines.read()

    def hand_over(self, pipe):
        try:
            for at in range(0, len(self.stream), self.piece):
                os.write(pipe.fileno(), self.stream[at : at + self.piece])
            pipe.close()
        except BrokenPipeError:
            pass  # the session closed, and the rest isn't read

    def run_model(self, settings):
        return run(self.arguments, self.stream, settings.options, settings.routes)


def message_behind(session, at, settings):
    """The part of the input that the model answers with the byte at this place of its output."""
    rest = session.stream
    while True:
        try:
            _, after = take_message(rest)
        except (NeedMore, Refused):
            return rest
        shorter = session.stream[: len(session.stream) - len(after)]
        output, _, _ = run(session.arguments, shorter, settings.options, settings.routes)
        if len(output) > at:
            return rest[: len(rest) - len(after)]
        rest = after


def cut_short(found):
    return repr(found) if len(found) <= 1000 else f"{found[:500]!r} .. {found[-500:]!r}"


def show_difference(session, program, model, settings):
    size = len(session.stream)
    print(f"session {session.number} differs: arguments {session.arguments}, {size} bytes of input")
    at = len(os.path.commonprefix([program[0], model[0]]))
    print(f"byte {at} of the output is about {cut_short(message_behind(session, at, settings))}")
    start = max(0, at - 200)
    for what, ours, theirs in zip(("output", "status", "line"), program, model):
        if ours == theirs:
            continue
        if what == "output":
            ours, theirs = ours[start : at + 300], theirs[start : at + 300]
        print(f"program's {what}: {ours}\n  model's {what}: {theirs}")


def compare(settings):
    """Whether all sessions agree. The first one that doesn't is shown."""
    program = Path(settings.program).resolve()
    numbers = range(settings.seed, settings.seed + settings.count)
    started = time.monotonic()
    with ThreadPoolExecutor(settings.jobs) as pool:
        for first in range(0, len(numbers), 64):
            sessions = [Session(number, settings) for number in numbers[first : first + 64]]
            runs = [pool.submit(session.run_program, program) for session in sessions]
            for session, run_of in zip(sessions, runs):
                expected, found = session.run_model(settings), run_of.result()
                if found != expected:
                    show_difference(session, found, expected, settings)
                    if settings.keep:
                        Path(settings.keep).write_bytes(session.stream)
                    return False
    print(f"took {time.monotonic() - started:.0f} s", file=sys.stderr)
    return True


def main():
    parser = arguments("random sessions, by the program and the model", "session", 2000)
    option = parser.add_argument
    option("--only-first-routes", action="store_true", help="without /subgraph, /similar and /count")
    option("--options", action="store_true", help="with --capacity and --segments")
    option("--keep", help="a file for the input of a session that differs")
    settings = parser.parse_args()
    settings.routes = FIRST_ROUTES if settings.only_first_routes else ROUTES
    settings.options = OPTIONS if settings.options else {}
    if not compare(settings):
        return 1
    print(f"{settings.count} sessions agree")
    return 0


if __name__ == "__main__":
    sys.exit(main())
