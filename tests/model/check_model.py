"""The rows, on the model and on the program, and the model's own parts.

    python3 tests/model/check_model.py --program crates/graphjet/out/graphjet

Without `--program` the rows run on the model alone. `--options` says that the program has
`--capacity` and `--segments`; without it, rows of another window than the default run on the
model alone.
"""

import argparse
import subprocess
import sys
import unittest

from answers import History
from draws import pick, resets, words
from json_text import NoReading, tree_of
from model import FIRST_ROUTES, replay, run
from rows import DEFAULT, LINES, LONGEST_ITEMS, OPTIONS, SECTIONS, WORDS, post

LONGEST_RUN = 120  # seconds


def replies(output):
    """The replies of an output, each as its status and its body."""
    found = []
    while output:
        head, _, rest = output.partition(b"\r\n\r\n")
        length = int(head.split(b"Content-Length: ")[1].split(b"\r\n")[0])
        found.append((int(head.split()[1]), rest[:length].decode()))
        output = rest[length:]
    return found


class OnModel(unittest.TestCase):
    """Each row on the model."""

    has_options = True

    def run_on(self, arguments, stream):
        """The output, the status and the line on standard error."""
        return run(arguments, stream)

    def check(self, row):
        arguments = ["replay"]
        if row.conf != DEFAULT:
            arguments += ["--capacity", str(row.conf[0]), "--segments", str(row.conf[1])]
        output, status, line = self.run_on(arguments, row.stream)
        self.assertEqual(replies(output), row.replies)
        self.assertEqual((status, line), (row.status, LINES[row.status]))
        for part in row.contains:
            self.assertIn(part, output)

    def test_rows(self):
        for section in SECTIONS:
            for row in section():
                if self.has_options or row.conf == DEFAULT:
                    with self.subTest(section=section.__name__, row=row.says):
                        self.check(row)

    def test_words(self):
        for arguments, expected in WORDS + (OPTIONS if self.has_options else []):
            with self.subTest(arguments):
                output, status, line = self.run_on(arguments, b"")
                self.assertEqual((output, status, line), (b"", expected, LINES[expected]))


class OnProgram(OnModel):
    """Each row on the program."""

    program = None

    def setUp(self):
        if not self.program:
            self.skipTest("no --program")

    def run_on(self, arguments, stream):
        command = [self.program, *arguments]
        ended = subprocess.run(command, input=stream, capture_output=True, timeout=LONGEST_RUN)
        return ended.stdout, ended.returncode, ended.stderr


class Parts(unittest.TestCase):
    """What the rows don't reach."""

    def test_the_longest_body_with_items_alone(self):
        self.assertEqual(len(LONGEST_ITEMS), 405515)

    def test_a_session_before_all_routes_are_there(self):
        output, _ = replay(post("/similar", "{}"), History(4096, 4), routes=FIRST_ROUTES)
        self.assertEqual(replies(output), [(404, '{"error":"route"}')])

    def test_a_program_without_options(self):
        self.assertEqual(run(["replay", "--segments", "1"], b"", options={})[1], 2)

    def test_draws(self):
        for word, degree, index in [(0, 5, 0), (2**64 - 1, 5, 4), (2**63, 2, 1)]:
            self.assertEqual(pick(word, degree), index)
        self.assertFalse(resets(0, 0))
        self.assertTrue(resets(2**64 - 1, 10000))
        self.assertNotEqual(next(words(0)), next(words(1)))

    def test_trees(self):
        for text, tree in [
            (b' {"a" : 1 , "a":[2, true,false\t,null ]}\r\n', {"a": [2, True, False, None]}),
            (b'"\\u00e9\\ud83d\\ude00\\/\\n\x7f"', "\u00e9\U0001f600/\n\x7f"),
            (b"18446744073709551615", 2**64 - 1),
            (b"[" * 127 + b"]" * 127, None),
        ]:
            if tree is not None:
                self.assertEqual(tree_of(text), tree)
            else:
                tree_of(text)
        for text in [b"-1", b"-0", b"1.0", b"1e0", b"18446744073709551616"]:
            self.assertIs(type(tree_of(text)), float)
        for text in [
            *[b"", b"[" * 128 + b"]" * 128, b"01", b"1.", b".5", b"+1", b"1e", b"1e400"],
            *[b"9" * 400, b"nul", b"truex", b"[1,]", b'{"a":1,}', b'{"a" 1}', b"{1:1}"],
            *[b"[1 2]", b'"\x1f"', b'"\\x"', b'"\\ud800"', b'"\\udc00\\ud800"'],
            *[b'"\\ud800\\u0041"', b'"\xed\xa0\x80"', b'"\xc0\x80"', b"\xef\xbb\xbf1"],
            *[b"\x0c1", b"1 2", b'"a'],
        ]:
            with self.subTest(text[:40]), self.assertRaises(NoReading):
                tree_of(text)


def main():
    parser = argparse.ArgumentParser(description="the rows", add_help=False)
    parser.add_argument("--program")
    parser.add_argument("--options", action="store_true")
    settings, left = parser.parse_known_args()
    OnProgram.program = settings.program
    OnProgram.has_options = settings.options
    unittest.main(argv=[sys.argv[0], *left])


if __name__ == "__main__":
    main()
