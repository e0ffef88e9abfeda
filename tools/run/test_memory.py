"""Tests `run memory` and count_requests.c with small programs in C; it wants cc."""

import subprocess
import unittest

from run import memory, worked_runs
from run.__main__ import main
from run.programs import built_at
from shared.test_support import Room, printed

# It reads its input, asks for room for each byte of it, and says how many there were.
PROGRAM = """
#include <stdio.h>
#include <stdlib.h>
int main(void) {
    char *text = malloc(65536), *little = malloc(16);
    size_t length = fread(text, 1, 65536, stdin);
    char *large = malloc(SIZE * (length + 1));
    if (large == NULL)
        return 3;
    large[0] = 1;
    large = realloc(large, SIZE * (length + 1) / 2);
    for (size_t i = 0; i < length * MORE; i++)
        free(malloc(100 + i % 7));
    little = realloc(little, 4096);
    printf("%zu\\n", length + (large[0] == 0) + (little == text));
    free(large);
    free(text);
    free(little);
}
"""
RUN = """
[[run]]
what = "a text of 20,000 bytes"
program = "some"
input = {{ piece = "ab", times = 10000, checked = 100 }}
status = 0
stdout = "{said}\\n"
asks = {{ above = 10, sizes = {sizes}, held = {held}{more} }}
"""


class Programs(Room):
    """Runs of a program that asks for SIZE bytes for each place."""

    def ended(self, size=100, more=0, said=20_000, sizes="[100]", held=104, asks=""):
        """The status, and the lines that are printed."""
        self.put({"some.c": PROGRAM, "runs.toml": RUN.format(said=said, sizes=sizes, held=held, more=asks)})
        words = ["cc", "-O0", f"-DSIZE={size}", f"-DMORE={more}", "-o", "some", "some.c"]
        subprocess.run(words, cwd=self.root, check=True)
        status, out, err = printed(main, ["memory", str(self.root), "--runs", str(self.root / "runs.toml")])
        return status, (out + err).splitlines()

    def test_what_is_allowed_passes(self):
        status, lines = self.ended()
        self.assertEqual((status, lines[-1]), (0, "1 passed, 0 failed"))
        self.assertRegex(lines[0], r"^some, a text of 20,000 bytes: 1 passed, 0 failed; 4 requests, large ones 100\.00, held 10\d\.\d\d bytes a place$")

    def test_fewer_and_smaller_requests_pass(self):
        self.assertEqual(self.ended(sizes="[100, 48.25]")[0], 0)
        self.assertEqual(self.ended(sizes="[1544, 100]", size=99)[0], 0)

        self.assertEqual(self.ended(more=1, asks=", requests = 2")[0], 0)

    def test_what_is_more_than_is_allowed_or_another_answer_fails(self):
        for why, how in (
            ("a request is too large", {"size": 101}), ("1 large requests where 0 are allowed", {"sizes": "[]"}),
            ("more is held than 99 bytes a place", {"held": 99}), ("wanted: 'status 0", {"said": 7}),
            ("more requests than 1 for each piece", {"more": 1, "asks": ", requests = 1"}),
        ):
            status, lines = self.ended(**how)
            self.assertEqual((status, lines[-1]), (1, "0 passed, 1 failed"), why)
            self.assertIn(why, "\n".join(lines))

    def test_one_program_by_its_name(self):
        self.ended()
        self.assertEqual(built_at(self.root / "some", ["some"]), [(str(self.root / "some"), "some")])

    def test_no_program(self):
        status, _, err = printed(main, ["memory", str(self.root)])
        self.assertEqual(status, 2)
        self.assertIn("run memory: ", err)


class Checks(Room):
    """What a program with checks is given: a script that says so stands for one."""

    def came(self, script, **asks):
        keys = {"what": "w", "program": "p", "status": 0, "stdout_like": "TIMES .*\n",
                "input": {"piece": "a", "times": 5000, "checked": 30}, "asks": {"above": 10, "sizes": [], "held": 1} | asks}
        program = self.put_command("p", f"#!/bin/sh\n# __asan_init\n{script}\n")
        return memory.failure_of(worked_runs.Run(keys), program, "")

    TELL = r'echo "$(wc -c) $ASAN_OPTIONS"; log=${ASAN_OPTIONS##*log_path=}; echo "Stats: 0M malloced by %d calls" > "$log.1"'

    def test_the_shorter_text_and_the_least_room(self):
        self.assertEqual(self.came(self.TELL % 9), ("9 requests with those of lists that are cut, none for more than 1 MiB", None))
        told, why = self.came("echo 5000 bytes")
        self.assertEqual((told, why[:7]), ("", "wanted:"))

    def test_how_many_requests(self):
        self.assertIsNone(self.came(self.TELL % 260, requests=1)[1])
        self.assertEqual(self.came(self.TELL % 261, requests=1)[1], "more requests than that")
        self.assertEqual(self.came("cat > /dev/null; echo 30 bytes", requests=1)[1], "its requests weren't counted")


class Runs(unittest.TestCase):
    def test_those_of_this_repository(self):
        runs = worked_runs.runs(memory.RUNS)
        self.assertEqual({run.program for run in runs}, {"weedle_check", "weedle_format", "weedle_list", "weedle_table"})
        self.assertTrue(all({"above", "sizes", "held"} <= set(run.keys["asks"]) for run in runs))
        # What is timed is read over fifteen tables one after another, so its text is a tenth as long.
        least = {False: 300_000, True: 30_000}
        self.assertTrue(all(memory.places_of(run) > least["--time" in run.keys.get("arguments", [])] for run in runs))
        self.assertEqual(len(runs), len({(run.program, run.what) for run in runs}))
