"""Tests plan.py over a made-up repository."""

import argparse
import math
from unittest.mock import patch

from gate import plan as gate_plan
from gate.plan import Gate, costs, plan, simulated
from shared.test_support import Room

LIST = """low:
wide: low
one: wide low
other: wide low
top: one other
"""
TIMES = {
    "proof": {"low": 60, "wide": 1800, "one": 600, "other": 300, "top": 120},
    "tests": {"top": 60},
    "edits": {"low": [2, 100]},
    "programs": {"top": 60},
}


SAID = argparse.Namespace(memory=math.inf, slower=1)


class Planned(Room):
    SOURCES = {f"crates/{row.partition(':')[0]}/src/lib.rt": "fn f() {}\n" * 10 for row in LIST.splitlines()}
    FILES = {"crates.txt": LIST, **SOURCES}

    def setUp(self):
        super().setUp()
        self.gate = Gate(self.root, TIMES)

    def test_a_file_without_times_is_refused_in_a_line(self):
        file = self.root / "times.json"
        self.assertRaises(argparse.ArgumentTypeError, gate_plan.times_in, file)
        for text in ("weedle:", "[]", '{"proof": {}}'):
            file.write_text(text)
            self.assertRaises(argparse.ArgumentTypeError, gate_plan.times_in, file)
        file.write_text('{"proof": {}, "tests": {}, "edits": {}}')
        self.assertEqual(gate_plan.times_in(file), {"proof": {}, "tests": {}, "edits": {}})

    def test_the_longest_proof_gets_three_jobs_and_shares_the_processors(self):
        log = simulated(self.gate.tasks(), 4)
        begin, end, jobs = log["wide", "proof"]
        self.assertEqual((begin, jobs), (60, 3))
        # Beside it the wrong bodies of `low` are tried by one job, and nothing lacks a processor.
        self.assertAlmostEqual(end - begin, 1800 / 2.4)

    def test_each_task_ends_behind_those_that_it_waits_for(self):
        tasks = self.gate.tasks()
        for processors in (1, 2, 4):
            log = simulated(tasks, processors)
            for key, task in tasks.items():
                self.assertTrue(all(log[it][1] <= log[key][0] for it in task.waits), (processors, key))

    def test_wrong_bodies_begin_with_a_check_of_their_functions(self):
        self.gate.edits = {"low": [2, 90]}
        seconds = {key[1:]: it.seconds for key, it in self.gate.tasks().items() if key[0] == "low"}
        self.assertEqual(seconds, {("proof",): 60, ("tests",): 0, ("seed",): 30, ("edits", 0): 30, ("edits", 1): 30})

    def test_the_static_library_is_built_behind_its_proof(self):
        with patch.object(gate_plan.ci, "LIBRARY", "top"):
            self.gate.library = {"top": 90}
            log = simulated(self.gate.tasks(), 4)
        begin, end, _ = log["top", "library"]
        self.assertEqual((begin, end - begin), (log["top", "proof"][1], 90))

    def test_a_slower_machine_takes_longer_in_the_same_order(self):
        quick, slow = (simulated(self.gate.tasks(), 2, slower=it) for it in (1, 3))
        self.assertEqual([*quick], [*slow])
        self.assertAlmostEqual(3 * max(it[1] for it in quick.values()), max(it[1] for it in slow.values()))

    def test_85_hundredths_of_the_memory_are_used(self):
        # Each task takes half of 1.2 GB, of which rt says that it takes them.
        for free, minutes in ((1.5, 44), (1.35, 49)):
            said = argparse.Namespace(**{**vars(SAID), "memory": free})
            self.gate.edits, self.gate.tests = {}, {}
            self.assertIn(f" {minutes} minutes", plan(self.gate, 2, said))

    def test_crates_side_by_side_get_one_job_each(self):
        log = simulated(self.gate.tasks(), 2)
        self.assertEqual([log[it, "proof"][2] for it in ("one", "other")], [1, 1])
        self.assertEqual(log["one", "proof"][0], log["other", "proof"][0])
        self.assertEqual(log["top", "proof"][0], log["one", "proof"][1])

    def test_a_plan_says_the_clock_and_the_work(self):
        whole = (60 + 1800 + 600 + 300 + 180 + 60 + 100) / 60
        said = f"1 processors: {whole:.0f} minutes, {whole:.0f} of processor time"
        self.assertEqual(plan(self.gate, 1, SAID), said)

    def test_a_change_costs_the_crate_and_those_above(self):
        self.assertEqual([*costs(self.gate, ["one"])][2], "| `one` | 1 | 14 | 14 |")
        self.assertEqual([*costs(self.gate, ["low"])][2].split("|")[2].strip(), "4")
