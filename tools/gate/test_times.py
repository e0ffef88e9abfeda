"""Tests times.py."""

import unittest
from unittest import mock

from gate import times as gate_times


def entry(words, cwd, cpu):
    return {"words": words, "cwd": cwd, "cpu": cpu}


class TestTimes(unittest.TestCase):
    LOG = [
        entry(["rattle", "check", "--crate-name", "weedle_base"], "", 60.0),
        entry(["rattle", "check", "--crate-name", "weedle_rows", "--test"], "", 120.0),
        entry(["rattle", "check"], "/x/rt-edit-1/crates/weedle_base", 30.0),
        entry(["rattle", "build", "src/main.rt"], "/x/crates/weedle_list", 90.0),
        entry(["python3", "rt", "ci"], "/x", 6.0),
    ]

    def test_a_process_counts_for_its_crate_and_kind(self):
        times = gate_times.Times(self.LOG)
        self.assertEqual(times.by["proof"], {"weedle_base": 60.0})
        self.assertEqual(times.by["tests"], {"weedle_rows": 120.0})
        self.assertEqual(times.by["edits"], {"weedle_base": 30.0})
        self.assertEqual(times.by["programs"], {"weedle_list": 90.0})

    def test_the_static_library_is_a_kind_of_its_own(self):
        words = ["rattle", "build", "--crate-name", "weedle_c", "--crate-type", "staticlib"]
        checked = [words[0], "check", *words[2:]]
        clang = entry(["clang", "-O3"], "/x/crates/weedle_c", 30.0)
        times = gate_times.Times([entry(checked, "", 60.0), entry(words, "", 60.0), clang])
        self.assertEqual((times.by["proof"], times.by["library"]), ({"weedle_c": 60.0}, {"weedle_c": 90.0}))

    def test_the_memory_is_the_most_of_a_task_by_one_job(self):
        words = ["rattle", "check", "--crate-name", "weedle_base", "--jobs"]
        log = [{**entry([*words, jobs], "", 1.0), "memory": 1e9 * most} for jobs, most in (("1", 2), ("3", 4))]
        times = gate_times.Times([*log, entry(words[:4], "", 1.0)])
        self.assertEqual(times.as_json()["memory"]["proof"], {"weedle_base": 2.5})


class TestMemory(unittest.TestCase):
    def test_what_a_task_takes_stands_at_each_of_its_processes(self):
        sampler = gate_times.Sampler(1, [])
        cwd = "/x/rt-edit-{}/crates/weedle_base"
        for pid, at in ((11, "a"), (12, "a"), (13, "b")):
            sampler.seen[pid] = {"words": ["rattle"], "cwd": cwd.format(at)}
        with mock.patch.object(gate_times, "memory_of", lambda taken: sum(taken.values())):
            sampler.note_memory({11: 300, 12: 200, 13: 100})
            sampler.note_memory({11: 250, 13: 120})
        self.assertEqual({pid: it["memory"] for pid, it in sampler.seen.items()}, {11: 500, 12: 500, 13: 120})

    def test_a_process_alone_has_the_most_so_far_and_several_have_their_shares(self):
        with mock.patch.object(gate_times, "bytes_in", lambda file, name, now: now + (name == "VmHWM")):
            self.assertEqual(gate_times.memory_of({11: 300}), 301)
            self.assertEqual(gate_times.memory_of({11: 300, 12: 200}), 500)

    def test_a_figure_of_proc(self):
        self.assertGreater(gate_times.bytes_in("/proc/self/status", "VmHWM", 0), 1_000_000)
        self.assertEqual(gate_times.bytes_in("/proc/self/status", "NoSuch", 7), 7)
        self.assertEqual(gate_times.bytes_in("/no/file", "Pss", 7), 7)


class TestMachine(unittest.TestCase):
    def test_how_fast_it_is_stands_in_the_name_or_behind_it(self):
        named = "model name\t: A B\ncpu MHz\t\t: 2700.000\n"
        self.assertRegex(gate_times.machine(named), r"^\d+ processors, A B @ 2\.70GHz$")
        self.assertRegex(gate_times.machine(named.replace("A B", "A @ 2.50GHz")), r"^\d+ processors, A @ 2\.50GHz$")
        self.assertRegex(gate_times.machine(""), r"^\d+ processors, of no name$")
