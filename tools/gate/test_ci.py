"""Tests ci.py over made-up tasks."""

import sys
import threading
import types
import unittest
from contextlib import nullcontext

from gate.ci import Order, is_known, known, measured, out_of_layout, remembered, run_all, scheduler, with_built
from shared.test_support import Room, printed

GB = 10**9
TIMES = {("low", "proof"): 60, ("long", "proof"): 2400, ("side", "proof"): 500, ("top", "proof"): 300}


def rows_of(calls):
    """Tasks as rt has them: `long` and `side` stand on `low`, and `top` on both."""
    below = {"low": [], "long": ["low"], "side": ["low"], "top": ["low", "long", "side"]}
    tasks = {}
    for name, under in below.items():
        waits = [(it, "proof") for it in under]
        for kind in ("proof", "tests"):
            key = name, kind
            tasks[key] = (waits, 10 * (kind == "proof"), GB, lambda given, jobs, it=key: calls(it, given, jobs))
        both = [(name, "proof"), (name, "tests")]
        for number in range(2):
            key = name, "edits", number
            tasks[key] = (both, 10, GB, lambda given, jobs, it=key: calls(it, given, jobs))
    return tasks


class Run:
    """What was called: of each task its jobs, and what had ended before."""

    def __init__(self):
        self.jobs, self.before, self.lock = {}, {}, threading.Lock()

    def call(self, key, given, jobs):
        with self.lock:
            assert key not in self.jobs, f"{key} twice"
            self.jobs[key], self.before[key] = jobs, set(given)
        return f"{key[0]} {key[1]}"


def order_of(tasks, processors=4, memory=20 * GB):
    return Order(known(tasks, TIMES), processors, memory)


class Ran(unittest.TestCase):
    def test_each_task_is_called_once_behind_those_that_it_waits_for(self):
        run = Run()
        tasks = rows_of(run.call)
        given = run_all(order_of(tasks))
        self.assertEqual(given, {key: f"{key[0]} {key[1]}" for key in tasks})
        self.assertEqual(set(run.jobs), set(tasks))
        for key, (waits, *_) in tasks.items():
            self.assertLessEqual(set(waits), run.before[key], key)

    def test_a_long_proof_on_the_longest_chain_gets_three_jobs(self):
        run = Run()
        run_all(order_of(rows_of(run.call)))
        self.assertEqual(run.jobs["long", "proof"], 3)
        self.assertEqual({jobs for key, jobs in run.jobs.items() if key[0] in ("low", "side")}, {1})
        self.assertEqual(run.jobs["top", "proof"], 2)

    def test_long_tests_at_the_end_of_the_longest_chain_get_two_jobs(self):
        run = Run()
        run_all(Order(known(rows_of(run.call), TIMES | {("top", "tests"): 600}), 4, 20 * GB))
        self.assertEqual(run.jobs["top", "tests"], 2)

    def test_what_a_call_raises_is_raised(self):
        def raises(key, given, jobs):
            raise ValueError(key)

        with self.assertRaises(ValueError):
            run_all(order_of(rows_of(raises)))

    def test_no_tasks(self):
        self.assertEqual(run_all(order_of({})), {})


class Began(unittest.TestCase):
    def begun(self, order, given, running):
        return dict(order.begin(set(order.tasks) - set(given) - set(running), given, dict(running)))

    def test_a_proof_of_one_job_waits_for_a_processor(self):
        order = order_of(rows_of(None), processors=1)
        self.assertEqual(self.begun(order, {}, {}), {("low", "proof"): 1})

    def test_what_has_the_longest_chain_behind_it_is_first(self):
        order = order_of(rows_of(None))
        begun = self.begun(order, {("low", "proof"): 1, ("low", "tests"): 1}, {})
        self.assertEqual([*begun.items()][0], (("long", "proof"), 3))
        self.assertEqual(begun["side", "proof"], 1)

    def test_results_of_wrong_bodies_are_kept_first(self):
        tasks = rows_of(None)
        tasks["low", "sound"] = ([("low", "edits", 0), ("low", "edits", 1)], 0, GB, None)
        given = {("low", it): 1 for it in ("proof", "tests")} | {("low", "edits", it): 1 for it in range(2)}
        self.assertEqual([*self.begun(order_of(tasks), given, {})][0], ("low", "sound"))

    def test_memory_takes_jobs_away_and_then_holds_a_task_back(self):
        given = {("low", "proof"): 1, ("low", "tests"): 1, ("low", "edits", 0): 1, ("low", "edits", 1): 1}
        order = order_of(rows_of(None), memory=0.7 * GB)
        self.assertEqual(self.begun(order, given, {})["long", "proof"], 2)
        begun = self.begun(order, given, {("long", "tests"): 1})
        self.assertNotIn(("long", "proof"), begun)

    def test_memory_is_left_for_what_is_next_on_the_longest_chain(self):
        given = dict.fromkeys([("low", "proof"), ("low", "tests"), ("side", "proof")], 1)
        running = {("long", "proof"): 1, ("side", "tests"): 1}
        # Each takes 0.5 GB, and `top`, which waits for `long`, will take 0.65 in its two jobs. So beside a third there
        # is no room for it in 1.5, where the third itself has room, and in 1.7 there is.
        for room, count in ((1.5, 0), (1.7, 1)):
            order = order_of(rows_of(None), processors=8, memory=room * GB)
            self.assertEqual(len(self.begun(order, given, running)), count)

    def test_one_task_begins_however_little_memory_there_is(self):
        order = order_of(rows_of(None), memory=0)
        self.assertEqual(len(self.begun(order, {}, {})), 1)

    def test_a_crate_that_was_never_measured_goes_by_its_lines(self):
        task = known({("new", "proof"): ([], 100, GB, None)}, TIMES)["new", "proof"]
        self.assertEqual(task.seconds, 30)

    def test_what_stands_on_the_recursive_types_takes_more_than_rt_says_and_all_else_less(self):
        tasks = {
            ("new", "proof"): ([("weedle_types", "proof")], 1, GB, None),
            ("new", "edits", 0): ([("new", "proof")], 1, GB, None),
            ("other", "proof"): ([("low", "proof")], 1, GB, None),
        }
        found = known(tasks, {})
        self.assertEqual([it.memory(1) for key, it in found.items() if key[0] == "new"], [1.4 * GB, 1.4 * GB])
        self.assertEqual([found["other", "proof"].memory(it) for it in (1, 3)], [0.5 * GB, 0.8 * GB])

    def test_no_check_but_that_of_the_types_is_expected_to_take_more_than_was_ever_seen(self):
        tasks = {(name, "proof"): ([], 1, 20 * GB, None) for name in ("new", "weedle_types")}
        self.assertEqual([it.memory(1) for it in known(tasks, {}).values()], [5.5 * GB, 28 * GB])

    def test_of_a_task_whose_memory_was_measured_a_tenth_more_is_left(self):
        tasks = {("new", kind): ([], 1, GB, None) for kind in ("proof", "tests")}
        found = known(tasks, {}, {("new", "proof"): 3 * GB})
        self.assertEqual([it.memory(1) for it in found.values()], [1.1 * 3 * GB, 0.5 * GB])


class Measured(unittest.TestCase):
    TIMES = {
        "proof": {"low": 60, "app": 5},
        "tests": {"low": 30},
        "edits": {"low": [3, 80]},
        "programs": {"app": 100},
        "library": {"weedle_c": 50},
        "memory": {"proof": {"low": 2, "app": 1}, "programs": {"app": 3}, "edits": {"low": 1.5}},
    }

    def test_seconds(self):
        found = measured(self.TIMES)
        self.assertEqual((found["low", "edits"], found["low", "seed"]), (20, 20))
        self.assertEqual((found["app", "proof"], found["weedle_c", "library"]), (105, 50))
        self.assertEqual(measured({}), {})

    def test_memory(self):
        found = remembered(self.TIMES)
        wanted = {("low", "proof"): 2, ("app", "proof"): 3, ("low", "edits"): 1.5, ("low", "seed"): 1.5}
        self.assertEqual(found, {key: most * GB for key, most in wanted.items()})
        self.assertEqual(remembered({}), {})


class Built(Room):
    """What is built over the proof of a crate, with a command in the place of the compiler and the linker."""

    # It writes its words into the file that is named behind -o.
    WRITES = "import sys; it = sys.argv[1:]; open(it[it.index('-o') + 1], 'w').write(' '.join(it))"
    FAILS = "print('no'); raise SystemExit(1)"
    SAID = "no\nci.py: {} isn't built over what is proved, for {}-unknown-linux-gnu\n"
    FILES = {"out/kept": ""}

    def built(self, name, command=WRITES, is_proved=True, **what):
        """Whether it went well, and what is printed."""
        crate = types.SimpleNamespace(name=name, folder=str(self.root), words=lambda flags, keeps: flags)
        lib = types.SimpleNamespace(guarded=lambda: [sys.executable, "-c", command], RATTLE="rattle")
        rt = types.SimpleNamespace(crates_of=lambda root: [crate], rtlib=lib, KIT="/kit")
        tasks = with_built({(name, "proof"): ([], 7, GB, lambda given, jobs: True)}, rt, **what)
        self.assertEqual(set(tasks), {(name, "proof"), (name, "library")})
        waits, *_, call = tasks[name, "library"]
        self.assertEqual(waits, [(name, "proof")])
        return printed(call, {(name, "proof"): is_proved}, 1)[:2]

    def made(self):
        """The texts of the files that are made, by their names."""
        return {it.name: it.read_text() for it in self.root.rglob("*") if it.is_file() and it.name != "kept"}

    def library(self, **how):
        return self.built("weedle_c", library=self.root / "libweedle_c.a", **how)

    def program(self, **how):
        return self.built("weedle_check", programs=["weedle_check"], **how)

    def test_the_static_library_for_each_target(self):
        self.assertEqual(self.library(), (True, ""))
        made = self.made()
        self.assertIn("--target x86_64-unknown-linux-gnu --cpu x86-64 ", made.pop("libweedle_c.a"))
        other = made.pop("libweedle_c.aarch64-linux.a")
        self.assertIn("--target aarch64-unknown-linux-gnu --cpu generic ", other)
        self.assertEqual(made, {})

    def test_a_program_is_built_and_linked_for_any_processor(self):
        self.assertEqual(self.program(), (True, ""))
        made = self.made()
        words = "rattle build --jobs 1 --target x86_64-unknown-linux-gnu --cpu x86-64 "
        self.assertIn(words, made["weedle_check.x86-64.o"])
        linked = made["weedle_check.x86-64"]
        self.assertTrue(linked.startswith("/kit/bin/rattle-link --target x86_64-unknown-linux-gnu "), linked)
        self.assertIn(f" {self.root}/out/weedle_check.x86-64.o ", linked)

    def test_what_is_not_proved_is_not_built(self):
        for build in (self.library, self.program):
            self.assertEqual(build(is_proved=False), (False, ""))
        self.assertEqual(self.made(), {})

    def test_where_building_fails_it_is_said_and_nothing_is_linked(self):
        said = [self.SAID.format("weedle_c", it) for it in ("x86_64", "aarch64")]
        self.assertEqual(self.library(command=self.FAILS), (False, "".join(said)))
        self.assertEqual(self.program(command=self.FAILS), (False, self.SAID.format("weedle_check", "x86_64")))

    def test_another_rt_goes_on_without_it(self):
        tasks = {("weedle_c", "proof"): ([], 7, GB, None)}
        found, out, _ = printed(with_built, tasks, types.SimpleNamespace(), self.root / "libweedle_c.a")
        self.assertEqual(found, tasks)
        self.assertIn("can't be built", out)


class Known(unittest.TestCase):
    def rt(self, in_lanes):
        return types.SimpleNamespace(in_lanes=in_lanes, processors=lambda: 4, free=lambda: GB, ci=lambda: 0)

    def test_a_scheduler_with_other_words_is_not_known(self):
        def in_lanes(tasks):
            """Runs tasks side by side."""

        self.assertFalse(is_known(self.rt(in_lanes)))
        self.assertFalse(is_known(types.SimpleNamespace()))

    def test_the_scheduler_that_is_known(self):
        def in_lanes(tasks):
            """Runs tasks. A task is what it waits for, its work in lines, its memory, and a call that gets what
            was given and how many jobs it may use."""

        self.assertTrue(is_known(self.rt(in_lanes)))

    def test_it_takes_rows_as_rt_has_them(self):
        run = Run()
        rt = types.SimpleNamespace(processors=lambda: 4, free=lambda: 20 * GB, ending=nullcontext)
        tasks = rows_of(run.call)
        self.assertEqual(set(scheduler(rt, TIMES)(tasks)), set(tasks))

    def test_crates_out_of_layout_are_named(self):
        crates = [types.SimpleNamespace(name=it, folder=f"/x/{it}") for it in ("low", "top")]
        lib = types.SimpleNamespace(fmt=lambda folder, flag, out: folder.endswith("top"))
        rt = types.SimpleNamespace(crates_of=lambda root: crates, rtlib=lib)
        self.assertEqual(out_of_layout(rt), ["top"])
        self.assertEqual(out_of_layout(types.SimpleNamespace()), [])

    def test_an_older_kit_names_its_crates_by_another_call(self):
        lib = types.SimpleNamespace(fmt=lambda folder, *_: 1, crates_below=lambda root: [types.SimpleNamespace(name="top", folder="")])
        rt = types.SimpleNamespace(crates_of=lambda root, aside: [], rtlib=lib)
        self.assertEqual(out_of_layout(rt), ["top"])
