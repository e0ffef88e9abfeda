"""Runs of weedle_format: over the files of tests/format.toml, worked texts and long ones."""

import tomllib

from run.texts import today_file
from run.worked_runs import Run, runs
from shared.case_files import TESTS

OVER_FILES, WORKED = TESTS / "format.toml", TESTS / "layouts.toml"
TOO_LONG = "<stdin>: left as it is, since its layout would say something else or be too long\n"


def run_of(what, text, **wanted):
    """A run over standard input."""
    return Run({"what": what, "program": "weedle_format", "input": text, "status": 0, **wanted})


def of_worked_texts():
    """Each worked text is laid out as is written by hand, which stays as it is, and alike by today's rules; and others aren't
    read whole."""
    worked = tomllib.loads(WORKED.read_text(encoding="utf-8"))
    refused = {"status": 1, "stderr_like": "(?s)<stdin>:.+"}
    today = ["--today"]
    for it in worked["layout"]:
        layout = it.get("laid_out")
        if layout is None:
            yield run_of(it["what"], it["text"], **refused)
        else:
            for words in ([], today):
                yield from (run_of(it["what"], text, arguments=words, stdout=layout) for text in (it["text"], layout))
    for it in worked["today"]:
        yield run_of(it["what"], it["text"], **refused)
        yield from (run_of(it["what"], text, arguments=today, stdout=it["laid_out"]) for text in (it["text"], it["laid_out"]))
    for it in worked["partial"]:
        yield run_of(it["what"], it["text"], arguments=["--partial"], stdout=it["laid_out"], **refused)


def runs_of_today():
    """Each text of tests/today.toml that says so is formatted as is written by hand, which stays as it is."""
    for it in today_file()["read"]:
        if "laid_out" in it:
            for text in (it["text"], it["laid_out"]):
                yield run_of(it["name"], text, arguments=["--today"], stdout=it["laid_out"])


def nested(times, inner):
    """A text of attributes in one another."""
    return "interface A { undefined f(" + "[A(" * times + inner + ")] long y" * times + "); };"


def of_deep_texts():
    """Where 16 levels are open, no list is broken; above that each is, where it doesn't fit."""
    for times in (20, 1_000):
        front, back = ["interface A {", "  undefined f("], ["};", "  );"]
        for level in range(2, 16, 2):
            front += ["  " * level + "[", "  " * level + "  A("]
            back += ["  " * level + "] long y", "  " * level + "  )"]
        deep = "  " * 16 + "[A(" * (times - 7) + "long x" + ")] long y" * (times - 7)
        layout = "\n".join([*front, deep, *reversed(back), ""])
        yield from (run_of(f"{times} deep", text, stdout=layout) for text in (nested(times, "long x"), layout))


def of_long_layouts():
    """What would be more than eight times as long, and 1,024 bytes more, stays as it is, and this is said."""
    text, few = (nested(6, f"[{'A, ' * times}A] long x") for times in (1_999, 39))
    yield run_of("too long a layout", text, status=1, stdout=text, stderr=TOO_LONG)
    yield run_of("a long layout", few, stdout_like=f"(?s).{{{8 * len(few) + 1},{8 * len(few) + 1_024}}}")


def all_runs():
    return [*runs(OVER_FILES), *of_worked_texts(), *of_deep_texts(), *of_long_layouts()]
