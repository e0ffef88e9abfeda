"""Runs the texts of tests/ through built programs, and compares what comes with what is wanted.

    python3 tools/run WHAT [ARGUMENT..]
    python3 tools/run WHAT --help

WHAT is one of these; a program that isn't named is the one that the gate builds in crates/NAME/out:

    cases       values, syntax trees, refusals, outlines and statuses, by weedle_check and weedle_list
    rust        the same values and rests by the Rust package
    today       texts of today's WebIDL, by weedle_check --today: nodes and messages
    table       where things stand and how far texts are read, by weedle_table
    layouts     whether what weedle_format lays out says the same
    prints      whether what weedle_check writes anew says the same
    slips       what weedle_check says of the slips of tests/slips.txt
    real_slips  the same of slips that are made in real files
    errors      what weedle_recover makes of syntax errors that are sown in random texts
    memory      for how much memory the programs ask
    growth      how what calls of the library for C cost grows with the text
    depth       how deep a program reads what nests

It prints for each kind of texts `KIND: N passed, M failed`, and of the first failures what is wrong. The last line is the sum.
The status is 0 where none failed and one at least passed, 1 where one failed, 2 where they couldn't be run.
"""

import subprocess
import sys
from importlib import import_module
from pathlib import Path

if not __package__:
    sys.path[0] = str(Path(__file__).resolve().parent.parent)

from measure.compare_with_weedle2 import DEPTH
from run.report import Report
from shared.command_line import parser_of
from shared.crates import Unfit

WHAT = tuple(line.split()[0] for line in __doc__.split("\n\n")[3].splitlines())


def main(words):
    """Runs what the first word names, by the others. The status."""
    parser = parser_of(__doc__)
    parser.prog = "run"
    parser.add_argument("what", choices=WHAT, metavar="WHAT")
    what = parser.parse_args(words[:1]).what
    module = import_module(f"run.{what}")
    parser = parser_of(module.__doc__)
    parser.prog = f"run {what}"
    module.add_arguments(parser)
    wanted, report = parser.parse_args(words[1:]), Report()
    sys.setrecursionlimit(DEPTH)
    try:
        module.run(wanted, report)
    except (Unfit, subprocess.TimeoutExpired) as fault:
        print(f"run {what}: {fault}", file=sys.stderr)
        return 2
    return report.status()


if __name__ == "__main__":
    sys.exit(main(sys.argv[1:]))
