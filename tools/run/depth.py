"""Says how deep a program reads each family of texts that nest, and whether a deeper one is refused or kills it.

    python3 tools/run depth [--direct] PROGRAM [-- ARGUMENT..]

PROGRAM reads standard input, and has 8 MB of stack. Status 0 says that it reads a text, 1 that it refuses one, and 3 that it
runs out of memory. One that reads by descent, with --direct, isn't given extended attributes: each level of them takes such a
reader up to three times as long. Each family counts as passed; docs/USING.md has the figures.
"""

import resource
import subprocess

from shared.command_line import runnable
from shared.crates import Unfit

STACK, MOST = 8 << 20, 1 << 20
NESTED = {
    "sequences": ("sequence<", ">"), "promises": ("Promise<", ">"), "keys of records": ("record<", ", long>"),
    "unions, each the first member": ("(", " or a)"), "unions, each the last member": ("(a or ", ")"),
}


def became(words, text):
    """What becomes of a text: it is read or refused, or the program dies."""
    def limit():
        resource.setrlimit(resource.RLIMIT_STACK, (STACK, STACK))
        resource.setrlimit(resource.RLIMIT_CORE, (0, 0))
    status = subprocess.run(words, input=text.encode(), preexec_fn=limit, capture_output=True).returncode
    if status == 3:
        raise Unfit("out of memory")
    return {0: "read", 1: "refused"}.get(status, "dies")


def families(is_direct):
    """The texts of each family, by how deep they nest."""
    found = {name: (lambda n, it=it: f"typedef {it[0] * n}long{it[1] * n} x;") for name, it in NESTED.items()}
    if not is_direct:
        found["arguments in extended attributes"] = lambda n: "[A(" * (n + 1) + "a... b" + ")] a... b" * n + ")] interface I {};"
    return found


def depth_of(words, text_of):
    """How deep a program reads the texts of a family, and what becomes of a deeper one."""
    read, unread, end = 0, 1, "read"
    while unread < MOST and (end := became(words, text_of(unread))) == "read":
        read, unread = unread, unread * 2
    while end != "read" and unread - read > max(1, read // 200):
        middle = (read + unread) // 2
        found = became(words, text_of(middle))
        read, unread, end = (middle, unread, end) if found == "read" else (read, middle, found)
    return read, end


def add_arguments(parser):
    parser.add_argument("program", type=runnable, metavar="PROGRAM")
    parser.add_argument("words", nargs="*", metavar="ARGUMENT", help="what the program is given")
    parser.add_argument("--direct", action="store_true", help="the program reads by descent")


def run(wanted, report):
    for name, text_of in families(wanted.direct).items():
        read, end = depth_of([wanted.program, *wanted.words], text_of)
        report.add(name, 1, [], f"; {read}{' and more' if end == 'read' else f', a deeper one: {end}'}")
