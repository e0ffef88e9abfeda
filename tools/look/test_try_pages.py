"""Tests try_pages.py and doc_examples.py over a made-up repository and a made-up `rt`."""

import os
from unittest import mock

from look import doc_examples, try_pages
from shared.crates import Unfit
from shared.test_support import Room

README = """# A parser

```rust
use weedle::term::Comma;
use weedle::{common::Names, parse};

let (rest, names) = Names::parse(alloc, "a, b ,")?;

// rest is ",": it is given back
```

    app: weedle

```rust
//! Lists names.
#![tactic(auto)]

use weedle::{
    name_of, parse,
};

const MOST: usize = 3;

/// The names of a text.
fn list(text: &str) -> Status {
    Status::Read
}

fn main(rt: HostRuntime) -> ExitCode {
    list("")
}
```

```webidl
interface A {};
```

```text
a.webidl:1:1: nothing defines the type A
```
"""
PROVED = """use weedle::{
    common::{Name, Names},
    name_of, parse,
    term::Comma,
};

/// The names of a text.
fn list(text: &str) -> Status {
    Status::Read
}

const MOST: usize = 3;

#[test]
fn names_are_read(rt: HostRuntime) {
    let (rest, names) = Names::parse(alloc, "a, b ,")?;
    // rest is ",": it is given back
}
"""
# A page whose program takes a file by name, in two blocks, and one whose program reads standard input.
VALIDATOR = """# A validator

    validator: weedle_places

    rt try -- a.webidl

```webidl
interface A {};
```

```text
a.webidl:1:1: nothing defines the type A
```

```rust
use weedle_places::{Name, names};
```

It goes on.

```rust
fn main(rt: HostRuntime) {}
```

## Over real files

```text
2 files
0 texts that aren't read whole
0 definitions again
1 attributes again
2 types that nothing defines
0 mixins that nothing defines
```
"""
DOCUMENTATION = VALIDATOR.replace("validator", "documentation").replace("-- a.webidl", "< a.webidl")
FILES = {
    "LICENSE": "MIT\n",
    "CHANGELOG.md": "## 1.0.0\n",
    "crates.txt": "weedle_places:\nweedle: weedle_places\nweedle_rows: weedle\n",
    "crates/weedle_places/src/lib.rt": "pub use name::{Name, names};\n",
    "crates/weedle/src/lib.rt": "//! All: common term name_of parse.\n",
    "docs/VALIDATOR.md": VALIDATOR,
    "docs/DOCUMENTATION.md": DOCUMENTATION,
    "README.md": README,
    try_pages.PROVED: PROVED,
}
# What stands for the toolchain: it has the program and a copy of the library, and prints a line for each file
# that it is given, and one line more.
RT = """#!/bin/sh
grep -q 'fn main' src/main.rt && [ -f ../weedle/src/lib.rt ] || exit 9
while [ $# -gt 0 ] && [ "$1" != -- ]; do shift; done
[ $# -gt 0 ] && shift
for file in "$@"; do [ -f "$file" ] && echo "$file:1:1: nothing defines the type A"; done
[ $# -gt 1 ] && echo "a:1:1: interface A has the attribute x already, at a:1:1"
[ $# -gt 0 ] || sed 's/.*/a.webidl:1:1: nothing defines the type A/'
exit 0
"""
LOW = """//! Low.
//!
//! ```rust
//! use low::one;
//!
//! // Of one.
//! assert_eq!(rt; one(), 1);
//! ```
//!
//! ```text
//! no example
//! ```

/// One.
///
/// ```rust
/// let it = made();
/// ```
pub fn one() -> u8 {
    1
}
"""
HIGH = "//! High.\n//!\n//! ```rust\n//! fn main(rt: HostRuntime) -> u8 {\n//!     weedle_low::one()\n//! }\n//! ```\n"
AROUND = doc_examples.AROUND
NOWHERE = "README.md:4: no file with tests and no doc comment has this block"


class Repository(Room):
    FILES = FILES

    def setUp(self):
        super().setUp()
        self.put_command("../commands/rt", RT)
        self.enterContext(mock.patch.dict(os.environ, PATH=f"{self.root.parent}/commands:{os.environ['PATH']}"))
        self.patch(try_pages, MEGABYTES=1)

    def changed(self, path, old, new):
        self.assertEqual(self.FILES[path].count(old), 1)
        self.put({path: self.FILES[path].replace(old, new)})

    def tried(self, *names, is_run=False, **more):
        """What is found on these pages."""
        return try_pages.try_pages(self.root, list(names), is_run, **more)[0]


class Readme(Repository):
    def test_all_holds(self):
        wrong, said = try_pages.try_pages(self.root, ["README"], True)
        self.assertEqual(wrong, [])
        self.assertEqual(said, ["README.md: 17 lines, and 1 other blocks of Rust stand in crates/, prints what the page says"])

    def test_a_piece_of_the_program_that_is_not_proved(self):
        self.changed(try_pages.PROVED, "/// The names of a text.", "/// The names.")
        [wrong] = self.tried("README")
        self.assertIn(f"README.md: this piece of the program doesn't stand in {try_pages.PROVED}:\n/// The names of a text.", wrong)

    def test_another_block_stands_somewhere_and_brings_in_what_its_file_does(self):
        for old, new in (('// rest is ",": it is', "// rest is"), ("use weedle::term::Comma;", "use weedle::Comma;")):
            self.changed("README.md", old, new)
            self.assertEqual(self.tried("README"), [NOWHERE], new)

    def test_a_page_of_blocks_alone(self):
        self.put({"docs/USING.md": "```rust\nlet x = gone;\n```\n"})
        self.assertEqual(self.tried("README"), [NOWHERE.replace("README.md:4", "docs/USING.md:2")])

    def test_the_status_has_to_be_0(self):
        self.put({"../commands/rt": "#!/bin/sh\necho 'a.webidl:1:1: nothing defines the type A'\nexit 3\n"})
        self.assertIn("ends with status 3", self.tried("README", is_run=True)[0])

    def test_one_without_a_program_or_its_line_is_refused(self):
        for old, new in (("fn main(rt: HostRuntime)", "fn start(rt: HostRuntime)"), ("    app: weedle", "app: weedle")):
            self.changed("README.md", old, new)
            with self.assertRaisesRegex(Unfit, "lacks a program"):
                self.tried("README")

    def test_without_the_toolchain_it_is_said_in_a_line(self):
        with mock.patch.dict(os.environ, PATH=""), self.assertRaisesRegex(Unfit, "rt isn't on PATH"):
            self.tried("README", is_run=True)


class Pages(Repository):
    def test_the_blocks_of_a_page_are_a_program(self):
        page = try_pages.page_of("VALIDATOR", VALIDATOR)
        self.assertEqual(page.program, ["use weedle_places::{Name, names};", "", "fn main(rt: HostRuntime) {}"])
        self.assertEqual((page.line.name, page.file, page.is_argument), ("validator", "a.webidl", True))
        self.assertEqual(page.input, "interface A {};\n")
        self.assertEqual(page.output, "a.webidl:1:1: nothing defines the type A\n")
        self.assertEqual(page.counts[0], "2 files")

    def test_a_page_without_a_part_is_unfit(self):
        for part in ("    validator: weedle_places\n", "    rt try -- a.webidl\n", "```webidl\n"):
            with self.subTest(part), self.assertRaises(Unfit):
                try_pages.page_of("VALIDATOR", VALIDATOR.replace(part, "```sh\n" if "`" in part else ""))

    def test_both_run(self):
        self.assertEqual(self.tried("VALIDATOR", "DOCUMENTATION", is_run=True), [])

    def test_what_is_printed_otherwise_is_said(self):
        self.put({"docs/VALIDATOR.md": VALIDATOR.replace("the type A\n", "the type B\n")})
        self.assertEqual(self.tried("VALIDATOR", is_run=True)[:4], [
            "docs/VALIDATOR.md: the program ends with status 0, and prints",
            "  a.webidl:1:1: nothing defines the type A",
            "where the page has",
            "  a.webidl:1:1: nothing defines the type B",
        ])

    def test_names_that_are_gone_are_said_without_a_run(self):
        text = VALIDATOR.replace("{Name, names}", "{Name, gone}")
        self.put({"docs/VALIDATOR.md": text.replace("fn main", "use weedle_gone::it;\nuse weedle::parse;\nfn main")})
        self.assertEqual(self.tried("VALIDATOR"), [
            "docs/VALIDATOR.md: the program's line of crates.txt lacks weedle",
            "docs/VALIDATOR.md: weedle_gone is no crate of crates.txt",
            "docs/VALIDATOR.md: weedle_places gives no gone",
        ])

    def test_a_program_that_is_too_long_is_said(self):
        with mock.patch.dict(try_pages.MOST_LINES, VALIDATOR=2):
            self.assertEqual(self.tried("VALIDATOR"), ["docs/VALIDATOR.md: the program has 3 lines, and may have 2"])

    def test_real_files_are_counted(self):
        self.put({f"../real/{name}": "interface A {};\n" for name in ("a.webidl", "below/b.idl", "c.txt")})
        files = self.root.parent / "real"
        self.assertEqual(self.tried("VALIDATOR", is_run=True, files=files), [])
        self.put({"../real/d.widl": "interface D {};\n"})
        wrong = self.tried("VALIDATOR", is_run=True, files=files)
        self.assertEqual(wrong[1], "  3 files")
        self.assertIn("  3 types that nothing defines", wrong)


class Examples(Repository):
    FILES = {
        "crates.txt": "weedle_low:\nhigh: weedle_low\nother:\n",
        "crates/weedle_low/src/lib.rt": LOW,
        "crates/high/src/lib.rt": HIGH,
        "crates/other/src/lib.rt": "//! Other.\n\n/// ```rust\n\nuse y;\n",
    }

    def setUp(self):
        super().setUp()
        around = {("crates/weedle_low/src/lib.rt", 2): ("fn made() {}\n", "", "    it\n")}
        self.patch(doc_examples, AROUND=around)

    def found(self, *crates):
        return doc_examples.examples_of(self.root, crates)

    def test_each_block_of_rust_in_a_doc_comment(self):
        found = [(name, it.file, it.number) for name, (it, _) in self.found("high", "weedle_low").items()]
        self.assertEqual(found, [
            ("high_lib_1", "crates/high/src/lib.rt", 4), ("weedle_low_lib_1", "crates/weedle_low/src/lib.rt", 4),
            ("weedle_low_lib_2", "crates/weedle_low/src/lib.rt", 17),
        ])
        self.assertEqual(self.found()["other_lib_1"][0].text, "")

    def test_those_of_some_crates_alone(self):
        self.assertEqual(list(self.found("high")), ["high_lib_1"])
        self.put({"crates/other/src/lib.rt": "//! Other.\n"})
        with self.assertRaisesRegex(Unfit, "other has no example"):
            self.found("high", "other")

    def test_what_stands_around_is_that_of_examples(self):
        found = doc_examples.examples_of(try_pages.TOP, ())
        there = {(it.file, int(name.rpartition("_")[2])) for name, (it, _) in found.items()}
        self.assertLessEqual(set(AROUND), there)
