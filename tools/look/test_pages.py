"""Tests pages.py over repositories that are made up, in a second; this one is not looked at."""

from look import pages
from shared.test_support import Room

TABLE = "# The map\n\n## The crates\n\n| Crate | Holds |\n|---|---|\n{}\n## More\n\n| `weedle_other` | |\n"
STRUCT = """/// A struct.
#[derive(Debug)]
pub struct Pair<'a, T: Parse<'a>> {
    /// The first.
    pub first: Vec<(T, u8)>,
    pub second: Result<T, &'a str>,
    hidden: [u8; 3],
    /// With an attribute.
    #[allow(
        unused
    )]
    pub third: T,
    // No doc line.
    pub fourth: T,
}
"""
ENUM = """pub enum Row {
    /// A text, as `{ a, b (`.
    Text(&'static str),
    Bytes(&'static [u8], u8),
    Many {
        text: &'static str,
    },
    Pair(
        First,
    ),
}

pub struct Text<'a>(pub &'a str);

enum Hidden {
    A,
}
"""


class Repository(Room):
    FILES = {
        "crates.txt": "# NAME: what it stands on\nweedle_base:\nweedle: weedle_base\n",
        "crates/weedle_base/src/parse.rt": "", "tools/look/check.py": "", "docs/TOOLS.md": "`check.py`\n",
        "docs/ARCHITECTURE.md": TABLE.format("| `weedle_base` | |\n| `weedle` | |\n"), "README.md": "",
    }

    def found(self, look, name, text):
        """What a look finds where a file has this text."""
        self.put({name: text})
        return list(look(self.root))


class Links(Repository):
    def links(self, text):
        self.put({"docs/USING.md": "# Using\n## Faults\n## The table: `a_b`, why [so](A.md)\n## Faults ##\n```sh\n# none\n```\n[a](#using)\n"})
        return self.found(pages.of_links, "README.md", text)

    def test_those_that_lead_somewhere(self):
        self.assertEqual(self.links(
            "# A\n[a](docs/USING.md), [b](docs/USING.md#faults), [c](#a), [d](docs), [e](https://a.b)\n"
            "[f](docs/USING.md#faults-1), [g](docs/USING.md#the-table-a_b-why-so), `[h](no)`\n```\n[i](no)\n```\n"
        ), ["docs/USING.md:3: A.md: no such file"])

    def test_those_that_lead_nowhere(self):
        self.assertEqual(self.links("\n[tried by\nhand](docs/USED.md) [`a`](docs/USING.md#none) [b](#fault) [c](../out.md)\n"), [
            "README.md:3: docs/USED.md: no such file", "README.md:3: docs/USING.md#none: no such heading",
            "README.md:3: #fault: no such heading", "README.md:3: ../out.md: no such file",
            "docs/USING.md:3: A.md: no such file",
        ])

    def test_what_is_built_is_no_page(self):
        self.assertEqual(self.found(pages.of_links, "compare/target/doc/README.md", "[a](nowhere.md)\n"), [])


class Crates(Repository):
    def rows(self, table):
        return self.found(pages.of_crates, "docs/ARCHITECTURE.md", TABLE.format(table))

    def test_each_stands_once_and_several_may_share_a_row(self):
        self.assertEqual(self.rows("| `weedle_base` | for `weedle_other` |\n| `weedle` | |\n"), [])
        self.assertEqual(self.rows("| `weedle_base`, `weedle` | |\n"), [])

    def test_those_that_lack_are_no_more_or_stand_twice(self):
        self.assertEqual(self.rows("| `weedle`, `weedle_gone`, `weedle` | |\n"), [
            "docs/ARCHITECTURE.md: the table of crates has weedle_base 0 times, and crates.txt 1",
            "docs/ARCHITECTURE.md: the table of crates has weedle 2 times, and crates.txt 1",
            "docs/ARCHITECTURE.md: the table of crates has weedle_gone 1 times, and crates.txt 0",
        ])


class Scripts(Repository):
    def test_each_but_tests_and_other_files_is_named(self):
        self.put({"tools/look/test_check.py": "", "tools/notes.txt": "", "tools/run/cases.py": "", "tools/write/in/it.py": ""})
        self.put({"docs/TOOLS.md": "`check.py`\n\n| `cases PROGRAM` | |\n"})
        self.assertEqual(list(pages.of_scripts(self.root)), [])
        found = self.found(pages.of_scripts, "docs/TOOLS.md", "`recheck.py`\n")
        self.assertEqual(found, [f"docs/TOOLS.md: nothing is said of tools/{it}.py" for it in ("look/check", "run/cases")])


class Kits(Repository):
    def rows(self, *kits):
        for page, kit in zip(pages.KIT_PAGES, kits):
            self.put({page: f"Proved with `rattle-kit-{kit} logic 0a1b` (`rt version`).\n" if kit else ""})
        return list(pages.of_kits(self.root))

    def test_all_name_one(self):
        self.assertEqual(self.rows("2a", "2a", "2a"), [])

    def test_one_names_another_and_one_none(self):
        self.assertEqual(self.rows("2a", "1c", ""), [
            "docs/PROVED.md: the kit is rattle-kit-1c logic 0a1b, and rattle-kit-2a logic 0a1b in README.md",
            "CHANGELOG.md: no kit is named",
        ])


class Versions(Repository):
    def rows(self, readme, cargo):
        self.put({
            "CHANGELOG.md": "# What is new\n\n## 1.2.0 (2026-01-02)\n\n## 1.1.0 (2026-01-01)\n", "README.md": readme,
            "crates/weedle_c/src/lib.rt": "/// The version: a byte each for the three numbers of 1.2.0.\n",
            "python/pyproject.toml": '[project]\nversion = "1.2.0"\n',
            "js/package.json": '{\n  "version": "1.2.0",\n}\n',
            "python/weedle/__init__.py": '__version__ = "1.2.0"\n',
            "examples/rust/Cargo.toml": f'version = "{cargo}"\n',
        })
        return list(pages.of_versions(self.root))

    def test_all_name_the_newest(self):
        self.assertEqual(self.rows("This is version 1.2.0 (new).\n", "1.2.0"), [])

    def test_one_names_an_older_one_and_one_none(self):
        self.assertEqual(self.rows("A parser.\n", "1.1.0"), [
            "README.md: the version is not named, and 1.2.0 in CHANGELOG.md",
            "examples/rust/Cargo.toml: the version is 1.1.0, and 1.2.0 in CHANGELOG.md",
        ])


class Paths(Repository):
    def rows(self, text):
        return self.found(pages.of_paths, "docs/USING.md", text)

    def test_those_that_are_there_or_stand_for_any(self):
        self.assertEqual(self.rows("`weedle_base/src/parse.rt`, `crates/weedle_base`, `tools/`\n"), [])
        self.assertEqual(self.rows("`crates/weedle_base/out/a`, `crates/NAME/src`, `specs/Trees.antt`\n"), [])
        self.assertEqual(self.rows("```sh\n`tools/gone.py`\n```\n"), [])

    def test_those_that_are_not(self):
        text = "`python3 tools/gone.py FILE`\n`weedle_base/src/{parse,gone}.rt` `weedle_base/specs/*.antt` `weedle/src/lib.rt`\n"
        gone = ["1: there is no tools/gone.py"] + [f"2: there is no {it}" for it in (
            "weedle_base/src/gone.rt", "weedle_base/specs/*.antt", "weedle/src/lib.rt",
        )]
        self.assertEqual(self.rows(text), [f"docs/USING.md:{it}" for it in gone])


class Counts(Repository):
    def test_what_is_so_what_would_do_and_the_few_of_a_section(self):
        text = f"{len(pages.RULES)} rules; up to 400 rules; 12 rules, {pages.KEYWORD_COUNT} keywords; fourteen kinds\nof definitions\n"
        self.assertEqual(self.found(pages.of_counts, "README.md", text), [])
        self.assertEqual(self.found(pages.of_counts, "CHANGELOG.md", "1 keywords\n"), [])

    def test_what_is_not_in_pages_and_docs(self):
        self.put({"crates/weedle_base/src/parse.rt": "// 3 keywords\nfn a() {} // 4 keywords\n/// Any of the 5\n/// keywords.\n"})
        self.assertEqual(self.found(pages.of_counts, "README.md", "\nthirteen kinds of definition\n"), [
            f"README.md:2: `thirteen kinds of definition`, by the grammar {len(pages.BY_NAME['DEFINITION'].row[1])}",
            f"crates/weedle_base/src/parse.rt:3: `5 keywords`, by the grammar {pages.KEYWORD_COUNT}",
        ])


class Docs(Repository):
    def test_fields_and_variants(self):
        found = self.found(pages.of_docs, "crates/weedle_base/src/parse.rt", STRUCT + ENUM)
        told = [it.removeprefix("crates/weedle_base/src/parse.rt:").removesuffix(" has no doc line") for it in found]
        self.assertEqual(told, ["6: Pair.second", "14: Pair.fourth", "19: Row.Bytes", "20: Row.Many", "23: Row.Pair"])
