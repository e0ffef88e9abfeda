"""Tests surfaces/: what is found in made-up sources, and what changes ask of callers."""

from release.prebuilt import calls_in
from release.surfaces import Change, c, javascript, python, rust
from shared.crates import TOP
from shared.test_support import Room

HEADER = """\
#define WEEDLE_VERSION 0x000b00
#define WEEDLE_RULE_COUNT 2
/* struct weedle_none { int a; }; */
enum weedle_status {
    WEEDLE_STATUS_READ = 0, /* read */
    WEEDLE_STATUS_REFUSED = 1 /* not */
};
struct weedle_node {
    uint32_t rule;  /* a rule */
    uint32_t depth;
};
struct weedle_answer {
    size_t count;
};
enum weedle_rule {
    WEEDLE_LF = 0,
    WEEDLE_ANY = 1
};
uint32_t weedle_syntax(
    const char *text, size_t length,
    struct weedle_node *nodes);
uint32_t weedle_rules(void);
static inline const char *weedle_rule_name(uint32_t rule) {
    return NULL;
}
"""
DECLARED = """\
// What is said.
export { Role };
/** A call { with a brace. */
export declare function parse(text: string | Uint8Array): Definitions;
export declare class Node {
  private constructor();
  /** Its name. */
  readonly name: string;
  find(kind: string): Node;
  find<T>(kind: Kind<T>): Generator<T, void>;
}
export type Role =
  | "A"
  | "B";
export declare namespace Type {
  /** One. */
  interface Single extends Choice<"Type", "Single"> {}
}
export declare const Type: Kind<Type> & {
  readonly Single: Kind<Type.Single>;
};
"""
LIB = """\
mod macros;
#[doc(hidden)]
pub mod cursor;
pub mod types;
mod definitions;
pub use definitions::*;
pub use nom::{Err, IResult};
/// Reads.
pub fn parse(raw: &str) -> Result<(), ()> {
    Ok(())
}
pub trait Parse<'a>: Sized {
    fn parse(input: &'a str) -> Self;

    #[doc(hidden)]
    fn __build() -> Self {
        unreachable!()
    }
}
"""
TYPES = """\
/// A type.
#[derive(Clone, Debug)]
pub struct Single<'a> {
    /// Its name.
    pub name: &'a str,
}
#[derive(Clone)]
pub enum Type {
    /// One.
    One(u8),
    Two,
}
pub struct Word;
struct Hidden;
impl Word {
    pub fn text(&self) -> &str {
        ""
    }
    fn hidden(&self) {}
}
impl fmt::Display for Word {
    fn fmt(&self) {}
}
#[macro_export]
macro_rules! term {
    () => {};
}
"""
TOP_MODULE = '''\
from typing import List
from weedle import types
from weedle._values import Value
from weedle._reading import read as read
from weedle.types import *
__version__ = "1.2.3"
__all__ = ["Value", "parse", *types.__all__]
LEFT = 1
def parse(text: str, rule: str = "a", *, more: bool = False) -> List[Value]:
    """Reads."""
'''
VALUES = '''\
from enum import Enum
class Placed:
    @property
    def span(self) -> int: ...
class Value(Placed):
    def walk(self, deep: bool = True) -> int: ...
    def _hidden(self) -> int: ...
    def __init__(self) -> None:
        self.start = 1
        self._left = 2
def value_class(it): ...
'''
MODULE = '''\
from weedle._values import Value, value_class
__all__ = ["Single", "Role"]
@value_class
class Single(Value):
    name: str = part("Its name.")
    def __init__(self, *, name: str) -> None: ...
class Role:
    A = "a"
class Left: ...
'''


class Trees(Room):
    def surface(self, language, files):
        """The surface of a tree with these files."""
        self.put(files)
        return language.surface_of(self.root)

    def test_nothing_at_all(self):
        for language in (c, javascript, python, rust):
            self.assertEqual(self.surface(language, {}), {})


class InC(Trees):
    def test_what_a_header_has(self):
        found = self.surface(c, {c.HEADER: HEADER})
        self.assertEqual(found, {
            "#define WEEDLE_RULE_COUNT": "2",
            "enum weedle_status WEEDLE_STATUS_READ": "0", "enum weedle_status WEEDLE_STATUS_REFUSED": "1",
            "enum weedle_rule WEEDLE_LF": "0", "enum weedle_rule WEEDLE_ANY": "1",
            "struct weedle_node": "uint32_t rule, uint32_t depth", "struct weedle_answer": "size_t count",
            "weedle_syntax": "uint32_t (const char *, size_t, struct weedle_node *)",
            "weedle_rules": "uint32_t (void)", "weedle_rule_name": "const char * (uint32_t)",
        })

    def test_each_call_of_the_header(self):
        calls = calls_in((TOP / c.HEADER).read_text(encoding="utf-8"))
        self.assertLessEqual(calls | {"weedle_rule_name"}, c.surface_of(TOP).keys())

    def test_what_a_change_asks(self):
        """A struct that is an answer's may grow at its end; numbers of rules and new statuses change the ABI alone."""
        answer, node, rule = "struct weedle_answer", "struct weedle_node", "enum weedle_rule WEEDLE_LF"
        for name, old, new, change in (
            (answer, "size_t count", "size_t count, size_t rest", Change.ABI),
            (answer, "size_t count", "size_t rest, size_t count", Change.BROKEN),
            (answer, "size_t count", "size_t counted", Change.BROKEN),
            (node, "uint32_t rule", "uint32_t rule, uint32_t depth", Change.BROKEN),
            (rule, "0", "1", Change.ABI), (rule, None, "1", Change.ABI), (rule, "0", None, Change.BROKEN),
            ("enum weedle_status WEEDLE_STATUS_NEW", None, "7", Change.ABI),
            ("#define WEEDLE_RULE_COUNT", "1", "2", Change.ABI), ("weedle_new", None, "void (void)", Change.ADDED),
            ("weedle_rules", "uint32_t (void)", "size_t (void)", Change.BROKEN),
        ):
            self.assertEqual(c.change_of(name, old, new), change, (name, old, new))


class InPython(Trees):
    FILES = {"__init__.py": TOP_MODULE, "_values.py": VALUES, "types.py": MODULE, "_reading.py": "def read(it): ...", "lint.py": "def main(): ..."}

    def test_what_a_package_has(self):
        found = self.surface(python, {f"{python.PACKAGE}/{name}": text for name, text in self.FILES.items()})
        self.assertEqual(found, {
            "weedle.Value": "class ()", "weedle.Value.span": "property -> int", "weedle.Value.walk": "(deep: bool=True) -> int",
            "weedle.Value.start": "attribute", "weedle.read": "(it) -> ",
            "weedle.parse": "(text: str, rule: str='a', *, more: bool=False) -> List[Value]",
            "weedle.Single": "weedle.types.Single", "weedle.Role": "weedle.types.Role",
            "weedle.types.Single": "class (Value) of name", "weedle.types.Single.name": "str",
            "weedle.types.Single.__init__": "(*, name: str) -> None",
            "weedle.types.Role": "class ()", "weedle.types.Role.A": "= 'a'",
        })

    def test_what_a_change_asks(self):
        old = "(text: str, rule: str='a', *, more: bool=False) -> int"
        for was, now, change in (
            (old, "(text: str, rule: str='b', *, more: bool=True) -> int", Change.ADDED),
            (old, "(text: str, rule: str='a', third: int=1, *, more: bool=False, other: int=2) -> int", Change.ADDED),
            (old, "(text: str='', rule: str='a', *, more: bool=False) -> int", Change.ADDED),
            (old, "(text: str, rule: str, *, more: bool=False) -> int", Change.BROKEN),
            (old, "(text: str, *, more: bool=False) -> int", Change.BROKEN),
            (old, "(text: str, rule: str='a') -> int", Change.BROKEN),
            (old, "(text: str, rule: str='a', *, more: bool=False, other: int) -> int", Change.BROKEN),
            (old, "(text: str, rule: str='a', *, more: bool=False) -> str", Change.BROKEN),
            (old, "(text: bytes, rule: str='a', *, more: bool=False) -> int", Change.BROKEN),
            ("str", "int", Change.BROKEN), ("str", None, Change.BROKEN), (None, "str", Change.ADDED),
        ):
            self.assertEqual(python.change_of("f", was, now), change, now)

    def test_the_package(self):
        found = python.surface_of(TOP)
        self.assertIn("weedle.format", found)
        self.assertIn("weedle.Refused.start", found)
        self.assertEqual(found["weedle.Definition"], "weedle.definitions.Definition")
        self.assertFalse([it for it in found if "._" in it and "__init__" not in it])


class InRust(Trees):
    def test_what_a_package_has(self):
        texts = {"lib.rs": LIB, "types.rs": TYPES, "definitions.rs": "pub type A<'a> = Vec<B<'a>>;\n", "cursor.rs": "pub fn it() {}\n"}
        found = self.surface(rust, {f"{rust.SOURCE}/{name}": text for name, text in texts.items()})
        self.assertEqual(found, {
            "weedle::parse()": "(raw: &str) -> Result<(), ()>", "weedle::Parse": "<'a>: Sized",
            "weedle::Parse::parse": "(input: &'a str) -> Self", "weedle::A": "type<'a> = Vec<B<'a>>;",
            "use nom::{Err, IResult}": "", "weedle::types::Single": "struct<'a> { pub name: &'a str }",
            "weedle::types::Single: Clone": "", "weedle::types::Single: Debug": "", "weedle::types::Type": "enum { One(u8), Two }",
            "weedle::types::Type: Clone": "", "weedle::types::Word": "struct;", "weedle::types::Word::text()": "(&self) -> &str",
            "weedle::types::Word: fmt::Display": "", "weedle::term!": "macro",
        })

    def test_what_a_change_asks(self):
        self.assertEqual(rust.change_of("a", None, "struct;"), Change.ADDED)
        self.assertEqual(rust.change_of("a", "struct;", "enum { A }"), Change.BROKEN)
        self.assertEqual(rust.change_of("a: Clone", "", None), Change.BROKEN)

    def test_the_package(self):
        found = rust.surface_of(TOP)
        self.assertIn("weedle::syntax::syntax()", found)
        self.assertIn("weedle::Definition: Ord", found)
        self.assertFalse([it for it in found if "__" in it])


class InJavaScript(Trees):
    def test_what_declarations_have(self):
        found = self.surface(javascript, {"js/index.d.ts": DECLARED})
        self.assertEqual(found, {
            "parse": "export declare function parse(text: string | Uint8Array): Definitions;",
            "Node": "export declare class Node", "Node.name": "readonly name: string;",
            "Node.find": "find(kind: string): Node;\nfind<T>(kind: Kind<T>): Generator<T, void>;",
            "Role type": 'export type Role = | "A" | "B";', "Type{}": "export declare namespace Type",
            "Type.Single": 'interface Single extends Choice<"Type", "Single"> {}',
            "Type": "export declare const Type: Kind<Type> & { readonly Single: Kind<Type.Single>; };",
        })

    def test_what_a_change_asks(self):
        old = "export declare function parse(text: string): Definitions;"
        more = "export declare function parse(text: string, rule?: string, other?: number): Definitions;"
        for name, was, now, change in (
            ("parse", old, more, Change.ADDED), ("parse", old, more.replace("?", ""), Change.BROKEN),
            ("parse", more, old, Change.BROKEN), ("parse", old, old.replace("string", "number"), Change.BROKEN),
            ("walk", "walk(): A;", "walk(deep?: boolean): A;", Change.ADDED),
            ("walk", "walk(): A;", "walk(deep: boolean): A;", Change.BROKEN),
            ("find", "find(a): B;", "find(a): B;\nfind(c): D;", Change.ADDED), ("find", "find(a): B;", None, Change.BROKEN),
        ):
            self.assertEqual(javascript.change_of(name, was, now), change, now)

    def test_the_package(self):
        found = javascript.surface_of(TOP)
        self.assertEqual(found["Value.kind"], "readonly kind: string;")
        self.assertEqual(found["Choice.kind"], "readonly kind: `${E}.${N}`;")
        self.assertIn("term.Promise", found)
        self.assertIn("Definition.Interface", found)
