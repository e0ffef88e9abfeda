"""JavaScript and TypeScript that are written: names, docs, and the lines of a module that bring in names."""

import json
import re
from textwrap import wrap

from write.python_text import first_sentence

COLUMNS = 110
HEAD = "/*\n * {about}\n *\n * Written by tools/write/javascript_types.py, and not edited by hand.\n */\n\n"
# The names that modules take from lib/value.js, and their declarations from lib/value.d.ts.
VALUES = (
    "Choice Chosen Decimal DecimalChoice Factored FilledList Leaf Lines Listed Name Terminal Truth Value Whole WholeChoice "
    "Wrapped chosenPart part"
).split()
DECLARED = "Choice DecimalNumber Kind Listed Terminal Value WholeNumber".split()
# A class may not have an accessor of this name.
OTHERWISE = {"constructor": "constructor_"}
# What all values have, which no field may be called.
OF_ALL = set(
    "kind span byteSpan position text parent comments trailing doc walk find equals jsonText toJSON shown variant "
    "constructor".split()
)
# A name of a type in code, but for what stands behind a dot or in quotes.
WORD = re.compile(r'(?<![.\w"])[A-Za-z]\w*')
MODULE = re.compile(r"(?<![.\w])([a-z]+)\.[A-Z]")


def string(text):
    return json.dumps(text)


def camel(name):
    """A name as JavaScript spells it: `returnType`. What is no word of a language has no `_` behind it."""
    first, *others = name.rstrip("_").split("_")
    return first + "".join(it.capitalize() for it in others)


def field_name(name):
    plain = camel(name)
    return OTHERWISE.get(plain, plain)


def abstract(head, name, base, declared, kind):
    """A class that nobody makes but the package."""
    body = "".join([f"  readonly kind: {string(kind)};\n", *declared])
    return f"{head}export abstract class {name} extends {base} {{\n{body}}}\n"


def choice_text(about, name, base, variants, more_of=""):
    """The class of an enum, whose variants are classes in it, and what is declared of it.

    A variant is its name, that in JSON, the type that it holds, and what is said of it.
    """
    head, code, inner, kinds = doc(about), [], [], []
    for shown, in_json, value, said in variants:
        more = f", {string(in_json)}" if shown != in_json else ""
        code.append(f"  static {shown} = this.variant({string(shown)}{more});\n")
        bases = f"Choice<{string(name)}, {string(shown)}, {value}>{more_of}"
        inner.append(f"{doc(said, '  ')}  interface {shown} extends {bases} {{}}\n")
        kinds.append(f"{doc(said, '  ')}  readonly {shown}: Kind<{name}.{shown}>;\n")
    names = " | ".join(f"{name}.{shown}" for shown, *_ in variants)
    union = "".join(f"\n  {it}" for it in wrap(f"| {names}", COLUMNS))
    declared = (
        f"{head}export type {name} ={union};\n"
        f"export declare namespace {name} {{\n{''.join(inner)}}}\n"
        f"export declare const {name}: Kind<{name}> & {{\n{''.join(kinds)}}};\n"
    )
    return f"{head}class {name} extends {base} {{\n{''.join(code)}}}\n", declared


def doc(text, indent=""):
    """A doc comment of one sentence, or nothing where there is no doc."""
    sentence = first_sentence(text or "").replace("*/", "* /")
    if not sentence:
        return ""
    if len(indent) + len(sentence) + 7 <= COLUMNS:
        return f"{indent}/** {sentence} */\n"
    rows = "".join(f"{indent} * {it}\n" for it in wrap(sentence, COLUMNS - len(indent) - 3))
    return f"{indent}/**\n{rows}{indent} */\n"


def code_of(text):
    """A text without its comments."""
    return re.sub(r"/\*.*?\*/", "", text, flags=re.S)


def brought_in(names, words):
    """A line that brings in those of these names that are used, or nothing."""
    used = ", ".join(it for it in names if it in words)
    if len(used) + 40 <= COLUMNS:
        return used and f"{{ {used} }}"
    rows = "".join(f"  {it}\n" for it in wrap(used + ",", COLUMNS - 2))
    return f"{{\n{rows}}}"


def module(about, pieces, names=()):
    """A module of JavaScript, which exports these names."""
    body = "\n".join(pieces)
    words = set(re.findall(r"\b\w+\b", code_of(body))) if names else set()
    values = brought_in(VALUES, {it for it in words if it not in names})
    lines = f'const {values} = require("../value.js");\n\n' if values else ""
    rows = "".join(f"  {it},\n" for it in sorted(names))
    exports = f"\nmodule.exports = {{\n{rows}}};\n" if names else ""
    return HEAD.format(about=about) + f'"use strict";\n\n{lines}{body}'.rstrip("\n") + f"\n{exports}"


def declared_module(about, name, pieces):
    """A module of declarations, with the lines that bring in what they name."""
    body = "\n".join(pieces)
    code = re.sub(r'"[^"]*"', "", code_of(body))
    values = brought_in(DECLARED, set(WORD.findall(code)))
    lines = f'import {values} from "../value.js";\n' if values else ""
    for home in sorted({"term", "today", "values"} & set(MODULE.findall(code))):
        lines += f'import type * as {home} from "./{home}.js";\n'
    separator = "\n" if lines else ""
    return HEAD.format(about=about) + f"{lines}{separator}{body}"
