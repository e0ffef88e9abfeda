"""Python that is written: annotations, docs, and the lines of a module that bring in names."""

import re
from keyword import iskeyword
from textwrap import wrap

COLUMNS = 96
NAMES = {"&": "str", "String": "str", "bool": "bool"}
GENERIC = {"Option": "Optional", "Vec": "List", "()": "Tuple"}
PARENTHESIZED = "Parenthesized[ArgumentList]"
RECORD_TYPES = "Tuple[RecordKeyType.Variants, term.Comma, Type.Variants]"
WORD = re.compile(r"(?<![.\"\w])[A-Z]\w*")
# What a class names when it is made, and so not only in its annotations.
BASES = re.compile(r"^class \w+\(([^)]*)\)|^\w+ = (.*)$", re.M)
# What a module of enums names for type checkers alone.
CHECKED = "    import typing\n\n    from typing_extensions import TypeAlias\n\n"
# The doc of a field.
FIELD_DOC = re.compile(r'(= (?:part|word))\(\s*(?:"(?:\\.|[^"\\])*"\s*)+\)')
TYPING = "ClassVar Dict Generic List Optional Sequence Tuple TypeVar".split()
VALUES = (
    "Choice DecimalChoice Factored Kind Listed Result S T Terminal Value WholeChoice Wrapped part value_class word"
).split()
LEAVES = "Decimal LastLine Leaf Lines Name Quoted Truth Whole".split()


def annotation_of(declared, modules, type_):
    """A type as Python has it."""
    if type_.name in NAMES:
        return NAMES[type_.name]
    if type_.name == "ParenthesizedArgumentList":
        return PARENTHESIZED
    if type_.name == "RecordTypes":
        return RECORD_TYPES
    items = [annotation_of(declared, modules, it) for it in type_.arguments]
    if type_.name == "Box":
        return items[0]
    if type_.name in GENERIC:
        return f"{GENERIC[type_.name]}[{', '.join(items)}]"
    name = f"term.{type_.name}" if modules.get(type_.name) == "term" else type_.name
    if is_choice(declared, type_):
        return f"{name}.Variants"
    return f"{name}[{', '.join(items)}]" if items else name


def is_choice(declared, type_):
    """Whether a type is an enum, also one that is an alias of such."""
    found = declared.types.get(declared.expanded(type_).name)
    return bool(found) and found.is_enum


def plain(doc):
    """The doc of a crate's item, without links."""
    return re.sub(r"\[(`[^`]+`)\]", r"\1", doc)


def first_sentence(doc):
    """The first sentence of a doc; a dot in an example ends none."""
    found = re.match(r"(?:`[^`]*`|[^`])*?[.:](?= |$)", plain(doc))
    text = found[0] if found else plain(doc)
    return text[:-1] + "." if text.endswith(":") else text


def docstring(doc, indent):
    """A docstring of one sentence, in as many lines as it takes."""
    text = first_sentence(doc)
    mark = 'r"""' if "\\" in text else '"""'
    lines = wrap(text, COLUMNS - len(indent) - 6)
    if len(lines) == 1:
        return f'{indent}{mark}{lines[0]}"""\n'
    return f"{indent}{mark}" + f"\n{indent}".join(lines) + f'\n{indent}"""\n'


def comment(doc, indent):
    """A doc comment of one sentence, or nothing where there is no doc."""
    lines = wrap(first_sentence(doc), COLUMNS - len(indent) - 3)
    return "".join(f"{indent}#: {line}\n" for line in lines)


def field(name, annotation, maker, doc):
    """A field of a class, with one sentence of doc that `help` shows."""
    said = '"' + first_sentence(doc).replace("\\", "\\\\").replace('"', '\\"') + '"'
    line = f"    {name}: {annotation} = {maker}({said})\n"
    if len(line) <= COLUMNS + 1:
        return line
    rows = wrap(said[1:-1], COLUMNS - 12, drop_whitespace=False, break_on_hyphens=False)
    rows = "".join(f'        "{it}"\n' for it in rows)
    return f"    {name}: {annotation} = {maker}(\n{rows}    )\n"


def method(name, parameters, body):
    """A method that gives nothing, with its parameters."""
    line = f"    def {name}({', '.join(['self', *parameters])}) -> None:\n"
    if len(line) > COLUMNS + 1:
        # a parameter stays on a line
        whole = [it.replace(" ", "\0") for it in ["self", *parameters]]
        rows = [it.replace("\0", " ") for it in wrap(", ".join(whole) + ",", COLUMNS - 8)]
        line = f"    def {name}(\n" + "".join(f"        {it}\n" for it in rows) + "    ) -> None:\n"
    return f"\n{line}        {body}\n"


def python_name(name):
    """The name of a class; one that Python has a word for is followed by `_`."""
    return f"{name}_" if iskeyword(name) else name


def class_head(name, base, doc, is_dataclass=True):
    decorator = "@value_class\n" if is_dataclass else ""
    return f"{decorator}class {name}({base}):\n{docstring(doc, '    ')}"


def constructor(given):
    """What builds a value of its parts, by their names; those may be left out that may be absent."""
    names = [parameter(name, it) for name, it in given.items()]
    held = (f"[*{name}]" if it.startswith("List[") else name for name, it in given.items())
    return method("__init__", ["*", *names] if names else [], f"self._hold({', '.join(held)})")


def parameter(name, annotation):
    """A parameter of that; of a list it is any sequence, none where it is left out."""
    if annotation.startswith("List["):
        return f"{name}: Sequence{annotation.removeprefix('List')} = ()"
    return f"{name}: {annotation} = None" if annotation.startswith("Optional[") else f"{name}: {annotation}"


def union_of(name, variants):
    """The lines that name each variant of an enum, for type checkers."""
    text = f"typing.Union[{', '.join(f'{name}_{it}' for it in variants)}]"
    rows = wrap(text, 80, drop_whitespace=False)
    return "".join(f'            "{it}"\n' for it in rows)


def quoted_items(text):
    """What stands between brackets, each item as a string."""
    items, depth, item = [], 0, ""
    for sign in text + ",":
        depth += (sign == "[") - (sign == "]")
        if sign == "," and not depth:
            items.append(f'"{item.strip()}"')
            item = ""
        else:
            item += sign
    return ", ".join(items)


def words_of(words):
    """Some words, as a set."""
    if len(words) < 4:
        return f"""frozenset([{', '.join(f'"{it}"' for it in words)}])"""
    return f"frozenset(\n{split(words)}    )"


def split(words):
    """Words as a list that is split from lines of text."""
    rows = wrap(" ".join(words), 80)
    last = len(rows) - 1
    rows = "".join(f'        "{it}{" " * (at < last)}"\n' for at, it in enumerate(rows))
    return rows[:-1] + ".split()\n"


def imports(path, names, indent=""):
    """The line, or the lines, that bring in these names."""
    line = f"{indent}from {path} import {', '.join(names)}\n"
    if len(line) <= COLUMNS + 1:
        return line
    rows = wrap(", ".join(names) + ",", COLUMNS - len(indent) - 4)
    rows = "".join(f"{indent}    {it}\n" for it in rows)
    return f"{indent}from {path} import (\n{rows}{indent})\n"


def named_in(texts):
    """The names of classes in some texts, strings left out."""
    return {name for text in texts for name in WORD.findall(text)}


def brought_in(names, modules, indent=""):
    """The lines that bring in classes of other modules."""
    found = {}
    for name in sorted(names):
        if modules.get(name, "term") != "term":
            found.setdefault(modules[name], []).append(name)
    return "".join(imports(f"weedle.{it}", all_, indent) for it, all_ in sorted(found.items()))


def module_text(about, classes, modules):
    """A module of classes, with the lines that bring in what they name.

    What only annotations name is brought in for type checkers alone: modules name one another.
    """
    body = "\n\n".join(classes)
    code = FIELD_DOC.sub(r"\1()", re.sub(r'#:[^\n]*|r?""".*?"""', "", body, flags=re.S))
    own = set(re.findall(r"^(?:class )?([A-Z]\w*)(?:\(| = )", code, re.M))
    wanted = named_in([code, code.replace('"', " ")]) - own
    now = named_in("".join(it) for it in BASES.findall(code)) & wanted
    checked = CHECKED if "TypeAlias" in code else ""
    checked += "    from weedle import term\n" if "term." in code else ""
    checked += brought_in(wanted - now, modules, "    ")
    typing = [it for it in TYPING if re.search(rf"(?<![.\w]){it}\[", code)] + ["TYPE_CHECKING"] * bool(checked)
    lines = imports("typing", sorted(typing)) + "\n" if typing else ""
    lines += "from weedle._listing import Listing\n" if "(Listing[" in code else ""
    for path, names in (("weedle._leaves", LEAVES), ("weedle._values", VALUES)):
        used = [it for it in names if re.search(rf"\b{it}\b", code)]
        lines += imports(path, used) if used else ""
    lines += brought_in(now, modules)
    lines += f"\nif TYPE_CHECKING:\n{checked}" if checked else ""
    rows = "".join(f'    "{it}",\n' for it in sorted(own) if "_" not in it.rstrip("_"))
    lines += f"\n__all__ = [\n{rows}]\n"
    head = f'"""{about}\n\nWritten by tools/write/python_types.py, and not edited by hand.\n"""\n\n'
    return f"{head}from __future__ import annotations\n\n{lines}\n\n{body}"
