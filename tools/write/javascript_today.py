"""The classes of today's tree in JavaScript, and which class each of today's rules makes, for javascript_types.py.

Types, fields and docs are those that python_today.py has for Python: names of description.today_types, and weedle2's docs where
that has none.
"""

from description.declarations import Type
from description.today_types import DOCS, ENUMS, FACTORED, LAST_DOC, RULE, STRUCTS, TERMINALS
from shared.crates import Unfit
from write.javascript_text import OF_ALL, abstract, choice_text, doc, field_name, string
from write.python_today import BODIES, BODY, BODY_DOC, BODY_FIELDS, BRACKETS, LAST_DOC_TEXT, RENAMED, Today

# The type of the docstrings in front of a closing brace.
DOCSTRINGS = "readonly values.Docstring[]"


class JavaScriptToday(Today):
    """Today's types as JavaScript has them, over the classes of weedle2's."""

    def __init__(self, classes):
        super().__init__(classes.package)
        self.classes_of_weedle2 = classes

    # What a rule gives.
    def type(self, rule):
        """What a rule gives, as TypeScript has it in any module."""
        if rule == "TODAY_DOC":
            return "values.Docstring"
        if rule in TERMINALS:
            return f"today.{TERMINALS[rule]}"
        if rule in STRUCTS:
            return f"today.{STRUCTS[rule].name}"
        if rule in ENUMS or rule in FACTORED:
            return f"today.{self.enum(rule).name}"
        if rule in BODIES:
            return f"today.{BODY}<{self.type(BODIES[rule])}>"
        return f"today.{self.aliases[rule]}" if rule in self.aliases else self.plain_type(rule)

    def plain_type(self, rule):
        """The same of a rule that is no type of today's own."""
        if rule in self.of_weedle2:
            return self.classes_of_weedle2.type(Type(self.of_weedle2[rule]), "today")
        kind, *parts = RULE[rule].row
        if kind == "Opt":
            return f"{self.type(parts[0])} | null"
        if kind == "Many":
            return f"readonly {self.type(parts[0])}[]"
        if kind in ("List", "List1"):
            separator = RULE[parts[1]].row[2]
            return f"values.Punctuated<{self.type(parts[0])}, {self.type(separator)}>"
        return self.type_of_parts(parts[0])

    def type_of_parts(self, parts):
        """What several parts give, one behind another."""
        if parts[0::2] in BRACKETS:
            return f"values.{BRACKETS[parts[0::2]]}<{self.type(parts[1])}>"
        if parts[1:] == ("OPT_Q_MARK",):
            return f"values.MayBeNull<{self.type(parts[0])}>"
        return f"readonly [{', '.join(map(self.type, parts))}]"

    # Classes.
    def triples(self):
        """The name of each type, its class, and what is declared of it; a name for another type has no class."""
        yield from ((name, *self.terminal_texts(rule, name)) for rule, name in TERMINALS.items())
        yield LAST_DOC[1], *self.last_doc()
        yield BODY, *self.body_texts()
        for rule, struct in STRUCTS.items():
            yield struct.name, *self.struct_texts(struct, self.front_of(rule))
        for rule in (*ENUMS, *FACTORED):
            yield self.enum(rule).name, *self.choice_texts(self.enum(rule), "Factored" if rule in FACTORED else "Choice")
        for rule, name in self.aliases.items():
            yield name, "", f"{doc(RULE[rule].doc)}export type {name} = {self.plain_type(rule)};\n"

    def terminal_texts(self, rule, name):
        head = doc(RULE[rule].doc)
        return f"{head}class {name} extends Terminal {{}}\n", abstract(head, name, "Terminal", [], name)

    def last_doc(self):
        head, name = doc(LAST_DOC_TEXT), LAST_DOC[1]
        declared = ["  readonly value: string;\n"]
        return f"{head}class {name} extends Leaf {{\n  static kept = 2;\n}}\n", abstract(head, name, "Value", declared, name)

    def body_texts(self):
        types = {"body": "T", "docstrings": DOCSTRINGS}
        rows = [(name, types.get(name, annotation), about) for name, annotation, _, about in BODY_FIELDS]
        return struct_of(doc(BODY_DOC), BODY, "Value", rows, parameters="<T>")

    def struct_texts(self, struct, front):
        rows = [(it.name, self.type(it.rule), self.field_doc(struct, it)) for it in (*front, *struct.fields)]
        return struct_of(doc(DOCS.get(struct.name) or struct.doc), struct.name, "Chosen" if front else "Value", rows)

    def choice_texts(self, enum, base):
        former = self.declared.types.get(enum.name)
        variants = [(name, name, self.type(chosen), self.variant_doc(enum, name, chosen)) for name, chosen in enum.variants]
        return choice_text(former.doc if former else enum.doc, enum.name, base, variants)

    # Which class a rule makes.
    def kinds(self, enum, front):
        """The maker of a factored row: for each kind its variant and its struct."""
        return choice_of("Kinds", (
            (chosen, f"[today.{enum.name}.{it}, today.{STRUCTS[chosen].name}]") for it, chosen in enum.variants
        ))

    def maker(self, rule):
        """What a rule makes: in JavaScript of a choice, and else as Python has it."""
        if rule in ENUMS:
            name = ENUMS[rule].name
            return choice_of("Variants", ((chosen, f"today.{name}.{it}") for it, chosen in ENUMS[rule].variants))
        return super().maker(rule)

    def javascript_makers(self, known):
        """What each of today's rules makes, as the text of JavaScript."""
        makers, separators = self.makers(known)
        return {rule: javascript(text, separators.get(rule)) for rule, text in makers.items()}


def struct_of(head, name, base, rows, parameters=""):
    """The class of what has parts with names, and what is declared of it."""
    fields, getters, declared = [], [], []
    for number, (inner, type_, about) in enumerate(rows):
        field = field_name(RENAMED.get(inner, inner))
        if field in OF_ALL:
            raise Unfit(f"{name} has a field {field}, as all values have")
        fields.append(f"    {field}: {string(inner)},\n")
        part = "chosenPart" if base == "Chosen" else "part"
        getters.append(f"\n  get {field}() {{\n    return {part}(this, {number});\n  }}\n")
        declared.append(f"{doc(about, '  ')}  readonly {field}: {type_};\n")
    code = f"{head}class {name} extends {base} {{\n  static fields = {{\n{''.join(fields)}  }};\n{''.join(getters)}}}\n"
    return code, abstract(head, name + parameters, "Value", declared, name)


def choice_of(maker, rows):
    """What makes a variant, by the rules that are chosen and what each makes."""
    return f"new {maker}({{\n" + "".join(f"    {chosen.lower()}: {made},\n" for chosen, made in rows) + "  })"


def javascript(text, separator):
    """What a rule makes, in JavaScript: calls of classes by `new`, and weedle2's classes of one module."""
    if text.startswith("new "):
        return text
    if text.endswith(")"):
        return f"new {text}"
    name = home(text)
    return f"new One({name}, {home(separator)})" if separator else name


def home(name):
    """A class of Python's modules as JavaScript's have it."""
    module, _, rest = name.partition(".")
    return name if module in ("term", "today") else f"values.{rest}"
