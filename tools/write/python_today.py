"""The classes of today's tree in Python, and which class each of today's rules makes, for python_types.py.

Names and docs are those of description.today_types, and of weedle2's types where that has none. Annotations are made of
the rows: what a rule gives that is no type of its own is a list, what may be absent, or what is between brackets.
"""

import re

from description import today_types as types
from description.declarations import Type
from description.names import upper
from description.today import NUMBER
from description.today_types import ALIASES, ENUMS, FACTORED, FRONT, LAST_DOC, RULE, STRUCTS, TERMINALS
from write.python_text import COLUMNS, class_head, constructor, field, method, python_name, quoted_items, union_of

# The brackets that a row has around its one part, and what that is called.
BRACKETS = {
    ("OPEN_PAREN", "CLOSE_PAREN"): "Parenthesized", ("OPEN_BRACKET", "CLOSE_BRACKET"): "Bracketed",
    ("OPEN_BRACE", "CLOSE_BRACE"): "Braced", ("LESS_THAN", "GREATER_THAN"): "Generics",
}
# The bodies that have docstrings in front of their closing brace, and the fields of these.
BODY = "Braced"
BODIES = {f"BRACED_{rule}": rule for rule in ALIASES.values() if rule.endswith("_MEMBERS")}
BODY_DOC = "A body in braces, as `{ .. }`, with docstrings in front of the `}`."
BODY_FIELDS = (
    ("open_brace", "term.OpenBrace", "word", "The `{`."),
    ("body", "T", "part", "What is between the braces."),
    ("docstrings", "List[Docstring]", "part", types.DOCS["Braced.docstrings"]),
    ("close_brace", "term.CloseBrace", "word", "The `}`."),
)
WHOLE_DOC = "The definitions of a text that was read by today's grammar."
LAST_DOC_TEXT = "A docstring's line that the text ends in, which has no line end."
# Names of fields that weedle2 has in the logic otherwise than in Python.
RENAMED = {"record_": "record"}
# What makes no value of its own: a piece of a text is what is below it, and a docstring is behind whitespace.
MAKERS = {
    "TODAY_DEFINITIONS": "Pieces()", "TODAY_PIECE": "Through()", "TODAY_DOC": "Within(1)",
    LAST_DOC[0]: f"today.{LAST_DOC[1]}",
}
RECORD_TYPES, START, UNSAID = "TODAY_RECORD_TYPES", "TODAY_DEFINITIONS", "TODAY_TRIVIA"


def word_doc(doc):
    """What is said of a field that is a keyword or a symbol; nothing of another one."""
    found = re.fullmatch(r"The (keyword|symbol) (`.*`)\.", doc or "")
    return found and f"The {'word ' if found[1] == 'keyword' else ''}{found[2]}."


def kind_row(rule, classes):
    """A row of a table of kinds, on several lines where it is long."""
    row = f'        "{rule}": ({classes}),\n'
    return row if len(row) <= COLUMNS else f'        "{rule}": (\n            {classes},\n        ),\n'


class Today:
    """Today's types as Python has them, over the package of weedle2's."""

    def __init__(self, package):
        self.package, self.declared = package, package.declared
        self.of_weedle2 = {upper(name): name for name in package.module}
        self.aliases = {rule: name for name, rule in ALIASES.items()}

    # What a rule gives.
    def annotation(self, rule):
        """What a rule gives, as Python has it."""
        if rule == "TODAY_DOC":
            return "Docstring"
        if rule in TERMINALS:
            return TERMINALS[rule]
        if rule in STRUCTS:
            return STRUCTS[rule].name
        if rule in ENUMS or rule in FACTORED:
            return f"{self.enum(rule).name}.Variants"
        if rule in BODIES:
            return f"{BODY}[{self.annotation(BODIES[rule])}]"
        return self.aliases.get(rule) or self.plain(rule)

    def plain(self, rule):
        """The same of a rule that is no type of today's own."""
        if rule in self.of_weedle2:
            return self.package.annotation(Type(self.of_weedle2[rule]))
        kind, *parts = RULE[rule].row
        if kind in ("Opt", "Many"):
            return f"{'Optional' if kind == 'Opt' else 'List'}[{self.annotation(parts[0])}]"
        if kind in ("List", "List1"):
            separator = RULE[parts[1]].row[2]
            return f"Punctuated[{self.annotation(parts[0])}, {self.annotation(separator)}]"
        return self.sequence(parts[0])

    def sequence(self, parts):
        """What several parts give, one behind another."""
        if parts[0::2] in BRACKETS:
            return f"{BRACKETS[parts[0::2]]}[{self.annotation(parts[1])}]"
        if parts[1:] == ("OPT_Q_MARK",):
            return f"MayBeNull[{self.annotation(parts[0])}]"
        return f"Tuple[{', '.join(map(self.annotation, parts))}]"

    def enum(self, rule):
        return FACTORED[rule][0] if rule in FACTORED else ENUMS[rule]

    def is_word(self, rule):
        """Whether all values of a rule are spelled the same."""
        if rule in TERMINALS or self.package.module.get(self.of_weedle2.get(rule)) == "term":
            return True
        return rule not in STRUCTS and RULE[rule].row[0] == "Seq" and rule not in self.of_weedle2 and all(
            map(self.is_word, RULE[rule].row[1])
        )

    # What weedle2's types say.
    def said(self, name, part):
        """The doc that weedle2's type of a name has of a part, a field or a variant; nothing where it has none."""
        found = self.declared.types.get(name) or self.declared.aliases.get(name)
        parts = self.package.parts(found) if found and self.is_made(found) else []
        return next((doc for it, _, doc in parts if it == part and doc), "")

    def is_made(self, declaration):
        """Whether a declaration has parts with names."""
        return declaration.kind != "type" or bool(self.package.former(declaration))

    def field_doc(self, struct, it):
        """What is said of a field: here, by weedle2's type of that name, or by what all such fields are."""
        own = it.doc or it.rule in FRONT and types.DOCS[it.name]
        found = own or self.said(struct.name, it.name) or types.DOCS.get(it.name) or word_doc(RULE[it.rule].doc)
        if not found:
            raise ValueError(f"nothing says what {struct.name}.{it.name} is")
        return found

    def variant_doc(self, enum, name, chosen):
        """What is said of a variant: by weedle2's enum of that name, or by the grammar of what is chosen."""
        below = chosen.removeprefix("MAY_BE_NULL_")
        words = TERMINALS.get(below) and f"The word `{types.WORDS.get(TERMINALS[below])}`."
        own = types.DOCS.get(f"{enum.name}.{name}")
        return own or self.said(enum.name, name) or words or RULE[chosen].doc or RULE[below].doc

    # Classes.
    def classes(self):
        """The text of each class, in the order in which Python can make them."""
        yield from (self.terminal(rule, name) for rule, name in TERMINALS.items())
        yield class_head(LAST_DOC[1], "LastLine", LAST_DOC_TEXT, is_dataclass=False)
        yield self.body()
        for rule, struct in STRUCTS.items():
            yield self.struct(struct, self.front_of(rule))
        for rule in (*ENUMS, *FACTORED):
            yield self.choice(self.enum(rule), "Factored" if rule in FACTORED else "Choice")
        yield from (self.alias(name, rule) for name, rule in ALIASES.items())
        yield class_head("Definitions", 'Listing["Definition.Variants"]', WHOLE_DOC, is_dataclass=False)

    def front_of(self, rule):
        """The fields that a factored row has in front of a kind; none of what is no kind."""
        kinds = [(enum, front) for enum, front in FACTORED.values() if rule in dict(enum.variants).values()]
        return kinds[0][1] if kinds else ()

    def terminal(self, rule, name):
        head = class_head(name, "Terminal", RULE[rule].doc, is_dataclass=False)
        return f'{head}\n    _spelled = "{types.WORDS.get(name, "*")}"\n'

    def body(self):
        rows = [field(*it) for it in BODY_FIELDS]
        given = {name: annotation for name, annotation, maker, _ in BODY_FIELDS if maker == "part"}
        return class_head(BODY, "Value, Generic[T]", BODY_DOC) + "\n" + "".join(rows) + constructor(given)

    def struct(self, struct, front):
        rows, given, renamed = [], {}, {}
        for it in (*front, *struct.fields):
            shown, annotation, is_word = RENAMED.get(it.name, it.name), self.annotation(it.rule), self.is_word(it.rule)
            if shown != it.name:
                renamed[shown] = it.name
            if not is_word:
                given[shown] = annotation
            rows.append(field(shown, annotation, "word" if is_word else "part", self.field_doc(struct, it)))
        if renamed:
            rows.append(f"    _renamed: ClassVar[Dict[str, str]] = {renamed!r}\n".replace("'", '"'))
        head = class_head(struct.name, "Kind" if front else "Value", types.DOCS.get(struct.name) or struct.doc)
        return head + "\n" + "".join([*rows, constructor(given)])

    def choice(self, enum, base):
        names = [name for name, _ in enum.variants]
        rows = [f'        {it}: TypeAlias = "{enum.name}_{it}"\n' for it in names]
        rows.append(f"        Variants: TypeAlias = (\n{union_of(enum.name, names)}        )\n")
        former = self.declared.types.get(enum.name)
        doc = former.doc if former else enum.doc
        texts = [class_head(enum.name, base, doc, is_dataclass=False) + "\n    if TYPE_CHECKING:\n" + "".join(rows)]
        for name, chosen in enum.variants:
            head = class_head(
                f"{enum.name}_{name}", f'{enum.name}, variant="{name}"', self.variant_doc(enum, name, chosen),
                is_dataclass=False,
            )
            annotation = self.annotation(chosen)
            body = method("__init__", [f"value: {annotation}"], "self._hold(value)")
            texts.append(f"{head}\n    value: {annotation}\n{body}")
        return "\n\n".join(texts)

    def alias(self, name, rule):
        doc, annotation = RULE[rule].doc, self.plain(rule)
        former, _, items = annotation.partition("[")
        return f"#: {doc}\n{name} = {former}[{quoted_items(items[:-1])}]\n"

    # Which class a rule makes.
    def makers(self, known):
        """What each rule makes that weedle2's tree hasn't, and the separators of lists."""
        makers, separators, waiting = {}, {}, [START]
        while waiting:
            rule = waiting.pop()
            if rule.lower() in (*known, *makers) or rule == UNSAID:
                continue
            if self.is_list(rule):
                separator = RULE[RULE[rule].row[2]].row[2]
                separators[rule.lower()] = self.made(separator)
            makers[rule.lower()] = self.maker(rule)
            waiting += self.below(rule)
        return makers, separators

    def is_list(self, rule):
        return RULE[rule].row[0] in ("List", "List1")

    def below(self, rule):
        """The rules below one that has parts."""
        if rule in TERMINALS or rule in MAKERS and rule not in ("TODAY_DEFINITIONS", "TODAY_PIECE"):
            return []
        kind, *parts = RULE[rule].row
        return list(parts[0]) if kind in ("Seq", "First") else [it for it in parts if it in NUMBER]

    def made(self, rule):
        """The class of a rule, with its module."""
        if rule in TERMINALS:
            return f"today.{TERMINALS[rule]}"
        if rule in self.of_weedle2:
            name = self.of_weedle2[rule]
            return f"{self.package.module[name]}.{python_name(name)}"
        return f"today.{STRUCTS[rule].name}"

    def maker(self, rule):
        """What a rule makes."""
        if rule in MAKERS:
            return MAKERS[rule]
        if rule in FACTORED:
            return self.kinds(*FACTORED[rule])
        if rule.endswith("_KIND") or self.front_of(rule):
            return "Through()"
        if rule in ENUMS:
            rows = (f'        "{chosen.lower()}": today.{ENUMS[rule].name}.{it},\n' for it, chosen in ENUMS[rule].variants)
            return "Variants({\n" + "".join(rows) + "    })"
        if rule in TERMINALS or rule in STRUCTS:
            return self.made(rule)
        return f"today.{BODY}" if rule in BODIES else self.plain_maker(rule)

    def kinds(self, enum, front):
        """The maker of a factored row: for each kind its variant and its struct."""
        rows = (
            kind_row(chosen.lower(), f"today.{enum.name}.{it}, today.{STRUCTS[chosen].name}")
            for it, chosen in enum.variants
        )
        return "Kinds({\n" + "".join(rows) + "    })"

    def plain_maker(self, rule):
        """The same of a rule that is no type of its own."""
        kind, *parts = RULE[rule].row
        if kind == "Tail":
            return "Between(FOLLOWING)"
        if kind in ("List", "List1"):
            return "common.Punctuated"
        if kind in ("Opt", "Many"):
            return "Maybe()" if kind == "Opt" else "Many()"
        name = self.sequence(parts[0]).partition("[")[0]
        if name == "Tuple":
            return 'Together("RecordTypes")' if rule == RECORD_TYPES else "Together()"
        return f"{self.package.module[name]}.{name}"
