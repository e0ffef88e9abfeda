// A program that has to pass `tsc --strict`, over all that the declarations promise.

import {
  Choice, ConstValue, Definition, Definitions, Identifier, InterfaceMember, MayBeNull, Name, Node, NotUtf8, Refused, Role, Span, Type,
  TodayDefinitions, Value, format, parse, recover, syntax, term, today,
} from "weedle";
import * as alone from "weedle/today";

/** Each definition by its kind: `value` is narrowed by the variant, and by instanceof. */
function told(definition: Definition): string {
  switch (definition.variant) {
    case "Interface":
      return definition.value.members.body.map(memberText).join();
    case "Enum":
      return definition.value.values.body.list.map((it) => it.value.value).join();
    default:
      return definition instanceof Definition.Typedef ? definition.value.type.type.variant : definition.value.kind;
  }
}

function memberText(member: InterfaceMember): string {
  if (member instanceof InterfaceMember.Attribute) {
    const name: Identifier = member.value.identifier;
    return `${name.value} ${name.position.line} ${typeText(member.value.type.type)}`;
  }
  return member.variant === "Operation" ? member.value.returnType.variant : member.kind;
}

/** No variant is forgotten: there is no other way out. */
function typeText(type: Type): string {
  switch (type.variant) {
    case "Union": {
      const kinds: string[] = [];
      for (const it of type.value.type.body) {
        kinds.push(it.variant);
      }
      return kinds.join();
    }
    case "Single": {
      const single = type.value;
      const isInteger = single.variant === "NonAny" && single.value.variant === "Integer";
      return isInteger ? `${single.value.value.type.variant} ${single.value.value.qMark === null}` : single.variant;
    }
  }
}

/** The number of a constant. */
const numberOf = (value: ConstValue): number | bigint | null => {
  switch (value.variant) {
    case "Float":
      return value.value.number;
    case "Integer":
      return value.value.bigint + BigInt(value.value.value.number);
    default:
      return null;
  }
};

const definitions: Definitions = parse("interface A { attribute long x; };");
const names: Name[] = [...definitions.names()];
const roles: Role[] = names.map((it) => it.role);
const spans: readonly Span[] = names.flatMap((it) => [it.span, it.byteSpan]);
const identifiers: Identifier[] = [...definitions.find(Identifier)];
const enums: Definition.Enum[] = [...definitions.find(Definition.Enum)];
const all: Definition[] = [...definitions.find(Definition)];
const one: Definition | undefined = definitions.find((it) => it.variant === "Enum");
const marks: (term.QMark | null)[] = [...definitions.find(MayBeNull)].map((it) => it.qMark);
const values: Value[] = [...definitions.walk()].filter((it) => it.parent === null && it.doc !== it.comments.join());
const nodes: Node[] = [...syntax(new Uint8Array(0)).find("identifier")];
const string: string = format("A includes B;");
const bytes: Uint8Array = format(new Uint8Array(0));
const terminals: Value[] = values.filter((it) => it instanceof term.Promise && it.kind === "Promise");
const choices: Value[] = values.filter((it) => it instanceof Choice);
try {
  parse("");
} catch (fault) {
  const place: number = fault instanceof Refused ? fault.line + (fault.hint?.length ?? 0) : 0;
  const start: number = fault instanceof NotUtf8 ? fault.byteStart : place;
  console.log(numberOf, start, told(all[0]!), roles, spans, identifiers, enums, one, marks, nodes, string, bytes, terminals, choices);
}

/** Each piece by today's rules: a definition by its kind, or a docstring. */
function pieceText(piece: TodayDefinitions[number]): string {
  if (!(piece instanceof Choice)) {
    return piece.value;
  }
  const { attributes, docstrings } = piece.value;
  const lists = attributes.map((it) => [...it.body].map((one) => one.variant).join());
  const isInterface = piece instanceof alone.Definition.Interface && piece.variant === "Interface";
  const first: today.InterfaceMember | undefined = isInterface ? piece.value.members.body[0] : undefined;
  return [...docstrings.map((it) => it.value), ...lists, first?.value.kind].join();
}

const pieces: TodayDefinitions = parse("[Exposed=*] interface A {};", { dialect: "today" });
const older: Definitions = parse("interface A {};", { dialect: "weedle2" });
const each: Definitions[] = ["A includes B;"].map((it) => parse(it));
const wildcards: today.ExtendedAttributeWildcard[] = [...pieces.find(today.ExtendedAttributeWildcard)];
const whole: today.Definition[] = recover("", { dialect: "today" }).definitions;
const laidOut: string = format("A includes B;", { dialect: "today" });
const todayNode: Node = syntax("", { dialect: "today" });
console.log(pieces.map(pieceText), older, each, wildcards, whole, laidOut, todayNode);

// @ts-expect-error no dialect has this name
parse("", { dialect: "tomorrow" });
// @ts-expect-error the options are an object
parse("", "today");
// @ts-expect-error nobody makes a value
new Definition.Enum();
// @ts-expect-error nor a name
new Name();
// @ts-expect-error a number is no text
parse(5);
// @ts-expect-error a string is no class
definitions.find("Identifier");
// @ts-expect-error what was read doesn't change
definitions[0]!.value.attributes = null;
// @ts-expect-error there is no such role
const other: Role = "Window";
