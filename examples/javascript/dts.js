#!/usr/bin/env node
// Writes TypeScript declarations of files of WebIDL: node dts.js FILE.. > web.d.ts
// Constructors, constants and what is static are in `NameConstructor`. What it leaves out it says on standard error.

import fs from "node:fs";
import { IncludesStatementDefinition, Refused, parse } from "weedle";

/** @typedef {import("weedle").Type} Type */
/** @typedef {import("weedle").NonAnyType} NonAnyType */
/** @typedef {import("weedle").Argument} Argument */
/** @typedef {import("weedle").Definition} Definition */
/** @typedef {Extract<Definition["value"], { members: { body: readonly Member[] } }>} Interface */
/** @typedef {import("weedle").DictionaryDefinition | import("weedle").PartialDictionaryDefinition} Dictionary */
/** @typedef {import("weedle").InterfaceMember | import("weedle").MixinMember | import("weedle").NamespaceMember} Member */

/** @type {Record<string, string>} Types that TypeScript has by another name; all others are called the same. */
const NAMES = {
  Integer: "number", FloatingPoint: "number", Byte: "number", Octet: "number", Boolean: "boolean", Object: "object",
  ByteString: "string", DOMString: "string", USVString: "string", Symbol: "symbol",
};

/** @type {(type: Type) => string} A type: `unsigned long?` is `number | null`. */
const typeText = (type) => [...new Set(typeParts(type))].join(" | ");

/** @type {(type: Type) => Iterable<string>} Of `(long or (Node or DOMString))?` they are four. */
function typeParts(type) {
  if (type.variant === "Union") return unionParts(type.value);
  return type.value.variant === "Any" ? ["any"] : singleParts(type.value.value);
}

/** @type {(union: import("weedle").MayBeNull<import("weedle").UnionType>) => Generator<string>} */
function* unionParts({ type, qMark }) {
  for (const it of type.body) yield* it.variant === "Union" ? unionParts(it.value) : singleParts(it.value.type);
  if (qMark) yield "null";
}

/** @type {(type: NonAnyType) => Generator<string>} */
function* singleParts(type) {
  yield singleText(type);
  if (type.variant !== "Promise" && type.value.qMark) yield "null";
}

/** @type {(type: NonAnyType) => string} */
function singleText(type) {
  if (type.variant === "Promise") return `Promise<${resultText(type.value.generics.body)}>`;
  if (type.variant === "Sequence") return `Array<${typeText(type.value.type.generics.body)}>`;
  if (type.variant === "FrozenArrayType") return `ReadonlyArray<${typeText(type.value.type.generics.body)}>`;
  if (type.variant === "Identifier") return type.value.type.value;
  if (type.variant !== "RecordType") return NAMES[type.variant] ?? type.variant;
  const [key, , value] = type.value.type.generics.body;
  return `Record<${key.variant === "NonAny" ? singleText(key.value) : "string"}, ${typeText(value)}>`;
}

/** @type {(type: import("weedle").ReturnType) => string} */
const resultText = (type) => (type.variant === "Undefined" ? "void" : typeText(type.value));

/** @type {(args: { body: Iterable<Argument> }) => string} `(optional long x = 5)` is `(x?: number)`. */
const argumentsText = (args) => `(${[...args.body].map(argumentText).join(", ")})`;

/** @type {(argument: Argument) => string} Its name has an `_` more, since it may be a word of TypeScript. */
function argumentText({ variant, value }) {
  const name = `${value.identifier.value.replaceAll("-", "_")}_`;
  if (variant === "Variadic") return `...${name}: Array<${typeText(value.type)}>`;
  return `${name}${value.optional ? "?" : ""}: ${typeText(value.type.type)}`;
}

/** @type {(value: { identifier: { value: string } }) => string} The name of a member, in quotes where it needs them. */
const nameText = ({ identifier: { value } }) => (/^\w+$/.test(value) ? value : JSON.stringify(value));

/** @type {(value: { doc: string }, indent?: string) => string} What is said of a value, as a comment. */
function docText({ doc }, indent = "") {
  return doc && `${indent}/** ${doc.replaceAll("*/", "* /").split("\n").join(`\n${indent} * `)} */\n`;
}

/** @type {(member: Member, name: string) => [text: string, isStatic: boolean]} A member's line; none is empty. */
function memberText(member, name) {
  const isStatic = "modifier" in member.value && member.value.modifier?.variant === "Static";
  if (member.variant === "Attribute") {
    const front = member.value.readonly ? "readonly " : "";
    return [`${front}${nameText(member.value)}: ${typeText(member.value.type.type)};`, isStatic];
  }
  if (member.variant === "Operation" && member.value.identifier) {
    const name = nameText({ identifier: member.value.identifier });
    return [`${name}${argumentsText(member.value.args)}: ${resultText(member.value.returnType)};`, isStatic];
  }
  if (member.variant === "Constructor") return [`new ${argumentsText(member.value.args)}: ${name};`, true];
  if (member.variant !== "Const") return ["", false];
  return [`readonly ${nameText(member.value)}: ${member.value.constValue.text};`, true];
}

/** @type {(value: Interface | Dictionary, lines: string[], included?: string[]) => string} */
function interfaceText(value, lines, included = []) {
  const parent = "inheritance" in value && value.inheritance ? [value.inheritance.identifier.value] : [];
  const parents = [...parent, ...included].join(", ");
  return `interface ${value.identifier.value}${parents && ` extends ${parents}`} {\n${lines.join("")}}\n`;
}

/** @type {(file: string, value: Interface, included: string[]) => string} */
function membersText(file, value, included) {
  const name = value.identifier.value;
  const [own, statics] = [/** @type {string[]} */ ([]), /** @type {string[]} */ ([])];
  for (const it of value.members.body) {
    const [text, isStatic] = memberText(it, name);
    if (text) (isStatic ? statics : own).push(`${docText(it, "  ")}  ${text}\n`);
    else console.error(`${file}:${it.position.line}:${it.position.column}: left out: ${it.text}`);
  }
  const maker = `interface ${name}Constructor {\n${statics.join("")}}\n`;
  return interfaceText(value, own, included) + (statics.length ? maker : "");
}

/** @type {(field: import("weedle").DictionaryMember) => string} */
const fieldText = (field) =>
  `${docText(field, "  ")}  ${nameText(field)}${field.required ? "" : "?"}: ${typeText(field.type)};\n`;

/** @type {(file: string, definition: Definition, all: IncludesStatementDefinition[]) => string} */
function definitionText(file, { value }, all) {
  switch (value.kind) {
    case "EnumDefinition":
      return `type ${value.identifier.value} = ${[...value.values.body].map((it) => it.value.text).join(" | ")};\n`;
    case "TypedefDefinition":
      return `type ${value.identifier.value} = ${typeText(value.type.type)};\n`;
    case "CallbackDefinition":
      return `type ${value.identifier.value} = ${argumentsText(value.arguments)} => ${resultText(value.returnType)};\n`;
    case "DictionaryDefinition":
    case "PartialDictionaryDefinition":
      return interfaceText(value, value.members.body.map(fieldText));
    case "IncludesStatementDefinition":
    case "ImplementsDefinition":
      return "";
    default: {
      const own = all.filter((it) => it.lhsIdentifier.equals(value.identifier) && !value.kind.startsWith("Partial"));
      return membersText(file, value, own.map((it) => it.rhsIdentifier.value));
    }
  }
}

for (const file of process.argv.slice(2)) {
  try {
    const definitions = parse(fs.readFileSync(file));
    const included = [...definitions.find(IncludesStatementDefinition)];
    for (const it of definitions) {
      const text = definitionText(file, it, included);
      process.stdout.write(text && docText(it) + text);
    }
  } catch (fault) {
    if (!(fault instanceof Refused)) throw fault;
    console.error(`${file}:${fault.message}`);
    process.exitCode = 1;
  }
}
