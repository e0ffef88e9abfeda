// Today's WebIDL: texts of tests/today.toml by the option `dialect`, their values, and what is said of them.
//
// Which texts are read is by hand, from the standard's grammar. Values are by the rows of the grammar (tools/rows), those of
// single texts by hand.

import assert from "node:assert/strict";
import fs from "node:fs";
import path from "node:path";
import test from "node:test";

import * as weedle from "../index.mjs";
import * as today from "../today.mjs";
import { PROGRAM, inRoom, run, todayByRows, tomlOf, wanting } from "./support.mjs";

const { Definition, Docstring, Identifier, Refused, Value, format, parse, recover, syntax } = weedle;
const TODAY = { dialect: "today" };
const WILDCARD = "[Exposed=*] interface A {};";
const skip = wanting("python3");
const TEXT = `/// A list.
/// Of what?
[Exposed=*] [A=(1, 2)]
interface B : C { /// Its items.
  readonly attribute sequence<[Clamp] octet>? items; // all
  static undefined f(optional any a = undefined, [D] long... b);
  /// No more.
};
/// The end`;

/** What is thrown of a text. */
function thrown(act) {
  try {
    act();
  } catch (fault) {
    return fault;
  }
  return null;
}

test("texts that are read", { skip }, () => {
  const { read } = tomlOf("today.toml");
  const wanted = todayByRows(read.map((it) => it.text));
  read.forEach(({ name, text }, at) => {
    for (const given of [text, Buffer.from(text)]) {
      const found = parse(given, TODAY);
      assert.deepEqual(found.map((it) => it.jsonText()), wanted[at], name);
      assert.equal(found.syntax.children.map((it) => it.text).join(""), text, name);
    }
  });
});

test("texts that weedle2's rules refuse, and today's read", { skip }, () => {
  for (const { name, text, weedle2 = true } of tomlOf("today.toml").read) {
    const fault = thrown(() => parse(text));
    assert.equal(fault === null, weedle2, name);
    if (fault) {
      assert.ok(fault instanceof Refused && fault.isReadToday, name);
      assert.deepEqual([fault.dialect, fault.message.split("\n").pop()], ["weedle2", `today's WebIDL reads it: dialect: "today"`]);
    }
  }
});

test("texts that both refuse", { skip }, () => {
  for (const { name, text, front = "", at, says } of tomlOf("today.toml").refused) {
    const fault = thrown(() => parse(text, TODAY));
    assert.ok(fault instanceof Refused && fault.dialect === "today" && !fault.isReadToday, name);
    assert.equal(text.slice(0, fault.start), front, name);
    assert.equal(at ?? `${fault.line}:${fault.column}`, `${fault.line}:${fault.column}`, name);
    assert.equal(says ?? `expected ${fault.expected}`, `expected ${fault.expected}`, name);
    assert.equal(thrown(() => parse(text)).isReadToday, false, name);
  }
});

test("what stands in a definition", () => {
  const [definition, last] = parse(TEXT, TODAY);
  assert.ok(definition instanceof today.Definition && definition instanceof today.Definition.Interface);
  assert.ok(!(definition instanceof Definition) && today.Definition === weedle.today.Definition);
  assert.deepEqual([definition.variant, definition.kind, definition.value.kind], ["Interface", "Definition.Interface", "InterfaceDefinition"]);
  const { docstrings, attributes, identifier, inheritance, members } = definition.value;
  assert.deepEqual(docstrings.map((it) => it.value), [" A list.\n Of what?"]);
  assert.deepEqual(attributes.map((it) => it.body.list[0].variant), ["Wildcard", "Numbers"]);
  assert.deepEqual([identifier.value, inheritance.identifier.value], ["B", "C"]);
  assert.ok(identifier instanceof Identifier && docstrings[0] instanceof Docstring);
  assert.deepEqual(members.docstrings.map((it) => it.value), [" No more."]);
  assert.ok(last instanceof today.LastDocstring && last.value === " The end");
  assert.equal(definition.doc, "A list.\nOf what?");
});

test("what stands in a member", () => {
  const [attribute, operation] = parse(TEXT, TODAY)[0].value.members.body;
  assert.ok(attribute instanceof today.InterfaceMember.Attribute && attribute.value instanceof today.AttributeInterfaceMember);
  assert.deepEqual([attribute.doc, attribute.trailing], ["Its items.", ["// all"]]);
  const sequence = attribute.value.type.type.value.value.type.value;
  assert.deepEqual([sequence.kind, sequence.generics.body.attributes[0].text], ["SequenceType", "[Clamp]"]);
  assert.deepEqual([operation.value.special, operation.value.docstrings], [null, []]);
  const [one, other] = operation.value.args.body;
  assert.deepEqual([one.variant, one.value.default.value.variant], ["Optional", "Undefined"]);
  assert.deepEqual([other.variant, other.value.attributes[0].text, other.value.ellipsis.text], ["Required", "[D]", "..."]);
});

test("a variant and what it holds are at one place", () => {
  const [member] = parse(TEXT, TODAY)[0].value.members.body;
  assert.equal(member.text, "/// Its items.\n  readonly attribute sequence<[Clamp] octet>? items;");
  assert.deepEqual([member.value.text, member.value.span], [member.text, member.span]);
  assert.equal(member.value, member.value);
  assert.equal(member.value.parent, member);
  assert.equal(member.value.docstrings[0].parent, member.value);
  assert.equal(member.value.type.parent, member.value);
  assert.equal(member.parent.kind, "Braced");
  const kinds = [...member.walk()].map((it) => it.kind);
  assert.deepEqual(kinds.slice(0, 3), ["InterfaceMember.Attribute", "AttributeInterfaceMember", "Docstring"]);
  assert.deepEqual([...member.value.walk()].map((it) => it.kind), kinds.slice(1));
  assert.deepEqual([...member.value.find(Value)].map((it) => it.kind), kinds.slice(1));
  assert.deepEqual(member.toJSON(), { Attribute: member.value.toJSON() });
});

test("values that are found", () => {
  const found = parse(TEXT, TODAY);
  assert.deepEqual([...found.find(today.InterfaceMember)].map((it) => it.variant), ["Attribute", "Operation"]);
  assert.deepEqual([...found.find(today.OperationInterfaceMember)].map((it) => it.identifier.value), ["f"]);
  assert.deepEqual([...found.find(Docstring)].map((it) => it.value), [" A list.\n Of what?", " Its items.", " No more."]);
  const names = [...found.names()].map((it) => `${it.text} ${it.role}`);
  assert.deepEqual(names, [
    "Exposed ExtendedAttribute", "A ExtendedAttribute", "B Interface", "C Inherited", "Clamp ExtendedAttribute", "items Attribute",
    "f Operation", "a Argument", "D ExtendedAttribute", "b Argument",
  ]);
});

test("what no definition follows", () => {
  assert.deepEqual(parse("// c", TODAY).map((it) => it.kind), []);
  assert.deepEqual(parse("/// d\n// c", TODAY).map((it) => [it.kind, it.value]), [["Docstring", " d"]]);
  assert.deepEqual(parse("", TODAY).length, 0);
  assert.equal(syntax("// c", TODAY).children[0].name, "today_piece");
});

test("options", () => {
  assert.equal(parse("A includes B;", { dialect: "weedle2" })[0].kind, "Definition.IncludesStatement");
  assert.equal(parse("A includes B;", {})[0].kind, parse("A includes B;", undefined)[0].kind);
  assert.equal(["A includes B;"].map(parse)[0].length, 1);
  for (const call of [parse, syntax, format, recover]) {
    for (const options of ["today", null, { dialect: "Today" }, { dialect: 1 }, { dialect: null }]) {
      assert.throws(() => call("A includes B;", options), TypeError);
    }
  }
});

test("a layout", () => {
  const text = "[Exposed=*]interface A{attribute ObservableArray<long> x;};";
  const laidOut = "[Exposed=*] interface A {\n  attribute ObservableArray<long> x;\n};\n";
  assert.equal(format(text, TODAY), laidOut);
  assert.equal(String(format(Buffer.from(text), TODAY)), laidOut);
  assert.equal(format("// c", TODAY), "// c");
  assert.throws(() => format(text), Refused);
});

test("all errors of a text", () => {
  const text = `[Exposed=*] interface A {\n  atribute long x;\n  attribute ObservableArray<long> y;\n};\ntypedef async_sequence<long> T;\n`;
  const found = recover(text, TODAY);
  assert.equal(found.parts.map((it) => it.text).join(""), text);
  assert.deepEqual(found.errors.map((it) => [it.line, it.hint, it.isReadToday]), [[2, "2:3: `attribute` in place of `atribute`?", false]]);
  assert.deepEqual(found.definitions.map((it) => it.kind), ["Definition.Typedef"]);
  const members = found.parts.filter((it) => it.isRead && it.rule === "today_interface_member").map((it) => it.value);
  assert.deepEqual(members.map((it) => it.value.identifier.value), ["y"]);
  assert.deepEqual(recover(WILDCARD, TODAY).parts.map((it) => [it.isRead, it.isDefinition]), [[true, true]]);
});

test("a text that nests deep", () => {
  const deep = (times) => `typedef ${"sequence<".repeat(times)}long${">".repeat(times)} T;`;
  assert.equal(parse(deep(2_000), TODAY)[0].kind, "Definition.Typedef");
  assert.equal(format(`${deep(2_000)}\n`, TODAY).length > 0, true);
  const fault = thrown(() => parse(deep(2_000).slice(0, -1), TODAY));
  assert.equal(fault.message, "1:1: unread from here on; it nests too deep for more");
  assert.deepEqual(fault.words, []);
  assert.throws(() => recover(deep(2_000).slice(0, -1), TODAY), RangeError);
});

test("the program", { skip }, () => {
  inRoom((room) => {
    const file = path.join(room, "a.webidl");
    fs.writeFileSync(file, WILDCARD);
    const weedle = (...words) => run(process.execPath, [PROGRAM, ...words, "a.webidl"], { cwd: room });
    const refused = weedle();
    assert.deepEqual([refused.status, refused.err], [1, ""]);
    assert.deepEqual(refused.out.split("\n").slice(-3), ["today's WebIDL reads it: --today", "1 file, 1 refused", ""]);
    fs.writeFileSync(file, "interface A { async_iterable<long>; };\n".repeat(3));
    const several = weedle("--errors", "2").out.split("\n");
    assert.deepEqual(several.slice(-4, -1), ["a.webidl: 1 more error", "today's WebIDL reads it: --today", "1 file, 1 refused, 3 errors"]);
    fs.writeFileSync(file, WILDCARD);
    assert.deepEqual(weedle("--today"), { status: 0, out: "1 file, 0 refused\n", err: "" });
    assert.deepEqual(weedle("--today", "--json").out.trimEnd().split("\n"), todayByRows([WILDCARD])[0]);
    assert.equal(weedle("--today", "--format").out, "[Exposed=*] interface A {};\n");
    assert.deepEqual(weedle("--syntax", "--today").out.split("\n").slice(0, 3), [
      `today_definitions 0..${WILDCARD.length}`, `  today_piece 0..${WILDCARD.length}`, `    today_definition 0..${WILDCARD.length}`,
    ]);
  });
});
