// The typed tree: its values, what they say, and where they stand.
//
// Expected values are those of docs/USING.md and of weedle2's documentation, names and their roles those of
// tests/table.toml and docs/USING.md; comments are by hand.

import assert from "node:assert/strict";
import test from "node:test";
import { inspect } from "node:util";

import * as weedle from "../index.mjs";
import { casesOf, tomlOf, wanting } from "./support.mjs";

const { Definition, DictionaryMember, Identifier, InterfaceMember, MayBeNull, NonAnyType, Type, Value, parse, term } = weedle;
const skip = wanting("python3");
// Of docs/USING.md, "Values as JSON".
const WINDOW =
  "/// A page.\n// é\n[Exposed=Window]\ninterface _Window : EventTarget {\n" +
  "  readonly attribute Storage sessionStorage; // kept\n" +
  "  DOMString? f(optional unsigned long long x = 5);\n};\n";
const INCLUDES =
  '{"IncludesStatement": {"attributes": null, "lhs_identifier": {"Identifier": "Request"}, "includes": "Includes", ' +
  '"rhs_identifier": {"Identifier": "Body"}, "semi_colon": "SemiColon"}}';
const [definition] = parse(WINDOW);
const window = definition.value;

/** A value and all below it by its fields, each before those below it. */
function* byFields(value) {
  if (Array.isArray(value)) {
    for (const it of value) {
      yield* byFields(it);
    }
  } else if (value instanceof Value) {
    yield value;
    for (const name of Object.keys(value.constructor.fields)) {
      yield* byFields(value[name]);
    }
  }
}

test("what stands in a definition", () => {
  assert.ok(definition instanceof Definition && definition instanceof Definition.Interface);
  assert.ok(!(definition instanceof Definition.Enum));
  assert.deepEqual([definition.variant, definition.kind], ["Interface", "Definition.Interface"]);
  assert.ok(window instanceof weedle.InterfaceDefinition);
  assert.deepEqual([window.kind, window.identifier.value], ["InterfaceDefinition", "Window"]);
  assert.equal(window.docstring.value, " A page.");
  assert.equal(window.inheritance.identifier.value, "EventTarget");
  const [attribute] = window.attributes.body;
  assert.deepEqual([attribute.variant, attribute.value.rhs.value.value], ["Ident", "Window"]);
  const [storage, operation] = window.members.body;
  assert.ok(storage instanceof InterfaceMember.Attribute && storage.value.readonly instanceof term.ReadOnly);
  assert.deepEqual([storage.value.modifier, operation.value.special], [null, null]);
});

test("types", () => {
  const { returnType, args } = window.members.body[1].value;
  assert.ok(returnType.value instanceof Type.Single && returnType.variant === "Type");
  const string = returnType.value.value.value;
  assert.ok(string instanceof NonAnyType.DOMString && string.value instanceof MayBeNull);
  assert.ok(string.value.qMark instanceof term.QMark);
  const [argument] = args.body.list;
  const integer = argument.value.type.type.value.value.value.type;
  assert.deepEqual([integer.variant, integer.value.unsigned.text], ["LongLong", "unsigned"]);
  assert.deepEqual(integer.value.longLong.map((it) => it.kind), ["Long", "Long"]);
  assert.equal(argument.value.default.value.value.value.value, "5");
});

test("fields whose names are words of JavaScript", () => {
  const [it] = parse("interface A { const long X = 1; constructor(); };");
  const [one, other] = it.value.members.body;
  assert.deepEqual([one.value.const.text, other.value.constructor_.text], ["const", "constructor"]);
  const [list] = parse('enum E { "a" };');
  assert.equal(list.value.enum.text, "enum");
});

test("numbers", () => {
  const whole = [["-12", -12n], ["0x1F", 31n], ["-0XfF", -255n], ["017", 15n], ["0", 0n], ["-0", 0n], ["00", 0n]];
  const others = [["-.5E+3", -500], ["5.", 5], ["1e3", 1000], ["Infinity", Infinity], ["-Infinity", -Infinity], ["NaN", NaN]];
  const of = (text) => parse(`interface A { const double X = ${text}; };`)[0].value.members.body[0].value.constValue.value;
  for (const [text, wanted] of [...whole, ["18446744073709551615", 2n ** 64n - 1n]]) {
    assert.deepEqual([of(text).bigint, of(text).number], [wanted, Number(wanted)], text);
    assert.equal(of(text).value.bigint, wanted);
  }
  for (const [text, wanted] of others) {
    assert.equal(of(text).number, wanted, text);
  }
});

test("a part is made once, and lists don't change", () => {
  assert.equal(window.members, window.members);
  assert.equal(window.members.body, window.members.body);
  assert.equal(window.members.body[0].parent.body[0], window.members.body[0]);
  assert.throws(() => window.members.body.push(null), TypeError);
  assert.throws(() => (window.identifier = null), TypeError);
});

test("a separator has a place or none", () => {
  for (const [text, separator] of [["A(any a, any b)", ","], ["A(any a)", ""], ["A()", ""]]) {
    const found = parse(`[${text}] typedef any B;`)[0].value.attributes.body.list[0].value.args.body.separator;
    assert.ok(found instanceof term.Comma);
    assert.equal(found.text, separator);
  }
});

test("JSON", () => {
  const [includes] = parse("Request includes Body;");
  assert.equal(includes.jsonText(), INCLUDES);
  assert.deepEqual(JSON.parse(JSON.stringify(includes)), JSON.parse(INCLUDES));
  const [callback] = parse("callback A = undefined (long x);");
  assert.match(callback.jsonText(), /"optional": null, .*"default": null}/);
  const [quoted] = parse('enum E { "\\ é\t\u2028" };');
  assert.deepEqual(quoted.toJSON().Enum.values.body.list[0].value.StringLit, "\\ é\t\u2028");
});

test("what console.log shows", () => {
  const [includes] = parse("A includes B;");
  const names = "attributes: null,\\s+lhsIdentifier: Identifier 'A',\\s+rhsIdentifier: Identifier 'B'";
  assert.match(inspect(includes), new RegExp(`^Definition.IncludesStatement IncludesStatementDefinition \\{\\s+${names}\\s+\\}$`));
  assert.equal(inspect(includes.value.semiColon), "SemiColon");
  assert.equal(inspect(weedle.syntax("A includes B;").children[0]), "<definition 0..13>");
});

test("values are equal wherever they stand", () => {
  const [one, other, ...others] = parse("interface A { }; /* c */ interface A {}; interface B {}; [X] interface A {};");
  assert.ok(one.equals(other) && one.value.identifier.equals(other.value.identifier));
  assert.ok(!others.some((it) => it.equals(one)));
  assert.ok(!one.equals(one.value) && !one.equals(null) && !one.equals(one.jsonText()));
});

test("spans in UTF-16 units and in bytes", () => {
  const text = '// é 日本 \u{1d49c}\nenum E { "\u{1d49c}é", "b" };';
  for (const given of [text, Buffer.from(text)]) {
    const [first, second] = parse(given)[0].value.values.body;
    const [{ span, byteSpan }, { position }] = [first.value, second.value];
    assert.equal(text.slice(span.start, span.end), '"\u{1d49c}é"');
    assert.equal(String(Buffer.from(text).subarray(byteSpan.start, byteSpan.end)), '"\u{1d49c}é"');
    assert.deepEqual(first.value.position, { line: 2, column: 10 });
    assert.deepEqual(position, { line: 2, column: 16 });
  }
});

test("a name is its slice", () => {
  const found = parse("interface _interface {};");
  const { value, text, span } = found[0].value.identifier;
  assert.deepEqual([value, text, span], ["interface", "interface", { start: 11, end: 20 }]);
  const [name] = found.names();
  assert.deepEqual([name.text, name.role, name.span], ["interface", "Interface", { start: 10, end: 20 }]);
  assert.equal(name.value, found[0].value.identifier);
});

test("each value of each text is its slice, in either measure", { skip }, () => {
  let count = 0;
  for (const { text, wanted } of ["worked", "tests", "hostile"].flatMap(casesOf)) {
    for (const value of wanted.rest === undefined ? parse(text).walk() : []) {
      const { span, byteSpan } = value;
      assert.equal(text.slice(span.start, span.end), value.text);
      assert.equal(Buffer.byteLength(text.slice(0, span.start)), byteSpan.start);
      assert.equal(Buffer.byteLength(value.text), byteSpan.end - byteSpan.start);
      const before = text.slice(0, span.start).split("\n");
      assert.deepEqual(value.position, { line: before.length, column: [...before.pop()].length + 1 });
      count += 1;
    }
  }
  assert.ok(count > 5_000);
});

test("a walk gives what the fields lead to, and separators", { skip }, () => {
  for (const { text, wanted } of ["worked", "random"].flatMap(casesOf)) {
    const found = wanted.rest === undefined ? parse(text) : [];
    const walked = new Set(wanted.rest === undefined ? found.walk() : []);
    const reached = new Set([...byFields(found)].filter((it) => it.text !== "" || !(it instanceof weedle.Terminal)));
    assert.ok([...reached].every((it) => walked.has(it)), text);
    const others = [...walked].filter((it) => !reached.has(it));
    assert.ok(others.every((it) => it instanceof term.Comma || it instanceof term.Or), text);
  }
});

test("values of a class", () => {
  const found = parse(WINDOW);
  assert.deepEqual([...found.find(Identifier)].map((it) => it.value), [
    "Exposed", "Window", "Window", "EventTarget", "Storage", "sessionStorage", "f", "x",
  ]);
  assert.deepEqual([...found.find(InterfaceMember)].map((it) => it.variant), ["Attribute", "Operation"]);
  assert.deepEqual([...found.find(InterfaceMember.Operation)], [found[0].value.members.body[1]]);
  assert.deepEqual([...found.find(DictionaryMember)], []);
  assert.equal([...found[0].find(Value)].length, [...found.walk()].length);
  assert.equal(found.find((it) => it.variant === "Interface"), found[0]);
  assert.equal(found.find((it) => it.variant === "Enum"), undefined);
});

test("definitions are an array", () => {
  const found = parse("A includes B; typedef long T;");
  assert.ok(Array.isArray(found) && found instanceof weedle.Definitions);
  assert.deepEqual(found.map((it) => it.variant), ["IncludesStatement", "Typedef"]);
  assert.equal(Object.getPrototypeOf(found.map((it) => it)), Array.prototype);
  assert.deepEqual([found.text, found.syntax.children.length], ["A includes B; typedef long T;", 2]);
  assert.deepEqual([parse("").length, [...parse("").names()].length, [...parse("").walk()].length], [0, 0, 0]);
});

test("parents", () => {
  const member = window.members.body[0];
  const kinds = [];
  for (let it = member.value.identifier; it; it = it.parent) {
    kinds.push(it.kind);
  }
  const above = ["Identifier", "AttributeInterfaceMember", "InterfaceMember.Attribute", "Braced"];
  assert.deepEqual(kinds, [...above, "InterfaceDefinition", "Definition.Interface"]);
  assert.equal(definition.parent, null);
});

test("comments in front, behind, and what is said", () => {
  const [it] = parse(
    "// far\n\n// one\n/* two */\ninterface A { // opens\n  attribute long x; // of x\n  // of y\n  attribute long y; /* y */\n" +
      "  attribute long z; /* of w */ attribute long w;\n  /**\n   * Says it.\n   *\n   * More.\n   */\n  undefined f();\n};",
  );
  const [x, y, z, w, f] = it.value.members.body;
  assert.deepEqual([it.comments, it.trailing, it.doc], [["// one", "/* two */"], [], "one\ntwo"]);
  assert.deepEqual([x.comments, x.trailing], [[], ["// of x"]]);
  assert.deepEqual([y.comments, y.trailing, y.doc], [["// of y"], ["/* y */"], "of y"]);
  assert.deepEqual([z.comments, z.trailing], [[], []]);
  assert.deepEqual([w.comments, w.trailing], [["/* of w */"], []]);
  assert.equal(f.doc, "Says it.\n\nMore.");
  assert.equal(definition.doc, "A page.");
});

test("docstrings", () => {
  const [{ value }] = parse("  /// a\n\t///\n///b\ninterface A {};");
  assert.deepEqual([value.docstring.value, value.docstring.text], [" a\n\nb", "/// a\n\t///\n///b"]);
  assert.equal(value.doc, "a\n\nb");
});

test("names of tests/table.toml, with their roles", { skip }, () => {
  const rows = tomlOf("table.toml").text.filter((it) => it.names);
  for (const { text, names } of rows) {
    const found = [...parse(text).names()].map((it) => [text.slice(it.span.start, it.span.end), it.role]);
    assert.deepEqual(found, names, text);
  }
  assert.ok(rows.length > 5);
});

test("a refused text", () => {
  const text = "interface A {};\n// é\ninterface B { atribute long x; };";
  assert.throws(() => parse(text), (fault) => {
    assert.ok(fault instanceof weedle.Refused && fault instanceof SyntaxError);
    assert.deepEqual([fault.start, fault.byteStart], [text.indexOf("interface B"), 22]);
    assert.deepEqual([fault.line, fault.column, fault.expected], [3, 29, "`(`"]);
    assert.deepEqual([fault.place, fault.bytePlace], [text.indexOf("x;"), Buffer.from(text).indexOf("x;")]);
    assert.equal(fault.hint, "3:15: `attribute` in place of `atribute`?");
    assert.equal(fault.message, `3:29: expected \`(\`\n${text.split("\n")[2]}\n${" ".repeat(28)}^\n${fault.hint}`);
    assert.ok(fault.stack.startsWith(`Refused: ${fault.message}`));
    return true;
  });
});

test("layouts of tests/layouts.toml", { skip }, () => {
  for (const { text, laid_out: wanted } of tomlOf("layouts.toml").layout) {
    if (wanted === undefined) {
      assert.throws(() => weedle.format(text), weedle.Refused);
    } else {
      assert.equal(weedle.format(text), wanted);
      assert.ok(weedle.format(Buffer.from(text)).equals(Buffer.from(wanted)));
    }
  }
});

test("whitespace and comments alone stay as they stand", () => {
  for (const text of ["", " ", "\n\n", "\t\r\n", "// a", "/**/", "/***/", " /* a\n */ // b\n//\n", "// é */", "//\n".repeat(100_000)]) {
    assert.equal(weedle.format(text), text);
  }
  for (const text of ["/* a", "/*/", "/", "/// a\n", "// a\n;", "/* a */ x */", "\f", "\ufeff", "\0", "/ /"]) {
    assert.throws(() => weedle.format(text), weedle.Refused);
  }
});
