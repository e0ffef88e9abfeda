// All errors of a text, and what is read beside them. Expected is what docs/RECOVERY.md says, by hand.

import assert from "node:assert/strict";
import { test } from "node:test";

import { Identifier, NotUtf8, Part, Recovered, Refused, parse, recover, syntax } from "../index.mjs";

// Two members of an interface are wrong, and so are an enum and a definition of none of the kinds.
const TEXT = `interface A {
  atribute long x;
  attribute long y;
  long z;
};
enum Kind { "é" "b" };
typedef long T;
foo;
A includes B;
`;

test("parts are the text", () => {
  for (const text of [TEXT, "", "foo", "// a"]) {
    const found = recover(text);
    assert.ok(found instanceof Recovered);
    assert.equal(found.text, text);
    assert.equal(found.parts.map((it) => it.text).join(""), text);
    assert.equal(found.parts.map((it) => text.slice(it.span.start, it.span.end)).join(""), text);
    assert.deepEqual(recover(Buffer.from(text)).parts.map((it) => it.rule), found.parts.map((it) => it.rule));
  }
});

test("each part is read or has a refusal", () => {
  for (const part of recover(TEXT).parts) {
    assert.ok(part instanceof Part);
    assert.equal(part.isRead, part.node !== null);
    assert.equal(part.isRead, part.refusal === null);
    assert.ok(!part.node || (part.node.name === part.rule && part.node.text === part.text && part.node.depth === 0));
    assert.ok(!part.node || part.node.parent === null);
  }
});

test("errors", () => {
  const { errors } = recover(TEXT);
  const said = errors.map(({ line, column, expected, hintKind }) => [line, column, expected, hintKind]);
  assert.deepEqual(said.slice(0, 3), [
    [2, 17, "`(`", "Keyword"],
    [4, 9, "`(`", null],
    [6, 17, "`}` or `,`", "Missing"],
  ]);
  assert.equal(errors.length, 4);
  assert.equal(errors[3].line, 8);
  assert.ok(errors.every((it) => it instanceof Refused));
  const [{ hintSpan, hintByteSpan, words }] = errors;
  assert.equal(TEXT.slice(hintSpan.start, hintSpan.end), "atribute");
  assert.deepEqual(hintByteSpan, hintSpan);
  assert.deepEqual(words, ["`(`"]);
});

test("what is read", () => {
  const found = recover(TEXT);
  assert.deepEqual(found.definitions.map((it) => it.kind), ["Definition.Typedef", "Definition.IncludesStatement"]);
  const [member] = found.parts.filter((it) => it.isRead && it.rule === "interface_member");
  assert.equal(member.value.value.identifier.value, "y");
  assert.equal(member.value.parent, null);
  assert.equal(member.value.value.identifier.parent.parent, member.value);
  assert.equal(member.byteDefinition, 0);
  assert.deepEqual([member.position, member.value.position], [{ line: 3, column: 1 }, { line: 3, column: 3 }]);
  const [name] = found.parts.filter((it) => it.value instanceof Identifier && it.byteDefinition > 0);
  assert.equal(name.value.value, "Kind");
});

test("a text that is read whole", () => {
  const text = "A includes B; typedef long T;";
  const found = recover(text);
  assert.deepEqual(found.errors, []);
  assert.ok(found.definitions.every((it, at) => it.equals(parse(text)[at])));
  assert.equal(syntax(text).children[1].text, found.parts[1].text);
});

test("texts that are none", () => {
  assert.throws(() => recover(Buffer.from([0x66, 0xff])), NotUtf8);
  assert.throws(() => recover("\ud800"), NotUtf8);
  assert.throws(() => recover(5), TypeError);
});

test("what is expected has no more than six words in a message, and all in words", () => {
  for (const text of ["é", "partial é", "interface A { é", "typedef é", "[é"]) {
    assert.throws(
      () => parse(text),
      (fault) => {
        const [said] = fault.message.split("\n");
        assert.equal(said, `${fault.line}:${fault.column}: expected ${fault.expected}`);
        return fault.words.length > 0;
      },
    );
  }
});
