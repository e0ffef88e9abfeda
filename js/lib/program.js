"use strict";

/**
 * The program `weedle`: reads files of WebIDL, and writes what is in them.
 * @module
 */

const fs = require("node:fs");
const { parseArgs } = require("node:util");

const { NoMemory, NotUtf8, READ_TODAY, Refused, saidOf } = require("./errors.js");
const { format } = require("./formatting.js");
const { library } = require("./library.js");
const { syntax } = require("./nodes.js");
const { Output } = require("./output.js");
const { parse } = require("./parsing.js");
const { recover } = require("./recovery.js");
const { version } = require("../package.json");

/** How many errors of a file are said where no number is given. */
const MOST_ERRORS = 20;
const USAGE = "usage: weedle [--help] [--json | --syntax | --format] [--today] [--errors N] [--version] [FILE ...]";
/** How today's rules are asked for. */
const TODAY = "--today";
const HELP = `${USAGE}

Reads files of WebIDL. Without a file it reads standard input, which \`-\` names too.

  --json      write each definition as JSON on a line; of several files each line is an object with
              the \`file\` and the \`definition\`
  --syntax    write each node on a line, indented by its depth
  --format    write the text laid out
  --today     read by the rules of today's WebIDL in place of weedle2's
  --errors N  say so many errors of each file at most (${MOST_ERRORS}); with 1 look for no others
  --version   write the version

What is refused, and why, each error of it, it then says on standard error. With none of these it says that on standard
output, and last how many files were read and refused, and how many errors there are where a file has more than one, as
weedle_check does. The status is 0 where all is read, 1 where something is
refused, 2 where a file can't be read or isn't UTF-8, 3 where memory ran out, 4 where the output can't be written, and 5
where the arguments are others; of several the greatest.
`;

/** What a run comes to. */
const Status = Object.freeze({ READ: 0, REFUSED: 1, UNREADABLE: 2, NO_MEMORY: 3, UNWRITTEN: 4, MISUSED: 5 });
/** How a message calls standard input, and what names it. */
const [STANDARD_INPUT, DASH] = ["<stdin>", "-"];

/** A string as JSON with nothing but ASCII, as the file's name in a line. */
const asciiJson = (text) =>
  JSON.stringify(text).replace(/[\u0080-\uffff]/g, (it) => `\\u${it.charCodeAt(0).toString(16).padStart(4, "0")}`);

/** Writes each definition on a line, with the file's name where there are several. */
function writeJson(bytes, options, out, name) {
  const [front, back] = name === null ? ["", ""] : [`{"file":${asciiJson(name)},"definition":`, "}"];
  for (const definition of parse(bytes, options)) {
    out.write(`${front}${definition.jsonText()}${back}\n`);
  }
}

/** Writes each node on a line: its name, its bytes, and of one with none below it its text. */
function writeSyntax(bytes, options, out) {
  for (const node of syntax(bytes, options).walk()) {
    const { start, end } = node.byteSpan;
    const text = node.isLeaf ? ` ${JSON.stringify(node.text)}` : "";
    out.write(`${"  ".repeat(node.depth)}${node.name} ${start}..${end}${text}\n`);
  }
}

/** What writes the text of a file, by the option. */
const WRITERS = {
  json: writeJson,
  syntax: writeSyntax,
  format: (bytes, options, out) => out.write(format(bytes, options)),
};

/** A run over some files. */
class Run {
  #write;
  #options;
  #out;
  #isNamed;
  #most;
  #files = 0;
  #refused = 0;
  #errors = 0;
  #unread = 0;

  constructor({ write, options, most, files }, out) {
    this.#write = write;
    this.#options = options;
    this.#out = out;
    this.#isNamed = files.length > 1;
    this.#most = most;
  }

  /** Reads all files, and says how many there were where nothing else is written. */
  readAll(words) {
    const status = Math.max(...words.map((word) => this.#read(word)));
    if (!this.#write) {
      this.#out.write(`${this.#summary()}\n`);
    }
    this.#out.flush();
    return status;
  }

  /** Reads the file that an argument names, and writes what is in it. */
  #read(word) {
    const name = word === DASH ? STANDARD_INPUT : word;
    let bytes;
    try {
      bytes = fs.readFileSync(word === DASH ? 0 : word);
    } catch (fault) {
      return this.#complain(name, `cannot read input: ${said(fault)}`, Status.UNREADABLE);
    }
    try {
      this.#readOne(name, bytes);
    } catch (fault) {
      return this.#faulty(name, bytes, fault);
    }
    this.#files += 1;
    return Status.READ;
  }

  /** Reads the bytes of a file, and writes what is in them. */
  #readOne(name, bytes) {
    if (this.#write) {
      this.#write(bytes, this.#options, this.#out, this.#isNamed ? name : null);
    } else {
      parse(bytes, this.#options);
    }
  }

  /** What a file comes to that gives no tree. */
  #faulty(name, bytes, fault) {
    if (fault instanceof Refused) {
      this.#tellAll(name, bytes, fault);
      this.#files += 1;
      this.#refused += 1;
      return Status.REFUSED;
    }
    if (fault instanceof NotUtf8) {
      return this.#complain(name, "input is not UTF-8", Status.UNREADABLE);
    }
    if (fault instanceof NoMemory) {
      return this.#complain(name, "out of memory", Status.NO_MEMORY);
    }
    throw fault;
  }

  /** Says all errors of a file: the first as `parse` has it, the others part by part. */
  #tellAll(name, bytes, refused) {
    const all = [refused, ...this.#others(bytes)];
    this.#errors += all.length;
    for (const it of all.slice(0, this.#most)) {
      this.#tell(`${name}:${saidOf(it)}\n`);
    }
    const left = all.length - this.#most;
    if (left > 0) {
      this.#tell(`${name}: ${left} more error${left === 1 ? "" : "s"}\n`);
    }
    if (refused.isReadToday) {
      this.#tell(`${READ_TODAY}: ${TODAY}\n`);
    }
  }

  /** The errors of a file behind its first; none where one is asked for, or where the text isn't divided into parts. */
  #others(bytes) {
    if (this.#most === 1) {
      return [];
    }
    try {
      return recover(bytes, this.#options).errors.slice(1);
    } catch (fault) {
      // memory is refused, or the text nests too deep
      if (fault instanceof RangeError) {
        return [];
      }
      throw fault;
    }
  }

  /** Says why a file is refused: where nothing else is written, there. */
  #tell(line) {
    if (this.#write) {
      this.#out.flush();
      complain(line);
    } else {
      this.#out.write(line);
    }
  }

  /** Says on standard error why a file isn't read. */
  #complain(name, why, status) {
    this.#unread += 1;
    complain(`${name}: ${why}\n`);
    return status;
  }

  /** How many files there were. */
  #summary() {
    const errors = this.#errors > this.#refused ? `, ${this.#errors} errors` : "";
    const unread = this.#unread ? `, ${this.#unread} not read` : "";
    return `${this.#files} file${this.#files === 1 ? "" : "s"}, ${this.#refused} refused${errors}${unread}`;
  }
}

/** Writes to standard error, if that takes anything. */
function complain(text) {
  try {
    fs.writeSync(2, text);
  } catch {
    // nobody reads it
  }
}

/** What the system says of a fault. */
const said = (fault) =>
  fault.errno === undefined ? fault.message : `${library.describe(-fault.errno)} (os error ${-fault.errno})`;

/** The arguments of a run, or null where they are others. */
function wantedBy(words) {
  const names = [...Object.keys(WRITERS), "today", "version", "help"];
  const known = { ...Object.fromEntries(names.map((name) => [name, { type: "boolean" }])), errors: { type: "string" } };
  known.help.short = "h";
  try {
    const { values, positionals } = parseArgs({ args: words, options: known, allowPositionals: true });
    const ways = Object.keys(WRITERS).filter((name) => values[name]);
    if (ways.length > 1) {
      throw new TypeError(`--${ways[1]} isn't for use beside --${ways[0]}`);
    }
    const most = Number(values.errors ?? MOST_ERRORS);
    if (!Number.isSafeInteger(most) || most < 1) {
      throw new TypeError("--errors needs a number from 1 on");
    }
    const options = { dialect: values.today ? "today" : "weedle2" };
    const files = positionals.length ? positionals : [DASH];
    return { ...values, most, write: WRITERS[ways[0]], options, files };
  } catch (fault) {
    complain(`${USAGE}\nweedle: ${fault.message}\n`);
    return null;
  }
}

/** Writes a text alone. */
function show(text, out) {
  out.write(text);
  out.flush();
  return Status.READ;
}

/** Does what the arguments ask for. The status. */
function main(words) {
  const wanted = wantedBy(words);
  if (!wanted) {
    return Status.MISUSED;
  }
  const out = new Output(1);
  try {
    if (wanted.help || wanted.version) {
      return show(wanted.help ? HELP : `weedle ${version}\n`, out);
    }
    return new Run(wanted, out).readAll(wanted.files);
  } catch (fault) {
    if (fault.syscall !== "write") {
      throw fault;
    }
    // who reads no further, as `head`, asks for no word
    if (fault.code !== "EPIPE") {
      complain("cannot write output\n");
    }
    return Status.UNWRITTEN;
  }
}

module.exports = { main };
