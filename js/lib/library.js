"use strict";

/**
 * The addon: where it is found, and its calls.
 * @module
 */

const fs = require("node:fs");
const path = require("node:path");

const { RULES, VERSION } = require("./written/grammar.js");

/** The variable that names another addon. */
const VARIABLE = "WEEDLE_NODE";
const HOME = path.resolve(__dirname, "..");
/** This Node's processor and system, with the names that the folders of what is built have. */
const TARGET = `${{ x64: "x86_64", arm64: "aarch64" }[process.arch] ?? process.arch}-${process.platform}`;
/**
 * Where one is looked for otherwise: the one that was built here, the one that the package brought, and the one in the
 * repository that the package is in.
 */
const PLACES = ["weedle.node", `native/${TARGET}/weedle.node`, `../prebuilt/${TARGET}/weedle.node`].map((it) =>
  path.join(HOME, it),
);

/** What a call comes to, as `enum weedle_status` of include/weedle.h has it: those that come from here. */
const Status = Object.freeze({ READ: 0, REFUSED: 1, NOT_UTF8: 2, NO_MEMORY: 3, NO_ROOM: 4, TOO_LONG: 5, TOO_DEEP: 9 });

/** Where the addon is, or where it would have to be. */
function place() {
  const named = process.env[VARIABLE];
  return named ? path.resolve(named) : PLACES.find((it) => fs.existsSync(it)) ?? PLACES[0];
}

/** What is said where the addon isn't there, or is for another machine. */
function unloaded(file, fault) {
  const howTo = "js/build.sh of the repository, or `npm rebuild weedle`, builds it by a C compiler.";
  const isNamed = Boolean(process.env[VARIABLE]);
  if (fs.existsSync(file)) {
    const where = isNamed ? `${file}, which ${VARIABLE} names` : `${file} (${VARIABLE} isn't set)`;
    return `weedle can't load ${where}. It has to be for this system, as this Node is. ${howTo} (${fault.message})`;
  }
  const where = isNamed ? `${file}, which ${VARIABLE} names` : `${PLACES.join(", ")} (${VARIABLE} isn't set)`;
  return `weedle finds no addon: it looked for ${where}. ${howTo}`;
}

/** The addon, which has to be of this package's version: the numbers of rules belong to one. */
function load() {
  const file = place();
  let addon;
  try {
    addon = require(file);
  } catch (fault) {
    throw new Error(unloaded(file, fault), { cause: fault });
  }
  if (addon.version() !== VERSION || addon.rules() !== RULES.length) {
    const [found, wanted] = [addon.version(), VERSION].map((it) => it.toString(16).padStart(6, "0"));
    throw new Error(
      `${file} has version 0x${found} and ${addon.rules()} rules, and this package 0x${wanted} and ${RULES.length}: ` +
        "build it anew by js/build.sh",
    );
  }
  return addon;
}

module.exports = { Status, library: load() };
