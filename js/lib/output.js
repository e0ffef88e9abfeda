"use strict";

/**
 * The output of a program, which is written in large pieces.
 * @module
 */

const fs = require("node:fs");

/** How many bytes are kept before they are written. */
const MOST = 1 << 16;

/** Where a program writes to, by the number of the file. It throws what the system says where that can't be written. */
class Output {
  #file;
  #waiting = [];
  #size = 0;

  constructor(file) {
    this.#file = file;
  }

  /** Writes a string or bytes, now or later. */
  write(text) {
    const bytes = Buffer.from(text);
    this.#waiting.push(bytes);
    this.#size += bytes.length;
    if (this.#size >= MOST) {
      this.flush();
    }
  }

  /** Writes what is kept. */
  flush() {
    let rest = Buffer.concat(this.#waiting);
    this.#waiting = [];
    this.#size = 0;
    while (rest.length > 0) {
      rest = rest.subarray(this.#writeSome(rest));
    }
  }

  /** Writes as much as is taken: a pipe that is full may take nothing yet. */
  #writeSome(bytes) {
    try {
      return fs.writeSync(this.#file, bytes);
    } catch (fault) {
      if (fault.code !== "EAGAIN") {
        throw fault;
      }
      Atomics.wait(new Int32Array(new SharedArrayBuffer(4)), 0, 0, 1);
      return 0;
    }
  }
}

module.exports = { Output };
