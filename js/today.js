"use strict";

/**
 * The classes of today's tree that weedle2's hasn't, as `parse(text, { dialect: "today" })` gives them.
 * @module
 */

module.exports = { ...require("./lib/written/today.js") };
