#!/usr/bin/env node
"use strict";

const { main } = require("../lib/program.js");

process.exitCode = main(process.argv.slice(2));
