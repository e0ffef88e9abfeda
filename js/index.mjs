// For `import`: the names of index.js, so that each class is one, whichever way a program takes the package.
export * from "./index.js";
