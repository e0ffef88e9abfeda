// For `import`: the names of today.js, so that each class is one, whichever way a program takes the package.
export * from "./today.js";
