export * from "./today.js";
