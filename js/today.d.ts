export * from "./lib/written/today.js";
