// What the examples use of Node: its own declarations come from a registry, which no test asks.

declare module "node:fs" {
  const fs: {
    readFileSync(name: string): Uint8Array;
    readFileSync(name: string, encoding: "utf8"): string;
    writeFileSync(name: string, text: string): void;
  };
  export default fs;
}

declare const process: {
  readonly argv: string[];
  exitCode: number;
  readonly stdout: { write(text: string): void };
};
