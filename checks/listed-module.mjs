// The bytes of the module that docs/MODULE.md lists under "An example". Run by itself, this writes them to
// standard output.
import { readFileSync } from "node:fs";
import { fileURLToPath } from "node:url";

const page = new URL("../docs/MODULE.md", import.meta.url);

/** Each line of the listing has bytes in hexadecimal, two spaces, and what they mean. */
export function listedModule() {
  const example = readFileSync(page, "utf8").split("\n## An example\n")[1];
  const listing = example.split("```")[1];
  const digits = listing.split("\n").map((line) => line.split(/ {2}/)[0]);
  return Uint8Array.from(digits.join(" ").match(/[0-9A-F]{2}/g), (byte) => Number.parseInt(byte, 16));
}

if (process.argv[1] === fileURLToPath(import.meta.url)) process.stdout.write(listedModule());
