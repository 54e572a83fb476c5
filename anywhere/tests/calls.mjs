// Makes the calls that standard input lists as JSON, each in its folder, as predator.mjs makes them,
// and prints a line of JSON for each: the status, the printed bytes, and what is said.
import fs from "node:fs";
import process from "node:process";

import { loadModule, runCall } from "../predator.mjs";

const module = loadModule();
for (const { folder, words } of JSON.parse(fs.readFileSync(0, "utf8"))) {
  process.chdir(folder);
  const { status, printed, message } = runCall(module, words);
  const text = Buffer.from(printed).toString("base64");
  // (a pipe may take a part of a long row; the stream writes the rest)
  process.stdout.write(`${JSON.stringify({ status, printed: text, message })}\n`);
}
