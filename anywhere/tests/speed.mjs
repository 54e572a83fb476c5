// Counts a trace some times by the commands that the words name, and prints a line for each: the
// least processor time of a call, in seconds, and that of the first, which compiles the hot parts.
import fs from "node:fs";
import process from "node:process";

import { callPredator, fileOf } from "../module.mjs";
import { loadModule } from "../predator.mjs";

const [trace, tries, ...commands] = process.argv.slice(2);
const module = loadModule();
const files = [fileOf("trace", fs.readFileSync(trace))];
for (const command of commands) {
  const seconds = [];
  for (let at = 0; at < Number(tries); at++) {
    const before = process.cpuUsage().user;
    callPredator(module, [command, "trace"], files);
    seconds.push((process.cpuUsage().user - before) / 1e6);
  }
  console.log(JSON.stringify({ command, best: Math.min(...seconds), first: seconds[0] }));
}
