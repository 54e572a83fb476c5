// `node predator.mjs WORDS`: the program where it doesn't run by itself, over the files of this
// machine. It takes the words of the program `predator`, and ends with its status.
import fs from "node:fs";
import path from "node:path";
import process from "node:process";
import { fileURLToPath } from "node:url";
import v8 from "node:v8";
import zlib from "node:zlib";

import { callPredator, hasMemory64 } from "./module.mjs";

const HERE = path.dirname(fileURLToPath(import.meta.url));
const MODULE_PLACES = [
  process.env.PREDATOR_MODULE,
  path.join(HERE, "predator.wasm.gz"),
  path.join(HERE, "..", "dist", "predator.wasm.gz"),
];
const HELP_PLACES = [path.join(HERE, "..", "help.txt"), path.join(HERE, "..", "bin", "help.txt")];
// Options whose values are written. Of other words any may name a file that is read.
const WRITTEN = ["--trace", "--output", "--save"];
const STANDARD_INPUT = "-";
const FLAGS = ["--pcs"];
const GUEST_OUTPUT = "(the output of the program)";
const MOST_BYTES = 2 ** 31;
const PIECE_BYTES = 2 ** 28;
// Statuses, by what is refused.
const ELF = 2;
const SCHEDULE = 3;
const TRACE = 5;
const STATE = 6;
const READ_FAULT = 7;
const WRITE_FAULT = 8;
const TABLE = 14;
const WRITE_FAULT_LINE = "predator: write fault\n";
const CANNOT_RUN = 126;
const MISSING = 127;

function say(text) {
  fs.writeSync(2, `predator: ${text}\n`);
}

/** What the system says of a fault, as the program words it. */
function describeFault(fault) {
  const text = /^E\w+: ([^,]+)/.exec(fault.message)?.[1] ?? fault.message;
  return `${text[0].toUpperCase()}${text.slice(1)}`;
}

/** Ends the process with a status, and says why. */
function stop(status, text) {
  say(text);
  process.exit(status);
}

/** Writes all bytes, also where a pipe takes them in pieces. */
function writeAll(descriptor, bytes) {
  let place = 0;
  while (place < bytes.length) {
    try {
      place += fs.writeSync(descriptor, bytes, place, bytes.length - place);
    } catch (fault) {
      if (fault.code !== "EAGAIN") throw fault;
      Atomics.wait(new Int32Array(new SharedArrayBuffer(4)), 0, 0, 1);
    }
  }
}

/** The module, compiled. */
export function loadModule() {
  // (node 20 has memories with 64-bit addresses only by this flag; node 24 has them without)
  if (!hasMemory64()) v8.setFlagsFromString("--experimental-wasm-memory64");
  if (!hasMemory64()) stop(CANNOT_RUN, `node ${process.version} has no WebAssembly memory64: use node 20 or later`);
  const place = MODULE_PLACES.find((it) => it && fs.existsSync(it));
  if (!place) stop(MISSING, "can't find predator.wasm.gz beside predator.mjs or in dist/: set PREDATOR_MODULE");
  const bytes = fs.readFileSync(place);
  return new WebAssembly.Module(place.endsWith(".gz") ? zlib.gunzipSync(bytes) : bytes);
}

/** What of the words may name a file that is read: each word, and what stands behind its `=`. */
function namesIn(words) {
  const names = new Set();
  words.slice(1).forEach((word, at) => {
    const [option, value] = word.startsWith("--") ? [word.split("=", 1)[0], word.slice(word.indexOf("=") + 1)] : ["", word];
    if (WRITTEN.includes(option) || WRITTEN.includes(words[at])) return;
    names.add(word);
    names.add(value);
  });
  return names;
}

/** Reads so many bytes of an open file into their place. */
function readInto(descriptor, target) {
  let place = 0;
  while (place < target.length) {
    const count = fs.readSync(descriptor, target, place, Math.min(PIECE_BYTES, target.length - place), null);
    if (count === 0) throw new Error("the file has become shorter as it was read");
    place += count;
  }
}

function fileAt(name) {
  const size = fs.statSync(name).size;
  if (size > MOST_BYTES) stop(READ_FAULT, `${name}: it has ${size} bytes, and here a file has at most ${MOST_BYTES}: use the program itself on Linux`);
  const fill = (target) => {
    const descriptor = fs.openSync(name, "r");
    try {
      readInto(descriptor, target);
    } finally {
      fs.closeSync(descriptor);
    }
  };
  return { name, size, fill };
}

function standardInput() {
  const bytes = fs.readFileSync(0);
  return { name: STANDARD_INPUT, size: bytes.length, fill: (target) => target.set(bytes) };
}

function filesOf(words) {
  const files = [];
  for (const name of namesIn(words)) {
    if (name === STANDARD_INPUT) files.push(standardInput());
    else if (fs.statSync(name, { throwIfNoEntry: false })?.isFile()) files.push(fileAt(name));
  }
  return files;
}

/** The words of a run get a name for what the program puts out, which else goes to standard error. */
function withOutput(words) {
  const names = words.some((it) => it === "--output" || it.startsWith("--output="));
  return words[0] === "run" && !names ? ["run", "--output", GUEST_OUTPUT, ...words.slice(1)] : words;
}

/** The values of the options, and the words that are none. */
function readWords(words) {
  const options = new Map();
  const names = [];
  for (let at = 1; at < words.length; at++) {
    const [option] = words[at].split("=", 1);
    if (!option.startsWith("--")) names.push(words[at]);
    else if (words[at].includes("=")) options.set(option, words[at].slice(option.length + 1));
    else if (words[at] !== "--" && !FLAGS.includes(option)) options.set(option, words[++at]);
  }
  return { options, names };
}

/** What is said of a call: the message, after the name of the file that is refused. */
function wordMessage(words, files, answer) {
  const { options, names } = readWords(words);
  if (answer.status === READ_FAULT) {
    const read = [options.get("--settings"), options.get("--resume"), ...names, options.get("--schedule")];
    const missing = read.find((name) => name !== undefined && !files.some((it) => it.name === name));
    return missing === undefined ? "" : `${missing}: No such file or directory`;
  }
  const isOccupied = Buffer.from(answer.printed).includes(" Occupied ");
  const refused = {
    [ELF]: names[0],
    [SCHEDULE]: options.get("--schedule"),
    [TRACE]: names[0] === STANDARD_INPUT ? "standard input" : names[0],
    [STATE]: options.get("--resume"),
    [TABLE]: isOccupied ? names[0] : names[1],
  }[answer.status];
  return answer.message && refused !== undefined ? `${refused}: ${answer.message}` : answer.message;
}

/** Writes the files; whether all could be written. */
function writeFiles(written) {
  for (const [name, content] of written) {
    try {
      if (name === GUEST_OUTPUT) writeAll(2, content);
      else fs.writeFileSync(name, content);
    } catch (fault) {
      say(`${name}: ${describeFault(fault)}`);
      return false;
    }
  }
  return true;
}

function printHelp() {
  const place = HELP_PLACES.find((it) => fs.existsSync(it));
  if (!place) stop(MISSING, "can't find help.txt");
  writeAll(1, fs.readFileSync(place));
}

/** Calls the program, and writes its files: the status, the bytes to print, and what to say. */
export function runCall(module, words) {
  const files = filesOf(words);
  const answer = callPredator(module, withOutput(words), files);
  if (!writeFiles(answer.written)) return { status: WRITE_FAULT, printed: Buffer.from(WRITE_FAULT_LINE), message: "" };
  return { status: answer.status, printed: answer.printed, message: wordMessage(words, files, answer) };
}

function main(words) {
  if (["--help", "-h", "help"].includes(words[0])) {
    printHelp();
    return 0;
  }
  const module = loadModule();
  let done;
  try {
    done = runCall(module, words);
  } catch (fault) {
    stop(CANNOT_RUN, fault.message);
  }
  writeAll(1, done.printed);
  if (done.message) say(done.message);
  return done.status;
}

if (process.argv[1] && fs.realpathSync(process.argv[1]) === fileURLToPath(import.meta.url)) {
  process.exitCode = main(process.argv.slice(2));
}
