// What counts for a page, beside it: it keeps the bytes of one file, and calls the program on them.
import { callPredator, fileOf } from "./module.mjs";

const PIECE_BYTES = 1 << 24;
const RAN = [0, 10, 11, 12];
// Lines of these sizes may be the settings' own, and then lines of other layouts are predicted too.
const NATIVE_SIZES = [32, 64, 128, 256];
const PROGRAM = "program";
const TRACE = "trace";
const OUTPUT = "output";
const MAGIC_BYTES = 8;
const WITH_PCS = "PRDTRC03";

let module = null;
let bytes = null;
let isProgram = false;
// The trace of the run under these settings.
let run = { settings: null, trace: null };

async function loadModule(compressed) {
  const stream = new Blob([compressed]).stream().pipeThrough(new DecompressionStream("gzip"));
  return WebAssembly.compile(await new Response(stream).arrayBuffer());
}

async function readFile(file) {
  const all = new Uint8Array(file.size);
  for (let place = 0; place < file.size; place += PIECE_BYTES) {
    const piece = file.slice(place, Math.min(place + PIECE_BYTES, file.size));
    all.set(new Uint8Array(await piece.arrayBuffer()), place);
    postMessage({ phase: "reading", done: Math.min(place + PIECE_BYTES, file.size), total: file.size });
  }
  return all;
}

async function open({ compressed, file, program }) {
  module ??= await loadModule(compressed);
  bytes = await readFile(file);
  isProgram = program;
}

/** Calls the program, and posts what it printed under a name. */
function call(name, words, files) {
  postMessage({ phase: name, size: files.reduce((sum, it) => sum + it.size, 0) });
  const begun = performance.now();
  const answer = callPredator(module, words, files);
  const text = new TextDecoder("latin1").decode(answer.printed);
  const seconds = (performance.now() - begun) / 1000;
  postMessage({ name, status: answer.status, text, message: answer.message, seconds });
  return answer;
}

/** The trace that is counted: that of the file, or that of a run; none where there is none. */
function traceFor({ quantum, seed }) {
  if (!isProgram) return bytes;
  const settings = `quantum=${quantum},seed=${seed}`;
  if (run.settings !== settings) {
    const words = ["run", "--trace", TRACE, "--pcs", "--output", OUTPUT, "--set", settings, "--", PROGRAM];
    const answer = call("run", words, [fileOf(PROGRAM, bytes)]);
    const has = RAN.includes(answer.status);
    run = { settings: has ? settings : null, trace: has ? answer.written.get(TRACE) : null };
    const output = answer.written.get(OUTPUT);
    if (output?.length) postMessage({ output: new TextDecoder().decode(output) });
  }
  return run.trace;
}

function count(settings) {
  const trace = traceFor(settings);
  if (trace === null) return;
  const { size, shift, tracking, report } = settings;
  const layout = ["--size", `${size}`, "--shift", `${shift}`];
  const isNative = shift === 0 && NATIVE_SIZES.includes(size);
  const changes = `tracking=${tracking},report=${report}${isNative ? `,line=${size}` : ""}`;
  const files = [fileOf(TRACE, trace)];
  const answer = call("replay", ["replay", "--set", changes, ...(isNative ? [] : layout), TRACE], files);
  if (!RAN.includes(answer.status)) return;
  call("misses", ["misses", ...layout, TRACE], files);
  const magic = new TextDecoder().decode(trace.subarray(0, MAGIC_BYTES));
  if (magic >= WITH_PCS) call("blame", ["blame", ...layout, TRACE], files);
}

onmessage = async ({ data }) => {
  try {
    if (data.file) await open(data);
    count(data.settings);
    postMessage({ done: true });
  } catch (fault) {
    postMessage({ fault: fault instanceof RangeError ? `out of memory (${fault.message})` : fault.message });
  }
};
