// The page: takes a file, has the worker count it under the chosen settings, and shows what comes.
import { hasMemory64 } from "./module.mjs";
import { groupByObjects, kindOfText, nameOfLine, readBlame, readMisses, readReport } from "./texts.mjs";

const MOST_BYTES = 2 ** 31;
const MOST_TEXT_BYTES = 2 ** 28;
const SIZES = [4, 8, 16, 32, 64, 128, 256, 512, 1024];
const USUAL_SIZE = 64;
const WORD_BYTES = 4;
const FEW_WORDS = 8;
const SHOWN_LINES = 20;
const SHOWN_OBJECTS = 30;
const SHOWN_PAIRS = 8;
const SHOWN_TEXT = 2 ** 20;
// Of each hart its colour, and again from the first on; the number distinguishes them in grey.
const COLOURS = ["#e69f00", "#56b4e9", "#009e73", "#f0e442", "#8fb8ff", "#ff9f6b", "#e6a9c9", "#bdbdbd"];
const PHASES = { reading: "Reading", run: "Running", replay: "Counting invalidations of", misses: "Counting misses of", blame: "Finding the pairs of instructions of" };
const FIRST_RATE = 1.5e7; // bytes of a trace in a second, before one was measured
const LEAST_RATED_BYTES = 2 ** 22; // of a smaller trace a count mostly takes the time of the start
const TICK_MS = 100;
const MOST_IN_FULL = 999_999; // a larger number of a cell is shortened, and stands in full in its title
const ELF_MAGIC = "\x7fELF";
const ELF_32_BITS = 1;
const ELF_RISC_V = 243;
const NO_MEMORY64 =
  "This browser has no WebAssembly memory64, which the program needs. Chrome, Edge and Chromium have it from version 133 on, Firefox from 134 on. A saved report can be shown here all the same.";

const part = (id) => document.getElementById(id);
const NUMBERS = ["shift", "tracking", "report", "quantum", "seed"];

/** An element with a class, and with texts or elements in it. */
function element(tag, className, ...content) {
  const made = document.createElement(tag);
  if (className) made.className = className;
  made.append(...content);
  return made;
}

const shown = (number) => number.toLocaleString("en-US");

const shortened = (number) => (number > MOST_IN_FULL ? number.toLocaleString("en-US", { notation: "compact", maximumFractionDigits: 2 }) : shown(number));

function counted(number, noun) {
  return `${shown(number)} ${noun}${number === 1 ? "" : /(s|x|ch|sh)$/.test(noun) ? "es" : "s"}`;
}

// ---- the file

let current = null; // the file that is counted: its name, whether it is a program, and whether the worker has it
let worker = null;
let texts = {};
let ticking = null;
const rates = {};

function say(text, isWrong = false) {
  part("status").textContent = text;
  part("status").classList.toggle("wrong", isWrong);
}

/** What is wrong with a file that is neither of the three, and what to do with it. */
function describeOther(head) {
  if (head.startsWith("PRDSTA")) return "it is a saved state: use predator replay --resume";
  if (head.startsWith(ELF_MAGIC)) {
    return "it is a program, but not for 32-bit RISC-V: record it on Linux with predator native --trace, and drop the trace";
  }
  if (head.startsWith("\x1f\x8b")) return "it is compressed: unpack it with gunzip first";
  return "it is no trace, RISC-V program or report of predator";
}

/** `program`, `trace` or `text`, or none. */
async function kindOfFile(file) {
  const head = new Uint8Array(await file.slice(0, 64).arrayBuffer());
  const text = String.fromCharCode(...head);
  if (text.startsWith("PRDTRC")) return { kind: "trace" };
  const isElf = text.startsWith(ELF_MAGIC) && head.length > 20;
  if (isElf && head[4] === ELF_32_BITS && head[18] + 256 * head[19] === ELF_RISC_V) return { kind: "program" };
  if (kindOfText(text)) return { kind: "text" };
  return { kind: null, why: describeOther(text) };
}

async function showSavedText(file) {
  if (file.size > MOST_TEXT_BYTES) {
    say(`${file.name}: the report has ${shown(file.size)} bytes, and here one has at most ${shown(MOST_TEXT_BYTES)}`, true);
    return;
  }
  const text = new TextDecoder("latin1").decode(await file.arrayBuffer());
  texts = { [kindOfText(text) === "report" ? "replay" : kindOfText(text)]: text };
  current = { name: file.name, file: null };
  part("settings").hidden = true;
  show();
  say("");
}

async function take(file) {
  const stopped = current?.isCounting ? `Stopped counting ${current.name}. ` : "";
  endWorker();
  clearResults();
  const { kind, why } = await kindOfFile(file);
  part("schedule").hidden = kind !== "program";
  if (kind === null) {
    current = null;
    say(`${stopped}${file.name}: ${why}`, true);
  } else if (file.size > MOST_BYTES) {
    current = null;
    say(`${stopped}${file.name}: it has ${shown(file.size)} bytes, and here a file has at most ${shown(MOST_BYTES)}: use predator view`, true);
  } else if (kind === "text") {
    await showSavedText(file);
  } else if (hasMemory64()) {
    current = { name: file.name, file, isProgram: kind === "program" };
    part("settings").hidden = false;
    count(stopped);
  } else {
    current = null;
    say(`${file.name}: this browser can't count it`, true);
  }
}

// ---- the settings

/** The settings of the form, or what is wrong with one. */
function chosenSettings() {
  const settings = { size: Number(part("size").value) };
  part("shift").max = `${settings.size - WORD_BYTES}`;
  for (const id of NUMBERS) {
    const input = part(id);
    if (input.closest("[hidden]")) {
      settings[id] = Number(input.defaultValue);
      continue;
    }
    if (!/^\d+$/.test(input.value) || !input.checkValidity()) {
      const name = input.closest("label").firstChild.textContent.trim();
      const step = input.step ? `a multiple of ${input.step}` : "a whole number";
      return { wrong: `${name}: it must be ${step} from ${shown(Number(input.min))} to ${shown(Number(input.max))}` };
    }
    settings[id] = Number(input.value);
  }
  return { settings };
}

// ---- counting

function inflated(id) {
  const packed = atob(part(id).textContent);
  return Uint8Array.from(packed, (it) => it.charCodeAt(0));
}

function startWorker() {
  const code = new Blob([part("worker").textContent], { type: "text/javascript" });
  worker = new Worker(URL.createObjectURL(code));
  worker.onmessage = ({ data }) => hear(data);
  worker.onerror = (fault) => hear({ fault: fault.message || "the worker can't start" });
}

function endWorker() {
  worker?.terminate();
  worker = null;
  clearInterval(ticking);
  part("running").hidden = true;
}

function count(before = "") {
  const { settings, wrong } = chosenSettings();
  part("earlier").hidden = false;
  if (wrong) {
    say(wrong, true);
    return;
  }
  // (a count that runs is ended: its numbers would be those of other settings)
  if (current.isCounting) endWorker();
  const isNew = worker === null;
  if (isNew) startWorker();
  current.isCounting = true;
  texts = {};
  say(`${before}Counting ${current.name} ..`);
  part("running").hidden = false;
  showPhase({ phase: "reading" });
  worker.postMessage(isNew ? { settings, file: current.file, program: current.isProgram, compressed: inflated("module") } : { settings });
}

/** The bar goes as far as the file is read; while the program counts, as long as that is likely to take. */
function showPhase({ phase, done, total, size }) {
  clearInterval(ticking);
  const bar = part("progress");
  const name = `${PHASES[phase]} ${current.name}`;
  part("phase").textContent = name;
  if (total) {
    bar.value = done / total;
    return;
  }
  bar.removeAttribute("value");
  if (!size) return;
  current.size = size;
  const begun = performance.now();
  const likely = size / (rates[phase] ?? FIRST_RATE);
  ticking = setInterval(() => {
    const seconds = (performance.now() - begun) / 1000;
    if (phase !== "run") bar.value = Math.min(0.98, seconds / likely);
    if (seconds >= 1) part("phase").textContent = `${name}, ${seconds.toFixed(0)} s${phase === "run" ? "" : ` of about ${Math.max(likely, seconds).toFixed(0)} s`}`;
  }, TICK_MS);
}

function hear(data) {
  if (data.phase) {
    showPhase(data);
  } else if (data.output !== undefined) {
    part("output").textContent = data.output.slice(0, SHOWN_TEXT);
    part("outputPart").hidden = false;
  } else if (data.name) {
    hearAnswer(data);
  } else {
    clearInterval(ticking);
    part("running").hidden = true;
    current.isCounting = false;
    if (data.fault) {
      endWorker();
      clearResults();
      say(`${current.name}: ${data.fault}`, true);
    } else if (texts.replay) {
      say("");
      show();
    }
  }
}

function hearAnswer({ name, status, text, message, seconds }) {
  if (text.startsWith("predator report") || status === 0) {
    if (current.size >= LEAST_RATED_BYTES) rates[name] = current.size / seconds;
    if (name !== "run") texts[name] = text;
    return;
  }
  clearResults();
  say(`${current.name}: ${message || text.trim().replace(/^predator: /, "")}`, true);
}

function stop() {
  endWorker();
  current.isCounting = false;
  say(`Stopped counting ${current.name}. Change a setting or drop a file to count again.`);
}

// ---- what is shown

function clearResults() {
  texts = {};
  part("results").hidden = true;
  part("outputPart").hidden = true;
}

function row(tag, cells) {
  return element("tr", "", ...cells.map((it) => element(tag, typeof it === "number" ? "n" : "", typeof it === "number" ? shown(it) : it)));
}

function table(heads, rows) {
  const headRow = row("th", heads);
  // (the head of a column of numbers stands above their ends)
  [...headRow.cells].forEach((it, at) => it.classList.toggle("n", typeof rows[0]?.[at] === "number"));
  const head = element("thead", "", headRow);
  return element("table", "", head, element("tbody", "", ...rows.map((it) => row("td", it))));
}

const missesText = (misses) => `${counted(misses.falseSharing, "false-sharing miss")}, ${shown(misses.trueSharing)} true-sharing`;

/** What the report says of the whole trace: a sentence, and one of its misses if they are known. */
function summaryOf(report, misses) {
  const size = report ?? misses;
  const whole = misses?.whole ?? size.accesses;
  const recorded = whole > size.accesses ? ` (${shown(size.accesses)} recorded)` : "";
  const parts = [`${counted(whole, "access")}${recorded}; ${size.size}-byte lines${size.shift ? `, shifted by ${size.shift} bytes` : ""}`];
  if (report?.steps) parts.unshift(counted(report.steps, "instruction"));
  if (report) parts.unshift(`Outcome: ${report.outcome}`);
  const sentence = `${parts.join(", ")}.`;
  if (!misses) return [sentence];
  const of = report?.steps || misses.whole;
  const rate = of ? ((1000 * misses.falseSharing) / of).toFixed(2) : "0.00";
  const counts = `${missesText(misses)}, ${shown(misses.cold)} cold: ${rate} false per 1,000 ${report?.steps ? "instructions" : "accesses"}.`;
  return [sentence, element("br"), element("b", "", counts)];
}

function showObjects(misses) {
  const groups = misses ? groupByObjects(misses.lines) : [];
  part("objects").replaceChildren();
  if (!groups.length) return;
  const rows = groups.slice(0, SHOWN_OBJECTS).map((it, at) => [at + 1, it.falseSharing, it.trueSharing, it.cold, it.lines, it.name]);
  part("objects").append(element("h3", "", "Objects by false-sharing misses"), table(["", "false", "true", "cold", "lines", "object"], rows));
  if (groups.length > SHOWN_OBJECTS) part("objects").append(element("p", "soft", `and ${counted(groups.length - SHOWN_OBJECTS, "object")} more`));
  part("objects").append(element("p", "soft", "false and true: false-sharing and true-sharing misses; cold: first accesses of a line by a thread; lines: those with sharing misses."));
}

/** A word of a line: who uses it, and how often it is written and read. */
function wordCell(address, word) {
  if (!word) return Object.assign(element("div", "word idle", element("b", "", "·")), { title: `${address}: never accessed` });
  const cell = element("div", word.hart === null ? "word many" : "word", element("b", "", word.hart === null ? "many" : `${word.hart}`));
  if (word.hart !== null) cell.style.background = COLOURS[word.hart % COLOURS.length];
  cell.append(element("span", "", `${shortened(word.writes)} w`), element("span", "", `${shortened(word.reads)} r`));
  cell.title = `${address}: ${word.hart === null ? "many harts" : `hart ${word.hart}`}, ${counted(word.writes, "write")}, ${counted(word.reads, "read")}`;
  return cell;
}

function addressAfter(base, bytes) {
  const begin = base.startsWith("-") ? -Number(base.slice(1)) : Number(base);
  const place = begin + bytes;
  return `${place < 0 ? "-" : ""}0x${Math.abs(place).toString(16).padStart(8, "0")}`;
}

function drawWords(line) {
  const used = new Map(line.words.map((it) => [it.address, it]));
  const count = line.size / WORD_BYTES;
  const cells = element("div", count <= FEW_WORDS ? "words few" : "words");
  for (let at = 0; at < count; at++) {
    const address = addressAfter(line.base, at * WORD_BYTES);
    cells.append(wordCell(address, used.get(address)));
  }
  return cells;
}

function pairsTable(blamed) {
  const rows = blamed.pairs.slice(0, SHOWN_PAIRS).map((it) => [it.count, it.same, element("code", "", it.by), element("code", "", it.victim)]);
  const pairs = table(["inval", "same word", "invalidates", "loses the line"], rows);
  pairs.classList.add("pairs");
  return pairs;
}

/** A line of the report: its name, its numbers, its words, and the pairs of instructions if they are known. */
function drawLine(line, misses, blame) {
  const isObserved = line.kind === "observed";
  const missed = isObserved ? misses?.lines.find((it) => it.base === line.base) : null;
  const numbers = [missed ? missesText(missed) : "", counted(line.invalidations, "invalidation"), `${line.verdict} sharing`].filter(Boolean);
  const placement = line.kind === "doubled" ? `${line.size}-byte lines` : "another placement of the data";
  const kind = isObserved ? "" : `, predicted for ${placement}`;
  const place = line.objects.length ? ` at ${line.base}` : "";
  const title = element("h3", "", nameOfLine(line), element("span", "soft", `${place}: ${numbers.join(", ")}${kind}`));
  part("lines").append(title, drawWords(line));
  if (isObserved && blame?.has(line.base)) part("lines").append(pairsTable(blame.get(line.base)));
}

/** The lines that were observed, and then those that are predicted. */
function showLines(report, misses, blame) {
  part("lines").replaceChildren();
  if (!report) return;
  const observed = report.lines.filter((it) => it.kind === "observed");
  const predicted = report.lines.filter((it) => it.kind !== "observed");
  const drawn = [...observed, ...predicted].slice(0, SHOWN_LINES);
  part("lines").append(element("h3", "", drawn.length ? "Lines by invalidations, a cell for each word of 4 bytes" : "No line reaches the report's threshold"));
  if (drawn.length) part("lines").append(element("p", "soft", "Each cell has the number of the only thread (hart) that uses the word, or “many”, and the word's writes (w) and reads (r)."));
  if (blame) part("lines").append(element("p", "soft", "inval: invalidations by a pair of instructions; same word: those of them where both access the same word."));
  if (drawn.length && misses?.whole > misses?.accesses) part("lines").append(element("p", "soft", "The trace is filtered: each line's invalidations and verdict, and its words' writes and reads, are those of the recorded accesses alone. Misses are those of all."));
  for (const line of drawn) drawLine(line, misses, blame);
  const more = report.lines.length - drawn.length;
  if (more > 0) part("lines").append(element("p", "soft", `and ${counted(more, "line")} more in the text; ${shown(predicted.length)} of all ${shown(report.lines.length)} are predicted`));
}

function show() {
  const report = texts.replay ? readReport(texts.replay) : null;
  const misses = texts.misses ? readMisses(texts.misses) : null;
  const blame = texts.blame ? readBlame(texts.blame) : null;
  part("title").textContent = current.name;
  part("summary").replaceChildren(...(report || misses ? summaryOf(report, misses) : []));
  showObjects(misses);
  showLines(report, misses, blame);
  const all = [texts.replay, texts.misses, texts.blame].filter(Boolean).join("\n");
  part("text").textContent = all.slice(0, SHOWN_TEXT) + (all.length > SHOWN_TEXT ? `\n.. and ${shown(all.length - SHOWN_TEXT)} bytes more\n` : "");
  part("textPart").open = !report && !misses;
  part("earlier").hidden = true;
  part("results").hidden = false;
}

// ---- what happens

function listen() {
  for (const size of SIZES) part("size").append(new Option(`${size}`, `${size}`, size === USUAL_SIZE, size === USUAL_SIZE));
  // (so that the same file can be chosen again, which may have changed)
  part("file").onclick = () => (part("file").value = "");
  part("file").onchange = () => part("file").files.length && take(part("file").files[0]);
  part("settings").onchange = () => current?.file && count();
  part("settings").onsubmit = (event) => event.preventDefault();
  part("stop").onclick = stop;
  document.ondragover = (event) => {
    event.preventDefault();
    part("drop").classList.add("over");
  };
  document.ondragleave = () => part("drop").classList.remove("over");
  document.ondrop = (event) => {
    event.preventDefault();
    part("drop").classList.remove("over");
    if (!event.dataTransfer.files.length) return;
    part("file").files = event.dataTransfer.files;
    take(event.dataTransfer.files[0]);
  };
  if (!hasMemory64()) {
    part("unable").textContent = NO_MEMORY64;
    part("unable").hidden = false;
  }
}

/** The trace that came with the page, where one did. */
async function takeOwnTrace() {
  if (!part("trace").textContent) return;
  const stream = new Blob([inflated("trace")]).stream().pipeThrough(new DecompressionStream("gzip"));
  const bytes = await new Response(stream).arrayBuffer();
  for (const id of ["name", "intro", "drop"]) part(id).hidden = true;
  await take(new File([bytes], part("trace").dataset.name));
}

/** In the frame of a page of `--live`: the frame becomes as high as what is shown, and only the page around it scrolls. */
function fitFrame() {
  const frame = window.frameElement;
  if (!frame) return;
  const root = document.documentElement;
  new ResizeObserver(() => (frame.style.height = `${root.offsetHeight + frame.offsetHeight - frame.clientHeight}px`)).observe(root);
}

listen();
fitFrame();
takeOwnTrace();
