// The proved program as a WebAssembly module: one call over files in memory. A page's worker and
// node use it alike; docs/ANYWHERE.md has the bytes of a request and of a reply.

// What a module has with a memory of 64-bit addresses, and nothing else.
const LEAST_MEMORY64 = [0, 97, 115, 109, 1, 0, 0, 0, 5, 3, 1, 4, 1];
const NUMBER_BYTES = 8;
const MALFORMED = 0n;
const OUT_OF_MEMORY = 1n;
const NO_MEMORY_STATUS = 9;
const NO_MEMORY_LINE = "predator: no memory\n";
// Room for a reply: it is only reserved, and used as far as the reply goes.
const TEXT_ROOM = 1 << 26;
const RUN_ROOM = 1 << 29;
const COPYING = ["move", "convert", "split"];

/** Whether this host runs modules whose memory has 64-bit addresses. */
export function hasMemory64() {
  return WebAssembly.validate(new Uint8Array(LEAST_MEMORY64));
}

/** Writes fields one behind the other, from a place in the module's memory on. */
class FieldWriter {
  constructor(memory, place) {
    this.memory = memory;
    this.place = place;
  }

  addNumber(number) {
    new DataView(this.memory.buffer).setBigUint64(this.place, BigInt(number), true);
    this.place += NUMBER_BYTES;
  }

  addBytes(bytes) {
    this.addFilled(bytes.length, (target) => target.set(bytes));
  }

  /** A content that is filled in where it stands. */
  addFilled(size, fill) {
    this.addNumber(size);
    fill(new Uint8Array(this.memory.buffer, this.place, size));
    this.place += size;
  }
}

/** Reads the fields of a reply. */
class FieldReader {
  constructor(bytes) {
    this.bytes = bytes;
    this.view = new DataView(bytes.buffer, bytes.byteOffset, bytes.byteLength);
    this.place = 0;
  }

  isAtEnd() {
    return this.place >= this.bytes.length;
  }

  number() {
    const number = Number(this.view.getBigUint64(this.place, true));
    this.place += NUMBER_BYTES;
    return number;
  }

  content() {
    const size = this.number();
    this.place += size;
    return this.bytes.slice(this.place - size, this.place);
  }

  text() {
    return new TextDecoder().decode(this.content());
  }
}

function requestSize(words, files) {
  let size = 2 * NUMBER_BYTES;
  for (const word of words) size += NUMBER_BYTES + word.length;
  for (const file of files) size += 2 * NUMBER_BYTES + file.name.length + file.size;
  return size;
}

function replyRoom(words, files) {
  const copied = COPYING.includes(words[0]) ? 2 * files.reduce((sum, it) => sum + it.size, 0) : 0;
  return (words[0] === "run" ? RUN_ROOM : TEXT_ROOM) + copied;
}

/** Where the module has that much room; none where its memory ends. */
function makeRoom(exports, size) {
  const place = exports.predator_room(BigInt(size));
  return place === 0n ? null : place;
}

function noMemory() {
  const printed = new TextEncoder().encode(NO_MEMORY_LINE);
  return { status: NO_MEMORY_STATUS, printed, message: "", written: new Map() };
}

function readReply(bytes) {
  const fields = new FieldReader(bytes);
  const answer = {
    status: fields.number(),
    printed: fields.content(),
    message: fields.text(),
    written: new Map(),
  };
  while (!fields.isAtEnd()) {
    const name = fields.text();
    answer.written.set(name, fields.content());
  }
  return answer;
}

/** One try with so much room for the reply: the answer, or how much room it wants. */
function tryCall(module, words, files, room) {
  const exports = new WebAssembly.Instance(module, {}).exports;
  const size = requestSize(words, files);
  const request = makeRoom(exports, size);
  const reply = makeRoom(exports, room);
  if (request === null || reply === null) return { answer: noMemory() };
  const fields = new FieldWriter(exports.memory, Number(request));
  fields.addNumber(words.length);
  for (const word of words) fields.addBytes(word);
  fields.addNumber(files.length);
  for (const file of files) {
    fields.addBytes(file.name);
    fields.addFilled(file.size, file.fill);
  }
  const got = exports.predator_page(request, BigInt(size), reply, BigInt(room));
  if (got === MALFORMED) throw new Error("the module refuses the bytes of the request");
  if (got === OUT_OF_MEMORY) return { answer: noMemory() };
  if (got > BigInt(room)) return { wanted: Number(got) };
  return { answer: readReply(new Uint8Array(exports.memory.buffer, Number(reply), Number(got))) };
}

/**
 * Calls the program with words over files, each `{name, size, fill}`, where `fill` puts the content
 * into bytes of that size. Gives the status, the bytes of the printed text, the message and the written
 * files.
 */
export function callPredator(module, words, files) {
  const encoder = new TextEncoder();
  const encoded = words.map((word) => encoder.encode(word));
  const held = files.map((file) => ({ ...file, name: encoder.encode(file.name) }));
  let room = replyRoom(words, files);
  for (;;) {
    const { answer, wanted } = tryCall(module, encoded, held, room);
    if (answer) return answer;
    room = wanted;
  }
}

/** A file of some bytes. */
export function fileOf(name, bytes) {
  return { name, size: bytes.length, fill: (target) => target.set(bytes) };
}
