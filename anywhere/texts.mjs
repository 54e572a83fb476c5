// Reads the texts that the program prints: reports, counts of misses, and which instructions
// invalidate which. docs/FORMATS.md has them. Addresses stay as they are printed.

const SYMBOL = /^object symbol (\S+) (\S+) (\d+)$/;
const BLOCK = /^object block (\S+) (\d+) born (\d+) (live|died \d+)$/;
const SITE = /^site (\S+) (.*)$/;
const WORD = /^word (\S+) reads (\d+) writes (\d+) (?:hart )?(\S+)$/;
const LISTED = /^line (observed|shifted|doubled) (\S+) (\d+) start (\d+) count (\d+) verdict (\w+)$/;
const MISSED = /^line (\S+) cold (\d+) useful (\d+) useless (\d+)$/;
const MISSED_IN_ALL = /^total cold (\d+) useful (\d+) useless (\d+)$/;
const BLAMED = /^line (\S+) takings (\d+) pairs (\d+) harts (\d+)$/;
const PAIR = /^pair (\S+) (\S+) taken (\d+) same (\d+)$/;

const MOST_NAMES = 4;

/** Which text this is, by its first line; none where it is no text of the program. */
export function kindOfText(text) {
  if (text.startsWith("predator report ")) return "report";
  if (text.startsWith("predator blame ")) return "blame";
  if (/^misses \d+ \d+\n/.test(text)) return "misses";
  return null;
}

/** The objects of the rows from a place on, and where the rows go on. */
function readObjects(rows, place) {
  const objects = [];
  for (; place < rows.length; place++) {
    const symbol = SYMBOL.exec(rows[place]);
    const block = BLOCK.exec(rows[place]);
    const site = SITE.exec(rows[place]);
    if (symbol) {
      objects.push({ name: symbol[1], address: symbol[2], size: Number(symbol[3]), sites: [] });
    } else if (block) {
      objects.push({ name: null, address: block[1], size: Number(block[2]), sites: [] });
    } else if (site && objects.length) {
      objects[objects.length - 1].sites.push({ address: site[1], name: site[2] });
    } else {
      break;
    }
  }
  return { objects, place };
}

function readWords(rows, place) {
  const words = [];
  for (; place < rows.length; place++) {
    const word = WORD.exec(rows[place]);
    if (!word) break;
    words.push({
      address: word[1],
      reads: Number(word[2]),
      writes: Number(word[3]),
      hart: word[4] === "many" ? null : Number(word[4]),
    });
  }
  return { words, place };
}

/** The fields at the head of a text, up to its first listed line: name and the rest of the row. */
function readHead(rows) {
  const head = new Map();
  let place = 1;
  for (; place < rows.length && !rows[place].startsWith("line "); place++) {
    const [name] = rows[place].split(" ", 1);
    head.set(name, rows[place].slice(name.length + 1));
    if (name === "end") break;
  }
  return { head, place };
}

function layoutOf(text) {
  const [size, shift] = (text ?? "64 0").split(" ").map(Number);
  return { size, shift };
}

export function readReport(text) {
  const rows = text.split("\n");
  const { head, place: first } = readHead(rows);
  const lines = [];
  for (let place = first; place < rows.length; ) {
    const listed = LISTED.exec(rows[place]);
    if (!listed) break;
    const standing = readObjects(rows, place + 1);
    const used = readWords(rows, standing.place);
    place = used.place;
    lines.push({
      kind: listed[1],
      base: listed[2],
      size: Number(listed[3]),
      start: Number(listed[4]),
      invalidations: Number(listed[5]),
      verdict: listed[6],
      objects: standing.objects,
      words: used.words,
    });
  }
  return {
    outcome: head.get("outcome") ?? "",
    steps: Number(head.get("steps") ?? 0),
    accesses: Number(head.get("accesses") ?? 0),
    ...layoutOf(head.get("layout")),
    lines,
  };
}

export function readMisses(text) {
  const rows = text.split("\n");
  const { head, place: first } = readHead(rows);
  const lines = [];
  let place = first;
  while (place < rows.length) {
    const missed = MISSED.exec(rows[place]);
    if (!missed) break;
    const standing = readObjects(rows, place + 1);
    place = standing.place;
    const [cold, trueSharing, falseSharing] = missed.slice(2).map(Number);
    lines.push({ base: missed[1], cold, trueSharing, falseSharing, objects: standing.objects });
  }
  const totalRow = rows.find((row) => row.startsWith("total cold ")) ?? "";
  const [cold, trueSharing, falseSharing] = (MISSED_IN_ALL.exec(totalRow) ?? [0, 0, 0, 0])
    .slice(1)
    .map(Number);
  const accesses = Number(head.get("accesses") ?? 0);
  // (of a filtered trace the number before some were left out)
  const whole = Number(head.get("whole") ?? accesses);
  return { accesses, whole, ...layoutOf(rows[0].slice("misses ".length)), lines, cold, trueSharing, falseSharing };
}

/** The pairs of each line, by its base. */
export function readBlame(text) {
  const lines = new Map();
  let pairs = [];
  for (const row of text.split("\n")) {
    const blamed = BLAMED.exec(row);
    const pair = PAIR.exec(row);
    if (blamed) {
      pairs = [];
      lines.set(blamed[1], { invalidations: Number(blamed[2]), pairs });
    } else if (pair) {
      pairs.push({ victim: pair[1], by: pair[2], count: Number(pair[3]), same: Number(pair[4]) });
    }
  }
  return lines;
}

/** What an object is called. */
export function nameOf(object) {
  if (object.name !== null) return object.name;
  const site = object.sites.find((it) => it.name !== "-");
  return `block of ${object.size.toLocaleString("en-US")} bytes${site ? ` from ${site.name}` : ""}`;
}

function namesOn(line) {
  return [...new Set(line.objects.map(nameOf))];
}

/** What the memory of a line is called: its first objects, or its address. */
export function nameOfLine(line) {
  const names = namesOn(line);
  const more = names.length > MOST_NAMES ? ` and ${names.length - MOST_NAMES} more` : "";
  return names.slice(0, MOST_NAMES).join(", ") + more || `memory at ${line.base}`;
}

/** Lines of a count of misses by what stands on them, those with the most false sharing first. */
export function groupByObjects(lines) {
  const groups = new Map();
  for (const line of lines) {
    const name = nameOfLine(line);
    // (the same objects in another order are the same)
    const key = namesOn(line).sort().join(", ") || name;
    const group = groups.get(key) ?? { name, cold: 0, trueSharing: 0, falseSharing: 0, lines: 0 };
    group.cold += line.cold;
    group.trueSharing += line.trueSharing;
    group.falseSharing += line.falseSharing;
    group.lines += 1;
    groups.set(key, group);
  }
  const all = [...groups.values()];
  return all.sort((a, b) => b.falseSharing - a.falseSharing || b.trueSharing - a.trueSharing);
}
