// Runs the library beside the page, so that a large envelope doesn't block it. What is said of an envelope is the library's;
// here bytes are unpacked, handed in, and cut to what a page can show.
'use strict';

const LARGEST = 512 << 20; // bytes of an unpacked envelope
const ROWS = 100, SPANS = 500, SEGMENTS = 200, EXCERPT = 16384;
const OK = 0, NO_ROOM = 1, OUT_OF_MEMORY = 17, NOTE = 160; // statuses, and the bytes of a CurdmesaNote
const RAN_OUT = 'Out of memory: this is larger than a page can read. Nothing is known of the envelope.';
const text = new TextDecoder();
let module = null, library = null, envelope = null, shown = null, normal = null;

// ---- unpacking

async function gather(stream) {
  const parts = [], reader = stream.getReader();
  for (let length = 0; ;) {
    const { done, value } = await reader.read();
    if (done) return new Uint8Array(await new Blob(parts).arrayBuffer());
    parts.push(value);
    length += value.length;
    if (length <= LARGEST) continue;
    await reader.cancel();
    throw new Error(`More than ${LARGEST.toLocaleString('en')} bytes.`);
  }
}
const gunzip = (bytes) => gather(new Blob([bytes]).stream().pipeThrough(new DecompressionStream('gzip')));

// Returns the bytes that base64 stands for, if these bytes are nothing else.
function unbase64(bytes) {
  if (!/^[\s\w+/=-]+$/.test(text.decode(bytes.subarray(0, 4096)))) return null;
  const told = text.decode(bytes).replace(/\s+/g, '').replace(/-/g, '+').replace(/_/g, '/');
  if (!/^[\w+/]{8,}={0,2}$/.test(told) || told.length % 4 === 1) return null;
  const inner = atob(told), made = new Uint8Array(inner.length);
  for (let at = 0; at < made.length; at++) made[at] = inner.charCodeAt(at);
  return made;
}

async function unpack(blob) {
  const how = [];
  for (let bytes = await gather(blob.stream()); ;) {
    const isGzip = bytes[0] === 0x1f && bytes[1] === 0x8b, inner = isGzip ? await gunzip(bytes) : unbase64(bytes);
    if (!inner || how.length === 4) return { bytes, how };
    how.push(isGzip ? 'gzip' : 'base64');
    bytes = inner;
  }
}

// ---- the library

// The functions of curdmesa.h over the module. Addresses and lengths have 64 bits there, so are BigInts here.
class Library {
  constructor() {
    this.calls = new WebAssembly.Instance(module, {}).exports;
    this.held = [];
  }
  room(length) {
    const at = this.calls.web_allocate(BigInt(Math.max(length, 1)));
    if (at === 0n) throw new RangeError(RAN_OUT);
    this.held.push(at);
    return at;
  }
  put(bytes) {
    const at = this.room(bytes.length);
    new Uint8Array(this.calls.memory.buffer).set(bytes, Number(at));
    return [at, BigInt(bytes.length)];
  }
  number(at) {
    return Number(new DataView(this.calls.memory.buffer).getBigUint64(Number(at), true));
  }
  clear() {
    while (this.held.length) this.calls.rattle_dealloc(this.held.pop());
  }
  // Calls what writes a text: `call` gets its room, and where the length is to stand.
  write(room, call) {
    const held = this.held.length, needed = this.room(8), out = this.room(room), status = call(out, BigInt(room), needed);
    const length = this.number(needed), at = Number(out);
    const bytes = status === OK ? new Uint8Array(this.calls.memory.buffer).slice(at, at + length) : null;
    this.held.splice(held).reverse().forEach((it) => this.calls.rattle_dealloc(it));
    if (status === OUT_OF_MEMORY) throw new RangeError(RAN_OUT);
    return status === NO_ROOM ? this.write(length, call) : { status, bytes };
  }
  version() {
    const it = this.calls.curdmesa_version();
    return `${Math.floor(it / 1000000)}.${Math.floor(it / 1000) % 1000}.${it % 1000}`;
  }
  statusText(status) {
    return text.decode(this.write(200, (...out) => this.calls.curdmesa_status_text(status, ...out)).bytes);
  }
  show(bytes) {
    const given = this.put(bytes);
    return this.write(bytes.length + 65536, (...out) => this.calls.curdmesa_envelope_show_json(...given, ...out)).bytes;
  }
  normalize(bytes, now, seed) {
    const given = [...this.put(bytes), now, 0, seed];
    return this.write(bytes.length + 65536, (...out) => this.calls.curdmesa_envelope_normalize(...given, ...out));
  }
  // Returns the normal form, the number of notes and the first of them; or the status alone.
  mend(bytes, now, seed, repairs) {
    const sums = this.room(24), rows = this.room(ROWS * NOTE);
    const given = [...this.put(bytes), now, 0, seed, repairs, 0, rows, BigInt(ROWS), sums, sums + 8n, sums + 16n];
    const { status, bytes: out } = this.write(bytes.length + 65536, (...room) => this.calls.curdmesa_envelope_mend(...given, ...room));
    if (status !== OK) return { status };
    const count = this.number(sums), notes = [];
    for (let row = 0; row < Math.min(count, ROWS); row++) {
      const field = (place) => this.number(rows + BigInt(row * NOTE + place));
      const told = (place) => text.decode(out.subarray(field(place), field(place) + field(place + 8)));
      const repair = Math.floor(field(152) / 2 ** 32);
      notes.push({ item: field(0), start: field(8), end: field(16), path: told(40), instead: told(104), repair });
    }
    return { status, bytes: out.subarray(0, this.number(sums + 16n)), count, notes };
  }
}

// Runs a call, and gives back what it took. A memory never shrinks, so behind a large one, and where a call didn't end, there
// is another.
function run(call) {
  library ??= new Library();
  try {
    const answer = call(library);
    library.clear();
    if (library.calls.memory.buffer.byteLength > 64 << 20) library = null;
    return answer;
  } catch (error) {
    library = null;
    throw error;
  }
}

// ---- what the page asks

// JavaScript's numbers have 53 bits, losses have 64.
const exact = (key, value, context) => (typeof value === 'number' && !Number.isSafeInteger(value) && context ? BigInt(context.source) : value);

// Joins items that stand side by side, so that a bar has few segments.
function segments({ bytes, header_length: end, items, unread }) {
  const bar = [{ name: 'header line', start: 0, end, accepted: true }];
  for (const [index, it] of items.entries()) {
    const last = bar[bar.length - 1], whole = { end: it.start + it.length, accepted: it.accepted, count: 1 };
    if (items.length > SEGMENTS && last.count && last.end - last.start < bytes / SEGMENTS) {
      const name = last.name === it.type ? it.type : 'several types';
      Object.assign(last, { name, end: whole.end, accepted: last.accepted && it.accepted, count: last.count + 1 });
    } else bar.push({ name: it.type, start: it.start, item: index, ...whole });
  }
  return unread === null ? bar : [...bar, { name: 'not read', start: unread, end: bytes, accepted: false }];
}

function dump(bytes, from) {
  const rows = [];
  for (let at = 0; at < bytes.length; at += 16) {
    const row = [...bytes.subarray(at, at + 16)], hex = row.map((it) => it.toString(16).padStart(2, '0')).join(' ');
    rows.push(`${String(from + at).padStart(8)}  ${hex.padEnd(48)} ${row.map((it) => (it > 31 && it < 127 ? String.fromCharCode(it) : '.')).join('')}`);
  }
  return rows.join('\n');
}

// Returns bytes as text, in pieces that are marked or not; or as a dump, if they aren't UTF-8.
function excerpt(start, to, marks) {
  for (let back = 0; back < 3 && envelope[start] >> 6 === 2; back++) start++;
  const end = Math.min(to, start + EXCERPT), pieces = [], read = (from, till) => text.decode(envelope.subarray(from, till));
  try {
    new TextDecoder('utf-8', { fatal: true }).decode(envelope.subarray(start, end), { stream: end < envelope.length });
  } catch {
    const few = Math.min(end, start + 1024);
    return { pieces: [{ text: dump(envelope.subarray(start, few), start) }], left: to - few };
  }
  let at = start;
  for (const [begin, stop] of marks.filter((it) => it[0] >= start && it[0] < end).sort((a, b) => a[0] - b[0])) {
    if (begin < at) continue;
    const close = Math.min(Math.max(stop, begin + 1), end);
    pieces.push({ text: read(at, begin) }, { text: read(begin, close), marked: true });
    at = close;
  }
  return { pieces: [...pieces, { text: read(at, end) }], left: to - end };
}

const answers = {
  async start(packed) {
    module = await WebAssembly.compile(await gunzip(unbase64(new TextEncoder().encode(packed))));
    return run((it) => it.version());
  },
  async read(blob) {
    envelope = shown = normal = null;
    const { bytes, how } = await unpack(blob), told = text.decode(run((it) => it.show(bytes)));
    envelope = bytes;
    shown = JSON.parse(told, /\d{16}/.test(told) ? exact : undefined);
    const { items, faults, events, transactions, ...rest } = shown, few = (rows) => ({ rows: rows.slice(0, ROWS), all: rows.length });
    const spans = transactions.map((it) => ({ ...it, spans: it.spans.slice(0, SPANS), all: it.spans.length }));
    return { ...rest, how, items: items.length, bar: segments(shown), faults: few(faults), events: few(events), transactions: few(spans) };
  },
  rows: (from) => shown.items.slice(from, from + ROWS),
  item(index) {
    const it = shown.items[index], faults = shown.faults.filter((fault) => fault.item === index);
    const marks = faults.map((fault) => [fault.from ?? fault.at ?? -1, fault.to ?? fault.at]);
    const [header, payload] = ['header', 'payload'].map((part) => [it[`${part}_start`], it[`${part}_length`]])
      .map(([start, length]) => excerpt(start, start + length, marks));
    return { type: it.type, header, payload };
  },
  around: ([from, to]) => excerpt(Math.max(from - 300, 0), Math.min(Math.max(to, from + 1) + 300, envelope.length), [[from, to]]),
  normal(repairs) {
    const now = BigInt(Math.floor(Date.now() / 1000)), [seed] = crypto.getRandomValues(new BigUint64Array(1));
    const made = run((it) => (shown.accepted ? it.normalize(envelope, now, seed) : it.mend(envelope, now, seed, repairs)));
    normal = made.bytes;
    if (made.status !== OK) return { error: run((it) => it.statusText(made.status)) };
    const same = normal.length === envelope.length && normal.every((it, at) => it === envelope[at]);
    const begin = text.decode(normal.subarray(0, EXCERPT)), left = Math.max(normal.length - EXCERPT, 0);
    return { begin, left, length: normal.length, same, notes: { rows: made.notes ?? [], all: made.count ?? 0 } };
  },
  save: () => new Blob([normal]),
};

onmessage = async ({ data: { id, name, given } }) => {
  try {
    postMessage({ id, answer: await answers[name](given) });
  } catch (error) {
    postMessage({ id, error: error instanceof RangeError && !/stack/i.test(error.message) ? RAN_OUT : error.message });
  }
};
