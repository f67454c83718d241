// Encodes and decodes the reply of `bench/frames` with node's Buffer, for scale: the same 2,452 entries, as objects,
// and the same bytes. Nothing is tested that a decoder of frames has to test.
//
//   node bench/frames.mjs [ROUNDS]
//
// It prints the length of the frame, and how fast it was made and read: processor time, the best of nine runs and the
// middle one.

const rounds = Number(process.argv[2] ?? 100);

const KIND = { frame: 2, commit: 6, post: 9, fire: 10, sync: 15 };

function entries() {
  const news = [];
  for (let nav = 0; nav < 56; nav++) {
    const host = `s${nav % 7}.test`;
    const origin = { scheme: 1, ip: 0, host, port: null };
    const load = { doc: nav, home: 1, origin, url: `https://${host}/p17` };
    news.push({ kind: KIND.frame, by: 0, actor: 1, nav, doc: nav, home: 0, origin, name: "", flags: 0, load });
    news.push({ kind: KIND.commit, by: 1, actor: null, nav, doc: nav, begin: nav });
    for (let number = 0; number < 20; number++) {
      news.push({ kind: KIND.post, by: 1, actor: nav, to: 1, from: nav, origin, target: 0, body: number });
      news.push({ kind: KIND.fire, by: 0, actor: null, doc: 1, post: number });
    }
  }
  for (let k = 0; k < 100; k++) news.push({ kind: KIND.sync, by: 0, actor: 1 });
  return news;
}

class Writer {
  bytes = Buffer.allocUnsafe(1 << 16);
  at = 0;
  room(count) {
    if (this.at + count <= this.bytes.length) return;
    const wider = Buffer.allocUnsafe(Math.max(2 * this.bytes.length, this.at + count));
    this.bytes.copy(wider, 0, 0, this.at);
    this.bytes = wider;
  }
  u8(n) { this.room(1); this.at = this.bytes.writeUInt8(n, this.at); }
  u16(n) { this.room(2); this.at = this.bytes.writeUInt16BE(n, this.at); }
  u32(n) { this.room(4); this.at = this.bytes.writeUInt32BE(n, this.at); }
  i64(n) { this.room(8); this.at = this.bytes.writeBigInt64BE(BigInt(n), this.at); }
  optional16(n) { if (n === null) this.u8(0); else { this.u8(1); this.u16(n); } }
  optional32(n) { if (n === null) this.u8(0); else { this.u8(1); this.u32(n); } }
  text(text) {
    const length = Buffer.byteLength(text);
    this.u16(length);
    this.room(length);
    this.at += this.bytes.write(text, this.at, "utf8");
  }
  origin(origin) {
    this.u8(0);
    this.u8(origin.scheme);
    this.u8(origin.ip);
    this.text(origin.host);
    this.optional16(origin.port);
  }
  load(load) {
    this.u32(load.doc);
    this.u16(load.home);
    this.origin(load.origin);
    this.text(load.url);
  }
}

function encode(news) {
  const out = new Writer();
  out.u8(2);
  out.u8(0x41);
  out.u32(0);
  out.u32(0);
  out.u8(0);
  out.u32(news.length);
  for (const entry of news) {
    out.u8(entry.kind);
    out.optional16(entry.by);
    out.optional32(entry.actor);
    switch (entry.kind) {
      case KIND.frame:
        out.u32(entry.nav);
        out.u32(entry.doc);
        out.u16(entry.home);
        out.origin(entry.origin);
        out.text(entry.name);
        out.u16(entry.flags);
        out.u8(1);
        out.load(entry.load);
        break;
      case KIND.commit:
        out.u32(entry.nav);
        out.u32(entry.doc);
        out.u32(entry.begin);
        break;
      case KIND.post:
        out.u32(entry.to);
        out.u32(entry.from);
        out.origin(entry.origin);
        out.u8(0);
        out.u8(4);
        out.i64(entry.body);
        break;
      case KIND.fire:
        out.u32(entry.doc);
        out.u32(entry.post);
        break;
    }
  }
  out.bytes.writeUInt32BE(out.at - 6, 2);
  return out.bytes.subarray(0, out.at);
}

class Reader {
  constructor(bytes, at) { this.bytes = bytes; this.at = at; }
  u8() { const n = this.bytes.readUInt8(this.at); this.at += 1; return n; }
  u16() { const n = this.bytes.readUInt16BE(this.at); this.at += 2; return n; }
  u32() { const n = this.bytes.readUInt32BE(this.at); this.at += 4; return n; }
  i64() { const n = this.bytes.readBigInt64BE(this.at); this.at += 8; return Number(n); }
  optional16() { return this.u8() ? this.u16() : null; }
  optional32() { return this.u8() ? this.u32() : null; }
  text() { const end = this.u16() + this.at; const text = this.bytes.toString("utf8", this.at, end); this.at = end; return text; }
  origin() { this.u8(); return { scheme: this.u8(), ip: this.u8(), host: this.text(), port: this.optional16() }; }
  load() { return { doc: this.u32(), home: this.u16(), origin: this.origin(), url: this.text() }; }
}

function entryFrom(from) {
  const kind = from.u8(), by = from.optional16(), actor = from.optional32();
  switch (kind) {
    case KIND.frame: {
      const entry = { kind, by, actor, nav: from.u32(), doc: from.u32(), home: from.u16(), origin: from.origin(), name: from.text(), flags: from.u16(), load: null };
      if (from.u8()) entry.load = from.load();
      return entry;
    }
    case KIND.commit: return { kind, by, actor, nav: from.u32(), doc: from.u32(), begin: from.u32() };
    case KIND.post: {
      const entry = { kind, by, actor, to: from.u32(), from: from.u32(), origin: from.origin(), target: from.u8(), body: 0 };
      from.u8();
      entry.body = from.i64();
      return entry;
    }
    case KIND.fire: return { kind, by, actor, doc: from.u32(), post: from.u32() };
    default: return { kind, by, actor };
  }
}

function decode(bytes) {
  const from = new Reader(bytes, 11);
  const count = from.u32();
  const news = [];
  for (let k = 0; k < count; k++) news.push(entryFrom(from));
  return news;
}

// The least and the middle time of a round, in microseconds.
function time(work) {
  for (let k = 0; k < 20; k++) work();
  const times = [];
  for (let k = 0; k < 9; k++) {
    const start = process.cpuUsage();
    for (let round = 0; round < rounds; round++) work();
    const used = process.cpuUsage(start);
    times.push((used.user + used.system) / rounds);
  }
  times.sort((a, b) => a - b);
  return [times[0], times[4]];
}

const news = entries();
const bytes = Buffer.from(encode(news));
if (Buffer.compare(encode(decode(bytes)), bytes) !== 0) throw new Error("what was read is written as other bytes");
for (const [name, work] of [["encode", () => encode(news)], ["decode", () => decode(bytes)]]) {
  const [least, middle] = time(work);
  const speed = (each) => `${(each / 1e3).toFixed(2)} ms, ${(bytes.length / each).toFixed(0)} MB/s`;
  console.log(`node ${name}: ${bytes.length} bytes in ${speed(least)} (middle run: ${speed(middle)})`);
}
