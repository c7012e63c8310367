// Makes recorded calls again on the library as WebAssembly, and compares: the result, the lent bytes, what was only shown, all else of the caller's memory, and the stack.
// Runs under node: node replay.mjs CALLS.json STREAM MODULE.wasm..; each module gets every call. The last line counts; it ends with 1 where something differs. The file DUGG_SEEN, where
// it is named, gets the names of the functions that were called.
import fs from 'node:fs';

const G = 48;   // guard bytes before and after each part

class Replay {
  constructor(calls, exports) {
    Object.assign(this, { calls, exports, mem: new Uint8Array(exports.memory.buffer), base: exports.__heap_base.value + 64 & ~15, seed: 12345, done: 0, bad: [], seen: new Map() });
    this.stack = exports.__stack_pointer.value;
    this.mem.fill(0x77, 0, this.stack);
  }
  random() { this.seed = Math.imul(this.seed, 1664525) + 1013904223 | 0; return this.seed >>> 8; }
  differs(i, r, j, n) { for (let k = 0; k < n; k++) if (this.mem[i + k] !== r[j + k]) return k; return -1; }
  wrong(name, what) { this.bad.push(`call ${this.done}, ${name}: ${what}`); }

  // where each part of the record at r[at..end] stands, or null where it is not whole
  parts(call, r, at, end) {
    const parts = [];
    for (const a of call.args) {
      let n = a.size;
      if (a.kind === 'shown' || a.kind === 'lent') { if (at + 4 > end) return null; n = (r[at] | r[at + 1] << 8 | r[at + 2] << 16 | r[at + 3] << 24) >>> 0; at += 4; }
      parts.push({ ...a, from: at, n });
      at += n;
    }
    const result = at;
    at += call.size;
    for (const p of parts) if (p.kind.startsWith('lent')) { p.after = at; at += p.n; }
    return at > end ? null : { parts, result, next: at };
  }

  // one part of the caller's memory, at a place of any alignment that its kind may have
  lay(n, align) {
    this.mem.fill(this.random() & 255, this.top, this.top + G + 32);
    let p = this.top + G + this.random() % 16;
    p = Math.ceil(p / align) * align;
    this.mem.fill(0xa5, p + n, p + n + G);
    this.top = p + n + G;
    if (this.top > this.mem.length) throw new Error('the memory is too small for the call');
    return p;
  }

  step(r, at, end) {
    if (at >= end) return -1;
    const call = this.calls[r[at]];
    if (!call) throw new Error('no such call in the stream');
    const found = this.parts(call, r, at + 1, end);
    if (!found) return -1;
    this.top = this.base;
    const to = this.lay(call.size, 8), args = [to], mem = this.mem;
    mem.fill(0xee, to, to + call.size);
    for (const p of found.parts) {
      if (p.kind === 'number') {
        let x = 0n;
        for (let k = p.n - 1; k >= 0; k--) x = x << 8n | BigInt(r[p.from + k]);
        args.push(p.n === 8 ? BigInt.asIntN(64, x) : Number(x));
        continue;
      }
      p.to = this.lay(p.n, p.unit ? (p.unit === 10 ? 2 : p.unit) : 8);
      mem.set(r.subarray(p.from, p.from + p.n), p.to);
      args.push(p.to);
      if (p.unit) args.push(p.n / p.unit);
    }
    const before = mem.slice(this.base, this.top);
    try { this.exports[call.name](...args); } catch (e) { this.wrong(call.name, 'a trap, ' + e.message); this.done++; return found.next; }
    this.compare(call, found, r, to, before);
    this.done++;
    return found.next;
  }

  compare(call, found, r, to, before) {
    const key = call.name + ' ' + r[found.result + call.number];
    this.seen.set(key, (this.seen.get(key) || 0) + 1);
    for (const [a, b] of call.spans) { const d = this.differs(to + a, r, found.result + a, b - a); if (d >= 0) this.wrong(call.name, 'byte ' + (a + d) + ' of the result'); }
    before.set(this.mem.subarray(to, to + call.size), to - this.base);
    for (const p of found.parts) if (p.after !== undefined) {
      for (const [a, b] of p.spans || [[0, p.n]]) { const d = this.differs(p.to + a, r, p.after + a, b - a); if (d >= 0) this.wrong(call.name, 'byte ' + (a + d) + ' of what was lent'); }
      before.set(this.mem.subarray(p.to, p.to + p.n), p.to - this.base);
    }
    const d = this.differs(this.base, before, 0, before.length);
    if (d >= 0) this.wrong(call.name, 'it touched what is not its own');
    if (this.exports.__stack_pointer.value !== this.stack) this.wrong(call.name, 'the stack pointer');
  }
  deepest() { let k = 0; while (k < this.stack && this.mem[k] === 0x77) k++; return this.stack - k; }
}

const [file, stream, ...modules] = process.argv.slice(2);
const calls = JSON.parse(fs.readFileSync(file, 'utf8'));
const replays = modules.map(m => new Replay(calls, new WebAssembly.Instance(new WebAssembly.Module(fs.readFileSync(m)), {}).exports));
const fd = fs.openSync(stream, 'r'), buffer = Buffer.alloc(1 << 24);
let end = 0;
for (;;) {
  const got = fs.readSync(fd, buffer, end, buffer.length - end, null);
  if (got === 0) break;
  end += got;
  let at = 0;
  for (const r of replays) { let next; at = 0; while ((next = r.step(buffer, at, end)) >= 0) at = next; }
  buffer.copy(buffer, 0, at, end);
  end -= at;
}
let wrong = end > 0 ? 1 : 0;
const seen = [...new Set(replays.flatMap(r => [...r.seen.keys()].map(k => k.split(' ')[0])))];
if (process.env.DUGG_SEEN) fs.appendFileSync(process.env.DUGG_SEEN, seen.map(name => name + '\n').join(''));
if (end > 0) console.log('the stream ends inside a call');
replays.forEach((r, i) => {
  const kinds = new Set([...r.seen.keys()].map(k => k.split(' ')[0]));
  for (const line of r.bad.slice(0, 5)) console.log(modules[i] + ': ' + line);
  console.log(`${modules[i].replace(/.*\//, '')}: ${r.done} calls of ${kinds.size} functions made again, ${r.seen.size} kinds of call and number, ${r.bad.length} differ; ${r.deepest()} bytes of stack`);
  if (r.bad.length || r.done === 0) wrong = 1;
});
process.exit(wrong);
