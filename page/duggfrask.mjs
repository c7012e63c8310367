// The proved library for programmers of the web and of node: duggfrask.mjs, with duggfrask.wasm beside it. Its types stand in duggfrask.d.mts, and what each call answers in
// duggfrask.h, whose calls these are, under their names without dugg_.
//
//   import { load } from './duggfrask.mjs';
//   const duggfrask = await load();
//   const { site, answer } = duggfrask.read_site(bytes);
//   const table = new Uint8Array(site.cells * site.slots * site.channels);
//   if (answer.number === 0) console.log(duggfrask.plan(site, table));
//
// A number is held to its width before it is given: 65,537 is no cell, and not cell 1. What is lent is changed in place, as in C; nothing is kept between calls.

const MOST = { u16: 0xffff, u32: 0xffffffff, u64: 2n ** 64n - 1n };
const SITE = 464, BLOCKED = 256, ANSWER = 32;

// The calls: what comes back, and what is given. A lent list is given with its length: bytes, words (32 bits), numbers (16 bits) or flows; `shown` is a list that is only looked at.
const CALLS = {
  fault: ['answer', 'site'], clash: ['answer', 'site', 'u16', 'u16'], set_load: ['edited', 'site', 'u16', 'u16'], set_reach: ['edited', 'site', 'u16', 'u16'],
  clear_reach: ['edited', 'site', 'u16', 'u16'], load_test: ['answer', 'site'], chain: ['answer', 'site'], class: ['answer', 'site'], least: ['answer', 'site'],
  heaviest: ['answer', 'site'], plan: ['answer', 'site', 'bytes'], search: ['answer', 'site', 'u64', 'bytes'], find: ['answer', 'site', 'u64', 'bytes'],
  over_full: ['answer', 'site', 'u32'], check: ['answer', 'site', 'shown bytes'], plan_words: ['answer', 'site', 'words'], check_words: ['answer', 'site', 'shown words'],
  to_words: ['answer', 'site', 'shown bytes', 'words'], to_bytes: ['answer', 'site', 'shown words', 'bytes'], mend: ['answer', 'site', 'bytes', 'numbers'],
  change_load: ['answer', 'lent site', 'u16', 'u16', 'bytes'], renumber: ['renumbered', 'site'], carry: ['answer', 'site', 'shown bytes', 'bytes'],
  share: ['answer', 'u16', 'u16', 'u16'], share_repeated: ['answer', 'u16', 'u16', 'u16', 'u16'], admit: ['answer', 'site', 'shown flows'],
  admit_beside: ['answer', 'site', 'shown flows'], read_site: ['edited', 'shown bytes'], write_site: ['answer', 'site', 'bytes'], read_plan: ['plan_read', 'shown bytes', 'bytes'],
  write_plan: ['answer', 'site', 'shown bytes', 'bytes'], read_sheet: ['edited', 'shown bytes', 'u16', 'u16', 'blocked', 'u16'], write_sheet: ['answer', 'site', 'bytes'],
  tidy: ['answer', 'shown bytes', 'bytes'], words: ['answer', 'answer', 'u64', 'bytes'], why: ['answer', 'site', 'bytes'], list: ['answer', 'shown bytes', 'bytes'], version: ['answer'],
};
const LISTS = { bytes: Uint8Array, words: Uint32Array, numbers: Uint16Array };
const SIZES = { answer: ANSWER, edited: SITE + ANSWER, plan_read: 8 + ANSWER, renumbered: SITE + 128 + ANSWER };

function held(x, width, what) {
  if (width === 'u64' ? typeof x === 'bigint' ? x >= 0n && x <= MOST.u64 : Number.isSafeInteger(x) && x >= 0 : Number.isInteger(x) && x >= 0 && x <= MOST[width]) return x;
  throw new RangeError(`${what} is ${x}, which is no number of ${width.slice(1)} bits`);
}

function several(list, most, what) {
  const all = [...(list ?? [])];
  if (all.length > most) throw new RangeError(`${what} has ${all.length} entries, and the most is ${most}`);
  return all;
}

class Duggfrask {
  #exports; #memory; #view; #base; #top;

  constructor(exports) {
    this.#exports = exports;
    this.#memory = new Uint8Array(exports.memory.buffer);
    this.#view = new DataView(exports.memory.buffer);
    this.#base = exports.__heap_base.value + 15 & ~15;
    for (const [name, [result, ...kinds]] of Object.entries(CALLS)) this[name] = (...given) => this.#call(name, result, kinds, given);
  }

  #take(n) {
    const p = this.#top;
    this.#top = p + n + 15 & ~15;
    if (this.#top > this.#memory.length) throw new RangeError('what is lent is more than the memory of the module holds');
    return p;
  }

  #call(name, result, kinds, given) {
    if (given.length !== kinds.length) throw new TypeError(`${name} takes ${kinds.length} values, and got ${given.length}`);
    this.#top = this.#base;
    const to = this.#take(SIZES[result]), args = [to], back = [];
    kinds.forEach((kind, i) => this.#give(name + ', value ' + (i + 1), kind, given[i], args, back));
    this.#exports['dugg_' + name](...args);
    for (const [list, p] of back) if (list.constructor === Object) Object.assign(list, this.#site(p)); else new Uint8Array(list.buffer, list.byteOffset, list.byteLength).set(this.#memory.subarray(p, p + list.byteLength));
    return this.#result(result, to);
  }

  #give(what, kind, x, args, back) {
    if (MOST[kind]) { args.push(kind === 'u64' ? BigInt.asIntN(64, BigInt(held(x, kind, what))) : held(x, kind, what)); return; }
    if (kind === 'site' || kind === 'lent site') { const p = this.#take(SITE); this.#putSite(what, x, p); args.push(p); if (kind === 'lent site') back.push([x, p]); return; }
    if (kind === 'answer') { const p = this.#take(ANSWER); this.#putAnswer(what, x, p); args.push(p); return; }
    if (kind === 'blocked') { const p = this.#take(BLOCKED); this.#putWords(what, x, p, 32, 'u64'); args.push(p); return; }
    const shown = kind.startsWith('shown '), form = shown ? kind.slice(6) : kind;
    if (form === 'flows') { this.#putFlows(what, x, args); return; }
    if (!(x instanceof LISTS[form])) throw new TypeError(`${what} is to be a ${LISTS[form].name}`);
    const p = this.#take(x.byteLength);
    this.#memory.set(new Uint8Array(x.buffer, x.byteOffset, x.byteLength), p);
    args.push(p, x.length);
    if (!shown) back.push([x, p]);
  }

  #putWords(what, list, p, most, width) {
    const all = several(list, most, what), v = this.#view;
    for (let i = 0; i < most; i++) {
      const x = held(all[i] ?? (width === 'u64' ? 0n : 0), width, what);
      if (width === 'u16') v.setUint16(p + 2 * i, x, true); else if (width === 'u32') v.setUint32(p + 4 * i, x, true); else v.setBigUint64(p + 8 * i, BigInt(x), true);
    }
  }

  #putSite(what, site, p) {
    this.#memory.fill(0, p, p + SITE);
    ['cells', 'slots', 'channels'].forEach((k, i) => this.#view.setUint16(p + 2 * i, held(site[k], 'u16', what + ': ' + k), true));
    this.#putWords(what + ': a load', site.loads, p + 6, 32, 'u16');
    this.#putWords(what + ': a reach', site.reach, p + 72, 32, 'u32');
    this.#putWords(what + ': blocked', site.blocked, p + 200, 32, 'u64');
    this.#view.setUint16(p + 456, held(site.rule, 'u16', what + ': rule'), true);
  }

  #putAnswer(what, answer, p) {
    this.#putWords(what + ': number', [answer.number], p, 1, 'u64');
    this.#putWords(what + ': value', answer.value, p + 8, 3, 'u64');
  }

  #putFlows(what, flows, args) {
    const all = [...flows], p = this.#take(10 * all.length);
    all.forEach((f, i) => ['cell', 'burst', 'period', 'repeats', 'value'].forEach((k, j) => this.#view.setUint16(p + 10 * i + 2 * j, held(f[k], 'u16', `${what}: ${k} of flow ${i + 1}`), true)));
    args.push(p, all.length);
  }

  #answer(p) { const n = i => Number(this.#view.getBigUint64(p + 8 * i, true)); return { number: n(0), value: [n(1), n(2), n(3)] }; }
  #numbers(p) { return Array.from({ length: 32 }, (_, i) => this.#view.getUint16(p + 2 * i, true)); }

  #site(p) {
    const v = this.#view, many = f => Array.from({ length: 32 }, (_, i) => f(i));
    return {
      cells: v.getUint16(p, true), slots: v.getUint16(p + 2, true), channels: v.getUint16(p + 4, true), loads: this.#numbers(p + 6),
      reach: many(i => v.getUint32(p + 72 + 4 * i, true)), blocked: many(i => v.getBigUint64(p + 200 + 8 * i, true)), rule: v.getUint16(p + 456, true),
    };
  }

  #result(kind, p) {
    const v = this.#view;
    if (kind === 'answer') return this.#answer(p);
    if (kind === 'plan_read') return { cells: v.getUint16(p, true), slots: v.getUint16(p + 2, true), channels: v.getUint16(p + 4, true), answer: this.#answer(p + 8) };
    if (kind === 'edited') return { site: this.#site(p), answer: this.#answer(p + SITE) };
    return { site: this.#site(p), new_of_old: this.#numbers(p + SITE), old_of_new: this.#numbers(p + SITE + 64), answer: this.#answer(p + SITE + 128) };
  }
}

// A module of a few bytes with one vector instruction: whether this browser knows them
const VECTORS = new Uint8Array([0, 97, 115, 109, 1, 0, 0, 0, 1, 5, 1, 96, 0, 1, 123, 3, 2, 1, 0, 10, 10, 1, 8, 0, 65, 0, 253, 15, 253, 98, 11]);

// The bytes of a module beside this file, in node and in a browser
async function beside(name) {
  const url = new URL(name, import.meta.url);
  if (url.protocol === 'file:') return (await import('node:fs/promises')).readFile(url);
  const got = await fetch(url);
  if (!got.ok) throw new Error(`${name}: ${got.status}`);
  return got.arrayBuffer();
}

// load [BYTES]: the library, from the module beside this file, or from a module's bytes. duggfrask-plain.wasm is for browsers without vector instructions.
export async function load(bytes) {
  const module = bytes ?? await beside(WebAssembly.validate(VECTORS) ? 'duggfrask.wasm' : 'duggfrask-plain.wasm');
  return new Duggfrask((await WebAssembly.instantiate(module, {})).instance.exports);
}

// the calls and what they take, for a program that goes by them
export const calls = CALLS;
