// Times plan, check and mend of the library as WebAssembly under node, and sets them beside the native ones: node times.mjs NATIVE MODULE.wasm PLAIN.wasm SITE.. prints a table.
// NATIVE is what benches/web/native.c printed of the same sites; the mend has to make as many changes in each.
import fs from 'node:fs';
import path from 'node:path';

const [native, ...rest] = process.argv.slice(2), modules = rest.slice(0, 2), sites = rest.slice(2);
const TABLE = 65536;

function times(file, bytes) {
  const x = new WebAssembly.Instance(new WebAssembly.Module(fs.readFileSync(file)), {}).exports;
  const mem = new Uint8Array(x.memory.buffer), view = new DataView(x.memory.buffer), base = x.__heap_base.value + 63 & ~63;
  const R = base, S = R + 1024, F = S + 512, T = F + TABLE, B = T + TABLE, W = B + TABLE, C = W + TABLE;
  mem.set(bytes, F);
  x.dugg_read_site(R, F, bytes.length);
  mem.copyWithin(S, R, R + 464);
  x.dugg_plan(R, S, T, TABLE);
  mem.copyWithin(B, T, T + TABLE);
  for (let i = 0, r = 1; i < 2000; i++) { r = (Math.imul(r, 1103515245) + 12345) >>> 0; mem[B + (r >>> 8) % TABLE] ^= 1; }
  const best = (calls, before, call) => {
    let least = Infinity;
    for (let round = 0; round < 80; round++) {
      let spent = 0;
      for (let k = 0; k < calls; k++) { before(); const start = process.hrtime.bigint(); call(); spent += Number(process.hrtime.bigint() - start); }
      least = Math.min(least, spent / calls);
    }
    return least;
  };
  const mend = () => x.dugg_mend(R, S, W, TABLE, C, 4 * TABLE);
  const found = [best(40, () => mem.fill(0, W, W + TABLE), () => x.dugg_plan(R, S, W, TABLE)), best(40, () => {}, () => x.dugg_check(R, S, T, TABLE)), best(5, () => mem.copyWithin(W, B, B + TABLE), mend)];
  mem.copyWithin(W, B, B + TABLE);
  mend();
  return [...found, Number(view.getBigUint64(R + 8, true))];
}

console.log('| call | site | library ns | WebAssembly ns | without vectors ns | WebAssembly / library |\n|---|---|---:|---:|---:|---:|');
const lines = fs.readFileSync(native, 'utf8').trim().split('\n').map(l => l.split(' '));
sites.forEach((site, i) => {
  const own = lines[i].slice(1).map(Number), [fast, plain] = modules.map(m => times(m, fs.readFileSync(site)));
  if (own[3] !== fast[3] || own[3] !== plain[3]) throw new Error(`mend makes ${own[3]}, ${fast[3]} and ${plain[3]} changes`);
  ['plan', 'check', 'mend'].forEach((call, k) => console.log(`| ${call} | ${path.basename(site, '.site')} | ${own[k].toFixed(0)} | ${fast[k].toFixed(0)} | ${plain[k].toFixed(0)} | ${(fast[k] / own[k]).toFixed(2)} |`));
});
