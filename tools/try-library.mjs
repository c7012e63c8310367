// Tries duggfrask.mjs: node tools/try-library.mjs HEADER DUGGFRASK.mjs SAMPLES
// Its calls are the header's, with the same values; a number that does not fit its width is refused and not cut; and it plans, checks and mends the samples.
import fs from 'node:fs';
import path from 'node:path';
import assert from 'node:assert/strict';

const [header, library, samples] = process.argv.slice(2);
const { load, calls } = await import(path.resolve(library));

const KINDS = { dugg_site: 'site', dugg_answer: 'answer', dugg_blocked: 'blocked', uint16_t: 'u16', uint32_t: 'u32', uint64_t: 'u64' };
const LISTS = { uint8_t: 'bytes', uint16_t: 'numbers', uint32_t: 'words', dugg_flow: 'flows' };
const wanted = {};
for (const [, result, name, parameters] of fs.readFileSync(header, 'utf8').replace(/\/\*[^]*?\*\//g, '').matchAll(/^dugg_(\w+)\s+dugg_(\w+)\(([^)]*)\);/gm)) {
  wanted[name] = [result, ...parameters.split(/\s*,\s*/).filter(p => p !== 'void' && !p.startsWith('size_t ')).map(p => {
    const [, shown, kind, star] = p.match(/^(const )?(\w+) (\*?)\w+$/);
    return star ? kind === 'dugg_site' ? 'lent site' : (shown ? 'shown ' : '') + LISTS[kind] : KINDS[kind];
  })];
}
assert.deepEqual(calls, wanted, 'duggfrask.mjs and the header have other calls');
const types = fs.readFileSync(library.replace(/\.mjs$/, '.d.mts'), 'utf8');
for (const name in calls) assert.match(types, new RegExp(`^  ${name}\\(`, 'm'), name + ' has no type');

const duggfrask = await load();
const file = name => new Uint8Array(fs.readFileSync(path.join(samples, name)));
const { site, answer } = duggfrask.read_site(file('north.site'));
assert.equal(answer.number, 0);
const table = new Uint8Array(site.cells * site.slots * site.channels), out = new Uint8Array(65536);
assert.equal(duggfrask.plan(site, table).number, 0);
assert.equal(duggfrask.check(site, table).number, 0);
const read = duggfrask.read_plan(file('customer.plan'), table);
assert.deepEqual([read.cells, read.slots, read.channels, read.answer.number], [5, 8, 2, 0]);
assert.equal(duggfrask.check(site, table).number, 6);
const changes = new Uint16Array(4 * 65536), mended = duggfrask.mend(site, table, changes);
assert.ok(mended.number === 0 && mended.value[0] > 0);
assert.equal(duggfrask.check(site, table).number, 0);
const text = call => { const said = call(); assert.equal(said.number, 0); return new TextDecoder().decode(out.subarray(0, said.value[0])); };
assert.equal(text(() => duggfrask.words({ number: 5, value: [2, 1, 0] }, 0, out)), 'refused 5, cell 2: no room for 1 of its fragments\n');
assert.match(text(() => duggfrask.why(site, out)), /\nplanned\n$/);
assert.match(text(() => duggfrask.list(file('north.site'), out)), /^site 5 8 2\n/);
assert.equal(duggfrask.version().value[0], Number(fs.readFileSync(header, 'utf8').match(/^#define DUGG_VERSION (\d+)/m)[1]));
assert.equal(duggfrask.write_site(site, out).value[0], file('north.site').length);
assert.deepEqual(out.slice(0, file('north.site').length), file('north.site'));

for (const [what, f] of Object.entries({
  'cell 65,537': () => duggfrask.clash(site, 65537, 1), 'cell -1': () => duggfrask.clash(site, -1, 1), 'half a cell': () => duggfrask.clash(site, 1.5, 1),
  'no number': () => duggfrask.clash(site, '1', 1), '65,537 cells': () => duggfrask.fault({ ...site, cells: 65537 }), 'a load too large': () => duggfrask.fault({ ...site, loads: [65536] }),
  'a reach of 33 bits': () => duggfrask.fault({ ...site, reach: [2 ** 32] }), '33 loads': () => duggfrask.fault({ ...site, loads: Array(33).fill(0) }),
  'a set of 33 bits': () => duggfrask.over_full(site, 2 ** 32), 'tries of 65 bits': () => duggfrask.search(site, 2n ** 64n, table), 'a flow too large': () => duggfrask.admit(site, [{ cell: 65537, burst: 1, period: 1, repeats: 1, value: 1 }]),
  'more than the memory': () => duggfrask.read_site(new Uint8Array(1 << 22)),
})) assert.throws(f, RangeError, what);
assert.throws(() => duggfrask.plan(site, [0]), TypeError);
assert.throws(() => duggfrask.plan(site), TypeError);
console.log(`${Object.keys(calls).length} calls of duggfrask.mjs are the header's; numbers that do not fit are refused`);
