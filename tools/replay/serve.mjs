// Runs the desk's program as WebAssembly for tools/replay/client.c, one use after the other: node serve.mjs PROGRAM.wasm SOCKET. With the page's own class Desk; the files that an audit
// opens are those of the client's folder.
import fs from 'node:fs';
import net from 'node:net';
import path from 'node:path';

const Desk = new Function(fs.readFileSync(new URL('../../page/desk.js', import.meta.url), 'utf8') + '; return Desk;')();
const [program, socket] = process.argv.slice(2);
const desk = new Desk(await WebAssembly.compile(fs.readFileSync(program)));

// the parts of what has come, or null where it is not all there
function asked(bytes) {
  let at = 0;
  const number = () => { if (at + 4 > bytes.length) throw null; at += 4; return bytes.readUInt32LE(at - 4); };
  const part = () => { const n = number(); if (at + n > bytes.length) throw null; at += n; return new Uint8Array(bytes.subarray(at - n, at)); };
  try {
    const [folder, first, second, third] = [part(), part(), part(), part()];
    return { folder: Buffer.from(folder).toString(), inputs: { 0: first, 4: second, 6: third }, words: Array.from({ length: number() }, part) };
  } catch (e) { if (e !== null) throw e; return null; }
}

async function answer(client, { folder, inputs, words }) {
  const files = { get: name => { try { return new Uint8Array(fs.readFileSync(path.resolve(folder, name))); } catch (e) { return undefined; } } };
  const said = await desk.run(words, inputs, files);
  const parts = [said[1], said[2], said[5], said[7], said.status === null ? new Uint8Array(0) : Buffer.from(String(said.status))];
  client.end(Buffer.concat(parts.flatMap(p => { const n = Buffer.alloc(4); n.writeUInt32LE(p.length); return [n, p]; })));
}

net.createServer(client => {
  let held = Buffer.alloc(0), done = false;
  client.on('error', () => {});
  client.on('data', some => {
    held = Buffer.concat([held, some]);
    const all = done ? null : asked(held);
    if (all) { done = true; answer(client, all).catch(e => { console.error(e); client.destroy(); }); }
  });
}).listen(socket);
