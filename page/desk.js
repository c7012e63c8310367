// The desk's program, the proved one, as the script `duggfrask` runs it: its head says what stands on which descriptor. A fresh instance for each run, so nothing is kept
// between two answers. The foreign functions keep the contracts of the kit's libraries libc and os. A descriptor is opened by its name in /dev/fd, too.
class Desk {
  constructor(module) { this.module = module; }

  // run WORDS, INPUTS [, FILES]: WORDS are the program's arguments; INPUTS is an object from a descriptor (0, 4, 6) to bytes; FILES a Map from a name to the bytes
  // of a file that the program may open. What comes back has the bytes of every output by its descriptor, and the status.
  async run(words, inputs, files) {
    const ENOENT = 2, EBADF = 9, ESPIPE = 29;
    const args = ['desk', ...words].map(w => typeof w === 'string' ? new TextEncoder().encode(w) : w);
    const reads = new Map(), outs = { 1: [], 2: [], 3: [], 5: [], 7: [] };
    for (const fd of [0, 4, 6]) reads.set(fd, { bytes: (inputs && inputs[fd]) || new Uint8Array(0), at: 0 });
    let memory, errno = 0, next = 16;
    const at = () => new Uint8Array(memory.buffer);
    const page = {
      read: (fd, to, room) => {
        const file = reads.get(fd);
        if (!file) { errno = EBADF; return -1n; }
        const n = Math.min(Number(room), file.bytes.length - file.at);
        at().set(file.bytes.subarray(file.at, file.at + n), to);
        file.at += n;
        return BigInt(n);
      },
      write: (fd, from, many) => {
        if (!outs[fd]) { errno = EBADF; return -1n; }
        outs[fd].push(at().slice(from, from + Number(many)));
        return many;
      },
      lseek: () => { errno = ESPIPE; return -1n; },
      close: fd => { if (reads.delete(fd) || (fd >= 16 && delete outs[fd])) return 0; errno = EBADF; return -1; },
      // flags with their lowest bits 0 ask to read, and else to write
      open: (from, flags) => {
        const m = at(), end = m.indexOf(0, from), name = new TextDecoder().decode(m.subarray(from, end));
        const known = /^\/dev\/fd\/(\d+)$/.exec(name), fd = known ? Number(known[1]) : -1;
        if ((flags & 3) === 0) {
          const bytes = known ? null : files && files.get(name);
          const file = known ? reads.get(fd) : bytes && { bytes, at: 0 };
          if (!file) { errno = ENOENT; return -1; }
          reads.set(next, file);
        } else {
          if (!outs[fd]) { errno = ENOENT; return -1; }
          outs[next] = outs[fd];
        }
        return next++;
      },
      rattle_errno: () => errno,
      rattle_set_errno: e => { errno = e; },
      rattle_arg: (i, to, room) => {
        const word = i < BigInt(args.length) ? args[Number(i)] : null;
        if (!word) return -1n;
        const n = Math.min(word.length, Number(room));
        at().set(word.subarray(0, n), to);
        return word.length > n ? -2n : BigInt(n);
      },
    };
    const instance = await WebAssembly.instantiate(this.module, { page });
    memory = instance.exports.memory;
    instance.exports.run();
    const status = Desk.join(outs[3]);
    return { 1: Desk.join(outs[1]), 2: Desk.join(outs[2]), 5: Desk.join(outs[5]), 7: Desk.join(outs[7]), status: status.length === 1 ? status[0] - 48 : null };
  }

  static join(parts) {
    const all = new Uint8Array(parts.reduce((n, p) => n + p.length, 0));
    let at = 0;
    for (const p of parts) { all.set(p, at); at += p.length; }
    return all;
  }
}
