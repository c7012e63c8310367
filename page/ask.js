// The desk's commands, with the words that the script `duggfrask` hands to the program. Whatever is shown in the page comes from here.
const MOST = 65537;             // bytes of a file that are looked at: the program reads one fewer, and refuses what is longer
const text = bytes => new TextDecoder().decode(bytes);
const bytesOf = string => new TextEncoder().encode(string);

// what can stand in a line, whatever a name has in it, as the script makes it
const plain = name => String(name).replace(/[\x00-\x1f\x7f]/g, '?');

// A number for the program: plain digits; one above 65,535 is out of range wherever it stands, as 0 is, and is given as 0. Nothing is cut to 16 bits.
function number(what, word) {
  word = String(word).trim();
  if (!/^(?:0|[1-9][0-9]*)$/.test(word)) throw new Wrong(`${what} is '${plain(word)}', which is no plain number`);
  return word.length > 5 || Number(word) > 65535 ? '0' : word;
}

// Said by the page itself, of a word that the program is never given.
class Wrong extends Error {}

class Asks {
  constructor(desk) { this.desk = desk; }

  // one command: its words, with the names of its inputs; what it says, its result and its status
  async command(verb, site, second, more, third) {
    const words = [verb, site ? plain(site.name) : '', second ? plain(second.name) : '', ...(third ? [plain(third.name)] : []), ...(more || [])];
    const said = await this.desk.run(words, { 0: site && site.bytes, 4: second && second.bytes, 6: third && third.bytes });
    if (said.status === null) throw new Error('the run was cut off, and there is no result');
    return { status: said.status, result: said[1], words: text(said[2]), second: said[5], sheet: said[7] };
  }

  find(site) { return this.command('find', site); }
  why(site) { return this.command('why', site); }
  room(site) { return this.command('room', site); }
  clashes(site) { return this.command('clashes', site); }
  sheet(site) { return this.command('sheet', site); }
  plan(site) { return this.command('plan', site); }
  check(site, plan) { return this.command('check', site, plan); }
  mend(site, plan) { return this.command('mend', site, plan); }
  diff(site, plan) { return this.command('diff', site, plan, [], plan); }
  spread(site, plan) { return this.command('show', site, plan, ['80', '2', '1']); }
  cells(site, plan) { return this.command('show', site, plan, ['80', '1', '1']); }
  picture(site, plan) { return this.command('picture', site, plan, ['1']); }
  tidy(sheet) { return this.command('tidy', sheet); }
  admit(site, flows, beside) { return this.command('admit', site, flows, beside ? ['1'] : []); }
  set(site, edits) { return this.command('set', site, null, edits.map(plain)); }

  made(sheet, slots, channels, blocked, rule) {
    const numbers = [number('slots', slots), number('channels', channels), number('rule', rule)];
    return this.command('site', sheet, null, blocked.trim() === '' ? numbers : [...numbers, plain(blocked.trim())]);
  }

  // A plan of a site's size in which no cell sends: that of the same site without loads.
  async empty(site, cells) {
    const edits = [];
    for (let i = 1; i <= cells; i++) edits.push('load', i + '=0');
    const idle = await this.set(site, edits);
    return (await this.plan({ name: site.name, bytes: idle.result })).result;
  }

  // The audit: a line, a mark and a line of the sheet for each name; FILES has the bytes by name.
  async audit(names, files, tries) {
    const said = await this.desk.run(['audit', '', '', tries, '1', ...names], {}, files);
    return { lines: text(said[1]), marks: said[5], sheet: text(said[7]), words: text(said[2]) };
  }
  async counts(marks) { return text((await this.desk.run(['counts'], { 0: marks }))[1]); }
  async heading() { return text((await this.desk.run(['heading'], {}))[1]); }
}
