// What the program says of a site and a plan, taken apart for pointing: its range sheet, its list of clashes, its sheet of the plan. Nothing is worked out here but who of those that
// send at a place clash with a cell. Where the site is not planned the sheet of the plan is that of an empty one, and PLANNED is false.
class Facts {
  constructor(sheet, clashes, spread, planned) {
    this.planned = planned;
    const lines = sheet.split('\r\n').slice(1, -1).map(l => l.split(',').map(Number));
    this.cells = lines.length;
    this.loads = lines.map(l => l[1]);
    this.marks = lines.map(l => l.slice(2));
    this.clash = new Map();
    for (const line of clashes.split('\n')) {
      const m = line.match(/^(\d+) and (\d+) clash: (.*)$/);
      if (m) { this.clash.set(m[1] + ' ' + m[2], line); this.clash.set(m[2] + ' ' + m[1], line); }
    }
    const rule = clashes.match(/, rule (\d+)\n?$/);
    this.rule = rule ? Number(rule[1]) : 1;
    this.places = new Map();
    this.slots = this.channels = 0;
    for (const line of spread.split('\r\n').slice(1, -1)) {
      const [slot, channel, cells, marks] = line.split(',');
      this.slots = Math.max(this.slots, slot);
      this.channels = Math.max(this.channels, channel);
      this.places.set(slot + '.' + channel, { cells: cells === '' ? [] : cells.split('+').map(Number), blocked: marks.includes('blocked'), clash: marks.includes('clash') });
    }
  }

  reaches(a, b) { return this.marks[a - 1][b - 1] === 1; }

  // the sentence for one place of one cell's band
  at(cell, slot, channel) {
    const place = this.places.get(slot + '.' + channel), who = place.cells.filter(c => c !== cell);
    const said = [`Slot ${slot}, channel ${channel}, cell ${cell}:`];
    if (!this.planned) return said.concat(place.blocked ? 'blocked.' : 'open.', 'There is no plan.').join(' ');
    const against = who.filter(c => this.clash.has(cell + ' ' + c));
    if (place.cells.includes(cell)) said.push(place.blocked ? 'sends, and this place is blocked.' : against.length ? 'sends, and clashes.' : 'sends.');
    else if (place.blocked) said.push('blocked.');
    else said.push(against.length ? 'keeps clear.' : 'silent.');
    for (const c of against) said.push(this.clash.get(cell + ' ' + c) + '.');
    said.push(place.cells.length ? `Sending here: ${place.cells.join(', ')}.` : 'Nobody sends here.');
    return said.join(' ');
  }

  // the sentence for a cell of the range map
  of(cell) {
    const lines = [...new Set([...this.clash].filter(([k]) => k.startsWith(cell + ' ')).map(([, line]) => line))];
    const load = this.loads[cell - 1];
    return `Cell ${cell}: ${load === 0 ? 'no load' : 'load ' + load}. ` + (lines.length ? lines.join('. ') + '.' : 'It clashes with no cell.');
  }

  // where the words of a check point: at the place of a blocked sending or of a clash, and a cell that sends there; at a cell alone where its number of sendings is wrong
  static wrongIn(words) {
    const at = words.match(/\bcells? (\d+) .*\bsends? in slot (\d+), channel (\d+)/);
    if (at) return { cell: Number(at[1]), slot: Number(at[2]), channel: Number(at[3]) };
    const count = words.match(/\bcell (\d+) sends \d+ times? in a superframe/);
    return count && { cell: Number(count[1]) };
  }
}
