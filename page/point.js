// Pointing and going about in the picture. The bands of the slot map are the frames that the picture draws (class grid); a slot or a channel is an equal part of one.
class Pointer {
  constructor(box, say) {
    this.box = box;
    this.say = say;
    this.place = null;
    for (const event of ['pointermove', 'click']) box.addEventListener(event, e => this.over(e));
    box.addEventListener('keydown', e => this.key(e));
  }

  show(svg, facts) {
    this.svg = svg;
    this.facts = facts;
    this.place = null;
    this.bands = [...svg.querySelectorAll('.grid')].map(g => g.getAttribute('d').match(/^M(\d+) (\d+)h(\d+)v(\d+)/).slice(1).map(Number));
    // a cell of the range map is where its number stands
    this.spots = [...svg.querySelectorAll('.on, .off')].map(n => [Number(n.getAttribute('x')), Number(n.getAttribute('y')) - 9, 21]);
    this.mark = document.createElementNS('http://www.w3.org/2000/svg', 'path');
    this.mark.setAttribute('class', 'at');
    this.mark.setAttribute('visibility', 'hidden');
    svg.append(this.mark);
  }

  over(e) {
    if (!this.svg) return;
    const m = this.svg.getScreenCTM().inverse(), x = m.a * e.clientX + m.c * e.clientY + m.e, y = m.b * e.clientX + m.d * e.clientY + m.f;
    const spot = this.spots.findIndex(([cx, cy, r]) => Math.hypot(x - cx, y - cy) <= r + 4);
    if (spot >= 0) { this.go({ cell: spot + 1 }); return; }
    const band = this.bands.findIndex(([bx, by, w, h]) => x >= bx && x < bx + w && y >= by && y < by + h);
    if (band < 0) return;
    const [bx, by, w, h] = this.bands[band];
    this.go({ cell: band + 1, slot: 1 + Math.floor((x - bx) / w * this.facts.slots), channel: 1 + Math.floor((y - by) / h * this.facts.channels) });
  }

  key(e) {
    const steps = { ArrowLeft: [-1, 0], ArrowRight: [1, 0], ArrowUp: [0, -1], ArrowDown: [0, 1], PageUp: [0, -this.channels()], PageDown: [0, this.channels()], Home: [-999, 0], End: [999, 0] }[e.key];
    if (!steps || !this.svg || !this.bands.length) return;
    e.preventDefault();
    this.go(this.place ? this.next(...steps) : { cell: 1, slot: 1, channel: 1 });
    this.reveal(true);
  }

  // The cells of the range map stand above the first row of the slot map, as they are drawn: up from that row leads to them, and down from one of them to its band.
  next(across, down) {
    const f = this.facts, { cell, slot, channel } = this.place, within = (n, most) => Math.min(most, Math.max(1, n));
    if (!slot) return down > 0 ? { cell, slot: 1, channel: 1 } : { cell: within(cell + across, f.cells) };
    const row = (cell - 1) * f.channels + channel + down;
    if (row < 1) return { cell };
    const to = within(row, f.cells * f.channels) - 1;
    return { cell: Math.floor(to / f.channels) + 1, channel: to % f.channels + 1, slot: within(slot + across, f.slots) };
  }

  channels() { return this.facts ? this.facts.channels : 1; }

  // go PLACE: to a cell's slot and channel; or, where no slot is given, to the cell in the range map
  go(place) {
    this.place = place;
    this.mark.setAttribute('d', place.slot ? this.around(place) : this.aroundCell(place.cell));
    this.mark.setAttribute('visibility', 'visible');
    this.say(place.slot ? this.facts.at(place.cell, place.slot, place.channel) : this.facts.of(place.cell));
  }

  around({ cell, slot, channel }) {
    const [bx, by, w, h] = this.bands[cell - 1], sw = w / this.facts.slots, ch = h / this.facts.channels;
    return `M${bx + (slot - 1) * sw} ${by + (channel - 1) * ch}h${sw}v${ch}h-${sw}z`;
  }

  aroundCell(cell) {
    const [cx, cy, r] = this.spots[cell - 1], side = 2 * r + 14;
    return `M${cx - side / 2} ${cy - side / 2}h${side}v${side}h-${side}z`;
  }

  // Brings the mark into sight: where someone walks with the keys the page goes along, and otherwise only the picture's own box does.
  reveal(walks) {
    if (walks) { this.mark.scrollIntoView({ block: 'nearest', inline: 'nearest' }); this.clear(); return; }
    const m = this.mark.getBoundingClientRect(), b = this.box.getBoundingClientRect();
    if (m.left < b.left || m.right > b.right) this.box.scrollLeft += m.left - b.left - b.width / 2;
  }

  // a long answer lies over the picture, and is not to hide the mark
  clear() {
    const under = $('point').getBoundingClientRect().bottom - this.mark.getBoundingClientRect().top;
    if (under > 0) scrollBy(0, -under);
  }

  // rings around cells of the range map
  ring(cells) {
    for (const cell of cells) {
      const [cx, cy, r] = this.spots[cell - 1] || [];
      if (cx === undefined) continue;
      const ring = document.createElementNS('http://www.w3.org/2000/svg', 'circle');
      for (const [k, v] of Object.entries({ class: 'cause', cx, cy, r: r + 12 })) ring.setAttribute(k, v);
      this.svg.append(ring);
    }
  }
}
