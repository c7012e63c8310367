// What is shown. Text from files and from the program is put in as text, never as HTML; the picture alone is markup, and it comes from the program.
const $ = id => document.getElementById(id);
const state = { site: null, plan: null, before: null, changes: '', flows: null, past: [], opened: null, shown: null, facts: null, audit: null };
let turn = 0;

function note(words) {
  $('note').hidden = words === '';
  $('note').querySelector('pre').textContent = words;
  if (words !== '') $('note').scrollIntoView({ block: 'nearest' });
}

// What was said of what is no longer so.
function hush() {
  note('');
  $('setsaid').textContent = '';
}

const SIGNS = { yes: '✓', anew: '⇄', no: '✗', maybe: '?' };
function verdict(kind, headline, subline) {
  const box = $('verdict');
  box.className = kind;
  box.querySelector('.sign').textContent = SIGNS[kind] || '';
  $('headline').textContent = headline;
  $('subline').textContent = subline;
}

const kindOfFind = said => said.status === 3 ? 'maybe' : said.status !== 0 ? 'no' : said.words.startsWith('planned with the cells renumbered') ? 'anew' : 'yes';
const firstLine = words => words.split('\n')[0];
const saidBy = said => said.words || text(said.result);

// The picture, a part of the page, as the program wrote it.
function draw(box, bytes) {
  box.innerHTML = text(bytes);
  return box.firstElementChild;
}

// refresh: asks the program anew, and shows all that it says. Where a later one has begun, this one is dropped.
async function refresh() {
  const mine = ++turn, { site, plan } = state, began = performance.now();
  const find = await asks.find(site), why = await asks.why(site), sheet = await asks.sheet(site), clashes = await asks.clashes(site);
  const check = plan ? await asks.check(site, plan) : null;
  const cells = text(sheet.result).split('\r\n').length - 2;
  const shown = plan || { name: site.name.replace(/\.site$/, '') + '.plan', bytes: find.status === 0 ? find.result : await asks.empty(site, cells) };
  const spread = await asks.spread(site, shown), picture = await asks.picture(site, shown);
  const before = state.before ? await asks.picture(site, state.before) : null;
  if (mine !== turn) return;
  const planned = plan !== null || find.status === 0;
  Object.assign(state, { shown, find, facts: new Facts(text(sheet.result), text(clashes.result), text(spread.result), planned), picture: picture.result, spread: spread.result });
  $('site').hidden = false;
  $('print').disabled = false;
  $('toaudit').hidden = !state.audit;
  $('where').textContent = plain(site.name);
  document.title = plain(site.name) + ' - Duggfrask';
  if (check) verdict(check.status === 0 ? 'yes' : 'no', plain(plan.name) + ': ' + firstLine(saidBy(check)), 'The site: ' + firstLine(find.words));
  else verdict(kindOfFind(find), firstLine(find.words), plain(site.name));
  $('planname').textContent = plan ? 'The plan ' + plain(plan.name) : find.status === 0 ? 'Its plan' : 'No plan';
  $('mend').hidden = !check || check.status === 0;
  $('leave').hidden = !plan;
  $('why').textContent = text(why.result);
  $('clashes').textContent = text(clashes.result);
  $('saveplan').disabled = $('savecsv').disabled = $('celly').hidden = !planned;
  $('mended').hidden = !before;
  if (before) { draw($('before'), before.result); $('changes').textContent = state.changes; }
  pointer.show(draw($('picture'), picture.result), state.facts);
  const cause = !plan && find.words.match(/^full \(cells? ([0-9, ]+)\)/);
  if (cause) pointer.ring(cause[1].split(', ').map(Number));
  const wrong = check && check.status !== 0 ? Facts.wrongIn(saidBy(check)) : null;
  if (wrong) { pointer.go(wrong); pointer.reveal(false); } else $('point').textContent = 'Point at a slot or a cell, or go there with the arrow keys: the cells stand above the first row.';
  showChange();
  await showOpened();
  await showFlows();
  state.took = performance.now() - began;
}

// What stands folded up is asked when it is opened.
async function showOpened() {
  const { site, shown } = state;
  if ($('roomy').open) $('room').textContent = text((await asks.room(site)).result);
  if ($('celly').open) $('cells').textContent = text((await asks.cells(site, shown)).result);
}

async function showFlows() {
  if (!state.flows) { $('admitted').textContent = ''; return; }
  const said = await asks.admit(state.site, state.flows, $('beside').checked);
  $('admitted').textContent = plain(state.flows.name) + (state.flows.made || '') + '\n' + text(said.result) + said.words;
}
