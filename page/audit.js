// The audit of a folder: the program's line for each site file, sorted by what is wrong. It opens the files itself, those that are given here.
const SLICE = 25;   // files at a time, so that the page stays awake
const SIGNED = { bad: '✗', maybe: '?', fine: '✓' };
// by the program's mark of a file: its two lowest bits say what it found for the site, and the others what it says of the plan beside it; they are what its last lines count
const FOUND = ['planned', 'full', 'not known', 'refused'];
const BESIDE = ['', 'plan valid', 'plan not valid', 'plan not valid', 'plan refused'];

// What is wrong comes first: a site refused, a plan refused, one not valid, a full site, one that is not known.
function rankOf(mark) {
  const site = mark % 4, plan = mark >> 2;
  if (site === 3) return 0;
  if (plan > 1) return plan === 4 ? 1 : 2;
  return site === 1 ? 3 : site === 2 ? 4 : plan === 0 ? 5 : 6;
}
const kindOfRank = rank => rank < 4 ? 'bad' : rank < 5 ? 'maybe' : 'fine';
const labelOf = mark => [FOUND[mark % 4], BESIDE[mark >> 2]].filter(w => w).join(', ');

const inOrder = (a, b) => { const x = bytesOf(a), y = bytesOf(b); for (let i = 0; i < x.length && i < y.length; i++) if (x[i] !== y[i]) return x[i] - y[i]; return x.length - y.length; };
const planOf = name => name.replace(/\.site$/, '') + '.plan';

// The names of the site files: those that end in .site, and of files that were given one by one also those that are site files under another name, but for one that stands as the plan
// beside a site.
function auditedIn(given) {
  const sites = given.filter(f => f.name.endsWith('.site')).map(f => plain(f.name)), plans = new Set(sites.map(planOf));
  const others = given.filter(f => f.kind === 'site').map(f => plain(f.name)).filter(n => !plans.has(n));
  return [...new Set([...sites, ...others])].sort(inOrder);
}

// auditAll FILES: what comes back is a line for each file that is not in it
async function auditAll(given) {
  const files = new Map(given.map(f => [plain(f.name), f.bytes]));
  const names = auditedIn(given);
  if (!names.length) { note('audit: there is no file that ends in .site'); return []; }
  if (names.length > 65536) { note(`audit: these are ${names.length} site files, and the most is 65,536; audit a part of them at a time`); return []; }
  const mine = ++turn, rows = [], marks = [];
  let sheets = await asks.heading();
  putAway();
  for (let k = 0; k < names.length; k += SLICE) {
    verdict('', `${k} of ${names.length} files`, '');
    await new Promise(y => setTimeout(y));
    const some = names.slice(k, k + SLICE), said = await asks.audit(some, files, '1000000');
    // where another file was opened meanwhile, the audit is dropped
    if (mine !== turn) return [];
    const lines = said.lines.split('\n').slice(0, -1);
    some.forEach((name, i) => rows.push({ name, line: lines[i], mark: said.marks[i], rank: rankOf(said.marks[i]), bytes: files.get(name) }));
    marks.push(said.marks);
    sheets += said.sheet;
  }
  rows.sort((a, b) => a.rank - b.rank || inOrder(a.name, b.name));
  state.audit = { sheet: sheets, counts: (await asks.counts(Desk.join(marks))).trim().split('\n'), kind: kindOfRank(rows[0].rank), many: rows.length };
  tableOf(rows, files);
  showAudit();
  const left = notAudited(given, new Set(names));
  note(few(left));
  return left;
}

function notAudited(given, names) {
  const plans = new Set([...names].filter(n => n.endsWith('.site')).map(planOf)), seen = new Set(), left = [];
  for (const name of given.map(f => plain(f.name))) {
    if (seen.has(name)) left.push(`${name} was given twice: one of the two is in the audit`);
    else if (!names.has(name) && !plans.has(name)) left.push(name + ' is not in the audit: ' + (name.endsWith('.plan') ? `there is no ${name.replace(/plan$/, 'site')}` : 'its name does not end in .site'));
    seen.add(name);
  }
  return left;
}

// An audit takes the place of the site that was open, so that nothing on the page is half of the one and half of the other.
function putAway() {
  Object.assign(state, { site: null, plan: null, before: null, flows: null, past: [], opened: null, facts: null });
  $('site').hidden = $('asking').hidden = $('pasting').hidden = $('audit').hidden = $('toaudit').hidden = true;
  $('where').textContent = 'Audit';
}

function showAudit() {
  const { counts, kind, many } = state.audit;
  $('audit').hidden = false;
  $('print').disabled = false;
  $('where').textContent = `Audit of ${many} site file${many === 1 ? '' : 's'}`;
  document.title = 'Audit - Duggfrask';
  $('counts').textContent = counts.join('; ');
  verdict({ bad: 'no', maybe: 'maybe', fine: 'yes' }[kind], counts[0], counts.slice(1).join('; '));
}

function backToAudit() {
  turn++;
  hush();
  putAway();
  showAudit();
  (state.audit.from || $('verdict')).focus();
}

// A row's site opens with the file beside it as its plan, whatever that is: where the program refuses it the site opens alone, and what the program says is said.
async function openRow(row, files, button) {
  hush();
  const site = await kindOf({ name: row.name, bytes: row.bytes }), plan = planOf(row.name);
  if (site.kind !== 'site') { note(site.words.trim()); return; }
  startWith({ name: site.name, bytes: site.bytes });
  state.audit.from = button;
  if (row.mark >> 2) note(few(await givePlan({ name: plan, bytes: files.get(plan) })));
  await refresh();
  scrollTo(0, 0);
  $('verdict').focus({ preventScroll: true });
}

function tableOf(rows, files) {
  const cell = (tag, ...inside) => { const c = document.createElement(tag); c.append(...inside); return c; };
  const line = (tag, ...cells) => { const r = document.createElement('tr'); r.append(...cells.map(c => cell(tag, c))); return r; };
  const table = $('audit').querySelector('table');
  table.tHead.replaceChildren(line('th', 'What', 'Site file', 'What is said of it'));
  table.tBodies[0].replaceChildren(...rows.map(r => {
    const open = document.createElement('button');
    open.textContent = r.name;
    open.addEventListener('click', () => act(() => openRow(r, files, open)));
    const kind = kindOfRank(r.rank), tr = line('td', SIGNED[kind] + ' ' + labelOf(r.mark), open, r.line.startsWith(r.name + ': ') ? r.line.slice(r.name.length + 2) : r.line);
    tr.className = kind;
    return tr;
  }));
}
