// What a file is, and what is done with it. The program tells the kinds apart: it reads the file as a site file, and its refusal says what the file is instead.
const KINDS = { site: 'site file', sheet: 'range sheet', plan: 'plan file', flows: 'sheet of flows' };
const isHeap = files => files.filter(f => f.kind === 'site').length > 1;

// What is named as a sheet, or has only letters in it and is not named as a site or a plan, is meant as a sheet: `tidy` says which line of it is wrong.
const isMeantAsSheet = ({ name, bytes }) => /\.(csv|tsv|tab|txt)$/i.test(name) || !/\.(site|plan)$/i.test(name) && !bytes.some(b => b < 32 && b !== 9 && b !== 10 && b !== 13);

async function kindOf(file) {
  const said = await asks.sheet(file);
  if (said.status === 0) return { ...file, kind: 'site' };
  const other = said.words.match(/ is a (plan file|range sheet|sheet of flows); a site file is asked for: /);
  if (other) return { ...file, kind: Object.keys(KINDS).find(k => KINDS[k] === other[1]), words: said.words };
  const tidied = await asks.tidy(file);
  if (tidied.status === 0) return { ...file, kind: 'sheet' };
  return { ...file, kind: 'none', words: (isMeantAsSheet(file) ? tidied : said).words };
}

// Only as much of a file is read as the program looks at.
const readFile = async (file, name) => ({ name: name || file.name, bytes: new Uint8Array(await file.slice(0, MOST).arrayBuffer()) });

// take FILES [, HEAP]: opens what was given, be it one file or several; a folder is a heap, and so are several sites. What comes back is a line for each file that was not taken.
async function take(given, heap) {
  hush();
  const files = [];
  if (!heap) for (const f of given) files.push(await kindOf(f));
  if (heap || isHeap(files)) return auditAll(heap ? given : files);
  const [site, sheet, plan, flows] = Object.keys(KINDS).map(kind => files.find(f => f.kind === kind));
  const bad = files.map(f => notTaken(f, { site, sheet: site || sheet, plan, flows }[f.kind])).filter(words => words);
  if (site) startWith({ name: site.name, bytes: site.bytes });
  else if (sheet) bad.push(...await askBeside(sheet));
  if (plan) bad.push(...await givePlan(plan));
  if (flows) bad.push(...await giveFlows(flows));
  note(few(bad));
  if (state.site && (site || plan || flows)) await refresh();
  if (!site && flows && state.flows === flows) $('flows').scrollIntoView({ block: 'nearest' });
  return bad;
}

// What is said of a file that is not taken, since it is none of the four kinds, or since INSTEAD is taken; of one that is taken, nothing.
function notTaken(file, instead) {
  if (file.kind === 'none') return file.words.trim();
  return file === instead ? '' : `${plain(file.name)} is a ${KINDS[file.kind]}: it is not opened, since ${plain(instead.name)} is`;
}

const few = lines => (lines.length > 20 ? [...lines.slice(0, 20), `and ${lines.length - 20} more`] : lines).join('\n');

// A plan goes with the site that is open. One of another size is refused, in the program's words. It is a step, to go back, only after another step: else it is a part of the opening.
async function givePlan(plan) {
  if (!state.site) return [plan.words.trim()];
  const said = await asks.diff(state.site, plan);
  if (said.status !== 0) return [said.words.trim()];
  if (state.past.length) remember();
  state.plan = state.opened = { name: plan.name, bytes: plan.bytes };
  state.before = null;
  return [];
}

// Flows too. What the program refuses leaves those that are there.
async function giveFlows(flows) {
  if (!state.site) return [flows.words.trim()];
  const said = await asks.admit(state.site, flows, false);
  if (said.status !== 0) return [said.words.trim()];
  state.flows = flows;
  return [];
}

function startWith(site) {
  Object.assign(state, { site, plan: null, before: null, flows: null, past: [], opened: null });
  $('asking').hidden = $('pasting').hidden = $('audit').hidden = true;
}

// A range sheet has neither slots nor channels, nor what is blocked, nor the rule. It is tidied first, and the program says what it changed.
async function askBeside(sheet) {
  const tidied = await asks.tidy(sheet);
  if (tidied.status !== 0) return [tidied.words.trim()];
  state.sheet = { name: sheet.name, bytes: tidied.result };
  $('askhint').textContent = plain(sheet.name) + ': ' + tidied.words.trim().split('\n').join('; ');
  $('asking').hidden = false;
  $('pasting').hidden = true;
  $('askslots').focus();
  $('askslots').select();
  return [];
}

async function makeSite() {
  hush();
  const said = await asks.made(state.sheet, $('askslots').value, $('askchannels').value, $('askblocked').value, $('askrule').value);
  // the command calls the field by its option, which nobody typed here
  if (said.status !== 0) { note(said.words.trim().replace(/^--(?=blocked: )/, '')); return; }
  startWith({ name: state.sheet.name.replace(/(\.sheet)?\.(csv|txt)$/i, '') + '.site', bytes: said.result });
  note(said.words.trim());
  await refresh();
}

// What is dropped: files, or folders, of each of which the files in it count. Browsers have two ways into a folder, and a page that was opened from a file has in some only the
// first. All is asked for at once, since what was dropped is gone after the first wait.
async function dropped(transfer) {
  const items = [...transfer.items].filter(i => i.kind === 'file');
  if (!items.length) { const words = transfer.getData('text/plain'); if (words) await takeText(words); return; }
  const got = items.map(i => ({ file: i.getAsFile(), entry: i.webkitGetAsEntry ? i.webkitGetAsEntry() : null, handle: i.getAsFileSystemHandle ? i.getAsFileSystemHandle().catch(() => null) : null }));
  const files = [];
  let heap = false;
  for (const { file, entry, handle } of got) {
    if (entry && entry.isDirectory) { heap = true; files.push(...await inFolder(entry, await handle)); } else if (file) files.push(await readFile(file));
  }
  await take(files, heap);
}

const isOfAudit = name => /\.(site|plan)$/i.test(name);

async function inFolder(entry, handle) {
  const files = [];
  if (handle) {
    for await (const [name, h] of handle.entries()) if (h.kind === 'file' && isOfAudit(name)) files.push(await readFile(await h.getFile(), entry.name + '/' + name));
    return files;
  }
  const reader = entry.createReader();
  for (;;) {
    const some = await new Promise((y, n) => reader.readEntries(y, n)).catch(() => { throw new Wrong('this browser does not let a page into a dropped folder: take the button Folder'); });
    if (!some.length) return files;
    for (const e of some) if (e.isFile && isOfAudit(e.name)) files.push(await readFile(await new Promise((y, n) => e.file(y, n)), entry.name + '/' + e.name));
  }
}

// A pasted sheet of flows: a spreadsheet parts its fields with tabs, and a field of a page keeps no CR. Separators are made commas and line ends CR LF, and nothing else. A line with a comma
// among other separators stays as it is, and the program refuses it: 1,5 may be one number.
function asFlows(words) {
  const head = words.match(/^cell([,;\t])burst\1period\1repeats\1value(?=[\r\n]|$)/);
  if (!head) return words;
  const lines = words.split(/\r\n|\n|\r/);
  if (lines.at(-1) === '') lines.pop();
  return lines.map(l => (l.includes(',') ? l : l.replaceAll(head[1], ',')) + '\r\n').join('');
}

async function takeText(words) {
  const sheet = asFlows(words), made = sheet === words ? '' : ': its fields are parted by commas now, and its lines end in CR LF';
  const bad = await take([{ name: 'pasted.csv', bytes: bytesOf(sheet.slice(0, MOST)), made }]);
  if (bad.length) return;
  $('pasting').hidden = true;
  $('pasted').value = '';
}
