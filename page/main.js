// Buttons, keys, dropping and pasting; what is given with the page; and saving.
let asks, pointer;

// act: what a button does, counted for whoever drives the page. What goes wrong in the page itself is said, and never passed over.
const acts = { begun: 0, done: 0 };
async function act(f) {
  acts.begun++;
  try { await f(); } catch (e) { note(e instanceof Wrong ? e.message : 'The page failed: ' + e.message); if (!(e instanceof Wrong)) throw e; } finally { acts.done++; }
}

function save(name, bytes, type) {
  const a = document.createElement('a');
  a.href = URL.createObjectURL(new Blob([bytes], { type }));
  a.download = name;
  a.click();
  setTimeout(() => URL.revokeObjectURL(a.href), 10000);
}

const base = () => state.site.name.replace(/.*\//, '').replace(/\.site$/, '');
const on = (id, event, f) => $(id).addEventListener(event, e => act(() => f(e)));
const opens = (id, heap) => on(id, 'change', async e => {
  const files = [...e.target.files];
  const wanted = heap ? files.filter(f => isOfAudit(f.name) && f.webkitRelativePath.split('/').length === 2) : files;
  const read = [];
  for (const f of wanted) read.push(await readFile(f, heap ? f.webkitRelativePath : f.name));
  e.target.value = '';
  await take(read, heap);
});

opens('open', false);
opens('openflows', false);
opens('folder', true);
on('paste', 'click', () => { $('pasting').hidden = false; $('pasted').focus(); });
on('nopaste', 'click', () => { $('pasting').hidden = true; hush(); });
on('noask', 'click', () => { $('asking').hidden = true; hush(); });
on('toaudit', 'click', backToAudit);
on('readpaste', 'click', () => takeText($('pasted').value));
on('askread', 'click', makeSite);
for (const id of ['askslots', 'askchannels', 'askblocked']) on(id, 'keydown', e => e.key === 'Enter' ? makeSite() : null);
on('print', 'click', () => print());
on('mend', 'click', mendIt);
on('leave', 'click', leavePlan);
on('back', 'click', () => goBack(false));
on('first', 'click', () => goBack(true));
on('beside', 'change', showFlows);
for (const id of ['roomy', 'celly']) on(id, 'toggle', () => state.site && showOpened());
for (const id of ['setcell', 'setfrom', 'setto']) on(id, 'change', showCell);
on('setload', 'change', () => edit('load', $('setcell').value + '=' + $('setload').value.trim()));
on('setreach', 'change', () => edit($('setreach').checked ? 'reach' : 'clear', $('setfrom').value + '-' + $('setto').value));
on('setslots', 'change', () => edit('slots', $('setslots').value.trim()));
on('setchannels', 'change', () => edit('channels', $('setchannels').value.trim()));
on('setblocked', 'change', () => edit('blocked', $('setblocked').value.trim() || 'none'));
on('setrule', 'change', () => edit('rule', $('setrule').value));
on('savesite', 'click', () => save(base() + '.site', state.site.bytes, 'application/octet-stream'));
on('savesheet', 'click', async () => save(base() + '.csv', (await asks.sheet(state.site)).result, 'text/csv'));
on('saveplan', 'click', () => save((state.plan ? state.plan.name : base() + '.plan').replace(/.*\//, ''), state.shown.bytes, 'application/octet-stream'));
on('savecsv', 'click', () => save(base() + '-plan.csv', state.spread, 'text/csv'));
on('savepicture', 'click', () => save(base() + '.svg', state.picture, 'image/svg+xml'));
on('saveaudit', 'click', () => save('audit.csv', bytesOf(state.audit.sheet), 'text/csv'));
$('note').querySelector('button').addEventListener('click', () => note(''));

// the whole page takes what is dropped or pasted
addEventListener('dragover', e => { e.preventDefault(); document.body.classList.add('over'); });
addEventListener('dragleave', e => { if (!e.relatedTarget) document.body.classList.remove('over'); });
addEventListener('drop', e => { e.preventDefault(); document.body.classList.remove('over'); act(() => dropped(e.dataTransfer)); });
addEventListener('paste', e => {
  if (e.target.closest && e.target.closest('input, textarea')) return;
  const words = e.clipboardData.getData('text/plain');
  if (words) { e.preventDefault(); act(() => takeText(words)); }
});
// Ctrl+Z is a step back, in the fields of What if too: there the browser's own would show a load that the site does not have. Where else one types it is the browser's.
addEventListener('keydown', e => {
  if (!(e.ctrlKey || e.metaKey) || e.shiftKey || e.key.toLowerCase() !== 'z' || !state.facts || e.target.closest('#pasting, #asking')) return;
  e.preventDefault();
  act(() => undo(e.target));
});
$('change').addEventListener('beforeinput', e => { if (e.inputType.startsWith('history')) e.preventDefault(); });

const fromBase64 = words => Uint8Array.from(atob(words), c => c.charCodeAt(0));

// What the command `page` put in: the names and the bytes of a site and of a plan, each in base64, a line each
async function takeGiven() {
  const lines = $('given').textContent.trim().split('\n').filter(l => l);
  const files = [];
  for (let k = 0; k + 1 < lines.length; k += 2) files.push({ name: text(fromBase64(lines[k])), bytes: fromBase64(lines[k + 1]) });
  if (files.length) await take(files);
}

const ready = (async () => {
  asks = new Asks(new Desk(await WebAssembly.compile(await theProgram())));
  pointer = new Pointer($('picture'), words => { $('point').textContent = words; });
  await act(takeGiven);
  document.documentElement.dataset.ready = 'yes';
})();
ready.catch(e => verdict('no', 'This browser can\'t run the page', 'A browser of 2023 or later is needed. ' + e.message));
