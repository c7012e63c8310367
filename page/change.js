// What if: each change is a word or two of the command `set`, which the program judges; and the way back.
function remember() { state.past.push({ site: state.site, plan: state.plan, before: state.before, changes: state.changes }); }

async function goBack(all) {
  if (!state.past.length) return;
  const to = all ? state.past[0] : state.past.pop();
  if (all) state.past = [];
  Object.assign(state, to);
  // a plan that was opened after a change is a part of what was opened, where it goes with the site as that was
  if (all && state.opened && (await asks.diff(state.site, state.opened)).status === 0) state.plan = state.opened;
  hush();
  await refresh();
}

// what the site has, for the fields in which one types
const held = () => ({
  setload: String(state.facts.loads[$('setcell').value - 1]),
  setslots: String(state.facts.slots),
  setchannels: String(state.facts.channels),
  setblocked: ($('why').textContent.match(/^blocked: (.*)$/m) || ['', ''])[1],
});
const showHeld = () => { for (const [id, value] of Object.entries(held())) $(id).value = value; };

// Ctrl+Z takes back what was typed and not yet taken, and else a change.
async function undo(field) {
  if (field.id in held() && field.value !== held()[field.id]) showHeld();
  else await goBack(false);
}

// The form as the site is now.
function showChange() {
  const f = state.facts, one = $('setcell').value, from = $('setfrom').value, to = $('setto').value;
  for (const [id, old] of [['setcell', one], ['setfrom', from], ['setto', to || '2']]) {
    $(id).replaceChildren(...f.loads.map((_, i) => new Option(String(i + 1), String(i + 1))));
    $(id).value = old && Number(old) <= f.cells ? old : '1';
  }
  $('setrule').value = f.rule;
  showCell();
  $('back').disabled = $('first').disabled = !state.past.length;
}

function showCell() {
  const f = state.facts, from = Number($('setfrom').value), to = Number($('setto').value);
  showHeld();
  $('setreach').checked = from !== to && f.reaches(from, to);
  $('setreach').disabled = from === to;
}

const isSame = (a, b) => a.length === b.length && a.every((byte, i) => byte === b[i]);

// edit WORD..: makes it so, or says why not. A plan of another size does not go with the site any more. What changes nothing is no step, to go back: a browser also calls it a change when a
// field is left in which a change was taken back.
async function edit(...words) {
  hush();
  const said = await asks.set(state.site, words);
  if (said.status !== 0) { $('setsaid').textContent = said.words.trim(); showChange(); return; }
  if (isSame(said.result, state.site.bytes)) { showChange(); return; }
  const site = { name: state.site.name, bytes: said.result };
  remember();
  state.site = site;
  state.before = null;
  $('setsaid').textContent = words.join(' ');
  if (state.plan && (await asks.diff(site, state.plan)).status !== 0) {
    $('setsaid').textContent += '; ' + (await asks.diff(site, state.plan)).words.trim();
    state.plan = null;
  }
  await refresh();
}

async function mendIt() {
  hush();
  const said = await asks.mend(state.site, state.plan);
  if (said.status !== 0) { note(said.words.trim()); return; }
  remember();
  state.before = state.plan;
  state.plan = { name: state.plan.name.replace(/(\.plan)?$/, '-mended.plan'), bytes: said.result };
  state.changes = said.words;
  await refresh();
  $('mended').scrollIntoView({ block: 'nearest' });
}

async function leavePlan() {
  hush();
  remember();
  state.plan = state.before = null;
  await refresh();
}
