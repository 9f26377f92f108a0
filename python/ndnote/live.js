// What only a live page does: sources are edited, and what the server tells is shown.
const main = document.querySelector('main'), state = document.getElementById('state');
const known = new Map();            // ids to the source that the server has
const make = (tag, fields) => Object.assign(document.createElement(tag), fields);
const idOf = section => Number(section.id.slice(1));
const at = id => document.getElementById('c' + id);
const areaOf = section => section.querySelector('.editor textarea');
const isText = section => section.classList.contains('text');

async function ask(body) {
  try {
    const headers = { 'Content-Type': 'application/json' };
    const answer = await fetch('do', { method: 'POST', headers, body: JSON.stringify(body) });
    return answer.ok ? '' : await answer.text() || answer.statusText;
  } catch { return 'The server does not answer: nothing was saved.'; }
}

// What a tool of a cell asks for; why it could not be done stands in the head of the page.
async function request(body) {
  const wrong = await ask(body);
  if (wrong) { state.className = 'bad'; state.textContent = wrong; }
}

function typed(section) {
  const area = areaOf(section), pre = area.previousSibling, text = area.value + '\n';
  if (isText(section)) pre.textContent = text; else colour(pre, text);
  section.classList.toggle('dirty', area.value.trimEnd() !== known.get(idOf(section)).trimEnd());
}

// Hands a source to the server. What was changed elsewhere meanwhile is not overwritten without a word.
async function commit(section, { isForced = false, isMine = false } = {}) {
  const id = idOf(section), source = areaOf(section).value.trimEnd(), was = known.get(id);
  const isHeld = section.querySelector('.conflict') && !isMine && !isForced;
  if (was === undefined || isHeld || !isForced && source === was.trimEnd()) return;
  const wrong = await ask({ op: 'edit', id, was, source });
  if (!known.has(id)) return;
  if (wrong) return disagree(section, wrong);
  section.querySelector('.conflict')?.remove();
  known.set(id, source);
  typed(section);
}

function disagree(section, wrong) {
  section.querySelector('.conflict')?.remove();
  const bar = make('div', { className: 'conflict', textContent: wrong });
  const take = () => { areaOf(section).value = known.get(idOf(section)); bar.remove(); typed(section); };
  bar.append(
    make('button', { textContent: 'Keep mine', onclick: () => commit(section, { isForced: true, isMine: true }) }),
    make('button', { textContent: 'Take theirs', onclick: take }));
  section.querySelector('.editor').after(bar);
}

// With the caret on a number, Alt and an arrow key change it, and the book follows at once.
function stepped(area, by) {
  const text = area.value, caret = area.selectionStart;
  for (const match of text.matchAll(/(?<![\w.])\d+(?![\w.])/g)) {
    const end = match.index + match[0].length;
    if (match.index > caret || end < caret) continue;
    const next = BigInt(match[0]) + BigInt(by);
    area.setRangeText(String(next < 0n ? 0n : next), match.index, end, 'preserve');
    area.selectionStart = area.selectionEnd = match.index;
    return true;
  }
}

function pressed(event) {
  const area = event.target, section = area.closest('section'), key = event.key;
  const arrow = { ArrowUp: 1, ArrowDown: -1 }[key];
  if (key === 'Enter' && (event.shiftKey || event.ctrlKey || event.metaKey)) {
    commit(section, { isForced: true });
    if (event.shiftKey) (section.nextElementSibling && areaOf(section.nextElementSibling))?.focus();
  } else if (key === 'Escape') area.blur();
  else if (key === 'Tab' && !event.shiftKey) {
    area.setRangeText('    ', area.selectionStart, area.selectionEnd, 'end');
    typed(section);
  } else if (arrow && event.altKey && stepped(area, arrow * (event.shiftKey ? 10 : 1))) {
    typed(section);
    commit(section);
  } else return;
  event.preventDefault();
}

let wantsFocus = false;
function insert(id, kind) {
  wantsFocus = true;
  return request({ op: 'insert', id, kind });
}

function retitle(section) {
  const title = prompt('Title', section.querySelector('h3')?.textContent ?? '');
  if (title !== null) request({ op: 'title', id: idOf(section), title });
}

function tools(section) {
  const id = idOf(section), bar = make('div', { className: 'tools' });
  const tool = (textContent, title, onclick) =>
    bar.append(make('button', { textContent, title, ariaLabel: title, onclick }));
  if (!isText(section)) tool('▶', 'Run (Ctrl Enter)', () => commit(section, { isForced: true }));
  tool('↑', 'Move up', () => request({ op: 'move', id, by: -1 }));
  tool('↓', 'Move down', () => request({ op: 'move', id, by: 1 }));
  tool('+', 'A cell below', () => insert(id, 'code'));
  tool('¶', 'A text below', () => insert(id, 'text'));
  tool('✎', 'Title', () => retitle(section));
  tool('×', 'Remove', () => request({ op: 'remove', id }));
  return bar;
}

function mount(section) {
  const old = section.querySelector('pre.source'), editor = make('div', { className: 'editor' });
  known.set(idOf(section), old.textContent);
  const area = make('textarea', {
    value: old.textContent, spellcheck: false, ariaLabel: isText(section) ? 'Text' : 'Source',
    oninput: () => typed(section), onkeydown: pressed, onblur: () => commit(section),
  });
  editor.append(make('pre', { ariaHidden: 'true' }), area);
  old.replaceWith(editor);
  section.append(tools(section));
  if (isText(section)) section.querySelector('.out').onclick = event => event.target.closest('a') || area.focus();
  seen.observe(section);
  typed(section);
}

let flashing = [];
function sectionOf(id, kind, source) {
  let section = at(id);
  if (section && !section.classList.contains(kind)) { section.remove(); section = null; }
  if (!section) {
    section = make('section', { className: kind, id: 'c' + id });
    section.append(make('pre', { className: 'source', textContent: source }), make('div', { className: 'out' }));
    main.append(section);
    mount(section);
  }
  return section;
}

function updateSource(section, source) {
  const id = idOf(section), area = areaOf(section);
  if (known.get(id) === source) return;
  known.set(id, source);
  if (!section.classList.contains('dirty')) {
    const caret = area.selectionStart;
    area.value = source;
    area.selectionStart = area.selectionEnd = caret;
  } else if (area.value.trimEnd() !== source) disagree(section, 'This cell was changed elsewhere as well.');
  typed(section);
}

function update(id, cell) {
  const section = sectionOf(id, cell.kind, cell.source);
  let title = section.querySelector(':scope > h3');
  if (!title && cell.title) section.prepend(title = make('h3'));
  if (title) cell.title ? title.textContent = cell.title : title.remove();
  updateSource(section, cell.source);
  section.classList.toggle('pending', cell.pending);
  if (cell.out !== null) section.querySelector('.out').innerHTML = cell.out;
  if (cell.flash && cell.kind === 'code' && onScreen.has(id)) flashing.push(section);
}

function flash() {
  for (const section of flashing) section.classList.remove('flash');
  if (flashing.length) void main.offsetWidth;
  for (const section of flashing) section.classList.add('flash');
  flashing = [];
}

// The cell that runs now, where the program tells it, bears a mark.
function markRunning(id) {
  const now = id === null ? null : at(id);
  for (const section of main.querySelectorAll('.running')) if (section !== now) section.classList.remove('running');
  now?.classList.add('running');
}

let ticking = 0, done = [0, 0];
function tellRunning() {
  const began = performance.now(), time = make('span');
  const stop = make('button', { textContent: 'Stop', onclick: () => request({ op: 'stop' }) });
  ticking = setInterval(() => {
    const seconds = (performance.now() - began) / 1000;
    if (seconds < .25) return;
    if (!time.parentNode) { state.className = 'busy'; state.replaceChildren(time, stop); }
    const title = main.querySelector('.running > h3')?.textContent;
    const what = done[0] < done[1] ? `${done[0]} of ${done[1]} cells` : 'running';
    time.textContent = [what, title, `${seconds.toFixed(1)} s`].filter(Boolean).join(' · ');
  }, 100);
}

const counted = (count, word) => `${count} ${word}${count === 1 ? '' : 's'}`;

function sayDone({ ms, count, ran }) {
  const cells = ran === null ? '' : `${counted(ran, 'cell')} ran`;
  const time = `${ms < 10 ? ms.toFixed(1) : Math.round(ms)} ms`;
  return [`${counted(count, 'output')} changed`, cells, time].filter(Boolean).join(' · ');
}

function tellState(told) {
  const { word, ended, text, problem } = told;
  clearInterval(ticking);
  if (word === 'running' || word === 'starting') return tellRunning();
  const said = word === 'fault' ? text : sayDone(told);
  const end = ended && `The program ${ended} and was started again with the same cells`;
  state.className = word === 'fault' || ended || problem ? 'bad' : '';
  state.textContent = [end, said, problem].filter(Boolean).join(' · ');
}

// Puts the sections in order, and takes out those of cells that are gone.
function arrange(order) {
  const present = new Set(order);
  for (const section of [...main.children]) {
    if (present.has(idOf(section))) continue;
    known.delete(idOf(section));
    onScreen.delete(idOf(section));
    section.remove();
  }
  order.forEach((id, place) => {
    const section = at(id);
    if (section && main.children[place] !== section) main.insertBefore(section, main.children[place]);
  });
}

let toldBefore = '';
function show({ rev, order, cells, links, state: told, done: now, running }) {
  done = now;
  for (const [id, cell] of Object.entries(cells)) update(Number(id), cell);
  flash();
  arrange(order);
  tellLinks(links);
  markRunning(running);
  if (wantsFocus) {
    const fresh = Object.keys(cells).map(id => at(id)).find(section => section && areaOf(section).value === '');
    if (fresh) { areaOf(fresh).focus(); wantsFocus = false; }
  }
  if (JSON.stringify(told) !== toldBefore) tellState(told);
  toldBefore = JSON.stringify(told);
  document.body.dataset.rev = rev;
}

// Only what is on the screen, or near, is looked at beside its texts.
const onScreen = new Set();
let telling = 0;
const seen = new IntersectionObserver(entries => {
  for (const entry of entries) {
    const id = idOf(entry.target);
    entry.isIntersecting ? onScreen.add(id) : onScreen.delete(id);
  }
  clearTimeout(telling);
  telling = setTimeout(() => ask({ op: 'look', ids: [...onScreen] }), 60);
}, { rootMargin: '800px 0px' });

document.querySelectorAll('section').forEach(mount);
document.querySelector('header').append(make('button', {
  textContent: '+ Cell', title: 'A cell at the end',
  onclick: () => insert(main.lastElementChild ? idOf(main.lastElementChild) : null, 'code'),
}));
const events = new EventSource('events?rev=' + document.body.dataset.rev);
events.onmessage = event => show(JSON.parse(event.data));
events.onerror = () => {
  clearInterval(ticking);
  toldBefore = '';
  state.className = 'bad';
  state.textContent = 'The server does not answer.';
};
addEventListener('beforeunload', event => { if (document.querySelector('.dirty')) event.preventDefault(); });
