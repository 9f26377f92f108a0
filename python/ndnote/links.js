// Lines between the cell that has the focus, or is under the mouse, and cells that it reads from or that read from it.
const SPACE = 'http://www.w3.org/2000/svg', MOST_NAMES = 6, MOST_NAME = 30, MOST_LINES = 40, MOST_AT_EDGE = 6;
const linked = new Map();           // ids to what the server has told of their reads
const shape = (tag, fields, ...inner) => {
  const made = document.createElementNS(SPACE, tag);
  for (const [name, value] of Object.entries(fields)) made.setAttribute(name, value);
  made.append(...inner);
  return made;
};
const sheet = shape('svg', { class: 'links', 'aria-hidden': true });
document.body.append(sheet);

// What is not known any more is faint until it is told anew.
function tellLinks(links) {
  for (const [id, told] of Object.entries(links)) {
    if (told) linked.set(Number(id), told);
    else if (linked.has(Number(id))) linked.get(Number(id)).isOld = true;
  }
  for (const id of linked.keys()) if (!known.has(id)) linked.delete(id);
  drawSoon();
}

// The links of a cell: to the nearest that it reads from, and to those of the screen, or near, that read from it.
function linksOf(id) {
  const found = [];
  const add = (reader, end, [, names, isMemory]) => {
    if (!at(end)?.classList.contains('code')) return;
    const { isOld } = linked.get(reader);
    found.push({ end, isFrom: reader === id, isMemory, isOld, words: wordsOf(names, isMemory) });
  };
  for (const link of linked.get(id)?.cells.slice(-MOST_LINES) ?? []) add(id, link[0], link);
  for (const reader of onScreen) {
    const link = linked.get(reader)?.cells.find(link => link[0] === id);
    if (link) add(reader, reader, link);
  }
  return found;
}

function wordsOf(names, isMemory) {
  const more = names.length > MOST_NAMES ? [`and ${names.length - MOST_NAMES} more`] : [];
  const short = name => name.length > MOST_NAME ? name.slice(0, MOST_NAME - 1) + '…' : name;
  return [...names.slice(0, MOST_NAMES).map(short), ...more, ...isMemory ? ['through memory'] : []].join(', ');
}

// Where the box of a cell's source stands in the page; of a cell without one, or far from the screen, the cell.
function boxOf(section) {
  const source = onScreen.has(idOf(section)) && section.querySelector('.editor').getBoundingClientRect();
  const { right, top, bottom } = source && source.height ? source : section.getBoundingClientRect();
  return { right: right + scrollX, top: top + scrollY, bottom: bottom + scrollY };
}

// A label whose right end stands at a place.
function label(words, right, middle) {
  const text = shape('text', { x: right - 7, y: middle + 4, 'text-anchor': 'end' }, words);
  sheet.append(text);
  const wide = text.getComputedTextLength() + 14;
  return shape('g', {}, shape('rect', { x: right - wide, y: middle - 9, width: wide, height: 18, rx: 9 }), text);
}

// The place of a label: at the end of its line, or where that is not on the screen, at the edge where the line leaves;
// none where many stand there.
function placeOf(top, taken) {
  const first = scrollY + document.querySelector('header').offsetHeight + 14, last = scrollY + innerHeight - 14;
  const isAbove = top < first, isBelow = top > last;
  const arrow = isAbove ? '↑ ' : isBelow ? '↓ ' : '';
  if (arrow && taken.filter(other => other.arrow === arrow).length >= MOST_AT_EDGE) return null;
  let middle = isAbove ? first : isBelow ? last : top;
  while (taken.some(other => Math.abs(other.middle - middle) < 20)) middle += isBelow ? -20 : 20;
  taken.push({ middle, arrow });
  return { middle, arrow };
}

// The links, nearest first, each with the lane of its line beside the cells, and with where it begins: none cross.
function arranged(own, found) {
  const placed = found.map(one => ({ ...one, box: boxOf(at(one.end)) }));
  placed.sort((one, other) => one.box.top - other.box.top);
  const above = placed.filter(({ box }) => box.top < own.top).reverse(), below = placed.slice(above.length);
  const room = Math.max(1, document.documentElement.clientWidth - own.right - 14);
  const step = Math.min(7, room / Math.max(above.length, below.length));
  const high = (own.bottom - own.top) / (found.length + 1);
  const put = (one, lane, turn) => ({ ...one, x: own.right + 8 + step * lane, y: own.top + high * (turn + 1) });
  return [...above.map((one, lane) => put(one, lane, lane)),
    ...below.map((one, lane) => put(one, lane, found.length - 1 - lane))];
}

function drawLink(own, taken, { end, box, x, y, words, isFrom, isOld, isMemory }) {
  const right = box.right - 10, place = placeOf(box.top, taken);
  const side = place?.arrow && `M${x} ${place.middle}H${right}`;
  const begin = `${own.right} ${y}`, goal = `${right} ${box.top}`;
  const kind = ['link', isFrom ? 'from' : 'to', isMemory && 'memory', isOld && 'old'].filter(Boolean).join(' ');
  const group = shape('g', { class: kind, 'data-cell': end },
    shape('path', { d: `M${begin}H${x}V${box.top}H${right}` + (side ?? '') }),
    shape('path', { d: `M${isFrom ? begin : goal}l6 -4v8z`, class: 'head' }));
  sheet.append(group);
  if (place) group.append(label(place.arrow + words, right, place.middle));
}

// What is read beside the lines: inputs, and how many cells more.
function restOf({ cells, inputs }) {
  const more = cells.length - MOST_LINES;
  return more > 0 ? [...inputs, `${more} cell${more === 1 ? '' : 's'} more`] : inputs;
}

function drawRest(own, { isOld }, rest) {
  const group = shape('g', { class: 'link from' + (isOld ? ' old' : '') });
  sheet.append(group);
  group.append(label('reads ' + wordsOf(rest, false), own.right - 10, own.bottom));
}

function draw() {
  sheet.replaceChildren();
  if (!active?.isConnected || !active.classList.contains('code')) return;
  const id = idOf(active), own = boxOf(active), told = linked.get(id), rest = told ? restOf(told) : [], taken = [];
  const lines = arranged(own, linksOf(id));
  for (const line of lines) drawLink(own, taken, line);
  if (rest.length) drawRest(own, told, rest);
  describe(lines, rest);
}

const placeOfCell = id => [...main.querySelectorAll('.code')].indexOf(at(id));
const nameOf = id => at(id).querySelector(':scope > h3')?.textContent ?? `cell ${placeOfCell(id)}`;

// The same in words, for those who hear the page.
function describe(found, rest) {
  const reads = found.filter(one => one.isFrom).map(one => `${one.words} from ${nameOf(one.end)}`);
  const readers = found.filter(one => !one.isFrom).map(one => `${nameOf(one.end)} reads ${one.words}`);
  areaOf(active).ariaDescription = [[...reads, ...rest].map(one => `reads ${one}`), readers].flat().join('; ');
}

let active = null, waiting = 0;
function drawSoon() {
  waiting ||= requestAnimationFrame(() => { waiting = 0; draw(); });
}

function activate(section) {
  const next = section ?? main.querySelector('section:focus-within') ?? main.querySelector('section:hover');
  if (next !== active) { active = next; drawSoon(); }
}

for (const name of ['focusin', 'keydown', 'pointerover']) {
  main.addEventListener(name, event => activate(event.target.closest('section')));
}
for (const name of ['focusout', 'pointerleave']) {
  main.addEventListener(name, () => requestAnimationFrame(() => activate()));
}
new ResizeObserver(drawSoon).observe(main);
for (const name of ['scroll', 'resize']) addEventListener(name, () => active && drawSoon(), { passive: true });
