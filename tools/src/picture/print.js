// For print the picture is cut into strips of steps, each with its own names
// and steps, and each on one page.

// Room inside the margins of a page of A4 or letter size: landscape if that is
// high enough, otherwise portrait.
const sheets = [{ size: 'landscape', width: 970, height: 690 }, { size: 'portrait', width: 700, height: 950 }];
// At least this much to the right of the last column.
const margin = 10;

// Returns the part between two verticals, as large as the page allows. Lines
// are cut at the edges, words are not.
function cut(svg, all, from, to, scale) {
  const [height, made] = [+svg.dataset.height, svg.cloneNode(false)];
  const box = { viewBox: `${from} 0 ${to - from} ${height}` };
  for (const key in box) made.setAttribute(key, box[key]);
  made.setAttribute('width', (to - from) * scale);
  made.setAttribute('height', height * scale);
  const lines = element('svg', { ...box, x: from, width: to - from, height }, made);
  for (const { element, left, right, texts } of all.filter(one => one.right >= from && one.left <= to)) {
    const copy = element.cloneNode(true);
    const cut = svg === lanes && (left < from || right > to) && settled(copy, texts, from, to);
    (copy.querySelector('.ground') && !cut ? made : lines).append(copy);
  }
  if (svg === lanes) nameAgain(made, all, from, to);
  return made;
}

// Returns how many columns a strip has: as many as fit, but no more than make
// all strips alike. The last strip needs room for what is to its right, too.
function columnsOfStrip(room, beside) {
  const [count, most] = [lines.length, Math.max(1, Math.floor((room - margin) / column))];
  const strips = columns => Math.ceil(count / columns);
  const fits = columns => (count - (strips(columns) - 1) * columns) * column + beside <= room;
  const columns = [...Array(most).keys()].map(less => most - less).find(fits) ?? most;
  const alike = Math.ceil(count / strips(columns));
  return fits(alike) ? alike : columns;
}

// Returns the verticals at which the strips begin and end.
function edges(room) {
  const [wide, all] = [+lanes.dataset.width, lines.length * column];
  const step = columnsOfStrip(room, wide - all) * column;
  const edges = [];
  for (let from = 0; from < all; from += step) edges.push([from, Math.min(from + step, all)]);
  const last = edges.pop() ?? [0, 0];
  const fits = wide - last[0] <= room;
  return [...edges, ...(fits ? [[last[0], wide]] : [last, [all, wide]])];
}

function strips() {
  const high = +header.dataset.height + +lanes.dataset.height;
  const paper = sheets.find(({ height }) => high <= height) ?? sheets[1];
  get('sheet').textContent = `@page { size: ${paper.size}; }`;
  const scale = Math.min(1, paper.height / high);
  const wide = +names.dataset.width;
  const parts = new Map([corner, header, names, lanes].map(svg => [svg, reaches(svg)]));
  const all = edges(paper.width / scale - wide);
  settle(parts.get(lanes), all);
  return all.map(([from, to]) => {
    const strip = document.createElement('div');
    strip.className = 'strip';
    strip.style.gridTemplateColumns = `${wide * scale}px ${(to - from) * scale}px`;
    const [left, right] = [[0, wide], [from, to]];
    const pieces = [[corner, left], [header, right], [names, left], [lanes, right]];
    strip.append(...pieces.map(([svg, [from, to]]) => cut(svg, parts.get(svg), from, to, scale)));
    return strip;
  });
}

// What the screen showed, to restore it.
let screen = null;
function toPaper() {
  if (screen) return;
  const entries = [get('signs'), ...joins];
  screen = { zoom, wordsOnTop, open: entries.map(entry => [entry, entry.open]) };
  wordsOnTop = true;
  setZoom(full());
  for (const entry of entries) entry.open = true;
  get('paper').replaceChildren(...strips());
}

function toScreen() {
  if (!screen) return;
  get('paper').replaceChildren();
  for (const [entry, open] of screen.open) entry.open = open;
  wordsOnTop = screen.wordsOnTop;
  setZoom(screen.zoom);
  screen = null;
}
