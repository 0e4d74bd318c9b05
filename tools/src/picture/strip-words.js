// Words in print, where strips begin and end.

// Returns how far an element reaches in its part.
function reach(element, origin) {
  const { left, right, top, bottom, width, height } = element.getBoundingClientRect();
  const [x, y] = [at => (at - origin.left) / zoom, at => (at - origin.top) / tall()];
  return { element, shown: width + height > 0, left: x(left), right: x(right), top: y(top), bottom: y(bottom) };
}

// Returns what is drawn and shown in a part, with its reach and that of its
// words.
function reaches(svg) {
  const origin = svg.getBoundingClientRect();
  const drawn = [...svg.children].filter(child => !child.classList.contains('chosen'));
  const all = drawn.map(child => reach(child, origin)).filter(({ shown }) => shown);
  return all.map(one => ({ ...one, texts: [...one.element.querySelectorAll('text')].map(text => reach(text, origin)) }));
}

// Returns the corners of a text moved this far to the right along its line.
function corners(text, right) {
  const { x, y, width, height } = text.getBBox();
  const { a, b, c, d, e, f } = text.transform.baseVal.consolidate()?.matrix ?? { a: 1, b: 0, c: 0, d: 1, e: 0, f: 0 };
  const turned = ([x, y]) => [a * x + c * y + e + right, b * x + d * y + f + right * b / a];
  return [[x, y], [x + width, y], [x + width, y + height], [x, y + height]].map(turned);
}

// Returns whether the two overlap: no side of either separates them.
function meet(one, other) {
  const parted = sides => [0, 1].some(side => {
    const [[x1, y1], [x2, y2]] = [sides[side], sides[side + 1]];
    const [a, b] = [one, other].map(all => all.map(([x, y]) => x * (y1 - y2) + y * (x2 - x1)));
    return Math.max(...a) <= Math.min(...b) || Math.max(...b) <= Math.min(...a);
  });
  return !parted(one) && !parted(other);
}

// Words along an arrow that cross the edge of a strip stay whole in the strip
// that has their middle, their home: they reach out of it a little, or move
// along their line. If other words are there, they are cut like lines.
const beyond = { left: 8, right: 14 };
function settle(all, edges) {
  const texts = all.flatMap(one => one.texts);
  for (const text of texts.filter(({ element }) => !element.classList.contains('bar-text'))) {
    const middle = (text.left + text.right) / 2;
    const [from, to] = text.home = edges.find(([, to]) => middle < to) ?? edges.at(-1);
    if (text.left >= from - beyond.left && text.right <= to + beyond.right) continue;
    text.on = text.left < from ? from - text.left : to - text.right;
    const [there, far] = [corners(text.element, text.on), Math.abs(text.on)];
    const near = texts.filter(({ left, right }) => left < text.right + far && right > text.left - far);
    text.cut = near.some(other => other !== text && meet(there, corners(other.element, other.on ?? 0)));
  }
}

// Shortens the words of a bar: they begin where they are, and end in a sign
// that there is more.
function shortened(label, { left, right }, from, to) {
  const [text, ground] = label;
  const room = Math.floor((to - left) * text.textContent.length / (right - left)) - 1;
  if (left < from || room < 3) return label.forEach(one => one.remove());
  if (right <= to) return;
  text.textContent = `${text.textContent.slice(0, room)}…`;
  ground.setAttribute('width', to - left);
}

function moved(label, { on, home }, from) {
  if (home[0] !== from) return label.forEach(one => one.remove());
  for (const one of on ? label : []) {
    const { a, b } = one.transform.baseVal.consolidate()?.matrix ?? { a: 1, b: 0 };
    one.setAttribute('transform', `translate(${on} ${on * b / a}) ${one.getAttribute('transform') ?? ''}`);
  }
}

// Adjusts the words of a copy to a strip. Returns whether they are cut.
function settled(copy, texts, from, to) {
  const copies = [...copy.querySelectorAll('text')];
  texts.forEach((text, place) => {
    const ground = copies[place].previousElementSibling;
    const label = ground?.classList.contains('ground') ? [copies[place], ground] : [copies[place]];
    if (copies[place].classList.contains('bar-text')) shortened(label, text, from, to);
    else if (!text.cut) moved(label, text, from);
  });
  return texts.some(({ cut }) => cut);
}

// Returns where a bar ends, or has the tick of its latest end.
function endOf(bar, from) {
  const [end, tick] = [+bar.getAttribute('x') + +bar.getAttribute('width'), bar.parentNode.querySelector('.latest')];
  const latest = tick ? +tick.getAttribute('x1') : end;
  return latest > from ? Math.min(end, latest) : end;
}

// Names a bar that comes from the strip before once more, if there is room, by
// the words that it shows when pointed at.
const letter = 5.2;
const named = '.volume-lease, .object-lease, .guard, .write';
function nameAgain(made, all, from, to) {
  const begun = text => !text.element.classList.contains('bar-text') || text.left >= from;
  const texts = all.flatMap(one => one.texts).filter(begun);
  for (const one of all.filter(({ left, right }) => left < from && right > from)) {
    const bar = [...one.element.children].find(child => child.matches(`rect:not(.ground):is(${named})`));
    const letters = bar ? Math.floor((Math.min(endOf(bar, from), to) - from - 6) / letter) : 0;
    if (letters < 8) continue;
    const [whole] = one.element.querySelector('title').textContent.split('\n');
    const words = whole.length > letters ? `${whole.slice(0, letters - 1)}…` : whole;
    const [x, y, wide] = [from + 3, +bar.getAttribute('y'), words.length * letter];
    const meets = text => text.left < x + wide && text.right > x && text.top < y + 11 && text.bottom > y;
    if (texts.some(meets)) continue;
    element('rect', { class: `ground ${bar.getAttribute('class')}`, x, y: y + 1, width: wide, height: 9 }, made);
    element('text', { class: 'bar-text', x, y: y + 8.4 }, made).textContent = words;
  }
}
