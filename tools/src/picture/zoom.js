// The size of the picture. Above 100 % everything grows; below, only the
// columns get narrower.

// On a narrow screen nothing is smaller than 11 pixels: the smallest letters
// are drawn at 8.5.
const narrow = matchMedia('(max-width: 700px)');
const full = () => narrow.matches ? 1.3 : 1;
let zoom = full();
// Whether the words of the steps are shown on top. Until this is chosen, they
// are if they leave half of the room to the lanes.
let wordsOnTop = null;

const tall = () => Math.max(full(), zoom);
const room = () => frame.clientWidth - names.dataset.width * tall();
const least = () => Math.min(full(), room() / lanes.dataset.width);
const words = () => wordsOnTop ?? frame.clientHeight >= 2 * header.dataset.height * tall();

function setZoom(to) {
  const middle = (frame.scrollLeft + room() / 2) / zoom;
  zoom = Math.min(4, Math.max(least(), to));
  const far = document.body.classList.toggle('far', zoom < 0.4 * full());
  document.body.classList.toggle('bare', !words());
  get('words').checked = words();
  for (const svg of [corner, header, names, lanes]) {
    const wide = svg === header || svg === lanes ? zoom : tall();
    const low = (far || !words()) && (svg === header || svg === corner);
    const top = low ? svg.dataset.height - numberRows : 0;
    svg.setAttribute('viewBox', `0 ${top} ${svg.dataset.width} ${svg.dataset.height - top}`);
    svg.setAttribute('width', svg.dataset.width * wide);
    svg.setAttribute('height', (svg.dataset.height - top) * tall());
  }
  ruler();
  frame.scrollLeft = middle * zoom - room() / 2;
}

function element(name, attributes, parent) {
  const made = document.createElementNS('http://www.w3.org/2000/svg', name);
  for (const key in attributes) made.setAttribute(key, attributes[key]);
  return parent.appendChild(made);
}

// From afar some steps show their numbers, as close together as can be read.
function ruler() {
  header.querySelectorAll('.tick').forEach(tick => tick.remove());
  if (!document.body.classList.contains('far')) return;
  const apart = [10, 20, 50, 100, 200, 500, 1000].find(by => by * column * zoom > 50 * tall()) || 2000;
  for (let step = Math.ceil(first / apart) * apart; step <= last; step += apart) {
    const place = `translate(${(step - first + 0.5) * column} ${header.dataset.height - 22}) scale(${tall() / zoom} 1)`;
    element('text', { class: 'number tick', transform: place }, header).textContent = step;
  }
}

// Keeps the zoom as a part of full size, if that has changed. A phone that
// shows or hides its bars changes only the height, and then nothing should
// move.
let before = { full: full(), width: innerWidth };
function resized() {
  const [part, wide] = [zoom / before.full, before.width !== innerWidth];
  before = { full: full(), width: innerWidth };
  setZoom(part * full());
  if (chosen && wide) {
    find(lines[chosen - first]);
    listed(lines[chosen - first]);
  }
}
