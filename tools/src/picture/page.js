// What the page's buttons, keys and filters do.

function filter() {
  const [client, object] = [get('client').value, get('object').value];
  const wanted = { client, object, volume: object && String(volumeOf[object]) };
  filters = Object.entries(wanted).filter(([, value]) => value);
  const hidden = ([name, value]) => `[data-${name}]:not([data-${name}="${value}"]) { display: none; }`;
  get('filter').textContent = filters.map(hidden).join('\n');
  for (const join of joins) join.hidden = !lines.some(line => join.contains(line) && shows(line));
  foldAll();
  setZoom(zoom);
  if (chosen) {
    mark(lines[chosen - first]);
    find(lines[chosen - first]);
  }
}

function fromAddress() {
  const step = +location.hash.slice(1);
  if (step) choose(step, true);
}

function options(select, count) {
  for (let number = 0; number < count; number++) select.add(new Option(number));
  select.onchange = filter;
}

function pressed(event) {
  const outside = !['INPUT', 'SELECT'].includes(event.target.tagName);
  if (!outside || event.ctrlKey || event.altKey || event.metaKey) return;
  const by = { ArrowLeft: -1, ArrowRight: 1 }[event.key];
  const button = seekers.find(button => button.dataset.key === event.key.toLowerCase());
  if (by) seek(by, () => true, 'further');
  else if (button) seekAnswer(button, event.shiftKey ? -1 : 1);
  else if (event.key === 'Escape') tell('');
  else return;
  event.preventDefault();
}

options(get('client'), clients);
options(get('object'), volumeOf.length);
for (const kind of ['pointerover', 'pointerout']) lanes.addEventListener(kind, pointed);
lanes.addEventListener('click', clicked);
header.addEventListener('click', clicked);
get('told').onclick = () => tell('');
get('in').onclick = () => setZoom(zoom * 1.25);
get('out').onclick = () => setZoom(zoom / 1.25);
get('full').onclick = () => setZoom(full());
get('overview').onclick = () => setZoom(0);
get('words').onchange = event => {
  wordsOnTop = event.target.checked;
  setZoom(zoom);
};
get('step').onchange = event => choose(+event.target.value, true);
get('listing').onclick = event => {
  const line = event.target.closest('[data-step]');
  if (line) choose(+line.dataset.step, true);
};
for (const button of seekers) {
  button.onclick = event => seekAnswer(button, event.shiftKey ? -1 : 1);
}
document.addEventListener('keydown', pressed);
window.addEventListener('resize', resized);
window.addEventListener('beforeprint', toPaper);
window.addEventListener('afterprint', toScreen);
setZoom(full());
// A link may name a step, as in page.html#120, also on a page that is already
// open.
window.addEventListener('hashchange', fromAddress);
fromAddress();
