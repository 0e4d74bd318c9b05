// The chosen step, and how to get to others.
let chosen = 0;

const boxes = [lanes, header].map(svg =>
  element('rect', { class: 'chosen', width: column, height: svg.dataset.height, visibility: 'hidden' }, svg));
const spot = element('rect', { class: 'chosen spot', width: column, height: 24, visibility: 'hidden' }, lanes);

function mark(line) {
  for (const box of [...boxes, spot]) {
    box.setAttribute('x', (line.dataset.step - first) * column);
    box.setAttribute('visibility', 'visible');
  }
  spot.setAttribute('y', fold(+line.dataset.lane) - 12);
}

// Scrolls the step's column to the middle, and up or down to its lane unless
// that is visible.
function find(line) {
  frame.scrollLeft = (line.dataset.step - first + 0.5) * column * zoom - room() / 2;
  const high = frame.clientHeight - header.getAttribute('height');
  const y = fold(+line.dataset.lane) * tall();
  const inSight = y - 30 >= frame.scrollTop && y + 30 <= frame.scrollTop + high;
  if (!inSight) frame.scrollTop = y - high / 2;
}

// Scrolls the listing, but not the page around it.
function listed(line) {
  const [listing, at] = [get('listing'), line.getBoundingClientRect()];
  const all = listing.getBoundingClientRect();
  if (at.top < all.top) listing.scrollTop += at.top - all.top;
  if (at.bottom > all.bottom) listing.scrollTop += at.bottom - all.bottom;
}

function choose(step, scroll) {
  const line = lines[step - first];
  if (!line) return say(`the steps here are ${[first, last].join(' to ')}`);
  say('');
  tell('');
  if (chosen) lines[chosen - first].classList.remove('on');
  chosen = step;
  line.classList.add('on');
  if (line.closest('details')) line.closest('details').open = true;
  mark(line);
  if (scroll) find(line);
  listed(line);
  get('step').value = step;
  history.replaceState(null, '', `#${step}`);
}

function say(words) {
  get('said').textContent = words;
}

// Returns whether the filters show an element. One that names no client, volume
// or object is about all of them.
function shows(element) {
  return filters.every(([name, value]) => (element.dataset[name] ?? value) === value);
}

// Chooses the next step, or the one before, that is shown and passes the test.
function seek(by, test, words) {
  let step = chosen ? chosen + by : by > 0 ? first : last;
  while (lines[step - first] && !(test(lines[step - first]) && shows(lines[step - first]))) step += by;
  if (lines[step - first]) choose(step, true);
  else say(`no ${words} step ${by > 0 ? 'after' : 'before'} this one`);
}

// Seeks what a button stands for: steps with its answer, or whose expectation
// failed.
const seekers = [...document.querySelectorAll('[data-seek]')];
function seekAnswer(button, by) {
  const sought = ({ dataset }) => [dataset.answer, dataset.expected].includes(button.dataset.seek);
  seek(by, sought, button.textContent);
}
