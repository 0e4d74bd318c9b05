// What the checks of a page share. tools/browser-test puts this after the
// page's script, then the checks, then verdicts.js.
const checks = [];

function check(words, test) {
  checks.push([words, test]);
}

function same(found, expected, what) {
  if (JSON.stringify(found) !== JSON.stringify(expected)) {
    throw `${what}: found ${JSON.stringify(found)}, expected ${JSON.stringify(expected)}`;
  }
}

// The size that the window was asked to have, such as 1024,600.
const asked = location.search.slice(1);

const bounds = element => element.getBoundingClientRect();
const seen = element => element.getClientRects().length > 0;
const press = (key, shiftKey = false) =>
  document.dispatchEvent(new KeyboardEvent('keydown', { key, shiftKey, bubbles: true }));
const button = answer => document.querySelector(`[data-seek="${answer}"]`);
// Returns the steps with this answer, by the words of the listing.
const answered = word => lines.filter(line => new RegExp(`^[0-9]+ [^:]*: ${word}`).test(line.textContent));
const numbers = some => some.map(line => +line.dataset.step);
const some = all => all.filter((_, place) => place % Math.ceil(all.length / 50) === 0);

const laneName = name => [...names.querySelectorAll('.lane-name')].find(text => text.textContent === name);

function pick(id, value) {
  get(id).value = value;
  get(id).dispatchEvent(new Event('change'));
}

// Returns the steps visited, for as long as there is a step to go to.
function visited(go) {
  const steps = [];
  for (go(); get('said').textContent === '' && steps.length < 100; go()) steps.push(chosen);
  return steps;
}

function inSight(box) {
  const [spot, all] = [bounds(box), bounds(frame)];
  return spot.left >= bounds(names).right - 1 && spot.right <= all.right + 1 &&
    spot.top >= bounds(header).bottom - 1 && spot.bottom <= all.bottom + 1;
}
