// A tap or a click shows, below the picture, what pointing shows.

function tell(words) {
  get('told').textContent = words;
  get('told').hidden = !words;
}

// Offsets around a point, the nearest first, since a finger is not exact.
const around = [0, 4, 8, 12].flatMap(far => [...Array(far ? 8 : 1).keys()].map(eighth =>
  [far * Math.cos(eighth * Math.PI / 4), far * Math.sin(eighth * Math.PI / 4)]));

// Returns the words of what is drawn at a point, or nearest to it.
function titleAt(x, y) {
  for (const [right, down] of around) {
    const group = document.elementFromPoint(x + right, y + down)?.closest('#grid g');
    const title = group && [...group.children].find(child => child.tagName === 'title');
    if (title) return title.textContent;
  }
  return null;
}

// Makes an arrow thick while it or its label is pointed at.
const arrowOf = new Map(flights.map(group => [group.dataset.flight, group]));
function pointed(event) {
  const arrow = arrowOf.get(event.target.closest('g')?.dataset.flight);
  arrow?.classList.toggle('pointed', event.type === 'pointerover');
}

function clicked(event) {
  const x = (event.clientX - event.currentTarget.getBoundingClientRect().left) / zoom;
  const place = Math.floor(x / column);
  const words = titleAt(event.clientX, event.clientY);
  if (place < lines.length) choose(first + place, false);
  tell(words ?? lines[place]?.textContent ?? '');
}
