// When the filters hide lanes and rows, the others move up.

// Returns how far down something is now, from how far down it was drawn.
let fold = y => y;

const pictured = [...names.querySelectorAll('text'), ...lanes.querySelectorAll('line, rect, circle, polygon, text')];
const drawn = new Map(pictured.map(element =>
  [element, Object.fromEntries([...element.attributes].map(one => [one.name, one.value]))]));
const flights = [...lanes.querySelectorAll('.arrow')].map(arrow => arrow.parentNode);
// The labels of a flight, apart from its arrow.
const said = new Map([...lanes.querySelectorAll('[data-flight]')].filter(group => !group.querySelector('.arrow'))
  .map(group => [group.dataset.flight, group]));
const laneLines = new Map([...names.querySelectorAll('.lane-name')].map(name =>
  [name.parentNode.dataset.client ?? 'server', drawn.get(name).y - 4]));
const fullHeight = +lanes.dataset.height;

// Returns the bands that the filters hide, the higher first, none within
// another.
function hiddenBands() {
  const groups = [...names.querySelectorAll('[data-top]')].filter(group => !shows(group));
  const bands = groups.map(group => [+group.dataset.top, +group.dataset.bottom]).sort((a, b) => a[0] - b[0]);
  return bands.filter(([, bottom], place) => bands.slice(0, place).every(other => other[1] < bottom));
}

function foldAll() {
  const bands = hiddenBands();
  fold = y => bands.reduce((to, [top, bottom]) => to - Math.max(0, Math.min(y, bottom) - top), y);
  for (const element of pictured) {
    const group = element.parentNode;
    if (!group.dataset.flight && shows(group)) place(element, drawn.get(element));
  }
  const lowest = reroute(flights.filter(shows));
  for (const svg of [names, lanes]) {
    svg.dataset.height = Math.max(fold(fullHeight), lowest);
    svg.setAttribute('viewBox', `0 0 ${svg.dataset.width} ${svg.dataset.height}`);
  }
}

// Moves an element. The backgrounds of columns reach across the bands and get
// shorter.
function place(element, was) {
  for (const name of ['y', 'y1', 'y2', 'cy'].filter(name => name in was)) {
    element.setAttribute(name, fold(+was[name]));
  }
  if ('height' in was) element.setAttribute('height', fold(+was.y + +was.height) - fold(+was.y));
  if ('points' in was) {
    const y = +was.points.split(/[ ,]/)[1];
    element.setAttribute('transform', `translate(0 ${fold(y) - y})`);
  }
}

// Keeps messages on the lines of their lanes. Returns how far down they reach.
function reroute(groups) {
  const end = group => +drawn.get(group.querySelector('.arrow')).y2;
  let lowest = 0;
  worded.clear();
  const ways = groups.sort((a, b) => end(a) - end(b)).map(group => {
    let y = fold(end(group));
    if (group.querySelector('.under-way')) y = lowest = Math.max(y, lowest + 11);
    return turn(group, y);
  });
  ways.forEach(keepClear);
  ways.forEach(way => way.labels.forEach(text => turnLabel(text, way)));
  return lowest + 11;
}

// The marks where a message begins.
const BEGINNINGS = '.doubled, .under-way-again';

// Returns where a message begins: a copy between two lanes, any other on a
// line.
function beginning(group, y) {
  if (!group.querySelector('.doubled')) return fold(y);
  const [server, client] = [laneLines.get('server'), laneLines.get(group.dataset.client)];
  return fold(server) + (y - server) * (fold(client) - fold(server)) / (client - server);
}

// Cells of the picture that have words along an arrow, or something that no
// words may hide. Words that would cover others are left out: the arrow still
// shows everything when pointed at.
const worded = new Set();
const cell = (x, y) => `${Math.round(x / 10)} ${Math.round(y / 10)}`;
function free(x, y, angle, from, wide, across) {
  const [cos, sin] = [Math.cos(angle), Math.sin(angle)];
  const cells = [];
  for (let along = from; along < from + wide; along += 5) {
    const [right, down] = [along * cos - across * sin, along * sin + across * cos];
    cells.push(cell(x + right, y + down));
  }
  const good = !cells.some(cell => worded.has(cell));
  if (good) cells.forEach(cell => worded.add(cell));
  return good;
}

// Keeps room for the head, cross or ring at the end of a path, and for the
// diamond or ring where a copy or a message under way again begins.
function keepClear({ x1, x2, fromY, toY, marked }) {
  for (const [x, y] of [[x2, toY], ...(marked ? [[x1, fromY]] : [])]) {
    for (const right of [-8, 0, 8]) [-8, 0, 8].forEach(down => worded.add(cell(x + right, y + down)));
  }
}

// Draws an arrow from its beginning to its end at this y, with the marks at
// both ends. Returns the path, with the labels along it.
function turn(group, toY) {
  const arrow = group.querySelector('.arrow');
  const [x1, y1, x2, y2] = ['x1', 'y1', 'x2', 'y2'].map(name => +drawn.get(arrow)[name]);
  const fromY = beginning(group, y1);
  const way = { x1, y1, x2, fromY, toY, was: Math.atan2(y2 - y1, x2 - x1), is: Math.atan2(toY - fromY, x2 - x1),
    length: Math.hypot(toY - fromY, x2 - x1), marked: group.querySelector(BEGINNINGS), labels: [] };
  arrow.setAttribute('y1', fromY);
  arrow.setAttribute('y2', toY);
  const words = said.get(group.dataset.flight)?.children ?? [];
  for (const element of [...group.children, ...words].filter(one => one !== arrow && drawn.has(one))) {
    const { class: name, transform } = drawn.get(element);
    if (transform) {
      if (element.tagName === 'text') way.labels.push(element);
    } else if (name.startsWith('head')) {
      const tip = `translate(${x2} ${toY}) rotate(${degrees(way.is - way.was)})`;
      element.setAttribute('transform', `${tip} translate(${-x2} ${-y2})`);
    } else {
      element.setAttribute('transform', `translate(0 ${element.matches(BEGINNINGS) ? fromY - y1 : toY - y2})`);
    }
  }
  return way;
}

const degrees = angle => angle * 180 / Math.PI;

// Returns how far along the path and across it an element was drawn.
function onWay(element, { x1, y1, was }) {
  const [e, f] = drawn.get(element).transform.match(/[-0-9.]+/g).slice(4).map(Number);
  return [(e - x1) * Math.cos(was) + (f - y1) * Math.sin(was), (f - y1) * Math.cos(was) - (e - x1) * Math.sin(was)];
}

// Turns a label along the path, with its ground.
function turnLabel(text, way) {
  const [along, across] = onWay(text, way);
  const wide = text.textContent.length * 5.185;
  const there = Math.max(8, Math.min(along, way.length - 12 - wide));
  const fits = there + wide < way.length && free(way.x1, way.fromY, way.is, there, wide, across);
  for (const element of [text.previousElementSibling, text]) {
    const place = `translate(${there} ${onWay(element, way)[1]})`;
    element.setAttribute('transform', `translate(${way.x1} ${way.fromY}) rotate(${degrees(way.is)}) ${place}`);
    element.setAttribute('visibility', fits || !filters.length ? 'visible' : 'hidden');
  }
}
