// What a page of a generated run must do, checked on its own state.

check('the address names a step', () => same(chosen, 7, 'step'));

check('the address of an open page does too', async () => {
  const changed = new Promise(done => window.addEventListener('hashchange', done, { once: true }));
  location.hash = '#13';
  await changed;
  same([chosen, get('step').value, lines[12].className], [13, '13', 'on'], 'step');
});

check('a chosen step is in the address', () => {
  choose(11, true);
  same(location.hash, '#11', 'address');
});

check('a step that is not there is said', () => {
  choose(4, true);
  choose(lines.length + 1, true);
  same([chosen, get('said').textContent], [4, `the steps here are 1 to ${lines.length}`], 'step');
});

check('choosing a step scrolls to its lane and its line', () => {
  for (const line of some(lines)) {
    line.click();
    const at = bounds(line);
    const listed = at.top >= bounds(get('listing')).top - 1 && at.bottom <= bounds(get('listing')).bottom + 1;
    same([inSight(spot), listed], [true, true], `step ${line.dataset.step} in sight`);
  }
});

check('each step is on the lane of its client or of the server', () => {
  for (const step of some(lines)) {
    const words = step.textContent;
    const asked = words.match(/^[0-9]+ \([^)]*\) (?:read|ask|restart) client ([0-9]+)/);
    if (!asked || +asked[1] >= clients) continue;
    same(+laneName(`client ${asked[1]}`).getAttribute('y') - 4, +step.dataset.lane, words);
  }
});

check('the overview shows the whole run and is as high as before', () => {
  get('full').click();
  const [wide, high] = [bounds(lanes).width, bounds(lanes).height];
  get('overview').click();
  const all = bounds(lanes);
  same(Math.round(all.height), Math.round(high), 'height');
  same([all.left >= bounds(names).right - 1, all.right <= bounds(frame).right + 1], [true, true], 'in sight');
  same([zoom <= 1, all.width <= wide], [true, true], 'narrower');
  same(frame.scrollWidth <= frame.clientWidth + 1, true, 'nothing to scroll');
  get('full').click();
  same(Math.round(bounds(lanes).width), Math.round(wide), 'width again');
});

check('from afar the words go and numbers stay apart', () => {
  get('overview').click();
  const far = zoom < 0.4;
  const words = [...lanes.querySelectorAll('text')].filter(seen).length;
  same(words === 0, far, 'words hidden');
  const ticks = [...header.querySelectorAll('.tick')].map(bounds);
  same(ticks.length > 1, far, 'ticks');
  same(ticks.every((tick, place) => place === 0 || tick.left > ticks[place - 1].right), true, 'apart');
  get('full').click();
  same(header.querySelectorAll('.tick').length, 0, 'ticks at 100 %');
});

check('a click in the picture chooses its column at any zoom', () => {
  for (const at of [1, 0.6, 2]) {
    setZoom(at * full());
    frame.scrollLeft = 0;
    const { left, top } = bounds(lanes);
    lanes.dispatchEvent(new MouseEvent('click', { clientX: left + 5.5 * column * zoom, clientY: top + 5 }));
    same(chosen, 6, `step at zoom ${at}`);
  }
  get('full').click();
});

check('the filter by client leaves that client and the server', () => {
  pick('client', '7');
  const left = [...document.querySelectorAll('[data-client]')].filter(seen);
  same(left.every(element => element.dataset.client === '7'), true, 'only client 7');
  same(['.lanes', '#listing'].map(part => left.some(element => element.closest(part))), [true, true], 'some');
  const lanesLeft = [...names.querySelectorAll('.lane-name')].filter(seen).map(text => text.textContent);
  same(lanesLeft, ['server', 'client 7'], 'lanes');
  pick('client', '');
});

check('what the filter leaves moves together', () => {
  const place = element => [bounds(element).left, bounds(element).top].map(Math.round);
  const places = () => some([...document.querySelectorAll('.lanes g *, .names text')]).map(place);
  frame.scrollTo(0, 0);
  const [before, high] = [places(), bounds(lanes).height];
  pick('client', '7');
  const line = name => bounds(laneName(name)).bottom;
  same([bounds(lanes).height < high / 2, line('client 7') - line('server') < 200], [true, true], 'room');
  const laneLine = bounds(lanes.querySelector('g[data-client="7"] > .lane')).top;
  const arrows = [...lanes.querySelectorAll('g[data-client="7"] > .arrow')].map(bounds);
  const server = bounds(lanes.querySelector('g:not([data-client]) > .lane')).top;
  const between = ({ top, bottom }) => top >= server - 2 && bottom <= laneLine + 2;
  same(arrows.length > 0 && arrows.every(between), true, 'arrows');
  for (const step of lines.filter(shows).slice(0, 20)) {
    step.click();
    same(inSight(spot), true, `step ${step.dataset.step} in sight`);
  }
  pick('client', '');
  frame.scrollTo(0, 0);
  same(places(), before, 'as before');
});

check('no label hides a head, with and without a filter', () => {
  for (const client of ['7', '']) {
    pick('client', client);
    const heads = [...lanes.querySelectorAll('.head')].filter(seen);
    for (const head of some(heads)) {
      head.scrollIntoView({ block: 'center', inline: 'center' });
      const { left, top, width, height } = bounds(head);
      const over = document.elementsFromPoint(left + width / 2, top + height / 2);
      const hidden = over.slice(0, over.indexOf(head)).find(one => one.classList.contains('ground'));
      if (hidden) throw `${hidden.nextElementSibling.textContent} of ${client || 'all'}`;
    }
    same(heads.length > 0, true, 'heads');
  }
  pick('client', '');
});

check('the filter by object leaves it and its volume', () => {
  const object = lines.find(line => line.dataset.object).dataset.object;
  pick('object', object);
  const wrong = [...document.querySelectorAll('[data-object], [data-volume]')].filter(seen).filter(element =>
    ![undefined, object].includes(element.dataset.object) ||
    ![undefined, String(volumeOf[object])].includes(element.dataset.volume));
  same(wrong.length, 0, 'others');
  same(lines.filter(line => line.dataset.object === object).every(seen), true, 'its lines');
  pick('object', '');
  same(lines.every(seen), true, 'all again');
});

check('the buttons go to every refused, shown, ask first and completed step', () => {
  for (const [answer, words] of [['refused', 'refused'], ['shown', 'shown'], ['ask', 'ask first'], ['completed', 'completed']]) {
    choose(1, true);
    const expected = numbers(answered(words)).filter(step => step > 1).slice(0, 100);
    same(visited(() => button(answer).click()), expected, answer);
    same(expected.length === 100 || get('said').textContent === `no ${words} step after this one`, true, 'end');
  }
});

check('the keys go both ways', () => {
  for (const [key, words] of [['R', 'refused'], ['S', 'shown'], ['A', 'ask first'], ['C', 'completed']]) {
    choose(lines.length, true);
    const back = numbers(answered(words)).reverse().filter(step => step < lines.length).slice(0, 100);
    same(visited(() => press(key, true)), back, `${words}, backwards`);
    const on = numbers(answered(words)).filter(step => step > chosen).slice(0, 100);
    same(visited(() => press(key.toLowerCase())), on, words);
  }
  choose(5, true);
  press('ArrowRight');
  press('ArrowRight');
  press('ArrowLeft');
  same(chosen, 6, 'arrows');
});

check('what is filtered out is passed over', () => {
  pick('client', '7');
  choose(1, true);
  const expected = numbers(lines.filter(line => [undefined, '7'].includes(line.dataset.client)));
  same(visited(() => press('ArrowRight')), expected.filter(step => step > 1).slice(0, 100), 'steps');
  pick('client', '');
});

check('every text is as wide as was reckoned, or narrower', () => {
  for (const text of document.querySelectorAll('svg text')) {
    const reckoned = 0.61 * parseFloat(getComputedStyle(text).fontSize) * [...text.textContent].length;
    const found = text.getComputedTextLength();
    if (found > reckoned) throw `${text.textContent}: ${found} of ${reckoned}`;
  }
});

check('the page is as wide as the screen, and says so to a phone', () => {
  same(`${innerWidth},${innerHeight}`, asked, 'size');
  same(document.querySelector('meta[name=viewport]').content, 'width=device-width, initial-scale=1', 'viewport');
  same(document.documentElement.scrollWidth <= innerWidth, true, 'nothing to scroll sideways');
});

// Returns how large the letters of each visible text are.
function sizes() {
  const texts = [...document.querySelectorAll('svg text')].filter(seen).map(text => {
    const svg = text.closest('svg');
    const scale = svg.viewBox.baseVal?.height ? bounds(svg).height / svg.viewBox.baseVal.height : 1;
    return [parseFloat(getComputedStyle(text).fontSize) * scale, text.textContent];
  });
  const written = element => [...element.childNodes].some(node => node.nodeType === 3 && node.textContent.trim());
  const others = [...document.querySelectorAll('body *:not(svg *, script, style)')].filter(seen).filter(written);
  return [...texts, ...others.map(one => [parseFloat(getComputedStyle(one).fontSize), one.textContent])];
}

check('nothing is smaller than 11 pixels on a narrow screen, or than drawn on others', () => {
  get('signs').open = true;
  const smallest = innerWidth <= 700 ? 11 : 8.5;
  for (const look of ['full', 'overview', 'in', 'out']) {
    get(look).click();
    const small = sizes().filter(([size]) => size < smallest - 0.01);
    same(small.slice(0, 3), [], look);
  }
  get('full').click();
  get('signs').open = false;
});

// Returns a visible point at which the group is on top, if there is one.
function pointOn(group) {
  for (const shape of [...group.children].filter(child => child.tagName !== 'title')) {
    const { left, top, width, height } = bounds(shape);
    for (const part of [0.5, 0.3, 0.7]) {
      const [x, y] = [Math.floor(left + part * width), Math.floor(top + part * height)];
      if (document.elementFromPoint(x, y)?.closest('g') === group) return [x, y];
    }
  }
  return null;
}

check('a tap tells what pointing does', () => {
  let told = 0;
  frame.scrollTo(0, 0);
  for (const svg of [lanes, header]) {
    for (const group of some([...svg.querySelectorAll('g')].filter(group => group.querySelector('title')))) {
      group.scrollIntoView({ block: 'center', inline: 'center' });
      const point = pointOn(group);
      if (!point) continue;
      const [clientX, clientY] = point;
      document.elementFromPoint(clientX, clientY).dispatchEvent(new MouseEvent('click', { clientX, clientY, bubbles: true }));
      same([get('told').textContent, seen(get('told'))], [group.querySelector('title').textContent, true], 'told');
      const { left, right, top } = bounds(get('told'));
      const over = [left + 10, right - 10].map(x => document.elementFromPoint(x, top + 10) === get('told'));
      same(over, [true, true], 'nothing lies over it');
      get('told').click();
      same(seen(get('told')), false, 'told until it is tapped');
      told++;
    }
  }
  same(told > 10, true, `${told} told`);
});

check('an arrow is thick while its label is pointed at', () => {
  const label = [...lanes.querySelectorAll('[data-flight] > .message')].find(seen);
  const arrow = lanes.querySelector(`[data-flight="${label.parentNode.dataset.flight}"] > .arrow`);
  const thick = kind => {
    label.dispatchEvent(new PointerEvent(kind, { bubbles: true }));
    return getComputedStyle(arrow).strokeWidth;
  };
  same([thick('pointerover'), thick('pointerout') === '3px'], ['3px', false], 'stroke');
});

check('a tap beside an arrow tells of it', () => {
  const head = lanes.querySelector('.head');
  head.scrollIntoView({ block: 'center', inline: 'center' });
  const { right, top, height } = bounds(head);
  const words = titleAt(right + 5, top + height / 2);
  same(words !== null, true, 'something told');
});

check('the lanes are seen, not the header alone', () => {
  window.scrollTo(0, 0);
  frame.scrollTo(0, 0);
  const lowest = Math.min(bounds(frame).bottom, innerHeight);
  const room = lowest - bounds(header).bottom;
  same(room >= 200 && room >= (lowest - bounds(frame).top) / 2, true, `${room} of ${lowest}`);
  const inside = [...names.querySelectorAll('text')].map(bounds).filter(name => name.bottom < lowest);
  same(inside.filter(name => name.top >= bounds(header).bottom).length > 1, true, 'names of lanes and rows');
  get('words').click();
  const other = bounds(header).height;
  get('words').click();
  same(Math.abs(bounds(header).height - other) > 40, true, 'words on top come and go');
});

check('on paper each step is in one strip, with its words, and all fit a page', () => {
  const before = [zoom, get('signs').open, bounds(lanes).width];
  window.dispatchEvent(new Event('beforeprint'));
  get('paper').style.display = 'block';
  const made = [...document.querySelectorAll('.strip')];
  const steps = made.flatMap(strip => [...strip.querySelectorAll('.header .number')].map(text => +text.textContent));
  same(steps, lines.map(line => +line.dataset.step), 'steps');
  const sheet = sheets.find(({ size }) => get('sheet').textContent.includes(size));
  let [whole, cut] = [0, 0];
  for (const strip of made) {
    const { width, height } = bounds(strip);
    same([width <= sheet.width + 1, height <= sheet.height + 9], [true, true], `${width} x ${height}`);
    for (const text of strip.querySelectorAll('text')) {
      const [words, part] = [bounds(text), bounds(text.closest('svg'))];
      const out = text.closest('.lanes') ? beyond : { left: 1, right: 1 };
      const inside = words.left >= part.left - out.left - 1 && words.right <= part.right + out.right + 1;
      inside ? whole++ : cut++;
    }
  }
  // A label that has no other room is cut, like its line.
  same(cut <= whole / 200, true, `${cut} cut, ${whole} whole`);
  get('paper').style.display = '';
  window.dispatchEvent(new Event('afterprint'));
  same([document.querySelectorAll('.strip').length, zoom, get('signs').open, bounds(lanes).width], [0, ...before], 'screen');
});

check('the page asks for nothing outside itself', () =>
  same(performance.getEntriesByType('resource').length, 0, 'requests'));
