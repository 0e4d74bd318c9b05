// What a page of text.runtext must do, checked on its own state.
const failed = () => numbers(lines.filter(line => line.textContent.includes('FAILED: expected')));

check('the count of expectations is at the top', () => {
  const top = [...document.querySelectorAll('header .failed')].map(one => one.textContent);
  same(top.length, 2, 'count and reason');
  same(top[0].startsWith('3 of 8 expectations failed, 1 not reached'), true, top[0]);
  same(top[1], lines.at(-1).parentNode.lastElementChild.textContent, 'reason');
  same(top[1].startsWith('stopped at line 24, deliver GRANT to dash 1: found no GRANT to dash 1 under way'), true, 'reason');
});

check('next failed goes to every failed expectation, both ways', () => {
  choose(1, true);
  same(failed().length, 3, 'failed');
  same(visited(() => button('failed').click()), failed(), 'button');
  same(get('said').textContent, 'no failed step after this one', 'end');
  choose(lines.length, true);
  same(visited(() => press('F', true)), failed().reverse(), 'key, backwards');
});

check('a failed expectation is red, in the listing and on top', () => {
  const red = element => getComputedStyle(element).color;
  for (const step of failed()) {
    const words = lines[step - first].querySelector('.failed').textContent;
    same(red(lines[step - first].querySelector('.failed')), 'rgb(192, 0, 0)', words);
    const top = [...header.querySelectorAll('.failed-text')].map(text => text.textContent);
    same(top.includes(words), true, `${words} on top`);
  }
  same(header.querySelectorAll('.failure').length, failed().length, 'columns');
});

check('a read told to ask first says why when it is tapped', () => {
  const mark = lanes.querySelector('.ask-first');
  mark.scrollIntoView({ block: 'center', inline: 'center' });
  const { left, top, width, height } = bounds(mark);
  const [clientX, clientY] = [left + width / 2, top + height / 2];
  document.elementFromPoint(clientX, clientY).dispatchEvent(new MouseEvent('click', { clientX, clientY, bubbles: true }));
  const why = 'ask first, as expected: region lease ran out at 10 = 2.5 s; granted in step 14 (clock 0 = 0 s)';
  same(get('told').textContent, `21 (line 20, clock 10 = 2.5 s) read dash 1 notice 0: ${why}`, 'told');
  get('told').click();
});

check('a join is one entry that opens into its steps', () => {
  joins.forEach(join => join.open = false);
  same(joins.map(join => join.querySelectorAll('[data-step]').length), [7, 7], 'steps');
  const entry = joins[0].querySelector('summary').textContent;
  same(entry, '1 to 7 (line 11, clock 0 = 0 s) join dash 0 notice 0 # the first one', 'entry');
  same(lines[0].checkVisibility(), false, 'closed');
  choose(9, true);
  same([joins[0].open, joins[1].open, lines[8].checkVisibility()], [false, true, true], 'opened by its step');
  joins[0].querySelector('summary').click();
  same(lines[0].checkVisibility(), true, 'opened by a click');
  joins.forEach(join => join.open = false);
});

check('a filter leaves the entries that have steps left', () => {
  pick('client', '1');
  same(joins.map(seen), [false, true], 'joins');
  pick('client', '');
  same(joins.map(seen), [true, true], 'all again');
});

check('on paper the joins are open', () => {
  window.dispatchEvent(new Event('beforeprint'));
  same(joins.map(join => join.open), [true, true], 'open');
  window.dispatchEvent(new Event('afterprint'));
  same(joins.map(join => join.open), [false, false], 'as before');
});

check('on paper a bar that goes on in the next strip is named there again', () => {
  window.dispatchEvent(new Event('beforeprint'));
  const [before, after] = [...document.querySelectorAll('.strip .lanes')].map(strip =>
    [...strip.querySelectorAll('.bar-text')].map(text => text.textContent));
  window.dispatchEvent(new Event('afterprint'));
  same(before.some(words => words.startsWith('region 0')), true, before.join('; '));
  same(after.some(words => words.startsWith('dash 0: region 0 lease to')), true, after.join('; '));
});

check('comments stand beside their steps', () => {
  const before = text => [...document.querySelectorAll('#listing .comment')].find(one => one.textContent === text);
  same(before('# Both drive in.').nextElementSibling, joins[0], 'before a join');
  same(before('# The lease runs out.').nextElementSibling, lines[19], 'before a step');
  same(before('# the tunnel').closest('p'), lines[17], 'behind a step');
  same(before('# the first one').closest('details'), joins[0], 'behind a join');
});

check('all is said in the words of the text, with the time', () => {
  const said = document.body.cloneNode(true);
  said.querySelectorAll('script, style').forEach(one => one.remove());
  const words = said.textContent.match(/\b(clients?|volumes?|objects?)\b/g);
  same(words, null, 'words of the field');
  same(said.textContent.includes('region 0 lease to 10 = 2.5 s, epoch 1'), true, 'a lease with its time');
  const clock = [...header.querySelectorAll('.clock')].map(text => text.textContent);
  same(clock, ['0', '0 s', '10', '2.5 s', '10', '2.5 s'], 'clock and time');
});
