// The parts of the page.
const get = id => document.getElementById(id);
const frame = get('frame');
const part = name => document.querySelector(`#grid > svg.${name}`);
const [corner, header, names, lanes] = ['corner', 'header', 'names', 'lanes'].map(part);
const lines = [...document.querySelectorAll('#listing [data-step]')];
const joins = [...document.querySelectorAll('#listing details')];
const last = first + lines.length - 1;
// The attributes, names and values, that the page is filtered by; none shows
// everything.
let filters = [];
