'use strict';
const run = JSON.parse(document.getElementById('data').textContent);
const $ = (id) => document.getElementById(id);
const PAGE = 600;
const all = run.entries.length;
// place: how many entries there are; eyes: the renderer that is looked through, or null; act: the number of the chosen act
const state = { place: all, eyes: null, act: null, page: 0 };

function element(tag, attributes = {}, ...inner) {
  const made = document.createElement(tag);
  for (const [name, value] of Object.entries(attributes)) {
    if (name === 'hue') made.style.setProperty('--hue', (value * 137 + 210) % 360);
    else if (value === true) made.setAttribute(name, '');
    else if (value !== false && value !== null && value !== undefined) made.setAttribute(name, value);
  }
  made.append(...inner.filter((part) => part !== null && part !== undefined));
  return made;
}

// How many of the first `place` entries the renderer is known to have heard.
const heardOf = run.acts.reduce((lists, act) => (lists[act.renderer].push(act.heard), lists),
  Array.from({ length: run.renderers }, () => [0]));
function heard(renderer, place) {
  return heardOf[renderer].filter((length) => length <= place).pop();
}

function blankedFor(entry, eyes) {
  return eyes !== null && entry.for !== null && run.homes[entry.for] !== eyes && entry.blank !== entry.text;
}

function blankUrl(origin) {
  return origin.startsWith('opaque') ? 'about:blank' : `${origin}/`;
}

// The windows after so many entries.
function windowsAt(length) {
  const windows = {};
  for (const change of run.states.slice(0, length)) Object.assign(windows, change);
  return windows;
}

// The rows of the timeline: an entry with the act that made it, or an act alone.
const rows = [];
const rowOfPlace = [];
const rowOfAct = [];
(function lay() {
  let act = 0;
  const take = (length) => {
    for (; act < run.acts.length && run.acts[act].heard <= length; act++) {
      rowOfAct[act] = rows.length;
      rows.push({ place: null, act, after: run.acts[act].heard, renderer: run.acts[act].renderer });
    }
  };
  take(0);
  run.entries.forEach((entry, place) => {
    rowOfPlace[place] = rows.length;
    const row = { place, act: null, after: place + 1, renderer: entry.renderer };
    rows.push(row);
    const next = run.acts[act];
    if (next && next.heard === place + 1 && next.renderer === entry.renderer) {
      row.act = act;
      rowOfAct[act] = rows.length - 1;
      act++;
    }
    take(place + 1);
  });
  take(Infinity);
})();

function short(act) {
  const words = act.text.split(' ').slice(1);
  if (act.task) return words.join(' ');
  const key = act.step && act.step.key !== undefined ? ` ${act.step.of}.${act.step.key}` : act.step && act.step.of ? ` ${act.step.of}` : '';
  return `${words[0]} ${words[1]} ${words[2]}${key} → ${act.answer}`;
}

function cell(row, renderer) {
  const made = element('td', { class: 'lane', hue: renderer });
  if (row.renderer !== renderer) return made;
  if (row.act !== null) {
    const act = run.acts[row.act];
    const refused = /^(SecurityError|TypeError|SyntaxError|DataCloneError|SchemeOut|unloaded|lost)/.test(act.answer);
    made.append(element('button', { class: refused ? 'act refused' : 'act', 'data-act': row.act, type: 'button', 'aria-pressed': 'false' }, short(act)));
  }
  if (row.place !== null) made.append(line(row.place));
  return made;
}

// An entry in a few words, with what is blanked for the renderer that is looked through marked.
function line(place) {
  const entry = run.entries[place];
  const heardAs = lineFor(entry);
  const url = heardAs.match(/url="([^"]*)"$/);
  const blank = blankedFor(entry, state.eyes);
  const mark = (text) => element('span', blank ? { class: 'blank', title: 'blanked for this renderer' } : {}, text);
  const inner = heardAs.endsWith('hidden') ? [mark('hidden')] : url ? [entry.short.replace('@', ''), mark(url[1])] : [entry.short];
  return element('span', { class: 'entry' }, element('span', { class: 'line', title: heardAs }, ...inner));
}

// The line of an entry, as the renderer that is looked through hears it.
function lineFor(entry) {
  return blankedFor(entry, state.eyes) ? entry.blank : entry.text;
}

function drawRows() {
  const body = $('rows');
  const first = state.page * PAGE;
  body.replaceChildren(...rows.slice(first, first + PAGE).map((row, index) => {
    const made = element('tr', { 'data-row': first + index, 'data-place': row.place });
    made.append(element('td', {}, row.place === null ? '' : String(row.place)));
    if (row.renderer === null) {
      made.append(element('td', { colspan: run.renderers }, line(row.place)));
    } else {
      for (let renderer = 0; renderer < run.renderers; renderer++) made.append(cell(row, renderer));
    }
    return made;
  }));
  const pages = Math.ceil(rows.length / PAGE);
  $('pages').replaceChildren(...(pages < 2 ? [] : [element('span', {}, `Rows ${first} to ${Math.min(first + PAGE, rows.length) - 1} of ${rows.length}; the slider moves on. `)]));
}

function drawArrows() {
  const box = $('lanes').getBoundingClientRect();
  const at = (place) => {
    const row = document.querySelector(`tr[data-row="${rowOfPlace[place]}"]`);
    const shown = row && row.querySelector('.entry');
    if (!shown) return null;
    const spot = shown.getBoundingClientRect();
    return { left: spot.left - box.left, right: spot.right - box.left, y: spot.top + spot.height / 2 - box.top };
  };
  const made = [];
  const svg = (tag, attributes, text) => {
    const part = document.createElementNS('http://www.w3.org/2000/svg', tag);
    for (const [name, value] of Object.entries(attributes)) part.setAttribute(name, value);
    if (text) part.textContent = text;
    made.push(part);
  };
  const ends = {};
  run.entries.forEach((entry, place) => { if (entry.kind === 'fire' || entry.kind === 'lapse') ends[entry.post] = place; });
  run.entries.forEach((entry, place) => {
    if (entry.kind !== 'post') return;
    const from = at(place);
    const end = ends[place];
    if (!from || place >= state.place) return;
    if (end === undefined || end >= state.place || !at(end)) {
      svg('path', { class: 'open', d: `M ${from.left} ${from.y} h -14 v 18`, 'data-post': place });
      return;
    }
    const to = at(end);
    const lapse = run.entries[end].kind === 'lapse';
    const start = to.left >= from.left ? Math.min(from.left + 30, from.right) : from.left;
    svg('path', { class: lapse ? 'lapse' : 'fire', d: `M ${start} ${from.y + 6} C ${start} ${from.y + 40}, ${to.left - 22} ${to.y - 30}, ${to.left - 4} ${to.y}`, 'data-post': place, 'data-end': end });
    if (lapse) svg('text', { x: to.left - 12, y: to.y + 4 }, '✕');
    else svg('path', { d: `M ${to.left - 9} ${to.y - 5} L ${to.left - 2} ${to.y} L ${to.left - 10} ${to.y + 3}` });
  });
  $('arrows').style.height = `${$('lanes').scrollHeight}px`;
  $('arrows').replaceChildren(...made);
}

function drawTree() {
  const length = state.eyes === null ? state.place : heard(state.eyes, state.place);
  const windows = windowsAt(length);
  const inside = (parent) => Object.keys(windows).map(Number).filter((number) => windows[number].parent === parent);
  const list = (parent) => {
    const children = inside(parent);
    if (!children.length) return null;
    return element('ul', {}, ...children.map((number) => {
      const window = windows[number];
      const kept = state.eyes === null || window.home === state.eyes;
      const url = kept ? window.url : blankUrl(window.origin);
      const notes = [`${window.parent === null ? `group g${window.group}` : ''}`, window.name && `name ${JSON.stringify(window.name)}`,
        window.opener !== null && `opener n${window.opener}`, window.flags !== '-' && `flags ${window.flags}`, window.domain && `domain ${window.domain}`,
        window.closing && !window.gone && 'closing', window.gone && 'discarded'].filter(Boolean).join(', ');
      const loading = window.loading && (state.eyes === null || window.loading.home === state.eyes ? window.loading.url : blankUrl(window.loading.origin));
      return element('li', { class: window.gone ? 'gone' : '', 'data-nav': number },
        element('span', { class: 'window' }, element('b', {}, `n${number}`), ` d${window.doc} `,
          element('span', { class: 'badge', hue: window.home, title: `d${window.doc} lives in renderer ${window.home}` }, `r${window.home}`), ' ',
          element('code', { class: kept || url === window.url ? '' : 'blank', title: kept ? null : 'blanked for this renderer' }, url)),
        element('span', { class: 'note' }, `origin ${window.origin}${notes ? `, ${notes}` : ''}`),
        loading && element('span', { class: 'note' }, `loads d${window.loading.doc} for r${window.loading.home}: `, element('code', {}, loading)),
        list(number));
    }));
  };
  $('tree').replaceChildren(list(null) ?? element('p', {}, 'No window yet.'));
}

function drawHeard() {
  $('heard').replaceChildren(...heardOf.map((_, renderer) => {
    const length = heard(renderer, state.place);
    const homes = Object.entries(run.homes).filter(([, home]) => home === renderer).map(([doc]) => `d${doc}`);
    const late = state.place - length;
    return element('li', { 'data-renderer': renderer },
      element('span', { class: 'badge', hue: renderer }, `r${renderer}`),
      element('meter', { min: 0, max: Math.max(1, all), value: length }),
      element('span', { class: 'note' }, `heard ${length} of ${state.place}${late ? `, ${late} behind` : ''}; home of ${homes.slice(0, 12).join(' ') || 'nobody'}${homes.length > 12 ? ' ..' : ''}`));
  }));
}

function drawDetail() {
  for (const pressed of document.querySelectorAll('.act[aria-pressed="true"]')) pressed.setAttribute('aria-pressed', 'false');
  for (const row of document.querySelectorAll('tr.decides')) row.classList.remove('decides');
  if (state.act === null) return;
  const act = run.acts[state.act];
  const button = document.querySelector(`button[data-act="${state.act}"]`);
  if (button) button.setAttribute('aria-pressed', 'true');
  const facts = [['Act', element('code', {}, act.text)], ['Renderer', `r${act.renderer}, which had heard ${act.heard} entries`]];
  if (act.step) facts.push(['Step', element('code', {}, JSON.stringify(act.step))], ['In', element('code', {}, act.where)]);
  if (act.of) facts.push(['On', act.of]);
  if (act.answer) facts.push(['Answer', element('code', {}, act.answer)]);
  const reasons = act.reasons.map((reason) => element('li', {}, `${reason.words} `,
    ...reason.places.map((place) => element('div', {}, element('button', { type: 'button', 'data-goto': place }, String(place)), ' ',
      element('code', {}, lineFor(run.entries[place]).split(' ').slice(1).join(' '))))));
  $('detail').replaceChildren(element('dl', {}, ...facts.flatMap(([name, value]) => [element('dt', {}, name), element('dd', {}, value)])),
    element('h2', {}, 'Decided by'), element('ol', { id: 'reasons' }, ...reasons));
  for (const place of act.reasons.flatMap((reason) => reason.places)) {
    const row = document.querySelector(`tr[data-row="${rowOfPlace[place]}"]`);
    if (row) row.classList.add('decides');
  }
}

function draw() {
  const eyes = state.eyes;
  $('place').value = state.place;
  $('length').textContent = `after ${state.place} of ${all} entries`;
  const limit = eyes === null ? state.place : heard(eyes, state.place);
  for (const made of document.querySelectorAll('#rows tr')) {
    const row = rows[made.dataset.row];
    made.classList.toggle('later', row.after > state.place);
    made.classList.toggle('current', row.place !== null && row.place === state.place - 1);
    made.classList.toggle('unheard', row.place !== null && row.place < state.place && row.place >= limit);
  }
  drawTree();
  drawHeard();
  drawDetail();
  drawArrows();
}

function showRow(row) {
  const page = Math.floor(row / PAGE);
  if (page !== state.page) {
    state.page = page;
    drawRows();
  }
}

function moveTo(place) {
  state.place = Math.max(0, Math.min(all, place));
  showRow(state.place === 0 ? 0 : rowOfPlace[state.place - 1]);
  draw();
}

function choose(number) {
  state.act = Math.max(0, Math.min(run.acts.length - 1, number));
  state.place = Math.min(all, run.acts[state.act].heard);
  showRow(rowOfAct[state.act]);
  draw();
  const button = document.querySelector(`button[data-act="${state.act}"]`);
  if (button) { button.focus({ preventScroll: true }); button.scrollIntoView({ block: 'nearest' }); }
}

function look(eyes) {
  state.eyes = eyes;
  document.querySelector(`#eyes input[value="${eyes === null ? 'all' : eyes}"]`).checked = true;
  drawRows();
  draw();
}

$('name').textContent = run.name;
$('status').textContent = run.status;
$('place').max = all;
$('heads').append(element('th', {}, 'place'), ...heardOf.map((_, renderer) => element('th', { class: 'lane', hue: renderer }, `renderer r${renderer}`)));
for (const eyes of [null, ...heardOf.keys()]) {
  const input = element('input', { type: 'radio', name: 'eyes', value: eyes === null ? 'all' : eyes });
  input.addEventListener('change', () => look(eyes));
  $('eyes').append(element('label', {}, input, eyes === null ? ' everybody' : ` r${eyes}`));
}
$('place').addEventListener('input', () => moveTo(Number($('place').value)));
$('back').addEventListener('click', () => moveTo(state.place - 1));
$('on').addEventListener('click', () => moveTo(state.place + 1));
$('rows').addEventListener('click', (event) => {
  const button = event.target.closest('button[data-act]');
  if (button) choose(Number(button.dataset.act));
});
$('detail').addEventListener('click', (event) => {
  const button = event.target.closest('button[data-goto]');
  if (button) moveTo(Number(button.dataset.goto) + 1);
});
document.addEventListener('keydown', (event) => {
  if (event.ctrlKey || event.altKey || event.metaKey) return;
  const steps = {
    '[': () => moveTo(state.place - 1), ']': () => moveTo(state.place + 1),
    j: () => choose(state.act === null ? 0 : state.act + 1), k: () => choose(state.act === null ? 0 : state.act - 1),
    e: () => look(state.eyes === null ? 0 : state.eyes + 1 < run.renderers ? state.eyes + 1 : null),
  };
  if (steps[event.key]) { event.preventDefault(); steps[event.key](); }
});
addEventListener('resize', drawArrows);
look(null);
