// Rows of define, set, delete, describe and keys on an ordinary object, with node's own answers
// (Reflect.defineProperty, Reflect.set, Reflect.deleteProperty, Reflect.getOwnPropertyDescriptor, Reflect.ownKeys).
// A row is a line of calls parted by `; `, and its answers are a line of the same form.
//   node tools/property-rows.js write | check      in crates/property_rows/stdin and stdout, below the heading `# node`
'use strict';
const fs = require('fs');
const path = require('path');
const folder = path.join(__dirname, '..', 'crates', 'property_rows');

const values = { undefined: undefined, null: null, true: true, false: false, 1: 1, 2: 2, '-3': -3, x: 'x' };
const fields = { v: 'value', w: 'writable', e: 'enumerable', c: 'configurable' };

function answer(object, call) {
  const [op, key, ...parts] = call.split(' ');
  switch (op) {
    case 'define': {
      const change = {};
      for (const part of parts) {
        const [field, word] = part.split('=');
        change[fields[field]] = values[word];
      }
      return String(Reflect.defineProperty(object, key, change));
    }
    case 'set': return String(Reflect.set(object, key, values[parts[0]]));
    case 'delete': return String(Reflect.deleteProperty(object, key));
    case 'keys': return JSON.stringify(Reflect.ownKeys(object));
    case 'describe': {
      const d = Reflect.getOwnPropertyDescriptor(object, key);
      if (d === undefined) return 'undefined';
      const value = d.value === undefined ? 'undefined' : JSON.stringify(d.value);
      return `data value=${value} w=${d.writable} e=${d.enumerable} c=${d.configurable}`;
    }
  }
  throw new Error(call);
}

// Each state of a property, and one call on it.
function singles() {
  const rows = [];
  const calls = ['set a 1', 'set a 2', 'delete a', 'define a'];
  for (const part of ['v=1', 'v=2', 'v=undefined', 'w=true', 'w=false', 'e=true', 'e=false', 'c=true', 'c=false', 'v=2 w=false', 'v=1 e=true c=false']) {
    calls.push(`define a ${part}`);
  }
  for (const call of calls) rows.push(`${call}; describe a; keys`);
  for (const w of [true, false]) for (const e of [true, false]) for (const c of [true, false]) {
    for (const call of calls) rows.push(`define a v=1 w=${w} e=${e} c=${c}; ${call}; describe a`);
  }
  return rows;
}

// Runs of calls on three keys, by a small generator of numbers that gives the same on each machine.
function runs() {
  let state = 20260101;
  const pick = (list) => {
    state = (Math.imul(state, 1103515245) + 12345) & 0x7fffffff;
    return list[(state >> 8) % list.length];
  };
  const words = Object.keys(values);
  const call = () => {
    const key = pick(['a', 'b', 'c']);
    switch (pick(['define', 'define', 'define', 'set', 'set', 'delete', 'describe'])) {
      case 'set': return `set ${key} ${pick(words)}`;
      case 'delete': return `delete ${key}`;
      case 'describe': return `describe ${key}`;
      default: {
        let parts = '';
        if (pick([true, false])) parts += ` v=${pick(words)}`;
        for (const field of ['w', 'e', 'c']) {
          const given = pick(['', '', 'true', 'true', 'false']);
          if (given) parts += ` ${field}=${given}`;
        }
        return `define ${key}${parts}`;
      }
    }
  };
  const rows = [];
  for (let row = 0; row < 80; row++) {
    const calls = [];
    for (let step = 0; step < 8; step++) calls.push(call());
    rows.push([...calls, 'describe a', 'describe b', 'describe c', 'keys'].join('; '));
  }
  return rows;
}

const rows = [...singles(), ...runs()];
const answers = rows.map((row) => {
  const object = {};
  return row.split('; ').map((call) => answer(object, call)).join('; ');
});

// The text with these lines in place of those between the heading `# node` and the next heading.
function replaced(text, lines) {
  const old = text.split('\n');
  const start = old.findIndex((line) => line.startsWith('# node')) + 1;
  const length = old.slice(start).findIndex((line) => line.startsWith('#'));
  return [...old.slice(0, start), ...lines, ...old.slice(start + length)].join('\n');
}

let differs = 0;
for (const [name, lines] of Object.entries({ stdin: rows, stdout: answers })) {
  const file = path.join(folder, name);
  const text = fs.readFileSync(file, 'utf8');
  const want = replaced(text, lines);
  if (process.argv[2] === 'write') fs.writeFileSync(file, want);
  else if (text !== want) { console.log(`${file} isn't what node gives`); differs = 1; }
}
console.log(`${rows.length} rows of calls on ordinary objects`);
process.exit(differs);
