// Runs the steps of one document on the real objects. What it needs of the platform it keeps before any step has run, and it
// leaves no name behind. It asks its coordinator for items, performs them, and tells the answers with its next question.
(function (config) {
  'use strict';
  const { get, set, has, ownKeys, defineProperty, deleteProperty, getOwnPropertyDescriptor, getPrototypeOf, setPrototypeOf,
    isExtensible, preventExtensions, apply } = Reflect;
  const { parse, stringify } = JSON;
  const self = window;
  const ownLocation = location;
  const ask = fetch.bind(self);
  const openWindow = open.bind(self);
  const later = setTimeout.bind(self);
  const tell = navigator.sendBeacon.bind(navigator);
  const page = document;
  const tagOf = Function.prototype.call.bind(Object.prototype.toString);
  const own = { close, focus, blur, postMessage };
  const symbols = { '@@toStringTag': Symbol.toStringTag, '@@hasInstance': Symbol.hasInstance, '@@isConcatSpreadable': Symbol.isConcatSpreadable };
  const symbolText = new Map(Object.entries(symbols).map(([text, symbol]) => [symbol, text]));
  const keyOf = (text) => symbols[text] ?? text;

  const known = new Set(config.windowKeys.concat(config.locationKeys, config.keys));
  // What a Window and a Location here have beyond the keys that the model knows: properties of their own, and inherited ones.
  const beyond = (object, profile) => {
    const found = config.keys.filter((key) => !profile.includes(key) && has(object, keyOf(key)));
    const isOwn = (key) => getOwnPropertyDescriptor(object, keyOf(key)) !== undefined;
    return { own: new Set(found.filter(isOwn)), inherited: new Set(found.filter((key) => !isOwn(key))) };
  };
  const extras = { window: beyond(self, config.windowKeys), location: beyond(ownLocation, config.locationKeys) };
  const windows = [self];
  const locations = [];
  const frames = [];
  const messages = [];
  const registers = new Map();
  let waiting = null;

  addEventListener('message', (event) => {
    messages.push({ data: event.data, origin: event.origin, source: event.source });
    if (waiting) waiting();
  });

  function kindOf(value) {
    if (windows.includes(value)) return 'window';
    if (locations.includes(value)) return 'location';
    let prototype;
    try { prototype = getPrototypeOf(value); } catch { return 'record'; }
    if (prototype === null) {
      try { return typeof value.closed === 'boolean' ? 'window' : 'location'; } catch { return 'location'; }
    }
    const tag = tagOf(value);
    if (tag === '[object Window]') return 'window';
    if (tag === '[object Location]') return 'location';
    return tag === '[object Array]' ? 'list' : 'record';
  }

  const isObject = (value) => typeof value === 'object' && value !== null;
  const isPlatform = (value) => isObject(value) && ['window', 'location'].includes(kindOf(value));

  function numbered(list, value) {
    if (!list.includes(value)) list.push(value);
    return list.indexOf(value);
  }

  const byCodePoints = (a, b) => {
    const [one, other] = [[...a], [...b]];
    for (let at = 0; at < one.length && at < other.length; at++) {
      if (one[at] !== other[at]) return one[at].codePointAt(0) - other[at].codePointAt(0);
    }
    return one.length - other.length;
  };

  function textOf(value) {
    if (typeof value === 'string') return stringify(value);
    if (typeof value === 'function') return `function ${value.name}`;
    if (!isObject(value)) return String(value);
    switch (kindOf(value)) {
      case 'window': return `window #${numbered(windows, value)}`;
      case 'location': return `location #${numbered(locations, value)}`;
      case 'list': return `[${Array.from(value, textOf).join(',')}]`;
      default: return `{${Object.keys(value).sort(byCodePoints).map((key) => `${stringify(key)}:${textOf(value[key])}`).join(',')}}`;
    }
  }

  function described(descriptor) {
    if (descriptor === undefined) return 'undefined';
    const rest = `e=${descriptor.enumerable} c=${descriptor.configurable}`;
    return 'value' in descriptor ? `data value=${textOf(descriptor.value)} w=${descriptor.writable} ${rest}`
      : `accessor get=${descriptor.get !== undefined} set=${descriptor.set !== undefined} ${rest}`;
  }

  function keysOf(object, foreign) {
    const texts = ownKeys(object).map((key) => typeof key === 'symbol' ? symbolText.get(key) ?? '@@other' : key);
    const index = (key) => /^(0|[1-9][0-9]*)$/.test(key);
    const more = foreign ? null : extras[kindOf(object)];
    return stringify(foreign ? texts : texts.filter((key) => (known.has(key) && !more.own.has(key)) || index(key)));
  }

  const register = (name) => name === 'window' ? self : registers.get(name);
  const operand = (value) => isObject(value) && typeof value.$ === 'string' && Object.keys(value).length === 1 ? register(value.$) : value;

  function frame(step) {
    const made = page.createElement('iframe');
    if (step.name !== undefined) made.setAttribute('name', step.name);
    if (step.sandbox !== undefined) made.setAttribute('sandbox', step.sandbox);
    if (step.url) made.setAttribute('src', step.url);
    page.body.append(made);
    frames.push(made);
    return made.contentWindow;
  }

  function follow(step) {
    const made = page.createElement('a');
    made.setAttribute('href', step.url);
    if (step.target !== undefined) made.setAttribute('target', step.target);
    if (step.rel !== undefined) made.setAttribute('rel', step.rel);
    made.textContent = 'link';
    page.body.append(made);
    made.click();
    made.remove();
  }

  // What a step answers: a value, or a text. `notes` takes what makes the answer one that can't be compared.
  function perform(step, notes) {
    let object;
    if ('of' in step) {
      object = register(step.of);
      if (!isPlatform(object)) throw new TypeError('no object of the platform');
      notes.own = object === self || getPrototypeOf(object) !== null;
      if (notes.own && 'key' in step) {
        const more = extras[kindOf(object)];
        const looksUp = ['get', 'has', 'set', 'call'].includes(step.op);
        if (more.own.has(step.key)) notes.extra = true;
        if (looksUp && more.inherited.has(step.key) && !getOwnPropertyDescriptor(object, keyOf(step.key))) notes.extra = true;
      }
    }
    const key = 'key' in step ? keyOf(step.key) : undefined;
    switch (step.op) {
      case 'let': return { value: operand(step.value) };
      case 'get': return { value: get(object, key) };
      case 'has': return { text: String(has(object, key)) };
      case 'describe': return { text: described(getOwnPropertyDescriptor(object, key)) };
      case 'keys': return { text: keysOf(object, !notes.own) };
      case 'proto': {
        const prototype = getPrototypeOf(object);
        return { text: prototype === null ? 'null' : `prototype ${tagOf(prototype).slice(8, -1)}` };
      }
      case 'setproto': return { text: String(setPrototypeOf(object, null)) };
      case 'extensible': return { text: String(isExtensible(object)) };
      case 'prevent': return { text: String(preventExtensions(object)) };
      case 'set': return { text: String(set(object, key, operand(step.value))) };
      case 'define': {
        const change = {};
        if ('value' in step) change.value = operand(step.value);
        for (const part of ['writable', 'enumerable', 'configurable']) if (part in step) change[part] = step[part];
        return { text: String(defineProperty(object, key, change)) };
      }
      case 'delete': return { text: String(deleteProperty(object, key)) };
      case 'call': {
        const method = get(object, key);
        if (typeof method === 'function' && (method.name !== step.key || (object === self && own[step.key] && method !== own[step.key]))) notes.moved = true;
        return { value: apply(method, object, step.args.map(operand)) };
      }
      case 'sync': return { value: undefined };
      case 'frame': return { value: frame(step) };
      case 'drop': {
        if (step.index < frames.length) frames.splice(step.index, 1)[0].remove();
        return { value: undefined };
      }
      case 'open': return { value: openWindow(step.url ?? '', step.target ?? '_blank', step.noopener ? 'noopener' : '') };
      case 'link': follow(step); return { value: undefined };
      case 'domain': page.domain = step.value; return { value: undefined };
    }
    throw new Error(`no step ${step.op}`);
  }

  function answer(step) {
    const notes = {};
    let made;
    try {
      made = perform(step, notes);
      if ('to' in step) registers.set(step.to, made.value);
      return { answer: made.text ?? textOf(made.value), notes };
    } catch (problem) {
      if ('to' in step) registers.set(step.to, undefined);
      return { answer: String(problem?.name ?? problem), why: String(problem?.message ?? ''), notes };
    }
  }

  function clicked(step) {
    return new Promise((done) => {
      const button = page.createElement('button');
      button.textContent = 'step';
      button.setAttribute('name', `d${config.doc}`);
      button.setAttribute('style', 'position:fixed;top:0;left:0;width:100px;height:40px;z-index:9');
      button.addEventListener('click', () => { const made = answer(step); button.remove(); done(made); });
      page.body.append(button);
    });
  }

  async function fired(wait) {
    if (messages.length === 0) {
      await new Promise((done) => { waiting = done; later(done, wait); });
      waiting = null;
    }
    const message = messages.shift();
    if (!message) return { answer: 'no message', notes: {} };
    for (const name of ['data', 'origin', 'source']) registers.set(name, message[name]);
    return { answer: `${textOf(message.data)} from ${textOf(message.origin)} by ${textOf(message.source)}`, notes: {} };
  }

  async function item(work) {
    if ('step' in work) return work.user ? clicked(work.step) : answer(work.step);
    if ('fire' in work) return fired(work.fire);
    if ('pause' in work) return new Promise((done) => later(done, work.pause));
    return { answer: `[${messages.map((message) => textOf(message.data)).join(',')}]`, notes: { count: messages.length, path: pathHere() } };
  }

  // The indices of the frames that lead here from the top.
  function pathHere() {
    const path = [];
    for (let window = self; window.parent && window.parent !== window; window = window.parent) {
      const around = window.parent;
      path.unshift(Array.from({ length: around.length }, (_, index) => index).find((index) => around[index] === window) ?? -1);
    }
    return path;
  }

  async function run() {
    let told = { doc: config.doc, token: config.token, batch: 0, answers: [] };
    for (;;) {
      let next;
      try {
        next = await (await ask(config.control, { method: 'POST', body: stringify(told), cache: 'no-store' })).text();
      } catch {
        await new Promise((done) => later(done, 30));
        continue;
      }
      next = parse(next);
      if (next.stop) return;
      if (!next.items) continue;
      const answers = [];
      for (const work of next.items) {
        answers.push(await item(work));
        // a browser may let a document that is being replaced ask for nothing more, so its answers go another way
        if (work.leaves) tell(config.control, stringify({ doc: config.doc, token: config.token, batch: next.batch, answers, beacon: true }));
      }
      told = { doc: config.doc, token: config.token, batch: next.batch, answers, waiting: messages.length };
    }
  }
  run();
})
