// The page: it asks the proved core, and shows what it answers.
'use strict';
const $ = (id) => document.getElementById(id);
const FORMAT = { text: 0, svg: 2 };
const MOST_NODES = 200;
const MOST_LINK = 8192;
// A script that is typed runs by itself once no key was pressed for so many milliseconds, if it has so many lines at most.
const REST = 400;
const MOST_TYPED = 2000;
// `compiled` is the module; `script` the text of the last run, and `opened` the name of the typed script's file, if it has one;
// `steps` its lines, as far as they were played, of which one is shown; `pictured` the event whose picture is. `found` is the
// exploration that is shown, if one is: then the last run is that of an outcome's schedule.
let compiled, examples = {}, script = '', opened = '', steps = [], at = 0, pages = 16, pictured, resting, found;

// ---- the core

async function load() {
  const packed = $('module').textContent.trim();
  if (packed) {
    const stream = new Blob([Uint8Array.from(atob(packed), (c) => c.charCodeAt(0))]).stream();
    return WebAssembly.compile(await new Response(stream.pipeThrough(new DecompressionStream('gzip'))).arrayBuffer());
  }
  return WebAssembly.compileStreaming(fetch('sysmem.wasm'));
}

// Makes one call in a new instance, so that nothing is left of the call before. Asks again where the text
// needs more room than there was. A list of numbers is passed by its place.
function ask(name, text, ...more) {
  const bytes = new TextEncoder().encode(text);
  for (let room = Math.max(1 << 18, Math.min(1 << 24, 8 * bytes.length)); ;) {
    const core = new WebAssembly.Instance(compiled, {}).exports;
    const [from, out, words, list] = [bytes.length + 1, room, 24, 64].map((n) => core.page_alloc(BigInt(n)) >>> 0);
    if (!from || !out || !words || !list) return { status: 4, line: 0, text: '', reason: 'no memory\n' };
    new Uint8Array(core.memory.buffer, from, bytes.length).set(bytes);
    new BigUint64Array(core.memory.buffer, list, 8).set(more.flat().map(BigInt));
    const passed = more.map((one) => (Array.isArray(one) ? list : one));
    const status = core[name](pages, from, BigInt(bytes.length), ...passed, out, BigInt(room), words);
    const told = new DataView(core.memory.buffer, words, 24);
    const [length, line, behind] = [0, 8, 16].map((place) => Number(told.getBigUint64(place, true)));
    const answer = (at, size) => new TextDecoder().decode(new Uint8Array(core.memory.buffer, at, size));
    if (length + behind <= room) return { status, line, text: answer(out, length), reason: answer(out + length, behind) };
    room = length + behind;
  }
}

// The picture behind the event; behind event 0 nothing was made yet.
const draw = (text, event, format) => ask('sysmem_draw', event === 0 ? '' : text, event, FORMAT[format]);

// ---- lines, replies and facts

const isRemark = (line) => line === '' || line.startsWith('#');
const isView = (line) => line.startsWith('show ') || line.split(' ')[1] === 'poll';
// Whether the script is one of actors: its file is named so, or it has a claim, or a line that waits since it is repeated.
const isOfActors = (text) => opened.endsWith('.actors') || /^#!(?!\/)|^(\S+ collect \S+)\n\1$/m.test(text);

// The program's words for a run that stopped.
function stopped({ status, line, reason }) {
  if (status === 3) return `bad line ${line}: ${reason}`;
  if (status === 4) return 'no memory'; // a script has fewer lines than a core counts events
  return 'the script is longer than 16777216 bytes';
}

// The lines of the script, each with its reply, its facts and its event, and the line at which the run stopped.
function play(text) {
  const told = ask('sysmem_explain', text);
  const answers = told.text.split('\n');
  answers.pop();
  const lines = (text.endsWith('\n') ? text.slice(0, -1) : text).split('\n'), done = [];
  let next = 0, event = 0;
  for (const own of lines) {
    if (own.startsWith('  ')) {
      done.push({ text: own, passed: true, event });
      continue;
    }
    if (next === answers.length) {
      if (told.status !== 0) done.push({ text: own, bad: stopped(told), event });
      return done;
    }
    next += 1;
    const step = { text: own, facts: [], isEvent: false };
    while (next < answers.length && answers[next].startsWith('  ')) {
      const answer = answers[next++];
      if (answer.startsWith('    event   ')) continue; // the page tells the event itself
      if (answer.startsWith('    ')) step.facts.push(answer.slice(4)); else step.reply = answer.slice(2);
    }
    if (step.reply !== undefined && !isView(own)) {
      step.isEvent = true;
      event += 1;
    }
    done.push({ ...step, event });
  }
  return done;
}

// ---- the picture

// The last text pictures, by event: what a step forward compares with was drawn by the step before.
const drawn = new Map();
function rows_of(event) {
  if (!drawn.has(event)) {
    if (drawn.size > 3) drawn.delete(drawn.keys().next().value);
    drawn.set(event, draw(script, event, 'text').text);
  }
  return drawn.get(event);
}

// The facts of a text picture: its nodes, buffers, pool and firings.
function seen(text) {
  const found = { nodes: [], held: [], pool: '', fired: [] };
  for (const row of text.split('\n').slice(1)) {
    const buffer = /^(\S+\.\d+) +[✗○·]?!? *(pages? [^;]*?)(?:; kept by (.*))?$/.exec(row);
    const fired = /^tracker (\S+) fired at event (\d+)$/.exec(row);
    const node = /^([│├└─═~ ]*)([a-z][a-z0-9]*(?: \([a-z0-9]+\))?) +([✗○·])?(!)? *(.*)$/.exec(row);
    if (row.startsWith('pool ')) found.pool = row.slice(5);
    else if (fired) found.fired.push(fired.slice(1));
    else if (buffer) found.held.push(buffer.slice(1));
    else if (node) found.nodes.push({ depth: node[1].length / 4, name: node[2], mark: node[3] ?? '', now: node[4] === '!', facts: node[5], row });
  }
  return found;
}

const tell = (node) => `${node.name}: ${node.facts.split('; ').slice(0, 2).join(', ')}`;

// The nodes that the event changed since the picture before it, and those on the way from each to its root.
function changed(nodes, event) {
  const told = (node) => `${node.name} ${node.mark} ${node.facts}`;
  const before = new Set(seen(rows_of(event - 1)).nodes.map(told));
  const way = [], kept = new Set();
  for (const node of nodes) {
    way.length = node.depth;
    way.push(node);
    const is_changed = node.now || !before.has(told(node));
    for (let i = way.length - 1; is_changed && i >= 0 && !kept.has(way[i]); i--) kept.add(way[i]);
  }
  return nodes.filter((node) => kept.has(node));
}

// Draws the trees behind the event. Of more than MOST_NODES nodes only those are listed that the event changed, with
// the way to their roots.
function picture(event) {
  const rows = rows_of(event), all = seen(rows);
  $('rows').textContent = rows;
  const name = all.nodes.length ? `Trees behind event ${event}. ${all.nodes.map(tell).join('; ')}` : 'No nodes yet';
  if (all.nodes.length > MOST_NODES) {
    const listed = changed(all.nodes, event), list = document.createElement('pre');
    list.textContent = [...listed.map((n) => n.row), `${all.nodes.length - listed.length} more nodes, which this event did not change`].join('\n');
    list.tabIndex = 0;
    list.setAttribute('role', 'group');
    list.setAttribute('aria-label', `Nodes that event ${event} changed`);
    $('tree').replaceChildren(list);
    return all;
  }
  const parsed = new DOMParser().parseFromString(draw(script, event, 'svg').text, 'image/svg+xml').documentElement;
  if (parsed.nodeName !== 'svg') throw new Error('the picture was not drawn');
  const svg = document.importNode(parsed, true);
  svg.setAttribute('role', 'img');
  svg.setAttribute('aria-label', name);
  svg.classList.toggle('fit', Number(svg.getAttribute('width')) <= 1.5 * $('tree').clientWidth);
  $('tree').replaceChildren(svg);
  scroll_to_change(svg);
  return all;
}

// Scrolls a picture that is wider than its frame to what the event made fail, or to what else it changed: boxes of thick lines,
// of which that of the origin is filled.
function scroll_to_change(svg) {
  const boxes = [...svg.querySelectorAll('rect[stroke-width="3.5"]')];
  const box = boxes.find((one) => one.getAttribute('fill') === one.getAttribute('stroke')) ?? boxes[0];
  if (!box) return;
  const frame = $('tree').getBoundingClientRect(), { left, right } = box.getBoundingClientRect();
  $('tree').scrollLeft += (left + right - frame.left - frame.right) / 2;
}

// ---- the page

function row(body, cells) {
  const r = body.insertRow();
  cells.forEach((c) => { r.insertCell().textContent = c; });
}

function tables(all) {
  $('pool').textContent = all.pool ? `Pool: ${all.pool}` : '';
  $('held').replaceChildren();
  $('fired').replaceChildren();
  all.held.forEach(([buffer, where, who]) => row($('held'), [buffer, where, who ?? 'nobody']));
  all.fired.forEach(([tracker, event]) => row($('fired'), [tracker, `at event ${event}`]));
}

const halted = (why) => { $('said').textContent = `The core stopped: ${why}. The next run begins anew.`; };

// Does what asks the core, or tells in one line why that stopped.
function with_core(act) {
  try {
    act();
  } catch (error) {
    halted(error.message);
  }
}

// A sentence in which each number after this word is a link, which shows what has the number.
function linked(words, word, go) {
  const p = document.createElement('p');
  for (const part of words.split(new RegExp(`(\\b${word} \\d+\\b)`))) {
    const number = new RegExp(`^${word} (\\d+)$`).exec(part)?.[1];
    if (number === undefined) {
      p.append(part);
      continue;
    }
    const a = Object.assign(document.createElement('a'), { href: `#${word}=${number}`, textContent: part });
    a.addEventListener('click', (e) => { e.preventDefault(); go(Number(number)); });
    p.append(a);
  }
  return p;
}

function sentences(k) {
  const step = steps[k];
  if (step.bad) return [`Line ${k + 1}: ${step.text}`, `The run stops here: ${step.bad}.`];
  const words = [`${step.isEvent ? `Event ${step.event}` : `Line ${k + 1}`}: ${step.text || '(empty)'}`];
  if (step.passed) words.push('Passed over: the line begins with two spaces.');
  if (step.reply !== undefined) words.push(`Reply: ${step.reply}`);
  return [...words, ...(step.facts ?? [])];
}

function show(k) {
  if (!steps.length) return;
  const lines = $('lines').children;
  lines[at]?.removeAttribute('aria-current');
  at = Math.max(0, Math.min(k, last()));
  const step = steps[at];
  $('slide').value = at;
  $('at').textContent = at + 1;
  $('slide').setAttribute('aria-valuetext', `line ${at + 1}: ${step.text}`);
  lines[at].setAttribute('aria-current', 'step');
  $('lines').scrollTop = lines[at].offsetTop - $('lines').offsetTop - 160;
  const [title, ...facts] = sentences(at);
  $('said').replaceChildren(Object.assign(document.createElement('p'), { textContent: title }), ...facts.map((fact) => linked(fact, 'line', (line) => show(line - 1))));
  with_core(() => {
    if (pictured !== step.event) tables(picture(step.event));
    pictured = step.event;
  });
  link();
}

// Puts the example, the line and the outcome into the address, or the script itself where it is no example and short.
function link() {
  const name = $('pick').value, text = $('script').value, line = steps.length ? `&line=${at + 1}` : '';
  let hash = '';
  if (examples[name] === text) hash = `example=${name}${line}`;
  else if (text.length <= MOST_LINK) hash = `script=${encode(text)}${line}`;
  if (pages !== 16 && hash) hash += `&pages=${pages}`;
  if (found && hash) {
    const unusual = Object.entries(found.options).filter(([id, value]) => value !== USUAL[id]);
    hash += `&outcome=${found.outcome ?? found.wanted}${unusual.map(([id, value]) => `&${id}=${value}`).join('')}`;
  }
  try {
    history.replaceState(null, '', hash ? `#${hash}` : location.pathname);
  } catch {
    // A page from disk may keep its address.
  }
}

const encode = (text) => btoa(String.fromCharCode(...new TextEncoder().encode(text))).replace(/\+/g, '-').replace(/\//g, '_').replace(/=+$/, '');
function decode(word) {
  try {
    return new TextDecoder().decode(Uint8Array.from(atob(word.replace(/-/g, '+').replace(/_/g, '/')), (c) => c.charCodeAt(0)));
  } catch {
    return '';
  }
}

function listed(step, i) {
  const li = document.createElement('li'), say = document.createElement('span');
  li.append(Object.assign(document.createElement('span'), { textContent: i + 1 }), say);
  say.append(step.text);
  const answer = step.reply ?? step.bad;
  if (answer !== undefined) say.append(Object.assign(document.createElement('b'), { textContent: answer }));
  li.className = step.bad ? 'bad' : fails(step) ? 'fails' : step.passed || isRemark(step.text) ? 'remark' : '';
  return li;
}

const last = () => steps.length - 1;
const fails = (step) => step.facts?.some((fact) => / fails, /.test(fact));
// The first line at which something failed, or the last one.
const first_failure = () => (steps.some(fails) ? steps.findIndex(fails) : last());
// The next line at which something failed; after the last such line the first again.
function next_failure() {
  const next = steps.findIndex((step, i) => i > at && fails(step));
  return next >= 0 ? next : first_failure();
}

// Saves the picture that is shown: an SVG image, or text where the trees are too large for one.
function save() {
  const svg = $('tree').querySelector('svg');
  const [text, type, ending] = svg
    ? [new XMLSerializer().serializeToString(svg), 'image/svg+xml', 'svg'] : [$('rows').textContent, 'text/plain', 'txt'];
  const a = document.createElement('a');
  a.href = URL.createObjectURL(new Blob([text], { type }));
  a.download = `${opened.replace(/\.\w+$/, '') || $('pick').value || 'script'}.${steps[at]?.event ?? 0}.${ending}`;
  a.click();
  URL.revokeObjectURL(a.href);
}

// Plays a script from a file.
async function open_file(file) {
  $('script').value = await file.text();
  opened = file.name;
  run(first_failure);
}

// Plays the script that is typed, as far as the line of the cursor, once no more keys come.
function typed() {
  clearTimeout(resting);
  const { value, selectionStart } = $('script');
  resting = setTimeout(() => {
    if (value.split('\n').length <= MOST_TYPED) run(() => value.slice(0, selectionStart).split('\n').length - 1);
  }, REST);
}

// The number that was typed, within these bounds.
function bounded(id, most, usual) {
  $(id).value = Math.min(most, Math.max(1, Math.trunc(Number($(id).value)) || usual));
  return Number($(id).value);
}

// Ends what runs, and reads what is typed.
function begin_run() {
  clearTimeout(resting);
  [...asides.keys()].forEach(leave);
  pages = bounded('pages', 1048576, 16);
  found = undefined;
  $('orders').hidden = true;
  $('of').textContent = '';
  return $('script').value.replace(/\n?$/, '\n');
}

const tell_time = (what, begun) => { $('time').textContent = `${opened && `${opened}: `}${what} in ${(performance.now() - begun).toFixed(0)} ms`; };

// Plays this text, and shows one of its lines.
function show_run(text, line, played = () => play(text)) {
  script = text;
  drawn.clear();
  pictured = undefined;
  with_core(() => {
    steps = played();
    $('lines').replaceChildren(...steps.map(listed));
    $('slide').max = Math.max(0, last());
    $('failure').disabled = !steps.some(fails);
    $('failure').textContent = $('failure').disabled ? 'Nothing fails' : 'Next failure';
    show(line());
  });
}

// Plays the script, and shows this line of it; explores it, if it is one of actors.
function run(line = last) {
  if (isOfActors($('script').value)) return explore();
  const begun = performance.now(), text = begin_run();
  show_run(text, line);
  tell_time(`${steps.length} lines`, begun);
}

// Puts the example that is chosen in the place of the script.
function pick() {
  $('script').value = examples[$('pick').value] ?? '';
  opened = '';
}

// Plays what the address names, and shows its line.
function run_address() {
  const wanted = new URLSearchParams(location.hash.slice(1));
  if (examples[wanted.get('example')] !== undefined) $('pick').value = wanted.get('example');
  pick();
  if (wanted.has('script')) $('script').value = decode(wanted.get('script'));
  $('pages').value = wanted.get('pages') ?? 16;
  for (const [id, usual] of Object.entries(USUAL)) $(id)[$(id).type === 'checkbox' ? 'checked' : 'value'] = Number(wanted.get(id) ?? usual);
  const number = Math.trunc(Number(wanted.get('line')));
  const line = number >= 1 ? () => number - 1 : wanted.has('line') || wanted.has('script') ? last : first_failure;
  if (wanted.has('outcome')) explore(Math.max(0, Math.trunc(Number(wanted.get('outcome'))) || 0), line); else run(line);
}

function begin_controls() {
  window.addEventListener('hashchange', run_address);
  $('pick').addEventListener('change', () => { pick(); run(first_failure); });
  $('script').addEventListener('input', typed);
  $('run').addEventListener('click', () => run());
  $('explore').addEventListener('click', () => explore());
  $('stop').addEventListener('click', stop);
  $('as-text').addEventListener('toggle', show_report);
  $('script').addEventListener('keydown', (e) => { if (e.key === 'Enter' && (e.ctrlKey || e.metaKey)) { e.preventDefault(); run(); } });
  $('slide').addEventListener('input', () => show(Number($('slide').value)));
  $('back').addEventListener('click', () => show(at - 1));
  $('on').addEventListener('click', () => show(at + 1));
  $('failure').addEventListener('click', () => show(next_failure()));
  $('save').addEventListener('click', save);
  $('open').addEventListener('click', () => $('file').click());
  $('file').addEventListener('change', () => { if ($('file').files.length) open_file($('file').files[0]); });
  $('lines').addEventListener('click', (e) => {
    const li = e.target.closest('li');
    if (li) show([...$('lines').children].indexOf(li));
  });
  $('lines').addEventListener('keydown', (e) => {
    const to = { ArrowUp: at - 1, ArrowDown: at + 1, Home: 0, End: last() }[e.key];
    if (to !== undefined) { e.preventDefault(); show(to); }
  });
}

async function begin() {
  try {
    if (typeof BigInt !== 'function') throw new Error('BigInt is missing');
    compiled = await load();
  } catch (error) {
    $('said').textContent = `This browser can't run the core: ${error.message}. \`sysmem explain\` and \`sysmem draw\` tell the same.`;
    return;
  }
  examples = JSON.parse($('examples').textContent);
  Object.keys(examples).forEach((name) => $('pick').append(new Option(name, name)));
  begin_controls();
  run_address();
  document.documentElement.dataset.ready = 'yes';
}
begin();
