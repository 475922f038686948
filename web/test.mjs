// Tries the page in a browser.
//   node test.mjs chromium|firefox PAGE.html SMALL.html EXAMPLES [SCREENSHOTS]
// SMALL.html is the page over a module that may take four MiB alone. In Firefox the test of names and contrasts is left out,
// since it asks what only DevTools tell.
import { readFileSync, readdirSync, writeFileSync } from 'node:fs';
import { join } from 'node:path';
import assert from 'node:assert/strict';

const [kind, page, small, examples, pictures] = process.argv.slice(2);
const { start } = await import(`./${kind}.mjs`);

const picked = (name) => `$('pick').value = '${name}'; $('pick').dispatchEvent(new Event('change'));`;

// What the page is to say of each line of an explained script: its number, or that of its event, its reply, and its facts.
function sentences_of(explained) {
  const told = [];
  let event = 0;
  for (const row of explained.slice(0, -1).split('\n')) {
    if (!row.startsWith('  ')) {
      told.push([`Line ${told.length + 1}: ${row || '(empty)'}`]);
      continue;
    }
    const words = told.at(-1), is_reply = !row.startsWith('    ');
    if (is_reply && !/: (show|\S+ poll) /.test(words[0])) words[0] = words[0].replace(/^Line \d+/, `Event ${event += 1}`);
    if (row.startsWith('    event   ')) continue;
    words.push(is_reply ? `Reply: ${row.slice(2)}` : row.slice(4));
  }
  return told;
}

// Each line of an example can be shown, and what is said of it is what `sysmem explain` tells. Replies are those of `run`, also
// where the explanation itself is played.
async function example_texts({ value }) {
  for (const file of readdirSync(examples).filter((f) => f.endsWith('.script'))) {
    const name = file.replace('.script', '');
    const [out, explained] = ['out', 'explained'].map((ending) => readFileSync(join(examples, `${name}.${ending}`), 'utf8'));
    const replies = "steps.filter((s) => s.reply !== undefined).map((s) => s.reply + '\\n').join('')";
    const [told, said] = await value(`(() => { ${picked(name)}
      return [${replies}, steps.map((_, i) => { show(i); return [...$('said').children].map((p) => p.textContent); })]; })()`);
    assert.equal(told, out, name);
    assert.deepEqual(said, sentences_of(explained), name);
    assert.equal(await value(`(() => { $('script').value = ${JSON.stringify(explained)}; $('run').click(); return ${replies}; })()`), out, name);
  }
}

// What the page says of the failure of the camera's display.
async function display_failure({ value, open }) {
  await open(page);
  assert.deepEqual(await value("[$('pick').value, $('at').textContent]"), ['camera', '36'], 'the page begins at the failure');
  await value('show(0); show(35)');
  assert.deepEqual((await value("[...$('said').children].map((p) => p.textContent)")).slice(0, 3),
    ['Event 28: dis close display', 'Reply: done', 'fordis fails, lost: its end was closed without a release']);
  assert.match(await value("$('tree').firstChild.getAttribute('aria-label')"), /root: released, lost, origin fordis; .*fordis \(display\): lost/);
  assert.match(await value("$('tree').textContent"), /event 28: +dis close display/);
  const seen = await value(`(() => { const placed = (query, is_it) => [...document.querySelectorAll('#tree ' + query)].filter(is_it).map((e) => e.getBoundingClientRect());
    const [word] = placed('text', (t) => t.textContent === 'lost');
    const box = placed('rect', (r) => getComputedStyle(r).fill === 'rgb(168, 67, 0)').find((b) => b.left < word.left && word.right < b.right && b.top < word.top && word.bottom < b.bottom);
    return [box.right <= $('tree').getBoundingClientRect().right, box.bottom <= innerHeight, $('tree').scrollWidth <= $('tree').clientWidth]; })()`);
  assert.deepEqual(seen, [true, true, true], 'the origin stands on the first screen');
  assert.equal(await value("$('pool').textContent"), 'Pool: ████████░░░░░░░░ 8 of 16 pages free');
  assert.deepEqual(await value("[...$('held').rows].map((r) => [...r.cells].map((c) => c.textContent).join('|'))[0]"), 'root.0|pages 0 to 1|cam strong 1, dis strong 1');
  assert.deepEqual(await value("[...$('fired').rows].map((r) => r.textContent)"), ['goneat event 28']);
}

// Keys alone are enough, and a run keeps the focus.
async function keyboard({ value, key }) {
  await value(`${picked('camera')} show(35); $('slide').focus()`);
  await key('ArrowRight');
  assert.equal(await value("$('at').textContent"), '37');
  await value("$('lines').focus()");
  await key('ArrowUp');
  await key('ArrowUp');
  assert.equal(await value("$('at').textContent"), '35');
  await key('Home');
  assert.equal(await value("$('at').textContent"), '1');
  await key('End');
  assert.equal(await value("$('at').textContent"), await value('String(steps.length)'));
  await value("$('script').focus()");
  await key('Enter', true);
  assert.equal(await value('document.activeElement.id'), 'script');
  await value("$('run').focus(); $('run').click()");
  assert.equal(await value('document.activeElement.id'), 'run');
  await value("$('pick').focus()");
  for (const name of ['pages', 'run', 'open', 'script', 'explore', 'certify', 'SUMMARY', 'SUMMARY', 'lines', 'back', 'slide', 'on', 'failure', 'save', 'tree', 'SUMMARY']) {
    await key('Tab');
    const [reached, outline] = await value(`(() => { const e = document.activeElement, style = getComputedStyle(e); return [e.id || e.nodeName, style.outlineStyle + ' ' + style.outlineWidth]; })()`);
    assert.equal(reached, name);
    // Firefox without a window gives its page no focus to see.
    if (kind === 'chromium') assert.equal(outline, 'solid 3px', `${name}: the focus is not seen`);
  }
}

// Failures are marked and stepped through, a line that a fact names is a link, a file is opened, the picture is saved.
async function controls({ value, open }) {
  await open(page, '#example=camera&line=1');
  const failing = await value("[...$('lines').children].flatMap((li, i) => (li.className === 'fails' ? [i + 1] : []))");
  assert.deepEqual(failing, await value('steps.flatMap((s, i) => (s.facts?.some((f) => / fails, /.test(f)) ? [i + 1] : []))'));
  for (const line of [...failing, failing[0]]) {
    await value("$('failure').click()");
    assert.equal(await value("Number($('at').textContent)"), line);
  }
  await value("show(steps.findIndex((s) => s.facts?.some((f) => f.startsWith('  since') || f.startsWith('since'))))");
  assert.equal(await value("$('said').querySelector('a').textContent"), 'line 36');
  await value("$('said').querySelector('a').click()");
  assert.equal(await value("$('at').textContent"), '36');
  const saved = await value(`(() => { let got; const click = HTMLAnchorElement.prototype.click;
    HTMLAnchorElement.prototype.click = function () { got = [this.download, this.href.slice(0, 5)]; };
    $('save').click(); HTMLAnchorElement.prototype.click = click; return got; })()`);
  assert.deepEqual(saved, ['camera.28.svg', 'blob:']);
  await value("open_file(new File(['a join\\na open r\\na close r\\n'], 'own.script')).then(() => { document.title = 'opened'; })");
  while (await value('document.title') !== 'opened');
  assert.deepEqual(await value("[$('script').value, $('at').textContent]"), ['a join\na open r\na close r\n', '3']);
  assert.match(await value("$('time').textContent"), /^own\.script: 3 lines in \d+ ms$/);
  assert.deepEqual(await value("[$('failure').disabled, $('failure').textContent]"), [false, 'Next failure']);
  await value("$('script').value = 'a join\\n'; $('run').click()");
  assert.deepEqual(await value("[$('failure').disabled, $('failure').textContent]"), [true, 'Nothing fails']);
  await open(page);
  assert.match(await value("$('time').textContent"), /^50 lines in \d+ ms$/);
}

// Waits until no worker searches, and tells what the page then says.
async function explored({ value }, texts = "[$('searched').textContent, $('of').textContent, [...$('outcomes').children].map((li) => li.innerText)]") {
  for (let left = 1200; await value('asides.size') > 0; left--) {
    assert.ok(left > 0, 'a search does not end');
    await new Promise((go) => setTimeout(go, 50));
  }
  return value(texts);
}

// A script of actors is explored, a schedule of each outcome is shown, the report is that of the program.
async function orders(tab) {
  const { value, key, open } = tab, report = (name) => readFileSync(join(examples, `${name}.outcomes`), 'utf8');
  await open(page, '#example=switch.actors&outcome=2');
  assert.deepEqual(await explored(tab), ['2 outcomes', ': outcome 2 of 2: 17 of 100 runs; 40 calls in 6 turns',
    ['1\nwide forback next: ends', '2\nwide forback next: fails, failed PoolFull wide']]);
  assert.deepEqual(await value("[$('always').innerText, [...$('claims').children].map((p) => p.textContent), steps[0].text, $('said').children[2].textContent]"),
    ['In each outcome\napp fro bac dis: comes to its end\nnarrow forfront shown: ends\nfree: 16',
      ['line 3: never wide fails failed PoolFull: does not hold: outcome 2', 'line 4: never dis waits: holds', 'line 5: always free 16: holds'],
      '# outcome 2 of 2: 17 of 100 runs; 40 calls in 6 turns', 'wide fails, failed PoolFull: no room for 4 buffers of 3 pages; 4 free']);
  await value("$('as-text').open = true; new Promise((go) => setTimeout(go, 100))");
  assert.equal(await explored(tab, "$('report').textContent"), report('switch'));
  // Keys choose an outcome, and an address has it.
  await value("$('outcomes').children[0].firstChild.focus()");
  // Firefox without a window presses no button by a key.
  if (kind === 'chromium') await key('Enter'); else await value('document.activeElement.click()');
  assert.match((await explored(tab))[1], /^: outcome 1 of 2: /);
  assert.deepEqual(await value("[...$('outcomes').children].map((li) => li.firstChild.getAttribute('aria-current'))"), ['true', 'false']);
  await value('show(4)');
  const hash = await value('location.hash');
  assert.equal(hash, '#example=switch.actors&line=5&outcome=1');
  await open(page, hash);
  assert.match((await explored(tab))[1], /^: outcome 1 of 2: /);
  assert.equal(await value("$('at').textContent"), '5');
  // A claim leads to the outcome that breaks it.
  await value("$('claims').querySelector('a').click()");
  assert.match((await explored(tab))[1], /^: outcome 2 of 2: /);
  // The certificate, and a limit that is met.
  await open(page, '#example=camera.actors&outcome=6&certify=1');
  assert.deepEqual((await explored(tab)).slice(0, 2), ['18 outcomes, certified', ': outcome 6 of 18: cam vanishes; 14 calls in 3 turns']);
  await value("$('as-text').open = true; new Promise((go) => setTimeout(go, 100))");
  assert.equal(await explored(tab, "$('report').textContent"), report('camera').replace('18 outcomes', '18 outcomes, certified'));
  await value("$('certify').checked = false; $('states').value = 1000; $('explore').click()");
  const [searched] = await explored(tab);
  assert.match(searched, /^7 outcomes, not all explored: there are more than 1000 states\. A larger limit finds more\.$/);
  assert.equal(await value("$('claims').firstChild.textContent"), 'line 4: never cam waits: is open: not all was explored');
  // A script of calls takes its place.
  await value(picked('camera'));
  assert.deepEqual(await value("[$('orders').hidden, $('of').textContent, $('at').textContent, found === undefined]"), [true, '', '36', true]);
}

// A search is stopped, what is typed begins another one, a bad line is shown at its place, and refused memory is told.
async function searches(tab) {
  const { value, open } = tab;
  const many = (clients) => `${[...clients].map((c) => `${c} join\n`).join('')}${[...clients].map((c) => `${c} open r\n${`${c} sync r\n`.repeat(9)}${c} release r\n`).join('')}#! never a waits\n`;
  const begin = (script) => value(`$('script').value = ${JSON.stringify(script)}; $('explore').click()`);
  await open(page);
  await begin(many('abcdef'));
  assert.equal(await value("$('stop').click(); $('searched').textContent"), 'Stopped: nothing was found yet.');
  await begin(many('abcdef'));
  for (let i = 0; i < 400 && !await value('found.list'); i++) await new Promise((go) => setTimeout(go, 50));
  assert.match(await value("$('searched').textContent"), /^\d+ outcomes?, not all explored: there are more than 1000 states\. Searching up to 10000 states\.$/);
  assert.match(await value("$('stop').click(); $('searched').textContent"), /^Stopped: \d+ outcomes?, not all explored: there are more than 1000 states\.$/);
  assert.deepEqual(await value("[asides.size, $('stop').disabled, $('busy').hidden]"), [0, true, true]);
  const typed = await value(`$('script').value = 'a join\\na open r\\na close r\\n#! never r fails\\n'; $('script').dispatchEvent(new Event('input')); new Promise((go) => setTimeout(go, REST + 200))`);
  assert.equal(typed, undefined);
  assert.deepEqual(await explored(tab), ['1 outcome', ': outcome 1 of 1: 100 of 100 runs; 2 calls in 1 turn', ['1\na: comes to its end\nr: fails, lost r\nfree: 16']]);
  for (const [script, line, bad] of [['a join\na hum r\n#! never a waits\n', 2, 'no such word: hum'], ['#! never s fails\na join\n', 1, 'no line makes s'],
    ['# none\n', 2, 'no client joins']]) {
    await begin(script);
    assert.equal((await explored(tab))[0].replace(/^bad line (\d+): .*/, '$1'), String(line), script);
    assert.deepEqual(await value("[steps.length, steps.at(-1).bad.includes('bad line'), document.querySelectorAll('#lines li.bad').length]"), [line, true, 1], bad);
  }
  await open(small);
  await begin(many('abcd'));
  assert.match((await explored(tab))[0], /no memory/);
  await value(picked('camera'));
  assert.equal(await value("$('at').textContent"), '36');
  await open(page);
}

// What is typed runs by itself, as far as the cursor, unless it is long.
async function typing({ value, open }) {
  const type = (script, cursor) => value(`(() => { $('script').value = ${JSON.stringify(script)}; $('script').setSelectionRange(${cursor}, ${cursor});
    $('script').dispatchEvent(new Event('input')); return new Promise((yes) => setTimeout(() => yes([steps.length, $('at').textContent]), REST + 300)); })()`);
  assert.deepEqual(await type('a join\na open r\na close r\n', 10), [3, '2']);
  assert.deepEqual(await type('#\n'.repeat(2001), 0), [3, '2']);
  await open(page);
}

// A picture that is wider than its frame shows the origin of the failure.
async function wide_picture({ value, open }) {
  const nodes = Array.from({ length: 40 }, (_, i) => `a dup r n${i}`).join('\n');
  const [from, left, right, to] = await value(`(() => { $('script').value = ${JSON.stringify(`a join\na open r\n${nodes}\na close n39\n`)}; $('run').click();
    const frame = $('tree').getBoundingClientRect(), box = [...document.querySelectorAll('#tree rect[stroke-width="3.5"]')].find((r) => r.getAttribute('fill') === r.getAttribute('stroke')).getBoundingClientRect();
    return [frame.left, box.left, box.right, frame.right]; })()`);
  assert.ok(from <= left && right <= to, `the origin is at ${left} to ${right} in a frame from ${from} to ${to}`);
  await open(page);
}

// What went wrong is named, and what was before it stands.
async function faults_told({ value, open }) {
  const ran = (script) => value(`(() => { $('script').value = ${JSON.stringify(script)}; $('run').click();
    return [steps.length, steps.at(-1).bad ?? '', $('said').textContent]; })()`);
  assert.deepEqual((await ran('a join\na open r\nhum\na bind r\n')).slice(0, 2), [3, 'bad line 3: a word is missing after hum']);
  assert.equal(await value("document.querySelector('#lines li.bad').innerText.split('\\n')[1]"), 'hum');
  const verbs = await value("$('words').textContent.match(/(?<=^CLIENT )[a-z]+/gm)");
  assert.equal(verbs.length, 24);
  for (const verb of verbs) assert.doesNotMatch((await ran(`a join\na ${verb}\n`))[1], /no such word/, verb);
  assert.match((await ran('# <script>alert(1)</script>\na <script>alert(1)</script>\n'))[2], /<script>alert\(1\)<\/script>/);
  assert.equal(await value("document.querySelectorAll('#lines script, #said script, #tree script').length"), 0);
  const long = await value(`(() => { $('script').value = '#' + 'x'.repeat(200) + '\\n'; $('script').value = $('script').value.repeat(83061) + '#' + 'y'.repeat(60000) + '\\n';
    $('run').click(); return [script.length > 16777216, steps.at(-1)?.bad ?? $('said').textContent]; })()`);
  assert.equal(long[0], true);
  assert.match(long[1], /longer than 16777216 bytes/);
  const hash = Buffer.from('a join\na open <script>\n').toString('base64url');
  await open(page, `#script=${hash}&line=2`);
  assert.match(await value("$('said').textContent"), /<script>.*bad line 2/);
  // A module that lacks what is asked for: a run and a step tell so, and the next run is a good one.
  await open(page);
  const said = await value(`(() => { const whole = compiled, empty = new WebAssembly.Module(new Uint8Array([0, 97, 115, 109, 1, 0, 0, 0]));
    return [[empty, () => $('run').click()], [whole, () => $('run').click()], [empty, () => show(9)], [whole, () => $('run').click()]]
      .map(([module, act]) => { compiled = module; act(); return $('said').textContent; }); })()`);
  said.forEach((words, i) => assert.match(words, i % 2 ? /^Line 50: dis poll gone/ : /^The core stopped: .*\. The next run begins anew\.$/));
  await open(small);
  assert.match(await value(`(() => { $('script').value = 'a join\\n' + Array.from({ length: 250 }, (_, i) => 'a open r' + i + '\\n').join('') .repeat(1) + '#' + ' '.repeat(200) + '\\n';
    $('script').value += ('#' + 'z'.repeat(250) + '\\n').repeat(20000); $('run').click(); return steps.at(-1)?.bad ?? $('said').textContent; })()`), /no memory/);
  await open(page);
}

// Links hold the example and the line, or the script.
async function links({ value, open }) {
  await open(page, '#example=weak&line=24');
  assert.deepEqual(await value("[$('pick').value, $('at').textContent]"), ['weak', '24']);
  await value("$('on').click()");
  assert.equal(await value('location.hash'), '#example=weak&line=25');
  await value("$('script').value = 'a join\\n'; $('run').click()");
  assert.match(await value('location.hash'), /^#script=YSBqb2luCg&line=1$/);
  await value("$('pages').value = 4; $('run').click()");
  assert.match(await value('location.hash'), /^#script=YSBqb2luCg&line=1&pages=4$/);
  await open(page, '#script=YSBqb2luCg&pages=4');
  assert.deepEqual(await value("[$('script').value, $('pages').value, $('pool').textContent]"), ['a join\n', '4', 'Pool: ░░░░ 4 of 4 pages free']);
  // A new fragment in the same tab.
  await value("location.hash = '#example=weak&line=24'");
  while (await value("$('pick').value + $('at').textContent") !== 'weak24');
  for (const [line, shown] of [['2', '2'], ['999', '50'], ['1.5', '1'], ['0', '50'], ['x', '50']]) {
    await open(page, `#example=camera&line=${line}`);
    assert.equal(await value("$('at').textContent"), shown, `line=${line}`);
  }
  await open(page);
}

// A tree of 1,024 nodes that falls at once, wide and deep; and many lines.
async function sizes({ value }) {
  const wide = ['a join', 'a open r0', ...Array.from({ length: 1023 }, (_, i) => `a dup r0 r${i + 1}`), 'a close r0'];
  const deep = ['a join', 'a open r0', ...Array.from({ length: 1023 }, (_, i) => `a dup r${i} r${i + 1}`), 'a close r1023'];
  for (const [name, lines] of [['wide', wide], ['deep', deep]]) {
    const begun = performance.now();
    const [count, told] = await value(`(() => { $('script').value = ${JSON.stringify(`${lines.join('\n')}\n`)}; $('run').click(); return [steps.length, $('tree').textContent]; })()`);
    assert.equal(count, 1026);
    assert.match(told, /0 more nodes/);
    console.log(`1,024 nodes, ${name}: ${Math.round(performance.now() - begun)} ms`);
  }
  const beside = [...wide.slice(0, 302), 'a dup r7 x', 'a dup x y', 'a sync x', 'a bind r9'];
  const listed = await value(`(() => { $('script').value = ${JSON.stringify(`${beside.join('\n')}\n`)}; $('run').click();
    return [303, 304, 305].map((k) => { show(k); return $('tree').textContent.split('\\n').map((row) => row.replace(/^[│├└─═~ ]*/, '').split(' ')[0]); }); })()`);
  assert.deepEqual(listed, [['r0', 'r7', 'x', 'y', '299'], ['303'], ['r0', 'r9', '301']]);
  const many = ['a join', 'a open r', ...Array.from({ length: 100 }, (_, i) => `a dup r n${i}`), ...Array.from({ length: 4900 }, (_, i) => `a sync n${i % 100}`)];
  const [run, step] = await value(`(() => { $('script').value = ${JSON.stringify(`${many.join('\n')}\n`)};
    const t = performance.now(); $('run').click(); const u = performance.now(); show(2500); return [u - t, performance.now() - u]; })()`);
  console.log(`5,002 lines: Run ${Math.round(run)} ms, a step ${Math.round(step)} ms`);
  const most = ['a join', 'a open r', ...Array.from({ length: 1000 }, (_, i) => `a dup r n${i}`), ...Array.from({ length: 9000 }, (_, i) => `a sync n${i % 1000}`)];
  const large = await value(`(() => { $('script').value = ${JSON.stringify(`${most.join('\n')}\n`)}; $('run').click(); show(5000); const t = performance.now(); show(5001); return performance.now() - t; })()`);
  console.log(`10,002 lines, 1,001 nodes: a step ${Math.round(large)} ms`);
}

// Each control and the picture have a name.
async function names_on({ say, value }) {
  const { nodes } = await say('Accessibility.getFullAXTree');
  const roles = new Set(['button', 'checkbox', 'slider', 'textbox', 'combobox', 'spinbutton', 'image', 'list', 'table']);
  for (const n of nodes.filter((m) => roles.has(m.role?.value) && !m.ignored)) assert.ok(n.name?.value, `${n.role.value} has no name`);
  assert.deepEqual(await value("[...document.querySelectorAll('[role=group]')].map((e) => !!e.getAttribute('aria-label'))"), Array(5).fill(true));
}

// Names, with outcomes and without, and texts that stand out from what is behind them.
async function names_and_contrasts(tab) {
  const { say, value } = tab;
  await value(picked('switch.actors'));
  await explored(tab);
  await names_on(tab);
  await value(`${picked('camera')} show(35)`);
  await names_on(tab);
  const contrasts = `(() => {
    const light = (c) => { const v = c.match(/\\d+/g).slice(0, 3).map((x) => { const s = x / 255; return s <= 0.03928 ? s / 12.92 : ((s + 0.055) / 1.055) ** 2.4; }); return 0.2126 * v[0] + 0.7152 * v[1] + 0.0722 * v[2]; };
    const behind = (e) => { for (; e; e = e.parentElement) { const c = getComputedStyle(e).backgroundColor; if (!/rgba\\(.*, 0\\)/.test(c) && c !== 'transparent') return c; } return 'rgb(255, 255, 255)'; };
    const between = (c, d) => { const [a, b] = [light(c), light(d)].sort((x, y) => y - x); return (a + 0.05) / (b + 0.05); };
    const all = (query) => [...document.querySelectorAll(query)];
    const texts = all('h1, h2, p, label, button, select, input[type=number], textarea, li, li span, td, th, caption, summary, #claims a, #outcomes span').map((e) => between(getComputedStyle(e).color, behind(e)));
    const borders = all('button, select, input[type=number], textarea, td, th, #lines, #tree').map((e) => between(getComputedStyle(e).borderTopColor, behind(e.parentElement)));
    // In the picture: words beside the last box drawn around them, borders of boxes beside what is behind the picture.
    const boxes = all('#tree svg rect').map((e) => [e.getBBox(), getComputedStyle(e)]);
    const around = ({ x, y }) => boxes.filter(([b]) => b.x <= x && x <= b.x + b.width && b.y <= y && y <= b.y + b.height).at(-1)?.[1].fill ?? behind($('tree'));
    const words = all('#tree svg text').map((e) => between(getComputedStyle(e).fill, around({ x: e.getBBox().x + 1, y: e.getBBox().y + e.getBBox().height / 2 })));
    const edges = boxes.filter(([, s]) => s.stroke !== 'none').map(([, s]) => between(s.stroke, behind($('tree'))));
    return [texts, words, borders, edges].map((list) => [list.length, Math.min(...list)]); })()`;
  for (const scheme of ['light', 'dark']) {
    await say('Emulation.setEmulatedMedia', { features: [{ name: 'prefers-color-scheme', value: scheme }] });
    const [texts, words, borders, edges] = await value(contrasts);
    for (const [count, worst] of [texts, words]) assert.ok(count > 10 && worst >= 4.5, `${scheme}: contrast of text ${worst}`);
    for (const [count, worst] of [borders, edges]) assert.ok(count > 3 && worst >= 3, `${scheme}: contrast of a border ${worst}`);
  }
  await say('Emulation.setEmulatedMedia', { features: [] });
  await say('Emulation.setDeviceMetricsOverride', { width: 320, height: 700, deviceScaleFactor: 1, mobile: false });
  assert.ok(await value('document.documentElement.scrollWidth <= 320'), 'the page scrolls sideways at 320 pixels');
  await value(picked('switch.actors'));
  await explored(tab);
  assert.ok(await value("!$('orders').hidden && document.documentElement.scrollWidth <= 320"), 'outcomes scroll sideways at 320 pixels');
  await say('Emulation.clearDeviceMetricsOverride');
}

async function screenshots({ say, value }) {
  for (const [name, line, width] of [['camera', 36, 1240], ['weak', 24, 1240], ['camera', 36, 420]]) {
    await say('Emulation.setDeviceMetricsOverride', { width, height: 900, deviceScaleFactor: 1, mobile: false });
    await value(`${picked(name)} show(${line - 1})`);
    const { data } = await say('Page.captureScreenshot', { captureBeyondViewport: width < 600 });
    writeFileSync(join(pictures, `${name}_${line}_${width}.png`), Buffer.from(data, 'base64'));
  }
}

const tests = { chromium: [example_texts, display_failure, keyboard, links, controls, typing, orders, searches, wide_picture, sizes, names_and_contrasts, faults_told],
  firefox: [example_texts, display_failure, keyboard, links, controls, typing, orders, searches, wide_picture, sizes, faults_told] }[kind];
const begun = performance.now();
const browser = await start();
try {
  const one = await browser.tab();
  await one.open(page);
  console.log(`ready after ${Math.round(performance.now() - begun)} ms`);
  for (const test of tests) {
    await test(one);
    console.log(`${test.name}: passed`);
  }
  if (pictures && kind === 'chromium') await screenshots(one);
  if (pictures && kind === 'firefox') {
    await one.value(`${picked('camera')} show(35)`);
    writeFileSync(join(pictures, 'firefox.png'), Buffer.from(await one.picture(), 'base64'));
  }
  assert.deepEqual(browser.faults, []);
  // Firefox counts a font of its own, in a `data:` address.
  assert.deepEqual(browser.requests.filter((url) => !/^(file|data|blob):|^about:blank$/.test(url)), []);
  console.log(`${kind}: all passed in ${Math.round(performance.now() - begun)} ms`);
} finally {
  await browser.close();
}
