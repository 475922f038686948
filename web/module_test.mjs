// The module alone, without a browser: what it imports, and that it answers as the program does.
//   node module_test.mjs MODULE.wasm EXAMPLES [PROGRAM SCRIPTS]
// PROGRAM is a `sysmem` that was built; each file of the folder SCRIPTS is explained and drawn by both, and each script of actors
// whose outcomes EXAMPLES has is explored.
import { readFileSync, readdirSync } from 'node:fs';
import { spawnSync } from 'node:child_process';
import { join } from 'node:path';
import assert from 'node:assert/strict';

const [file, examples, program, scripts] = process.argv.slice(2);
const module = new WebAssembly.Module(readFileSync(file));
assert.deepEqual(WebAssembly.Module.imports(module), []);

function ask(name, pages, script, ...more) {
  const core = new WebAssembly.Instance(module, {}).exports, room = 1 << 24;
  const [from, out, words, list] = [script.length + 1, room, 24, 64].map((n) => core.page_alloc(BigInt(n)) >>> 0);
  new Uint8Array(core.memory.buffer, from, script.length).set(script);
  new BigUint64Array(core.memory.buffer, list, 8).set(more.flat().map(BigInt));
  const passed = more.map((one) => (Array.isArray(one) ? list : one));
  const status = core[name](pages, from, BigInt(script.length), ...passed, out, BigInt(room), words);
  const told = new DataView(core.memory.buffer, words, 24);
  const [bytes, line, behind] = [0, 8, 16].map((at) => Number(told.getBigUint64(at, true)));
  const answer = (at, length) => Buffer.from(core.memory.buffer, at, length).toString();
  return { status, line, text: answer(out, bytes), reason: answer(out + bytes, behind) };
}

let count = 0;
for (const name of readdirSync(examples).filter((f) => f.endsWith('.script'))) {
  const script = readFileSync(join(examples, name));
  const told = ask('sysmem_explain', 16, script);
  assert.deepEqual([told.status, told.text], [0, readFileSync(join(examples, name.replace('.script', '.explained')), 'utf8')], name);
  assert.equal(ask('sysmem_draw', 16, script, 1, 0).status, 0);
  assert.equal(ask('sysmem_draw', 16, script, 100000, 0).status, 2);
  assert.match(ask('sysmem_draw', 16, script, 1, 2).text, /^<svg /);
  count += 1;
}
assert.equal(ask('sysmem_explain', 0, Buffer.from('')).status, 2);
assert.equal(ask('sysmem_explore', 0, Buffer.from(''), [0, 1, 0, 0, 0, 0]).status, 2);
assert.deepEqual(ask('sysmem_explore', 16, Buffer.from('a join\na hum r\n'), [0, 1, 0, 0, 0, 0]),
  { status: 0, line: 0, text: '', reason: 'bad line 2: no such word: hum\n' });
assert.deepEqual(ask('sysmem_explain', 16, Buffer.from('a join\nhum\n')), { status: 3, line: 2, text: 'a join\n  joined\n', reason: 'a word is missing after hum' });

// What the program and the module make of the script: its explanation, and the trees behind its last line.
function compare(name) {
  const script = readFileSync(join(scripts, name));
  for (const [words, told] of [[['explain'], ask('sysmem_explain', 16, script)], [['draw'], ask('sysmem_draw', 16, script, 0, 0)],
    [['draw', '--format', 'svg'], ask('sysmem_draw', 16, script, 0, 2)]]) {
    const native = spawnSync(program, words, { input: script, maxBuffer: 1 << 28 });
    const [line, reason] = /^bad line (\d+): (.*)\n$/s.exec(native.stderr.toString())?.slice(1) ?? ['0', ''];
    const { status, text } = { status: native.status, text: native.stdout.toString() };
    assert.deepEqual(told, { status, line: Number(line), text, reason }, `${name}: ${words}`);
  }
  count += 1;
}

// What the program with these words, and the module with these numbers, find in the script of actors.
const searches = [['', 0, 100000, 0, 0, 0, 0], ['--list --states 1000', 0, 1000, 0, 0, 0, 1], ['--outcome 2', 2, 100000, 0, 0, 0, 0],
  ['--outcome 99', 99, 100000, 0, 0, 0, 0], ['--certify --list', 0, 1000000, 0, 0, 1, 1], ['--certify --states 9', 0, 9, 0, 0, 1, 0],
  ['--patient --end', 0, 100000, 2, 1, 0, 0], ['--once --states 2000', 0, 2000, 1, 0, 0, 0]];
function compare_searches(name) {
  const script = readFileSync(join(examples, `${name}.actors`));
  assert.equal(ask('sysmem_explore', 16, script, searches[0].slice(1)).text, readFileSync(join(examples, `${name}.outcomes`), 'utf8'));
  for (const [words, ...numbers] of program ? searches : []) {
    const native = spawnSync(program, ['explore', ...words.split(' ').filter(Boolean)], { input: script, maxBuffer: 1 << 28 });
    assert.deepEqual(ask('sysmem_explore', 16, script, numbers),
      { status: 0, line: 0, text: native.stdout.toString(), reason: native.stderr.toString() }, `${name}: ${words}`);
  }
  count += 1;
}

readdirSync(examples).filter((f) => f.endsWith('.outcomes')).forEach((f) => compare_searches(f.replace('.outcomes', '')));
if (program) readdirSync(scripts).forEach(compare);
console.log(`module: ${count} scripts, no import`);
