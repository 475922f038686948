// Chromium without a window, by the DevTools protocol over pipes: no package is needed.
import { spawn } from 'node:child_process';
import { mkdtempSync, rmSync } from 'node:fs';
import { tmpdir } from 'node:os';
import { join, resolve } from 'node:path';
import assert from 'node:assert/strict';

// Starts the browser. `faults` and `requests` grow as pages throw and ask for files.
export async function start() {
  const profile = mkdtempSync(join(tmpdir(), 'sysmem-page-'));
  const browser = spawn(process.env.CHROMIUM ?? 'chromium', ['--headless', '--no-sandbox', '--disable-gpu', '--hide-scrollbars',
    '--remote-debugging-pipe', `--user-data-dir=${profile}`, '--window-size=1240,900', 'about:blank'],
  { stdio: ['ignore', 'ignore', 'ignore', 'pipe', 'pipe'] });
  const [, , , to, from] = browser.stdio;
  const waiting = new Map(), faults = [], requests = [];
  let last = 0, text = '';
  from.setEncoding('utf8');
  from.on('data', (part) => {
    const all = (text + part).split('\0');
    text = all.pop();
    for (const one of all.map((m) => JSON.parse(m))) {
      if (one.method === 'Runtime.exceptionThrown') faults.push(one.params.exceptionDetails);
      if (one.method === 'Network.requestWillBeSent') requests.push(one.params.request.url);
      if (one.method === 'Log.entryAdded' && one.params.entry.level === 'error') faults.push(one.params.entry.text);
      const [yes, no] = waiting.get(one.id) ?? [];
      waiting.delete(one.id);
      if (one.error) no?.(new Error(JSON.stringify(one.error))); else yes?.(one.result);
    }
  });
  const call = (method, params = {}, sessionId) => new Promise((yes, no) => {
    waiting.set(++last, [yes, no]);
    to.write(`${JSON.stringify({ id: last, method, params, sessionId })}\0`);
  });

  // One tab, and what is asked of it.
  async function tab() {
    const { targetId } = await call('Target.createTarget', { url: 'about:blank' });
    const { sessionId } = await call('Target.attachToTarget', { targetId, flatten: true });
    const say = (method, params) => call(method, params, sessionId);
    const value = async (expression) => {
      const { result, exceptionDetails } = await say('Runtime.evaluate', { expression, returnByValue: true, awaitPromise: true });
      assert.equal(exceptionDetails, undefined, JSON.stringify(exceptionDetails));
      return result.value;
    };
    const open = async (file, hash = '') => {
      await say('Page.navigate', { url: 'about:blank' });
      await say('Page.navigate', { url: `file://${resolve(file)}${hash}` });
      await until_ready(value, `${file}${hash}`);
    };
    const codes = { ArrowRight: 39, ArrowUp: 38, Home: 36, End: 35, Enter: 13, Tab: 9 };
    const key = async (name, control = false) => {
      const stroke = { key: name, code: name, windowsVirtualKeyCode: codes[name], modifiers: control ? 2 : 0 };
      if (name === 'Enter' && !control) stroke.text = '\r'; // else it presses no button
      for (const type of ['keyDown', 'keyUp']) await say('Input.dispatchKeyEvent', { type, ...stroke });
    };
    for (const domain of ['Runtime', 'Page', 'Network', 'Log']) await say(`${domain}.enable`);
    return { say, value, open, key };
  }

  async function close() {
    call('Browser.close').catch(() => {});
    await new Promise((go) => { browser.on('exit', go); setTimeout(go, 3000); });
    browser.kill();
    rmSync(profile, { recursive: true, force: true, maxRetries: 5 });
  }
  return { tab, close, faults, requests };
}

// Waits until the page says that it is ready, ten seconds at most.
export async function until_ready(value, name) {
  for (let i = 0; i < 400; i++) {
    if (await value("document.documentElement?.dataset.ready === 'yes'")) return;
    await new Promise((go) => setTimeout(go, 25));
  }
  throw new Error(`never ready: ${name}`);
}
