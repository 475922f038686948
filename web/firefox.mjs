// Firefox without a window, by WebDriver BiDi over a socket: run node with --experimental-websocket where it has no WebSocket.
import { spawn } from 'node:child_process';
import { mkdtempSync, rmSync } from 'node:fs';
import { tmpdir } from 'node:os';
import { join, resolve } from 'node:path';
import assert from 'node:assert/strict';
import { until_ready } from './chromium.mjs';

// The value of which the browser tells the type and the parts.
const plain = ({ type, value }) => (type === 'array' ? value.map(plain) : value);

// Starts the browser. `faults` and `requests` grow as pages throw and ask for files.
export async function start() {
  const profile = mkdtempSync(join(tmpdir(), 'sysmem-page-'));
  const browser = spawn(process.env.FIREFOX ?? 'firefox-esr', ['--headless', '--no-remote', '--profile', profile,
    '--remote-debugging-port=0', '--width=1240', '--height=900', 'about:blank'], { stdio: ['ignore', 'ignore', 'pipe'] });
  const address = await new Promise((yes, no) => {
    let said = '';
    browser.stderr.setEncoding('utf8');
    browser.stderr.on('data', (part) => {
      said += part;
      const found = said.match(/WebDriver BiDi listening on (ws:\S+)/);
      if (found) yes(found[1]);
    });
    browser.on('error', no);
    browser.on('exit', () => no(new Error(`firefox ended: ${said}`)));
  });
  const socket = new WebSocket(`${address}/session`);
  await new Promise((yes, no) => { socket.onopen = yes; socket.onerror = () => no(new Error(`no answer at ${address}`)); });
  const waiting = new Map(), faults = [], requests = [];
  let last = 0;
  socket.onmessage = ({ data }) => {
    const one = JSON.parse(data);
    if (one.method === 'log.entryAdded' && one.params.level === 'error') faults.push(one.params.text);
    if (one.method === 'network.beforeRequestSent') requests.push(one.params.request.url);
    const [yes, no] = waiting.get(one.id) ?? [];
    waiting.delete(one.id);
    if (one.type === 'error') no?.(new Error(`${one.error}: ${one.message}`)); else yes?.(one.result);
  };
  const call = (method, params = {}) => new Promise((yes, no) => {
    waiting.set(++last, [yes, no]);
    socket.send(JSON.stringify({ id: last, method, params }));
  });
  await call('session.new', { capabilities: {} });
  await call('session.subscribe', { events: ['log.entryAdded', 'network.beforeRequestSent'] });

  // The one tab, and what is asked of it.
  async function tab() {
    const { contexts: [{ context }] } = await call('browsingContext.getTree');
    const value = async (expression) => {
      const { result, exceptionDetails } = await call('script.evaluate', { expression, target: { context }, awaitPromise: true });
      assert.equal(exceptionDetails, undefined, JSON.stringify(exceptionDetails));
      return plain(result);
    };
    const open = async (file, hash = '') => {
      await call('browsingContext.navigate', { context, url: 'about:blank', wait: 'complete' });
      await call('browsingContext.navigate', { context, url: `file://${resolve(file)}${hash}`, wait: 'complete' });
      await until_ready(value, `${file}${hash}`);
    };
    const codes = { ArrowRight: '\uE014', ArrowUp: '\uE013', Home: '\uE011', End: '\uE010', Enter: '\uE007', Tab: '\uE004' };
    const key = async (name, control = false) => {
      const strokes = [...control ? ['\uE009'] : [], codes[name]];
      await call('input.performActions', { context, actions: [{ type: 'key', id: 'keys', actions: [
        ...strokes.map((s) => ({ type: 'keyDown', value: s })), ...strokes.reverse().map((s) => ({ type: 'keyUp', value: s }))] }] });
    };
    const picture = async () => (await call('browsingContext.captureScreenshot', { context })).data;
    return { value, open, key, picture };
  }

  async function close() {
    call('browser.close').catch(() => {});
    await new Promise((go) => { browser.on('exit', go); setTimeout(go, 5000); });
    browser.kill();
    rmSync(profile, { recursive: true, force: true, maxRetries: 5 });
  }
  return { tab, close, faults, requests };
}
