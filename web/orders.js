// All orders of a script of actors: workers explore them, and the page goes on. It is read after page.js.
const MOST_OUTCOMES = 200;
// The usual values of the controls of a search, by their names here and in an address.
const USUAL = { certify: 0, waiting: 0, end: 0, states: 100000 };
// A search meets so many states at most, then ten times as many, up to its limit. What was found is shown each time.
const FIRST_STATES = 1000;
// The schedule of an outcome is shown without being chosen after a search of so many milliseconds at most.
const QUICK = 3000;

// ---- workers

// The workers that ask the core, by what they are to find: `outcomes`, `schedule`, `report`.
const asides = new Map();

// Ends the worker.
function leave(role) {
  asides.get(role)?.terminate();
  asides.delete(role);
  $('stop').disabled = asides.size === 0;
  $('busy').hidden = asides.size === 0;
}

// Asks the core in a worker, in the place of the last one of this role, and then passes on its answer.
function ask_aside(role, asked, then) {
  const code = `'use strict'; let compiled, pages; ${ask}
    onmessage = ({ data }) => {
      [compiled, pages] = data;
      try { postMessage(ask(...data[2])); } catch (error) { postMessage({ error: error.message }); }
    };`;
  leave(role);
  const place = URL.createObjectURL(new Blob([code], { type: 'text/javascript' })), worker = new Worker(place);
  asides.set(role, worker);
  $('stop').disabled = $('busy').hidden = false;
  worker.onmessage = ({ data }) => {
    URL.revokeObjectURL(place);
    if (asides.get(role) !== worker) return;
    if (data.error !== undefined) stop();
    leave(role);
    if (data.error !== undefined) halted(data.error); else then(data);
  };
  worker.postMessage([compiled, pages, asked]);
}

// ---- searches

// What the controls of a search have, as numbers.
const options = () => ({ certify: Number($('certify').checked), waiting: Number($('waiting').value), end: Number($('end').checked),
  states: bounded('states', 1000000, USUAL.states) });

// Asks in a worker for the outcomes in lines for programs, for the schedule of one, or for the report.
function search(role, limit, outcome, then) {
  const { certify, waiting, end } = found.options;
  ask_aside(role, ['sysmem_explore', found.text, [outcome, limit, waiting, end, outcome ? 0 : certify, role === 'outcomes' ? 1 : 0]], then);
}

// Searches all orders of the script of actors, and then shows the schedule of this outcome, and a line of it.
function explore(outcome = 0, line = first_failure) {
  const text = begin_run();
  found = { text, wanted: outcome, line, options: options(), begun: performance.now(), limit: FIRST_STATES };
  for (const id of ['always', 'outcomes', 'claims', 'unmade', 'time']) $(id).replaceChildren();
  $('orders').hidden = false;
  $('as-text').hidden = true;
  show_run('', last, () => []);
  with_core(() => tables(picture(0)));
  $('at').textContent = 0;
  $('said').textContent = 'The schedule of the outcome that you choose is shown here.';
  search_on();
  link();
}

// Searches up to the limit. What an earlier search found stays.
function search_on() {
  found.limit = Math.min(found.limit, found.options.states);
  tell_searched((so_far) => `${so_far ? `${so_far}. ` : ''}Searching up to ${found.limit} states.`);
  search('outcomes', found.limit, 0, hear);
}

// Says how far the search is, in these words for what was found so far.
function tell_searched(words) {
  const { list } = found;
  const so_far = list?.head.replace(/^outcomes (\d+)/, (_, count) => `${count} outcome${count === '1' ? '' : 's'}`);
  $('searched').textContent = words(list?.isPart ? `${so_far}: there are more than ${list.limit} states` : so_far);
}

// Shows what a search found, and searches on if there are more states than it met.
function hear({ text, reason }) {
  const bad = /^bad line (\d+): /.exec(reason), told = reason.trim().replace(/^sysmem: (not certified: )?/, '');
  if (text) {
    found.list = list_of(text, found.limit);
    found.outcome = undefined;
    show_list();
  }
  if (text && (found.list.isPart || told.endsWith('--states')) && found.limit < found.options.states) {
    found.limit *= 10;
    return search_on();
  }
  if (text && !found.list.isPart) tell_searched((whole) => (told ? `${whole}: ${told.replace('try a larger --states', 'try a larger limit')}` : whole));
  else if (text) tell_searched((part) => `${part}. A larger limit finds more.`);
  else tell_searched((part) => (part ? `${part}. Of more: ${told}.` : told));
  tell_time('explored', found.begun);
  if (bad) return show_bad(Number(bad[1]), told);
  const quick = performance.now() - found.begun < QUICK ? found.list?.claims.find((claim) => claim.outcome)?.outcome ?? 1 : 0;
  const outcome = found.outcome ?? Math.min(found.wanted || quick, found.list?.outcomes.length ?? 0);
  if (outcome && outcome !== found.outcome) choose(outcome, found.line);
}

// Shows the lines of the script up to the bad one.
function show_bad(number, bad) {
  const lines = found.text.split('\n').slice(0, number).map((text) => ({ text, event: 0 }));
  show_run('', last, () => [...lines.slice(0, -1), { ...lines.at(-1), bad }]);
}

// What a list says: what became in each outcome of each subject, what is said of the claims, and the lines that no order makes.
function list_of(text, limit) {
  const [head, ...rows] = text.split('\n');
  const list = { head, limit, isPart: head.includes('not all explored'), outcomes: [], claims: [], unmade: [], names: new Map() };
  for (const row of rows) {
    const [, number, subject, became] = /^(\d+) (client \S+|(?:node|tracker) \d+ \S+|free) (.*)$/.exec(row) ?? [];
    const [, line, verdict, outcome] = /^claim (\d+) (\w+) ?(\d*)$/.exec(row) ?? [];
    if (number) (list.outcomes[number - 1] ??= new Map()).set(subject, became);
    else if (line) list.claims.push({ line: Number(line), verdict, outcome: Number(outcome) });
    else if (row) list.unmade.push(Number(row.split(' ')[1]));
  }
  // A subject is called by its label, and by its line where another has that label.
  const subjects = new Set(list.outcomes.flatMap((one) => [...one.keys()])), labels = new Map();
  const label_of = (subject) => subject.replace(/^(node|tracker) \d+/, '$1');
  for (const subject of subjects) labels.set(label_of(subject), (labels.get(label_of(subject)) ?? 0) + 1);
  for (const subject of subjects) {
    const [, line, label = line ?? 'free'] = subject.split(' ');
    list.names.set(subject, labels.get(label_of(subject)) > 1 ? `${label} (line ${line})` : label);
  }
  return list;
}

// What became of a subject, in the words of the report.
function in_words(list, subject, became) {
  if (became === undefined) return subject.startsWith('tracker') ? 'does not fire' : 'is not made';
  if (subject.startsWith('client')) return became.replace('ends', 'comes to its end').replace('waits', 'waits for ever, line');
  const [, cause, line] = /^fails (.*?)(?: by (\d+))?$/.exec(became) ?? [];
  const origin = line && [...list.names].find(([subject]) => subject.startsWith(`node ${line} `));
  if (cause) return `fails, ${cause}${origin ? ` ${origin[1]}` : ''}`;
  return became.replace(/^lives/, 'is live,').replace(/^released/, 'is released,').replace('allocated', 'with buffers').replace('pending', 'without buffers');
}

// What became of these subjects, in rows: those of which the same became share one.
function rows_on(list, outcome, subjects) {
  const rows = new Map();
  for (const subject of subjects) {
    const words = in_words(list, subject, outcome.get(subject));
    rows.set(words, [...rows.get(words) ?? [], list.names.get(subject)]);
  }
  return [...rows].map(([words, names]) => Object.assign(document.createElement('span'), { textContent: `${names.join(' ')}: ${words}` }));
}

// Shows the outcomes of the list, each with what sets it apart, and what is said of the claims.
function show_list() {
  const { list, text } = found, subjects = [...list.names.keys()], lines = text.split('\n'), [first, ...others] = list.outcomes;
  const varies = (subject) => !others.length || others.some((one) => one.get(subject) !== first.get(subject));
  const own = subjects.filter(varies);
  $('always').replaceChildren(...others.length ? ['In each outcome', ...rows_on(list, first, subjects.filter((one) => !varies(one)))] : []);
  $('outcomes').replaceChildren(...list.outcomes.slice(0, MOST_OUTCOMES).map((outcome, i) => {
    const li = document.createElement('li'), button = document.createElement('button'), rows = document.createElement('span');
    rows.append(...rows_on(list, outcome, own));
    button.append(Object.assign(document.createElement('span'), { textContent: i + 1 }), rows);
    button.addEventListener('click', () => choose(i + 1));
    li.append(button);
    return li;
  }));
  const verdict = ({ verdict, outcome }) => ({ holds: 'holds', open: 'is open: not all was explored' }[verdict]
    ?? `does not hold: ${outcome ? `outcome ${outcome}` : 'no outcome has it'}`);
  $('claims').replaceChildren(...list.claims.map((claim) => {
    const p = linked(`line ${claim.line}: ${lines[claim.line - 1].replace(/^#! */, '')}: ${verdict(claim)}`, 'outcome', choose);
    p.className = claim.verdict;
    return p;
  }));
  const unlisted = list.outcomes.length - MOST_OUTCOMES, unmade = list.unmade.map((line) => `line ${line}: ${lines[line - 1]}`);
  $('unmade').textContent = `${unlisted > 0 ? `The report has ${unlisted} more. ` : ''}${unmade.length ? `never made: ${unmade.join('; ')}` : ''}`;
  $('as-text').hidden = $('as-text').open = false;
}

// Shows the schedule of this outcome, and a line of it.
function choose(number, line = first_failure) {
  found.outcome = number;
  [...$('outcomes').children].forEach((li, i) => li.firstChild.setAttribute('aria-current', i === number - 1));
  search('schedule', found.list.limit, number, ({ text, reason }) => {
    if (!text) return halted(reason.trim());
    $('of').textContent = `: ${text.slice(2, text.indexOf('\n'))}`;
    show_run(text, line);
  });
}

// Shows the report as the program writes it.
function show_report() {
  $('report').textContent = '';
  if ($('as-text').open && found?.list) search('report', found.list.limit, 0, ({ text, reason }) => { $('report').textContent = text || reason; });
}

// Ends each search. What was found stays.
function stop() {
  if (asides.has('outcomes')) tell_searched((so_far) => `Stopped: ${so_far ?? 'nothing was found yet'}.`);
  [...asides.keys()].forEach(leave);
}
