// What the page shows and does.

const part = (id) => document.getElementById(id);
const held = (id) => JSON.parse(part(id).textContent);

const EXAMPLES = held('examples');
const MEANINGS = held('refusals');
const FIRST_EXAMPLE = 'guess';
const SETTLED = 400; // milliseconds without a key before the address follows
const NARROW = '(max-width: 760px)';
const TEXT = 'program.pas';
/** What is asked of the program. */
const COMMANDS = {
  go: (limits) => ['go', TEXT, ...wordsOf(limits)],
  list: () => ['list', '--source', TEXT],
  trace: (limits) => ['trace', '--json', '--first', String(MOST_TRACED + 1), TEXT, ...wordsOf(limits)],
};

const editor = new Editor({ text: part('text'), numbers: part('numbers'), marks: part('marks'), place: part('place') });
const output = new Output(part('output'));
const process = new Process(held('worker'), (told) => hear(told));
const faults = new FaultList(part('faults'), { goesTo: (place) => editor.select(place), mends: mend, explains: explain });
const panel = { panel: part('explanation'), title: part('explained'), body: part('page') };
const explanation = new Explanation(panel, (text) => {
  choose(text);
  editor.text.focus();
});
const stepping = new Stepping(
  {
    panel: part('stepping'),
    back: part('back'),
    forward: part('forward'),
    slider: part('step'),
    leave: part('whole'),
    where: part('where'),
    frames: part('frames'),
  },
  { shows: showStep, leaves: leaveSteps },
);
/**
 * The run that is shown: what it is of which text, with which limits and input, what it and the checker tell, and
 * decoders of what it writes.
 */
let shown = null;
/** The command that is begun once the compiler is loaded. */
let wanted = null;
let waits = true;
const settle = settled(follow);
/** Whether the address does not hold what was put into it. */
let isDamaged = false;

// ---- what is shown

function say(ending, kind = '') {
  part('ending').replaceChildren(...coded(ending));
  part('ending').className = kind;
}

/** Takes away what is shown of a run. */
function clear() {
  shown = null;
  output.clear();
  output.field.removeAttribute('aria-live');
  faults.show([]);
  editor.mark([]);
  explanation.close();
  stepping.close();
  process.forget();
}

/** What is told of the text: by its run, and by the checker, which says more of why it is refused. */
function allFaults() {
  const checked = shown.checked || [];
  const isRefused = checked.some((fault) => fault.refuses);
  return [...faultsOfRun(shown.error, MEANINGS).filter((fault) => !(isRefused && fault.refuses)), ...checked];
}

/** Shows faults and, where the run has ended, how. */
function showFaults() {
  const all = allFaults();
  faults.show(all);
  mark();
  followText();
  if (shown.ended) showEnding(shown.ended, all);
}

/** Marks what is told of the text, and the statement that is gone to, as long as the text is the one that was run. */
function mark() {
  if (editor.value !== shown.text) return;
  const { step } = stepping;
  editor.mark(step ? [placeOfStep(step), ...allFaults()] : allFaults());
}

function placeOfStep({ line, column, statement }) {
  const text = shown.text.split('\n')[line - 1];
  const start = unitsOf(text)(column - 1);
  const [begins] = text.slice(start).split(/\W/);
  const { length } = statement.startsWith(begins) ? statement : begins;
  return fault('the statement that is shown', { line, column: start + 1, length, kind: 'step' });
}

function showEnding({ status, milliseconds }, all) {
  const reason = faultOfWords(shown.error) || all.find((fault) => fault.kind === 'error');
  const ending = shown.command === 'list' && !status ? 'Listed' : endingOf(status, reason);
  const told = reason ? `${ending}: ${toldOf(reason)}` : ending;
  say(`${told} (${Math.max(1, Math.round(milliseconds))} ms)`, status ? 'badly' : 'well');
  const words = reason ? reason.explains : `status ${status}`;
  if (status) part('ending').append(' ', button('explain', (opener) => explain(words, opener)));
  if (status > 1 && shown.command !== 'list') part('ending').append(' ', button('why', why));
}

/** Shows the statement of a run that is gone to: its place, and what the program had written and read by then. */
function showStep(at) {
  const { trace, given, error } = shown;
  output.field.setAttribute('aria-live', 'off'); // (a screen reader would read all of it at each step)
  output.clear();
  for (const { text, kind } of trace.consoleAt(at)) {
    if (kind !== 'typed' || given === undefined) output.add(text, kind);
  }
  if (at === trace.steps.length - 1 && error) output.add(error, 'error');
  mark();
  if (editor.value === shown.text) editor.reveal(trace.steps[at].line);
}

/** Begins to go through a run, if it has done a statement. */
function goThrough() {
  stepping.open(shown.trace, new States(shown.trace, shown.text, stateBehind));
  if (stepping.isOpen && matchMedia(NARROW).matches) part('program').scrollIntoView();
}

/** The state behind a step, as `why` tells it where the machine has made so many steps; null where it can't. */
async function stateBehind({ steps }) {
  const words = ['why', '--json', '--all', TEXT, ...wordsOf({ ...shown.limits, steps: String(steps) })];
  const { error } = await process.askNext(words, shown.files, inputOnceMore());
  const account = accountOf(error);
  return account && stateOf(account);
}

/** What `why` tells of the run that is shown: it is made once more, with what it read. */
async function accountAt(limits) {
  const { error } = await process.ask(['why', '--json', TEXT, ...wordsOf(limits)], shown.files, inputOnceMore());
  return accountOf(error);
}

/** Shows the whole of a run again that was gone through. */
function leaveSteps() {
  showStep(shown.trace.steps.length - 1);
  stepping.close();
  mark();
  part('trace').focus();
}

/** Has mends be clicked, and the statement be marked that is gone to, as long as the text is the one that they are of. */
function followText() {
  const isOfRun = Boolean(shown) && editor.value === shown.text;
  faults.allowMends(isOfRun);
  if (!isOfRun) editor.unmark('step');
  else if (stepping.isOpen) mark();
  stepping.followText(isOfRun);
}

function showIsRunning(isRunning) {
  part('stop').disabled = !isRunning;
  part('answer').hidden = true;
}

// ---- runs

/** The limits that are asked for, as numbers. */
function limits() {
  const asked = (name) => String(part(name).valueAsNumber || 0);
  return { stack: asked('stack'), heap: asked('heap'), steps: asked('steps') };
}

/** Limits as words of a command. */
function wordsOf(limits) {
  return Object.entries(limits).flatMap(([limit, value]) => [`--${limit}`, value]);
}

/** What the run that is shown has read, for one that is made once more. */
function inputOnceMore() {
  return new TextEncoder().encode(shown.given === undefined ? shown.typed : shown.given);
}

function inputGiven() {
  return part('before').checked ? part('given').value : undefined;
}

/** The text as a file of the program. */
function files() {
  return { [TEXT]: new TextEncoder().encode(editor.value) };
}

/** Begins anew with what is shown of the text. */
function showAnew(command = 'check') {
  clear();
  shown = { command, text: editor.value, files: files(), limits: limits(), given: inputGiven() };
  Object.assign(shown, { listing: '', trace: new Trace(), typed: '', error: '', checked: null, ended: null });
  shown.output = new TextDecoder();
  shown.messages = new TextDecoder();
}

/** Has the text checked, beside its run, and returns whether it still is what is shown. */
async function check() {
  const checks = shown;
  checks.checked = faultsOfCheck(await process.ask(['check', '--json', TEXT], checks.files), checks.text);
  if (checks !== shown) return false;
  showFaults();
  return true;
}

/** Begins a run of the program on the text, of a command of it; at once, or when the compiler is loaded. */
function begin(command) {
  wanted = process.module ? null : command;
  if (wanted) return;
  showAnew(command);
  const input = command === 'list' ? '' : shown.given;
  process.begin({
    words: COMMANDS[command](shown.limits),
    files: shown.files,
    input: input === undefined ? undefined : new TextEncoder().encode(input),
    suspends: waits,
  });
  check();
  showIsRunning(true);
  say(command === 'list' ? 'compiling' : 'running');
  if (matchMedia(NARROW).matches) part('results').scrollIntoView();
}

function stop() {
  if (!process.isRunning) return;
  process.stop();
  showIsRunning(false);
  say('You stopped the run', 'badly');
  if (shown.command === 'trace') goThrough();
}

function ask() {
  output.show();
  say('the program waits for a line');
  part('answer').hidden = false;
  part('line').value = '';
  part('line').focus();
}

/** Gives the program a line, or the end of its input. */
function answer(line) {
  part('answer').hidden = true;
  if (line !== undefined) output.add(line, 'typed');
  shown.typed += line === undefined ? '' : line;
  say('running');
  process.answer(line === undefined ? null : new TextEncoder().encode(line));
}

function end(ended) {
  shown.ended = ended;
  showFaults();
  if (shown.command !== 'list' || ended.status) return;
  output.field.className = 'listing';
  showListing(output.field, shown.listing, (line) => editor.select({ line }));
}

/** Changes the text as a mend tells, and has it checked. */
async function mend({ edits }) {
  process.stop();
  showIsRunning(false);
  editor.put(joined(shown.text, edits));
  showAnew();
  say('mended; checking');
  if (!(await check())) return;
  const [first] = allFaults().filter((fault) => fault.refuses);
  say(first ? `Mended; refused is now ${toldOf(first)}` : 'Mended: the text is accepted', first ? 'badly' : 'well');
}

/** Shows the page of `explain` of some words. */
async function explain(words, opener) {
  const { out, error } = await process.ask(['explain', words], {});
  explanation.show(out || error, opener);
}

/** Shows where a run stood when it ended, and the variables of its open calls. */
async function why(opener) {
  const { text, limits } = shown;
  const present = (parts) => explanation.present('Where it ended', parts, opener);
  present([made('p', 'The run is made once more.')]);
  const account = await accountAt(limits);
  if (!explanation.isOpenBy(opener)) return;
  if (account) present(shownAccount(account, () => goTo(placeOf(account, text, unitsOf(text)))));
  else present([made('p', 'This browser could not make the run once more.')]);
}

/** Goes to a place of the text from the panel. (On a telephone that covers the text.) */
function goTo(place) {
  if (matchMedia(NARROW).matches) explanation.close();
  editor.select(place);
}

/** Why the browser broke a run off. */
function whyOf(error) {
  return /call stack/.test(error) ? 'the text is nested too deeply for its stack' : error;
}

/** Takes what a run writes to standard output. */
function hearOutput(piece) {
  if (shown.command === 'list') shown.listing += piece;
  else output.add(piece);
}

/** Takes what a run writes to standard error. */
function hearMessages(piece) {
  const told = shown.command === 'trace' ? shown.trace.take(piece) : piece;
  shown.error += told;
  if (told) output.add(told, 'error');
  if (shown.trace.isCut) cut();
}

/** Ends a run of which as many statements are known as are gone through. */
function cut() {
  process.stop();
  showIsRunning(false);
  say(`The first ${MOST_TRACED} statements can be gone through; the run was ended behind them`, 'well');
  goThrough();
}

/** Takes what a run tells. */
function hear({ out, error, asks, ended, stopped, failed }) {
  if (out) hearOutput(shown.output.decode(out, { stream: true }));
  if (error) hearMessages(shown.messages.decode(error, { stream: true }));
  if (asks) ask();
  if (!(ended || stopped || failed)) return;
  output.show();
  showIsRunning(false);
  if (ended) end(ended);
  if (stopped) say(`Broken off: it wrote more than the ${stopped} bytes that are shown of a run`, 'badly');
  if (failed) say(`Broken off by this browser: ${whyOf(failed)}`, 'badly');
  if (shown.command === 'trace') goThrough();
}

// ---- the address, and the dark form

/** Has the address hold the text, and tells whether it can. */
function follow() {
  settle.end(); // (what waits could come behind a step back, and put this text into the place of that one's)
  return writeAddress({ text: editor.value, input: inputGiven(), waits });
}

async function copyLink() {
  if (!follow()) {
    say('The text is too long for a link: copy the text itself', 'badly');
    return;
  }
  try {
    await navigator.clipboard.writeText(location.href);
    say('The link is copied');
  } catch (error) {
    say('The link is this page\'s address: copy it from there');
  }
}

function showInput() {
  part('given').hidden = !part('before').checked;
}

function kept(value) {
  try {
    if (value) localStorage.setItem('theme', value);
    return localStorage.getItem('theme');
  } catch (error) {
    return null;
  }
}

function setTheme(isDark) {
  document.documentElement.dataset.theme = isDark ? 'dark' : 'light';
  part('theme').setAttribute('aria-pressed', String(isDark));
}

/** Shows what the address holds, or the first example. */
function open(isFirst) {
  const read = readAddress();
  waits = read.waits;
  const text = read.text === undefined && isFirst ? EXAMPLES[FIRST_EXAMPLE] : read.text;
  if (text !== undefined && text !== editor.value) {
    if (!isFirst) forget();
    editor.replace(text);
  }
  isDamaged = read.isDamaged;
  sayReady();
  if (read.input === undefined) return;
  part('before').checked = true;
  part('given').value = read.input;
  showInput();
}

/** Ends what is done with the text that stood there. */
function forget() {
  stop();
  clear();
  isDamaged = false;
  sayReady();
}

function sayReady() {
  if (!process.module) return;
  if (isDamaged) say('The address holds no whole text: it was cut short or changed on its way', 'badly');
  else say('ready');
}

/** Shows another text. (The browser's step back leads to the one before it.) */
function choose(text) {
  if (text === undefined) return;
  forget();
  follow();
  history.pushState(null, '', location.hash || '#');
  editor.replace(text);
  follow();
  if (process.module) say('ready; a step back in the browser leads to the text before');
}

// ---- what is clicked and typed

/** Calls something once a while has gone by in which it was not asked for again. */
function settled(call) {
  let timer = 0;
  const end = () => clearTimeout(timer);
  const begin = () => {
    end();
    timer = setTimeout(call, SETTLED);
  };
  return { begin, end };
}

function key(event) {
  if (event.key === 'Enter' && (event.ctrlKey || event.metaKey)) {
    event.preventDefault();
    begin('go');
  }
  if (event.key === 'Escape') {
    if (explanation.isOpen) explanation.close();
    else if (stepping.isOpen) leaveSteps();
    else stop();
  }
  if (event.key === 'd' && event.ctrlKey && !part('answer').hidden) {
    event.preventDefault();
    answer();
  }
}

function listen() {
  editor.changed = () => {
    followText();
    settle.begin();
    if (editor.value !== EXAMPLES[part('example').value]) part('example').value = '';
  };
  part('given').addEventListener('input', settle.begin);
  for (const choice of ['asked', 'before']) {
    part(choice).addEventListener('change', () => {
      showInput();
      settle.begin();
    });
  }
  part('run').addEventListener('click', () => begin('go'));
  part('trace').addEventListener('click', () => begin('trace'));
  part('list').addEventListener('click', () => begin('list'));
  part('stop').addEventListener('click', stop);
  part('link').addEventListener('click', copyLink);
  part('close').addEventListener('click', () => answer());
  part('leave').addEventListener('click', () => explanation.close());
  part('answer').addEventListener('submit', (event) => {
    event.preventDefault();
    answer(`${part('line').value}\n`);
  });
  part('theme').addEventListener('click', () => {
    const isDark = document.documentElement.dataset.theme !== 'dark';
    setTheme(isDark);
    kept(isDark ? 'dark' : 'light');
  });
  part('example').addEventListener('change', () => choose(EXAMPLES[part('example').value]));
  addEventListener('hashchange', () => open(false));
  addEventListener('keydown', key);
}

/** The bytes of a text in base64. A loop takes a twentieth of the time of `Uint8Array.from` with a function. */
function bytesOf(letters) {
  const text = atob(letters);
  const bytes = new Uint8Array(text.length);
  for (let at = 0; at < bytes.length; at += 1) bytes[at] = text.charCodeAt(at);
  return bytes;
}

async function load() {
  try {
    process.load(await WebAssembly.compile(bytesOf(held('module'))));
    sayReady();
    if (wanted) begin(wanted);
  } catch (error) {
    say(`This browser can't load the compiler: ${error}`, 'badly');
  }
}

setTheme(kept() ? kept() === 'dark' : matchMedia('(prefers-color-scheme: dark)').matches);
for (const name of Object.keys(EXAMPLES)) part('example').append(new Option(name));
listen();
open(true);
load();
