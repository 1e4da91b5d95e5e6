// Runs the compiler of a page in node: node web/serve.mjs PAGE.html. Each line of standard input asks for a run, and is
// answered by a line; web/test asks. It is the page's own worker that runs, and its own module: both are taken out of
// it. A line may also ask what the page makes of an answer of `check`, or shows of the steps of a run.
import fs from 'node:fs';
import readline from 'node:readline';
import vm from 'node:vm';

const page = fs.readFileSync(process.argv[2], 'utf8');

/** What a part of the page holds. */
const held = (name) => new RegExp(`<script type="application/json" id="${name}">(.*?)</script>`, 's').exec(page)[1];
const part = (name) => JSON.parse(held(name));

const packed = (bytes) => Buffer.from(bytes).toString('base64');
const unpacked = (text) => new Uint8Array(Buffer.from(text, 'base64'));
const mapped = (object, change) => Object.fromEntries(Object.entries(object).map(([name, content]) => [name, change(content)]));

/** A worker, as the page has it: `tell` gives it a message, and `hears` takes its own. */
const worker = { hears: () => {} };
const postMessage = (message) => worker.hears(message);
const context = vm.createContext({ WebAssembly, TextEncoder, TextDecoder, performance, postMessage });
vm.runInContext(part('worker'), context);
const tell = (message) => context.onmessage({ data: message });

/** Runs a request to its end, and answers each time that it asks for input; behind the last answer its input ends. */
function answered({ words, files, input, answers = [] }) {
  const said = [[]];
  const error = [];
  let ended = {};
  const unanswered = answers.map(unpacked);
  worker.hears = (message) => {
    if (message.out) said[said.length - 1].push(Buffer.from(message.out));
    if (message.error) error.push(Buffer.from(message.error));
    if (message.ended) ended = { status: message.ended.status, files: mapped(message.ended.files, packed) };
    if (message.stopped || message.failed) ended = { failed: message.failed || `it wrote more than ${message.stopped} bytes` };
    if (message.asks) {
      said.push([]);
      tell({ answer: unanswered.shift() || null });
    }
  };
  const job = { words, files: mapped(files, unpacked), keeps: true };
  tell({ job: input === undefined ? job : { ...job, input: unpacked(input) } });
  return { ...ended, said: said.map((bytes) => packed(Buffer.concat(bytes))), error: packed(Buffer.concat(error)) };
}

const faults = vm.createContext({ TextEncoder, TextDecoder });
vm.runInContext(fs.readFileSync(new URL('page/faults.js', import.meta.url), 'utf8'), faults);

/** The faults of an answer of `check`, and the text that each mend of them leaves. */
function shown({ text, answer }) {
  const after = ({ from, to, put }) => text.slice(0, from) + put + text.slice(to);
  const mended = (fault) => fault.mends.map((mend) => ({ ...mend, leaves: after(faults.joined(text, mend.edits)) }));
  return faults.faultsOfCheck(answer, text).map((fault) => ({ ...fault, mends: mended(fault) }));
}

// ---- steps

const STEPS = ['values', 'changes', 'states', 'account', 'trace'];
const steps = vm.createContext({ TextEncoder, TextDecoder });
const scripts = STEPS.map((name) => fs.readFileSync(new URL(`page/${name}.js`, import.meta.url), 'utf8'));
vm.runInContext(`${scripts.join('\n')}\nObject.assign(globalThis, { States, Trace });`, steps);

/** A state in a line, with stars around what stands out. */
function lineOf({ state, numbers, changes }) {
  const marked = (what, text) => (changes.has(what) ? `*${text}*` : text);
  const pointer = (object) => `object ${numbers.get(object) || '?'}`;
  const leaf = (value) => marked(value, value.object ? pointer(value.object) : value.text);
  const field = (fields, at) => (fields ? `${fields[at]}: ` : '');
  const whole = ({ parts, fields }) => `(${parts.map((part, at) => field(fields, at) + told(part)).join(', ')})`;
  const told = (value) => (value.parts ? whole(value) : leaf(value));
  const variables = (call) => call.variables.map(({ name, value }) => `${name} = ${told(value)}`).join(', ');
  const calls = state.calls.map((call) => `${marked(call, call.routine)}: ${variables(call)}`);
  const objects = state.objects.map((value, at) => `${marked(value, pointer(at + 1))} = ${told(value)}`);
  return [...calls, ...objects.sort()].join('; ');
}

/** What is shown of some steps of a run, a line for each, gone to in that order. */
async function gone({ text, order }) {
  const files = { 'program.pas': packed(Buffer.from(text)) };
  const told = (words) => answered({ words: [...words, 'program.pas'], files, input: '' }).error;
  const run = (...words) => Buffer.from(told(words), 'base64').toString();
  const account = ({ steps: count }) => steps.accountOf(run('why', '--json', '--all', '--steps', String(count)));
  const looks = async (step) => steps.stateOf(account(step));
  const trace = new steps.Trace();
  trace.take(run('trace', '--json'));
  const states = new steps.States(trace, text, looks);
  const lines = [];
  for (const number of order.length ? order : trace.steps.map((_, at) => at + 1)) {
    const shown = await states.changed(number - 1, () => true);
    lines.push(`${number} ${trace.steps[number - 1].statement} | ${lineOf(shown)}`);
  }
  return lines;
}

/** The answer to what is asked. */
function answerTo(asked) {
  if (asked.answer) return shown(asked);
  return asked.order ? gone(asked) : answered(asked);
}

tell({ module: await WebAssembly.compile(unpacked(part('module'))) });
for await (const line of readline.createInterface({ input: process.stdin })) {
  const asked = JSON.parse(line);
  process.stdout.write(`${JSON.stringify(await answerTo(asked))}\n`);
}
