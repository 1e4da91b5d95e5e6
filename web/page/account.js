// What `why --json` tells of a run where it ended or was stopped: how it ended, and the calls that are open with their
// variables. This alone knows that form.

/**
 * A call that is open, or what else is told beneath the calls.
 * @typedef {Object} Call
 * @property {string} title
 * @property {number} [depth] how many calls are open around it; calls alone have one
 * @property {{name: string, type: string, value: string}[]} variables
 */

/** The object that was told; null where it was something else. */
function accountOf(told) {
  return told.startsWith('{') ? JSON.parse(told.split('\n')[0]) : null;
}

/** The open calls of an account, the innermost first, and behind them what the objects hold. */
function callsOf({ open, calls, objects }) {
  const shown = calls.map(({ routine, called, variables }, at) => ({
    title: called ? `in ${routine}, called at line ${called.line}` : `in ${routine}`,
    depth: at === calls.length - 1 ? 0 : open - 1 - at,
    variables,
  }));
  if (open > calls.length) shown.splice(-1, 0, { title: `${open - calls.length} more calls`, variables: [] });
  const held = objects.map((value, at) => ({ name: `object ${at + 1}`, value }));
  return held.length ? [...shown, { title: 'objects', variables: held }] : shown;
}

/** The state that an account tells, with the parts of its values. */
function stateOf(account) {
  const told = callsOf({ ...account, objects: [] }).filter(({ depth }) => depth !== undefined);
  const calls = told.map(({ title, depth, variables }, at) => ({
    routine: account.calls[at].routine,
    title,
    depth,
    place: JSON.stringify(account.calls[at].called || null),
    variables: variables.map(({ name, type, value }) => ({ name, type, value: valueOf(value) })),
  }));
  return { calls, objects: account.objects.map(valueOf), hidden: Math.max(0, account.open - calls.length) };
}

/** A call that is open, with its variables. */
function shownCall(call) {
  const rows = call.variables.map(({ name, value }) => {
    const head = made('th', name);
    head.scope = 'row';
    return made('tr', [head, made('td', value)]);
  });
  return made('table', [made('caption', call.title), ...rows]);
}

/** How a run ended, in a sentence. (What options of the command give, the page has under Limits.) */
function endedOf({ text, loop }) {
  const told = text.replace(/`--(\w+)` gives more/, 'Limits can give it more');
  return loop ? `${told}, in the \`${loop.word}\`` : told;
}

/** An account in parts of a page. `goTo` is called where its line is chosen. */
function shownAccount(account, goTo) {
  const { line, notes } = account;
  const lead = line ? [button(`line ${line}`, goTo, 'place'), ' '] : [];
  const told = [[...lead, ...coded(endedOf(account))], ...notes.map(coded)].map((parts) => made('p', parts));
  const calls = callsOf(account).map(shownCall);
  return [...told, made('div', calls, 'frames')];
}
