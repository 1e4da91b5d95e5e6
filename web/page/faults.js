'use strict';

// Faults of a text: what `check --json` tells of it, an object a line, and what a run tells on standard error. This
// alone knows the forms of both. Offsets that the program tells count bytes of UTF-8, those here the text's units.

/**
 * A place of the text.
 * @typedef {Object} Place
 * @property {string} kind `error`, `warning`, or `place` where a fault tells of it
 * @property {string} message what is told; pieces of the text stand between backticks
 * @property {number} line from 1; 0 where it has no place
 * @property {number} [column] from 1; without it the whole line is meant
 * @property {number} [length]
 */

/**
 * A fault of the text, or what a run that failed tells of it.
 * @typedef {Object} Told
 * @property {string} explains the words of its page of `explain`, or nothing
 * @property {boolean} refuses whether the text is refused for it
 * @property {string[]} more lines behind the message: what was expected, and help
 * @property {Place[]} places others that it tells of
 * @property {Mend[]} mends
 * @typedef {Place & Told} Fault
 */

/**
 * Edits of the text that the checker has tried.
 * @typedef {Object} Mend
 * @property {string} text what they do
 * @property {boolean} accepted whether the text is then accepted; else its first fault comes later
 * @property {{from: number, to: number, put: string}[]} edits
 */

/** A fault that has no more than a message, and what is given besides. */
function fault(message, given) {
  return { kind: 'error', message, line: 0, explains: '', refuses: false, more: [], places: [], mends: [], ...given };
}

// ---- what a run tells

/** The faults that standard error tells of, in its order. `meanings` has a text for the number of each refusal. */
function faultsOfRun(standardError, meanings) {
  const faults = [];
  for (const told of standardError.split('\n')) {
    const refused = /^refused(?: at line (\d+))?: (\d+) (\w+)$/.exec(told);
    const failed = /^line (\d+): (.*)$/.exec(told);
    const called = /^called at line (\d+)$/.exec(told);
    if (refused) faults.push(refusalOf(refused, meanings));
    else if (failed) faults.push(fault(failed[2], { line: Number(failed[1]), explains: failed[2] }));
    else if (called) faults.push(fault('called from here', { kind: 'place', line: Number(called[1]) }));
  }
  return faults;
}

function refusalOf([, line, number, name], meanings) {
  const more = meanings[number] ? [meanings[number]] : [];
  return fault(`${number} ${name}`, { line: Number(line || 0), explains: name, refuses: true, more });
}

// ---- what `check --json` tells

/** What tells the offset in a text's units by that in its bytes. */
function unitsOf(text) {
  const bytes = new TextEncoder().encode(text);
  const utf8 = new TextDecoder('utf-8', { ignoreBOM: true });
  return (offset) => utf8.decode(bytes.subarray(0, offset)).length;
}

function placeOf({ from, to, line }, text, units) {
  if (from === undefined) return { line: 0 };
  const before = text.slice(0, units(from));
  return { line, column: before.length - before.lastIndexOf('\n'), length: units(to) - before.length };
}

/** Kinds of tokens as they are told: a group in its words, a token between backticks. */
function listOf(kinds) {
  const named = kinds.map((kind) => (/^(an?|the) ./.test(kind) ? kind : `\`${kind}\``));
  return named.length < 2 ? named.join('') : `${named.slice(0, -1).join(', ')} or ${named[named.length - 1]}`;
}

function faultOf(told, text, units) {
  const refuses = told.severity === 'error';
  const expected = told.expected.length ? [`expected: ${listOf(told.expected)}`] : [];
  const counted = ({ from, to, put }) => ({ from: units(from), to: units(to), put });
  return fault(told.text, {
    ...placeOf(told, text, units),
    kind: told.severity,
    explains: told.name,
    refuses,
    more: [...expected, ...told.helps],
    places: told.notes.map((note) => ({ ...placeOf(note, text, units), kind: 'place', message: note.text })),
    mends: told.mends.map((mend) => ({ ...mend, edits: mend.edits.map(counted) })),
  });
}

/** The faults that `check --json` tells of a text, or null where it told something else, as a program without it. */
function faultsOfCheck({ status, out, error }, text) {
  if (error || !(status === 0 || status === 1)) return null;
  const units = unitsOf(text);
  const lines = out.split('\n').filter((line) => line);
  return lines.map((line) => faultOf(JSON.parse(line), text, units));
}

/** The edits of a mend as one: what then stands between the first and the last of them. */
function joined(text, edits) {
  const sorted = [...edits].sort((one, other) => one.from - other.from);
  let put = '';
  let at = sorted[0].from;
  for (const edit of sorted) {
    put += text.slice(at, edit.from) + edit.put;
    at = edit.to;
  }
  return { from: sorted[0].from, to: at, put };
}

// ---- in a sentence

/** The message of a fault with its line, if it has one. */
function toldOf({ line, message }) {
  return line ? `line ${line}: ${message}` : message;
}

/** What is said of words that the command doesn't take, which can only be limits here; null if it took them. */
function faultOfWords(standardError) {
  const told = /^error: (.*)$/m.exec(standardError);
  return told && fault(told[1], {});
}

/** Whether a refusal is one of the limits of a run, and not of the text. */
function isOfLimits(refusal) {
  return /^7[01] |^(?:invalid value|unexpected argument)/.test(refusal.message);
}

/** How a run ended, by its status and the first fault, if there is one. */
function endingOf(status, reason) {
  return (
    {
      0: 'The program came to its end',
      1: reason && isOfLimits(reason) ? 'The limits were refused' : 'The text was refused',
      2: 'The program ended with an error',
      3: 'The program ran out of room',
      4: 'The program was stopped: it had made all its steps',
      5: 'The machine came to a fault',
    }[status] || `Ended with status ${status}`
  );
}
