// A run statement by statement: what `trace --json` tells of it, an object a line. This alone knows that form.
// Bytes that were written or read are told as the characters with their numbers.

const MOST_TRACED = 4000; // statements of a run that are gone through

/**
 * A statement of a run, as it was done.
 * @typedef {Object} Step
 * @property {number} line from 1, and `column`, of where it begins
 * @property {number} depth how many calls were open, 0 in the program block
 * @property {string} routine whose statement it is
 * @property {string} statement its text, as far as it fits into a line
 * @property {number} steps how many steps the machine had made by then
 * @property {{name: string, value: string}[]} changed the variables that it changed, with their new values
 * @property {string} written what the program wrote meanwhile, and `read` what it read
 */

const MOST_CHANGES = 20; // variables that are told of a statement

function isObject(line) {
  return line.startsWith('{');
}

/** The text of bytes. */
function textOfBytes(told) {
  return new TextDecoder().decode(Uint8Array.from(told, (letter) => letter.charCodeAt(0)));
}

/** A text in words: its lines in quotes, and their ends. */
function inWords(text) {
  const pieces = text.split(/(\n)/).filter((piece) => piece);
  return pieces.map((piece) => (piece === '\n' ? 'end of line' : `'${piece}'`)).join(', ');
}

/** Takes what a traced run tells, piece by piece, and has its steps. */
class Trace {
  constructor() {
    this.steps = [];
    this.isCut = false;
    this.lack = '';
    this.begun = '';
  }

  /** Takes a piece of standard error, and returns what in it are no objects: messages. */
  take(piece) {
    const lines = (this.begun + piece).split('\n');
    this.begun = lines.pop();
    for (const line of lines.filter(isObject)) this.add(JSON.parse(line));
    this.isCut = this.isCut || this.steps.length > MOST_TRACED;
    this.steps.length = Math.min(this.steps.length, MOST_TRACED);
    return lines.filter((line) => !isObject(line)).map((line) => `${line}\n`).join('');
  }

  /** Adds a statement; or what the trace lacked where it ends. */
  add(told) {
    if (told.cut) this.lack = told.cut;
    else this.steps.push(told);
  }

  /** Whether a statement may have assigned a pointer. */
  movesPointers(at) {
    const { changed } = this.steps[at];
    return changed.length >= MOST_CHANGES || changed.some(holdsPointer);
  }

  /** How deep the least deep of some statements is. */
  leastDepth(from, to) {
    return this.steps.slice(from, to + 1).reduce((least, { depth }) => Math.min(least, depth), Infinity);
  }

  /** What the program had written when a step was done, and in between what it had read, in pieces. */
  consoleAt(at) {
    const pieces = [];
    for (const { written, read } of this.steps.slice(0, at + 1)) {
      addPiece(pieces, written, '');
      addPiece(pieces, read, 'typed');
    }
    return pieces.map(({ bytes, kind }) => ({ text: textOfBytes(bytes), kind }));
  }
}

/** Adds bytes to the last piece, where they are of its kind. (A letter may have come byte by byte.) */
function addPiece(pieces, bytes, kind) {
  const last = pieces[pieces.length - 1];
  if (last && last.kind === kind) last.bytes += bytes;
  else if (bytes) pieces.push({ bytes, kind });
}

// ---- the panel

const SOON = 400; // milliseconds behind which a state is shown without what takes longer
const UNKNOWN = 'The variables behind this statement could not be told.';

/** Going through a traced run: forwards, back, to any step, with the variables of each open call beside it. */
class Stepping {
  /**
   * @param {Object<string, HTMLElement>} parts panel, back, forward, slider, leave, where, frames
   * @param {Object<string, function>} calls `shows` takes the number of the step that is gone to, and `leaves` is told
   * the end
   */
  constructor(parts, calls) {
    Object.assign(this, parts);
    this.calls = calls;
    this.trace = null;
    this.states = null;
    this.isOfText = true;
    this.back.addEventListener('click', () => this.go(this.at - 1));
    this.forward.addEventListener('click', () => this.go(this.at + 1));
    this.slider.addEventListener('input', () => this.go(Number(this.slider.value) - 1));
    this.leave.addEventListener('click', () => this.calls.leaves());
  }

  get isOpen() {
    return !this.panel.hidden;
  }

  /** The step that is shown, if any is. */
  get step() {
    return this.isOpen ? this.trace.steps[this.at] : undefined;
  }

  /** Begins at the first step of a run, if it has one. `states` are those behind its steps. */
  open(trace, states) {
    Object.assign(this, { trace, states });
    if (!trace.steps.length) return;
    this.slider.max = String(trace.steps.length);
    this.show(true);
    this.go(0);
    this.forward.focus();
  }

  close() {
    this.show(false);
    this.frames.replaceChildren();
    Object.assign(this, { trace: null, states: null });
  }

  show(isShown) {
    this.panel.hidden = !isShown;
    this.panel.parentNode.classList.toggle('stepping', isShown);
  }

  /** Goes to a step, by its number from 0. */
  go(at) {
    const { steps } = this.trace;
    this.at = Math.max(0, Math.min(at, steps.length - 1));
    this.slider.value = String(this.at + 1);
    this.tell();
    this.allow(this.at > 0, this.at < steps.length - 1);
    this.showState();
    this.calls.shows(this.at);
  }

  /** Tells which step is shown; and where the text isn't the one that was run any more, that too. */
  tell() {
    const [told, now] = [this.told(this.step), this.isOfText ? [] : ['; the text was changed since']];
    this.where.replaceChildren(...told, ...now);
    this.slider.setAttribute('aria-valuetext', this.where.textContent);
  }

  /** Follows whether the text still is the one that was run. */
  followText(isOfText) {
    if (this.isOfText === isOfText) return;
    this.isOfText = isOfText;
    if (this.isOpen) this.tell();
  }

  /** Shows the state behind the step. Until it is known nothing stands there, and none of another step. */
  async showState() {
    const { at, states } = this;
    const isWanted = () => this.isOpen && this.states === states && this.at === at;
    this.empty();
    const timer = setTimeout(() => this.showUnnumbered(isWanted), SOON);
    const shown = await states.changed(at, isWanted);
    clearTimeout(timer);
    if (!isWanted()) return;
    this.fill(shown ? new Drawing(shown, states.declarations).tables() : [made('p', UNKNOWN)]);
    if (shown && at + 1 < this.trace.steps.length) states.changed(at + 1, isWanted); // (so that Forward finds it)
  }

  /** Shows the state without what takes longer: the numbers of its objects, and what has changed. */
  async showUnnumbered(isWanted) {
    const { at, states } = this;
    const state = isWanted() && (await states.at(at));
    if (!state || !isWanted() || this.isFilled) return;
    this.fill([...new Drawing({ state }, states.declarations).tables(), made('p', 'What changed is being found.')]);
    this.isFilled = false;
  }

  /** Takes away what is shown of a state, and keeps its room. */
  empty() {
    this.frames.style.minHeight = `${this.frames.offsetHeight}px`;
    this.frames.setAttribute('aria-busy', 'true');
    this.frames.replaceChildren();
    this.isFilled = false;
  }

  fill(parts) {
    this.frames.replaceChildren(...parts);
    this.frames.style.minHeight = '';
    this.frames.setAttribute('aria-busy', 'false');
    this.isFilled = true;
  }

  /** Lets the buttons be clicked, or not. The focus goes from one that can't be any more to the other. */
  allow(mayGoBack, mayGoForward) {
    const focused = document.activeElement;
    this.back.disabled = !mayGoBack;
    this.forward.disabled = !mayGoForward;
    if (focused === this.forward && !mayGoForward) (mayGoBack ? this.back : this.slider).focus();
    if (focused === this.back && !mayGoBack) (mayGoForward ? this.forward : this.slider).focus();
  }

  told({ line, routine, statement, read }) {
    const { steps, isCut, lack } = this.trace;
    const all = isCut ? `the first ${steps.length}` : steps.length;
    const taken = read ? `; it read ${inWords(textOfBytes(read))}` : '';
    const end = lack && this.at === steps.length - 1 ? `; the trace ends here: ${lack}` : '';
    const place = `after statement ${this.at + 1} of ${all}: line ${line}, in ${routine}: `;
    return [place, made('code', statement), taken + end];
  }
}
