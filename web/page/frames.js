// A state of a run in tables: the variables of each open call, then what the objects hold.

const MOST_CELLS = 1000; // components of an array that are shown as cells; one with more is a text
const MOST_CALLS = 100; // calls that are shown, with the program's own one

/** Draws a state. What stands out is marked. */
class Drawing {
  /**
   * @param {{state: State, numbers?: Map, changes?: Changes}} shown without numbers and changes where they aren't known
   * @param {Declarations} declarations of the text
   */
  constructor({ state, numbers = new Map(), changes = new Set() }, declarations) {
    Object.assign(this, { state, numbers, changes, declarations });
  }

  tables() {
    const { calls, objects, hidden } = this.state;
    const inner = calls.slice(0, -1).slice(0, MOST_CALLS - 1);
    const left = hidden + Math.max(0, calls.length - 1 - inner.length);
    const more = left ? [made('p', `${left} more call${left > 1 ? 's' : ''}`, 'more')] : [];
    const [first, last] = [inner, calls.slice(-1)].map((some) => some.map((call) => this.call(call)));
    return [...first, ...more, ...last, ...(objects.length ? [this.objects()] : [])];
  }

  call(call) {
    const rows = call.variables.map(({ name, type, value }) => this.row(name, { name, type, value }));
    return made('table', [made('caption', call.title, this.changes.has(call) ? 'changed' : ''), ...rows]);
  }

  /** The objects, by their numbers; behind them those whose numbers aren't known. */
  objects() {
    const types = this.typesOfObjects();
    const all = this.state.objects.map((value, at) => ({ value, object: at + 1, number: this.numbers.get(at + 1) }));
    all.sort((one, other) => (one.number || Infinity) - (other.number || Infinity) || 0);
    const part = ({ value, object }) => ({ name: '', type: types.get(object) || '', value });
    const rows = all.map((each) => this.row(this.told(each), part(each)));
    return made('table', [made('caption', 'objects'), ...rows]);
  }

  /** The types of objects, by the types of the pointers that lead to them. */
  typesOfObjects() {
    const types = new Map();
    const waiting = this.state.calls.flatMap(({ variables }) => variables);
    while (waiting.length) {
      const { value, type } = waiting.pop();
      if (!value.parts && value.object && !types.has(value.object)) {
        const domain = this.declarations.domain(type);
        types.set(value.object, domain);
        const held = this.state.objects[value.object - 1];
        if (held) waiting.push({ value: held, type: domain });
      }
      const leads = value.parts && objectsIn(value).length;
      if (leads) waiting.push(...partsOf({ value, name: '', type }, this.declarations));
    }
    return types;
  }

  row(name, part) {
    const head = made('th', name);
    head.scope = 'row';
    const isMarked = this.changes.has(part.value);
    const told = part.value.parts ? this.value(part) : this.told(part.value);
    return made('tr', [head, made('td', told)], isMarked ? 'changed' : '');
  }

  value(part) {
    const { parts, fields } = part.value;
    const isRow = !fields && parts.length <= MOST_CELLS && parts.every((each) => !each.parts);
    if (!isRow) return this.pieces(part.value);
    return made('span', partsOf(part, this.declarations).map((each) => this.cell(each)), 'cells');
  }

  cell({ value, index }) {
    const head = index === undefined ? [] : [made('i', index), ' '];
    return made('span', [...head, this.told(value)], this.changes.has(value) ? 'changed' : '');
  }

  /** A value that has parts as a text in pieces, of which those that changed are marked. */
  pieces(value) {
    const pieces = [];
    this.put(value, pieces);
    return joinedPieces(pieces);
  }

  put(value, pieces) {
    const { parts, fields } = value;
    if (!parts) {
      pieces.push(this.changes.has(value) ? made('mark', this.told(value), 'changed') : this.told(value));
      return;
    }
    parts.forEach((part, at) => {
      pieces.push(at ? ', ' : '(');
      if (fields) pieces.push(`${fields[at]}: `);
      this.put(part, pieces);
    });
    pieces.push(')');
  }

  /** A value without parts, as it is told. */
  told({ text, object }) {
    return object ? `object ${this.numbers.get(object) || '?'}` : text;
  }
}

/** Pieces with texts that follow each other put together. */
function joinedPieces(pieces) {
  const joined = [];
  for (const piece of pieces) {
    const isText = typeof piece === 'string' && typeof joined[joined.length - 1] === 'string';
    if (isText) joined[joined.length - 1] += piece;
    else joined.push(piece);
  }
  return joined;
}
