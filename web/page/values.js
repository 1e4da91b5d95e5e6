// The values of variables, as the program tells them in `why --json` and `trace --json`: what they are made of.

/**
 * A value. What has no parts has a text alone.
 * @typedef {Object} Value
 * @property {string} [text]
 * @property {number} [object] the number of the object that a pointer leads to, as the same account numbers it
 * @property {Value[]} [parts] the components of an array, or the fields of a record
 * @property {string[]} [fields] the names of a record's fields
 */

const MOST_ORDINALS = 100000; // values of an ordinal type that are told
const LEAF = /'(?:[^']|'')*'|\[(?:'(?:[^']|'')*'|[^'\]])*\]|chr\(\d+\)|[^,()'[\]]+/y;
const FIELD = /([\w.]+): /y;

function leafOf(text) {
  const pointer = /^object (\d+)$/.exec(text);
  return pointer ? { text, object: Number(pointer[1]) } : { text };
}

/** Reads a value from its text. */
class ValueReader {
  constructor(text) {
    this.text = text;
    this.at = 0;
    this.isWell = true;
  }

  /** Goes past what stands here of a form, and returns it. */
  take(form) {
    form.lastIndex = this.at;
    const found = form.exec(this.text);
    if (found) this.at = form.lastIndex;
    return found;
  }

  value() {
    if (this.take(/\(/y)) return this.whole();
    const leaf = this.take(LEAF);
    this.isWell = this.isWell && leaf !== null;
    return leafOf(leaf ? leaf[0] : '');
  }

  whole() {
    const parts = [];
    const fields = [];
    do {
      const field = this.take(FIELD);
      if (field) fields.push(field[1]);
      if (this.take(/\.\. /y)) parts.push(leafOf('..')); // (others are left out there)
      parts.push(this.value());
    } while (this.take(/, /y));
    this.isWell = this.isWell && this.take(/\)/y) !== null;
    return fields.length === parts.length ? { parts, fields } : { parts };
  }
}

/** The value that is told by a text. One of another form has no parts, and so is shown as it is told. */
function valueOf(text) {
  const reader = new ValueReader(text);
  const value = reader.value();
  return reader.isWell && reader.at === text.length ? value : leafOf(text);
}

/** How many values without parts are in one. */
function sizeOf({ parts }) {
  return parts ? parts.reduce((sum, part) => sum + sizeOf(part), 0) : 1;
}

// ---- types, as far as the text tells them for sure

/** A text without its comments. */
function withoutComments(text) {
  const pieces = /'(?:[^'\n]|'')*'|\{[^]*?(?:\}|\*\))|\(\*[^]*?(?:\*\)|\})/g;
  return text.replace(pieces, (piece) => (piece[0] === "'" ? piece : ' '));
}

/** What is within the parentheses that open before a place. */
function enclosed(text, from) {
  let depth = 1;
  let at = from;
  for (; at < text.length && depth; at += 1) depth += { '(': 1, ')': -1 }[text[at]] || 0;
  return text.slice(from, at - 1);
}

/** The type that a text begins with: its name, where it has one. (Other types show by themselves where they end.) */
function typeAhead(text) {
  const name = /^(\w+)\s*(?:;|\)|end\b|$)/i.exec(text);
  return name ? name[1] : text;
}

/** The declarations of a program's text. What is declared twice tells nothing, since either may be meant. */
class Declarations {
  constructor(text) {
    this.text = withoutComments(text);
    this.found = new Map();
  }

  /** What begins behind `NAME =`, if that stands in the text once. */
  behind(name) {
    const key = name.toLowerCase();
    if (!this.found.has(key)) {
      const places = [...this.text.matchAll(new RegExp(`\\b${key}\\s*=\\s*`, 'gi'))];
      this.found.set(key, places.length === 1 ? this.text.slice(places[0].index + places[0][0].length) : '');
    }
    return this.found.get(key);
  }

  /** A type as it is written out, where it was told by its name. */
  written(type) {
    const told = type.trim();
    return /^\w+$/.test(told) ? typeAhead(this.behind(told)) : told;
  }

  /** The type of an array's components and that of its indices; nothing where it is no array. */
  array(type) {
    const found = /^(?:packed\s+)?array\s*\[([^\],]*)(?:,([^\]]*))?\]\s*of\s+([^]*)$/i.exec(this.written(type));
    if (!found) return null;
    const [, index, others, component] = found;
    const of = typeAhead(component);
    return { index, component: others ? `array [${others}] of ${of}` : of };
  }

  /** The types of a record's fields by their names. */
  fields(type) {
    const found = /^(?:packed\s+)?record\b([^]*)$/i.exec(this.written(type));
    const types = new Map();
    if (!found) return types;
    let depth = 1;
    for (const piece of found[1].split(/(;|\bend\b|\brecord\b)/i)) {
      depth += { end: -1, record: 1 }[piece.toLowerCase()] || 0;
      const field = depth === 1 && /^([\w\s,]+):([^]*)$/.exec(piece);
      if (!depth) break;
      if (field) for (const name of field[1].split(',')) types.set(name.trim().toLowerCase(), field[2].trim());
    }
    return types;
  }

  /** The type of the objects that pointers of a type lead to. */
  domain(type) {
    const found = /^\^\s*(\w+)/.exec(this.written(type));
    return found ? found[1] : '';
  }

  /** The names of the variable parameters of a routine, in small letters. */
  variableParameters(routine) {
    const headings = [...this.text.matchAll(new RegExp(`\\b(?:procedure|function)\\s+${routine}\\s*\\(`, 'gi'))];
    const sections = headings.flatMap(({ index, 0: { length } }) => enclosed(this.text, index + length).split(';'));
    const names = sections.flatMap((section) => (/^\s*var\s+([^:]*)/i.exec(section) || ['', ''])[1].split(','));
    return new Set(names.map((name) => name.trim().toLowerCase()));
  }

  // -- ordinal types

  /** A constant as it is written, of one that is told by its name. */
  constant(told, depth = 0) {
    const text = told.trim();
    if (/^[+-]?\d+$/.test(text)) return Number(text);
    if (/^'(?:[^']|'')'$/.test(text)) return text;
    const found = /^[A-Za-z]\w*$/.test(text) && depth < 9 && /^([+-]?\w+|'(?:[^']|'')')\s*;/.exec(this.behind(text));
    return found ? this.constant(found[1], depth + 1) : undefined;
  }

  range(low, high) {
    const [first, last] = [low, high].map((told) => this.constant(told));
    if (typeof first === 'number' && typeof last === 'number') return ordinals(first, last, String);
    if (typeof first === 'string' && typeof last === 'string') {
      return ordinals(first.charCodeAt(1), last.charCodeAt(1), toldOfCharacter);
    }
    return [];
  }

  /** The values of an ordinal type, as the program tells them; none where they aren't sure. */
  ordinalsOf(type, depth = 0) {
    const told = type.trim();
    const known = { boolean: ['false', 'true'], char: ordinals(0, 255, toldOfCharacter) }[told.toLowerCase()];
    if (known && !new RegExp(`\\b${told}\\s*=`, 'i').test(this.text)) return known;
    const names = /^\(([\w\s,]+)\)/.exec(told);
    if (names) return names[1].split(',').map((name) => name.trim());
    const bounds = /^([+-]?\w+|'(?:[^']|'')')\s*\.\.\s*([+-]?\w+|'(?:[^']|'')')/.exec(told);
    if (bounds) return this.range(bounds[1], bounds[2]);
    return /^\w+$/.test(told) && depth < 9 ? this.ordinalsOf(this.behind(told), depth + 1) : [];
  }

  /** The indices of an array of so many components; none where they aren't sure. */
  indices(type, count) {
    const array = this.array(type);
    const known = array ? this.ordinalsOf(array.index) : [];
    return known.length === count ? known : [];
  }
}

function ordinals(first, last, told) {
  const isFew = first <= last && last - first < MOST_ORDINALS;
  return isFew ? Array.from({ length: last - first + 1 }, (_, at) => told(first + at)) : [];
}

/** A character as the program tells it. */
function toldOfCharacter(code) {
  if (code < 32 || code > 126) return `chr(${code})`;
  return code === 39 ? "''''" : `'${String.fromCharCode(code)}'`;
}

/**
 * A part of a value with the name by which the program tells it and its type. An index that isn't known is left out, as
 * in `a[]`.
 */
function partsOf({ value: { parts, fields }, name, type }, declarations) {
  const types = fields && declarations.fields(type);
  const array = !fields && declarations.array(type);
  const indices = array ? declarations.indices(type, parts.length) : [];
  return parts.map((value, at) => ({
    value,
    index: fields ? fields[at] : indices[at],
    name: fields ? `${name}.${fields[at]}` : `${name}[${at < indices.length ? indices[at] : ''}]`,
    type: (fields ? types.get(fields[at].toLowerCase()) : array && array.component) || '',
  }));
}
