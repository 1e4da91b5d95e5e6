// The text: its line numbers, and marks at the places that faults tell of.

/** Something that stands at the line of a place. */
function atLine({ line, kind }, element, parts) {
  const at = made(element, parts, kind);
  at.style.top = `calc(var(--line) * ${line - 1})`;
  return at;
}

/** A copy of a line of which a place alone shows, by its underline. */
function underlined(place) {
  const { column, length, text } = place;
  const start = column ? column - 1 : text.length - text.trimStart().length;
  const shown = text.slice(start, column ? start + length : text.length) || ' ';
  return atLine(place, 'div', [text.slice(0, start), made('u', shown)]);
}

/** All that is told of a place beneath the text. */
function wholeOf(place) {
  return [toldOf(place), ...(place.more || [])].join('; ');
}

/** A field of text with line numbers beside it and marks beneath it. */
class Editor {
  /** @param {Object<string, HTMLElement>} parts text, numbers, marks, place */
  constructor(parts) {
    Object.assign(this, parts);
    this.marked = [];
    this.lines = 1;
    this.changed = () => {};
    this.text.addEventListener('input', () => this.follow());
    this.text.addEventListener('scroll', () => this.scroll());
    this.text.addEventListener('keydown', (event) => this.indent(event));
    this.text.addEventListener('mousemove', (event) => this.tell(this.lineAt(event)));
    this.text.addEventListener('mouseleave', () => this.tell());
    document.addEventListener('selectionchange', () => this.tell());
    for (const event of ['keyup', 'click']) this.text.addEventListener(event, () => this.tell());
  }

  get value() {
    return this.text.value;
  }

  /** Puts another text in the place of this one. */
  replace(text) {
    this.text.value = text;
    this.mark([]);
    this.text.setSelectionRange(0, 0);
    this.text.scrollTo(0, 0);
    this.follow();
  }

  /** Goes after a change of the text: numbers, and the marks of lines that are still there. */
  follow() {
    const lines = this.value.split('\n');
    if (lines.length !== this.lines) this.numbers.firstChild.data = Array.from(lines, (_, at) => at + 1).join('\n');
    const moved = lines.length - this.lines;
    this.lines = lines.length;
    if (this.marked.length) this.moveMarks(lines, moved);
    this.tell();
    this.changed();
  }

  /** Has marks go with their lines, and drops those whose lines have changed. */
  moveMarks(lines, moved) {
    this.marked = this.marked
      .map((place) => ({ ...place, line: lines[place.line - 1] === place.text ? place.line : place.line + moved }))
      .filter((place) => lines[place.line - 1] === place.text);
    this.draw();
  }

  /** Marks the places of faults, and those that they tell of, and no others. */
  mark(faults) {
    const lines = this.value.split('\n');
    const places = [...faults, ...faults.flatMap((fault) => fault.places)];
    this.marked = places.filter((place) => place.line).map((place) => ({ ...place, text: lines[place.line - 1] || '' }));
    this.draw();
    this.tell();
  }

  /** Takes away the marks of a kind. */
  unmark(kind) {
    const left = this.marked.filter((place) => place.kind !== kind);
    if (left.length === this.marked.length) return;
    this.marked = left;
    this.draw();
    this.tell();
  }

  draw() {
    while (this.numbers.childNodes.length > 1) this.numbers.lastChild.remove();
    const shown = [...this.marked].reverse(); // (the first of a line lies above the others)
    this.numbers.append(...shown.map((place) => atLine(place, 'i', String(place.line))));
    this.marks.replaceChildren(...shown.map((place) => atLine(place, 'div', [])), ...shown.map(underlined));
    this.scroll();
  }

  scroll() {
    const { scrollLeft, scrollTop } = this.text;
    this.marks.style.transform = `translate(${-scrollLeft}px, ${-scrollTop}px)`;
    this.numbers.style.transform = `translateY(${-scrollTop}px)`;
  }

  lineAt(event) {
    return 1 + Math.floor((event.offsetY + this.text.scrollTop) / parseFloat(getComputedStyle(this.text).lineHeight));
  }

  /** The faults at a line, or else the places there that others tell of. */
  toldAt(line) {
    const all = this.marked.filter((place) => place.line === line);
    const faults = all.filter((place) => place.kind !== 'place');
    return faults.length ? faults : all;
  }

  /** Tells where the cursor is, and what is marked at its line; or that at another line, which the pointer is over. */
  tell(pointed = 0) {
    const before = this.value.slice(0, this.text.selectionStart);
    const line = before.split('\n').length;
    const column = before.length - before.lastIndexOf('\n');
    const marked = [pointed, line].map((at) => this.toldAt(at)).find((places) => places.length);
    const told = marked ? marked.map(wholeOf).join('; ') : `line ${line}, column ${column}`;
    if (this.told !== told) this.place.replaceChildren(...coded(told));
    this.told = told;
    this.place.className = marked ? marked[0].kind : '';
  }

  /** Puts a text in the place of some of this one. (By a command of the browser, where it has it, which can undo it.) */
  put({ from, to, put }) {
    this.text.focus();
    this.text.setSelectionRange(from, to);
    if (document.execCommand(...(put ? ['insertText', false, put] : ['delete']))) return;
    this.text.setRangeText(put, from, to, 'end');
    this.follow();
  }

  /** Selects a place, or a whole line, and shows it. */
  select({ line, column, length }) {
    const lines = this.value.split('\n');
    const start = lines.slice(0, line - 1).reduce((sum, before) => sum + before.length + 1, 0);
    const from = start + (column ? column - 1 : 0);
    this.text.focus();
    this.text.setSelectionRange(from, column ? from + length : start + (lines[line - 1] || '').length);
    this.reveal(line);
    this.tell();
  }

  /** Has a line that is out of sight be in the middle of what is seen. */
  reveal(line) {
    const { scrollTop, clientHeight } = this.text;
    const height = parseFloat(getComputedStyle(this.text).lineHeight);
    const top = (line - 1) * height;
    if (top < scrollTop || top + height > scrollTop + clientHeight) this.text.scrollTop = top - clientHeight / 2;
  }

  /** Begins a new line as far in as the line before it. (By a command of the browser, which can undo it.) */
  indent(event) {
    if (event.key !== 'Enter' || event.ctrlKey || event.metaKey || event.isComposing) return;
    const before = this.value.slice(0, this.text.selectionStart);
    const spaces = /(?:^|\n)([ \t]*)[^\n]*$/.exec(before)[1];
    if (spaces && document.execCommand('insertText', false, `\n${spaces}`)) event.preventDefault();
  }
}
