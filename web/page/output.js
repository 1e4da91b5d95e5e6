// What a run writes, and what is typed to it.

const BLOCK = 4000; // letters behind which a block ends with its line: one that is out of sight is not laid out
const LONGEST = 40000; // letters behind which it ends within a line, since what grows in one block is laid out anew
const COLUMNS = 80; // of such a line, as far as it is not laid out

/** The field that shows it. */
class Output {
  constructor(field) {
    this.field = field;
    this.clear();
  }

  clear() {
    this.field.replaceChildren();
    this.field.className = '';
    this.unseen = [];
    this.block = null;
    this.length = 0;
  }

  /** Adds a text, by the next frame. (A page that is laid out for each of many pieces is slow.) */
  add(text, kind = '') {
    if (!this.unseen.length) requestAnimationFrame(() => this.show());
    const last = this.unseen[this.unseen.length - 1];
    if (last && last.kind === kind) last.text += text;
    else this.unseen.push({ text, kind });
  }

  /** Shows what was added, and keeps the end in sight. */
  show() {
    if (!this.unseen.length) return;
    for (const { text, kind } of this.unseen) this.put(text, kind);
    this.unseen = [];
    this.field.scrollTop = this.field.scrollHeight;
  }

  put(text, kind) {
    for (let at = 0; at < text.length; ) {
      if (!this.block) this.begin();
      const behind = text.indexOf('\n', at + Math.max(0, BLOCK - this.length)) + 1 || text.length;
      const end = Math.min(behind, at + LONGEST - this.length);
      this.block.append(made('span', text.slice(at, end), kind));
      this.length += end - at;
      at = end;
      if (this.length >= LONGEST || (this.length >= BLOCK && text[end - 1] === '\n')) this.end();
    }
  }

  begin() {
    this.block = made('div', []);
    this.length = 0;
    this.field.append(this.block);
  }

  end() {
    const lines = this.block.textContent.split('\n').length - 1 || Math.ceil(this.length / COLUMNS);
    this.block.style.containIntrinsicHeight = `auto calc(var(--line) * ${lines})`;
    this.block.className = 'whole';
    this.block = null;
  }
}
