// A page of `explain`, as a panel beside the text.

/** The blocks of a page: paragraphs and rows, in one line each, and what is set in, as it stands. */
function blocksOf(page) {
  const blocks = [];
  for (const group of page.trimEnd().split(/\n\n+/)) {
    const last = blocks[blocks.length - 1];
    const isCode = group.startsWith('    ');
    const text = isCode ? group.replace(/^ {4}/gm, '') : '';
    if (isCode && last && last.isCode) last.text += `\n\n${text}`;
    else if (isCode) blocks.push({ isCode, text });
    else for (const row of group.split(/\n(?=- )/)) blocks.push({ isCode, text: row.replace(/\s*\n\s*/g, ' ') });
  }
  return blocks;
}

/** Whether a block is a program as it stands, by what stands before it. */
function isProgram(text, before) {
  return /^(Wrong|Right):$/.test(before) && !/^\{ \d+ times \}/m.test(text);
}

/** The panel, which covers the run until it is closed. */
class Explanation {
  /** @param {Object<string, HTMLElement>} parts panel, title, body; `opens` is called with a program that is chosen */
  constructor(parts, opens) {
    Object.assign(this, parts);
    this.opens = opens;
    this.opener = null;
  }

  get isOpen() {
    return !this.panel.hidden;
  }

  /** Whether it shows what this asked for. */
  isOpenBy(opener) {
    return this.isOpen && this.opener === opener;
  }

  /** Shows a page: its title is its first line. */
  show(page, opener) {
    const [title, ...rest] = blocksOf(page);
    this.present(title.text, rest.flatMap((block, at) => this.shown(block, at ? rest[at - 1].text : '')), opener);
  }

  /** Shows the parts of a page. `opener` has the focus again when the panel is closed. */
  present(title, parts, opener) {
    this.title.textContent = title;
    this.body.replaceChildren(...parts);
    this.opener = opener;
    this.panel.hidden = false;
    this.panel.scrollTop = 0;
    this.panel.focus();
  }

  shown({ isCode, text }, before) {
    if (!isCode) return [made('p', coded(text))];
    const code = made('pre', `${text}\n`);
    return isProgram(text, before) ? [code, button('Open it in the editor', () => this.opens(`${text}\n`))] : [code];
  }

  close() {
    if (!this.isOpen) return;
    this.panel.hidden = true;
    if (this.opener && this.opener.isConnected) this.opener.focus();
  }
}
