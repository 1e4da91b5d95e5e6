// The list of faults beneath a run: each with what was expected, with help, mends that a click applies, and places.

/** An element with some parts. */
function made(kind, parts, name = '') {
  const element = document.createElement(kind);
  element.append(...[].concat(parts));
  if (name) element.className = name;
  return element;
}

function button(text, clicked, name = '') {
  const element = made('button', text, name);
  element.type = 'button';
  element.addEventListener('click', () => clicked(element));
  return element;
}

/** The parts of a text whose pieces between backticks are code. (A backtick may be such a piece itself.) */
function coded(text) {
  const parts = text.split(/`([^`]+|`)`/);
  return parts.map((part, at) => (at % 2 ? made('code', part) : part));
}

/** The faults that are told of a text. */
class FaultList {
  /**
   * @param {HTMLElement} list
   * @param {Object<string, function>} calls `goesTo` a place, `mends` by a mend, `explains` words
   */
  constructor(list, calls) {
    this.list = list;
    this.calls = calls;
  }

  show(faults) {
    this.list.replaceChildren(...faults.map((fault) => this.row(fault)));
  }

  /** Lets mends be clicked, or not: they are of one text alone. */
  allowMends(isAllowed) {
    for (const mend of this.list.querySelectorAll('.mend')) mend.disabled = !isAllowed;
  }

  row(fault) {
    const parts = [
      this.told(fault, 'p'),
      ...fault.more.map((line) => made('p', coded(line), 'more')),
      ...fault.mends.map((mend) => this.mend(mend)),
      ...fault.places.map((place) => this.told(place, 'p', 'more')),
    ];
    return made('li', parts, fault.kind);
  }

  /** What is told of a place, and a button that leads there. */
  told(place, kind, name) {
    const row = made(kind, [], name);
    if (place.line) row.append(button(`line ${place.line}`, () => this.calls.goesTo(place)), ' ');
    row.append(...(place.kind === 'warning' ? ['warning: '] : []), ...coded(place.message));
    if (place.explains) {
      const explain = button('explain', (opener) => this.calls.explains(place.explains, opener));
      explain.setAttribute('aria-label', `explain ${place.explains}`);
      row.append(' ', explain);
    }
    return row;
  }

  mend(mend) {
    const why = mend.accepted ? 'the text is then accepted' : 'the first fault then comes later';
    return made('p', [button(coded(mend.text), () => this.calls.mends(mend), 'mend'), ` (tried: ${why})`], 'more');
  }
}
