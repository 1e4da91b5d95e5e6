// The states of a run that is gone through: each is made by a run that is stopped behind the statement, and some are
// kept.

const MOST_STATES = 12; // that are kept

class States {
  /**
   * @param {Trace} trace
   * @param {string} text of the program
   * @param {function(Step): Promise<?State>} looks makes the state behind a statement
   */
  constructor(trace, text, looks) {
    Object.assign(this, { trace, looks, declarations: new Declarations(text) });
    this.kept = new Map();
    this.numbers = new Map([[-1, BEGINNING.numbers]]);
  }

  /** The state behind a statement, by its number from 0; null where it can't be told. */
  at(number) {
    const known = this.kept.get(number) || this.looks(this.trace.steps[number]);
    this.kept.delete(number);
    this.kept.set(number, known); // (the last one is the one that was asked for last)
    if (this.kept.size > MOST_STATES) this.kept.delete(this.kept.keys().next().value);
    return known;
  }

  /** The same with the numbers that are known of it; before the first statement too. */
  async numberedAt(number) {
    return number < 0 ? BEGINNING : { state: await this.at(number), numbers: this.numbers.get(number) };
  }

  /** By what a state comes from an earlier one. */
  between(from, number) {
    return { step: this.trace.steps[number], least: this.trace.leastDepth(from + 1, number) };
  }

  /**
   * Finds the numbers of a state's objects, from the last state before whose are known: through each that a statement
   * made which assigned pointers. Returns whether they are found: not if they are no longer wanted, or can't be told.
   */
  async find(number, isWanted) {
    let from = number;
    while (!this.numbers.has(from)) from -= 1;
    for (let next = from + 1; next <= number; next += 1) {
      if (next < number && !this.trace.movesPointers(next)) continue;
      const state = isWanted() && (await this.at(next));
      if (!state) return false;
      const before = await this.numberedAt(from);
      if (!before.state) return false;
      this.numbers.set(next, numbersAfter(before, state, this.between(from, next), this.declarations));
      from = next;
    }
    return true;
  }

  /** Finds the same at once where a state has no object. */
  async findQuickly(number, isWanted) {
    const state = number < 0 ? null : await this.at(number);
    if (state && !state.objects.length) this.numbers.set(number, new Map());
    return this.find(number, isWanted);
  }

  /** A state with what its statement changed; null where it can't be told, or is not wanted any more. */
  async changed(number, isWanted) {
    for (const wanted of [number - 1, number]) if (!(await this.findQuickly(wanted, isWanted))) return null;
    const [before, after] = await Promise.all([this.numberedAt(number - 1), this.numberedAt(number)]);
    if (!before.state || !after.state) return null;
    return { ...after, changes: new Changes(before, after, this.between(number - 1, number), this.declarations) };
  }
}
