// What changed from one state of a run to a later one. `why` numbers objects in each state as it meets them, so an
// object is found again by the variables that lead to it and were not assigned meanwhile; its own number, which is when
// `new` made it, is told by `trace` where a pointer to it is assigned.

/**
 * A state of a run.
 * @typedef {Object} State
 * @property {OpenCall[]} calls those that are open, the innermost first
 * @property {Value[]} objects what they hold, in the order of the account's own numbers
 * @property {number} hidden how many calls are left out before the last
 */

/**
 * @typedef {Object} OpenCall
 * @property {string} routine
 * @property {string} title
 * @property {number} depth how many calls are open around it
 * @property {string} place where it was called, in a form that is compared
 * @property {{name: string, type: string, value: Value}[]} variables
 */

/** The state before a run, in which there is no object. */
const BEGINNING = { state: { calls: [], objects: [], hidden: 0 }, numbers: new Map() };

/** Whether a change that `trace` tells may be one of a pointer. (`..` stands for what is left out.) */
function holdsPointer({ value }) {
  return /\bobject\b|\bnil\b|\.\./.test(value);
}

// ---- names of parts, as `trace` tells them: `a[3]`, `r.x`, `object 2.next`; and `a[]`, where the index isn't known

function stepsOfName(name) {
  return name.match(/^[^.[]+|\[(?:'(?:[^']|'')*'|[^'\]])*\]|\.[^.[]+/g) || [name];
}

/** Whether two names are, or may be, of the same part, or one is of a part of the other. */
function overlaps(name, other) {
  const [one, another] = [stepsOfName(name), stepsOfName(other)];
  const isSame = (part, at) => part === another[at] || (part[0] === '[' && (part === '[]' || another[at] === '[]'));
  return one.slice(0, another.length).every(isSame);
}

/** The variable of a name, or the object, as `object 2`. */
function baseOf(name) {
  return stepsOfName(name)[0];
}

/** The part of a variable that has a name; none where an index on the way isn't known. */
function partNamed(part, name, declarations) {
  if (part.name === name) return part;
  if (!part.value.parts) return null;
  const leads = (to) => name.startsWith(to) && /^([.[]|$)/.test(name.slice(to.length));
  const inner = partsOf(part, declarations).find((each) => leads(each.name));
  return inner ? partNamed(inner, name, declarations) : null;
}

// ---- what is the same in two states

/** The calls that are open in both of two states: the same ones, at most as deep as all statements between them. */
function lastingCalls(before, after, least) {
  const others = new Map(before.calls.map((call) => [call.depth, call]));
  const lasting = new Map();
  for (const call of [...after.calls].reverse()) {
    const other = others.get(call.depth);
    if (call.depth > least || !other || other.routine !== call.routine || other.place !== call.place) break;
    lasting.set(call, other);
  }
  return lasting;
}

/** Goes through two values part by part, as far as they have the same parts, and calls with each pair of leaves. */
function alongside(one, other, declarations, meets) {
  const [parts, others] = [one.value.parts, other.value.parts];
  if (!parts && !others) meets(one, other);
  if (!parts || !others || parts.length !== others.length) return;
  const named = partsOf(other, declarations);
  partsOf(one, declarations).forEach((part, at) => alongside(part, named[at], declarations, meets));
}

/** All objects that a value leads to, by their numbers in its account. */
function objectsIn({ object, parts }) {
  return parts ? parts.flatMap(objectsIn) : [object].filter((number) => number);
}

/** Finds the objects of a state in a later one, of which a statement alone may have assigned pointers since. */
class Finding {
  /**
   * @param {{state: State, numbers: Numbers}} before
   * @param {State} after
   * @param {{step: Step, least: number}} by the statement behind which `after` is, and the depth of the least deep one
   * since `before`
   */
  constructor(before, after, { step, least }, declarations) {
    Object.assign(this, { before, after, step, least, declarations });
    this.changed = step.changed.map(({ name, value }) => ({ name, type: '', value: valueOf(value) }));
    this.own = after.calls.find(({ depth, routine }) => depth === step.depth && routine === step.routine);
    this.known = objectsByNumber(before);
    this.numbers = new Map();
    this.assigned = new Set(); // objects to which the statement has made a pointer lead
    this.waiting = [];
  }

  /** The numbers of the later state's objects, as far as they are sure. */
  found() {
    if (!this.own && this.step.changed.some(holdsPointer)) return this.numbers;
    this.hear();
    this.followVariables();
    while (this.waiting.length) this.followObject(...this.waiting.pop());
    this.followResult();
    return this.numbers;
  }

  put(object, number, type) {
    if (this.numbers.has(object)) return;
    this.numbers.set(object, number);
    this.waiting.push([object, type]);
  }

  // -- what the statement tells

  /** Takes what the statement tells of pointers that it assigned, where their variables are surely known. */
  hear() {
    for (const change of this.changed) {
      const base = baseOf(change.name);
      const holder = this.holderOf(base);
      if (holder) this.hearWithin(holder.variables.find(({ name }) => name === base), change);
    }
  }

  /** The call whose variable is meant by a name: the statement's own one, or the only one that has such a variable. */
  holderOf(base) {
    const holders = this.after.calls.filter(({ variables }) => variables.some(({ name }) => name === base));
    if (holders.includes(this.own)) return this.own;
    return holders.length === 1 && !this.after.hidden ? holders[0] : null;
  }

  /** Takes what it tells of a part of a variable or of an object. */
  hearWithin(whole, change) {
    const part = partNamed(whole, change.name, this.declarations);
    if (!part) return;
    for (const object of objectsIn(part.value)) this.assigned.add(object);
    alongside(part, change, this.declarations, ({ value: { object }, type }, { value }) => {
      if (object && value.object) this.put(object, value.object, type);
    });
  }

  // -- what it left as it was

  /** Whether it assigned a part, in a call or in an object, or a part of that, or what that is part of. */
  isAssigned(name, call) {
    const isMeant = (base) => !call || (call === this.own) === (this.holderOf(base) === this.own);
    return this.changed.some((change) => overlaps(change.name, name) && isMeant(baseOf(change.name)));
  }

  /** Finds the object that a pointer leads to, where that was not assigned. */
  follow({ value: { object }, name, type }, { value }, call) {
    const number = this.before.numbers.get(value.object);
    if (object && number && !this.assigned.has(object) && !this.isAssigned(name, call)) this.put(object, number, type);
  }

  followVariables() {
    for (const [call, other] of lastingCalls(this.before.state, this.after, this.least)) {
      const standIns = this.declarations.variableParameters(call.routine); // (what they stand for is followed itself)
      for (const variable of call.variables) {
        const known = other.variables.find(({ name }) => name === variable.name);
        if (!known || standIns.has(variable.name.toLowerCase())) continue;
        alongside(variable, known, this.declarations, (...both) => this.follow(...both, call));
      }
    }
  }

  /** Follows the pointers of an object that was found. */
  followObject(object, pointer) {
    const number = this.numbers.get(object);
    const name = `object ${number}`;
    const type = this.declarations.domain(pointer);
    const [value, other] = [this.after.objects[object - 1], this.known.get(number)];
    if (!value) return;
    const whole = { value, name, type };
    for (const change of this.changed) if (baseOf(change.name) === name) this.hearWithin(whole, change);
    if (other) alongside(whole, { value: other, name, type }, this.declarations, (...both) => this.follow(...both));
  }

  /** Finds the object that a function returned, where a parameter alone leads to it now. */
  followResult() {
    const [call] = this.before.state.calls;
    const result = call && call.variables.find(({ name }) => name === call.routine);
    const number = result && this.before.numbers.get(result.value.object);
    if (!number || [...this.numbers.values()].includes(number)) return;
    const left = this.after.objects.map((_, at) => at + 1).filter((object) => !this.numbers.has(object));
    const isOpen = this.after.calls.some(({ depth, place }) => depth === call.depth && place === call.place);
    if (left.length === 1 && !isOpen) this.put(left[0], number, '');
  }
}

/** What the objects of a state hold, by their numbers. */
function objectsByNumber({ state, numbers }) {
  return new Map([...numbers].map(([object, number]) => [number, state.objects[object - 1]]));
}

/** The numbers of a state's objects by those of its account, as far as they are sure; see `Finding`. */
function numbersAfter(before, after, by, declarations) {
  return new Finding(before, after, by, declarations).found();
}

// ---- what stands out

/** What a statement changed: leaves of values, and calls and objects that are new. */
class Changes {
  /** @param {{state: State, numbers: Map}} before and `after`: the states before and behind it */
  constructor(before, after, { step, least }, declarations) {
    Object.assign(this, { before, after, step, declarations });
    this.known = objectsByNumber(before);
    this.all = new Set();
    const lasting = lastingCalls(before.state, after.state, least);
    for (const call of after.state.calls) {
      if (lasting.has(call)) this.compareCalls(call, lasting.get(call));
      else this.addCall(call);
    }
    after.state.objects.forEach((value, at) => this.compareObjects(value, after.numbers.get(at + 1)));
  }

  has(what) {
    return this.all.has(what);
  }

  /** Adds a call that is new, and what the statement assigned in it; the program's own one is there from the start. */
  addCall(call) {
    if (call.depth) this.all.add(call);
    if (call.depth !== this.step.depth || call.routine !== this.step.routine) return;
    const changed = new Set(this.step.changed.map(({ name }) => name));
    for (const variable of call.variables) this.addNamed(variable, changed);
  }

  addNamed(part, names) {
    if (names.has(part.name)) this.addLeaves(part.value);
    else if (part.value.parts) for (const inner of partsOf(part, this.declarations)) this.addNamed(inner, names);
  }

  addLeaves(value) {
    if (value.parts) value.parts.forEach((part) => this.addLeaves(part));
    else this.all.add(value);
  }

  compareCalls(call, other) {
    const known = new Map(other.variables.map(({ name, value }) => [name, value]));
    for (const { name, value } of call.variables) if (known.has(name)) this.compare(value, known.get(name));
  }

  compareObjects(value, number) {
    const other = number && this.known.get(number);
    if (other) this.compare(value, other);
    else if (number && this.before.numbers.size === this.before.state.objects.length) this.all.add(value);
  }

  compare(value, other) {
    const { parts } = value;
    if (parts && other.parts && parts.length === other.parts.length) {
      parts.forEach((part, at) => this.compare(part, other.parts[at]));
    } else if (parts || other.parts || this.differ(value, other)) this.addLeaves(value);
  }

  /** Whether two leaves surely differ. */
  differ(value, other) {
    if (!value.object || !other.object) return value.text !== other.text;
    const [one, another] = [this.after.numbers.get(value.object), this.before.numbers.get(other.object)];
    return one !== another && one !== undefined && another !== undefined;
  }
}
