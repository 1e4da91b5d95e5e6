// One run of the program `pascal`, over files in memory and a console that speaks with the page.

const MOST_WRITTEN = 1 << 20; // bytes of standard output that are shown of one run
const STANDARD_INPUT = 0;
const STANDARD_OUTPUT = 1;
const STANDARD_ERROR = 2;
const NO_WORD = -1n;
const NO_ROOM = -2n;

/** Thrown out of a run that must wait for input where the engine can't let it wait. */
class MustWait extends Error {}

/** Thrown out of a run that has written as much as is shown of one. */
class WrittenTooMuch extends Error {}

/** Standard input: what was given so far, and whether more may come. */
class Input {
  constructor() {
    this.blocks = [];
    this.isWhole = false;
    this.rewind();
  }

  rewind() {
    this.block = 0;
    this.at = 0;
  }

  give(bytes) {
    if (bytes.length) this.blocks.push(bytes);
  }

  mustWait() {
    return this.block === this.blocks.length && !this.isWhole;
  }

  take(room) {
    if (this.block === this.blocks.length) return NOTHING;
    const bytes = this.blocks[this.block].subarray(this.at, this.at + room);
    this.at += bytes.length;
    if (this.at === this.blocks[this.block].length) {
      this.block++;
      this.at = 0;
    }
    return bytes;
  }
}

/** Standard output. What the same run had shown before it was begun anew is not shown again. */
class Output {
  constructor(shown, most, say) {
    this.shown = shown;
    this.most = most;
    this.say = say;
    this.written = 0;
  }

  write(bytes) {
    const out = bytes.slice(Math.max(0, this.shown - this.written), Math.max(0, this.most - this.written));
    this.written += bytes.length;
    if (out.length) this.say({ out });
    if (this.written > this.most) throw new WrittenTooMuch();
  }
}

/**
 * What a run is of.
 * @typedef {Object} Job
 * @property {string[]} words behind the program's name
 * @property {Object<string, Uint8Array>} files by their names
 * @property {Uint8Array} [input] all of standard input; without it the run asks for more
 * @property {Object<string, string>} [variables] of the environment
 * @property {boolean} [suspends] whether the engine may let the run wait, where it can
 * @property {boolean} [keeps] whether the files are told at the end
 */

/** A run. `say` takes what the page is to know of it. */
class Run {
  /** @param {Job} job */
  constructor(module, job, say) {
    this.module = module;
    this.job = job;
    this.say = say;
    this.utf8 = new TextEncoder();
    this.suspends = Boolean(job.suspends) && typeof WebAssembly.Suspending === 'function';
    this.input = new Input();
    this.input.isWhole = Boolean(job.input);
    this.input.give(job.input || NOTHING);
    this.shown = 0;
    this.goOn = null;
  }

  /** Runs the program from its start. */
  begin() {
    this.output = new Output(this.shown, MOST_WRITTEN, this.say);
    this.files = new Files(this.job.files);
    this.input.rewind();
    this.waited = 0;
    this.began = performance.now();
    try {
      this.exports = new WebAssembly.Instance(this.module, { host: this.host() }).exports;
      const main = this.suspends ? WebAssembly.promising(this.exports.main) : this.exports.main;
      const status = main(0, 0n);
      if (this.suspends) status.then((told) => this.end(told), (error) => this.fail(error));
      else this.end(status);
    } catch (error) {
      this.fail(error);
    }
  }

  end(status) {
    const milliseconds = performance.now() - this.began - this.waited;
    const files = this.job.keeps ? this.files.contents() : undefined;
    this.say({ ended: { status, milliseconds, files } });
  }

  /** Tells why a run was broken off, or begins it anew: with more input, or on the engine's own, larger stack. */
  fail(error) {
    const isDeep = error instanceof RangeError && this.suspends;
    if (error instanceof MustWait || isDeep) this.shown = Math.max(this.shown, this.output.written);
    if (error instanceof MustWait) this.ask(() => this.begin());
    else if (isDeep) {
      this.suspends = false;
      this.begin();
    } else if (error instanceof WrittenTooMuch) this.say({ stopped: MOST_WRITTEN });
    else this.say({ failed: String(error) });
  }

  ask(goOn) {
    this.goOn = goOn;
    this.say({ asks: true });
  }

  /** Gives the run more input, or ends it where there is none. */
  answer(bytes) {
    if (bytes) this.input.give(bytes);
    else this.input.isWhole = true;
    const goOn = this.goOn;
    this.goOn = null;
    if (goOn) goOn();
  }

  // ---- the module's memory

  memory() {
    return new Uint8Array(this.exports.memory.buffer);
  }

  /** The text that ends before a byte 0. */
  text(at) {
    const memory = this.memory();
    return new TextDecoder().decode(memory.slice(Number(at), memory.indexOf(0, Number(at)))).replace(/^(\.\/)+/, '');
  }

  /** Puts bytes, or hands on the number of an error. */
  put(at, bytes) {
    if (typeof bytes === 'number') return BigInt(bytes);
    this.memory().set(bytes, Number(at));
    return BigInt(bytes.length);
  }

  /** Puts a text where there is room for it. */
  putText(text, at, room) {
    if (text === undefined) return NO_WORD;
    const bytes = this.utf8.encode(text);
    return bytes.length > Number(room) ? NO_ROOM : this.put(at, bytes);
  }

  // ---- what the module calls

  host() {
    const words = ['pascal', ...this.job.words];
    const variables = this.job.variables || {};
    const read = (file, at, room) => this.read(file, at, Number(room));
    return {
      word: (number, at, room) => this.putText(words[Number(number)], at, room),
      variable: (name, at, room) => this.putText(variables[this.text(name)], at, room),
      open: (name, way) => this.files.open(this.text(name), way),
      close: (file) => this.files.close(file),
      read: this.suspends ? new WebAssembly.Suspending(read) : read,
      write: (file, at, length) => this.write(file, this.memory().slice(Number(at), Number(at) + Number(length))),
      identity: (name, file) => BigInt(this.files.identity(this.text(name), file)),
      rename: (name, to) => this.files.rename(this.text(name), this.text(to)),
      remove: (name) => this.files.remove(this.text(name)),
    };
  }

  read(file, at, room) {
    if (file !== STANDARD_INPUT) return this.put(at, this.files.read(file, room));
    if (!this.input.mustWait()) return this.put(at, this.input.take(room));
    if (!this.suspends) throw new MustWait();
    const since = performance.now();
    return new Promise((goOn) => {
      this.ask(() => {
        this.waited += performance.now() - since;
        goOn(this.put(at, this.input.take(room)));
      });
    });
  }

  write(file, bytes) {
    if (file === STANDARD_OUTPUT) this.output.write(bytes);
    else if (file === STANDARD_ERROR) this.say({ error: bytes });
    else return BigInt(this.files.write(file, bytes));
    return BigInt(bytes.length);
  }
}
