'use strict';

// The files of a run, in memory. Errors, and the ways to open a file, have the numbers of Linux.

const NO_FILE = -2;
const NO_OPEN_FILE = -9;
const IS_THERE = -17;
const MAKES = 0o100;
const IS_NEW = 0o200;
const EMPTIES = 0o1000;
const FIRST_OPENED = 3;
const NOTHING = new Uint8Array(0);

/** Files by their names. Each has a number, by which two names of one file would show. */
class Files {
  /** @param {Object<string, Uint8Array>} contents by the files' names */
  constructor(contents) {
    this.named = new Map();
    this.opened = new Map();
    this.made = 0;
    this.next = FIRST_OPENED;
    for (const name of Object.keys(contents)) this.add(name, contents[name]);
  }

  add(name, bytes) {
    const file = { number: ++this.made, bytes };
    this.named.set(name, file);
    return file;
  }

  /** The number of an open file, or of an error. */
  open(name, way) {
    let file = this.named.get(name);
    if (file && way & MAKES && way & IS_NEW) return IS_THERE;
    if (!file && !(way & MAKES)) return NO_FILE;
    if (!file) file = this.add(name, NOTHING);
    if (way & EMPTIES) file.bytes = NOTHING;
    this.opened.set(this.next, { file, at: 0 });
    return this.next++;
  }

  close(number) {
    return this.opened.delete(number) || number < FIRST_OPENED ? 0 : NO_OPEN_FILE;
  }

  /** The next bytes of an open file, none at its end, or the number of an error. */
  read(number, room) {
    const opened = this.opened.get(number);
    if (!opened) return NO_OPEN_FILE;
    const bytes = opened.file.bytes.subarray(opened.at, opened.at + room);
    opened.at += bytes.length;
    return bytes;
  }

  /** The count of bytes that were written, or the number of an error. */
  write(number, bytes) {
    const opened = this.opened.get(number);
    if (!opened) return NO_OPEN_FILE;
    const { file, at } = opened;
    const longer = new Uint8Array(Math.max(file.bytes.length, at + bytes.length));
    longer.set(file.bytes);
    longer.set(bytes, at);
    file.bytes = longer;
    opened.at += bytes.length;
    return bytes.length;
  }

  /** The number of a file, by its name, or of an open one where that is empty. */
  identity(name, number) {
    const opened = this.opened.get(number);
    const file = name ? this.named.get(name) : opened && opened.file;
    return file ? file.number : NO_FILE;
  }

  rename(name, to) {
    const file = this.named.get(name);
    if (!file) return NO_FILE;
    this.named.delete(name);
    this.named.set(to, file);
    return 0;
  }

  remove(name) {
    return this.named.delete(name) ? 0 : NO_FILE;
  }

  /** The bytes of all files by their names. */
  contents() {
    return Object.fromEntries([...this.named].map(([name, file]) => [name, file.bytes]));
  }
}
