// The text and the input in the page's address, behind its #, so that they can be sent, and are there when it is
// opened again.

const LONGEST_ADDRESS = 60000; // of what mail and browsers take

/** Bytes of a text in the letters that an address may have. */
function addressed(text) {
  const bytes = new TextEncoder().encode(text);
  let letters = '';
  for (let at = 0; at < bytes.length; at += 4096) letters += String.fromCharCode(...bytes.subarray(at, at + 4096));
  return btoa(letters).replace(/\+/g, '-').replace(/\//g, '_').replace(/=+$/, '');
}

/** The text of such letters, or nothing where they are none. */
function unaddressed(letters) {
  try {
    const bytes = atob(letters.replace(/-/g, '+').replace(/_/g, '/'));
    return new TextDecoder('utf-8', { fatal: true }).decode(Uint8Array.from(bytes, (letter) => letter.charCodeAt(0)));
  } catch (error) {
    return undefined;
  }
}

/** What the address holds: `text`, `input` where it is given before, `waits=no` where the engine may let no run wait. */
function readAddress() {
  const held = new URLSearchParams(location.hash.slice(1));
  const letters = ['text', 'input'].filter((name) => held.has(name)).map((name) => held.get(name));
  const count = held.get('letters'); // of both, by which it shows where an address was cut short
  return {
    text: held.has('text') ? unaddressed(held.get('text')) : undefined,
    input: held.has('input') ? unaddressed(held.get('input')) : undefined,
    waits: held.get('waits') !== 'no',
    isDamaged: letters.map(unaddressed).includes(undefined) || (count !== null && Number(count) !== letters.join('').length),
  };
}

/** Puts these into the address, and tells whether they are short enough for one. */
function writeAddress({ text, input, waits }) {
  const letters = [text, input].map((part) => (part === undefined ? '' : addressed(part)));
  const held = [`letters=${letters.join('').length}`, `text=${letters[0]}`];
  if (input !== undefined) held.push(`input=${letters[1]}`);
  if (!waits) held.push('waits=no');
  const hash = `#${held.join('&')}`;
  const fits = hash.length <= LONGEST_ADDRESS;
  history.replaceState(null, '', fits ? hash : '#');
  return fits;
}
