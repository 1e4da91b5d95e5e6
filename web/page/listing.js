// The listing of the compiled program with its text, as `list --source` writes it.

/** A row of it; a line of the text leads there. */
function listedRow(row, goTo) {
  const source = /^; *(\d+) {2}(.*)$/.exec(row);
  if (!source) return [row.startsWith(';') ? made('span', `${row}\n`, 'owner') : `${row}\n`];
  const [, line, text] = source;
  return [button(`line ${line}`, () => goTo(Number(line))), made('span', ` ${text}\n`, 'source')];
}

/** Shows a listing. `goTo` is called with the line that is chosen. */
function showListing(output, listing, goTo) {
  const shown = document.createDocumentFragment();
  for (const row of listing.split('\n')) {
    if (row) shown.append(...listedRow(row, goTo));
  }
  output.append(shown);
}
