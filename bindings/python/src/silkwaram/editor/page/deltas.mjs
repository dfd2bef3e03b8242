// The deltas that an exchange sends and takes, as text: cells for a site.

function inOrder(one, other) {
  const [a, b] =
    [one, other].map(([id, language]) => new TextEncoder().encode(`${id}\0${language}`));
  const at = a.findIndex((byte, place) => byte !== b[place]);
  return at < 0 ? a.length - b.length : a[at] - (b[at] ?? -1);
}

/** The delta for a site of cells, each as text. */
export function deltaOf(rows, to) {
  const cells =
    rows.map((row) => [JSON.parse(row), row]).sort(([one], [other]) => inOrder(one, other));
  return `{"cells":[${cells.map(([, row]) => row).join(',')}],"kind":"delta","to":${
    JSON.stringify(to)},"version":2}\n`;
}

/** A delta without the cells of a later time than a limit, and how many these are. */
export function withoutLate(delta, limit) {
  const document = JSON.parse(delta);
  const cells = document.cells.filter(([, , time]) => time <= limit);
  const late = document.cells.length - cells.length;
  return { delta: late === 0 ? delta : `${JSON.stringify({ ...document, cells })}\n`, cells, late };
}
