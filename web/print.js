// What is printed of a disc: the result of the check, and all rows that are open in the tree, not those in view alone.
// Without a disc the page is printed as it stands.

function fillPaper() {
  const { directory, check } = open;
  if (!directory || $('disc').hidden) return;
  const parts = [element('h1', {}, disc(directory.id || $('disc-name').textContent)),
    element('p', {}, $('disc-counts').textContent),
    element('p', {}, `File-set UID ${plain(directory.uid)}. Printed on ${new Date().toLocaleString()} by dicomdir.`)];
  if (check?.isWhole) {
    parts.push(element('h2', {}, $('verdict').textContent));
    if (check.unnamed?.length) parts.push(element('p', {}, `${unnamedText(check)}.`));
    const found = directory.records.filter((record) => record.finding);
    if (found.length) parts.push(paperTable(found, foundRow));
  } else {
    parts.push(element('p', {}, 'The files were not checked.'));
  }
  parts.push(paperTable(tree.rows, ({ record }) => treeRow(record)));
  $('paper').replaceChildren(...parts);
  document.body.classList.add('on-paper');
}

function paperTable(all, rowOf) {
  const body = element('tbody');
  for (const one of all) body.append(rowOf(one));
  return element('table', {}, body);
}

function foundRow(record) {
  const above = [...record.upwards()].reverse().flatMap((it) => [disc(it.parts[0]), ' ']);
  return element('tr', {}, element('td', {}, stateOf(record).text), element('td', {}, disc(record.file || '')),
    element('td', {}, ...above));
}

function treeRow(record) {
  const title = element('td', { style: `padding-inline-start: ${1.2 * Math.min(record.level, 12)}em` });
  record.parts.forEach((part, at) => title.append(at ? ' · ' : '', disc(part)));
  return element('tr', {}, title, element('td', {}, record.below.length ? counted(record.files, 'file') : ''),
    element('td', {}, stateOf(record)?.text || ''));
}

window.addEventListener('beforeprint', fillPaper);
window.addEventListener('afterprint', () => {
  $('paper').replaceChildren();
  document.body.classList.remove('on-paper');
});
$('print').addEventListener('click', () => window.print());
