// What is known of the record that is chosen in the tree.

/** How the state of a record looks: a word, and whether it is good, bad or a note. */
const STATES = new Map([['BADID', { text: 'no file name', look: 'bad' }], ['MISSING', { text: 'missing', look: 'bad' }],
  ['UNREADABLE', { text: 'unreadable', look: 'bad' }], ['DIFFERS', { text: 'changed', look: 'bad' }],
  ['MISLABELLED', { text: 'mislabelled', look: 'bad' }], ['NODIGEST', { text: 'no digest', look: 'note' }]]);
/** Is the file not as recorded? */
const isBad = ({ line }) => STATES.get(line)?.look !== 'note';
const UNCHANGED = { text: 'unchanged', look: 'good' }, INACTIVE = { text: 'not in use', look: 'note' };

function stateOf(record) {
  if (record.finding) return STATES.get(record.finding.line) || { text: plain(record.finding.line), look: 'bad' };
  if (!record.inUse) return INACTIVE;
  if (record.faulty) return { text: `${record.faulty.toLocaleString('en')} not as recorded`, look: 'bad' };
  if (!open.check?.isWhole || !record.files) return null;
  return record.file !== undefined || !record.below.length ? UNCHANGED : null;
}

/** What a finding says of a file, with the words of docs/FAULTS.md. */
function findingParts(finding) {
  const found = FINDING_WORDS.find((it) => it.line === finding.line && (!it.of || it.of in finding));
  const more = [];
  if (finding.tag) {
    const name = TAG_NAMES[finding.tag.replace(/[(),]/g, '').toUpperCase()];
    const tag = element('code', {}, finding.tag);
    more.push(element('p', {}, 'It says something else at ', tag, name ? ` (${name}).` : '.'));
  }
  if (finding.fault) more.push(element('p', {}, element('code', {}, plain(finding.fault.words))));
  if (finding.recorded) {
    more.push(element('p', { class: 'digests' }, 'Recorded SHA-256: ', element('code', {}, finding.recorded)),
      element('p', { class: 'digests' }, 'Found: ', element('code', {}, finding.found)));
  }
  return [...(found ? [element('p', {}, found.says)] : []), ...more,
    ...(found ? [element('p', {}, element('strong', {}, 'What to do: '), found.todo)] : [])];
}

// A record may have any number of elements, and an element of values: so many are shown.
const MOST_ELEMENTS = 200, MOST_VALUES = 50;

function showDetails(record) {
  if (!record) { $('details').replaceChildren(); return; }
  const kind = KINDS.get(record.type);
  const list = element('dl');
  const add = (name, texts) => list.append(element('dt', {}, name), ...texts.map((text) => {
    const value = document.createElement('bdi');
    value.textContent = plain(text);
    return element('dd', {}, value);
  }));
  const elements = Object.entries(record.elements);
  for (const [tag, found] of elements.slice(0, MOST_ELEMENTS)) {
    if (TIES.has(tag) || tag === '00041410' || tag === '00041430' || tag === '00041500') continue;
    const texts = valuesOf(found).filter(Boolean).map((text) => valueText(found.vr, text));
    if (tag === '00091001') texts.splice(0, 1, hexOf(found.InlineBinary || ''));
    const more = texts.length > MOST_VALUES ? [`and ${counted(texts.length - MOST_VALUES, 'more', 'more')}`] : [];
    if (texts.length) add(TAG_NAMES[tag] || tagText(tag), [...texts.slice(0, MOST_VALUES), ...more]);
  }
  if (elements.length > MOST_ELEMENTS) add('Not shown', [counted(elements.length - MOST_ELEMENTS, 'more element')]);
  if (record.file !== undefined) add('File', [record.file]);
  if (record.below.length) {
    add('Below it', [`${counted(record.below.length, 'record')}, ${counted(record.files, 'file')}`]);
  }
  const state = stateOf(record);
  $('details').replaceChildren(
    element('h3', {}, kind || disc(record.type || 'Record')),
    ...(state ? [element('p', { class: `state ${state.look}` }, state.text)] : []),
    ...(record.finding ? findingParts(record.finding) : []), list);
}

/** Bytes in Base64 in hexadecimal digits. */
const hexOf = (base64) => Array.from(atob(base64), (it) => it.charCodeAt(0).toString(16).padStart(2, '0')).join('');
