// Shows what a disc's directory names, as the program lists it.

// As long as lines may be taken before the page has a turn, in milliseconds.
const TURN = 40;
// The most characters of lines that this page keeps of one directory.
const MOST_TEXT = 250e6;

/** Waits for the next turn of the page; timers would be slowed down in a tab that is not in front. */
const turn = (() => {
  const { port1, port2 } = new MessageChannel(), waiting = [];
  port1.onmessage = () => waiting.shift()();
  return () => new Promise((go) => { waiting.push(go); port2.postMessage(0); });
})();

const KIND_ICONS = { PATIENT: 'M12 12a4 4 0 1 0 0-8 4 4 0 0 0 0 8zM4 21a8 8 0 0 1 16 0',
  STUDY: 'M5 4h14v17H5zM9 2v4M15 2v4M5 9h14',
  SERIES: 'M4 8h12v12H4zM8 8V4h12v12h-4', IMAGE: 'M4 5h16v14H4zM4 16l5-5 4 4 3-3 4 4' };

function icon(path, className) {
  const made = document.createElementNS('http://www.w3.org/2000/svg', 'svg');
  made.setAttribute('viewBox', '0 0 24 24');
  made.setAttribute('aria-hidden', 'true');
  made.setAttribute('class', className);
  const line = document.createElementNS('http://www.w3.org/2000/svg', 'path');
  line.setAttribute('d', path);
  made.append(line);
  return made;
}

/** The open disc: its files, its directory, and the last check of it. */
const open = { files: [], folder: '', directory: null, run: null, check: null };

/** Makes the contents of a row. */
function fillRow(it, record) {
  const kind = KINDS.get(record.type);
  const title = element('span', { class: 'title' });
  if (kind && record.type !== 'IMAGE') title.append(element('span', { class: 'kind' }, `${kind} `));
  record.parts.forEach((part, at) => {
    if (at) title.append(element('span', { class: 'dot' }, ' · '));
    title.append(disc(part, at ? 'more' : 'first'));
  });
  const state = stateOf(record);
  it.replaceChildren(
    element('span', { class: 'twist', 'aria-hidden': 'true' }),
    icon(Object.hasOwn(KIND_ICONS, record.type) ? KIND_ICONS[record.type] : 'M5 3h10l4 4v14H5z', 'icon'),
    title,
    ...(record.below.length ? [element('span', { class: 'count' }, counted(record.files, 'file'))] : []),
    ...(state ? [element('span', { class: `state ${state.look}` }, state.text)] : []));
}

const tree = new Tree($('tree'), fillRow, showDetails);

const NO_FILES = 'That folder has no files.';

function say(text) { $('said').textContent = text; }

/** Shows one of the parts of the page for discs: where it is chosen, what was refused, or the disc. */
function showPart(id) {
  const isShown = (one) => one === id || one === 'first' && id !== 'disc';
  for (const one of ['first', 'sets', 'refused', 'disc']) $(one).hidden = !isShown(one);
}

/** Takes what was chosen or dropped: one disc is opened, and of several one is chosen. */
async function openFiles(files) {
  leaveDisc();
  const sets = setsOf(files);
  if (sets.length === 1) return openSet(files, sets[0]);
  if (!sets.length) return refuseWithout(files);
  $('sets').querySelector('ul').replaceChildren(...sets.slice(0, AT_ONCE).map((folder) => element('li', {},
    element('button', { type: 'button', onclick: () => openSet(files, folder) }, disc(folder)))));
  showPart('sets');
  return undefined;
}

/** Ends what runs, and forgets the disc. */
function leaveDisc() {
  open.run?.stop();
  Object.assign(open, { files: [], folder: '', directory: null, run: null, check: null });
  tree.clear();
  tree.refresh();
  $('search').value = '';
  $('matches').textContent = '';
  $('details').replaceChildren();
  for (const id of ['progress', 'result', 'unnamed', 'check', 'save-list', 'save-check', 'print']) $(id).hidden = true;
  $('unnamed').open = false;
  say('');
  showPart('first');
}

/** Says why there is no disc to see, and forgets what came of it. */
function showRefusal(title, files, ...parts) {
  leaveDisc();
  $('refused').replaceChildren(element('h2', {}, title), ...parts, ...(files.length ? [offerToMake(files)] : []));
  showPart('refused');
}

function refuseWithout(files) {
  showRefusal('There is no DICOMDIR here', files,
    element('p', {}, `Among the ${counted(files.length, 'file')} that you chose none is the directory of a disc. ` +
      'Choose the top folder of the disc, which has a file DICOMDIR.'));
}

/** A button that makes a new set of these files. */
function offerToMake(files) {
  return element('p', { class: 'buttons' },
    element('button', { type: 'button', onclick: () => { showTab('make'); planSet(files); } },
      'Make a new DICOMDIR of these files'));
}

/** Takes the lines of a list as they come, in turns, so that the page is never still. */
class LineTaker {
  constructor(directory) {
    Object.assign(this, { directory, lines: [], length: 0, done: Promise.resolve(), isBusy: false, shown: 0 });
    this.began = performance.now();
  }

  /** Takes more lines; false where they are more than the page can keep. */
  give(lines) {
    for (const line of lines) { this.lines.push(line); this.length += line.length; }
    if (this.length > MOST_TEXT) return false;
    if (!this.isBusy) { this.isBusy = true; this.done = this.take(); }
    return true;
  }

  async take() {
    let at = 0;
    while (at < this.lines.length && open.directory === this.directory) {
      const until = performance.now() + TURN;
      while (at < this.lines.length && performance.now() < until) takeLine(this.directory, this.lines[at++]);
      const now = performance.now();
      // Seldom where there is much to come: what is in view changes less and less.
      if (now - this.shown > Math.max(150, (now - this.began) / 4)) this.show();
      await turn();
    }
    this.lines = [];
    this.isBusy = false;
  }

  show() {
    showCounts(this.directory);
    tree.refresh();
    this.shown = performance.now();
  }
}

/** Lists the directory in that folder, and shows its records as they come. */
async function openSet(files, folder) {
  const directory = new Directory();
  Object.assign(open, { files, folder, directory });
  const last = folder.slice(folder.lastIndexOf('/') + 1);
  $('disc-name').replaceChildren(disc(last || 'Disc'));
  $('disc-counts').textContent = '';
  showPart('disc');
  say('Reading the directory…');
  const errors = [], taker = new LineTaker(directory);
  const run = new Run(['list', '--long', '--verbose', '--json', '--', folder || '.'], files, {
    lines: (some) => {
      if (!taker.give(some)) refuseRun('This directory is longer than this page can show.', '', files);
    },
    errors: (some) => errors.push(...some),
  });
  open.run = run;
  const result = await run.done;
  await taker.done;
  if (open.directory !== directory || result.isStopped) return;
  open.run = null;
  say('');
  if (result.status === 0) listed(directory, result);
  else if (result.failed) refuseRun(result.failed, result.text, files);
  else refuse(faultOf(errors), files);
}

/** Goes to a heading that is new, unless a person is at work in the disc already. */
function goTo(heading) {
  const isAtWork = ['.tools', '.split'].some((part) => document.querySelector(part).contains(document.activeElement));
  if (!isAtWork) heading.focus({ preventScroll: true });
}

function takeLine(directory, line) {
  const before = directory.records.length;
  directory.take(line);
  if (directory.records.length > before) {
    const record = directory.records[before];
    tree.openFirst(record);
    if (record.level === 0) tree.roots = directory.roots;
  }
}

/** The whole list is there. */
function listed(directory, result) {
  open.openedByList = result.opened || [];
  if (directory.records.length <= OPENED) for (const record of directory.records) record.isOpen = true;
  for (const id of ['check', 'save-list', 'print']) $(id).hidden = false;
  $('check').textContent = 'Check all files';
  $('check').className = 'main';
  showCounts(directory);
  if ($('search').value) search(); else tree.refresh();
  if (tree.active) showDetails(tree.active);
  goTo($('disc-name'));
}

function showCounts(directory) {
  const { counts } = directory;
  const parts = [counted(counts.get('PATIENT'), 'patient'), counted(counts.get('STUDY'), 'study', 'studies'),
    counted(counts.get('SERIES'), 'series', 'series'), counted(counts.get('IMAGE'), 'image')];
  if (directory.withdrawn.length) parts.push(`${counted(directory.withdrawn.length, 'image')} withdrawn`);
  if (directory.unreached) parts.push(`${counted(directory.unreached, 'record')} out of reach`);
  if (directory.isWhole && !directory.records.length) parts.push('an empty directory');
  $('disc-counts').textContent = parts.join(' · ');
  if (directory.id) $('disc-name').replaceChildren(disc(directory.id));
}

/** The object of the FAULT line, or none where the run only failed to write. */
function faultOf(errors) {
  for (const line of errors) {
    try { const it = JSON.parse(line); if (it.line === 'FAULT') return it; } catch { /* words on the command line */ }
  }
  return { fault: { number: 0, words: errors.join(' ') } };
}

/** What docs/FAULTS.md says of a fault: those whose words are told apart stand before the others of their number. */
function wordsOf({ number, words }) {
  return FAULT_WORDS.find((it) => it.first <= number && number <= it.last && words.startsWith(it.words || ''));
}

/** What a fault says, and what to do: its number and words, the program's first step, and docs/FAULTS.md. */
function faultParts({ fault, help, cause, path }) {
  const found = wordsOf(fault);
  return [
    element('p', { class: 'fault' }, element('code', {}, plain(fault.words)), ...(path ? [' in ', disc(path)] : [])),
    ...(cause ? [element('p', {}, plain(cause))] : []),
    ...(help ? [element('p', {}, element('strong', {}, 'What to do: '), plain(help))] : []),
    ...(found ? [explained('What this means', element('p', {}, found.says), element('p', {}, found.todo))] : []),
  ];
}

/** The program refused the directory. */
function refuse(line, files) {
  showRefusal('This directory can’t be read', files, ...faultParts(line),
    element('p', {}, 'The images may be whole all the same: a new DICOMDIR can be made of them.'));
}

/** The run ended without a status. */
function refuseRun(words, text, files) {
  showRefusal('This disc can’t be shown', files, element('p', {}, words),
    ...(text ? [explained('What the browser says', element('p', {}, plain(text)))] : []));
}

function search() {
  const { directory } = open;
  if (!directory) return;
  const words = $('search').value.toLowerCase().split(/\s+/).filter(Boolean).slice(0, 30);
  const kind = open.check?.shown;
  if (!words.length && !kind) { tree.filter(null, 0); $('matches').textContent = ''; return; }
  let hits = words.length ? directory.search(words) : directory.records;
  if (kind) hits = hits.filter(({ finding }) => finding && (finding.line === kind || kind === BAD && isBad(finding)));
  tree.filter(hits, directory.records.length);
  $('matches').textContent = hits.length ? `${counted(hits.length, 'record')} found` : 'Nothing found';
}

$('search').addEventListener('input', search);
$('choose').addEventListener('change', (event) => {
  const files = chosenFiles(event.target.files);
  event.target.value = '';
  if (files.length) openFiles(files); else say(NO_FILES);
});
$('another').addEventListener('click', () => { leaveDisc(); $('choose').focus(); });
$('save-list').addEventListener('click', () => saveLines(open.directory.lines, 'list'));
