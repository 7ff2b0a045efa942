// Checks each file of the open disc, by 'check --keys --strict'.

// What stands for each finding of a file that is not as recorded.
const BAD = 'BAD', ANY_BAD = { text: 'not as recorded', look: 'bad' };
// Names are shown up to this number at once.
const AT_ONCE = 500;
// What is counted of a file beside its bytes, for the time that is left: opening one takes as long as reading these.
const OPENING = 16384;

/** Progress of a run: what is done of a whole, and how long the rest takes. */
class Progress {
  constructor(box, bar, text) {
    Object.assign(this, { box, bar, text, since: performance.now(), shown: -Infinity });
    box.hidden = false;
    this.show(0, '');
  }

  show(share, what) {
    // To paint it more often would take longer than to read a file.
    if (share && performance.now() - this.shown < 400) return;
    this.shown = performance.now();
    const seconds = (performance.now() - this.since) / 1000, left = seconds * (1 - share) / share;
    this.bar.value = Math.min(1, share || 0);
    this.text.textContent = what + (seconds > 2 && share > 0.01 && share < 1 ? `, ${lasting(left)} left` : '');
  }

  end() { this.box.hidden = true; }
}

/** How many bytes the files have that the records name, as far as the names that were chosen show it. */
function namedBytes(directory, files, folder) {
  const plainName = (path) => path.toUpperCase().replace(/\.?(;1)?$/, '');
  const sizes = new Map();
  const start = folder ? folder.length + 1 : 0;
  for (const { path, file } of files) sizes.set(plainName(path.slice(start)), file.size);
  let bytes = 0;
  for (const record of directory.records) {
    if (record.file === undefined || !record.inUse) continue;
    bytes += sizes.get(plainName(record.file.replaceAll('\\', '/'))) || 0;
  }
  return bytes;
}

async function checkDisc() {
  const { files, folder, directory } = open;
  const check = { lines: [], found: new Map(), shown: null, isWhole: false, opened: [] };
  open.check = check;
  directory.forgetFindings();
  search();
  for (const id of ['check', 'result', 'unnamed', 'save-check']) $(id).hidden = true;
  const progress = new Progress($('progress'), $('bar'), $('progress-text'));
  const all = namedBytes(directory, files, folder) + OPENING * directory.files;
  const errors = [];
  const run = new Run(['check', '--keys', '--strict', '--verbose', '--json', '--', folder || '.'], files, {
    ahead: new Ahead(files, true),
    lines: (some) => {
      check.lines.push(...some);
      for (const line of some) noteFinding(check, JSON.parse(line));
      refreshSoon();
    },
    errors: (some) => errors.push(...some),
    progress: ({ bytes, opened }) => {
      const done = Math.min(directory.files, Math.max(0, opened - 1));
      const what = `Checked ${done.toLocaleString('en')} of ${counted(directory.files, 'file')}`;
      progress.show((bytes + OPENING * done) / all, what);
    },
  });
  open.run = run;
  progress.show(0, `Checking ${counted(directory.files, 'file')}`);
  $('stop').focus();
  const result = await run.done;
  progress.end();
  if (open.check !== check) return;
  open.run = null;
  $('check').hidden = false;
  $('check').textContent = 'Check again';
  $('check').className = '';
  check.isWhole = result.status === 0 || result.status === 3;
  check.opened = result.opened || [];
  showResult(check, result, errors);
  tree.refresh();
  if (tree.active) showDetails(tree.active);
}

/** Takes a line of check --json. */
function noteFinding(check, finding) {
  const number = finding.line === 'UNREACHED' ? finding.items : 1;
  check.found.set(finding.line, (check.found.get(finding.line) || 0) + number);
  open.directory.note(finding);
}

let refreshing = 0;
function refreshSoon() {
  refreshing ||= setTimeout(() => { refreshing = 0; tree.refresh(); }, 500);
}

/** What was found, in a sentence, with a button for each kind of finding. */
function showResult(check, result, errors) {
  const { directory } = open;
  const kinds = [...check.found].filter(([kind]) => STATES.has(kind));
  const bad = kinds.reduce((sum, [kind, number]) => sum + (kind === 'NODIGEST' ? 0 : number), 0);
  const isSound = check.isWhole && !bad && directory.files > 0 && !check.found.get('NODIGEST');
  const parts = [element('h3', { tabindex: '-1', id: 'verdict' }, verdictOf(check, result, bad))];
  const unreached = check.found.get('UNREACHED');
  if (unreached) {
    parts.push(element('p', {}, `${counted(unreached, 'record')} of the directory can’t be reached: ` +
      'a viewer does not show what they name.'));
  }
  if (check.found.get('NODIGEST') && !bad && check.isWhole) {
    parts.push(element('p', {}, 'The writer of this disc recorded no SHA-256 of its files, ' +
      'so a changed pixel can’t be found.'));
  }
  if (kinds.length) {
    const shown = kinds.map(([kind, number]) => [kind, number, STATES.get(kind)]);
    if (shown.filter(([, , { look }]) => look === 'bad').length > 1) shown.unshift([BAD, bad, ANY_BAD]);
    parts.push(element('p', { class: 'kinds', role: 'group', 'aria-label': 'Show only files that are' },
      element('span', {}, 'Show only:'), ...shown.map(([kind, number, { text, look }]) =>
      element('button', { type: 'button', 'aria-pressed': 'false', class: look, 'data-kind': kind,
        onclick: () => showKind(check, kind) }, `${number.toLocaleString('en')} ${text}`))));
  }
  const line = !check.isWhole && !result.isStopped && !result.failed ? faultOf(errors) : null;
  if (line) parts.push(...faultParts(line));
  $('result').className = `banner ${bad || unreached || line || result.failed ? 'bad' : isSound ? 'good' : 'note'}`;
  $('result').replaceChildren(...parts);
  $('result').hidden = false;
  $('save-check').hidden = !check.isWhole;
  if (check.isWhole) showUnnamed(check);
  goTo($('verdict'));
}

function verdictOf(check, result, bad) {
  const files = Math.max(bad, open.directory.files);
  if (result.isStopped) return 'Stopped: not all files were checked.';
  if (result.failed) return `Not all files were checked. ${result.failed}`;
  if (!check.isWhole) return 'The check was refused.';
  if (!files && !bad) return 'This directory names no files: there is nothing to check.';
  if (bad) {
    const some = `${bad.toLocaleString('en')} of ${counted(files, 'file')}`;
    return `This disc is not whole: ${some} ${bad === 1 ? 'is' : 'are'} not as recorded.`;
  }
  if (check.found.get('UNREACHED')) return `All ${counted(files, 'file')} that can be reached are there.`;
  if (check.found.get('NODIGEST')) return `All ${counted(files, 'file')} are there and can be read.`;
  const all = files === 1 ? 'its file is' : `all ${counted(files, 'file')} are`;
  return `This disc is whole: ${all} there and unchanged.`;
}

/** Shows the files with this finding alone, or all again. */
function showKind(check, kind) {
  check.shown = check.shown === kind ? null : kind;
  for (const one of $('result').querySelectorAll('[data-kind]')) {
    one.setAttribute('aria-pressed', one.dataset.kind === check.shown);
  }
  search();
}

/** The chosen files that neither the list nor the check opened, but the directory. */
function unnamedFiles(check) {
  const { files, folder, openedByList } = open;
  const known = new Set([...openedByList, ...check.opened]);
  return files.filter(({ path }, at) => !known.has(at) && !isDirectoryOf(path, folder)).map(({ path }) => path);
}

/** The program reads no file of a record that is not in use. */
function unnamedText(check) {
  const hasUnused = open.directory.records.some((record) => !record.inUse && record.file !== undefined);
  return `${counted(check.unnamed.length, 'file')} that no record ${hasUnused ? 'in use ' : ''}names`;
}

function showUnnamed(check) {
  check.unnamed = unnamedFiles(check);
  $('unnamed').hidden = !check.unnamed.length;
  if (!check.unnamed.length) return;
  const list = element('ul', { tabindex: check.unnamed.length > 10 && '0' }), [, box] = $('unnamed').children;
  const more = element('button', { type: 'button' });
  const add = () => {
    const from = list.childElementCount;
    list.append(...check.unnamed.slice(from, from + AT_ONCE).map((path) => element('li', {}, disc(path))));
    const rest = check.unnamed.length - list.childElementCount;
    more.textContent = `Show ${counted(Math.min(AT_ONCE, rest), 'more', 'more')}`;
    more.hidden = list.childElementCount === check.unnamed.length;
  };
  more.onclick = add;
  add();
  $('unnamed').firstElementChild.textContent = unnamedText(check);
  box.replaceChildren(element('p', { class: 'hint' }, 'A disc often has more than images, such as a viewer. ' +
    'A viewer that goes by the DICOMDIR does not show these.'), list, more);
}

$('check').addEventListener('click', checkDisc);
$('stop').addEventListener('click', () => open.run?.stop());
$('save-check').addEventListener('click', () => saveLines(open.check.lines, 'check'));
