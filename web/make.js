// Makes a file-set of chosen files, by 'index': first what it would make, then the images and the directory.

/** The files that were chosen, what runs, and whether that saves. */
const making = { files: [], run: null, isSaving: false };

// What systems put onto a stick by themselves. No name of a set is one of these.
const OF_SYSTEMS = /^(\..*|System Volume Information|\$RECYCLE\.BIN|desktop\.ini|Thumbs\.db|LOST\.DIR|lost\+found)$/i;

/** A folder's name that none of the files has. */
function freeName(files) {
  for (let number = 0; ; number++) {
    const name = `OUT${number || ''}`;
    if (!files.some(({ path }) => path === name || path.startsWith(`${name}/`))) return name;
  }
}

function indexWords(files, out, isDry) {
  const id = $('set-id').value.trim(), uid = $('set-uid').value.trim();
  return ['index', '--json', '--verbose', ...(isDry ? ['--dry-run'] : []),
    ...(id ? ['--id', id] : []), ...(uid ? ['--uid', uid] : []),
    '--', out, ...files.map(({ path }) => path)];
}

function sayMaking(text) { $('making').textContent = text; }

/** Runs index over the files, with progress. Answers its result, lines and errors, or nothing where another began. */
async function runIndex(isDry, what, on = {}) {
  const { files } = making, lines = [], errors = [];
  const out = freeName(files);
  const progress = new Progress($('make-progress'), $('make-bar'), $('make-text'));
  const times = isDry ? 1 : 2;
  let all = 0;
  const run = new Run(indexWords(files, out, isDry), files, {
    ...on,
    ahead: new Ahead(files, false),
    lines: (some) => lines.push(...some.map((line) => JSON.parse(line))),
    errors: (some) => errors.push(...some),
    progress: ({ bytes, opened }) => {
      // The sizes are known by now.
      all ||= files.reduce((sum, { file }) => sum + file.size, 0) + OPENING * files.length;
      progress.show((bytes + OPENING * opened) / (times * all + (times - 1) * OPENING), what);
    },
  });
  making.run?.stop();
  making.run = run;
  progress.show(0, what);
  const result = await run.done;
  if (making.run !== run) return null;
  making.run = null;
  progress.end();
  return { result, lines, errors, out };
}

/** Asks the program what it would make of these files. */
async function planSet(files) {
  if (making.isSaving) {
    sayMaking('These files wait until what is being saved is saved or stopped: then choose them again.');
    return;
  }
  making.files = files;
  $('plan').hidden = true;
  $('again').hidden = false;
  sayMaking(`${counted(files.length, 'file')} chosen.`);
  const ran = await runIndex(true, `Reading ${counted(files.length, 'file')}`);
  if (!ran) return;
  const { result, lines, errors } = ran;
  sayMaking('');
  if (result.isStopped) { sayMaking('Stopped.'); return; }
  const plan = lines.find((it) => it.line === 'PLAN');
  const isPlanned = result.status === 0 && plan;
  $('plan').replaceChildren(...(isPlanned ? planCards(plan) : [refusedCard(result, errors)]), ...leftCards(lines));
  $('plan').hidden = false;
  $('plan').querySelector('h2')?.focus({ preventScroll: true });
}

// Why files are skipped, above the program's words, by the words or the number of the fault (docs/FAULTS.md).
const SKIPPED = new Map([['31 File 21 ', 'no DICOM file'], ['31 File 25 ', 'in a form that is not taken'],
  ['31 File 27 Set 1 ', 'cut'], [31, 'out of shape'], [32, 'of a class that is not taken'],
  [33, 'a key is missing'], [34, 'a key is no UID'], [35, 'a key is too long'], [36, 'a key is a sequence'],
  [37, 'a key is not as in the head of the file'], [39, 'too large']]);

const heading = (text) => element('h2', { tabindex: '-1' }, text);

/** Why there is no set: the run ended without a status, or the program refused it. */
function refusedCard({ failed, text }, errors) {
  const line = faultOf(errors);
  let what = [element('p', {}, plain(errors.join(' ')))];
  if (failed) what = [element('p', {}, failed), ...(text ? [element('p', { class: 'hint' }, plain(text))] : [])];
  else if (line.fault.number) what = faultParts(line);
  return element('div', { class: 'card', role: 'alert' }, heading('This set can’t be made'), ...what);
}

function planCards({ instances, bytes, image_bytes: imageBytes }) {
  if (!instances) {
    return [element('div', { class: 'card' }, heading('None of these files is an image that it takes'),
      element('p', {}, 'It takes DICOM images of many kinds, such as CT, MR, ultrasound and X-ray. ' +
        'Below it says why each file was skipped.'))];
  }
  const canWrite = Boolean(window.showDirectoryPicker);
  return [element('div', { class: 'card' }, heading(`${counted(instances, 'image')}, ${sized(imageBytes + bytes)}`),
    element('p', {}, `Of ${counted(making.files.length, 'file')} the set gets ${counted(instances, 'image')} ` +
      'and a DICOMDIR. The files that you chose stay as they are.'),
    element('p', { class: 'buttons' },
      ...(canWrite ? [element('button', { type: 'button', class: 'main', id: 'save-folder', onclick: saveToFolder },
        'Save to an empty folder or stick…')] : []),
      element('button', { type: 'button', class: canWrite ? '' : 'main', id: 'save-zip', onclick: saveToZip },
        'Save as a zip')),
    ...(canWrite ? [] : [element('p', { class: 'hint' }, 'Unpack the zip onto a stick or burn what is in it: ' +
      'the DICOMDIR belongs at the top of the disc.')]))];
}

// What the lines NOTE say, by their kind.
const NOTES = {
  left_out: (it) => ['left out, as ', disc(it.kept), ' has the same SOP Instance UID and other bytes'],
  conflict: (it) => ['has the instance ', disc(it.uid), ', which the refusal names'],
};

/** What is skipped or left out, and what else has to be looked at, each with its reason. */
function leftCards(lines) {
  const skipped = lines.filter((it) => it.line === 'SKIP'), noted = lines.filter((it) => it.line === 'NOTE');
  const cards = [];
  if (noted.length) cards.push(listCard(`${counted(noted.length, 'note')}: look at these first`, noted, noteParts));
  const groups = new Map();
  for (const it of skipped) {
    const kind = wordsOf(it.fault)?.words || it.fault.number;
    if (!groups.has(kind)) groups.set(kind, []);
    groups.get(kind).push(it);
  }
  for (const [kind, some] of groups) {
    const found = wordsOf(some[0].fault);
    const reason = SKIPPED.get(kind) || plain(some[0].fault.name);
    cards.push(listCard(`${counted(some.length, 'file')} skipped: ${reason}`, some,
      (it) => [disc(it.path), ' ', element('code', {}, plain(it.fault.words)), ' ', plain(it.fault.class_name || '')],
      found && `${found.says} ${found.todo}`));
  }
  return cards;
}

function noteParts(it) {
  if (it.kind === 'names') {
    return ['Patient ID ', disc(it.patient_id), ` has ${counted(it.count, 'name')}: `,
      ...it.names.flatMap((name, at) => (at ? ['; ', disc(name)] : [disc(name)])),
      it.count > it.names.length ? ' and more' : ''];
  }
  const words = Object.hasOwn(NOTES, it.kind) ? NOTES[it.kind](it) : [plain(it.kind)];
  return [disc(it.path || it.uid || ''), ' ', ...words];
}

/** A list that shows some of its items at once, and more by a click. */
function listCard(title, items, partsOf, help) {
  const list = element('ul', { tabindex: items.length > 10 && '0' }), more = element('button', { type: 'button' });
  const add = () => {
    const from = list.childElementCount;
    list.append(...items.slice(from, from + AT_ONCE).map((it) => element('li', {}, ...partsOf(it))));
    more.textContent = `Show ${Math.min(AT_ONCE, items.length - list.childElementCount)} more`;
    more.hidden = list.childElementCount === items.length;
  };
  more.onclick = add;
  add();
  return element('details', { class: 'card', open: items.length <= 10 }, element('summary', {}, title),
    ...(help ? [explained('What this means', element('p', {}, help))] : []), list, more);
}

async function saveToZip() {
  const zip = new Zip();
  const ran = await save('Making the zip', {
    create: (number, path) => zip.create(number, withoutTop(path)),
    write: (number, bytes) => zip.write(number, bytes),
    close: (number) => zip.close(number),
  });
  if (!ran) return;
  const id = $('set-id').value.trim();
  download(zip.blob(), `${/^[A-Z0-9_]{1,16}$/.test(id) ? id : 'FILESET'}.zip`);
  sayMaking(`Saved as a zip: ${counted(ran.instances, 'image')} and their DICOMDIR.`);
}

async function saveToFolder() {
  let top;
  try { top = await window.showDirectoryPicker({ mode: 'readwrite' }); } catch { return; }
  try {
    for await (const name of top.keys()) {
      if (OF_SYSTEMS.test(name)) continue;
      sayMaking(`That folder is not empty: it has ${plain(name, ROW_LENGTH)}. Choose an empty one.`);
      return;
    }
  } catch (error) {
    sayMaking(`That folder can’t be read: ${plain(error.message)}`);
    return;
  }
  const folder = new Folder(top);
  const ran = await save('Saving', {
    folder: (path) => { if (path.includes('/')) folder.folder(withoutTop(path)); },
    create: (number, path) => folder.create(number, withoutTop(path)),
    write: (number, bytes) => folder.write(number, bytes),
    close: (number) => folder.close(number),
  });
  folder.leave();
  if (!ran) return;
  sayMaking(`Saved: ${counted(ran.instances, 'image')} and their DICOMDIR. ` +
    'To check it, choose that folder under “Open a disc”.');
}

const withoutTop = (path) => path.slice(path.indexOf('/') + 1);

/** Runs index for good. Answers its line DONE; else says why there is none. */
async function save(what, on) {
  sayMaking('');
  setSaving(true);
  const begun = runIndex(false, what, on);
  $('make-stop').focus();
  const { result, lines, errors } = await begun;
  setSaving(false);
  $('plan').querySelector('h2')?.focus({ preventScroll: true });
  const done = lines.find((it) => it.line === 'DONE');
  if (result.status === 0 && done) return done;
  if (result.isStopped) sayMaking('Stopped: what was saved so far is not whole.');
  else $('plan').replaceChildren(refusedCard(result, errors), ...leftCards(lines));
  return null;
}

/** Nothing else is begun while files are saved. */
function setSaving(isSaving) {
  making.isSaving = isSaving;
  for (const one of $('make').querySelectorAll('input, button:not(#make-stop)')) one.disabled = isSaving;
}

for (const id of ['folder', 'images']) {
  $(id).addEventListener('change', (event) => {
    const files = chosenFiles(event.target.files);
    event.target.value = '';
    if (files.length) planSet(files); else sayMaking(NO_FILES);
  });
}
$('make-stop').addEventListener('click', () => making.run?.stop());
$('again').addEventListener('click', () => planSet(making.files));
