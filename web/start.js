// Begins: what the browser can't is said in one sentence; tabs, and what is dropped.

// A module with a function that gives a vector. An old processor has none.
const VECTOR = Uint8Array.of(0, 97, 115, 109, 1, 0, 0, 0, 1, 5, 1, 96, 0, 1, 123, 3, 2, 1, 0, 10, 10, 1, 8, 0, 65, 0,
  253, 15, 253, 98, 11);

/** What this page needs and the browser has not, if anything. */
function lacking() {
  if (typeof WebAssembly !== 'object') return 'WebAssembly';
  if (!WebAssembly.validate(VECTOR)) return 'WebAssembly SIMD';
  if (typeof DecompressionStream !== 'function') return 'DecompressionStream';
  if (typeof Worker !== 'function') return 'workers';
  if (typeof BigInt !== 'function' || typeof Object.hasOwn !== 'function') return 'the JavaScript of 2022';
  if (!('webkitdirectory' in $('choose'))) return 'the choice of a folder';
  return '';
}

const TABS = ['see', 'make'];

function showTab(name) {
  for (const one of TABS) {
    const tab = $(`tab-${one}`), isShown = one === name;
    tab.setAttribute('aria-selected', isShown);
    tab.tabIndex = isShown ? 0 : -1;
    $(one).hidden = !isShown;
  }
}

function pressTab(event) {
  const step = { ArrowRight: 1, ArrowDown: 1, ArrowLeft: -1, ArrowUp: -1 }[event.key];
  if (!step) return;
  const at = TABS.findIndex((one) => $(`tab-${one}`) === event.target);
  const next = TABS[(at + step + TABS.length) % TABS.length];
  showTab(next);
  $(`tab-${next}`).focus();
  event.preventDefault();
}

let drops = 0;

async function drop(event) {
  event.preventDefault();
  document.body.classList.remove('over');
  const entries = droppedEntries(event.dataTransfer.items), isMaking = !$('make').hidden, number = ++drops;
  if (!entries.length) return;
  const tell = isMaking ? sayMaking : say;
  tell('Reading the folder…');
  let files;
  try {
    files = await filesOf(entries);
  } catch (error) {
    if (number === drops) tell(`What was dropped can’t be read: ${plain(error.message)}`);
    return;
  }
  // What was dropped later goes first.
  if (number !== drops) return;
  tell('');
  if (!files.length) tell(NO_FILES); else if (isMaking) planSet(files); else openFiles(files);
}

// No link and no form of this page leads anywhere, whatever may come to stand in it.
function stay(event) {
  const link = event.target.closest?.('a, area');
  if (event.type === 'submit' || link && !(link.download && link.href.startsWith('blob:'))) event.preventDefault();
}

function start() {
  const lacks = lacking();
  if (lacks) {
    $('unable').textContent = `This browser can’t run the page, as it lacks ${lacks}: ` +
      'open it in a current Chrome, Edge, Firefox or Safari.';
    return;
  }
  for (const kind of ['click', 'auxclick', 'submit']) document.addEventListener(kind, stay, true);
  for (const one of TABS) {
    $(`tab-${one}`).addEventListener('click', () => showTab(one));
    $(`tab-${one}`).addEventListener('keydown', pressTab);
  }
  document.addEventListener('dragover', (event) => { event.preventDefault(); document.body.classList.add('over'); });
  document.addEventListener('dragleave', (event) => {
    if (!event.relatedTarget) document.body.classList.remove('over');
  });
  document.addEventListener('drop', drop);
  $('unable').hidden = true;
  $('page').hidden = false;
  programModule().catch((error) => {
    $('unable').textContent = `This browser can’t run the program: ${error.message}`;
    $('unable').hidden = false;
  });
}

start();
