// A tree of any number of records by the ARIA pattern, of which only the rows in view are elements.

// Rows beside those in view, so that a turn of the wheel meets none that is empty.
const SPARE = 8;
// Rows up to which what comes is shown opened, down to series.
const OPENED = 60;

/** A row that could be seen: a record, its place among those beside it, and whether it is open. */
class Row {
  constructor(record, place, beside, isOpen) { Object.assign(this, { record, place, beside, isOpen }); }
}

class Tree {
  /** `fill(element, record)` makes the contents of a row; `choose(record)` is called for the active one, or null. */
  constructor(box, fill, choose) {
    Object.assign(this, { box, fill, choose });
    this.space = element('div', { class: 'space', role: 'presentation' });
    this.box.append(this.space);
    this.probe = element('div', { class: 'row probe', 'aria-hidden': 'true' });
    this.elements = new Map();
    this.clear();
    box.addEventListener('scroll', () => this.render());
    box.addEventListener('keydown', (event) => this.press(event));
    box.addEventListener('click', (event) => this.click(event));
    box.addEventListener('focusin', (event) => { if (event.target === this.box) this.focus(); });
    new ResizeObserver(() => this.measure()).observe(box);
  }

  clear() {
    this.roots = [];
    this.hits = null;
    this.marks = null;
    this.rows = [];
    this.active = null;
    this.typed = '';
    this.opened = new Map();
    for (const it of this.elements.values()) it.remove();
    this.elements.clear();
    this.box.scrollTop = 0;
  }

  /** The height of a row is that of the style, which differs by the width of the page. */
  measure() {
    this.box.append(this.probe);
    const height = this.probe.offsetHeight;
    this.probe.remove();
    if (height && height !== this.height) {
      this.height = height;
      for (const [record, it] of this.elements) it.style.top = `${this.placeOf(record) * height}px`;
    }
    this.render();
  }

  /** Shows these records alone, with those above and below them; all where hits is null. */
  filter(hits, total) {
    this.hits = hits;
    this.opened.clear();
    this.marks = hits && new Uint8Array(total);
    for (const hit of hits || []) {
      this.marks[hit.number] |= 2;
      for (const above of hit.upwards()) {
        if (this.marks[above.number] & 1) break;
        this.marks[above.number] |= 1;
      }
    }
    this.box.scrollTop = 0;
    this.refresh();
    // The record that was chosen stays in view where all are shown again.
    if (!hits) this.activate(this.placeOf(this.active), false);
  }

  isOpen(record) {
    if (!record.below.length) return false;
    if (!this.marks) return record.isOpen;
    return this.opened.get(record) ?? Boolean(this.marks[record.number] & 1);
  }

  setOpen(record, isOpen) {
    if (this.marks) this.opened.set(record, isOpen); else record.isOpen = isOpen;
  }

  /** Opens what is new while there are few rows, down to series. */
  openFirst(record) {
    record.isOpen = record.level < 2 && record.number < OPENED;
  }

  /** Makes the rows anew after a change of records, of a filter or of what is open. */
  refresh() {
    const rows = [];
    const add = (records, isBelowHit) => {
      const shown = this.marks && !isBelowHit ? records.filter((record) => this.marks[record.number]) : records;
      shown.forEach((record, at) => {
        const isOpen = this.isOpen(record);
        rows.push(new Row(record, at + 1, shown.length, isOpen));
        if (isOpen) add(record.below, isBelowHit || (this.marks && !(this.marks[record.number] & 1)));
      });
    };
    add(this.roots, false);
    this.rows = rows;
    this.places = null;
    const isGone = !this.active || this.placeOf(this.active) < 0, old = this.active;
    if (isGone) this.active = rows.length ? rows[0].record : null;
    if (this.active !== old) this.choose(this.active);
    this.space.style.height = `${rows.length * (this.height || 0)}px`;
    for (const [record, it] of this.elements) {
      const place = this.placeOf(record);
      if (place < 0) { it.remove(); this.elements.delete(record); } else this.describe(it, place);
    }
    if (!this.height) this.measure(); else this.render();
  }

  placeOf(record) {
    this.places ??= new Map(this.rows.map((row, at) => [row.record, at]));
    return this.places.get(record) ?? -1;
  }

  /** Has elements for the rows in view and the active one, in their order. */
  render() {
    if (!this.height || !this.rows.length && !this.elements.size) return;
    this.space.style.height = `${this.rows.length * this.height}px`;
    const first = Math.max(0, Math.floor(this.box.scrollTop / this.height) - SPARE);
    const end = (this.box.scrollTop + this.box.clientHeight) / this.height;
    const last = Math.min(this.rows.length, Math.ceil(end) + SPARE);
    const wanted = new Set();
    for (let at = first; at < last; at++) wanted.add(at);
    if (this.active) wanted.add(this.placeOf(this.active));
    const records = new Set([...wanted].map((at) => this.rows[at].record));
    for (const [record, it] of this.elements) if (!records.has(record)) { it.remove(); this.elements.delete(record); }
    let before = this.space.firstElementChild;
    for (const at of [...wanted].sort((one, other) => one - other)) {
      const { record } = this.rows[at];
      const there = this.elements.get(record);
      if (there) {
        if (there === before) before = before.nextElementSibling; else this.space.insertBefore(there, before);
        continue;
      }
      const made = element('div', { class: 'row', role: 'treeitem' });
      made.record = record;
      this.elements.set(record, made);
      this.describe(made, at);
      this.space.insertBefore(made, before);
    }
  }

  describe(it, at) {
    const { record, place, beside, isOpen } = this.rows[at];
    const isActive = record === this.active;
    it.style.top = `${at * this.height}px`;
    it.style.setProperty('--level', Math.min(record.level, 12));
    it.setAttribute('aria-level', record.level + 1);
    it.setAttribute('aria-posinset', place);
    it.setAttribute('aria-setsize', beside);
    it.setAttribute('aria-selected', isActive);
    it.tabIndex = isActive ? 0 : -1;
    if (record.below.length) it.setAttribute('aria-expanded', isOpen); else it.removeAttribute('aria-expanded');
    this.fill(it, record);
  }

  /** Makes a row the active one, in view. */
  activate(at, takesFocus = true) {
    if (at < 0 || at >= this.rows.length) return;
    const old = this.active;
    this.active = this.rows[at].record;
    const top = at * this.height, bottom = top + this.height;
    if (top < this.box.scrollTop) this.box.scrollTop = top;
    else if (bottom > this.box.scrollTop + this.box.clientHeight) this.box.scrollTop = bottom - this.box.clientHeight;
    this.render();
    for (const record of [old, this.active]) {
      const it = this.elements.get(record);
      if (!it) continue;
      it.setAttribute('aria-selected', record === this.active);
      it.tabIndex = record === this.active ? 0 : -1;
    }
    if (takesFocus) this.elements.get(this.active).focus({ preventScroll: true });
    this.choose(this.active);
  }

  focus() { if (this.active) this.activate(this.placeOf(this.active)); }

  toggle(at, isOpen) {
    const row = this.rows[at];
    if (!row.record.below.length || row.isOpen === isOpen) return;
    this.setOpen(row.record, isOpen);
    this.refresh();
  }

  click(event) {
    const it = event.target.closest('[role=treeitem]');
    if (!it) return;
    const at = this.placeOf(it.record);
    const wasActive = it.record === this.active;
    this.activate(at);
    if (wasActive || event.target.closest('.twist')) this.toggle(at, !this.rows[at].isOpen);
    else if (!this.rows[at].isOpen) this.toggle(at, true);
  }

  press(event) {
    if (event.altKey || event.ctrlKey || event.metaKey || !this.rows.length) return;
    const at = this.placeOf(this.active), row = this.rows[at];
    const page = Math.max(1, Math.floor(this.box.clientHeight / this.height) - 1);
    const keys = {
      ArrowDown: () => this.activate(at + 1),
      ArrowUp: () => this.activate(at - 1),
      PageDown: () => this.activate(Math.min(this.rows.length - 1, at + page)),
      PageUp: () => this.activate(Math.max(0, at - page)),
      Home: () => this.activate(0),
      End: () => this.activate(this.rows.length - 1),
      ArrowRight: () => { if (row.isOpen) this.activate(at + 1); else this.toggle(at, true); },
      ArrowLeft: () => {
        if (row.isOpen) this.toggle(at, false);
        else if (row.record.above) this.activate(this.placeOf(row.record.above));
      },
      Enter: () => this.toggle(at, !row.isOpen),
      ' ': () => this.toggle(at, !row.isOpen),
      '*': () => { for (const it of row.record.above?.below || this.roots) this.setOpen(it, true); this.refresh(); },
    };
    if (Object.hasOwn(keys, event.key)) keys[event.key]();
    else if (event.key.length === 1) this.find(event.key, at);
    else return;
    event.preventDefault();
  }

  /** Goes to the next row whose text begins with what was typed within half a second. */
  find(key, at) {
    const now = performance.now();
    this.typed = (now - this.typedAt < 500 ? this.typed : '') + key.toLowerCase();
    this.typedAt = now;
    const from = this.typed.length > 1 ? at : at + 1;
    for (let step = 0; step < this.rows.length; step++) {
      const place = (from + step) % this.rows.length;
      if (this.rows[place].record.parts[0].toLowerCase().startsWith(this.typed)) { this.activate(place); return; }
    }
  }
}
