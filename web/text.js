// Text of a disc, and how numbers, names and dates look. No text of a disc is ever markup: it is set as text, each
// value in a bdi of its own, and what could steer its direction or the screen is a question mark.

// Control characters, and those that change the direction of a line or end it.
const STEERING = /[\u0000-\u001f\u007f-\u009f\u061c\u200e\u200f\u2028-\u202e\u2066-\u206f\ufeff\ufff9-\ufffb]/g;
// As many characters of a value as a row shows, and the page beside the tree.
const ROW_LENGTH = 200, VALUE_LENGTH = 4000;

/** Text of a disc that is safe to show: '?' stands for each character that steers. */
function plain(text, longest = VALUE_LENGTH) {
  const shown = String(text).slice(0, longest).toWellFormed?.() ?? String(text).slice(0, longest);
  return shown.replace(STEERING, '?') + (text.length > longest ? '…' : '');
}

/** An element with attributes and children; a child that is a string is set as text. */
function element(name, attributes = {}, ...children) {
  const made = document.createElement(name);
  for (const [key, value] of Object.entries(attributes)) {
    if (value === false || value === undefined || value === null) continue;
    if (key in made && typeof value === 'function') made[key] = value;
    else made.setAttribute(key, value === true ? '' : value);
  }
  made.append(...children);
  return made;
}

/** Text of a disc as an element that keeps its direction to itself. */
function disc(text, className) {
  const made = document.createElement('bdi');
  made.textContent = plain(text, ROW_LENGTH);
  if (className) made.className = className;
  return made;
}

/** What stands below a click. */
const explained = (title, ...parts) => element('details', {}, element('summary', {}, title), ...parts);

const $ = (id) => document.getElementById(id);

/** '1,234 images', '1 image'. */
function counted(number, one, many = `${one}s`) {
  return `${number.toLocaleString('en')} ${number === 1 ? one : many}`;
}

/** Bytes in the unit that people read: '1.4 MB'. */
function sized(bytes) {
  const units = ['bytes', 'kB', 'MB', 'GB', 'TB'];
  let unit = 0, number = bytes;
  while (number >= 1000 && unit < units.length - 1) { number /= 1000; unit++; }
  if (unit === 0) return counted(bytes, 'byte');
  return `${number < 10 ? number.toFixed(1) : Math.round(number).toLocaleString('en')} ${units[unit]}`;
}

/** Seconds as a person would say them: 'about 2 minutes'. */
function lasting(seconds) {
  if (seconds < 60) return `about ${counted(Math.max(1, Math.round(seconds)), 'second')}`;
  if (seconds < 3600) return `about ${counted(Math.round(seconds / 60), 'minute')}`;
  return `about ${counted(Math.round(seconds / 3600), 'hour')}`;
}

/** A group of a PN value: 'DOE^JOHN^^DR' is 'DOE, JOHN DR'. */
function personGroup(group) {
  const [family, ...more] = group.split('^').map((part) => part.trim());
  const rest = more.filter(Boolean).join(' ');
  return [family, rest].filter(Boolean).join(', ');
}

/** The groups of a PN value of the DICOM JSON model: the first, and the others in brackets. */
function personName(value) {
  if (value === null || typeof value !== 'object') return value === null ? '' : String(value);
  const groups = ['Alphabetic', 'Ideographic', 'Phonetic'].filter((name) => value[name])
    .map((name) => personGroup(value[name]));
  return groups.length > 1 ? `${groups[0]} (${groups.slice(1).join(', ')})` : groups[0] || '';
}

/** A DA value with eight digits as 2024-01-15; any other as it stands. */
function dateText(value) {
  return /^\d{8}$/.test(value) ? `${value.slice(0, 4)}-${value.slice(4, 6)}-${value.slice(6)}` : value;
}

/** A TM value as 10:15; one that is none as it stands. */
function timeText(value) {
  return /^\d{4}(\d\d(\.\d{1,6})?)?$/.test(value) ? `${value.slice(0, 2)}:${value.slice(2, 4)}` : value;
}

/** A value of this representation, as a person would write it. */
function valueText(vr, text) {
  if (vr === 'DA') return dateText(text);
  return vr === 'TM' ? timeText(text) : text;
}

/** Eight hexadecimal digits as (0010,0020). */
function tagText(tag) { return `(${tag.slice(0, 4)},${tag.slice(4)})`; }
