// Values as text, in the character set that their record names.

// Encodings by their Specific Character Set (0008,0005), and by what follows ESC (PS3.3 section C.12.1.1.2). All others
// are read as Latin-1.
const ENCODINGS = {
  'ISO_IR 13': 'shift_jis', 'ISO_IR 101': 'iso-8859-2', 'ISO_IR 109': 'iso-8859-3', 'ISO_IR 110': 'iso-8859-4',
  'ISO_IR 126': 'iso-8859-7', 'ISO_IR 127': 'iso-8859-6', 'ISO_IR 138': 'iso-8859-8', 'ISO_IR 144': 'iso-8859-5',
  'ISO_IR 148': 'iso-8859-9', 'ISO_IR 166': 'windows-874', 'ISO_IR 192': 'utf-8', 'ISO_IR 203': 'iso-8859-15',
  GB18030: 'gb18030', GBK: 'gbk',
};
const ESCAPED = {
  '(J': 'shift_jis', ')I': 'shift_jis', '-B': 'iso-8859-2', '-C': 'iso-8859-3', '-D': 'iso-8859-4',
  '-F': 'iso-8859-7', '-G': 'iso-8859-6', '-H': 'iso-8859-8', '-L': 'iso-8859-5', '-M': 'iso-8859-9',
  '-T': 'windows-874', '-b': 'iso-8859-15', '$)A': 'gbk', '$)C': 'euc-kr',
};
const ESCAPE = /\x1b(\([BJ]|\)I|-[A-DF-HLMTb]|\$B|\$\(D|\$\)[AC])/;
// After these the first character set is in use again, but within characters of two bytes.
const DELIMITER = /[\\^=\r\n\t\f]/;

const codesOf = (text, more = 0) => Uint8Array.from(text, (letter) => letter.charCodeAt(0) | more);

function decoded(bytes, encoding) {
  return encoding ? new TextDecoder(encoding, { ignoreBOM: true }).decode(bytes) : latin1(bytes);
}

function escaped(escape, text, first) {
  if (escape === '$B') return decoded(codesOf(text, 0x80), 'euc-jp');
  if (escape === '$(D') return decoded(codesOf(text.replace(/../gs, '\x8f$&'), 0x80), 'euc-jp');
  const at = text.search(DELIMITER), end = at < 0 ? text.length : at;
  return decoded(codesOf(text.slice(0, end)), ESCAPED[escape]) + decoded(codesOf(text.slice(end)), first);
}

// A value as text: null where there is no value.
function textOf(value, charset) {
  if (value.length === 0) return null;
  const text = latin1(value);
  if (!/[\x1b\x80-\xff]/.test(text)) return text;
  const [name] = latin1(charset).split('\\'), first = ENCODINGS[name.trim().replace(/^ISO 2022 IR /, 'ISO_IR ')];
  const [begin, ...more] = text.split(ESCAPE);
  let all = decoded(codesOf(begin), first);
  for (let at = 0; at < more.length; at += 2) all += escaped(more[at], more[at + 1], first);
  return all;
}
