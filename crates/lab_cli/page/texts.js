'use strict';
const $ = id => document.getElementById(id);

// ---- texts of the run, made visible

const digits = (number, least) => number.toString(16).toUpperCase().padStart(least, '0');
function visible(text) {                          // control characters, and those that turn a text, as their numbers
  const unseen = /[\u0000-\u0008\u000A-\u001F\u007F-\u009F\u061C\u200B-\u200F\u2028-\u202E\u2060-\u2069\uFEFF]/g;
  const numbered = number => number < 256 ? '\\x' + digits(number, 2) : '\\u{' + digits(number, 2) + '}';
  return text.replace(unseen, c => numbered(c.charCodeAt(0)));
}
const isPrinted = w => w >= 32 && w <= 126;
function shown(words, ...marks) {                 // as the trace writes an output, and these marks as numbers
  const isPlain = w => isPrinted(w) && w !== 92 && !marks.includes(w);
  return words.map(w => isPlain(w) ? String.fromCharCode(w) : '\\x' + digits(w, 2)).join('');
}

// ---- words and names

const esc = text => String(text).replace(/[&<>"]/g, c => '&#' + c.charCodeAt(0) + ';');
const listTexts = (id, list) => { $(id).innerHTML = list.map(text => `<li>${esc(text)}</li>`).join(''); };
const hex = w => 'x' + digits(w, 4);
const columns = c => c.codePointAt(0) < 0x1100 ? 1 : 2;  // the places that a character takes, at most
const width = text => [...text].reduce((sum, c) => sum + columns(c), 0);
function cut(text, most) {
  if (width(text) <= most) return text;
  let part = '', room = most < 2 ? most : most - 1;
  for (const c of text) { room -= columns(c); if (room < 0) break; part += c; }
  return most < 2 ? part : part + '\u2026';
}
function cutName(text, most) {                    // of a name with an input file the end stays
  const at = text.indexOf('='), tail = at < 0 ? '' : text.slice(at);
  if (!tail || width(text) <= most || width(tail) > most - 4) return cut(text, most);
  return cut(text.slice(0, at), most - width(tail)) + tail;
}
const nameOf = object => object.name === null ? '#' + object.place : object.name;
const listOf = processes => processes.map(p => 'P' + p).join(' ');

// ---- a message in words, in the form of the trace and short

const numbers = words => words.slice(0, 16).map(hex).join(' ') + (words.length > 16 ? ' ...' : '');
function quoted(words) {                          // the first characters, where there are any, else nothing
  const printed = w => isPrinted(w) && w !== 34 && w !== 92 ? String.fromCharCode(w) : '.', first = words.slice(0, 16);
  return first.some(isPrinted) ? '"' + first.map(printed).join('') + '"' : '';
}
const wordsText = words => [numbers(words), quoted(words)].filter(text => text).join(' ');
const message = ([, words]) => '[' + wordsText(words) + ']';
function bodyText([, words]) {
  if (words.length === 0) return '[]';
  return words.every(w => w > 32 && w < 127) ? '"' + String.fromCharCode(...words) + '"' : words.map(hex).join('.');
}
