// ---- the lines of a source, where the data have one

function readSource([text, rows, names]) {        // the lines, those of them that have words, and the labels by address
  const lines = text.replace(/\n$/, '').split('\n').map((line, at) => ({ at, text: visible(line.trimEnd()) }));
  const placed = rows.map(([line, address, words, call]) => Object.assign(lines[line - 1], { address, words, call }));
  const labels = (names.match(/.+/g) || []).map(it => it.split(' x')).map(([name, address]) => ({ name, address: parseInt(address, 16) }));
  return { lines, placed, labels: labels.sort((a, b) => a.address - b.address) };
}
const sourceOf = source => typeof source === 'number' ? DATA.processes[source][1] : source;  // it may be that of another
const SOURCES = DATA.processes.map(([, source]) => source !== null && readSource(sourceOf(source)));
const codeAt = ({ first, code }, address) => code[address - first] || [];  // the word there, and the instruction
function sourceAt(p, address) {                   // the line that made the word there, where the memory still holds it
  const placed = SOURCES[p.process] ? SOURCES[p.process].placed : [], [word] = codeAt(p, address);
  const line = placed[lastIndex(placed, it => it.address <= address)];
  return line && word !== undefined && word === line.words[address - line.address] ? line : undefined;
}
function didText(e) {                             // the instruction that a step took
  const was = wasOf(e), line = sourceAt(was, e.from), [, text] = codeAt(was, e.from);
  return line ? line.text.replace(/\s+/g, ' ').trim() : text || '';
}

// ---- the rows of the picture

const HAS_PLACES = N <= 8 && SOURCES.some(source => source);  // whether boxes say where in a source they are
const HALF = HAS_PLACES ? 16 : 10;                // the half height of a box
const EVENT = 2 * HALF + 7, GAP = 18, FOOT = 62;  // heights: of an event, of a row between events, of the foot
const rows = [], rowOf = [], posY = [0];          // the rows; of each record its row; of each moment its height
const cols = [];
let height = 8;

function addGap(between, end) {                   // the steps up to an event or the end, and the moments among them
  const first = rowOf.length;
  if (between.length === 0) return;
  for (let k = first; k < end; k++) { posY[k + 1] = height + GAP * (k + 1 - first) / (end - first); rowOf[k] = rows.length; }
  rows.push({ y: height, between });
  height += GAP;
}
for (const { between, k } of EVENTS) {
  addGap(between, k);
  addRound(k);
  rowOf[k] = rows.length; rows.push({ y: height, k });
  height += EVENT; posY[k + 1] = height;
}
addGap(LAST, R.length);

// ---- waits, messages, and who let a waiting process go on

const recordOf = new Map(EVENTS.map(({ step, k }) => [step, k]));
const arrowsBy = stepOf => EVENTS.filter(stepOf).map(e => ({ from: recordOf.get(stepOf(e)), to: e.k }));
const arrows = arrowsBy(e => e.origin), wakes = arrowsBy(e => e.giver);
const kept = UNRECEIVED.map(step => R[recordOf.get(step)]);  // the sends of messages that nobody received
const waits = EVENTS.filter(e => e.waits).map(({ process: p, k, name }) => {  // to the next moment of the process, if any
  const [, next] = lives[p].slice(lastIndex(lives[p], it => it.k <= k));
  return { p, k, name, end: next ? next.k : null };
});

// ---- what is held, and what the objects did

function holdOf([p, step], end) {                 // a unit from the record in which it was taken to another, or to the end
  const k = recordOf.get(step);
  return { p, k, end, name: R[k].name };
}
const holds = [...EVENTS.flatMap(e => e.over.map(hold => holdOf(hold, e.k))), ...HELD.map(hold => holdOf(hold, null))];
let together = [];                                // the units that a process has taken at once stand side by side
for (const h of holds.sort((x, y) => x.k - y.k)) {
  together = together.filter(other => other.end === null || other.end > h.k);
  const sides = together.filter(other => other.p === h.p).map(other => other.side);
  h.side = [...sides, -1].findIndex((_, side) => !sides.includes(side));
  together.push(h);
}
const columnAt = [];                              // of each place
function columnFor({ kind, name }) {              // one for a name, however often the object is made
  const at = cols.findIndex(c => c.kind === kind && c.name === name);
  return at < 0 ? cols.push({ name, kind, at: [] }) - 1 : at;
}
function levelAt(object, k) {                     // the value, or how many messages and which
  const text = object.name === null ? 'unlinked' : '';
  if (object.kind === 'queue') {
    const { messages, most } = object, value = messages.length + '/' + most;
    return { k, value, who: messages.map(bodyText).join(' '), text, title: messages.map(message).join(' ') || 'empty' };
  }
  const value = String(object.value), who = object.made > 0 ? takers(object.taken) : '';
  return { k, value, who, text, title: 'value ' + value + (who ? ', taken by ' + who : '') };
}
function followObject(e, place) {
  const object = objectAt(place, e.k + 1);
  if (object && object.name !== null) columnAt[place] = columnFor(object);
  e.column = columnAt[place];
  cols[e.column].at.push(object ? levelAt(object, e.k) : { k: e.k, text: 'gone', title: 'gone' });
}
for (const e of EVENTS) for (const place of e.changed) followObject(e, place);
