// ---- labels and variables, where the data have a source

const storesAt = PROCESSES.map(() => ({}));        // of each process and address the words that steps store there
for (const [step, p, address, word] of STORES) (storesAt[p][address] ??= []).push({ step, word });
const DIRECTIVE = /(?:^|[\s,:])\.(FILL|BLKW|STRINGZ)(?![^\s,])/i;
function labelAt(p, address) {                    // the nearest label up to an address, and how far it lies before it
  const { labels } = SOURCES[p], near = labels[lastIndex(labels, it => it.address <= address)];
  return near ? near.name + (near.address === address ? '' : '+' + (address - near.address)) : hex(address);
}
function variablesOf(source, p) {                 // the lines of data, each with its kind and the name of its first word
  if (!source) return [];
  return source.placed.flatMap(({ text, address, words }) => {
    const found = DIRECTIVE.exec(text.split(/[;"]/)[0]);
    return found ? { kind: found[1].toUpperCase(), name: labelAt(p, address), address, words } : [];
  });
}
const VARIABLES = SOURCES.map(variablesOf);
function lastStore(p, address, step) {            // of a word, up to a step, where there is one
  const list = storesAt[p][address] || [];
  return list[lastIndex(list, it => it.step <= step)];
}
function valueText(kind, words) {                 // a string up to the first x0000; words; or a word, also as a character
  const [w] = words, end = words.indexOf(0);
  if (kind === 'STRINGZ') return '"' + shown(words.slice(0, end < 0 ? words.length : end), 34) + '"';
  if (words.length > 1) return wordsText(words);
  return `${hex(w)} ${w < 32768 ? w : w - 65536}` + (isPrinted(w) ? ` '${String.fromCharCode(w)}'` : '');
}
function variablesText(p, step) {                 // the variables of a process after a step
  const list = VARIABLES[p.process];
  if (list.length === 0) return '';
  if (!D.whole) return `<p class="none">Variables are told of at most ${MOST_WHOLE.toLocaleString('en')} steps.</p>`;
  const row = ({ kind, name, address, words }) => {
    const kept = words.map((word, i) => lastStore(p.process, address + i, step) || { word });
    const text = valueText(kind, kept.map(({ word }) => word)), isStored = kept.some(it => it.step === p.step);
    return `<span class="variable"><i>${esc(name)}</i> ${marked(p.step === step && isStored, esc(text))}</span>`;
  };
  return `<div class="variables mono">${list.map(row).join('')}</div>`;
}
function placesOf(e) {                            // the label and the line of what a step took, in words, and from long to short
  const line = sourceAt(wasOf(e), e.from), named = line && labelAt(e.process, e.from), n = line && line.at + 1;
  return line ? [`${named}, line ${n}`, `${named}, line ${n}`, `${named}:${n}`, `line ${n}`, String(n)] : [''];
}

// ---- where the trace has it that a process stands in its source, if it was given as one

function standIn(p, address) {                    // the label, in words, and the line whose first word is there, where it is still held
  const [name] = DATA.processes[p.process], source = /^[^=]*\.asm(=|$)/i.test(name) && SOURCES[p.process];
  const row = source && source.placed[lastIndex(source.placed, it => it.address <= address)];
  if (!row || address >= row.address + row.words.length) return [];
  const [word = row.words[0]] = codeAt(p, address), isNamed = source.labels.some(it => it.address <= address);
  return [isNamed && 'at ' + labelAt(p.process, address), row.address === address && row.words[0] === word && row];
}
function placeNote(p, address, { call, answer } = {}, text = '') {  // behind what it did, and other notes of that
  const [at, row] = standIn(p, address), notes = [at, row && `line ${row.at + 1}`].filter(note => note).join(', ');
  return notes && (call === undefined || text.endsWith(answer) ? ' ; ' : ', ') + notes;
}
const STANDS_PLACED = STANDS.replace(/end P(\d+) .*/g, (line, p) => line + placeNote(processAt(p, R.length), processAt(p, R.length).pc));
const REPORT_PLACED = REPORT.replace(/^(\d+) (?:runn|wait)ing x.*/gm, (line, p) => {
  const now = processAt(p, R.length), [at, row] = standIn(now, now.pc);
  return line + (at ? ', ' + at : '') + (row ? `, line ${row.at + 1}: ${row.text.trim()}` : '');
});
