// ---- two ends beside each other: a row for each call, and a line joins what is the same call of the same process

const onWhat = e => /send|receive|wait|post/.test(e.call) ? e.name : null;
const verbOf = e => e.call.replace(/^(mq|sem)_/, '').replace('trywait', 'try');
const wordText = words => words.length === 1 ? String(words[0]) : quoted(words) || numbers(words);
function rowsOf({ moments }) {                    // calls, outputs and ends, and the tries of calls that wait for ever
  const told = moments.slice(1).filter(([, , , event]) => event), last = new Map(told.map(([, p], i) => [p, i]));
  const all = told.map(([, process, [, , , first, words], [from, , what, did]]) =>
    ({ process, what, line: sourceAt({ process, first, code: words.map(word => [word]) }, from), ...didOf(did) }));
  const counts = PROCESSES.map(() => 0);
  let call = 0;
  return all.filter((e, i) => !e.waits || last.get(e.process) === i)
    .map(e => ({ ...e, key: `${e.process} ${++counts[e.process]}`, number: e.waits || e.output ? '' : ++call }));
}
function rowText(e) {
  if (!e.call) return e.ends ? 'ends' : `prints "${shown(e.output)}"`;
  const words = e.words && e.words.length ? wordText(e.words) : '';
  return [verbOf(e), e.name, words, e.refused, e.waits ? 'for ever' : ''].filter(text => text).join(' ');
}
function besideOf(left, right) {                  // what differs, and which calls on one object have another order
  const [inLeft, inRight] = [left, right].map(list => new Map(list.map((e, i) => [e.key, i]))), swapped = new Set();
  const differs = o => e => !o(e) || rowText(e) !== rowText(o(e)) || e.answer !== o(e).answer;
  const crosses = (a, b) => onWhat(a) && onWhat(a) === onWhat(b) && a.process !== b.process && inRight.has(a.key) && inRight.has(b.key) &&
    inLeft.get(a.key) < inLeft.get(b.key) !== inRight.get(a.key) < inRight.get(b.key);
  const calls = left.filter(onWhat);
  for (const a of calls) if (calls.some(b => crosses(a, b))) swapped.add(a.key);
  const other = [left.map(differs(e => right[inRight.get(e.key)])), right.map(differs(e => left[inLeft.get(e.key)]))];
  const same = left.findIndex((e, i) => other[0][i] || inRight.get(e.key) !== i);
  return { left, right, inLeft, inRight, swapped, other, crosses, same: same < 0 ? left.length : same };
}
function differenceText({ left, right, inLeft, swapped, other, crosses }) {  // who comes first on the right, and so which answer is another
  const at = other[1].indexOf(true), e = right[at], o = e && left[inLeft.get(e.key)];
  const isSwapped = it => swapped.has(it.key) && inLeft.has(it.key);
  const near = right.slice(0, at + 1).findLast(isSwapped) || right.find(isSwapped);
  const far = near && right.find(it => inLeft.has(it.key) && crosses(near, it));
  const [first, next] = far && right.indexOf(far) < right.indexOf(near) ? [far, near] : [near, far];
  const isFirst = it => swapped.has(it.key) && it.process === first.process && onWhat(it) === onWhat(first);
  const verbs = far && new Set(right.slice(right.indexOf(first), right.indexOf(next)).filter(isFirst).map(verbOf));
  const does = far && inList([...verbs].map(it => it.replace('try', 'trie') + 's'));
  const order = far ? `On the right P${first.process} ${does} on ${first.name} before P${next.process} does. So ` : '';
  const who = e && (far && e.process === first.process ? 'it' : 'P' + e.process), call = e && e.number ? ` (call ${e.number})` : '';
  const answer = !e || !e.call || !o ? '' : e.waits || o.waits ? `${who} ${e.waits ? 'waits' : 'doesn\'t wait'} for ever for ${e.name}`
    : e.words && e.words.length ? `${who} ${verbOf(e)}s ${wordText(e.words)}${call}, not ${wordText(o.words || [])}`
      : `${who} is answered ${e.answer.slice(2)}${call}, not ${o.answer.slice(2)}`;
  const [was, now] = [NUMBER, BESIDE].map(n => DATA.ends[n - 1][1].outcome[3]);
  const wrote = bytes => bytes.length ? `"${cut(shown(bytes), 30)}"` : 'nothing';
  const printed = PROCESSES.filter(p => String(was[p]) !== String(now[p])).map(p => `P${p} prints ${wrote(now[p])}, not ${wrote(was[p])}`);
  return order + ([answer, ...printed.slice(0, 2)].filter(text => text).join(', and ') || 'another end comes') + '.';
}
function drawBeside({ left, right, inLeft, inRight, swapped, other, same }) {
  const fold = Math.max(0, same - 2), wide = 380, tall = 30, x = [40, 720], y = i => 40 + tall * (i - fold);
  const kind = e => `tone${e.process % 5}${swapped.has(e.key) ? ' swapped' : ''}`;
  const join = e => {
    const [a, b] = [y(inLeft.get(e.key)), y(inRight.get(e.key))];
    return `<path class="join ${kind(e)}" d="M${x[0] + wide},${a} C${x[0] + wide + 110},${a} ${x[1] - 110},${b} ${x[1]},${b}"/>`;
  };
  const row = side => (e, i) => i < fold ? '' : titled(e.what,
    `<rect x="${x[side]}" y="${y(i) - 12}" width="${wide}" height="24" rx="5"/>` +
    label('b', x[side] + 8, y(i) + 5, 'P' + e.process) + label('word', x[side] + 44, y(i) + 5, cut(rowText(e), 30)) +
    label('soft', x[side] + wide - 8, y(i) + 5, e.line ? `line ${e.line.at + 1}` : '', 'end') +
      label('red', x[side] + wide - 80, y(i) + 5, other[side][i] ? '\u2260' : '', 'end') +
    label('number', side ? x[1] + wide + 6 : x[0] - 6, y(i) + 4, e.number, side ? '' : 'end'),
      ` class="row ${kind(e)}${other[side][i] ? ' other' : ''}"`);
  const column = (list, side) => {
    const n = [NUMBER, BESIDE][side], verdict = DATA.ends[n - 1][1].outcome[0];
    const when = LEFT && decidedIn(verdict, n, list.filter(e => e.number).map(e => e.process));
    const i = when && when.at > 0 ? list.findIndex(e => e.number === when.at) : -1, at = y(i) - tall / 2;
    const limit = i < fold ? '' : line('limit', x[side] - 20, x[side] + wide, at, at) +
      label('red', x[side] + wide + 6, at + 4, fromHere(when.text));
    return label('b', x[side] + wide / 2, 16, `End ${n}: ${verdict}`, 'middle') + list.map(row(side)).join('') + limit;
  };
  $('pairs').setAttribute('viewBox', `0 0 1280 ${y(Math.max(left.length, right.length)) + 4}`);
  $('pairs').innerHTML = left.slice(fold).filter(e => inRight.has(e.key)).map(join).join('') + column(left, 0) + column(right, 1);
}
function fillBeside() {
  const others = DATA.ends.map((_, k) => k + 1).filter(n => n !== NUMBER);
  $('other').hidden = KIND !== 'end' || others.length === 0; $('beside').hidden = !BESIDE;
  $('other').innerHTML = '<option value="">beside another end</option>' +
    others.map(n => `<option value="${n}">beside end ${n}</option>`).join('');
  $('other').value = BESIDE || '';
  on('other', 'change', () => { location.hash = withGame(SHOWN + ($('other').value && '&beside=' + $('other').value)); });
  if (!BESIDE) return;
  document.body.classList.add('pair');
  const it = besideOf(...[NUMBER, BESIDE].map(n => rowsOf(DATA.ends[n - 1][1])));
  $('difference').textContent = differenceText(it);
  $('pairs').setAttribute('aria-label', `${differenceText(it)} The first ${several(it.same, 'row is', 'rows are')} the same.`);
  drawBeside(it);
}
