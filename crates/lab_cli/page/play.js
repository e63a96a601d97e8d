// ---- the reader as the scheduler, in the picture of all worlds

let played = [], isPuzzle = false, unread = '';   // the calls that were chosen, by their arrows; whether to get stuck is asked
let pending = null, score = [0, 0];                  // the call before which a question is open, and how many answers were right
const isPlaying = () => $('game').open;
const worldNow = () => played.length ? WORLD_MAP.edges[played[played.length - 1]].to : 0;
const legsSoFar = () => [...WORLD_MAP.starts, ...played.map(k => WORLD_MAP.edges[k])];
const calls = n => several(n, 'call', 'calls');

// ---- what a world shows

function lineText({ pc, word }, process) {        // the line of the source that the next instruction is of
  const line = sourceAt({ process, first: pc, code: [[word]] }, pc);
  return line ? `, line ${line.at + 1}` : '';
}
const CHANGES = { sem_wait: 1, sem_trywait: 1, sem_post: -1 };
function unitsSoFar() {                           // by the places of objects that are there: whether one was made at 0, when nobody has it,
  const units = new Map();                        // and how many more units each process took than it gave
  for (const { process, events, to } of legsSoFar()) {
    for (const { call, on, result, text } of events) {
      if (typeof result !== 'number') continue;
      if (!units.has(on)) units.set(on, { isSignal: text.endsWith('; value 0'), counts: PROCESSES.map(() => 0) });
      units.get(on).counts[process] += CHANGES[call] || 0;
    }
    const there = to === undefined ? [] : WORLD_MAP.nodes[to].objects.map(it => it.place);
    for (const place of units.keys()) if (!there.includes(place)) units.delete(place);
  }
  return units;
}
function takersNow({ place }) {                   // none of a signal
  const { isSignal, counts } = unitsSoFar().get(place), { processes } = WORLD_MAP.nodes[worldNow()];
  return isSignal ? null : takers(counts.map((count, p) => [p, count, processes[p].state === 'ended']).filter(([, count]) => count > 0));
}
function objectText(object) {                     // the level of an object, and what it holds or who has it
  const name = visible(nameOf(object)) + (object.name === null ? ' (unlinked)' : '');
  if (object.kind === 'sem') {
    const taken = takersNow(object);
    return `${name}: value ${object.value}` + (taken === null ? '' : `, taken by ${taken || 'nobody'}`);
  }
  const level = `${name}: ${object.messages.length} of ${object.most}`;
  return [level, ...object.messages.map(m => `${message(m)} prio ${m[0]}`)].join(', ');
}
function thenText(p, { state, text, place }, objects) {  // what its next call would do, or what it waits for
  const call = WORLD_MAP.edges[arrowOf(worldNow(), p)], on = objects.find(it => it.place === place);
  if (!call) return state === 'waits' && on ? 'waits for ' + objectText(on) : '';
  const [{ text: done }, ...more] = call.events;
  const answer = done.startsWith(text) ? done.slice(text.length).trim() : done;
  return `would answer ${visible([answer, ...more.map(it => it.text)].join(', then '))}`;
}
function codeNow({ pc, word, state }, process) {  // the line of its source, and those beside it
  const line = state !== 'ended' && sourceAt({ process, first: pc, code: [[word]] }, pc);
  if (!line) return '';
  const lines = SOURCES[process].lines.slice(Math.max(0, line.at - 1), line.at + 2);
  return lines.map(it => codeLine(it === line, String(it.at + 1).padStart(3), nearComment(it.text).trim())).join('');
}
function turnText(stand, p) {                     // what a process does next
  if (stand.state === 'ended') return `P${p} has ended: ${visible(stand.text)}`;
  return `P${p}${stand.state === 'goes on' ? '' : ' must wait'}: ${visible(stand.text)}`;
}
const inShell = name => /^[\w.\/=+-]+$/.test(name) ? name : `'${visible(name).replace(/'/g, `'\\''`)}'`;
function placeText({ processes, outputs }, p) {   // where a process stands, and what it has written
  const output = outputs[p].length ? `"${shown(outputs[p])}"` : 'none';
  const line = processes[p].state === 'ended' ? '' : lineText(processes[p], p);
  return `${standingText(processes[p], p)}${line}; output ${output}`;
}

// ---- what was played

function linesSoFar() {                           // as the trace tells them
  const local = PROCESSES.map(() => 0), lines = [];
  let step = 0;
  for (const { process, steps, events } of legsSoFar()) {
    for (const e of events) {
      const { number, pc, text } = e, note = placeNote({ process, first: pc, code: [] }, pc, e, text);
      lines.push({ step: step + number, process, pc, text, note, local: local[process] + number - 1 });
      local[process] = -number;
    }
    local[process] += steps; step += steps;
  }
  return lines;
}
function lineSoFar({ step, process, pc, local, text, note }) {
  const who = ('P' + process).padEnd(String(N - 1).length + 1);
  return `${String(step).padStart(3)} ${who} ${hex(pc)} ${('+' + local).padStart(5)} ${text}${note}`;
}
function planSoFar() {                            // the steps; at the end those by which processes begin to wait, too
  const blocks = [], { verdict, processes } = WORLD_MAP.nodes[worldNow()];
  const waits = verdict ? processes.map(({ state }, process) => ({ process, steps: state === 'waits' ? 1 : 0 })) : [];
  for (const { process, steps } of [...legsSoFar(), ...waits]) {
    const last = blocks[blocks.length - 1];
    if (last && last[0] === process) last[1] += steps; else if (steps > 0) blocks.push([process, steps]);
  }
  return printed(blocks);
}

// ---- ways to an end

const goalNow = () => $('goal').value === '' ? null : Number($('goal').value);
const planNow = () => goalNow() === null ? [] : fewestCalls(worldNow(), n => WORLD_MAP.nodes[n].end === goalNow());
function goalText([end, { verdict, outputs }]) {
  const wrote = outputs.map((bytes, p) => bytes.length ? ` P${p} "${cut(shown(bytes), 20)}"` : '').join('');
  return `<option value="${end}">end ${end + 1}: ${verdict}${esc(wrote)}</option>`;
}
function puzzleText() {                           // how many calls it took to get stuck, beside the fewest
  const { nodes } = WORLD_MAP, { verdict } = nodes[worldNow()], fewest = fewestCalls(0, n => nodes[n].verdict === 'stuck');
  if (fewest === null) return isPuzzle ? 'No way gets stuck. ' : '';
  if (verdict === 'stuck') return `Stuck after ${calls(played.length)}; the fewest are ${fewest.length}. `;
  if (verdict) return `All have ended after ${calls(played.length)}. ` + (isPuzzle ? 'That isn\'t stuck: undo, or start again. ' : '');
  return isPuzzle ? 'Find a way to get stuck. ' : '';
}
function planText(plan) {
  if (plan === null) return 'No calls lead from here to the chosen end. ';
  return plan.length ? `To the chosen end: ${plan.map(k => 'P' + WORLD_MAP.edges[k].process).join(' ')}. ` : '';
}

// ---- playing

function showTurns(node) {                        // the buttons stay, so that the focus does
  const { processes, objects } = node, units = unitsSoFar();
  const hasUnit = (o, p) => !units.get(o.place).isSignal && units.get(o.place).counts[p] > 0;
  processes.forEach((stand, p) => {
    const [head, button] = $('turns').children[p].children, mustWait = stand.state !== 'goes on';
    const has = objects.filter(o => hasUnit(o, p)).map(o => `<span class="chip">${esc(visible(nameOf(o)))}</span>`).join(' ');
    head.innerHTML = `<p class="stand">${esc(placeText(node, p))}</p>${has && `<p>has ${has}</p>`}` +
      `<pre class="code">${codeNow(stand, p)}</pre><p class="then">${esc(thenText(p, stand, objects))}</p>`;
    button.lastChild.textContent = turnText(stand, p);
    button.setAttribute('aria-disabled', mustWait); button.parentElement.classList.toggle('waits', mustWait);
  });
}
function bringWorld(n) {                          // into view in the picture, and the page stays
  const map = $('map'), seen = map.getBoundingClientRect(), there = $('world' + (n + 1)).getBoundingClientRect();
  map.scrollTop += (there.top + there.bottom - seen.top - seen.bottom) / 2;
  map.scrollLeft += (there.left + there.right - seen.left - seen.right) / 2;
}
function showPlay() {
  const n = worldNow(), node = WORLD_MAP.nodes[n], plan = planNow(), lines = linesSoFar(), last = lines[lines.length - 1];
  const at = `World ${n + 1}, after ${calls(played.length)}. ${unread}${node.verdict ? '' : leftText(n) + ' '}`;
  $('gamesay').textContent = at + puzzleText() + planText(plan) + (last ? `P${last.process}: ${visible(last.text)}` : '');
  showTurns(node);
  listTexts('gameworld', node.objects.map(objectText));
  listTexts('gamelines', lines.map(line => visible(lineSoFar(line))));
  $('gamelines').scrollTop = $('gamelines').scrollHeight;
  $('gameplan').textContent = planSoFar();
  const files = DATA.processes.map(([name]) => inShell(name)).join(' ');
  $('command').textContent = `printf '%s\\n' '${planSoFar()}' | lc3lab trace --page my.html ${files}`;
  $('undo').disabled = $('again').disabled = played.length === 0;
  $('goon').disabled = plan === null || plan.length === 0;
  chooseWorld(n, played, plan || []);
  bringWorld(n);
}
const canEnd = k => (LEFT[WORLD_MAP.edges[k].to] & ENDED) !== 0n;  // whether all can still end after a call
function press(p) {                               // the process goes on, where it can; before a call that matters it is asked, if wanted
  const k = arrowOf(worldNow(), p), ways = PROCESSES.map(q => arrowOf(worldNow(), q)).filter(way => way >= 0);
  if (k < 0) return;
  if (!$('asks').checked || new Set(ways.map(canEnd)).size < 2) playFrom([...played, k], isPuzzle); else askOf(p, k);
}
function askOf(p, k) {
  pending = k;
  $('ask').textContent = k === null ? '' : `If P${p} goes now, can all still end?`;
  $('question').hidden = k === null; $('ends').classList.toggle('asking', k !== null);
}
function answer(says) {
  const isRight = says === canEnd(pending), told = canEnd(pending) ? 'all can still end' : 'not all can end any more';
  score = [score[0] + isRight, score[1] + 1];
  playFrom([...played, pending], isPuzzle, `${isRight ? 'Right' : 'No'}: ${told}. ${score.join(' of ')} right. `);
}
function playFrom(calls, asked, rest = '') {
  played = calls; isPuzzle = asked; unread = rest; askOf(null, null);
  gameText = played.map(k => WORLD_MAP.edges[k].process).join(N > 10 ? '.' : '');
  keepAddress(withGame(''));
  showPlay();
}
function takeCalls(processes) {                   // those that follow arrows, up to the first that doesn't
  const found = followedBy(processes), rest = processes.length - found.length;
  $('game').open = true;
  playFrom(found, isPuzzle, rest ? `Only the first ${calls(found.length)} of ${processes.length} can be made. ` : '');
}
function readGame() {                             // the game of the address
  const [, text] = /[#&]play=([\d.]*)/.exec(location.hash) || [];
  if (text !== undefined && WORLD_MAP) takeCalls((text.split(N > 10 ? '.' : '')).filter(p => p).map(Number));
}
function callsOf(schedule) {                      // who makes calls in the steps of a schedule; tries that wait are none
  const ahead = WORLD_MAP.starts.map(({ steps }) => steps), found = [];
  let n = 0;
  for (const [, p, count] of schedule.matchAll(/(\d+)(?:\*(\d+))?/g)) {
    for (let left = Number(count || 1); left > 0 && p < N;) {
      const local = Math.min(left, ahead[p]), k = local === left ? -1 : arrowOf(n, Number(p));
      ahead[p] -= local; left -= local;
      if (k < 0) break;
      found.push(Number(p)); n = WORLD_MAP.edges[k].to; ahead[p] = WORLD_MAP.edges[k].steps;
    }
  }
  return found;
}
function fillPlay() {
  $('turns').innerHTML = PROCESSES.map(p => `<section class="turn tone${p % 5}" aria-label="P${p}"><div></div>` +
    `<button type="button" data-p="${p}"${p < 10 ? ` aria-keyshortcuts="${p}"` : ''}>` +
    `<kbd aria-hidden="true">${p}</kbd> <span></span></button></section>`).join('');
  const goals = new Map(WORLD_MAP.nodes.filter(({ verdict }) => verdict).map(node => [node.end, node]));
  $('goal').innerHTML = '<option value="">an end</option>' + [...goals].sort(([a], [b]) => a - b).map(goalText).join('');
  onPart('turns', 'click', 'p', press);
  on('undo', 'click', () => playFrom(played.slice(0, -1), isPuzzle));
  on('again', 'click', () => playFrom([], isPuzzle));
  on('puzzle', 'click', () => { $('goal').value = ''; playFrom([], true); });
  on('goal', 'change', showPlay);
  on('goon', 'click', () => playFrom([...played, ...planNow()], isPuzzle));
  $('asks').parentElement.hidden = !IS_MIXED;
  on('yes', 'click', () => answer(true)); on('no', 'click', () => answer(false));
  on('take', 'click', () => takeCalls(callsOf($('given').value)));
  on('copy', 'click', () => navigator.clipboard?.writeText($('command').textContent));
  on('game', 'toggle', () => {
    $('ends').classList.toggle('played', isPlaying());
    if (isPlaying()) { showPlay(); $('game').scrollIntoView(); }
  });
  readGame();
}
