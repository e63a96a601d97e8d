// ---- a process

let cur = 0, timer = null;
const pinned = new Map();                         // the cards that a reader opened or closed
const marked = (isMarked, text, kind) => `<span class="${(kind || '') + (isMarked ? ' changed' : '')}">${text}</span>`;
function statusLine(p) {
  const [, text] = codeAt(p, p.pc), what = p.state === 'ended' ? p.ends : text || '-';
  return `P${p.process} ${p.state} ${hex(p.pc)} ${what}`;
}
function whyText(p) {
  if (p.state !== 'waiting') return '';
  const object = objectAt(p.on, cur), text = `waits for ${nameOf(object)} since step ${p.step}`;
  if (object.kind === 'sem') return text + ', taken by ' + (takers(object.taken) || 'nobody');
  return text + (object.messages.length === 0 ? ' (empty)' : ` (${object.messages.length} of ${object.most})`);
}
function registersOf(p, acts) {
  const cell = (name, text, isMarked) => `<span><i>${name}</i> ${marked(acts && isMarked, text)}</span>`;
  const was = acts ? wasOf(p) : p, all = p.registers.map((w, i) => cell('R' + i, hex(w), w !== was.registers[i]));
  const pc = cell('PC', hex(p.pc), p.pc !== p.from), cc = cell('CC', p.cc, p.cc !== was.cc);
  return [...all.slice(0, 4), pc, ...all.slice(4), cc].join('');
}
function codeLine(isNext, place, text, call) {
  const named = call ? `<i>  ; ${call}</i>` : '';
  return `<span class="${isNext ? 'here' : 'line'}">${isNext ? '&gt;' : ' '} <i>${place}</i> ${esc(text)}${named}</span>`;
}
function codeLines({ pc, first, code }) {         // the words around the next instruction
  return code.map(([word, text, call], i) =>
    codeLine(first + i === pc, hex(first + i) + ' ' + hex(word), text, call)).join('');
}
const nearComment = text => text.replace(/^((?:[^";]|"(?:[^"\\]|\\.)*")*?)\s{3,};/, '$1  ;');  // at most two blanks before it
function sourceLines(p, next) {                   // the lines of the source, and which is that of the next instruction
  const { lines } = SOURCES[p.process], most = String(lines.length).length;
  return lines.map(({ text, address, words, call }, i) => {
    const place = String(i + 1).padStart(most) + ' ' + (words ? hex(address) : '     ');
    return codeLine(i === next.at, place, nearComment(text), text.includes(';') ? undefined : call);
  }).join('');
}
function around(p) {
  if (p.state === 'ended') return '';
  const next = sourceAt(p, p.pc);
  if (next) return `<pre class="code source" tabindex="0" aria-label="source of P${p.process}">${sourceLines(p, next)}</pre>`;
  const why = SOURCES[p.process] ? '<p class="none">Not a word of the source:</p>' : '';
  return why + `<pre class="code">${codeLines(p)}</pre>`;
}
function openText([kind, number, place, more, isNonblock]) {
  const name = nameOf(objectAt(place, cur));
  if (kind === 'mq') return `mq ${number} ${name} ${more} ${isNonblock ? 'nonblock' : 'block'}`;
  return `sem ${number} ${name}` + (more > 1 ? ' *' + more : '');
}
function card(p, acts) {                          // of a process, and whether it took the step
  const open = p.open.map(it => `<span class="held">${esc(openText(it))}</span>`).join('') || 'none';
  const output = marked(acts && p.output !== undefined, p.written ? '"' + esc(p.written) + '"' : 'none', 'output');
  return `<div class="regs mono">${registersOf(p, acts)}</div>${variablesText(p, cur ? R[cur - 1].step : 0)}${around(p)}` +
    `<div class="mono part"><i class="none">output</i> ${output}</div>` +
    `<div class="mono part"><i class="none">open</i> <span>${open}</span></div>`;
}

// ---- the objects

function showObjects(e) {
  const objects = places.map((_, place) => objectAt(place, cur)).filter(object => object), touched = e && e.changed || [];
  const name = o => marked(touched.includes(o.place), esc(nameOf(o))) + (o.name === null ? ' (unlinked)' : '');
  const cells = o => [name(o), o.value, takers(o.taken).replace(/\(/g, '<wbr>(') || '-', listOf(o.waiters) || '-'];
  const row = o => '<tr>' + cells(o).map(text => `<td>${text}`).join('') + '</tr>';
  const from = origin => origin ? `, from P${origin[0]} at ${origin[1]}` : '';
  const item = m => `<li>${esc(message(m))} prio ${m[0]}${from(m[2])}</li>`;
  const queue = o => `<div class="queue mono">${name(o)} ${o.messages.length} of ${o.most}, length up to ${o.size}` +
    (o.waiters.length ? ', waited for by ' + listOf(o.waiters) : '') +
    (o.messages.length ? '<ol>' + o.messages.map(item).join('') + '</ol>' : '') + '</div>';
  const head = '<tr><th>name<th>value<th>taken by<th>waited for by</tr>', none = '<p class="none">none</p>';
  const sems = objects.filter(o => o.kind === 'sem').map(row).join('');
  $('sems').innerHTML = sems ? `<table class="mono">${head}${sems}</table>` : none;
  $('mqs').innerHTML = objects.filter(o => o.kind === 'queue').map(queue).join('') || none;
}

// ---- all of it

function showProcess(p, acts) {
  const element = $('card' + p.process), why = whyText(p);
  element.open = pinned.has(p.process) ? pinned.get(p.process) : N <= 3 || acts;
  element.classList.toggle('acts', acts);
  element.firstChild.innerHTML = `<span class="mono">${esc(statusLine(p))}</span>` +
    (why ? `<span class="why">${esc(why)}</span>` : '');
  element.lastChild.innerHTML = element.open ? card(p, acts) : '';
  const here = element.querySelector('.source .here');
  if (here) here.parentNode.scrollTop = here.offsetTop - here.parentNode.clientHeight / 2;
}
function reveal(element) {                        // the card of the process that acts comes into view
  const view = $('procs'), top = element.offsetTop, end = top + element.offsetHeight;
  if (top < view.scrollTop || end > view.scrollTop + view.clientHeight) view.scrollTop = top - 10;
}
function panel(e) {                               // e is the record of the last step, where there is one
  for (const p of PROCESSES.map(p => processAt(p, cur))) showProcess(p, p === e);
  if (e) reveal($('card' + e.process));
}
