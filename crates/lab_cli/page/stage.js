// ---- the stage: time goes to the right, and each process has a row

const IS_LOW = N > 8, MOST_ROWS = 24, HEAD = DECIDING ? 40 : 14;
const CHIP = IS_LOW ? 9 : 17, BAND = IS_LOW ? 3 : 9;  // the half height of a chip, and the height of a band
const inCircles = new Set(CIRCLES.flat()), byCircle = (p, q) => inCircles.has(q) - inCircles.has(p) || p - q;
const CAST = [...PROCESSES].sort(byCircle).slice(0, MOST_ROWS).sort((p, q) => p - q);  // the rest is in the lanes alone
const BANDS = Math.min(3, holds.reduce((most, { side }) => Math.max(most, side + 1), 1)), ROW = (IS_LOW ? 25 : 57) + BAND * BANDS;
const stageHeight = HEAD + ROW * CAST.length + 22, rowY = p => HEAD + ROW * CAST.indexOf(p) + CHIP + (IS_LOW ? 4 : 10);
const shots = [], shotOf = new Map();             // the columns, and of each record its own; opens of a process in a row are one
for (const e of EVENTS.filter(({ process }) => CAST.includes(process))) {
  const last = shots[shots.length - 1], isOpen = /_open$/.test(e.call) && !e.refused;
  if (isOpen && last && last.isOpen && last.p === e.process) last.events.push(e);
  else shots.push({ p: e.process, isOpen, events: [e], x: 0, w: 0 });
  shotOf.set(e.k, shots[shots.length - 1]);
}
let set = { seen: 0, width: 0, from: 0, to: 0 };  // the width of the window, of all, and what is drawn of it
function setStage() {                             // columns get narrow before the row scrolls
  const seen = Math.max(240, $('shot').clientWidth), opens = shots.filter(s => s.isOpen).length;
  const wide = limited(34, (seen - 66 - 40 * opens) / Math.max(1, shots.length - opens), 74);
  let x = 4;
  for (const s of shots) { s.x = x; s.w = s.isOpen ? Math.min(40, wide) : wide; x += s.w; }
  set = { seen: $('shot').clientWidth, width: Math.max(seen, Math.ceil(x) + 60), from: 0, to: -1 };
}
const middle = s => s.x + s.w / 2, stageEnd = () => set.width - 8;
const shotBefore = k => shots[lastIndex(shots, s => s.events[0].k < k)];
function timeX(k) {                               // of a record, or of the moment before it; of none the end
  if (k === null) return stageEnd();
  const s = shotOf.get(k) || shotBefore(k);
  return !s ? 4 : shotOf.has(k) ? middle(s) : s.x + s.w;
}
const isNear = (x1, x2) => x1 <= set.to && x2 >= set.from;

// ---- what stands in a row

const cutEnd = (text, room) => text.length > room && /\d$/.test(text) ? '\u2026' + text.slice(1 - room) : cut(text, room);
function chipTexts({ isOpen, events }, room) {    // what is done, and on what
  const e = events[events.length - 1], fitting = (...list) => list.find(it => it.length <= room) || cut(list[0], room);
  if (isOpen) return ['open', events.length > 1 ? 'x' + events.length : cutEnd(e.name, room)];
  if (!e.call) return e.ends ? ['ends', cut(e.ends, room)] : [fitting('prints', 'out'), cut(`"${shown(e.output)}"`, room)];
  const what = e.call.replace(/^(mq|sem)_/, '');
  return [fitting(what, { receive: 'recv', trywait: 'try', getvalue: 'get', getattr: 'get', setattr: 'set', unlink: 'unl' }[what] || what),
    cutEnd(e.refused || e.name, room)];
}
function chip(s) {
  const { p, events } = s, e = events[events.length - 1], decides = events.includes(DECIDING);
  const x = middle(s), y = rowY(p), w = s.w - 6, room = fits(w);
  const [what, on] = chipTexts(s, room), title = events.map(it => `step ${it.step}, P${p}: ${it.what}`).join('; ');
  const texts = IS_LOW ? label('', x, y + 4, what, 'middle')
    : label('', x, y - 3, what, 'middle') + label('b', x, y + 11, on, 'middle');
  const round = e.call && kindOf(e).includes('sem') ? 10 : 3, step = String(e.step).length * CHAR < s.w;
  return titled(title, `<rect x="${x - w / 2}" y="${y - CHIP}" width="${w}" height="${2 * CHIP}" rx="${round}"/>${texts}`,
    ` class="${kindOf(e)}${decides ? ' decides' : ''}" data-k="${e.k}"`) +
    (step ? label('soft', x, stageHeight - 6, e.step, 'middle') : '');
}
function hasText({ k, end }) {                    // who has what a process waits for
  const object = objectAt(R[k].on, end === null ? R.length : k + 1);
  if (!object || object.kind === 'queue') return ['empty', 'full'].filter((_, i) => i === (object && object.messages.length > 0 ? 1 : 0));
  const who = object.made > 0 ? takers(object.taken) : '';
  return who ? [`${who} ${object.taken.length > 1 ? 'have' : 'has'} it`, who] : ['value 0', '0'];
}
function waitBand(w) {                            // from its first try to the wake or the end
  const x = timeX(w.k), to = timeX(w.end), y = rowY(w.p), first = x + shotOf.get(w.k).w / 2;
  const isStuck = w.end === null && VERDICT === 'stuck';
  const text = IS_LOW ? '' : hasText(w).find(it => first + it.length * CHAR + 14 < to - (w.end === null ? 0 : 34)) || '';
  const plate = text && `<rect class="plate" x="${first}" y="${y - 8}" width="${text.length * CHAR + 8}" height="16"/>` +
    label(isStuck ? 'red' : 'b', first + 4, y + 4, text);
  const band = kind => `<rect class="${kind}" x="${x}" y="${y - CHIP}" width="${to - x}" height="${2 * CHIP}"/>`;
  return titled(`P${w.p} waits for ${w.name}`, band('plate') + band('waitbar' + (isStuck ? ' forever' : '')) + plate);
}
function holdBand({ p, k, end, name, side }) {
  const x = timeX(k), to = timeX(end), y = rowY(p) + CHIP + 2 + BAND * Math.min(side, 2), room = fits(to - x - 40);
  const text = !IS_LOW && name.length <= room ? label('b', to - 4, y + 7.5, name, 'end') : '';
  return titled(`P${p} has taken ${name}`, `<rect x="${x}" y="${y}" width="${to - x}" height="${BAND - 1}"/>${text}`,
    ` class="band tone${p % 5}"`);
}
function messageArrow({ from, to }) {             // from its send to its receive
  const [a, b] = [R[from], R[to]], [xa, xb] = [timeX(from), timeX(to)], isDown = rowY(b.process) > rowY(a.process);
  const same = a.process === b.process, out = same || !isDown ? -CHIP : CHIP, into = same || isDown ? -CHIP : CHIP;
  const [ya, yb] = [rowY(a.process) + out, rowY(b.process) + into], mid = same ? ya - 16 : (ya + yb) / 2;
  const tip = yb + (same || isDown ? -5 : 5);
  return `<path class="arrow" marker-end="url(#tips)" d="M${xa},${ya} C${xa},${mid} ${xb},${mid} ${xb},${tip}"/>`;
}

// ---- all of it

const fromHere = text => 'from here ' + text.replace(/^(?!all)/, 'only ');
function decidedGround() {                        // from the call on from which nothing else can come
  if (!DECIDING) return '';
  const s = shotOf.get(DECIDING.k), x = s ? s.x + s.w : timeX(DECIDING.k);
  const low = stageHeight - 20, kind = VERDICT === 'stuck' ? 'doom' : 'free';
  const [was, now] = [othersText(DECIDED.others).replace('could', 'can'), fromHere(DECIDED.text)];
  return `<rect class="${kind}" x="${x}" y="${HEAD - 16}" width="${set.width - x}" height="${low - HEAD + 16}"/>` +
    line('limit ' + kind, x, x, 8, low) + (x > was.length * CHAR ? label('soft', x - 6, 18, was, 'end') : '') +
    label('b', x + 6, 18, now);
}
function paintStage(left) {                       // what is near to the part that is seen, where it isn't drawn
  if (left >= set.from && left + set.seen <= set.to) return;
  Object.assign(set, { from: left - NEAR, to: left + set.seen + NEAR });
  const near = shots.filter(s => isNear(s.x, s.x + s.w)), isCast = (...list) => list.every(k => shotOf.has(k));
  const lines = CAST.map(p => line('life', 0, set.width, rowY(p), rowY(p)));
  const bands = [...waits.filter(w => isCast(w.k) && isNear(timeX(w.k), timeX(w.end))).map(waitBand),
    ...holds.filter(h => isCast(h.k) && isNear(timeX(h.k), timeX(h.end))).map(holdBand)];
  const sent = arrows.filter(({ from, to }) => isCast(from, to) && isNear(timeX(from), timeX(to))).map(messageArrow);
  const at = `<g id="at">${line('nowline', 0, 0, 8, stageHeight - 18)}<path class="nowtag" d="M-6,2 h12 l-6,8 z"/></g>`;
  $('show').setAttribute('width', set.width); $('show').setAttribute('height', stageHeight);
  $('show').setAttribute('viewBox', `0 0 ${set.width} ${stageHeight}`);
  $('show').innerHTML = [DEFS.replace(/hatch"/, 'hatchs"').replace(/tipm/g, 'tips'), decidedGround(), ...lines, ...bands, ...sent,
    ...near.map(chip), at].join('');
}
function drawCast() {                             // the names of the rows
  const isWide = innerWidth > 700, wide = isWide ? 130 : 30;
  const row = p => titled(`P${p} ${NAMES[p]}`, label('b', 2, rowY(p) + 4, 'P' + p) +
    (isWide ? label('soft', IS_LOW ? 36 : 2, rowY(p) + (IS_LOW ? 4 : 20), cutName(NAMES[p], fits(wide - (IS_LOW ? 38 : 4)))) : ''),
      ` class="tone${p % 5}"`);
  $('cast').setAttribute('width', wide); $('cast').setAttribute('height', stageHeight);
  $('cast').innerHTML = CAST.map(row).join('');
}
function markStage(isStill) {                     // the moment comes into view
  const view = $('shot');
  if (set.seen !== view.clientWidth || set.width === 0) { setStage(); drawCast(); }
  const s = shotBefore(cur), x = cur === R.length ? stageEnd() : s ? s.x + s.w : 4;
  const isSeen = x >= view.scrollLeft + 20 && x <= view.scrollLeft + set.seen - 20;
  if (!isStill && !isSeen) view.scrollLeft = cur === R.length ? set.width : Math.max(0, x - set.seen * .6);
  paintStage(view.scrollLeft);
  $('at').setAttribute('transform', `translate(${x},0)`);
  markCurrent('show', s && cur > 0 ? document.querySelector(`#show [data-k="${s.events[s.events.length - 1].k}"]`) : null);
}
