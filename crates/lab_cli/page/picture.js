// ---- the picture

const marker = (kind, at) => `<marker id="${kind}" viewBox="0 0 8 8" refX="${at}" refY="4" markerWidth="8" markerHeight="8" ` +
  `markerUnits="userSpaceOnUse" orient="auto"><path class="${kind}" d="M0,0 L8,4 L0,8 z"/></marker>`;
const DEFS = '<defs><pattern id="hatch" width="6" height="6" patternUnits="userSpaceOnUse" patternTransform="rotate(45)">' +
  '<line class="hatchline" stroke-width="1.4" y2="6"/></pattern>' + marker('tipm', 3) + marker('tipw', 3) + '</defs>';
const NEAR = 1500;                                // so far beyond the window the picture is drawn
let near = { top: 0, end: 0 };
const touches = (y1, y2) => y1 <= near.end && y2 >= near.top;
const fits = width => Math.floor(width / CHAR);   // how many characters
const line = (kind, x1, x2, y1, y2) => `<line class="${kind}" x1="${x1}" x2="${x2}" y1="${y1}" y2="${y2}"/>`;
const bar = (kind, x, y1, y2, w) => `<rect class="${kind}" x="${x - w / 2}" y="${y1}" width="${w}" height="${y2 - y1}"/>`;
const label = (kind, x, y, text, anchor) =>
  `<text class="${kind}" x="${x}" y="${y}"${anchor ? ` text-anchor="${anchor}"` : ''}>${esc(text)}</text>`;
const gutter = (tall, wide, inner) => `<g class="gut">${bar('plain', wide / 2, 0, tall, wide)}${inner}</g>`;
function fill(svg, tall, inner) {
  svg.setAttribute('width', lay.width); svg.setAttribute('height', tall);
  svg.setAttribute('viewBox', `0 0 ${lay.width} ${tall}`);
  svg.innerHTML = inner;
}

const heading = (title, x, name, below, more) =>
  titled(title, label('b', x, 16, name, 'middle') + label('soft', x, 31, below, 'middle'), more);
function drawHead() {
  const { num, lane, x0, colX, colW, width } = lay, room = fits(lane - 4);
  const lanes = NAMES.map((name, p) => heading('P' + p + ' ' + name, midX(p), room > 2 ? 'P' + p : p,
    room > 6 ? cutName(name, room) : '', ` class="who" data-p="${p}"`));
  const objects = cols.map(({ name, kind }, i) =>
    heading(kind + ' ' + name, colX[i] + colW[i] / 2, cut(name, fits(colW[i] - 6)), kind));
  const step = gutter(39, x0, label('soft', num - 8, 16, 'step', 'end'));
  fill($('head'), 40, [...lanes, ...objects, step, line('life', 0, width, 39.5, 39.5)].join(''));
}
function lane(_, p) {
  const { k, state } = processAt(p, R.length);
  return line('life', midX(p), midX(p), 0, state === 'ended' ? midY(k) : bottom());
}

// ---- the columns of the objects

function levelText(a, room) {                     // the value, and as much of the rest as there is room for
  const all = [a.value, a.text, a.who].filter(part => part).join(' ');
  return cut(all.length > room && a.value && a.value.length > room - 4 ? a.value : all, room);
}
function column(c, i) {
  const x = lay.colX[i] + 5, room = fits(lay.colW[i] - 12);
  const last = c.at[c.at.length - 1], isGone = last.text === 'gone';
  const shownAt = new Map(c.at.filter(a => touches(midY(a.k), midY(a.k))).map(a => [a.k, a]));
  const levels = [...shownAt.values()].map(a => {
    const y = midY(a.k), dot = `<circle class="${c.kind === 'sem' ? 'holds' : 'tipm'}" cx="${x}" cy="${y}" r="3"/>`;
    return titled(c.name + ' ' + a.title, dot + label('', x + 7, y + 4, levelText(a, room)));
  });
  const atEnd = titled(c.name + ' at the end: ' + last.title, label('b', x + 7, bottom() + 16, levelText(last, room)));
  return line('life', x, x, midY(c.at[0].k), isGone ? midY(last.k) : bottom()) + levels.join('') + (isGone ? '' : atEnd);
}

// ---- the rows between events

function between([p, local, idle], y) {           // local steps, and steps without effect
  const x = midX(p), middle = y + GAP / 2, mark = (kind, at) => line(kind, at, at, y, y + GAP);
  const count = lay.lane > 40 ? label('soft', x + 7, middle + 4, cut('+' + local, fits(lay.lane / 2 - 8))) : '';
  const tried = lay.lane > 90 ? note(x, middle, idle + ' idle', 'soft') : mark('tried', x + 4);
  const ran = local > 0 ? titled(`P${p}: ${local} local steps`, mark('ran', x) + count) : '';
  return ran + (idle > 0 ? titled(`P${p}: ${idle} steps without effect`, tried) : '');
}

// ---- waits, and what is held

const waitEnds = w => [midY(w.k) + HALF, w.end === null ? bottom() : midY(w.end) - HALF];
function waitBar(w) {
  const x = midX(w.p), [from, to] = waitEnds(w), wide = lay.box - 6;
  const bars = bar('plain', x, from, to, wide) + bar('waitbar', x, from, to, wide);
  return to > from ? titled(`P${w.p} waits for ${w.name}`, bars, ` data-k="${w.k}"`) : '';
}
function isCounted(p, y) {                        // whether a number of steps without effect stands there
  const isIdle = ({ between }) => between && between.some(([q, , idle]) => q === p && idle > 0);
  const isNear = r => isIdle(r) && Math.abs(r.y + GAP / 2 - y) < 15;
  return [y - 13, y, y + 13].some(at => isNear(rowAt(at)));
}
function reasons(w) {                             // what a process waits for, again and again along a long bar
  const room = fits(lay.box - 12), again = 260, [from, to] = waitEnds(w), first = from + (to - from < 24 ? 10 : 14);
  const text = ['waits for ' + w.name, w.name].find(t => t.length <= room) || cut(w.name, room), notes = [];
  const hidden = Math.max(0, Math.floor((near.top - first) / again));
  for (let y = first + hidden * again, i = hidden; y < Math.min(to - 6, near.end); y += again, i++) {
    while (isCounted(w.p, y)) y += 6;
    if (i === 0 || to - y > 60) notes.push(note(midX(w.p), y, text, 'b'));
  }
  return room > 3 ? notes.join('') : '';
}
function heldBar(h) {
  const x = midX(h.p) + lay.box / 2 - 3 - 6 * Math.min(h.side, 3), wide = lay.lane < 40 ? 3 : 4;
  const from = midY(h.k), to = h.end === null ? bottom() : midY(h.end);
  return touches(from, to) ? titled(`P${h.p} has taken ${h.name}`, bar('holds', x, from, to, wide)) : '';
}

// ---- messages, and who let a waiting process go on

function unreceived({ process, k }) {
  const x = midX(process) + lay.box / 2, y = midY(k), dot = `<circle class="kept" cx="${x + 9}" cy="${y}" r="3.5"/>`;
  return touches(y, y) ? titled('never received', `<path class="arrow" d="M${x},${y} h6"/>` + dot) : '';
}
const links = (list, kind, tip) => list.filter(a => touches(midY(a.from), midY(a.to))).map(a => link(a, kind, tip));

// ---- the end

function stuckBar(w) {
  const room = fits(lay.box - 44), x = midX(w.p), y = bottom() + 12, at = room > 5 ? x - lay.box / 2 + 17 : x;
  const [who, does] = lacking(w), why = who + ' ' + does;
  const cross = `<path class="cross" d="M${at - 5},${y - 5} l10,10 m0,-10 l-10,10"/>`;
  const mark = bar('stuckbar', x, bottom(), bottom() + 24, lay.box - 6) + cross;
  const words = room > 5 ? label('red', at + 13, y + 4, why.length <= room ? why : cut(who, room)) : '';
  return titled(`P${w.p} waits for ever for ${w.name}: ${why}`, mark + words);
}
function stepText(e) {                            // the step and, beside narrow lanes, the call in words
  const { num, text } = lay, y = midY(e.k) + 4, words = e.call ? `${e.call} ${e.name} ${e.answer}` : e.what;
  const beside = text ? label('', num, y, cut(`P${e.process} ${words}`, fits(text - 12))) : '';
  return label('soft', num - 8, y, e.step, 'end') + beside;
}
const nowMark = () =>                             // what is to come is pale
  `<g id="now"><rect class="future" x="0" y="0" width="${lay.width}" height="${full()}"/>` +
  line('nowline', 0, lay.width, 0, 0) + '<path class="nowtag" d="M0,-5 l8,5 l-8,5 z"/></g>';

// ---- painting

function rule(e) {                                // from a box to the column of its object
  const from = midX(e.process) + lay.box / 2, y = midY(e.k);
  return e.column === undefined ? '' : line('rule', from, lay.colX[e.column] + 6, y, y);
}
function paint(top, end) {                        // what lies between these heights
  near = { top, end };
  const found = rows.slice(rowIndex(top), rowIndex(end) + 1), bars = waits.filter(w => touches(...waitEnds(w)));
  const events = found.filter(r => r.k !== undefined).map(r => R[r.k]), gaps = found.filter(r => r.k === undefined);
  const stuck = waits.filter(w => w.end === null && VERDICT === 'stuck');
  const lanes = [...events.map(rule), ...NAMES.map(lane), ...cols.map(column), ...bars.map(waitBar), ...holds.map(heldBar)];
  const arcs = [...links(wakes, 'wake', 'tipw'), ...links(arrows, 'arrow', 'tipm'), ...kept.map(unreceived)];
  const texts = [...gaps.flatMap(r => r.between.map(it => between(it, r.y))), ...bars.map(reasons), ...stuck.map(stuckBar)];
  const steps = gutter(full(), lay.x0 - 2, events.map(stepText).join(''));
  const all = [DEFS, ...lanes, ...arcs, ...events.map(box), ...texts, steps, roundMark(), nowMark()];
  fill($('pic'), full(), all.join(''));
  markNow(); keepGutter();
}
function paintNear(isNew) {                       // again, where the window has left what was drawn
  const { scrollTop: top, clientHeight: tall } = $('left'), end = Math.min(top + tall, full());
  if (isNew || top < near.top || end > near.end) paint(Math.max(0, top - NEAR), Math.min(full(), top + tall + NEAR));
}
function keepGutter() {                           // it and the texts below stay where one scrolls sideways
  const { scrollLeft: left } = $('left');
  for (const g of document.querySelectorAll('.gut')) g.setAttribute('transform', `translate(${left},0)`);
  $('atend').style.transform = `translateX(${left}px)`;
}
function draw() {
  layout();
  drawHead();
  paintNear(true);
  mark();
}
