// ---- the texts of a box, from long to short

function kindOf(e) {
  if (e.call === undefined) return e.ends ? 'ev end' : 'ev out';
  const kind = /send|receive/.test(e.call) ? 'mq' : /wait|post/.test(e.call) ? 'sem' : 'obj';
  return 'ev ' + (e.refused ? 'bad' : kind) + (e.waits ? ' waits' : '');
}
function callLabels({ call, name, words, refused }) {
  const short = call.replace(/^(mq|sem)_/, '').replace('receive', 'recv').replace('trywait', 'try');
  const on = cut(name, 40), letter = short === 'setattr' ? 'A' : short[0].toUpperCase();
  if (refused) return [`${call} ${on} ${refused}`, `${short} ${on} ${refused}`, short + ' ' + refused, refused, '!'];
  const list = [call + ' ' + name, short + ' ' + name, short, letter];
  if (!words || words.length === 0) return list;
  const body = quoted(words) || numbers(words);
  return [`${call} ${name} ${body}`, `${short} ${name} ${body}`, short + ' ' + body, ...list];
}
function labels(e, fits) {
  if (e.ends) return ['ends ' + e.ends, e.ends, 'X'];
  return e.output ? [e.what, cut('"' + shown(e.output) + '"', Math.max(fits, 3)), '"'] : callLabels(e);
}
function labelFor(e, fits) {
  const list = labels(e, fits), label = list.find(text => text.length <= fits) || list[list.length - 1];
  const isShort = list.indexOf(label) > list.length - 3;
  return e.name && fits > 11 && isShort && !e.refused ? cut(list[list.length - 3], fits) : label;
}

// ---- boxes, notes and arrows

function titled(title, inner, more) { return `<g${more || ''}><title>${esc(title)}</title>${inner}</g>`; }
function box(e) {
  const { box: w } = lay, x = midX(e.process), y = midY(e.k);
  const text = labelFor(e, fits(w - (w > 60 ? 10 : 3)));
  const round = /sem_(wait|post|trywait)/.test(e.call) ? 10 : e.call && !/mq_(send|receive)/.test(e.call) ? 3 : 0;
  const [first, ...places] = HAS_PLACES ? placesOf(e) : [''], place = places.find(text => text.length <= fits(w - 3));
  return titled(`step ${e.step}, P${e.process}: ${e.what}` + (first && `, at ${first}`),
    `<rect x="${x - w / 2}" y="${y - HALF}" width="${w}" height="${2 * HALF}" rx="${round}"/>` +
    label('', x, y + (place ? -3 : 4), text, 'middle') + (place ? label('', x, y + 11, place, 'middle') : ''),
    ` class="${kindOf(e)}" data-k="${e.k}"`);
}
const note = (x, y, text, kind) =>                // a small text on a plate
  bar('plain', x, y - 8, y + 7, text.length * CHAR + 6) + label(kind, x, y + 4, text, 'middle');
function trackX(a, room) {                        // where an arrow runs down
  const half = lay.box / 2, step = room > 60 ? 8 : room > 20 ? 5 : 2, most = Math.max(1, Math.floor((room - 18) / step));
  const off = room > 20 ? 13 + (a.track % most) * step : room / 2, from = R[a.from].process;
  if (from === R[a.to].process) return midX(from) + half + Math.min(room - 4, off);
  return a.left ? midX(a.gap) + half + off : midX(a.gap + 1) - half - off;
}
function link(a, kind, tip) {                     // from the box of a record to the box of a later one
  const from = R[a.from].process, to = R[a.to].process, half = lay.box / 2, isSame = from === to;
  const x = trackX(a, lay.lane - lay.box), ya = midY(a.from), yb = midY(a.to);
  const xa = midX(from) + (a.left ? -half : half), xb = midX(to) + (isSame || a.left ? half + 5 : -half - 5);
  const r = Math.min(5, Math.abs(x - xa)), out = a.left ? -r : r, into = isSame ? -r : out;
  return `<path class="${kind}" marker-end="url(#${tip})" data-from="${a.from}" data-to="${a.to}" ` +
    `d="M${xa},${ya} H${x - out} Q${x},${ya} ${x},${ya + r} V${yb - r} Q${x},${yb} ${x + into},${yb} H${xb}"/>`;
}

// ---- why a process waits for ever

function lacking({ p, k }) {                      // who has taken a semaphore that was made above 0, or has the object open
  const [, taken, open] = WAITS.find(([process]) => process === p), has = who => (who.length > 1 ? 'have' : 'has') + ' it';
  if (taken) return [takers(taken) || 'nobody', has(taken)];
  const use = { mq_receive: ' to send', mq_send: ' to receive' }[R[k].call] || '';
  return open.length ? [listOf(open), has(open) + ` open${use}, stuck too`] : ['nobody', 'else has it open' + use];
}
function circleText(circle) {                     // each of these waits for what the next has taken
  if (circle.length === 1) return `P${circle[0]} waits for a semaphore that it has taken itself.`;
  const list = [...circle, circle[0]].map(p => 'P' + p).join(' -> ');
  return 'In a circle: ' + list + '. Each waits for a semaphore that the next has taken.';
}
