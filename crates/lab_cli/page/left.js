// ---- all worlds, where the data have them

const tellingOf = ([number, pc, text, did]) => ({ number, pc, text, ...didOf(did) });
const legOf = ([steps, events]) => ({ steps, events: events.map(tellingOf) });
function mapIn([nodes, edges, legs]) {            // by names what stands in arrays
  const calls = edges.map(([from, to, process], k) => ({ from, to, process, ...legOf(legs[N + k]) }));
  const leading = new Set(edges.map(([from, , process]) => `${from} ${process}`));
  const stateIn = (n, p, hasEnded) => hasEnded ? 'ended' : leading.has(`${n} ${p}`) ? 'goes on' : 'waits';
  const worlds = nodes.map(([after, stands, verdict, end, outputs, objects], n) => {
    const processes = stands.map(([pc, word, hasEnded, text, place], p) => ({ pc, word, text, place, state: stateIn(n, p, hasEnded) }));
    return { after, processes, verdict, end, outputs, objects: objects.map(objectOf) };
  });
  return { nodes: worlds, edges: calls, starts: legs.slice(0, N).map((leg, process) => ({ process, ...legOf(leg) })) };
}
const WORLD_MAP = DATA.worlds ? mapIn(DATA.worlds) : null;

// ---- which ends some steps from a world lead to, and whether a round does: backwards over the arrows of the picture

const ROUND_BIT = 1n, bitOf = end => 1n << BigInt(end + 1);
function leftIn({ nodes, edges }) {               // of each world a bit for each end, and one for a round
  const left = nodes.map(({ end }) => end === null ? 0n : bitOf(end)), before = nodes.map(() => []), out = nodes.map(() => 0);
  for (const { from, to } of edges) { before[to].push(from); out[from]++; }
  const resting = nodes.map((_, n) => n).filter(n => out[n] === 0);
  for (const n of resting) for (const m of before[n]) if (--out[m] === 0) resting.push(m);
  out.forEach((count, n) => { if (count > 0) left[n] = ROUND_BIT; });  // from these some steps never come to rest
  const list = left.map((_, n) => n).filter(n => left[n]);
  for (const n of list) for (const m of before[n]) {
    if ((left[m] | left[n]) !== left[m]) { left[m] |= left[n]; list.push(m); }
  }
  return left;
}
const LEFT = WORLD_MAP && leftIn(WORLD_MAP);
function bitsOf(verdict) {                        // of the ends with a verdict
  const found = WORLD_MAP.nodes.filter(node => node.verdict === verdict);
  return found.reduce((bits, { end }) => bits | bitOf(end), 0n);
}
const ENDED = WORLD_MAP && bitsOf('ended'), IS_MIXED = WORLD_MAP && (LEFT[0] & ENDED) !== 0n && (LEFT[0] & ~ENDED) !== 0n;
function kindOfWorld(n) {                         // what can come from there
  const { verdict } = WORLD_MAP.nodes[n], bits = LEFT[n], isOne = (bits & (bits - 1n)) === 0n;
  if (verdict) return verdict;
  return !(IS_MIXED ? bits & ~ENDED : !isOne) ? 'free' : IS_MIXED && !(bits & ENDED) ? 'doom' : 'both';
}
const KINDS = {
  free: () => IS_MIXED ? 'from here all end, whatever comes' : 'from here one end is left',
  both: () => IS_MIXED ? 'here all can end, and can fail to' : 'here several ends are left',
  doom: () => 'from here not all can end', ended: () => 'an end: all have ended', stuck: () => 'an end: stuck',
};
const isCall = e => isEvent(e) && !e.waits && e.output === undefined;  // a call, or an end of a process
const COUNTED = EVENTS.filter(isCall);
const arrowOf = (n, p) => WORLD_MAP.edges.findIndex(({ from, process }) => from === n && process === p);
function followedBy(processes) {                  // the arrows along which they go on, up to the first that can't
  const found = [];
  let n = 0;
  for (const p of processes) {
    const k = arrowOf(n, p);
    if (k < 0) break;
    found.push(k); n = WORLD_MAP.edges[k].to;
  }
  return found;
}

// ---- from which call on a run could only come to what it came to

function goalBits(verdict, number) {              // of what it came to; its own end where nothing else tells ends apart
  if (ROUND_AT !== null) return [ROUND_BIT, 'never ends'];
  const alike = bitsOf(verdict), isAlone = (LEFT[0] & ~alike) === 0n;
  return isAlone ? [bitOf(number - 1), `end ${number}`] : [alike, verdict === 'stuck' ? 'stuck' : 'all end'];
}
function decidedIn(verdict, number, processes) {  // the number of the call, 0 where it was so from the start, and what else was left
  const [goal, text] = goalBits(verdict, number), way = followedBy(processes);
  const worlds = [0, ...way.map(k => WORLD_MAP.edges[k].to)], at = worlds.findIndex(n => (LEFT[n] & ~goal) === 0n);
  if (way.length < processes.length) return null;
  return { at, text, others: LEFT[worlds[Math.max(0, at < 0 ? way.length : at - 1)]] & ~goal };
}
const DECIDED = LEFT && (KIND === 'end' || ROUND_AT !== null) ? decidedIn(VERDICT, NUMBER, COUNTED.map(e => e.process)) : null;
const DECIDING = DECIDED && DECIDED.at > 0 ? COUNTED[DECIDED.at - 1] : null;  // the record of that call
function othersText(bits) {                       // what else could come
  if (bits & bitsOf(VERDICT)) return 'it could still come to another end';
  if (bits & bitsOf('ended')) return 'all could still end';
  return 'it could still ' + (bits & bitsOf('stuck') ? 'get stuck' : 'go on for ever');
}
