// ---- the picture of all worlds

const WORLD_X = 36, WORLD_Y = 52, WORLD_R = 10;   // between worlds, and the half of one
function inLayers(nodes, edges) {                 // for each number of calls the worlds, near to those that lead there
  const layers = [], place = nodes.map(() => 0), before = nodes.map(() => []);
  for (const { from, to } of edges) if (nodes[from].after < nodes[to].after) before[to].push(from);
  nodes.forEach((node, n) => (layers[node.after] ??= []).push(n));
  const mean = n => before[n].reduce((sum, m) => sum + place[m], 0) / Math.max(1, before[n].length);
  for (const layer of layers) {
    const wanted = new Map(layer.map(n => [n, mean(n)]));
    layer.sort((m, n) => wanted.get(m) - wanted.get(n) || m - n);
    layer.forEach((n, i) => { place[n] = i - (layer.length - 1) / 2; });
  }
  return { layers, place };
}
function wayBetween([x, y], [u, v]) {             // down to the next layer; else around the side
  const gap = WORLD_R + 4;
  if (v > y) return `M${x},${y + WORLD_R} C${x},${y + 28} ${u},${v - 30} ${u},${v - gap}`;
  if (u === x && v === y) return `M${x + WORLD_R},${y - 4} c24,-16 24,24 3,10`;
  const side = Math.max(x, u) + 26;
  return `M${x + WORLD_R},${y} C${side},${y} ${side},${v} ${u + gap},${v}`;
}
const endOfWorld = ({ end }) => end !== null && end < DATA.ends.length ? end : -1;
const shapeOf = verdict => verdict === 'stuck' ? '<path class="shape" d="M0,-12 L12,0 L0,12 L-12,0 Z"/>'
  : verdict === 'ended' ? '<rect class="shape" x="-10" y="-10" width="20" height="20" rx="2"/>'
    : verdict === 'doom' ? '<path class="shape" d="M0,-8 L8,0 L0,8 L-8,0 Z"/>'
      : `<circle class="shape" r="7"/>${verdict === 'both' ? '<path class="half" d="M0,-7 a7,7 0 0 0 0,14 z"/>' : ''}`;
const standingText = ({ pc, state, text }, p) => `P${p} ${state} at ${hex(pc)}, ${visible(text)}`;
function worldText(node, n) {                     // in words
  const after = `World ${n + 1}, after ${several(node.after, 'call', 'calls')}`, end = endOfWorld(node);
  const rests = node.verdict ? `, ${end < 0 ? 'an end' : 'end ' + (end + 1)}: ${node.verdict}` : '';
  return `${after}${rests}. ${node.processes.map(standingText).join('; ')}.`;
}
function callsText(edges, n) {                    // where its calls lead, in words
  const led = edges.filter(({ from }) => from === n).map(({ to, process }) => `P${process} to world ${to + 1}`);
  return led.length ? ` Calls: ${led.join(', ')}.` : '';
}
function worldShape(node, n, [x, y]) {
  const end = endOfWorld(node), name = esc(worldText(node, n)), text = end < 0 ? '' : label('', 0, 4, end + 1, 'middle');
  return `<g class="world ${kindOfWorld(n)}" id="world${n + 1}" data-n="${n}" tabindex="-1" role="img" aria-label="${name}" ` +
    `transform="translate(${x},${y})"><title>${name}</title><circle class="ring" r="${WORLD_R + 5}"/>${shapeOf(kindOfWorld(n))}${text}</g>`;
}
function callShape({ from, to, process }, k, spots) {
  const way = wayBetween(spots[from], spots[to]), isBack = spots[to][1] <= spots[from][1];
  return `<path class="call${isBack ? ' back' : ''}" data-k="${k}" d="${way}" marker-end="url(#tipc)">` +
    `<title>P${process}, from world ${from + 1} to world ${to + 1}</title></path>`;
}
const kindShape = (verdict, text) => `<li><svg width="28" height="28" viewBox="-14 -14 28 28" aria-hidden="true">` +
  `<g class="world ${verdict}">${shapeOf(verdict)}</g></svg>${text}</li>`;
function countText(count) {                       // why there are more worlds than were visited
  const [, visited] = DATA.extent;
  if (visited === count) return '';
  return `The search visited ${visited.toLocaleString('en')} of them: where the order of calls makes no difference, it takes one.`;
}
function fewestCalls(n, isGoal) {                 // a way of fewest calls from a world to one that is a goal, or none
  const { nodes, edges } = WORLD_MAP, by = new Map([[n, null]]), leads = nodes.map(() => []), way = [];
  edges.forEach(({ from }, k) => leads[from].push(k));
  for (const [m] of by) {
    if (isGoal(m)) {
      for (let k = by.get(m); k !== null; k = by.get(edges[k].from)) way.unshift(k);
      return way;
    }
    for (const k of leads[m]) if (!by.has(edges[k].to)) by.set(edges[k].to, k);
  }
  return null;
}
const callsTo = n => fewestCalls(0, m => m === n);
function paintWay(n, way, plan) {                 // the calls that led to a world stand out, and those that are to come
  const { edges } = WORLD_MAP, ways = new Set(way), plans = new Set(plan);
  const seen = new Set([n, ...way.map(k => edges[k].from), ...plan.map(k => edges[k].to)]);
  for (const path of document.querySelectorAll('#map .call')) {
    const k = Number(path.dataset.k), isPlan = plans.has(k), isWay = ways.has(k) && !isPlan, leads = edges[k].from === n;
    for (const [kind, isSo] of Object.entries({ plan: isPlan, way: isWay, leads })) path.classList.toggle(kind, isSo);
    path.setAttribute('marker-end', `url(#${isPlan ? 'tipp' : isWay ? 'tipx' : leads ? 'tipl' : 'tipc'})`);
    if (isWay || isPlan) path.parentNode.append(path);
  }
  for (const g of document.querySelectorAll('#map .world')) g.classList.toggle('way', seen.has(Number(g.dataset.n)));
}
const leftText = n => KINDS[kindOfWorld(n)]().replace(/^./, c => c.toUpperCase()) + '.';
const inWords = (node, n) => worldText(node, n) + (node.verdict ? '' : ' ' + leftText(n)) + callsText(WORLD_MAP.edges, n);
const tellWorld = n => { $('worldsay').textContent = inWords(WORLD_MAP.nodes[n], n); };
function chooseWorld(n, way = callsTo(n), plan = []) {  // the one that Tab reaches, and the way to it
  const old = document.querySelector('#map [tabindex="0"]'), now = $('world' + (n + 1));
  if (old) { old.setAttribute('tabindex', -1); old.classList.remove('chosen'); }
  now.setAttribute('tabindex', 0); now.classList.add('chosen');
  paintWay(n, way, plan);
}
function nextWorld(key, n, layers) {              // where a key leads
  const { nodes, edges } = WORLD_MAP, layer = layers[nodes[n].after], at = layer.indexOf(n);
  const down = edges.find(({ from, to }) => from === n && nodes[to].after > nodes[n].after), up = edges[callsTo(n).pop()];
  return { ArrowLeft: layer[at - 1], ArrowRight: layer[at + 1], Home: 0, ArrowDown: down?.to, ArrowUp: up?.from }[key];
}
function lookAt(n) { if (!isPlaying()) chooseWorld(n); }  // in a game the picture is that of its world
function openWorld(n) {                           // in a game it goes on to there, if a call leads there; else an end opens
  const end = endOfWorld(WORLD_MAP.nodes[n]), call = isPlaying() && WORLD_MAP.edges.find(({ from, to }) => from === worldNow() && to === n);
  if (call) press(call.process); else if (end >= 0 && !isPlaying()) location.hash = withGame('end=' + (end + 1));
}
function followMap(layers) {                      // pointer and keys
  onPart('map', 'mouseover', 'n', tellWorld);
  onPart('map', 'focusin', 'n', n => { lookAt(n); tellWorld(n); });
  onPart('map', 'click', 'n', n => { lookAt(n); tellWorld(n); openWorld(n); });
  onPart('map', 'keydown', 'n', (n, event) => {
    const next = nextWorld(event.key, n, layers);
    if (event.key === 'Enter') openWorld(n);
    if (next !== undefined) { $('world' + (next + 1)).focus(); event.preventDefault(); }
  });
}
function followEnds() {                           // the way to an end stands out while the list is at it
  const worldAt = k => Math.max(0, WORLD_MAP.nodes.findIndex(node => node.end === k));
  DATA.ends.forEach((_, k) => { $('end' + (k + 1)).dataset.n = worldAt(k); });
  for (const kind of ['mouseover', 'focusin']) onPart('endlist', kind, 'n', lookAt);
  chooseWorld(worldAt(0));
}
function fillWorlds() {
  const { nodes, edges } = WORLD_MAP;
  const { layers, place } = inLayers(nodes, edges), most = Math.max(...layers.map(layer => layer.length));
  const width = most * WORLD_X + 80, height = layers.length * WORLD_Y + 10;
  const spots = nodes.map((node, n) => [width / 2 + place[n] * WORLD_X, WORLD_Y / 2 + 5 + node.after * WORLD_Y]);
  const tips = ['tipc', 'tipl', 'tipp', 'tipx'].map(kind => marker(kind, 6)).join('');
  $('worlds').hidden = false;
  $('worldstitle').textContent = `All ${several(nodes.length, 'world', 'worlds')}, and ${several(edges.length, 'call', 'calls')}`;
  const ways = edges.map((edge, k) => callShape(edge, k, spots)).join('');
  const worlds = nodes.map((node, n) => worldShape(node, n, spots[n])).join('');
  $('map').innerHTML = `<svg width="${width}" height="${height}" viewBox="0 0 ${width} ${height}"><defs>${tips}</defs>` +
    `<g aria-hidden="true">${ways}</g>${worlds}</svg>`;
  const countOf = kind => nodes.filter((_, n) => kindOfWorld(n) === kind).length, there = Object.keys(KINDS).filter(countOf);
  $('worldkinds').innerHTML = there.map(kind => kindShape(kind, `${KINDS[kind]()} (${countOf(kind)})`)).join('');
  listTexts('worldlist', nodes.map(inWords));
  $('worldcount').textContent = countText(nodes.length);
  followMap(layers); followEnds(); fillPlay();
}
