// ---- who waits for whom at a moment: processes by their numbers, objects by their places behind them

function relationsAt(k) {
  const objects = places.map((_, place) => objectAt(place, k)).filter(object => object);
  const waiting = objects.flatMap(o => o.waiters.map(p => ({ from: p, to: N + o.place, name: nameOf(o), waits: true })));
  const having = objects.filter(o => o.made > 0).flatMap(o => o.taken.map(([p]) => ({ from: N + o.place, to: p, name: nameOf(o) })));
  return [...waiting, ...having];
}
function circleFrom(links, start) {               // the shortest way along them from a node to itself
  const by = new Map(), list = [start];
  for (const n of list) for (const { from, to } of links) {
    if (from !== n) continue;
    if (to === start) {
      const way = [n];
      while (by.has(way[0])) way.unshift(by.get(way[0]));
      return way;
    }
    if (!by.has(to)) { by.set(to, n); list.push(to); }
  }
  return [];
}
const relationText = ({ from, to, name, waits: isWait }) => isWait ? `P${from} waits for ${name}` : `${name} is taken by P${to}`;
const MOST_NODES = 36;
function spotsOf(circle, others) {                // those of a circle on a ring in its order, others outside of it
  const onRing = (list, radius, turn) => list.map((n, i) => {
    const angle = (i + turn) * 2 * Math.PI / list.length - Math.PI / 2;
    return [n, [150 + radius * Math.cos(angle), 135 + radius * Math.sin(angle)]];
  });
  const inner = circle.length ? onRing(circle, others.length ? 70 : 104, 0) : [];
  return new Map([...inner, ...onRing(others, circle.length ? 122 : 104, circle.length ? .5 : 0)]);
}
function drawLink({ from, to, waits: isWait }, spots, red, half) {
  const [[x, y], [u, v]] = [spots.get(from), spots.get(to)], long = Math.hypot(u - x, v - y) || 1;
  const [dx, dy] = [(u - x) / long, (v - y) / long];
  const off = n => n < N ? half : Math.min((half + 8) / Math.abs(dx || 1e-9), (half * .65) / Math.abs(dy || 1e-9));
  const [a, b] = [off(from) + 2, off(to) + 7];
  const isRed = red(from) && red(to), kind = 'link' + (isWait ? ' wants' : '') + (isRed ? ' red' : '');
  return `<path class="${kind}" marker-end="url(#tip${isRed ? 'b' : 'n'})" d="M${x + dx * a},${y + dy * a} L${u - dx * b},${v - dy * b}"/>`;
}
function drawNode(n, [x, y], isRed, half, names) {
  const w = 2 * half + 14, kind = isRed ? ' red' : '';
  if (n < N) return `<g class="node${kind}"><circle cx="${x}" cy="${y}" r="${half}"/>${label('b', x, y + 4, 'P' + n, 'middle')}</g>`;
  return `<g class="sem"><rect x="${x - w / 2}" y="${y - half * .65}" width="${w}" height="${half * 1.3}" rx="4"/>` +
    label('', x, y + 4, cut(names.get(n), fits(w - 2)), 'middle') + '</g>';
}
function showRing() {
  const links = relationsAt(cur), waiting = links.filter(l => l.waits).map(({ from }) => from).sort((p, q) => p - q);
  const circle = waiting.map(p => circleFrom(links, p)).find(way => way.length) || [], red = n => circle.includes(n);
  const all = [...new Set(links.flatMap(({ from, to }) => [from, to]))], others = all.filter(n => !red(n));
  const text = links.map(relationText).join('; ');
  const names = new Map(links.map(({ from, to, name }) => [Math.max(from, to), name]));
  const half = all.length > 24 ? 11 : all.length > 12 ? 15 : 20;
  const isDrawn = all.length > 0 && all.length <= MOST_NODES, spots = spotsOf(circle, others);
  $('relations').setAttribute('aria-label', text || 'nobody waits, and nothing is taken');
  $('relations').innerHTML = !isDrawn ? label('soft', 150, 135, text ? `${waiting.length} wait` : 'nobody waits', 'middle')
    : `<defs>${marker('tipn', 2)}${marker('tipb', 2)}</defs>` +
    links.map(link => drawLink(link, spots, red, half)).join('') + all.map(n => drawNode(n, spots.get(n), red(n), half, names)).join('') +
    (circle.length ? label('red', 150, 139, circle.length > 2 ? `a circle of ${circle.length / 2}` : 'itself', 'middle') : '');
  $('relationkey').textContent = isDrawn || !text ? 'dashed: waits for \u00B7 solid: is taken by' : cut(text, 600);
}

// ---- the line of the source that was taken

const AROUND = 3;
function showHere(e) {                            // the lines around it, with all of their comments
  const p = e ? wasOf(e) : processAt(0, 0), at = e ? e.from : p.pc, line = sourceAt(p, at);
  const lines = line ? SOURCES[p.process].lines.slice(Math.max(0, line.at - AROUND), line.at + AROUND) : [];
  $('heretitle').textContent = line ? `P${p.process}, line ${line.at + 1} of ${NAMES[p.process].split('=')[0]}`
    : `P${p.process} at ${hex(at)}`;
  $('here').innerHTML = line ? lines.map(it => codeLine(it === line, String(it.at + 1).padStart(3), nearComment(it.text))).join('')
    : codeLines({ ...p, pc: at });
}
