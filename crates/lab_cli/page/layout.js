// ---- where things stand

let lay = null, isTold = false;                   // on a phone the calls stand beside the lanes after a tap on a head
const CHAR = 6.65;                                // the width of a character of the picture
const limited = (least, value, most) => Math.max(least, Math.min(value, most));

const laneWidth = room => Math.floor(limited(N > 32 ? 17 : N > 4 ? 26 : 66, room / N, 290));
const betweenBoxes = lane =>                      // arrows need more room between the boxes
  arrows.length + wakes.length + kept.length ? limited(8, lane * .36, 120) : limited(6, lane * .06 + (lane - 200) * .5, 60);
const levelLength = ({ value, who }) => [value, who].filter(part => part).join(' ').length;
function layout() {
  const seen = $('left').clientWidth, room = Math.max(320, seen - 2);
  const num = Math.max(40, String(STEPS).length * CHAR + 18);
  const most = seen > 640 ? 14 : 9, columnText = c => Math.max(c.name.length, ...c.at.map(levelLength));
  const colW = cols.map(c => Math.max(50, Math.min(c.kind === 'queue' ? columnText(c) + 2 : c.name.length, most) * CHAR + 10));
  const colsW = colW.reduce((a, b) => a + b, 0) + 12, isNarrow = N > 4 && (room - num - colsW) / N < 74;
  const text = isNarrow && (seen > 480 || isTold) ? 236 : 0, lane = laneWidth(room - num - text - colsW), x0 = num + text, colX = [];
  let x = x0 + lane * N + 12, spare = room - x - colsW + 12;
  cols.forEach((c, i) => {                        // what is left over shows more of the queues
    const more = c.kind === 'queue' ? limited(0, spare, 220) : 0;
    colW[i] += more; spare -= more;
    colX.push(x); x += colW[i];
  });
  lay = { seen, num, text, lane, x0, colX, colW, box: lane - betweenBoxes(lane), width: Math.ceil(x) };
  route();
}
function route() {                                // each arrow runs down a track of its own between two lanes
  const used = {};
  for (const a of [...arrows, ...wakes].sort((x, y) => x.from - y.from || x.to - y.to)) {
    const from = R[a.from].process, to = R[a.to].process;
    a.left = to < from; a.gap = a.left ? from - 1 : from; a.track = 0;
    const tracks = used[a.gap + (a.left ? 'l' : 'r')] ??= [];
    while (tracks[a.track] !== undefined && tracks[a.track] > rowOf[a.from]) a.track++;
    tracks[a.track] = rowOf[a.to];
  }
}
const midX = p => lay.x0 + lay.lane * (p + .5);
const midY = k => rows[rowOf[k]].y + EVENT / 2;
const bottom = () => height + 30;
const full = () => height + FOOT;

const rowIndex = y => Math.max(0, lastIndex(rows, row => row.y <= y));
const rowAt = y => rows[rowIndex(y)];
