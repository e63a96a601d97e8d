// ---- the round of a run that never ends: its steps lead from a world to it again, or to one alike

const ROUND_AT = ROUND === null ? null : R.filter(e => e.step <= ROUND).length;  // the moment before its first step
let rounds = 1;                                   // how often it was begun
function inRound(k) {                             // behind its last step stands its first one again, and before that the last
  const isOver = k > R.length, isBefore = k < ROUND_AT && rounds > 1;
  if (ROUND_AT === null || !isOver && !isBefore) return k;
  rounds += isOver ? 1 : -1;
  return isOver ? ROUND_AT + 1 : R.length - 1;
}
const roundText = () => ROUND_AT !== null && cur > ROUND_AT ? `, round ${rounds}` : '';
const ROUND_ROW = 24;                             // the height of its name
let roundTop = null;
function addRound(k) {                            // before the event of a record, where that is its first one
  if (ROUND_AT === null || roundTop !== null || k < ROUND_AT) return;
  roundTop = height;
  rows.push({ y: height, between: [] });
  height += ROUND_ROW;
}
function roundMark() {                            // a bar beside its lanes, with an arrow up
  if (roundTop === null) return '';
  const x = lay.x0 - 3, top = roundTop + 4, text = 'the round, again and again', wide = text.length * CHAR + 8;
  const up = `<path class="roundtip" d="M${x - 4},${top + 8} L${x},${top} L${x + 4},${top + 8} z"/>`;
  const name = lay.x0 + wide < lay.width ? bar('plain', lay.x0 + 4 + wide / 2, top, top + 16, wide) +
    label('round', lay.x0 + 8, top + 12, text) : '';
  const title = 'the round: these steps lead to this world again, or to one alike, as often as one likes';
  return '<g class="gut">' + titled(title, bar('roundbar', x, top + 4, height, 4) + up) + '</g>' + name;
}
