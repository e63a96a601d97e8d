// ---- the present moment in the picture

function markCurrent(whole, part) {               // the part that is the current one
  const old = $(whole).querySelector('[aria-current]');
  if (old) old.removeAttribute('aria-current');
  if (part) part.setAttribute('aria-current', 'step');
}
function markNow() {                              // its line, and its box
  const y = cur === R.length ? height : posY[cur];
  $('now').setAttribute('transform', `translate(0,${y})`);
  $('now').firstChild.setAttribute('height', cur === R.length ? 0 : full());
  markCurrent('pic', document.querySelector(`#pic g.ev[data-k="${cur - 1}"]`));
  return y;
}
function mark() {                                 // it comes into view
  const y = markNow(), view = $('left'), inner = view.clientHeight - 60;
  const isSeen = y >= view.scrollTop + 30 && y <= view.scrollTop + inner - 30;
  if (!isSeen) view.scrollTop = cur === R.length ? full() : Math.max(0, y - inner * .6);
  const x = cur > 0 ? midX(R[cur - 1].process) : 0, half = lay.lane / 2, left = view.scrollLeft;
  const isBeside = x - half < left + lay.x0 || x + half > left + view.clientWidth;
  if (isBeside) view.scrollLeft = Math.max(0, x - (view.clientWidth + lay.x0) / 2);
  keepGutter(); paintNear();
}

// ---- going to a moment

function say(e, step) {
  const did = e && `${e.step} P${e.process} ${hex(e.from)} ${isEvent(e) ? e.what : didText(e)}`;
  const what = e ? did + (step > e.step ? ', then steps without effect' : '') : 'nothing has been done yet';
  $('say').textContent = what;
  $('count').textContent = `step ${step} of ${STEPS}` + roundText();
  $('calls').textContent = `call ${COUNTED.filter(it => it.k < cur).length} of ${COUNTED.length},`;
  $('slider').value = cur;
  $('slider').setAttribute('aria-valuetext', `step ${step} of ${STEPS}, ${what}`);
}
function keepAddress(text) {
  try { history.replaceState(null, '', text); } catch { /* no history there */ }
}
function go(k, isAddressed) {
  cur = limited(0, k, R.length);
  if (cur < ROUND_AT) rounds = 1;
  const e = cur ? R[cur - 1] : null, step = cur === R.length && D.whole ? STEPS : e ? e.step : 0;
  say(e, step); showObjects(e);
  if (!isList && !BESIDE) { markStage(); showRing(); showHere(e); }
  if ($('details').open && lay) { panel(e); mark(); }
  markCurrent('lines', $('lines').children[lastIndex(EVENTS, it => it.k < cur)]);
  if (!isAddressed && !isList && !BESIDE) keepAddress(withGame((SHOWN && SHOWN + '&') + 'step=' + step));
}
function goToEvent(direction, p) {                // to the next event, of process p where one is named
  const isWanted = e => isEvent(e) && (p === undefined || e.process === p);
  let k = inRound(cur + direction);
  while (k > 0 && k < R.length && !isWanted(R[k - 1])) k = inRound(k + direction);
  go(k);
}
function play(isOn) {
  clearTimeout(timer); timer = null;
  $('play').textContent = isOn ? 'Pause' : 'Play';
  $('say').setAttribute('aria-live', isOn ? 'off' : 'polite');
  if (!isOn) return;
  if (cur === R.length && ROUND_AT === null) go(0);
  const tick = () => {
    go(inRound(cur + 1));
    if (cur === R.length && ROUND_AT === null) play(false); else timer = setTimeout(tick, isEvent(R[cur - 1]) ? 700 : 110);
  };
  timer = setTimeout(tick, 300);
}
function goToAddress() {                          // #step=12, or #end=2&step=12 or #run=1&step=12 where there are ends
  const found = /^#(?:(?:end|run)=\d+&)?step=(\d+)(?:&|$)/.exec(location.hash);
  const after = found ? R.findIndex(e => e.step > Number(found[1])) : VERDICT === 'stuck' ? -1 : 0;  // else what went wrong
  go(after < 0 ? R.length : after, found !== null);
}
const chosen = () => Number($('who').value);
function choose(p) {
  $('who').value = p;
  for (const g of document.querySelectorAll('#head .who')) g.classList.toggle('chosen', g.dataset.p === $('who').value);
}

// ---- keys, buttons, the slider, clicks, windows

const KEYS = {
  ArrowLeft: () => go(inRound(cur - 1)), ArrowRight: () => go(inRound(cur + 1)), Home: () => go(0), End: () => go(R.length),
  ArrowUp: () => goToEvent(-1), ArrowDown: () => goToEvent(1),
  'Shift ArrowUp': () => goToEvent(-1, chosen()), 'Shift ArrowDown': () => goToEvent(1, chosen()),
};
const pressed = key => { play(false); KEYS[key](); };
const playOrPause = () => play(timer === null);
function keyAct({ target, key, shiftKey }) {      // what a key does, where it does something
  const name = (shiftKey ? 'Shift ' : '') + key, isText = target.tagName === 'SELECT' || target.closest('.text');
  if (isText) return null;
  if (isList) return isPlaying() && /^\d$/.test(key) && key < N ? () => press(Number(key)) : null;
  if (key === ' ') return /^(BUTTON|SUMMARY)$/.test(target.tagName) ? null : playOrPause;
  return KEYS[name] ? () => pressed(name) : null;
}
document.addEventListener('keydown', event => {
  const act = event.ctrlKey || event.altKey || event.metaKey ? null : keyAct(event);
  if (act) { act(); event.preventDefault(); }
});
const on = (id, kind, act) => $(id).addEventListener(kind, act);
function onPart(id, kind, name, act) {            // on a part within, by its number
  on(id, kind, event => { const part = event.target.closest(`[data-${name}]`); if (part) act(Number(part.dataset[name]), event); });
}
for (const { id, dataset } of document.querySelectorAll('[data-key]')) on(id, 'click', () => pressed(dataset.key));
on('play', 'click', playOrPause);
on('who', 'change', () => choose(chosen()));
onPart('head', 'click', 'p', p => { choose(p); isTold = !isTold; draw(); });
on('slider', 'input', event => { play(false); go(Number(event.target.value)); });
onPart('pic', 'click', 'k', k => { play(false); go(k + 1); });
onPart('show', 'click', 'k', k => { play(false); go(k + 1); });
on('shot', 'scroll', () => { markStage(true); });
on('lecture', 'click', () => {
  $('lecture').setAttribute('aria-pressed', document.body.classList.toggle('lecture'));
  set.width = 0; markStage();
});
on('details', 'toggle', () => { if ($('details').open) { draw(); go(cur, true); } });
on('left', 'scroll', () => { keepGutter(); paintNear(); });
let resized = null;
function redraw() {
  if (!isList && !BESIDE) markStage();
  if (!$('details').open) return;
  if (lay && $('left').clientWidth === lay.seen) paintNear(); else draw();
}
const sizes = new ResizeObserver(() => { clearTimeout(resized); resized = setTimeout(redraw, 120); });
for (const id of ['left', 'shot']) sizes.observe($(id));
window.addEventListener('hashchange', () => {     // to another end the page is opened anew
  if (shownIn(location.hash).join('=') !== SHOWN || besideIn(location.hash) !== BESIDE) location.reload();
  else if (isList) readGame(); else goToAddress();
});
let closed = [];                                  // what is open on paper alone
window.addEventListener('beforeprint', () => {
  closed = [...document.querySelectorAll('#details:not([open]), .bottom > details:not([open])')];
  for (const details of closed) details.open = true;
  layout(); drawHead(); panel(cur ? R[cur - 1] : null);
  paint(0, full());
});
window.addEventListener('afterprint', () => {
  for (const details of closed.splice(0)) details.open = false;
  if ($('details').open) draw();
});
