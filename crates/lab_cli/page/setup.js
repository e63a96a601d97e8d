// ---- title and controls

const programs = () => N === 1 ? NAMES[0] : N + ' processes';
const printed = blocks => blocks.map(([p, count]) => p + '*' + count).join(' ');
function fillTitle() {
  const part = KIND === 'end' ? `lc3lab explore, end ${NUMBER}` : KIND ? `lc3lab explore, ${otherText()}` : 'lc3lab trace';
  const title = part + ': ' + programs();
  document.title = title + ', ' + OUTCOME;
  $('title').textContent = title;
  $('verdict').textContent = ROUND_AT === null ? 'verdict ' + VERDICT : OUTCOME; $('verdict').className = VERDICT;
  $('slider').max = R.length;
  $('who').innerHTML = PROCESSES.map(p => `<option value="${p}">P${p}</option>`).join('');
  $('short').hidden = D.whole;
  $('short').textContent = `Calls, output and ends only: the schedule has ${STEPS} steps, and a page has every step of ` +
    `${MOST_WHOLE.toLocaleString('en')} at most. What a process did between them is seen at its next one.`;
}
function fillCards() {
  $('procs').innerHTML = PROCESSES.map(p =>
    `<details class="card" id="card${p}"><summary data-p="${p}"></summary><div></div></details>`).join('');
  onPart('procs', 'click', 'p', p => { pinned.set(p, !$('card' + p).open); setTimeout(() => go(cur), 0); });
}

// ---- legend

const sampleBox = (kind, round, text) =>
  `<g class="${kind}"><rect x="2" y="2" width="54" height="20" rx="${round}"/>${label('', 29, 16, text, 'middle')}</g>`;
const sampleArrow = (kind, tip) => `<path class="${kind}" marker-end="url(#${tip})" d="M2,5 C30,5 20,19 48,19"/>`;
const LEGEND = [
  [sampleBox('sem', 10, 'wait'), 'semaphore: wait, try, post (W T P)'],
  [sampleBox('mq', 0, 'send'), 'queue: send, receive (S R)'],
  [sampleBox('obj', 3, 'open'), 'open, close, unlink, get, set (O C U G A)'],
  [sampleBox('out', 0, '"1"'), 'console output'],
  [sampleBox('bad', 0, 'EAGAIN'), 'refused'],
  [sampleBox('end', 0, 'halt'), 'end of a process (X)'],
  [bar('waitbar', 28, 1, 23, 40), 'waits, for what is written'],
  [bar('holds', 29, 1, 23, 4), 'has taken a semaphore that was made above 0, and not posted it'],
  [sampleArrow('arrow', 'tipm'), 'a message, from its send to its receive'],
  ['<path class="arrow" d="M2,12 h30"/><circle class="kept" cx="36" cy="12" r="3.5"/>',
    'a message that nobody received'],
  [sampleArrow('wake', 'tipw'), 'the last post or receive before a waiting call went on'],
  [line('ran', 20, 20, 1, 23) + label('soft', 28, 16, '+9'), 'local steps'],
  [line('tried', 20, 20, 1, 23), 'idle: steps without effect'],
  ['<rect class="future" x="2" y="2" width="54" height="20"/>' + line('nowline', 2, 56, 2, 2),
    'the chosen moment, and what comes after it'],
  [bar('stuckbar', 29, 2, 22, 42) + '<path class="cross" d="M23,6 l12,12 m0,-12 l-12,12"/>',
    'waits for ever: deadlock, and who has taken it or has it open too'],
  [bar('roundbar', 28, 8, 24, 4) + '<path class="roundtip" d="M22,11 L28,2 L34,11 z"/>', 'the round of a run that never ends'],
];
function fillLegend() {
  $('legend').innerHTML = LEGEND.map(([inner, text]) =>
    `<li><svg width="58" height="24" aria-hidden="true">${inner}</svg>${text}</li>`).join('');
}

// ---- texts

function fillTexts() {
  const what = `interleaving of ${N} processes, ${STEPS} steps, verdict ${VERDICT}; the same as text below`;
  for (const id of ['pic', 'show']) $(id).setAttribute('aria-label', what);
  const told = EVENTS.map(e => e.head + e.what + placeNote(wasOf(e), e.from, e, e.what) + '\n');
  const lines = [...told, ...(STANDS_PLACED + REPORT_PLACED).match(/.*\n/g) || []];
  listTexts('lines', lines);
  $('plan').textContent = printed(D.schedule);
  $('atend').textContent = STANDS_PLACED + (VERDICT === 'stuck' ? CIRCLES.map(circleText).join('\n') : '');
}
fillTitle(); fillCards(); fillLegend(); fillTexts(); fillWhy();
choose(0); goToAddress();
if (DATA.ends) showEnds();
