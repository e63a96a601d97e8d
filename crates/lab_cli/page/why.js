// ---- what a run came to, in a sentence

const OUTCOME = ROUND_AT === null ? VERDICT : 'never ends', MOST_TOLD = 6;
const inList = texts => texts.length < 2 ? texts.join('') : texts.slice(0, -1).join(', ') + ' and ' + texts[texts.length - 1];
const namesOf = list => inList([...list.slice(0, list.length > MOST_TOLD ? 2 : MOST_TOLD).map(p => 'P' + p),
  ...list.length > MOST_TOLD ? [`${list.length - 2} more`] : []]);
const atEnd = (...states) => PROCESSES.filter(p => states.includes(processAt(p, R.length).state));
function waitText({ p, k, name }, i) {            // what a process waits for for ever, and who has it
  const { call, on } = R[k], object = objectAt(on, R.length), [, taken, open] = WAITS.find(([process]) => process === p);
  const has = list => list.length > 1 ? 'have' : 'has', use = { mq_receive: ' to send', mq_send: ' to receive' }[call] || '';
  if (taken && taken.length) return `P${p} ${i ? '' : 'waits '}for ${name}, which ${inList(taken.map(it => takers([it])))} ${has(taken)}`;
  const level = object.kind === 'sem' ? 'is at 0' : object.messages.length ? 'is full' : 'is empty';
  const others = open.length ? `${namesOf(open)} ${has(open)} it open${use}, stuck too` : `nobody else has it open${use}`;
  return `P${p} waits in ${call} on ${name}, which ${level}; ${others}`;
}
function stuckText() {                            // those of a circle first, in its order
  const order = [...CIRCLES.flat(), ...PROCESSES], list = waits.filter(w => w.end === null);
  const told = list.sort((a, b) => order.indexOf(a.p) - order.indexOf(b.p)).map(waitText);
  return told.length > MOST_TOLD ? `${told.slice(0, 2).join('; ')}; and ${told.length - 2} more` : told.join('; ');
}
function endedText() {
  const wrote = PROCESSES.map(p => processAt(p, R.length)).filter(({ written }) => written);
  return wrote.map(({ process, written }) => `P${process} prints "${cut(written, 60)}"`).join(', ') || 'nothing is printed';
}
function roundSentence() {                        // who goes on in it, and who doesn't
  const goes = [...new Set(R.slice(ROUND_AT).map(e => e.process))].sort((p, q) => p - q);
  const [left, waiting] = ['running', 'waiting'].map(state => namesOf(atEnd(state).filter(p => !goes.includes(p))));
  return `${namesOf(goes)} can go round for ever` + (left && `, ${left} could go on and never has a turn`) +
    (waiting && `, ${waiting} waits`);
}
const SENTENCES = {
  stuck: ['Stuck', stuckText], ended: ['Ended', endedText], 'never ends': ['Never ends', roundSentence],
  open: ['Not over', () => `the schedule ends here, and ${namesOf(atEnd('running')) || 'one that waits'} could go on`],
};

// ---- the call from which it could come to nothing else

const callName = e => e.ends ? `P${e.process} ends` : `P${e.process} ${e.call}(${e.name})`;
function callPlace(e) {
  const line = sourceAt(wasOf(e), e.from);
  return callName(e) + (line ? `, line ${line.at + 1}` : '');
}
function whenText() {                             // until when something else was left
  if (DECIDED) {
    const { at, text, others } = DECIDED;
    if (at === 0) return VERDICT === 'stuck' ? 'No order of calls avoids it.' : 'Every order of calls comes to this.';
    if (at < 0) return `All through this run ${othersText(others)}.`;
    const until = at === 1 ? 'At the start' : `Until call ${at - 1}`, always = VERDICT === 'stuck' && text !== 'stuck';
    return (always ? 'Every order of calls gets stuck. ' : '') +
      `${until} ${othersText(others)}. The call that ${text === 'stuck' ? 'made it too late' : 'decided it'}: `;
  }
  if (KIND === 'end' || KIND && ROUND_AT !== null) return 'Until which call something else could come isn\'t known. ' +
    noWorldsText(DATA.extent);
  return VERDICT === 'stuck' ? 'Whether it can be avoided, and until which call, is on the page of lc3lab explore --page.' : '';
}
function fillWhy() {
  const [word, textOf] = SENTENCES[OUTCOME];
  $('sentence').innerHTML = `<em>${word}:</em> ${esc(textOf())}.`;
  $('why').className = OUTCOME.split(' ')[0];
  $('when').innerHTML = esc(whenText()) + (DECIDING ? `<strong>call ${DECIDED.at}, ${esc(callPlace(DECIDING))}</strong>.` : '');
  const playAfter = calls => {                    // of the run
    gameText = COUNTED.slice(0, calls).map(e => e.process).join(N > 10 ? '.' : '');
    location.hash = withGame('');
  };
  for (const id of ['there', 'playfrom', 'tick']) $(id).hidden = !DECIDING;
  $('playon').hidden = !DECIDED;
  on('playon', 'click', () => playAfter(COUNTED.filter(e => e.k < cur).length));
  if (!DECIDING) return;
  $('tick').style.left = `calc(8px + (100% - 16px) * ${(DECIDING.k + 1) / R.length})`;
  on('there', 'click', () => go(DECIDING.k + 1));
  on('playfrom', 'click', () => playAfter(DECIDED.at - 1));
}
