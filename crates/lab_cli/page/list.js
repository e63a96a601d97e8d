// ---- the list of ends

const several = (n, one, more) => `${n.toLocaleString('en')} ${n === 1 ? one : more}`;
const isTry = ([, , , event]) => event && event[3][0] === 'call' && event[3][5] === null;  // the first one of a call that waits
function countsText(calls, moments) {             // the calls, as the picture counts them, and the tries apart
  const waits = moments.filter(isTry).length;
  return several(calls - waits, 'call', 'calls') + (waits ? ', ' + several(waits, 'wait', 'waits') : '');
}
function endItem([calls, { schedule, moments, outcome: [verdict, , , outputs] }], k) {
  const counts = countsText(calls, moments) + ', ' + several(schedule.length - 1, 'switch', 'switches');
  const texts = outputs.map((bytes, p) => bytes.length > 0 ? `P${p} "${shown(bytes)}"` : '');
  const written = texts.filter(text => text).join(', ') || 'no output';
  return `<li><button type="button" id="end${k + 1}" class="${verdict}" data-to="end=${k + 1}">End ${k + 1}: ${verdict}</button> ` +
    `${counts}<span class="part mono">${esc(written)}</span></li>`;
}
function reasonText([, worlds, , mostWorlds, mostSteps, mostMemory, isRefused, isFirst]) {  // why not all was visited
  const steps = several(mostSteps, 'step', 'steps') + ' of a process without a call';
  const memory = several(Math.floor(mostMemory / 1048576), 'megabyte', 'megabytes');
  if (isRefused) return 'then memory was refused';
  if (isFirst) return 'and the search ended with what was found';
  return 'and a limit was met: ' + (worlds >= mostWorlds ? several(mostWorlds, 'world', 'worlds') : `${steps}, or ${memory}`);
}
function extentText(extent) {
  const [complete, worlds] = extent, visited = several(worlds, 'world', 'worlds');
  if (complete) return `complete: ${visited} visited, and there is no ${DATA.ends.length ? 'other ' : ''}end`;
  return `incomplete: ${visited} visited, ${reasonText(extent)}. There may be other ends`;
}
function restText(count) {
  return `${several(count, 'more end isn\'t', 'more ends aren\'t')} shown: a page has ${MOST_ENDS} runs at most, with ` +
    `${MOST_END_BYTES.toLocaleString('en')} bytes of data. lc3lab explore prints them all`;
}
function noWorldsText([isComplete, , , most]) {   // why there is no picture
  const limit = Math.min(most, 2000).toLocaleString('en');
  const many = `there are more than ${limit}, if each order of calls is counted, or too much stands in them`;
  return `There is no picture of the worlds: ${isComplete ? many : 'not all of them are known'}.`;
}
// ---- what was asked

function otherText() {                            // what a run beside those to ends shows
  const shows = ([, , runs]) => runs.some(([kind, k]) => kind === 'run' && k === NUMBER - 1);
  const asked = DATA.asked.filter(shows).map(([text]) => visible(text)).join(', ');
  return (asked && `${asked} not met, `) + (ROUND_AT === null ? `run ${NUMBER}` : 'a run that never ends');
}
function wayTo([kind, k]) {
  const isRound = kind === 'run' && DATA.endless && DATA.endless[2] === k;
  const text = kind === 'end' ? 'End ' + (k + 1) : isRound ? 'the run that never ends' : 'the run that shows it';
  return `<button type="button" class="way" data-to="${kind}=${k + 1}">${text}</button>`;
}
function askedItem([text, answer, runs]) {
  const [said, fault] = answer.split(': ');
  const kind = { met: 'met', 'not met': 'unmet', empty: 'unmet' }[said] || 'unknown', mark = { met: '\u2713', unmet: '\u2717' }[kind] || '?';
  const limit = DATA.extent[0] ? 'its own search, over all worlds at calls, met a limit'
    : `the search is incomplete, ${reasonText(DATA.extent).replace(/^(and|then) /, '')}`, open = kind === 'unknown' ? ': ' + limit : '';
  const none = said === 'not met' && !runs.length ? ': no room for the run, lc3lab explore --schedule bad prints it' : '';
  const why = fault ? `: ${visible(fault)}` : open + none;
  return `<li class="${kind}"><strong>${mark} ${said}</strong> <code>${esc(visible(text))}</code>${esc(why)} ` +
    `${runs.map(wayTo).join(' ')}</li>`;
}
function fillAsked() {
  const { asked, endless } = DATA, countOf = wanted => asked.filter(([, answer]) => answer.split(': ')[0] === wanted).length;
  const worst = ['not met', 'empty', 'not known'].find(countOf);
  $('asked').hidden = asked.length === 0;
  $('askedtitle').textContent = `What was asked: ${worst ? `${countOf(worst)} of ${asked.length} ${worst}` : 'all met'}`;
  $('askedlist').innerHTML = asked.map(askedItem).join('');
  $('openround').innerHTML = endless && endless[2] !== null ? wayTo(['run', endless[2]]) : '';
  on('ends', 'click', event => { const way = event.target.closest('[data-to]'); if (way) location.hash = withGame(way.dataset.to); });
}
function fillEnds() {
  const { ends, endless, extent } = DATA, [, , count] = extent, rest = count - ends.length;
  $('endstitle').textContent = `lc3lab explore: ${programs()}, ${several(count, 'end', 'ends')}`;
  document.title = $('endstitle').textContent;
  $('programs').textContent = NAMES.map((name, p) => `P${p} ${name}`).join(', ');
  $('extent').textContent = extentText(extent) + '.';
  $('endlist').innerHTML = ends.map(endItem).join('');
  $('rest').hidden = rest === 0; $('rest').textContent = restText(rest) + '.';
  $('endless').hidden = !endless;
  if (endless) { [$('before').textContent, $('round').textContent] = endless.slice(0, 2).map(printed); }
  fillAsked();
  if (WORLD_MAP) fillWorlds(); else $('ends').insertAdjacentHTML('beforeend', `<p id="noworlds">${noWorldsText(extent)}</p>`);
}
function showEnds() {                             // the list, or the way back to it
  history.scrollRestoration = 'manual';
  $('back').hidden = isList; $('ends').hidden = !isList;
  fillBeside();
  on('back', 'click', () => { location.hash = withGame('list=' + SHOWN); });
  if (!isList) return;
  document.body.classList.add('list');
  fillEnds();
  const ways = [...document.querySelectorAll('[data-to]')];
  ways.findLast(way => location.hash.split('&play=')[0] === '#list=' + way.dataset.to)?.focus();
}
