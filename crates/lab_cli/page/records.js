const DATA = JSON.parse($('data').textContent);    // of a run, or of ends, of which the address may name one
const RUNS = { end: DATA.ends || [], run: DATA.runs || [] };  // those to ends, and the runs beside them
function shownIn(address) {                       // the kind and the number of the run that it names, where there is one
  const [, kind, number] = /^#(end|run)=(\d+)/.exec(address) || [];
  return kind && RUNS[kind][number - 1] ? [kind, Number(number)] : [];
}
const [KIND, NUMBER] = shownIn(location.hash), SHOWN = KIND ? `${KIND}=${NUMBER}` : '';
function besideIn(address) {                      // the end that it names beside the one that is shown
  const n = Number((/&beside=(\d+)/.exec(address) || [])[1]);
  return KIND === 'end' && n !== NUMBER && RUNS.end[n - 1] ? n : 0;
}
const BESIDE = besideIn(location.hash);
let gameText = (/[#&]play=([\d.]*)/.exec(location.hash) || [null, null])[1];  // who went on in the game, which every address keeps
const withGame = address => '#' + [address, gameText === null ? '' : 'play=' + gameText].filter(part => part).join('&');
const isList = DATA.ends !== undefined && !KIND, N = DATA.processes.length;
const NO_STEPS = [DATA.processes.map(() => [0, 'Z', [], 0, []])];
const NO_RUN = { schedule: [], whole: true, moments: NO_STEPS, outcome: ['open', '', '', [], [], [], [], [], [], []] };
const [LED, D, STORES] = DATA.run ? [0, DATA.run, DATA.stores] : KIND ? RUNS[KIND][NUMBER - 1] : [0, NO_RUN, []];
const [starts, ...moments] = D.moments;
const [VERDICT, STANDS, REPORT, , LAST, HELD, UNRECEIVED, WAITS, CIRCLES, TEXTS] = D.outcome;
const STEPS = D.schedule.reduce((sum, [, count]) => sum + count, 0);
const ROUND = KIND === 'run' && LED < STEPS ? LED : null;    // how many steps lead to the round, where it has one
const NAMES = DATA.processes.map(([name]) => visible(name).replace(/\t/g, '\\x09')), PROCESSES = [...NAMES.keys()];

// ---- what stands in the arrays

const textOf = new Map(TEXTS.map(entry => [entry[0], entry]));  // of each word the word, its text, and its call
const stateOf = ([pc, cc, registers, first, words]) => ({ pc, cc, registers, first, code: words.map(w => textOf.get(w)) });
function objectOf([kind, place, name, waiters, ...rest]) {
  const [value, made, taken] = rest, [most, size, messages] = rest, known = { place, name, waiters };
  if (kind === 'gone') return null;
  return kind === 'sem' ? { kind, ...known, value, made, taken } : { kind: 'queue', ...known, most, size, messages };
}
function didOf([what, ...rest]) {                 // ends, output or call
  if (what !== 'call') return { [what]: rest[0] };
  const [call, on, name, answer, result, words, origin, giver] = rest, refused = typeof result === 'string' ? result : '';
  return { call, on, name, answer, result, words, origin, giver, refused, waits: result === null };
}

// ---- each process after its moments, each object after its changes

const isEvent = e => e.what !== undefined;
function lastIndex(list, isSo) {                  // of the last element that is so, where those before it are so too
  let low = -1, high = list.length - 1;
  while (low < high) {
    const middle = (low + high + 1) >> 1;
    if (isSo(list[middle])) low = middle; else high = middle - 1;
  }
  return low;
}
const latest = (list, k) => list[lastIndex(list, it => it.k < k)];
const lives = starts.map((state, process) =>
  [{ ...stateOf(state), process, k: -1, state: 'running', written: '', open: [] }]);
const places = [];                                // of each place its objects, null where one is gone
const objectAt = (place, k) => places[place] ? latest(places[place], k).object : null;
const R = moments.map(([step, process, state, event, between], k) => {
  const was = lives[process][lives[process].length - 1], { written, open } = was;
  const e = { ...stateOf(state), k, step, process, state: 'running', from: was.pc, written, open };
  lives[process].push(e);
  if (!event) return e;
  const [from, head, what, did, objects, opened, over] = event;
  const changed = objects.filter(([isChanged]) => isChanged).map(([, [, place]]) => place);
  for (const [, object] of objects) (places[object[1]] ??= [{ k: -1, object: null }]).push({ k, object: objectOf(object) });
  Object.assign(e, { from, head, what, changed, over, between, open: opened || open }, didOf(did));
  e.state = e.ends ? 'ended' : e.waits ? 'waiting' : 'running';
  if (e.output) e.written += shown(e.output);
  return e;
});
const EVENTS = R.filter(isEvent);
const processAt = (p, k) => latest(lives[p], k);
const wasOf = e => processAt(e.process, e.k);     // its process before it
const takers = taken =>
  taken.map(([p, count, hasEnded]) => 'P' + p + (count > 1 ? '*' + count : '') + (hasEnded ? '(ended)' : '')).join(' ');
