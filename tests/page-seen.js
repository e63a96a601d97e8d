// What tests/browser reads from a page of `trace --page`: the elements as they stand, and not the page's data.
const seen = (() => {
  const shown = e => e.innerText.replace(/\s+/g, ' ').trim();
  const list = (root, selector) => [...root.querySelectorAll(selector)];
  const slider = document.getElementById('slider');
  function go(k) {
    slider.value = k;
    slider.dispatchEvent(new Event('input'));
  }

  // ---- the panel

  function actor() {
    const acts = document.querySelector('details.card.acts');
    if (!acts) return { acts: null };
    if (!acts.open) throw new Error('the card of the process that acts is closed');
    return {
      acts: Number(acts.id.slice(4)),
      regs: list(acts, '.regs > span').map(shown),
      marked: list(acts, '.regs .changed').map(e => shown(e.parentElement)),
      code: list(acts, '.code > span').map(shown),
      isSource: acts.querySelector('.source') !== null,
      output: shown(acts.querySelector('.output')),
      variables: list(acts, '.variable').map(e => [shown(e.querySelector('i')), shown(e.querySelector('.variable > span')), e.querySelector('.changed') !== null]),
      held: list(acts, '.held').map(shown),
    };
  }
  function moment() {
    return {
      count: shown(document.getElementById('count')),
      said: shown(document.getElementById('say')),
      whole: document.getElementById('short').hidden,
      procs: list(document, 'details.card > summary > .mono').map(shown),
      why: list(document, 'details.card > summary').map(e => e.querySelector('.why') ? shown(e.querySelector('.why')) : ''),
      sems: list(document, '#sems tr').slice(1).map(r => [...r.children].slice(0, 2).map(shown).join(' ')),
      taken: list(document, '#sems tr').slice(1).map(r => [shown(r.children[0]), shown(r.children[2])]),
      mqs: list(document, '#mqs .queue').map(q => [shown(q).split(',')[0], list(q, 'li').map(shown)]),
      ...actor(),
    };
  }
  function moments(every) {
    const found = [], last = Number(slider.max);
    for (let k = 0; k <= last; k += k < last ? Math.min(every, last - k) : 1) { go(k); found.push(moment()); }
    return found;
  }

  // ---- the picture, all of it

  const titleOf = e => e.parentElement.querySelector('title').textContent;
  function place(rect) {
    const [x, y, wide, tall] = ['x', 'y', 'width', 'height'].map(name => Number(rect.getAttribute(name)));
    return { middle: Math.round(x + wide / 2), top: y, end: y + tall };
  }
  function picture() {
    window.dispatchEvent(new Event('beforeprint'));
    const boxes = list(document, '#pic g.ev').map(g => ({ k: g.dataset.k, title: g.querySelector('title').textContent,
      step: Number(/^step (\d+),/.exec(g.querySelector('title').textContent)[1]), ...place(g.querySelector('rect')) }));
    const stepOf = test => { const found = boxes.find(test); return found ? found.step : null; };
    const wait = bar => {                         // its text, and the steps of the boxes at its two ends
      const { middle, top, end } = place(bar), isThere = b => Math.abs(b.middle - middle) <= 1;
      return [titleOf(bar), stepOf(b => isThere(b) && b.end === top), stepOf(b => isThere(b) && b.top === end)];
    };
    const steps = new Map(boxes.map(b => [(b.top + b.end) / 2, b.step])), stepAt = y => steps.has(y) ? steps.get(y) : null;
    const taken = bar => [titleOf(bar), stepAt(place(bar).top), stepAt(place(bar).end)];
    const level = dot => {                        // the kind and the name of an object, its level, and the step
      const [name, what, value] = titleOf(dot).split(/ |,/), text = dot.parentElement.querySelector('text').textContent;
      const isSem = dot.matches('.holds'), shown = isSem ? `${what} ${value}` : text.split(/[ \u2026]/)[0];
      return [isSem ? 'sem' : 'mq', name, shown, stepAt(Number(dot.getAttribute('cy')))];
    };
    const isGap = title => /^P\d+: \d+ (local steps|steps without effect)$/.test(title.textContent);
    const gap = title => {                        // its text, and the step of the box below it
      const { y } = title.parentElement.getBBox();
      return [title.textContent, stepOf(b => b.top > y)];
    };
    const ends = a => [stepOf(b => b.k === a.dataset.from), stepOf(b => b.k === a.dataset.to)];
    const found = {
      boxes: boxes.map(b => b.title),
      between: list(document, '#pic g > title').filter(isGap).map(gap),
      waits: list(document, '#pic rect.waitbar').map(wait),
      arrows: list(document, '#pic path.arrow[data-from]').map(ends),
      wakes: list(document, '#pic path.wake[data-from]').map(ends),
      unreceived: list(document, '#pic circle.kept').length,
      levels: list(document, '#pic circle:not(.kept)').map(level),
      taken: list(document, '#pic rect.holds').map(taken),
      stuck: list(document, '#pic rect.stuckbar').map(titleOf),
      labels: list(document, '#pic g.ev').map(g => g.querySelector('text').textContent),
    };
    window.dispatchEvent(new Event('afterprint'));
    return found;
  }

  // ---- what is cut, or lies on something else

  const nameOf = e => e.tagName + (e.id ? '#' + e.id : '') + ' ' + (e.textContent || '').trim().slice(0, 40);
  const boxesOf = elements => elements.flatMap(e => e instanceof SVGElement
    ? [[e, e.getBoundingClientRect()]] : [...e.getClientRects()].map(box => [e, box]));
  function isScrolledAway(e) {                    // out of the source that holds it
    const source = e.closest('.source'), [a, b] = source ? [source, e].map(it => it.getBoundingClientRect()) : [];
    return source !== null && (b.top < a.top || b.bottom > a.bottom || b.left < a.left || b.right > a.right);
  }
  function leaves(part) {                         // the elements of a part of the page that hold a text and no element
    const isLeaf = e => e instanceof HTMLElement && e.textContent.trim() && !e.children.length;
    return list(part, '*').filter(e => isLeaf(e) && e.checkVisibility() && !isScrolledAway(e));
  }
  function spills(part) {                         // what stands outside of a part that doesn't scroll
    const { left, right, top, bottom } = part.getBoundingClientRect();
    const isOutside = b => b.left < left - 1 || b.right > right + 1 || b.top < top - 1 || b.bottom > bottom + 1;
    return boxesOf(leaves(part)).filter(([, b]) => isOutside(b)).map(([e]) => 'outside of its part: ' + nameOf(e));
  }
  function overlaps(what, elements, slack) {
    const bad = [], found = boxesOf(elements);
    found.forEach(([a, p], i) => found.slice(i + 1).forEach(([b, q]) => {
      const isBeside = p.left >= q.right - slack || q.left >= p.right - slack;
      if (!isBeside && p.top < q.bottom - slack && q.top < p.bottom - slack) {
        bad.push(what + ': ' + nameOf(a) + ' lies on ' + nameOf(b));
      }
    }));
    return bad;
  }
  function cutElements() {
    const scrolls = e => /auto|scroll/.test(getComputedStyle(e).overflowX);
    const html = list(document, 'body *').filter(e => e instanceof HTMLElement && e.clientWidth);
    const bad = html.filter(e => e.scrollWidth > e.clientWidth + 1 && !scrolls(e)).map(e => 'cut: ' + nameOf(e));
    const { left } = document.getElementById('left').getBoundingClientRect();
    for (const e of list(document, '#atend')) {
      if (e.getBoundingClientRect().left < left) bad.push('scrolled away: ' + nameOf(e));
    }
    for (const g of list(document, '#pic g.ev, #show g.ev')) {
      const [r, t] = [g.querySelector('rect'), g.querySelector('text')].map(e => e.getBBox());
      if (t.width > r.width + 1) bad.push('a text is wider than its box: ' + nameOf(g));
    }
    for (const svg of list(document, '#head, #pic, #show')) {
      for (const t of list(svg, 'text')) {
        const b = t.getBBox();
        if (b.x < -1 || b.x + b.width > Number(svg.getAttribute('width')) + 1) bad.push('beyond the picture: ' + nameOf(t));
      }
    }
    return bad;
  }
  function spoilt() {
    const isStill = document.getElementById('left').scrollLeft === 0, texts = list(document, '#pic text');
    return [
      ...(document.documentElement.scrollWidth > innerWidth ? ['the page is wider than the window'] : []),
      ...overlaps('controls', list(document, 'header > *, .controls > *'), 1),
      ...overlaps('chips', list(document, '#show g.ev > rect'), 1),
      ...overlaps('words of the stage', list(document, '#show text, #pairs text'), 2),
      ...overlaps('who waits for whom', list(document, '#relations circle, #relations rect'), 1),
      ...overlaps('parts', scrollY === 0 ? list(document, 'header, main, .bottom') : [], 1),
      ...overlaps('panel', list(document, '#objects, details.card'), document.getElementById('procs').scrollTop ? 1e9 : 1),
      ...overlaps('registers', list(document, '.regs > span'), 1),
      ...overlaps('boxes', list(document, '#pic g.ev > rect'), 1),
      ...overlaps('worlds', list(document, '#map .shape'), 1),
      ...overlaps('texts', isStill ? texts : texts.filter(t => !t.closest('.gut')), 2),
      ...list(document, 'header, #objects, #procs, .bottom').flatMap(part => overlaps('words', leaves(part), 3)),
      ...list(document, 'header, details.card').flatMap(spills),
      ...cutElements(),
    ];
  }
  function open(isOpen) {
    for (const e of list(document, '.bottom > details')) e.open = isOpen;
  }

  // ---- how long a step takes, in milliseconds

  function pace(steps) {
    const last = Number(slider.max), from = performance.now();
    for (let i = 0; i < steps; i++) { go(Math.floor(last * i / steps / 2) * 2 + i % 2); document.body.getBoundingClientRect(); }
    return (performance.now() - from) / steps;
  }

  // ---- the list of the lines, names, focus, and what is printed

  const items = () => list(document, '#lines > li').map(e => e.textContent);
  const current = () => list(document, '#lines > [aria-current=step]').map(e => e.textContent);
  const heads = () => list(document, '#head .who title').map(e => e.textContent);
  function isMarked() {                           // whether one sees where the focus is
    const { outlineStyle, outlineWidth } = getComputedStyle(document.activeElement);
    return document.activeElement === document.body || outlineStyle !== 'none' && parseFloat(outlineWidth) >= 2;
  }
  function foreign() {                            // elements and handlers that the template doesn't have
    const scripts = document.querySelectorAll('script').length, acts = a => a.name.startsWith('on');
    const handlers = list(document, '*').filter(e => [...e.attributes].some(acts));
    const found = [...list(document, 'body b, body img'), ...handlers];
    const told = found.map(e => 'a text has become ' + e.outerHTML.slice(0, 60));
    return scripts === 2 ? told : [...told, scripts + ' scripts'];
  }
  function printed() {                            // what paper would lack
    window.dispatchEvent(new Event('beforeprint'));
    const isLarger = e => e.scrollHeight > e.clientHeight + 1 || e.scrollWidth > e.clientWidth + 1;
    const html = list(document, 'main *, .bottom *').filter(e => e instanceof HTMLElement && e.clientWidth);
    const bad = html.filter(e => isLarger(e) && getComputedStyle(e).overflowY !== 'visible');
    const shut = list(document, '.bottom > details:not([open])');
    const hidden = list(document, '#lines > li').filter(e => !e.offsetHeight);
    const boxes = document.querySelectorAll('#pic g.ev').length;
    window.dispatchEvent(new Event('afterprint'));
    return { cut: [...bad, ...shut, ...hidden].map(nameOf), boxes };
  }

  // ---- contrast (WCAG 2.2, 1.4.3 and 1.4.11)

  const parts = color => (color.match(/[\d.]+/g) || []).map(Number);
  const isClear = color => color === 'none' || !color.startsWith('rgb') || parts(color)[3] === 0;
  function luminance(color) {
    const [r, g, b] = color.map(v => v / 255).map(v => v <= .04045 ? v / 12.92 : ((v + .055) / 1.055) ** 2.4);
    return .2126 * r + .7152 * g + .0722 * b;
  }
  function ratio(one, other) {
    const [low, high] = [luminance(one), luminance(other)].sort((a, b) => a - b);
    return (high + .05) / (low + .05);
  }
  function behind(e) {                            // the colour on which an element stands
    const box = e instanceof SVGElement && e.closest('.ev, .sem, .mq, .obj, .out, .bad, .end, .band, .node, .row');
    if (box) return parts(getComputedStyle(box.querySelector('rect, circle')).fill).slice(0, 3);
    for (let at = e; at; at = at.parentElement) {
      const { backgroundColor } = getComputedStyle(at);
      if (!isClear(backgroundColor)) return parts(backgroundColor).slice(0, 3);
    }
    return [255, 255, 255];
  }
  function later(e, color) {                      // the colour below the present moment, where it has a tint
    const tint = document.querySelector('#now .future'), style = tint && getComputedStyle(tint);
    if (!e.closest('#pic') || !style || style.display === 'none') return color;
    const over = parts(style.fill), share = Number(style.opacity);
    return color.map((value, i) => value * (1 - share) + over[i] * share);
  }
  function faint() {                              // what is too near to the colour behind it
    const bad = new Set();
    const check = (e, color, least, what, ground) => {
      if (isClear(color)) return;
      const found = [x => x, x => later(e, x)].map(tint => ratio(tint(parts(color).slice(0, 3)), tint(ground)));
      if (Math.min(...found) < least) bad.add(`${what}: ${color} on ${ground}: ${Math.min(...found).toFixed(2)}`);
    };
    const hasText = e => [...e.childNodes].some(node => node.nodeType === 3 && node.data.trim());
    const isSeen = e => hasText(e) && e.checkVisibility() && !/^(SCRIPT|title)$/.test(e.tagName);
    for (const e of list(document, 'body *').filter(isSeen)) {
      const { color, fill } = getComputedStyle(e);
      check(e, e instanceof SVGElement ? fill : color, 4.5, 'text', behind(e));
    }
    const ground = parts(getComputedStyle(document.body).backgroundColor).slice(0, 3);
    const drawn = '.life, .ran, .tried, .arrow, .wake, .nowline, .cross, .stuckbar, .waitbar, .ev > rect, .kept';
    const pic = document.getElementById('pic'), buttons = list(document, 'button, select');
    for (const e of list(pic, drawn)) check(e, getComputedStyle(e).stroke, 3, 'line', ground);
    const map = document.getElementById('map');
    for (const e of map ? list(map, '.call, .shape') : []) check(e, getComputedStyle(e).stroke, 3, 'line', behind(map));
    for (const e of list(pic, '.holds')) check(e, getComputedStyle(e).fill, 3, 'bar', ground);
    for (const e of buttons) check(e, getComputedStyle(e).borderTopColor, 3, 'border', behind(e.parentElement));
    return [...bad];
  }
  return { go, moment, moments, picture, spoilt, open, pace, items, current, heads, isMarked, foreign, printed, faint };
})();
