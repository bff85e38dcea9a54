// The table of candidates: a page of them, faults with equal counts together.

import { $, element, grouped } from './desk.js';
import { PAGE, isAlike, isNext, keyOf, nameTest } from './report.js';

// What the filters ask for; none where they are empty.
function wanted() {
  const kind = $('kind').value;
  const name = $('net').value.trim();
  if (!kind && !name) return null;
  const isName = nameTest(name);
  return (candidate) => (!kind || candidate.kind === kind) && (!name || candidate.nets.some(isName));
}

export class Candidates {
  // `choose` is told the candidate whose fail map is asked for.
  constructor(choose) {
    this.choose = choose;
    this.report = null;
    this.marked = new Set();
    $('back').addEventListener('click', () => this.turn(this.start - PAGE));
    $('on').addEventListener('click', () => this.turn(this.start + PAGE));
    $('filters').addEventListener('submit', (event) => {
      event.preventDefault();
      this.turn(0);
    });
    $('all').addEventListener('click', () => this.filterBy('', ''));
  }

  filterBy(kind, net) {
    $('kind').value = kind;
    $('net').value = net;
    return this.turn(0);
  }

  show(report) {
    this.report = report;
    this.marked = new Set();
    $('candidates').hidden = false;
    return this.filterBy('', '');
  }

  // Shows the page that begins behind so many of the candidates that are asked for.
  async turn(start) {
    this.asking?.abort();
    const asking = new AbortController();
    this.asking = asking;
    const options = { signal: asking.signal };
    $('where').textContent = 'reading ..';
    try {
      const test = wanted();
      const page = test ? await this.report.filtered(test, start, options) : await this.page(start, options);
      if (this.asking !== asking) return;
      this.start = start;
      this.isFiltered = Boolean(test);
      this.lay(page);
    } catch (error) {
      if (error.name === 'AbortError') return;
      $('where').textContent = '';
      throw error;
    }
  }

  // A page without filters. Only its first and last group can go on beyond it.
  async page(start, options) {
    const found = this.report.candidates;
    if (found === 0) return { shown: [], found, bounds: new Map() };
    const shown = await this.report.from(start + 1, options);
    const bounds = new Map();
    for (const candidate of shown) {
      const key = keyOf(candidate);
      bounds.set(key, [bounds.get(key)?.[0] ?? candidate.rank, candidate.rank]);
    }
    const [first, last] = [shown[0], shown.at(-1)];
    bounds.get(keyOf(first))[0] = await this.report.firstAlike(first, options);
    bounds.get(keyOf(last))[1] = await this.report.lastAlike(last, options);
    return { shown, found, bounds };
  }

  // How many candidates a page without filters has here.
  due() {
    return Math.min(PAGE, this.report.candidates - this.start);
  }

  lay({ shown, found, bounds }) {
    const { isFiltered } = this;
    const table = $('table');
    for (const body of [...table.tBodies]) body.remove();
    const greatest = Math.max(1, ...shown.map((candidate) => candidate.tpsf));
    let before = null;
    let body = null;
    for (const candidate of shown) {
      if (!before || !isAlike(before, candidate)) {
        body = this.group(candidate, bounds.get(keyOf(candidate)));
        table.append(body);
      }
      body.append(this.row(candidate, greatest));
      before = candidate;
    }
    const last = this.start + shown.length;
    $('where').textContent = shown.length === 0 ? (isFiltered ? 'none of them' : 'no candidates')
      : `${grouped(this.start + 1)} to ${grouped(last)} of ${grouped(found)}${isFiltered ? ` that fit, ${grouped(this.report.candidates)} in all` : ''}`;
    $('back').disabled = this.start === 0;
    $('on').disabled = last >= found;
    this.tellOrder(shown);
    this.mark(this.marked);
  }

  // The lines of a page follow each other; where they don't, something changed them on their way.
  tellOrder(shown) {
    const isPage = shown.length === this.due() && shown.every((candidate, i) => candidate.rank === this.start + 1 + i)
      && shown.every((candidate, i) => i === 0 || isNext(shown[i - 1], candidate));
    const isRight = this.isFiltered || isPage;
    $('order').hidden = isRight;
    $('order').textContent = isRight ? '' : 'These lines are not those of a report: a line is missing, or two are exchanged. Something changed them on their way here.';
  }

  group(candidate, [first, last]) {
    const body = element('tbody');
    const size = last - first + 1;
    if (size > 1) {
      body.className = 'alike';
      const told = `Ranks ${grouped(first)} to ${grouped(last)}: ${grouped(size)} faults with equal counts, which these logs don't tell apart`;
      body.append(element('tr', { class: 'group' }, element('th', { colspan: 7, scope: 'rowgroup' }, told)));
    }
    return body;
  }

  row(candidate, greatest) {
    const open = element('button', { type: 'button', 'aria-label': `${candidate.fault}, show its fail map` }, candidate.fault);
    open.addEventListener('click', () => this.choose(candidate));
    const nets = candidate.nets.flatMap((net, i) => [i ? ' ' : '', this.netButton(net)]);
    const row = element('tr', { 'data-place': candidate.place },
      element('th', { scope: 'row', class: 'number' }, String(candidate.rank)),
      element('td', null, open, element('span', { class: 'kind' }, candidate.words)),
      element('td', null, ...nets),
      this.count('tfsf', candidate.tfsf, this.report.failing),
      this.count('tfsp', candidate.tfsp, this.report.failing),
      this.count('tpsf', candidate.tpsf, greatest),
      element('td', { class: 'number' }, String(candidate.place)));
    return row;
  }

  netButton(net) {
    const button = element('button', { type: 'button', 'aria-label': `${net}, show the candidates of this net` }, net);
    button.addEventListener('click', () => this.filterBy('', net));
    return button;
  }

  count(name, count, all) {
    const bar = element('i', { class: name });
    bar.style.setProperty('--part', all ? count / all : 0);
    return element('td', null, element('div', { class: 'count' }, element('span', null, String(count)), bar));
  }

  // Marks the candidates of these places; answers how many of them are on the page.
  mark(places) {
    this.marked = places;
    let marked = 0;
    for (const row of $('table').querySelectorAll('tr[data-place]')) {
      const fits = places.has(Number(row.dataset.place));
      row.classList.toggle('fits', fits);
      row.querySelector('.unseen')?.remove();
      if (fits) {
        row.cells[0].append(element('span', { class: 'unseen' }, ' fits the pattern'));
        marked += 1;
      }
    }
    return marked;
  }

  // The row whose fail map is shown.
  current(candidate) {
    for (const row of $('table').querySelectorAll('tr[data-place]')) {
      if (Number(row.dataset.place) === candidate.place) row.setAttribute('aria-current', 'true');
      else row.removeAttribute('aria-current');
    }
  }

  focus(candidate) {
    const row = $('table').querySelector(`tr[data-place="${candidate.place}"]`);
    (row?.querySelector('button') ?? $('candidates-title')).focus();
  }

  // What stands in the rows, as lines of a report.
  shownLines() {
    return [...$('table').querySelectorAll('tr[data-place]')].map((row) => {
      const said = (cell) => row.cells[cell].querySelector('.count span').textContent;
      const rank = row.cells[0].firstChild.textContent;
      const fault = row.cells[1].querySelector('button').textContent;
      return `candidate ${rank} fault ${row.cells[6].textContent} tfsf ${said(3)} tfsp ${said(4)} tpsf ${said(5)} ${fault}`;
    });
  }
}
