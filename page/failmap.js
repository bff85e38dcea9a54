// The fail map of a candidate: what it predicts over what the logs say, patterns by points.

import { $, element, grouped, text } from './desk.js';
import { lists, readLog, sawPass } from './logs.js';

const COLUMNS = 40;
const ROWS = 32;

// Each mark has a sign of its own beside its colour.
const MARKS = {
  hit: ['●', 'hit', 'predicted, and failed'],
  missed: ['○', 'missed', 'failed, and not predicted'],
  extra: ['✕', 'extra', 'predicted, and passed'],
  untold: ['·', 'not told', 'predicted, and no log here tells'],
  unsure: ['?', 'unsure', 'logs differ, or nothing was expected'],
};

// The mark of a bit; none where nothing failed and nothing is predicted.
function markOf(isPredicted, logs, unsure, point, pattern, order) {
  const isListed = logs.some((log) => lists(log, point, pattern));
  if ((isListed || isPredicted) && unsure.has(`${pattern} ${point}`)) return 'unsure';
  if (isListed) return isPredicted ? 'hit' : 'missed';
  if (!isPredicted) return null;
  return logs.some((log) => sawPass(log, point, pattern, order)) ? 'extra' : 'untold';
}

// The predicted fails of a pattern come in the order of the points, so they tell which of two
// points comes first. It is asked for the patterns in which a log was cut off.
function orderOf(predicted, logs) {
  const cut = new Set(logs.filter((log) => log.isCut).map((log) => String(log.lastFail)));
  const places = new Map();
  for (const line of cut.size ? predicted.split('\n') : []) {
    const words = line.split(' ');
    if (words[0] === 'fail' && cut.has(words[1])) places.set(words.slice(1).join(' '), places.size);
  }
  return (pattern) => (one, other) => {
    const [a, b] = [places.get(`${pattern} ${one}`), places.get(`${pattern} ${other}`)];
    return a === undefined || b === undefined ? undefined : a < b;
  };
}

// All marks: of each point its patterns, and how many there are of each kind.
export function marksOf(predicted, logs, unsure) {
  const order = orderOf(predicted, logs);
  const log = readLog(predicted);
  const points = new Map();
  const counts = { hit: 0, missed: 0, extra: 0, untold: 0, unsure: 0 };
  for (const name of new Set([log, ...logs].flatMap((one) => [...one.fails.keys()]))) {
    const row = new Map();
    const patterns = new Set([log, ...logs].flatMap((one) => [...one.fails.get(name) ?? []]));
    for (const pattern of patterns) {
      const mark = markOf(lists(log, name, pattern), logs, unsure, name, pattern, order(pattern));
      if (!mark) continue;
      row.set(pattern, mark);
      counts[mark] += 1;
    }
    points.set(name, row);
  }
  return { points, counts };
}

const byNumber = new Intl.Collator('en', { numeric: true }).compare;
const clamp = (number, least, most) => Math.max(least, Math.min(number, most));

export class FailMap {
  // `back` is told the candidate to which the reader goes back.
  constructor(logs, back) {
    this.logs = logs;
    const moves = { 'map-left': [-COLUMNS, 0], 'map-right': [COLUMNS, 0], 'map-up': [0, -ROWS], 'map-down': [0, ROWS] };
    for (const [id, [columns, rows]] of Object.entries(moves)) $(id).addEventListener('click', () => this.move(columns, rows));
    $('map-back').addEventListener('click', () => back(this.candidate));
  }

  hide() {
    this.asking?.abort();
    this.candidate = null;
    $('map').hidden = true;
  }

  async show(report, candidate) {
    this.asking?.abort();
    const asking = new AbortController();
    this.asking = asking;
    const options = { signal: asking.signal };
    try {
      const predicted = await text(`/designs/${report.design}/faults/${candidate.place}/fails`, options);
      const unsure = await report.unsure(options);
      if (this.asking !== asking) return;
      this.report = report;
      this.candidate = candidate;
      this.lay(predicted, unsure);
    } catch (error) {
      if (error.name !== 'AbortError') throw error;
    }
  }

  lay(predicted, unsure) {
    const { report, candidate } = this;
    const logs = this.logs.of(report.design, report.die, report.revision);
    const { points, counts } = marksOf(predicted, logs, unsure);
    this.points = [...points].sort(([one], [other]) => byNumber(one.replace(/^out/, ' '), other.replace(/^out/, ' ')));
    this.patterns = [...new Set(this.points.flatMap(([, row]) => [...row.keys()]))].sort((one, other) => one - other);
    this.column = 0;
    this.row = 0;
    $('map').hidden = false;
    $('map-title').textContent = `Fail map of rank ${candidate.rank}: ${candidate.fault}`;
    $('map-told').textContent = this.told(logs, counts);
    $('legend').replaceChildren(...Object.entries(MARKS).filter(([mark]) => counts[mark]).map(([mark, [sign, name, means]]) =>
      element('li', { 'data-mark': mark }, element('b', { class: `mark ${mark}`, 'aria-hidden': 'true' }, sign), ` ${name} ${grouped(counts[mark])}: ${means}`)));
    this.draw();
  }

  // The marks are counted and laid beside the counts of the report.
  told(logs, { hit, missed, extra, untold }) {
    const { report, candidate } = this;
    if (logs.length === 0) return 'No log of this die was dropped here since the page was opened, so this is only what the fault predicts. Drop the logs again: the desk knows them, and nothing is added.';
    const agrees = hit === candidate.tfsf && missed === candidate.tfsp && extra === candidate.tpsf;
    if (agrees) return 'Hit, missed and extra are as many as the report counts (TFSF, TFSP, TPSF).';
    if (logs.length < report.revision) return `Of the ${report.revision} logs of this revision ${logs.length} were dropped here, so hit, missed and extra aren't yet those of the report.`;
    return untold > 0 ? "The counts differ from the report's: where a log was cut off, the order of the points isn't known here."
      : "The counts differ from the report's.";
  }

  move(columns, rows) {
    this.column = clamp(this.column + columns, 0, this.patterns.length - 1);
    this.row = clamp(this.row + rows, 0, this.points.length - 1);
    this.draw();
  }

  draw() {
    const patterns = this.patterns.slice(this.column, this.column + COLUMNS);
    const points = this.points.slice(this.row, this.row + ROWS);
    const head = element('tr', null, element('th', { scope: 'col' }, 'point'), ...patterns.map((pattern) => element('th', { scope: 'col' }, String(pattern))));
    const rows = points.map(([name, row]) => element('tr', null, element('th', { scope: 'row' }, name), ...patterns.map((pattern) => this.cell(row.get(pattern)))));
    $('grid').replaceChildren(element('thead', null, head), element('tbody', null, ...rows));
    this.tellPlace(patterns, points);
  }

  cell(mark) {
    if (!mark) return element('td');
    const [sign, name] = MARKS[mark];
    return element('td', null, element('span', { class: `mark ${mark}`, role: 'img', 'aria-label': name, title: name }, sign));
  }

  tellPlace(patterns, points) {
    $('map-left').disabled = this.column === 0;
    $('map-right').disabled = this.column + COLUMNS >= this.patterns.length;
    $('map-up').disabled = this.row === 0;
    $('map-down').disabled = this.row + ROWS >= this.points.length;
    $('map-pages').hidden = this.patterns.length <= COLUMNS && this.points.length <= ROWS;
    $('map-where').textContent = `patterns ${this.column + 1} to ${this.column + patterns.length} of ${this.patterns.length} with a mark, `
      + `points ${this.row + 1} to ${this.row + points.length} of ${this.points.length}`;
  }
}
