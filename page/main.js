// The page: which design, die and revision is shown, and what is told of it.

import { $, Refusal, element, grouped, revisionsOf } from './desk.js';
import { Candidates } from './candidates.js';
import { FailMap } from './failmap.js';
import { Logs } from './logs.js';
import { Report } from './report.js';
import { Signoffs } from './signoffs.js';
import { Strip } from './strip.js';
import { Uploads } from './uploads.js';

const logs = new Logs();
const candidates = new Candidates((candidate) => guard(showMap(candidate)));
const failMap = new FailMap(logs, (candidate) => candidates.focus(candidate));
const strip = new Strip(candidates);
const signoffs = new Signoffs(candidates);
new Uploads(logs, (come) => guard(showUploaded(come)));

let report = null;

// What goes wrong is told at the top.
async function guard(work) {
  $('refusal').hidden = true;
  try {
    return await work;
  } catch (error) {
    const words = error instanceof Refusal ? `${await error.sentence()} (${error.words || 'no answer'})` : `The page failed: ${error.message}`;
    $('refusal').textContent = words;
    $('refusal').hidden = false;
    $('told').textContent = '';
    return null;
  }
}
addEventListener('unhandledrejection', (event) => guard(Promise.reject(event.reason)));

// The address of the page names what it shows: #DESIGN/DIE or #DESIGN/DIE/REVISION.
function named() {
  const [design = '', die = '', revision = ''] = location.hash.slice(1).split('/');
  return { design, die, revision: Number(revision) || null };
}

function go(design, die, revision) {
  const hash = `#${design}/${die}${revision ? `/${revision}` : ''}`;
  if (location.hash === hash) guard(show());
  else location.hash = hash;
}

function hideAll() {
  for (const id of ['report', 'candidates', 'sign']) $(id).hidden = true;
  failMap.hide();
}

let opening = 0;

async function show() {
  const { design, die, revision } = named();
  if (!design || !die) return;
  opening += 1;
  const turn = opening;
  [$('design').value, $('die').value] = [design, die];
  $('told').textContent = 'reading ..';
  hideAll();
  const many = await revisionsOf(design, die);
  const opened = await Report.open(design, die, revision ?? many);
  // Another one was asked for meanwhile.
  if (turn !== opening) return;
  report = opened;
  tellHead(many);
  await candidates.show(report);
  $('told').textContent = '';
  await Promise.all([strip.show(report), signoffs.show(report)]);
}

function tellHead(many) {
  document.title = `${report.die} of ${report.design}: scandesk`;
  $('report').hidden = false;
  $('report-title').textContent = `Report of die ${report.die}, design ${report.design}`;
  $('revision').value = report.revision;
  $('latest').textContent = `of ${grouped(many)}: over the first ${report.revision === 1 ? 'log' : `${grouped(report.revision)} logs`}`;
  const classes = [['Failing', 'failing', report.failing], ['Passing', 'passing', report.passing],
    ['Conflict', 'conflict', report.conflicts], ['Masked', 'masked', report.masked]];
  $('bar').replaceChildren(...classes.map(([, name, count]) => {
    const part = element('div', { class: name, 'data-count': count });
    part.style.flexGrow = count;
    return part;
  }));
  const pair = (name, count, ...sign) => element('div', null, element('dt', null, ...sign, name), element('dd', null, grouped(count)));
  $('numbers').replaceChildren(...classes.map(([name, style, count]) => pair(name, count, element('i', { class: style, 'aria-hidden': 'true' }))),
    pair('Candidates', report.candidates));
}

async function showMap(candidate) {
  await failMap.show(report, candidate);
  candidates.current(candidate);
  $('map-title').focus();
}

// A log that came is shown at once, but the report that is being read isn't taken away.
async function showUploaded({ design, die }) {
  if (!die) {
    $('design').value = design;
    return;
  }
  const many = await revisionsOf(design, die);
  const isShown = report && report.design === design && report.die === die;
  if (!isShown) go(design, die);
  else if (many > report.revision) $('latest').replaceChildren(`of ${many}. A new log came: show revision ${many} for it.`);
  if (isShown && failMap.candidate) await failMap.show(report, failMap.candidate);
}

$('open').addEventListener('submit', (event) => {
  event.preventDefault();
  go($('design').value, $('die').value);
});
$('revisions').addEventListener('submit', (event) => {
  event.preventDefault();
  go(report.design, report.die, Number($('revision').value));
});
addEventListener('hashchange', () => guard(show()));
guard(show());
