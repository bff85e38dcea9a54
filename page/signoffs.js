// Sign-offs: the digest of the bytes that are shown is made here, and the desk compares it with
// that of its report.

import { $, Refusal, ask, dieAt, element, isRule, revisionsOf, signoffsOf, text } from './desk.js';

// So many of the last sign-offs are listed.
const LISTED = 20;
const LF = 10;

async function digestOf(bytes) {
  const digest = new Uint8Array(await crypto.subtle.digest('SHA-256', bytes));
  return [...digest].map((byte) => byte.toString(16).padStart(2, '0')).join('');
}

// Whether the lines on the screen stand in the report's bytes: each rises over the one before, and
// where no filter leaves lines out, they follow each other.
function stand(bytes, lines, isFiltered) {
  const wanted = lines.map((line) => new TextEncoder().encode(`${line}\n`));
  let next = 0;
  let start = 0;
  while (next < wanted.length && start < bytes.length) {
    const end = bytes.indexOf(LF, start) + 1 || bytes.length;
    const line = bytes.subarray(start, end);
    const equal = line.length === wanted[next].length && line.every((byte, i) => byte === wanted[next][i]);
    if (equal) next += 1;
    else if (next > 0 && !isFiltered) return false;
    start = end;
  }
  return next === wanted.length;
}

export class Signoffs {
  constructor(candidates) {
    this.candidates = candidates;
    $('signing').addEventListener('submit', (event) => {
      event.preventDefault();
      this.sign().catch((error) => this.tell(error.message, false));
    });
  }

  async show(report) {
    this.report = report;
    $('sign').hidden = false;
    $('signed-revision').textContent = report.revision;
    this.tell('');
    await this.list();
  }

  tell(words, isGood, ...more) {
    $('signed').className = words === '' ? '' : isGood ? 'good' : 'bad';
    $('signed').replaceChildren(words, ...more);
  }

  // The last sign-offs of the die, of any revision.
  async list() {
    const { report } = this;
    const many = await signoffsOf(report.design, report.die);
    const numbers = Array.from({ length: Math.min(many, LISTED) }, (_, i) => many - i);
    const told = await Promise.all(numbers.map((number) => text(`${dieAt(report.design, report.die)}/signoffs/${number}`)));
    if (this.report !== report) return;
    $('signoffs').replaceChildren(...told.map((lines, i) => {
      const [, revision, signer, digest] = lines.split('\n').map((line) => line.split(' ')[1]);
      return element('li', { value: numbers[i] }, `revision ${revision} by ${signer}, `, element('span', { class: 'digest' }, digest));
    }));
  }

  async sign() {
    const { report } = this;
    if (!globalThis.crypto?.subtle) {
      this.tell('This browser makes no digests for a page that came over plain HTTP from another machine: use https.', false);
      return;
    }
    this.tell('reading the report ..', true);
    const bytes = await report.bytes();
    const head = stand(bytes, report.head, false);
    const rows = this.candidates.shownLines();
    if (!head || !stand(bytes, rows, this.candidates.isFiltered) || (!this.candidates.isFiltered && rows.length !== this.candidates.due())) {
      this.tell(`What is on the screen doesn't stand so in the report of revision ${report.revision}. Nothing was signed.`, false);
      return;
    }
    await this.send(report, await digestOf(bytes));
  }

  async send(report, digest) {
    const body = JSON.stringify({ revision: report.revision, signer: $('signer').value, digest });
    try {
      const reply = await ask(`${dieAt(report.design, report.die)}/signoffs`, { method: 'POST', body });
      const answer = (await reply.text()).trim();
      this.tell(`${answer}: revision ${report.revision} ${reply.status === 201 ? 'is signed' : 'was signed so before'}. `, true,
        element('span', { class: 'digest' }, digest), await this.newer(report));
      await this.list();
    } catch (error) {
      if (!(error instanceof Refusal)) throw error;
      const why = isRule(error, 86)
        ? `A new log came, or what is shown isn't what the desk has: the desk's digest of revision ${report.revision} is another one. Show the report again and look at it before you sign. `
        : '';
      this.tell(`${why}${await error.sentence()} (`, false, element('code', null, error.words), ')');
    }
  }

  // A sign-off holds for its own revision, whatever came since.
  async newer(report) {
    const many = await revisionsOf(report.design, report.die);
    return many > report.revision ? ` A new log came since: revision ${many} isn't signed by this.` : '';
  }
}
