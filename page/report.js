// A report of one revision, of which only those lines are asked for that are shown.

import { ask, text, linesOf, dieAt } from './desk.js';

export const PAGE = 100;
const HEAD = ['failing', 'passing', 'conflicts', 'masked', 'candidates'];

// A candidate's line as its parts. Where the line isn't one, it has no rank.
export function candidateOf(line) {
  const parts = line.match(/^candidate (\d+) fault (\d+) tfsf (\d+) tfsp (\d+) tpsf (\d+) (.+)$/);
  if (!parts) return { line };
  const [rank, place, tfsf, tfsp, tpsf] = parts.slice(1, 6).map(Number);
  return { line, rank, place, tfsf, tfsp, tpsf, fault: parts[6], ...faultOf(parts[6]) };
}

// The kind of a fault, its nets, and what it is in words.
export function faultOf(fault) {
  const words = fault.split(' ');
  const stuck = { sa0: 'stuck at 0', sa1: 'stuck at 1' }[words.at(-1)];
  const [, one, two, three] = words;
  switch (words[0]) {
    case 'stem': return { kind: 'stem', nets: [one], words: `net ${stuck}` };
    case 'branch': return words.length === 4
      ? { kind: 'branch', nets: [one], words: `output pin ${stuck}` }
      : { kind: 'branch', nets: [one, three], words: `pin ${words[4]} of ${three} ${stuck}` };
    case 'bridge': return {
      kind: 'bridge', nets: [one, two],
      words: { dom: `short: ${one} drives ${two}`, and: 'short: wired AND', or: 'short: wired OR' }[three],
    };
    default: return { kind: 'cell', nets: [], words: `cell ${two} of chain ${one} ${three}` };
  }
}

// Equal counts: no tester result tells such faults apart.
export const isAlike = (one, other) => one.tfsf === other.tfsf && one.tfsp === other.tfsp && one.tpsf === other.tpsf;

// Whether one comes directly before the other in a report: the ranks follow each other, and TFSF
// falls, then TPSF rises, then the place.
export function isNext(one, other) {
  if (other.rank !== one.rank + 1) return false;
  if (one.tfsf !== other.tfsf) return one.tfsf > other.tfsf;
  if (one.tpsf !== other.tpsf) return one.tpsf < other.tpsf;
  return one.place < other.place;
}

// A test for names: `*` stands for any part.
export function nameTest(pattern) {
  const quoted = pattern.replace(/[.+?^${}()|[\]\\]/g, '\\$&').replaceAll('*', '.*');
  const whole = new RegExp(`^${quoted}$`);
  return (name) => whole.test(name);
}

export class Report {
  constructor(design, die, revision, lines) {
    this.design = design;
    this.die = die;
    this.revision = revision;
    this.head = lines.slice(0, 9);
    if (this.head[0] !== 'REPORT 1' || this.head.length !== 9) throw new Error('this is no report');
    for (const [i, name] of HEAD.entries()) this[name] = Number(this.head[4 + i].split(' ')[1]);
    // The line before the first candidate, from 1.
    this.before = 9 + this.conflicts + this.masked;
  }

  static async open(design, die, revision, options) {
    const first = await text(`${dieAt(design, die)}/reports/${revision}/pages/1`, options);
    return new Report(design, die, revision, linesOf(first));
  }

  get path() {
    return `${dieAt(this.design, this.die)}/reports/${this.revision}`;
  }

  // The hundred candidates from a rank on, or those that are left.
  async from(rank, options) {
    const page = await text(`${this.path}/pages/${this.before + rank}`, options);
    return linesOf(page).map(candidateOf);
  }

  // The ranks of the first and of the last candidate with the counts of this one. Equal counts
  // stand together, so each is sought by halving, and no more than a page is held.
  async firstAlike(candidate, options) {
    // The first is `low` or later, and `high` is alike.
    let low = 1;
    let high = candidate.rank;
    let probe = Math.max(1, high - PAGE);
    while (low < high) {
      const page = (await this.from(probe, options)).filter((other) => other.rank < high);
      const found = page.find((other) => isAlike(candidate, other));
      if (found && (found.rank > probe || probe === low)) return found.rank;
      if (found) high = probe;
      else if (page.length === 0) return high;
      else low = probe + page.length;
      probe = Math.max(low, Math.min(high - 1, Math.floor((low + high) / 2)));
    }
    return high;
  }

  async lastAlike(candidate, options) {
    // `low` is alike, and the last is `high` or earlier.
    let low = candidate.rank;
    let high = this.candidates;
    let probe = low + 1;
    while (low < high) {
      const page = (await this.from(probe, options)).filter((other) => other.rank <= high);
      if (page.length === 0) return low;
      const alike = page.findLast((other) => isAlike(candidate, other));
      if (!alike) high = probe - 1;
      else {
        low = alike.rank;
        if (alike.rank < page.at(-1).rank) return low;
      }
      probe = Math.min(high, Math.max(low + 1, Math.ceil((low + high) / 2)));
    }
    return low;
  }

  // Line after line of the whole report, as it comes; none is kept.
  async *lines(options) {
    const reply = await ask(this.path, options);
    const reader = reply.body.pipeThrough(new TextDecoderStream()).getReader();
    let rest = '';
    for (;;) {
      const { done, value } = await reader.read();
      if (done) break;
      const lines = (rest + value).split('\n');
      rest = lines.pop();
      yield* lines;
    }
  }

  // Those candidates that a test takes: how many there are, and of them those from number `skip`
  // on, a page of them; with each group of equal counts that is shown its first and last rank.
  async filtered(test, skip, options) {
    const shown = [];
    const bounds = new Map();
    let found = 0;
    let group = null;
    let first = 0;
    let isShown = false;
    for await (const line of this.lines(options)) {
      if (!line.startsWith('candidate ')) continue;
      const candidate = candidateOf(line);
      if (!group || !isAlike(group, candidate)) {
        first = candidate.rank;
        isShown = false;
      }
      group = candidate;
      if (test(candidate)) {
        if (found >= skip && shown.length < PAGE) {
          shown.push(candidate);
          isShown = true;
        }
        found += 1;
      }
      if (isShown) bounds.set(keyOf(candidate), [first, candidate.rank]);
    }
    return { shown, found, bounds };
  }

  // The Conflict and the Masked bits, as `PATTERN POINT`.
  async unsure(options) {
    const bits = new Set();
    for (let line = 10; line <= this.before; line += PAGE) {
      const page = linesOf(await text(`${this.path}/pages/${line}`, options));
      for (const told of page.slice(0, this.before - line + 1)) bits.add(told.replace(/^\S+ /, ''));
    }
    return bits;
  }

  async bytes(options) {
    return new Uint8Array(await (await ask(this.path, options)).arrayBuffer());
  }
}

export const keyOf = (candidate) => `${candidate.tfsf} ${candidate.tfsp} ${candidate.tpsf}`;
