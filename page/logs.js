// Fail logs that were dropped on the page. The desk doesn't give them back, so the fail map has
// what is known here.

const WORDS = /[^ \t]+/g;

// A log as the desk reads it, once the desk has taken it: its names, its range, and its failing
// bits, each point with its patterns.
export function readLog(text) {
  const log = { die: '', design: '', first: 0, last: 0, isCut: false, fails: new Map(), lastFail: -1 };
  for (const line of text.split('\n')) {
    const words = line.replace(/\r$/, '').replace(/#.*/, '').match(WORDS) ?? [];
    switch (words[0]) {
      case 'die': log.die = words[1] ?? ''; break;
      case 'design': log.design = words[1] ?? ''; break;
      case 'tested': [log.first, log.last] = [Number(words[1]), Number(words[2])]; break;
      case 'truncated': log.isCut = true; break;
      case 'fail': addFail(log, Number(words[1]), words.slice(2).join(' ')); break;
      default: break;
    }
  }
  return log;
}

function addFail(log, pattern, point) {
  if (!log.fails.has(point)) log.fails.set(point, new Set());
  log.fails.get(point).add(pattern);
  log.lastFail = Math.max(log.lastFail, pattern);
}

export const lists = (log, point, pattern) => log.fails.get(point)?.has(pattern) ?? false;

// Whether one point is observed before another in a pattern, as far as their names tell: outputs
// come before cells, and of one chain the cells nearest to scan-out come first. Undefined where the
// names don't tell.
function isBefore(one, other) {
  const [a, b] = [one.split(' '), other.split(' ')];
  if (a[0] !== b[0]) return a[0] === 'out';
  return a[0] === 'cell' && a[1] === b[1] ? Number(a[2]) > Number(b[2]) : undefined;
}

// Whether a log saw a bit pass that it doesn't list. A log that was cut off tells of bits up to its
// last failing one: true, false, or undefined where the order of the points isn't known here.
export function sawPass(log, point, pattern, order) {
  if (pattern < log.first || pattern > log.last || lists(log, point, pattern)) return false;
  if (!log.isCut || pattern < log.lastFail) return true;
  if (pattern > log.lastFail) return false;
  const behind = [...log.fails].filter(([, patterns]) => patterns.has(pattern)).map(([name]) => order(point, name) ?? isBefore(point, name));
  if (behind.includes(true)) return true;
  return behind.includes(undefined) ? undefined : false;
}

// The logs of dies that are known here, with the numbers that the desk gave them.
export class Logs {
  constructor() {
    this.known = new Map();
  }

  add(design, die, number, text) {
    const key = `${design}/${die}`;
    if (!this.known.has(key)) this.known.set(key, new Map());
    this.known.get(key).set(number, readLog(text));
  }

  // Those of the first so many logs of a die that are known.
  of(design, die, revision) {
    return [...this.known.get(`${design}/${die}`) ?? []].filter(([number]) => number <= revision).map(([, log]) => log);
  }
}
