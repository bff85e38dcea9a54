// Requests to the desk, and what its refusals say.

// Rule by rule and reply by reply the sentences of docs/formats.md; tests/sentences.sh checks
// that they are the same.
const sentences = fetch(new URL('/sentences.json', location.origin)).then((reply) => reply.json());

// What nginx itself refuses (deploy/nginx.conf).
const FRONT = {
  'who are you': 'the account or its password is wrong',
  'too often': 'more requests came from here than the front server lets through; try again in a moment',
  'the desk is away': "the desk doesn't answer; it may be starting again",
};

// A reply other than 200 and 201. `rule` is the number of the rule that is broken, `section` and
// `line` where a text breaks it, and `number` what the desk tells beside a rule (`rule 85 have N`).
export class Refusal extends Error {
  constructor(status, body) {
    const words = body.trim();
    super(words);
    this.status = status;
    this.words = words;
    const place = words.match(/^section (\S+) line (\d+) rule (\d+)$/);
    const rule = words.match(/^rule (\d+)(?: \S+ (\S+))?$/);
    this.section = place?.[1];
    this.line = place && Number(place[2]);
    this.rule = Number(place?.[3] ?? rule?.[1] ?? 0);
    this.number = rule?.[2];
  }

  // The sentence of its rule, with the desk's own words.
  async sentence() {
    if (this.status === 0) return 'no answer came: the desk or the way to it is down';
    const known = await sentences;
    const told = this.rule ? known.rules[this.rule] : (known.replies[this.words] ?? FRONT[this.words]);
    if (!told) return `the answer was ${this.status}`;
    return this.section ? `${this.section}, ${this.section === 'neighbours' ? 'record' : 'line'} ${this.line}: ${told}` : told;
  }
}

// The reply of the desk to a request, of which the body isn't read yet. An address with an account
// in it isn't one that scripts may ask, so the origin alone is taken.
export async function ask(path, options = {}) {
  let reply;
  try {
    reply = await fetch(new URL(path, location.origin), { cache: 'no-store', ...options });
  } catch (error) {
    if (error.name === 'AbortError') throw error;
    throw new Refusal(0, '');
  }
  if (!reply.ok) throw new Refusal(reply.status, await reply.text());
  return reply;
}

export async function text(path, options) {
  return (await ask(path, options)).text();
}

// What a text that ends with LF has as lines.
export function linesOf(whole) {
  const lines = whole.split('\n');
  lines.pop();
  return lines;
}

// Whether a refusal is by this rule.
export function isRule(error, rule) {
  return error instanceof Refusal && error.rule === rule;
}

// Greater than any number of revisions or sign-offs: what is asked for with it is refused, and the
// refusal tells how many there are.
const PAST = 4294967295;

async function have(path, rule) {
  try {
    await ask(path);
  } catch (error) {
    if (isRule(error, rule)) return Number(error.number);
    throw error;
  }
  return PAST;
}

export const dieAt = (design, die) => `/designs/${design}/dies/${die}`;
export const revisionsOf = (design, die) => have(`${dieAt(design, die)}/reports/${PAST}/pages/1`, 85);
export const signoffsOf = (design, die) => have(`${dieAt(design, die)}/signoffs/${PAST}`, 87);

// An element with words or elements in it.
export function element(tag, attributes, ...inside) {
  const made = document.createElement(tag);
  for (const [name, value] of Object.entries(attributes ?? {})) made.setAttribute(name, value);
  made.append(...inside);
  return made;
}

export const $ = (id) => document.getElementById(id);
export const grouped = (number) => Number(number).toLocaleString('en');
