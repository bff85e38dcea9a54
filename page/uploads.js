// Uploads by drop or choice: bundles of designs and fail logs, each with the desk's answer.

import { $, Refusal, ask, dieAt, element } from './desk.js';
import { readLog } from './logs.js';

// The first bytes of a log have its names, which stand before its fails.
const FRONT = 65536;

// The line of a text to which a refusal points. Of a bundle the lines count from the marker of the
// section on.
function pointedLine(text, { section, line }) {
  const lines = text.split('\n');
  const marker = section === 'log' || section === 'bundle' ? -1 : lines.findIndex((one) => one.trimEnd() === `%${section}`);
  return lines[marker + line] ?? '';
}

export class Uploads {
  // `come` is told the design and the die of a log that was taken, and of a bundle the design
  // alone.
  constructor(logs, come) {
    this.logs = logs;
    this.come = come;
    $('files').addEventListener('change', async () => {
      const files = [...$('files').files];
      await this.take(files);
      $('files').value = '';
    });
    // A file that is dropped beside the box isn't opened by the browser in the place of this page.
    for (const name of ['dragover', 'drop']) window.addEventListener(name, (event) => event.preventDefault());
    const drop = $('drop');
    for (const [name, over] of [['dragover', true], ['dragleave', false], ['drop', false]]) {
      drop.addEventListener(name, () => drop.classList.toggle('over', over));
    }
    window.addEventListener('drop', (event) => this.take([...event.dataTransfer.files]));
  }

  // Bundles first, since logs need their design; one after another, so that logs get their numbers
  // in the order of their names.
  async take(files) {
    const kinds = await Promise.all(files.map(async (file) => ({ file, front: await file.slice(0, FRONT).text() })));
    const isBundle = ({ front }) => front.startsWith('%');
    const ordered = kinds.sort((one, other) => isBundle(other) - isBundle(one) || one.file.name.localeCompare(other.file.name));
    let last = null;
    for (const one of ordered) last = (isBundle(one) ? await this.putDesign(one) : await this.postLog(one)) ?? last;
    if (last) this.come(last);
  }

  async putDesign({ file }) {
    const design = $('design').value || file.name.replace(/\.[^.]*$/, '');
    const answer = await this.send(file, 'PUT', `/designs/${design}`);
    return answer && { design };
  }

  async postLog({ file, front }) {
    const named = readLog(front);
    const [design, die] = [$('design').value || named.design, $('die').value || named.die];
    const answer = await this.send(file, 'POST', `${dieAt(design, die)}/logs`);
    if (!answer) return null;
    this.logs.add(design, die, Number(answer.split(' ')[1]), await file.text());
    return { design, die };
  }

  // The desk's answer; none where it refused.
  async send(file, method, path) {
    const entry = element('li', null, `${file.name}: sending ..`);
    $('answers').prepend(entry);
    try {
      const reply = await ask(path, { method, body: file });
      const answer = (await reply.text()).trim();
      entry.className = 'good';
      entry.replaceChildren(`${file.name}: `, element('code', null, answer), reply.status === 201 ? ', new' : ', was there already');
      return answer;
    } catch (error) {
      if (!(error instanceof Refusal)) throw error;
      const told = [`${file.name}: ${await error.sentence()} (`, element('code', null, error.words || 'no answer'), ')'];
      if (error.line && error.section !== 'neighbours') told.push(element('pre', null, pointedLine(await file.text(), error).slice(0, 400)));
      entry.className = 'bad';
      entry.replaceChildren(...told);
      return null;
    }
  }
}
