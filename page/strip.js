// Patterns that one fault explains, as a strip. A pattern that is chosen marks the candidates that
// fit it.

import { $, Refusal, element, linesOf, text } from './desk.js';

export class Strip {
  constructor(candidates) {
    this.candidates = candidates;
  }

  // Where the desk hasn't this view, nothing of it is shown.
  async show(report) {
    this.report = report;
    $('strip').hidden = true;
    let lines;
    try {
      lines = linesOf(await text(`${report.path}/slat`));
    } catch (error) {
      if (error instanceof Refusal && error.status === 404) return;
      throw error;
    }
    if (this.report !== report) return;
    const failing = lines.find((line) => line.startsWith('failing-patterns '))?.split(' ')[1];
    const rows = lines.map((line) => line.match(/^pattern (\d+) faults (\d+)$/)).filter(Boolean);
    this.told = `${rows.length} of ${failing} failing patterns are explained by one fault alone.`;
    $('strip-told').textContent = this.told;
    $('patterns').replaceChildren(...rows.map(([, pattern, faults]) => element('li', null, this.button(pattern, faults))));
    $('strip').hidden = false;
  }

  button(pattern, faults) {
    const words = `pattern ${pattern}, ${faults} ${faults === '1' ? 'fault fits' : 'faults fit'}`;
    const button = element('button', { type: 'button', 'aria-pressed': 'false', 'aria-label': words, title: words }, pattern);
    button.addEventListener('click', () => this.press(button, pattern));
    return button;
  }

  async press(button, pattern) {
    const isOn = button.getAttribute('aria-pressed') === 'true';
    for (const other of $('patterns').querySelectorAll('button')) other.setAttribute('aria-pressed', 'false');
    if (isOn) {
      this.candidates.mark(new Set());
      $('strip-told').textContent = this.told;
      return;
    }
    button.setAttribute('aria-pressed', 'true');
    const { report } = this;
    const lines = linesOf(await text(`${report.path}/slat/${pattern}`));
    if (this.report !== report || button.getAttribute('aria-pressed') !== 'true') return;
    const places = new Set(lines.map((line) => line.match(/^fault (\d+) /)).filter(Boolean).map(([, place]) => Number(place)));
    const marked = this.candidates.mark(places);
    $('strip-told').textContent = `${places.size} of the candidates fit pattern ${pattern}; ${marked} of them on this page, marked ◆.`;
  }
}
