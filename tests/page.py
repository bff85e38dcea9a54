#!/usr/bin/env python3
"""Goes through the day in a real browser: the page (page/) at deploy/try, beside the bytes of the
reports.

    tests/page.py [PROGRAM]

A headless Chromium shows the report of the day; what stands on the screen is compared with
examples/day/report.expected, the fail map with what the two logs and the predicted log say, the
answers to uploads with those of the desk, and the sentence of a refusal with docs/formats.md. Then
a report of LINES lines (60,000), then the page is spoiled four times, which has to be found. All is
done by keys alone. It needs nginx, curl, Chromium and selenium (Debian: nginx curl chromium
chromium-driver python3-selenium); without them it says so, and nothing is tried."""
import base64
import hashlib
import os
import re
import shutil
import signal
import subprocess
import sys
import tempfile
import time
import urllib.request

TOP = os.path.dirname(os.path.dirname(os.path.abspath(__file__)))
DAY = os.path.join(TOP, 'examples', 'day')
DIE = '/designs/block/dies/wafer3.17'
LINES = int(os.environ.get('LINES_OF_A_REPORT', '60000'))
PATIENCE = 60
PAGE = 100

try:
    from selenium import webdriver
    from selenium.common.exceptions import WebDriverException
    from selenium.webdriver.chrome.service import Service
    from selenium.webdriver.common.by import By
    from selenium.webdriver.common.keys import Keys
except ImportError:
    # Debian's selenium belongs to Debian's own Python.
    if os.path.realpath(sys.executable) != os.path.realpath('/usr/bin/python3') and os.access('/usr/bin/python3', os.X_OK):
        os.execv('/usr/bin/python3', ['/usr/bin/python3', *sys.argv])
    print('no selenium: the page is left out')
    sys.exit(0)

WRONG = []


def day(name):
    with open(os.path.join(DAY, name), encoding='ascii') as text:
        return text.read()


REPORT = day('report.expected').splitlines()


def due(name, is_right, told=''):
    if not is_right:
        WRONG.append(name)
        print(f'page: {name}: wrong {told}')


def until(what, condition):
    """What the condition answers, once it is true; the run ends where it doesn't become so."""
    end = time.monotonic() + PATIENCE
    while time.monotonic() < end:
        answer = condition()
        if answer:
            return answer
        time.sleep(0.02)
    raise TimeoutError(f'{what} did not come in {PATIENCE} s')


class Front:
    """deploy/try over a copy of the page, which may be spoiled."""

    def __init__(self, program, room):
        self.room = room
        self.page = os.path.join(room, 'page')
        self.restore()
        words = dict(os.environ, PAGE=self.page, **({'PROGRAM': os.path.abspath(program)} if program else {}))
        self.process = subprocess.Popen([os.path.join(TOP, 'deploy', 'try')], stdout=subprocess.PIPE, text=True, env=words, start_new_session=True)
        self.address = self.process.stdout.readline().strip()
        found = re.fullmatch(r'(https?)://(\w+:\w+)@([\d.:]+)/#block/wafer3.17', self.address)
        if not found:
            self.end()
            raise OSError(f'deploy/try did not start: {self.address}')
        self.origin = f'{found[1]}://{found[3]}'
        self.account = 'Basic ' + base64.b64encode(found[2].encode()).decode()

    def restore(self):
        shutil.rmtree(self.page, ignore_errors=True)
        shutil.copytree(os.path.join(TOP, 'page'), self.page)

    def spoil(self, name, old, new):
        path = os.path.join(self.page, name)
        with open(path, encoding='utf-8') as text:
            text = text.read()
        if text.count(old) != 1:
            raise ValueError(f'{name} has not one {old}')
        with open(path, 'w', encoding='utf-8') as file:
            file.write(text.replace(old, new))

    def ask(self, path, body=None, method=None):
        wanted = urllib.request.Request(self.origin + path, data=body, method=method, headers={'Authorization': self.account})
        with urllib.request.urlopen(wanted, timeout=PATIENCE) as reply:
            return reply.read().decode('ascii')

    def end(self):
        self.process.send_signal(signal.SIGINT)
        try:
            self.process.wait(timeout=10)
        except subprocess.TimeoutExpired:
            self.process.kill()


def browser(room):
    options = webdriver.ChromeOptions()
    for word in ['--headless=new', '--no-sandbox', '--disable-dev-shm-usage', '--disable-gpu', '--no-first-run', '--window-size=1400,1000', f'--user-data-dir={room}/profile']:
        options.add_argument(word)
    driver = webdriver.Chrome(service=Service(shutil.which('chromedriver')), options=options)
    driver.set_page_load_timeout(PATIENCE)
    driver.set_script_timeout(PATIENCE)
    return driver


class Screen:
    """What stands on the screen, and keys that are pressed."""

    def __init__(self, driver):
        self.driver = driver

    def one(self, selector):
        return self.driver.find_element(By.CSS_SELECTOR, selector)

    def words(self, selector):
        return self.driver.execute_script('return document.querySelector(arguments[0])?.innerText ?? ""', selector)

    def is_shown(self, selector):
        return self.one(selector).is_displayed()

    def press(self, selector):
        self.one(selector).send_keys(Keys.ENTER)

    def type(self, selector, words):
        field = self.one(selector)
        field.send_keys(Keys.CONTROL, 'a')
        field.send_keys(words or Keys.DELETE)

    def lines(self):
        """The rows as lines of a report, cell by cell as they can be read."""
        rows = self.driver.execute_script('''
            return [...document.querySelectorAll('#table tbody tr:not(.group)')].map((row) => [...row.cells].map((cell) => cell.innerText.split('\\n')[0].trim()));''')
        return [f'candidate {rank} fault {place} tfsf {tfsf} tfsp {tfsp} tpsf {tpsf} {fault}' for rank, fault, _, tfsf, tfsp, tpsf, place in rows]

    def groups(self):
        """The ranks of the groups of equal counts, as told over their rows."""
        told = self.driver.execute_script("return [...document.querySelectorAll('#table .group')].map((row) => row.innerText)")
        return [tuple(int(number.replace(',', '')) for number in re.findall(r'[\d,]+(?= to|:)', words)) for words in told]

    def settled(self, words):
        """Waits until the table has the page that is told so."""
        until(f'the page {words}', lambda: self.words('#where').startswith(words) and self.lines() is not None)

    def numbers(self):
        return [number.replace(',', '') for number in self.driver.execute_script("return [...document.querySelectorAll('#numbers dd')].map((one) => one.innerText)")]


def counts_of(line):
    return re.search(r'tfsf \d+ tfsp \d+ tpsf \d+', line)[0]


def groups_of(lines, shown):
    """The first and last rank of each group of two or more of which one of the shown lines is."""
    ranks = {}
    for rank, line in enumerate(lines, 1):
        ranks.setdefault(counts_of(line), []).append(rank)
    wanted = dict.fromkeys(counts_of(line) for line in shown)
    return [(ranks[one][0], ranks[one][-1]) for one in wanted if len(ranks[one]) > 1]


CANDIDATES = REPORT[9:]


def open_day(screen, front):
    """The seconds until the report of the day is there, in a browser that runs."""
    screen.driver.get('about:blank')
    start = time.monotonic()
    screen.driver.get(front.address)
    screen.settled('1 to 31 of 31')
    return time.monotonic() - start


def the_report(screen):
    due('the numbers of the head', screen.numbers() == [line.split()[1] for line in REPORT[4:9]], screen.numbers())
    due('the rows', screen.lines() == CANDIDATES)
    due('the groups', screen.groups() == groups_of(CANDIDATES, CANDIDATES), screen.groups())
    due('the order', not screen.is_shown('#order') and not screen.is_shown('#refusal'))


def the_filters(screen):
    screen.type('#net', 'g0_9*')
    screen.one('#net').send_keys(Keys.ENTER)
    wanted = [line for line in CANDIDATES if re.search(r' g0_9', line)]
    screen.settled(f'1 to {len(wanted)} of {len(wanted)} that fit, 31 in all')
    due('the filter by a net', screen.lines() == wanted)
    screen.type('#net', '')
    screen.one('#kind').send_keys('bri')
    screen.press('#filters button')
    wanted = [line for line in CANDIDATES if ' bridge ' in line]
    screen.settled(f'1 to {len(wanted)} of {len(wanted)} that fit')
    due('the filter by kind', screen.lines() == wanted)
    due('the groups of a filter', screen.groups() == groups_of(CANDIDATES, wanted), screen.groups())
    screen.press('#all')
    screen.settled('1 to 31 of 31')


def answers(screen, many):
    """The first so many answers to uploads, the last first."""
    told = "return [...document.querySelectorAll('#answers li')].map((one) => one.innerText)"
    return until('an answer', lambda: (lambda one: len(one) >= many and not any('sending' in words for words in one) and one)(screen.driver.execute_script(told)))


def the_uploads(screen, room):
    screen.one('#files').send_keys(os.path.join(DAY, 'second.log') + '\n' + os.path.join(DAY, 'first.log'))
    due('the answers to logs', answers(screen, 2) == ['second.log: log 2, was there already', 'first.log: log 1, was there already'], answers(screen, 2))
    wrong = os.path.join(room, 'wrong.log')
    with open(wrong, 'w', encoding='ascii') as log:
        log.write(day('first.log').replace('tested 0 255', 'tested 0 512'))
    screen.one('#files').send_keys(wrong)
    with open(os.path.join(TOP, 'docs', 'formats.md'), encoding='utf-8') as formats:
        sentence = re.search(r"^\| 57 \| (.*?) \|", formats.read(), re.M)[1]
    refused = f'wrong.log: log, line 4: {sentence} (section log line 4 rule 57)'
    due('a refusal', answers(screen, 3)[0].split() == f'{refused} tested 0 512'.split(), answers(screen, 3)[0])


def fails_of(text):
    """The failing bits of a log as (pattern, point), and its range; the day's logs that were cut off have one output alone."""
    bits = {(int(pattern), point) for pattern, point in re.findall(r'^fail (\d+) (.*?)$', text, re.M)}
    first, last = map(int, re.search(r'^tested (\d+) (\d+)$', text, re.M).groups())
    cut = max(pattern for pattern, _ in bits) if re.search(r'^truncated', text, re.M) else None
    return bits, first, last, cut


def has_passed(log, pattern, point):
    bits, first, last, cut = log
    if (pattern, point) in bits or not first <= pattern <= last:
        return False
    # g0_90 is the first point of all, so that at the cut no other point was told of.
    return cut is None or pattern < cut


def marks_due(front, place):
    logs = [fails_of(day('first.log')), fails_of(day('second.log'))]
    failed = logs[0][0] | logs[1][0]
    predicted = fails_of(front.ask(f'/designs/block/faults/{place}/fails'))[0]
    marks = {bit: 'hit' if bit in predicted else 'missed' for bit in failed}
    for bit in predicted - failed:
        marks[bit] = 'extra' if any(has_passed(log, *bit) for log in logs) else 'not told'
    return marks


def marks_shown(screen):
    """All marks of the map, part by part."""
    marks = {}
    while True:
        head, *rows = screen.driver.execute_script('''
            return [...document.querySelectorAll('#grid tr')].map((row) => [...row.cells].map((cell) => cell.querySelector('.mark')?.ariaLabel ?? cell.innerText));''')
        for point, *cells in rows:
            marks |= {(int(pattern), point): mark for pattern, mark in zip(head[1:], cells) if mark}
        if not screen.is_shown('#map-right') or not screen.one('#map-right').is_enabled():
            return marks
        screen.press('#map-right')


def the_map(screen, front, rank):
    line = CANDIDATES[rank - 1]
    place, tfsf, tfsp, tpsf = map(int, re.search(r'fault (\d+) tfsf (\d+) tfsp (\d+) tpsf (\d+)', line).groups())
    screen.press(f'tr[data-place="{place}"] td button')
    until('the map', lambda: screen.words('#map-title').startswith(f'Fail map of rank {rank}:'))
    shown = marks_shown(screen)
    wanted = marks_due(front, place)
    due(f'the fail map of rank {rank}', shown == wanted, sorted(set(shown.items()) ^ set(wanted.items()))[:5])
    counts = [list(shown.values()).count(mark) for mark in ('hit', 'missed', 'extra')]
    due(f'the counts of the map of rank {rank}', counts == [tfsf, tfsp, tpsf] and 'as many as the report counts' in screen.words('#map-told'), counts)
    screen.press('#map-back')
    due('back at the candidate', screen.driver.switch_to.active_element.text == line.split(' tpsf ')[1].split(' ', 1)[1])


def drop(screen, name, text):
    """A file that is dropped on the page."""
    screen.driver.execute_script('''
        const files = new DataTransfer();
        files.items.add(new File([arguments[1]], arguments[0]));
        document.querySelector('#drop').dispatchEvent(new DragEvent('drop', { dataTransfer: files, bubbles: true, cancelable: true }));''', name, text)


def the_conflict(screen, front):
    """A second log comes while the first report is shown, and differs from the first log at one bit."""
    logs = '/designs/block/dies/torn/logs'
    one = day('first.log').replace('wafer3.17', 'torn')
    other = one.replace('fail 14 out g0_90\n', '')
    front.ask(logs, one.encode(), 'POST')
    screen.type('#die', 'torn')
    screen.press('#open button')
    until('the report of another die', lambda: 'torn' in screen.words('#report-title') and screen.words('#where').startswith('1 to '))
    front.ask(logs, other.encode(), 'POST')
    told = sign(screen, 'kim')
    due('a sign-off while a log came', told.startswith('signoff 1: revision 1 ') and 'A new log came since: revision 2' in told, told)
    drop(screen, 'one.log', one)
    due('a log that is dropped', answers(screen, 4)[0] == 'one.log: log 1, was there already', answers(screen, 4)[0])
    drop(screen, 'other.log', other)
    answers(screen, 5)
    until('the news of a log', lambda: 'A new log came: show revision 2' in screen.words('#latest'))
    screen.type('#revision', '2')
    screen.press('#revisions button')
    until('the second revision', lambda: screen.numbers()[2] == '1')
    due('the conflict', screen.numbers()[0] == '11', screen.numbers())
    until('its candidates', lambda: screen.words('#where').startswith('1 to '))
    screen.press('#table td button')
    # The bit at which the logs differ is neither hit nor missed.
    until('the map of the conflict', lambda: 'unsure 1' in screen.words('#legend'))
    due('the counts beside a conflict', 'as many as the report counts' in screen.words('#map-told'), screen.words('#map-told'))
    screen.type('#die', 'wafer3.17')
    screen.press('#open button')
    until('the day again', lambda: 'wafer3.17' in screen.words('#report-title') and screen.words('#where') == '1 to 31 of 31')


def the_strip(screen, front):
    """Explained patterns, where the desk has them."""
    try:
        told = front.ask(f'{DIE}/reports/2/slat')
    except OSError:
        due('no strip', not screen.is_shown('#strip'))
        return 'without explained patterns'
    patterns = re.findall(r'^pattern (\d+) ', told, re.M)
    until('the strip', lambda: screen.is_shown('#strip'))
    shown = screen.driver.execute_script("return [...document.querySelectorAll('#patterns button')].map((one) => one.innerText)")
    due('the explained patterns', shown == patterns, shown)
    screen.press('#patterns button')
    until('the marks of a pattern', lambda: 'fit pattern' in screen.words('#strip-told'))
    marked = set(screen.driver.execute_script("return [...document.querySelectorAll('tr.fits')].map((row) => row.dataset.place)"))
    fit = set(re.findall(r'^fault (\d+) ', front.ask(f'{DIE}/reports/2/slat/{patterns[0]}'), re.M))
    due('the candidates that fit', marked == fit, marked)
    return f'with {len(patterns)} explained patterns'


def sign(screen, signer):
    """What is told of a sign-off."""
    until('the form of a sign-off', lambda: screen.is_shown('#signer'))
    screen.type('#signer', signer)
    screen.one('#signer').send_keys(Keys.ENTER)
    return until('an answer to a sign-off', lambda: screen.driver.execute_script(
        "const one = document.querySelector('#signed'); return one.innerText && !one.innerText.startsWith('reading') ? one.innerText : ''"))


def is_signed(told, number, bytes_of_the_report):
    return told.startswith(f'signoff {number}: revision') and hashlib.sha256(bytes_of_the_report).hexdigest() in told


def the_signoff(screen):
    told = sign(screen, 'kim')
    due('the sign-off', is_signed(told, 1, day('report.expected').encode()), told)
    until('the list of sign-offs', lambda: 'revision 2 by kim' in screen.words('#signoffs'))


def the_zoom(screen):
    """At 200 per cent a window of 1,280 points has 640: nothing is cut off at its side."""
    screen.driver.set_window_size(640, 500)
    wide = screen.driver.execute_script('return [document.documentElement.scrollWidth, document.documentElement.clientWidth]')
    due('the width at 200 per cent', wide[0] <= wide[1], wide)
    screen.driver.set_window_size(1400, 1000)


def spoiled(screen, front, name, edit, is_found):
    """The page with an edit: what is compared above has to differ."""
    front.spoil(*edit)
    screen.driver.get('about:blank')
    screen.driver.get(front.address)
    until('a spoiled page', lambda: screen.words('#where').startswith('1 to '))
    due(f'found: {name}', is_found())
    front.restore()


def the_plants(screen, front):
    loop = 'for (const candidate of shown) {\n      if (!before'
    rest = loop.split('shown', 1)[1]
    spoiled(screen, front, 'a row left out', ('candidates.js', loop, 'for (const candidate of shown.filter((one) => one.rank !== 5)' + rest),
            lambda: screen.lines() != CANDIDATES and "doesn't stand so" in sign(screen, 'left'))
    spoiled(screen, front, 'two rows exchanged', ('candidates.js', loop, 'for (const candidate of shown.toSpliced(3, 2, shown[4], shown[3])' + rest),
            lambda: screen.lines() != CANDIDATES and "doesn't stand so" in sign(screen, 'turned'))
    spoiled(screen, front, 'a line lost on its way', ('report.js', 'return linesOf(page).map(', 'return linesOf(page).filter((_, i) => i !== 6).map('),
            lambda: screen.lines() != CANDIDATES and screen.is_shown('#order'))
    spoiled(screen, front, 'a wrong digest', ('signoffs.js', "digest('SHA-256', bytes)", "digest('SHA-256', bytes.subarray(1))"),
            lambda: (lambda told: 'A new log came' in told and f'rule 86 digest {hashlib.sha256(day("report.expected").encode()).hexdigest()}' in told)(sign(screen, 'wrong')))


def large_bundle():
    """A row of buffers with an output behind each eighth of it. Each net stuck at 0 is a candidate, in eight groups of equal counts."""
    nets = LINES - 17
    step = nets // 8
    taps = [step * i for i in range(1, 9)]
    lines = ['%netlist', 'INPUT(n0)', *(f'OUTPUT(n{i})' for i in taps), *(f'n{i} = BUF(n{i - 1})' for i in range(1, 8 * step + 1))]
    log = ['FAILLOG 1', 'die large', 'design large', 'tested 0 0', *(f'fail 0 out n{i}' for i in taps), 'end']
    return '\n'.join([*lines, '%scan', '%patterns', 'CAPTURE 1', '%neighbours', '']), '\n'.join([*log, ''])


def the_large_report(screen, front, room):
    for name, text in zip(('large.bundle', 'large.log'), large_bundle()):
        with open(os.path.join(room, name), 'w', encoding='ascii') as file:
            file.write(text)
    screen.driver.get('about:blank')
    screen.driver.get(f'{front.origin}/')
    screen.type('#design', 'large')
    screen.type('#die', 'large')
    start = time.monotonic()
    screen.one('#files').send_keys(os.path.join(room, 'large.log') + '\n' + os.path.join(room, 'large.bundle'))
    until('the large report', lambda: screen.words('#where').startswith('1 to 100 of'))
    took = time.monotonic() - start
    whole = front.ask('/designs/large/dies/large/report')
    lines = whole.splitlines()[9:]
    many = f'{len(lines):,}'
    shown = []
    for page in range(3):
        screen.settled(f'{page * PAGE + 1} to {page * PAGE + PAGE} of {many}')
        shown = lines[page * PAGE:page * PAGE + PAGE]
        due(f'page {page} of a large report', screen.lines() == shown)
        due(f'the groups of page {page} of a large report', screen.groups() == groups_of(lines, shown), screen.groups())
        screen.press('#on')
    screen.settled('301 to 400')
    # The first output has a stem and two branches, of which one has the counts of the next group.
    net = f'n{(LINES - 17) // 8}'
    screen.type('#net', net)
    screen.one('#net').send_keys(Keys.ENTER)
    wanted = [line for line in lines if net in line.split()]
    screen.settled(f'1 to {len(wanted)} of {len(wanted)} that fit')
    due('the filter of a large report', screen.lines() == wanted and screen.groups() == groups_of(lines, wanted), screen.groups())
    due('the sign-off of a large report', is_signed(sign(screen, 'kim'), 1, whole.encode()), screen.words('#signed'))
    return f'{len(lines) + 9} lines, there {took:.1f} s after the upload began'


def try_all(screen, front, room):
    took = open_day(screen, front)
    the_report(screen)
    the_filters(screen)
    the_uploads(screen, room)
    for rank in (1, 8, 14):
        the_map(screen, front, rank)
    the_conflict(screen, front)
    strip = the_strip(screen, front)
    the_signoff(screen)
    the_zoom(screen)
    large = the_large_report(screen, front, room)
    the_plants(screen, front)
    print(f'the page: the day was there after {took:.2f} s, {strip}; a report of {large}; {len(WRONG)} wrong')


def main():
    program = sys.argv[1] if len(sys.argv) > 1 else None
    # However the run ends, so do the browser and deploy/try.
    signal.signal(signal.SIGTERM, lambda *_: sys.exit(1))
    path = os.environ['PATH'] = os.environ['PATH'] + ':/usr/sbin:/sbin'
    for tool in ('chromedriver', 'nginx', 'curl'):
        if not shutil.which(tool, path=path):
            print(f'no {tool}: the page is left out')
            return 0
    with tempfile.TemporaryDirectory(ignore_cleanup_errors=True) as room:
        try:
            driver = browser(room)
        except WebDriverException as error:
            print(f'no browser starts here ({str(error).splitlines()[0]}): the page is left out')
            return 0
        front = None
        try:
            front = Front(program, room)
            try_all(Screen(driver), front, room)
        except (TimeoutError, OSError, WebDriverException) as error:
            due('the run', False, error)
        finally:
            driver.quit()
            if front:
                front.end()
    return 1 if WRONG else 0


if __name__ == '__main__':
    sys.exit(main())
