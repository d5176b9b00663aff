"""Tests of hktext, hk_table, hk_sqlite and hk_page. What they expect is worked out by hand from the texts in examples/ and from
docs/FORMATS.md, or counted by made_texts, which shares no code with the tools."""
import csv
import importlib.machinery
import importlib.util
import io
import json
import pathlib
import re
import resource
import sqlite3
import subprocess
import sys
import tempfile
import unittest

TOP = pathlib.Path(__file__).resolve().parents[2]
TOOLS, EXAMPLES = TOP / 'tools', TOP / 'examples'
sys.path[:0] = [str(TOOLS), str(pathlib.Path(__file__).resolve().parent)]
import examples  # noqa: E402
import hktext  # noqa: E402
import made_texts  # noqa: E402

ONE = 'report hk 1 tag 16385 decided interval 4\nvalue 1 slot 3 = 42\n'
BUILTIN = hktext.times_of('builtin')


def run(tool, *words, given=''):
    """Runs a tool, and gives its status, output and messages."""
    done = subprocess.run([TOOLS / tool, *map(str, words)], input=given.encode(), capture_output=True, check=False)
    return done.returncode, done.stdout.decode(), done.stderr.decode()


def timed(words, output):
    """Seconds of a processor that a tool takes, and its status."""
    before = resource.getrusage(resource.RUSAGE_CHILDREN)
    done = subprocess.run(words, stdout=output, check=False)
    after = resource.getrusage(resource.RUSAGE_CHILDREN)
    return after.ru_utime + after.ru_stime - before.ru_utime - before.ru_stime, done.returncode


def rows_of(text):
    """The rows of a table in CSV."""
    return list(csv.DictReader(io.StringIO(text)))


def page_data(page):
    """What a page holds."""
    return json.loads(re.search(r'<script id="data" type="application/json">(.*?)</script>', page, re.DOTALL).group(1))


class Calls(hktext.Handler):
    """Keeps what a reader gives, with the rows of a block in one list."""

    def __init__(self):
        self.calls = []

    def report(self, *words):
        self.calls.append(('report', *words, []))

    def statistics(self, *words):
        self.calls.append(('statistics', *words, []))

    def current_values(self, *words):
        self.calls.append(('values', *words, []))

    def count(self, *words):
        self.calls.append(words)

    def values(self, rows):
        self.calls[-1][-1].extend(rows)

    stats = currents = values


class Slow:
    """A stream that gives a few octets at a time."""

    def __init__(self, octets, step):
        self.stream, self.step = io.BytesIO(octets), step

    def read1(self, _):
        return self.stream.read(self.step)


def read(text, step=10**6):
    """The calls for a text."""
    handler = Calls()
    hktext.Reader(handler, BUILTIN).read(Slow(text.encode(), step))
    return handler.calls


class Texts(unittest.TestCase):
    def test_calls(self):
        self.assertEqual(read((EXAMPLES / 'asked_again.txt').read_text()), [
            ('report', 'hk', 2, 32770, 'undecidable', None, 0, []),
            ('report', 'hk', 2, 65538, 'decided', 4, None,
             [('1', '15', '2'), ('3', '12', '20'), ('3', '13', '21'), ('3', '14', '22'), ('3', '15', '23')])])
        self.assertEqual(read((EXAMPLES / 'statistics.txt').read_text()), [
            ('statistics', 8200, 0, 8200, [('2', '2', '-3', '0', '-4', '4096', '-4', '1')]),
            ('values', 8201, [('7', '500')]), ('repeats', 1)])

    def test_pieces_of_any_size(self):
        for name in ('session', 'statistics', 'unknown_start_followed'):
            text = (EXAMPLES / f'{name}.txt').read_text()
            whole = read(text)
            for step in (1, 7, 64):
                self.assertEqual(read(text, step), whole)

    def test_every_text_of_the_examples(self):
        seen = 0
        for words, status, stored in examples.runs():
            if words[0] in ('replay', 'follow') and status == 0:
                tailoring = words[1] if words[1] == 'builtin' else EXAMPLES / words[1]
                self.assertEqual(run('hk_table', tailoring, given=examples.expected(stored).decode())[0], 0, words)
                seen += 1
        self.assertGreater(seen, 10)

    def test_refused_lines(self):
        for text, line in [
                ('\n', 1), ('report hk 1 tag 16385 decided\n', 1), ('value 1 slot 3 = 42\n', 1), ('current 1 = 2\n', 1),
                ('stat 2 count 2 max -3 at 0 min -4 at 4096 mean -4 scale 1\n', 1), ('report hk 01 tag 16385 no-opening\n', 1),
                ('report dia 1 tag 16385 no-opening\n', 1), ('report hk 1 tag 16385 undecidable\n', 1),
                ('report hk 1 tag 16385 no-opening \n', 1), ('report hk 1 tag 16385 no-opening\r\n', 1),
                ('report hk 1  tag 16385 no-opening\n', 1), ('report hk 1 tag ١ no-opening\n', 1),
                ('repeats 0\n', 1), ('repeats -1\n', 1), ('lost 1\n', 1),
                ('conflicts 1\nrepeats 1\n', 2), ('repeats 1\nrepeats 1\n', 2), ('repeats 1\n' + ONE, 2),
                ('stray 1\nvalues tag 3\ncurrent 1 = 2\n', 2),
                ('report hk 1 tag 16385 decided interval 4\n', 2), ('report hk 1 tag 16385 decided interval 4\nrepeats 1\n', 2),
                ('values tag 3\n', 2), ('values tag 3\nvalue 1 slot 3 = 42\n', 2),
                (ONE + 'value 1 slot 3 = -0\n', 3), (ONE + 'value 1 slot 3 = 042\n', 3), (ONE + 'value 1 slot 3 = 4.2\n', 3),
                (ONE + 'value 1 slot 2 = 1\nvalue 1 slot 3 = 42', 4), (ONE + 'value value 1 slot 3 = 42\n', 3), (ONE + '\n' + ONE, 3),
                (ONE + 'repeats 1\nvalue 1 slot 3 = 42\n', 4), ('report hk 1 tag 16385 no-opening\nvalue 1 slot 3 = 42\n', 2),
                ('statistics tag 3 from 0 to 3\nstat 2 count 2 max -3 at 0 min -4 at 4096 mean -4 scale 2\n', 2),
                # The report with tag 16385 has slots 0 to 3.
                (ONE + 'value 1 slot 4 = 42\n', 3), ('report hk 1 tag 16385 decided interval 2\nvalue 1 slot 1 = 42\n', 2),
                ('report hk 1 tag 16385 no-opening\n' + 'x' * 5000, 2)]:
            with self.subTest(text[:90]), self.assertRaises(hktext.BadText) as caught:
                read(text)
            self.assertEqual(caught.exception.line, line, text[:90])

    def test_times(self):
        # 16385 ticks of 1/65536 s are 0.2500152587890625 s.
        self.assertEqual([BUILTIN.seconds(ticks) for ticks in (0, 1, 16384, 16385, 65536, 2**48 - 1)],
                         ['0', '0.000015259', '0.25', '0.250015259', '1', '4294967295.999984741'])
        self.assertEqual(BUILTIN.slot_seconds(7), '0.4375')
        cubesat = hktext.times_of(EXAMPLES / 'cubesat.toml')
        self.assertEqual((cubesat.slot, cubesat.second, cubesat.longest), (65536, 65536, 600))
        with self.assertRaises(hktext.Refused) as caught:
            hktext.times_of(EXAMPLES / 'session.rec')
        self.assertEqual(caught.exception.status, 3)


class Tables(unittest.TestCase):
    def test_csv(self):
        status, text, messages = run('hk_table', 'builtin', EXAMPLES / 'asked_again.txt')
        self.assertEqual((status, messages), (0, ''))
        self.assertEqual(text.splitlines()[:4], [
            'row,kind,structure,tag,time,status,request,interval,parameter,name,unit,slot,at,value,from,to',
            'open,hk,2,32770,0.500030518,undecidable,0,,,,,,,,,',
            'value,hk,2,65538,1.000030518,decided,,4,1,,,15,0.9375,2,,',
            'value,hk,2,65538,1.000030518,decided,,4,3,,,12,0.75,20,,'])
        self.assertEqual(len(text.splitlines()), 7)

    def test_statistics_and_counts(self):
        text = (EXAMPLES / 'statistics.txt').read_text().replace('mean -4 scale 1', 'mean -897 scale 256')
        rows = rows_of(run('hk_table', 'builtin', given=text)[1])
        self.assertEqual([(row['row'], row['parameter'], row['at'], row['value'], row['from'], row['to'], row['status']) for row in rows], [
            ('stat-count', '2', '', '2', '0', '0.12512207', ''), ('stat-max', '2', '0', '-3', '0', '0.12512207', ''),
            ('stat-min', '2', '0.0625', '-4', '0', '0.12512207', ''), ('stat-mean', '2', '', '-3.50390625', '0', '0.12512207', ''),
            ('current', '7', '', '500', '', '', ''), ('count', '', '', '1', '', '', 'repeats')])

    def test_names(self):
        with tempfile.TemporaryDirectory() as folder:
            names = pathlib.Path(folder, 'names.csv')
            names.write_text('id,name,unit,kind\n1,"voltage, ""main""",mV,unsigned\n3,heat,\n')
            rows = rows_of(run('hk_table', 'builtin', EXAMPLES / 'asked_again.txt', '--names', names)[1])
            self.assertEqual([(row['parameter'], row['name'], row['unit']) for row in rows[1:3]],
                             [('1', 'voltage, "main"', 'mV'), ('3', 'heat', '')])
            objects = [json.loads(line) for line in
                       run('hk_table', '--json', 'builtin', EXAMPLES / 'asked_again.txt', '--names', names)[1].splitlines()]
            self.assertEqual(objects[0], {'row': 'open', 'kind': 'hk', 'structure': 2, 'tag': 32770, 'time': 0.500030518,
                                          'status': 'undecidable', 'request': 0})
            self.assertEqual(objects[1], {'row': 'value', 'kind': 'hk', 'structure': 2, 'tag': 65538, 'time': 1.000030518,
                                          'status': 'decided', 'interval': 4, 'parameter': 1, 'name': 'voltage, "main"', 'unit': 'mV',
                                          'slot': 15, 'at': 0.9375, 'value': 2})
            for bad in ('1,a,b\n', 'id,name\nx,a\n', 'id,name\n1,a\n1,b\n', 'id,name\n01,a\n'):
                names.write_text(bad)
                self.assertEqual(run('hk_table', 'builtin', EXAMPLES / 'session.txt', '--names', names)[0], 3, bad)

    def test_statuses(self):
        self.assertEqual(run('hk_table')[0], 2)
        self.assertEqual(run('hk_table', 'builtin', '--colour')[0], 2)
        self.assertEqual(run('hk_table', EXAMPLES / 'session.rec')[0], 3)
        self.assertEqual(run('hk_table', 'no_such.toml')[0], 5)
        self.assertEqual(run('hk_table', 'builtin', 'no_such.txt')[0], 5)
        status, text, messages = run('hk_table', 'builtin', given=ONE + 'oops\n')
        self.assertEqual((status, len(text.splitlines()), messages), (4, 2, 'text: line 3: no line of the format: oops\n'))
        with open('/dev/full', 'wb') as full:
            self.assertEqual(subprocess.run([TOOLS / 'hk_table', 'builtin', EXAMPLES / 'session.txt'], stdout=full, stderr=subprocess.DEVNULL,
                                            check=False).returncode, 6)

    def test_a_row_comes_before_the_text_ends(self):
        with subprocess.Popen([TOOLS / 'hk_table', 'builtin'], stdin=subprocess.PIPE, stdout=subprocess.PIPE) as process:
            process.stdin.write(ONE.encode())
            process.stdin.flush()
            process.stdout.readline()
            self.assertEqual(process.stdout.readline(), b'value,hk,1,16385,0.250015259,decided,,4,1,,,3,0.1875,42,,\n')
            process.stdin.close()
            self.assertEqual(process.wait(), 0)

    def test_a_pipe_that_closes_early(self):
        with tempfile.TemporaryDirectory() as folder:
            long = pathlib.Path(folder, 'long.txt')
            long.write_text((EXAMPLES / 'cubesat.txt').read_text() * 300)
            done = subprocess.run(['bash', '-c', f'{TOOLS}/hk_table {EXAMPLES}/cubesat.toml {long} | head -1; echo ${{PIPESTATUS[0]}}'],
                                  capture_output=True, check=False)
        # It ends as other tools do, by the signal for a closed pipe, and says nothing.
        self.assertEqual((done.stderr, done.stdout.splitlines()[1:]), (b'', [b'141']))


class Databases(unittest.TestCase):
    def setUp(self):
        self.folder = tempfile.TemporaryDirectory()
        self.addCleanup(self.folder.cleanup)
        self.path = pathlib.Path(self.folder.name, 'base.db')

    def put(self, *words, given=''):
        return run('hk_sqlite', self.path, *words, given=given)[0]

    def rows(self, query):
        base = sqlite3.connect(self.path)
        try:
            return base.execute(query).fetchall()
        finally:
            base.close()

    def test_rows(self):
        self.assertEqual(self.put('builtin', EXAMPLES / 'asked_again.txt'), 0)
        self.assertEqual(self.put('builtin', EXAMPLES / 'statistics.txt'), 0)
        self.assertEqual(self.rows('SELECT session, kind, structure, tag, status, request, interval FROM reports'), [
            (1, 'hk', 2, 32770, 'undecidable', 0, None), (1, 'hk', 2, 65538, 'decided', None, 4),
            (2, 'statistics', None, 8200, None, None, None), (2, 'values', None, 8201, None, None, None)])
        self.assertEqual(self.rows('SELECT * FROM samples'),
                         [(2, 0, 1, 15, 2), (2, 1, 3, 12, 20), (2, 2, 3, 13, 21), (2, 3, 3, 14, 22), (2, 4, 3, 15, 23)])
        self.assertEqual(self.rows('SELECT * FROM statistics'), [(3, 2, 0.0, 8200 / 65536, 2, -3, 0.0, -4, 0.0625, -4, 1)])
        self.assertEqual(self.rows('SELECT * FROM current_values'), [(4, 0, 7, 500)])
        self.assertEqual(self.rows('SELECT * FROM counts'), [(2, 'repeats', 1)])
        self.assertEqual(self.rows("SELECT time, value FROM readings WHERE session = 'asked_again' AND parameter = 1"), [(0.9375, 2)])
        plan = ' '.join(row[3] for row in self.rows('EXPLAIN QUERY PLAN SELECT * FROM samples WHERE parameter = 1 AND slot > 3'))
        self.assertIn('samples_by_parameter (parameter=? AND slot>?)', plan)

    def test_a_second_run_changes_nothing(self):
        self.assertEqual(self.put('builtin', EXAMPLES / 'session.txt'), 0)
        octets = self.path.read_bytes()
        self.assertEqual(self.put('builtin', EXAMPLES / 'session.txt'), 0)
        self.assertEqual(self.put('builtin', '-', '--session', 'session', given=(EXAMPLES / 'session.txt').read_text()), 0)
        self.assertEqual(self.path.read_bytes(), octets)
        # Another text, another tailoring, and a text with a fault under that name.
        self.assertEqual(self.put('builtin', EXAMPLES / 'statistics.txt', '--session', 'session'), 8)
        self.assertEqual(self.put('builtin', '--session', 'session', '--replace', given=ONE + 'oops\n'), 4)
        self.assertEqual(self.put('builtin', '--session', 'twice', given=ONE + ONE), 4)
        self.assertEqual(self.path.read_bytes(), octets)
        self.assertEqual(self.put('builtin', EXAMPLES / 'statistics.txt', '--session', 'session', '--replace'), 0)
        self.assertEqual(self.rows('SELECT count(*) FROM samples'), [(0,)])
        self.assertEqual(self.rows('SELECT name FROM sessions'), [('session',)])

    def test_large_values(self):
        text = ONE + f'value 2 slot 3 = {2**63 - 1}\nvalue 3 slot 3 = {2**64 - 1}\nvalue 4 slot 3 = {-2**63}\n'
        self.assertEqual(self.put('builtin', '--session', 'large', given=text), 0)
        self.assertEqual(self.rows('SELECT value FROM samples ORDER BY place'), [(42,), (2**63 - 1,), (str(2**64 - 1),), (-2**63,)])

    def test_what_is_no_database_of_this_tool(self):
        self.assertEqual(self.put('builtin', EXAMPLES / 'requests.txt'), 4)
        self.assertFalse(self.path.exists())
        base = sqlite3.connect(self.path)
        base.execute('CREATE TABLE other (a)')
        base.commit()
        base.close()
        self.assertEqual(self.put('builtin', EXAMPLES / 'session.txt'), 6)
        self.assertEqual(self.rows('SELECT name FROM sqlite_master'), [('other',)])
        # A text from a pipe has no name of its own.
        self.assertEqual(self.put('builtin', given=ONE), 2)


class Pages(unittest.TestCase):
    def page(self, *words, given=''):
        status, text, messages = run('hk_page', *words, given=given)
        self.assertEqual((status, messages), (0, ''))
        return text

    def test_stretches(self):
        # The slots of a report end before that of its tag: 32770 / 4096 is 8, 65538 / 4096 is 16.
        lane, = page_data(self.page('builtin', EXAMPLES / 'asked_again.txt'))['structures']
        self.assertEqual((lane['name'], lane['stretches'], lane['reports']), ('hk 2', [[0, 8, 1, 0, 1], [12, 16, 0, 4, 1]], [1, 1, 0, 0, 0]))
        one, two = page_data(self.page('builtin', EXAMPLES / 'session.txt'))['structures']
        self.assertEqual(one['stretches'], [[0, 8, 0, 4, 2], [12, 16, 0, 4, 1]])
        self.assertEqual(two['stretches'], [[0, 16, 0, 8, 2]])
        for name in ('unknown_start', 'unknown_start_followed'):
            lane, = page_data(self.page('builtin', EXAMPLES / f'{name}.txt'))['structures']
            self.assertEqual(lane['stretches'], [[0, 4, 3, None, 1], [4, 8, 0, 4, 1]])

    def test_plots(self):
        one, three = page_data(self.page('builtin', EXAMPLES / 'session.txt'))['plots']
        # Parameter 1 stands in both structures: slots 3, 7 (twice) and 15 (twice), and structure 2 covers all of the time.
        self.assertEqual((one['id'], one['t'], one['v'], one['b'], one['count'], one['in']), (1, [3, 4, 8], [2821, 2849, 2905], [], 5, [0, 1]))
        self.assertEqual((three['t'], three['v'], three['in']),
                         ([1, 2, 2, 2, 2, 2, 2, 2], [125, 135, 128, 121, 131, 124, 134, 127], [1]))
        # Of structure 1 alone the report with tag 49153 is missing: the line is broken before slot 15.
        alone = ''.join(re.findall(r'report hk 1 .*\n(?:value.*\n)+', (EXAMPLES / 'session.txt').read_text()))
        self.assertEqual(page_data(self.page('builtin', given=alone))['plots'][0]['b'], [2])

    def test_changes_of_definition(self):
        text = ONE + 'report hk 1 tag 24577 decided interval 2\nvalue 1 slot 5 = 43\nvalue 7 slot 5 = 1\n'
        lane, = page_data(self.page('builtin', given=text))['structures']
        self.assertEqual(lane['changes'], [[16385, 24577, 'interval 4 to 2, with 7', 4]])

    def test_reports_without_values(self):
        data = page_data(self.page('builtin', EXAMPLES / 'statistics.txt'))
        self.assertEqual(data['statistics'], [['0.12512207', '0', '0.12512207', '2', '2', '-3', '0', '-4', '0.0625', '-4', '1']])
        self.assertEqual((data['values'], data['counts']), ([['0.125137329', '7', '500']], {'repeats': 1}))

    def test_nothing_from_outside(self):
        with tempfile.TemporaryDirectory() as folder:
            names = pathlib.Path(folder, 'names.csv')
            names.write_text('id,name,unit\n1,</script><b>,"DATA"\n')
            page = self.page('builtin', EXAMPLES / 'session.txt', '--names', names, '--title', '<i>&')
        self.assertEqual(re.findall(r'https?:|\bsrc=|\bhref=|@import|url\(|fetch\(', page), [])
        self.assertEqual(page.count('</script>'), 2)
        self.assertIn('<title>&lt;i&gt;&amp;</title>', page)
        self.assertEqual((page_data(page)['plots'][0]['name'], page_data(page)['title']), ('</script><b>', '<i>&'))

    def test_large_values_keep_their_words(self):
        plots = page_data(self.page('builtin', given=ONE + f'value 2 slot 3 = {2**64 - 1}\n'))['plots']
        self.assertEqual([plot['v'] for plot in plots], [[42], [str(2**64 - 1)]])

    def test_empty(self):
        self.assertEqual(page_data(self.page('builtin', given=''))['plots'], [])
        self.assertEqual(run('hk_page', 'builtin', given=ONE + 'oops\n')[:2], (4, ''))


class Large(unittest.TestCase):
    """A record of 296,563 entries. The rates that docs/TOOLS.md tells were measured on a busy machine; here a fourth of them is enough."""

    @classmethod
    def setUpClass(cls):
        cls.folder = tempfile.TemporaryDirectory()
        cls.path = pathlib.Path(cls.folder.name, 'large.txt')
        text = made_texts.text(1, made_texts.ROUNDS)
        cls.path.write_text(text)
        cls.lines, cls.values = text.count('\n'), text.count('\nvalue')

    @classmethod
    def tearDownClass(cls):
        cls.folder.cleanup()

    def test_the_text_is_that_of_generate(self):
        # docs/hk_replay.md has these numbers of `generate 1 3200`.
        text = made_texts.text(1, 3200)
        self.assertEqual([text.count(word) for word in (' decided ', ' undecidable ', 'value ')], [14378, 3862, 105440])
        self.assertTrue(text.endswith('\nrepeats 80\n'))
        self.assertEqual(made_texts.entries(made_texts.ROUNDS), 296563)

    def test_table(self):
        taken, status = timed([TOOLS / 'hk_table', 'builtin', self.path], subprocess.DEVNULL)
        self.assertEqual(status, 0)
        self.assertGreater(self.lines / taken, 50_000)

    def test_page(self):
        path = pathlib.Path(self.folder.name, 'page.html')
        with open(path, 'wb') as file:
            taken, status = timed([TOOLS / 'hk_page', 'builtin', self.path], file)
        self.assertEqual(status, 0)
        self.assertLess(path.stat().st_size, 5_000_000)
        self.assertLess(taken, 60)
        data = page_data(path.read_text())
        self.assertEqual(sum(plot['count'] for plot in data['plots']), self.values)
        self.assertEqual(sum(map(sum, (lane['reports'] for lane in data['structures']))), self.lines - self.values - 1)
        # Parameter 1 stands in structure 1 alone, once a report: what is shown was written, with both ends and both extremes.
        plot = data['plots'][0]
        written = [(int(slot), int(value)) for slot, value in re.findall(r'\nvalue 1 slot (\d+) = (\d+)', self.path.read_text())]
        at, shown = 0, []
        for step, value in zip(plot['t'], plot['v']):
            at += step
            shown.append((at, value))
        self.assertLessEqual(set(shown), set(written))
        self.assertEqual((shown[0], shown[-1]), (written[0], written[-1]))
        self.assertEqual({min(value for _, value in shown), max(value for _, value in shown)},
                         {min(value for _, value in written), max(value for _, value in written)})
        # The line runs on from one point to the next exactly where decided reports cover all slots between.
        covered = set()
        for tag, interval in re.findall(r'report hk 1 tag (\d+) decided interval (\d+)', self.path.read_text()):
            covered |= set(range(int(tag) // 4096 - int(interval), int(tag) // 4096))
        self.assertEqual(plot['b'], [at for at in range(1, len(shown))
                                     if not set(range(shown[at - 1][0], shown[at][0] + 1)) <= covered])
        steps = {}
        for slot, value in written:
            steps.setdefault(slot // plot['step'], []).append(value)
        kept = {}
        for slot, value in shown:
            kept.setdefault(slot // plot['step'], []).append(value)
        self.assertEqual({step: (min(values), max(values)) for step, values in kept.items()},
                         {step: (min(values), max(values)) for step, values in steps.items()})


class Session(unittest.TestCase):
    """The queries of docs/TOOLS.md."""
    PAGE = TOP / 'docs' / 'TOOLS.md'

    def test_queries(self):
        """Each query of the page answers what stands below it, over the texts in examples/."""
        queries = [(command, printed) for command, printed in commands(self.PAGE.read_text()) if command.startswith('sqlite3 ')]
        self.assertEqual(len(queries), 5)
        with tempfile.TemporaryDirectory() as folder:
            path = pathlib.Path(folder, 's.db')
            for name in ('request', 'confirmed', 'session', 'asked_again', 'cubesat'):
                tailoring = EXAMPLES / 'cubesat.toml' if name == 'cubesat' else 'builtin'
                self.assertEqual(run('hk_sqlite', path, tailoring, EXAMPLES / f'{name}.txt', '--names', EXAMPLES / 'cubesat_names.csv')[0], 0)
            base = sqlite3.connect(path)
            for command, printed in queries:
                query = re.fullmatch(r'sqlite3 s.db "(.*)"', command).group(1)
                found = ['|'.join(map(str, row)) for row in base.execute(query)]
                self.assertEqual(sorted(found), sorted(printed.splitlines()), query)
            base.close()


def commands(page):
    """The commands of a page's blocks of code, and what each prints."""
    found, inside = [], False
    for line in page.splitlines():
        if line.startswith('    $ '):
            found.append([line[6:], ''])
            inside = True
        elif not line.startswith('    '):
            inside = False
        elif inside:
            found[-1][1] += line[4:] + '\n'
    return found


if __name__ == '__main__':
    unittest.main()
