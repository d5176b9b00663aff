"""Reads the text that `hk_replay replay` or `follow` writes, as docs/FORMATS.md states it, for the tools that make tables, databases and
pages of it. It isn't proved, and decodes no packets. A line that the format doesn't have is refused with its number.

Reader.read(stream) calls the methods of a Handler as lines come. The stream is read in pieces, as they arrive, so that a text from a
pipe is dealt with at once; memory doesn't grow with the text."""
import csv
import os
import re
import signal
import sys
import tempfile
import tomllib

NUMBER = '(?:0|[1-9][0-9]{0,19})'
SIGNED = '(?:0|-?[1-9][0-9]{0,29})'
COUNTS = ('repeats', 'conflicts', 'foreign', 'skipped', 'unread', 'stray')

REPORT = re.compile(rf'report (hk|diag) ({NUMBER}) tag ({NUMBER}) '
                    rf'(?:(decided) interval ({NUMBER})|(undecidable|crowded) ({NUMBER})|(no-opening|impossible))\n')
STATISTICS = re.compile(rf'statistics tag ({NUMBER}) from ({NUMBER}) to ({NUMBER})\n')
CURRENT = re.compile(rf'values tag ({NUMBER})\n')
COUNT = re.compile(rf'({"|".join(COUNTS)}) ([1-9][0-9]{{0,19}})\n')
LINES = {'value': rf'value ({NUMBER}) slot ({NUMBER}) = ({SIGNED})\n',
         'stat': rf'stat ({NUMBER}) count ({NUMBER}) max ({SIGNED}) at ({NUMBER}) min ({SIGNED}) at ({NUMBER}) '
                 rf'mean ({SIGNED}) scale (1|256|65536)\n',
         'current': rf'current ({NUMBER}) = ({SIGNED})\n'}
LINE = {word: re.compile('^' + form, re.MULTILINE) for word, form in LINES.items()}
END = {word: re.compile(rf'\n(?!{word} )') for word in LINES}
RUN = {word: re.compile('(?:' + form.replace('(?:', '(').replace('(', '(?:') + ')++') for word, form in LINES.items()}

PIECE = 1 << 18
LONGEST = 1 << 10


class Refused(Exception):
    """A tool ends with this status, and the text on standard error."""

    def __init__(self, status, text):
        super().__init__(text)
        self.status = status


class BadText(Refused):
    """The text has a line that the format doesn't have, or stops where it can't."""

    def __init__(self, line, what):
        super().__init__(4, f'text: line {line}: {what}')
        self.line = line


class Handler:
    """What is done with each part of a text. Numbers are ints, those of rows the words as they stand in the text."""

    def report(self, kind, structure, tag, status, interval, request):
        """A block of a parameter report begins: interval where it is decided, request where it is undecidable or crowded, else None."""

    def values(self, rows):
        """Value lines of the report that began last: parameter, slot, value. A report's lines may come in several calls."""

    def statistics(self, tag, start, end):
        """A report on statistics begins."""

    def stats(self, rows):
        """Its rows: parameter, count, max, tick of it, min, tick of it, mean, scale."""

    def current_values(self, tag):
        """A report on current values begins."""

    def currents(self, rows):
        """Its rows: parameter, value."""

    def count(self, word, number):
        """One of the counts at the end."""

    def pause(self):
        """All lines that have come so far were dealt with."""


class Times:
    """The times of a tailoring: `slot` ticks in a slot, `second` ticks in a second, no report of more than `longest` slots."""

    def __init__(self, slot, second, longest):
        self.slot, self.second, self.longest = slot, second, longest

    def seconds(self, ticks):
        """The seconds of a tick, with up to nine decimals, and no zeros at their end."""
        whole, part = divmod(ticks, self.second)
        if not part:
            return str(whole)
        return f'{whole}.{(part * 10**9 + self.second // 2) // self.second:09d}'.rstrip('0')

    def slot_seconds(self, slot):
        """The seconds at which a slot begins."""
        return self.seconds(slot * self.slot)


def times_of(word):
    """The times of the tailoring with this path, or of the built-in one."""
    if word == 'builtin':
        return Times(4096, 256**2, 4096)
    try:
        with open(word, 'rb') as file:
            found = tomllib.load(file)
    except OSError as fault:
        raise Refused(5, f'tailoring: {fault.strerror}') from None
    except (tomllib.TOMLDecodeError, UnicodeDecodeError):
        raise Refused(3, 'tailoring: not toml') from None
    interval_octets = number_of(found, 'interval_octets', 1, 4, 2)
    longest = min(4096, 256**interval_octets - 1)
    return Times(number_of(found, 'slot', 16, 2**32, None), 256**number_of(found, 'fine', 0, 3, 2),
                 number_of(found, 'max_interval', 1, longest, longest))


def number_of(found, key, least, most, missing):
    """A key of the tailoring, checked as far as its times need it: `hk_replay check` checks the whole file."""
    value = found.get(key, missing)
    if value is None:
        raise Refused(3, f'tailoring: missing key {key}')
    if type(value) is not int:
        raise Refused(3, f'tailoring: wrong kind {key}')
    if not least <= value <= most:
        raise Refused(3, f'tailoring: out of range {key} {value}')
    return value


def names_of(path):
    """Name and unit of each parameter of a CSV file with the columns id, name and unit, by the number as it stands in a text. The unit may
    be missing, and other columns are passed over."""
    names = {}
    if path is None:
        return names
    try:
        with open(path, newline='', encoding='utf-8-sig') as file:
            rows = csv.DictReader(file)
            if not {'id', 'name'} <= set(rows.fieldnames or ()):
                raise Refused(3, 'names: line 1: no columns id and name')
            for row in rows:
                number = (row['id'] or '').strip()
                if not re.fullmatch(NUMBER, number):
                    raise Refused(3, f'names: line {rows.line_num}: {number!r} is no number of a parameter')
                if number in names:
                    raise Refused(3, f'names: line {rows.line_num}: parameter {number} stands a second time')
                names[number] = ((row['name'] or '').strip(), (row.get('unit') or '').strip())
    except OSError as fault:
        raise Refused(5, f'names: {fault.strerror}') from None
    except (UnicodeDecodeError, csv.Error) as fault:
        raise Refused(3, f'names: no CSV in UTF-8: {fault}') from None
    return names


class Reader:
    """Reads one text and gives its parts to a handler. `times` are those of the record's tailoring: a value whose slot can't be one of its
    report under them is refused, since then the tailoring is another one."""

    def __init__(self, handler, times):
        self.handler, self.times = handler, times
        self.line = 1
        self.inside = None      # the word of the lines that may follow
        self.needed = False     # one of them must follow
        self.counted = 0        # of COUNTS, those that can't come any more
        self.slots = range(0)   # slots of the report that began last

    def read(self, stream):
        """Reads the stream to its end."""
        rest = b''
        while piece := read_piece(stream):
            text = rest + piece
            cut = text.rfind(b'\n') + 1
            rest = text[cut:]
            self.take(text[:cut].decode('latin-1'))
            if len(rest) > LONGEST:
                raise self.bad('no line of the format', rest.decode('latin-1'))
            self.handler.pause()
        if rest:
            raise BadText(self.line, 'the text is cut off: its last line has no end')
        if self.needed:
            raise BadText(self.line, f'the text is cut off: no {self.inside} line of its last block')

    def bad(self, what, text):
        """A refusal of the line that text begins with."""
        shown = ''.join(c if ' ' <= c <= '~' else '?' for c in text.split('\n', 1)[0][:60])
        return BadText(self.line, f'{what}: {shown}')

    def take(self, text):
        """Takes whole lines."""
        at = 0
        while at < len(text):
            after = self.rows(text, at) if self.inside else at
            at = after if after > at else self.head(text, at)

    def rows(self, text, at):
        """Takes lines of the block that runs, and answers where they end."""
        if not text.startswith(self.inside + ' ', at):
            return at
        end = END[self.inside].search(text, at).end()
        rows = LINE[self.inside].findall(text, at, end)
        if len(rows) != text.count('\n', at, end):
            # One of the lines isn't of the format: those before it are taken.
            run = RUN[self.inside].match(text, at)
            if not run:
                return at
            end = run.end()
            rows = LINE[self.inside].findall(text, at, end)
        if self.inside == 'value':
            self.check_slots(rows)
            self.handler.values(rows)
        elif self.inside == 'stat':
            self.handler.stats(rows)
        else:
            self.handler.currents(rows)
        self.needed = False
        self.line += len(rows)
        return end

    def check_slots(self, rows):
        """Each slot is one of the report's interval."""
        slots = self.slots
        for slot in {row[1] for row in rows}:
            if int(slot) not in slots:
                self.line += [row[1] for row in rows].index(slot)
                raise BadText(self.line, f'slot {slot} is none of {self.slots.start} to {self.slots.stop - 1}, those of its report: '
                              'is this the tailoring of the record?')

    def head(self, text, at):
        """Takes a line that begins a block, or a count, and answers where it ends."""
        if self.needed:
            raise self.bad(f'no {self.inside} line', text[at:at + LONGEST])
        if self.counted or not (found := REPORT.match(text, at)):
            return self.other(text, at)
        kind, structure, tag, decided, interval, open_, request, bare = found.groups()
        tag = int(tag)
        if decided:
            self.inside, self.needed, interval = 'value', True, int(interval)
            last = tag // self.times.slot
            self.slots = range(max(0, last - interval), last)
        else:
            self.inside = None
        self.handler.report(kind, int(structure), tag, decided or open_ or bare, interval, request and int(request))
        self.line += 1
        return found.end()

    def other(self, text, at):
        """Takes any other line but those of a report."""
        self.inside = None
        if found := COUNT.match(text, at):
            word, number = found.groups()
            if COUNTS.index(word) < self.counted:
                raise self.bad('a count out of its place', text[at:at + LONGEST])
            self.counted = COUNTS.index(word) + 1
            self.handler.count(word, int(number))
        elif self.counted:
            raise self.bad('no line may follow the counts but another count', text[at:at + LONGEST])
        elif found := STATISTICS.match(text, at):
            self.inside = 'stat'
            self.handler.statistics(*map(int, found.groups()))
        elif found := CURRENT.match(text, at):
            self.inside, self.needed = 'current', True
            self.handler.current_values(int(found.group(1)))
        else:
            raise self.bad('no line of the format', text[at:at + LONGEST])
        self.line += 1
        return found.end()


def read_piece(stream):
    """What has come, as soon as something has."""
    try:
        return stream.read1(PIECE)
    except OSError as fault:
        raise Refused(5, f'text: {fault.strerror}') from None


def spooled(stream, digest):
    """All of a stream, held in a file without a name and counted into a digest, to be read again."""
    held = tempfile.TemporaryFile()
    while piece := read_piece(stream):
        digest.update(piece)
        held.write(piece)
    held.seek(0)
    return held


def opened(path):
    """The text with this path, or standard input where it is `-`."""
    if path == '-':
        return sys.stdin.buffer
    try:
        return open(path, 'rb')
    except OSError as fault:
        raise Refused(5, f'text: {fault.strerror}') from None


class Output:
    """Standard output, written when it is told to."""

    def __init__(self):
        self.parts = []

    def put(self, text):
        """Adds a text."""
        self.parts.append(text)

    def write(self):
        """Writes what was added."""
        octets = memoryview(''.join(self.parts).encode())
        self.parts.clear()
        try:
            while octets:
                octets = octets[os.write(1, octets):]
        except OSError as fault:
            raise Refused(6, f'write fault: {fault.strerror}') from None


def words_of(given, usage, least, most, valued=(), bare=()):
    """The words and the options of a command line: `valued` options have a word after them, `bare` ones none."""
    words, options, given = [], {}, iter(given)
    for word in given:
        if word in ('-h', '--help'):
            print(usage)
            sys.exit(0)
        if word in bare:
            options[word] = True
        elif word in valued:
            options[word] = next(given, None)
            if options[word] is None:
                raise Refused(2, f'{word} needs a word\n{usage}')
        elif word.startswith('-') and word != '-':
            raise Refused(2, f'no option {word}\n{usage}')
        else:
            words.append(word)
    if not least <= len(words) <= most:
        raise Refused(2, usage)
    return words, options


def run(main):
    """Runs a tool. Its faults go to standard error, and a pipe that is closed early ends it without a word, as other tools."""
    signal.signal(signal.SIGPIPE, signal.SIG_DFL)
    signal.signal(signal.SIGINT, signal.SIG_DFL)
    try:
        status = main(sys.argv[1:]) or 0
    except Refused as fault:
        print(fault, file=sys.stderr)
        status = fault.status
    except MemoryError:
        print('no memory', file=sys.stderr)
        status = 7
    sys.exit(status)
