"""Tests of tools/hkrec.py, make_record, split_record and generate_record."""
import contextlib
import io
import os
import random
import signal
import struct
import subprocess
import sys
import tempfile
import unittest

from support import BOARD, EXAMPLES, TOOLS, TOP, entries, entry, needs, needs_board, needs_program, replay, run, tcp_capture

sys.path.insert(0, str(TOOLS))
import hkrec  # noqa: E402

HEADER = bytes.fromhex('484b524543314b0a')
LIMIT = 268_435_456
# record, name, offset, text: by docs/FORMATS.md
FAULTS = [
    (b'', 'BadMagic', None, 'bad magic'),
    (HEADER[:7], 'BadMagic', None, 'bad magic'),
    (b'HKREC3K\n', 'BadMagic', None, 'bad magic'),
    (b'HKREC1X\n', 'BadMagic', None, 'bad magic'),
    (b'HKREC1K\r' + entry('G', b''), 'BadMagic', None, 'bad magic'),
    (HEADER + b'X', 'BadKind', 8, 'bad kind 88 at 8'),
    (HEADER + entry('G', b'abc') + b'\0\0\0\0\0', 'BadKind', 16, 'bad kind 0 at 16'),
    (HEADER + b'x\xff\xff\xff\xff', 'BadKind', 8, 'bad kind 120 at 8'),
    (HEADER + b'G', 'Cut', 8, 'cut at 8'),
    (HEADER + b'J\xff\xff\xff', 'Cut', 8, 'cut at 8'),
    (HEADER + entry('S', b'ab') + entry('G', b'abc')[:-1], 'Cut', 15, 'cut at 15'),
    (HEADER + b'G' + struct.pack('>I', LIMIT - 13), 'Cut', 8, 'cut at 8'),
    (HEADER + b'G' + struct.pack('>I', LIMIT - 12), 'TooLong', 8, 'too long at 8'),
    (HEADER + entry('J', b'a') + b'S\xff\xff\xff\xffabc', 'TooLong', 14, 'too long at 14'),
]


class OneByOne(io.RawIOBase):
    """A file that gives one octet at each reading."""

    def __init__(self, octets):
        self.octets = iter(octets)

    def read(self, _=-1):
        return bytes([octet for _, octet in zip(range(1), self.octets)])


class Parts(io.RawIOBase):
    """A file that gives one part at each reading."""

    def __init__(self, *parts):
        self.parts = iter(parts)

    def read(self, _=-1):
        return next(self.parts, b'')


@contextlib.contextmanager
def at_most(seconds):
    """What waits for longer fails."""
    def late(*_):
        raise TimeoutError(f'nothing came for {seconds} s')

    before = signal.signal(signal.SIGALRM, late)
    signal.alarm(seconds)
    try:
        yield
    finally:
        signal.alarm(0)
        signal.signal(signal.SIGALRM, before)


def fault_of(file):
    """The fault of a record, or None."""
    try:
        for _ in hkrec.Reader(file):
            pass
    except hkrec.Fault as fault:
        return fault
    return None


class Records(unittest.TestCase):
    def test_headers(self):
        for octets, known, long in ((b'HKREC1K\n', True, False), (b'HKREC1U\n', False, False), (b'HKREC2K\n', True, True),
                                    (b'HKREC2U\n', False, True)):
            record = hkrec.Reader(io.BytesIO(octets))
            self.assertEqual((record.known, record.long, list(record)), (known, long, []))
            written = io.BytesIO()
            hkrec.Writer(written, known, long)
            self.assertEqual(written.getvalue(), octets)

    def test_entries(self):
        octets = HEADER + b'S\0\0\0\2ab' + b'G\0\0\0\0' + b'J\0\0\0\4 x y'
        wanted = [(8, b'S', b'ab'), (15, b'G', b''), (20, b'J', b' x y')]
        self.assertEqual(list(hkrec.Reader(io.BytesIO(octets))), wanted)
        self.assertEqual(list(hkrec.Reader(OneByOne(octets))), wanted)
        written = io.BytesIO()
        record = hkrec.Writer(written, known=True)
        for _, kind, inside in wanted:
            record.put(kind, inside)
        self.assertEqual((written.getvalue(), record.octets, record.entries), (octets, 29, 3))

    def test_examples(self):
        for name in ('session.rec', 'cubesat.rec', 'not_started.rec', 'unknown_start.rec'):
            with open(EXAMPLES / name, 'rb') as file:
                self.assertEqual([(kind.decode(), octets) for _, kind, octets in hkrec.Reader(file)], entries(name))

    def test_an_entry_longer_than_a_piece(self):
        long = bytes(range(256)) * 4096
        octets = HEADER + entry('G', b'a') + entry('G', long) + entry('S', b'b')
        wanted = [(8, b'G', b'a'), (14, b'G', long), (14 + 5 + 1048576, b'S', b'b')]
        self.assertEqual(list(hkrec.Reader(io.BytesIO(octets))), wanted)

    def test_faults(self):
        for octets, name, offset, text in FAULTS:
            for file in (io.BytesIO(octets), OneByOne(octets)):
                fault = fault_of(file)
                self.assertEqual((fault.name, fault.offset, str(fault)), (name, offset, 'record: ' + text), octets)

    def test_entries_before_a_fault_are_given(self):
        record = iter(hkrec.Reader(io.BytesIO(HEADER + entry('G', b'abc') + b'X')))
        self.assertEqual(next(record), (8, b'G', b'abc'))
        with self.assertRaises(hkrec.Fault):
            next(record)

    @needs_program
    def test_faults_are_those_of_the_program(self):
        with tempfile.TemporaryDirectory() as folder:
            for octets, _, _, text in FAULTS:
                path = os.path.join(folder, 'a.rec')
                with open(path, 'wb') as file:
                    file.write(octets)
                status, _, said = replay('show', 'builtin', path)
                self.assertEqual((status, said), (4, f'record: {text}\n'), octets)

    def test_a_million_entries_are_the_most(self):
        most = HEADER + entry('G', b'') * 1_000_000
        self.assertIsNone(fault_of(io.BytesIO(most)))
        # what stands there doesn't matter, since no entry may
        self.assertEqual(str(fault_of(Parts(most, b'X'))), 'record: too many entries at 5000008')

    def test_the_writer_refuses_what_the_format_refuses(self):
        record = hkrec.Writer(io.BytesIO(), known=False)
        with self.assertRaises(hkrec.Fault) as raised:
            record.put(b'X', b'')
        self.assertEqual(raised.exception.name, 'BadKind')
        self.assertEqual(record.octets, 8)
        record.octets = LIMIT - 8
        with self.assertRaises(hkrec.Fault) as raised:
            record.put(b'G', b'abcd')
        self.assertEqual(str(raised.exception), 'record: too long at 268435448')
        record.put(b'G', b'abc')
        record.entries = 1_000_000
        with self.assertRaises(hkrec.Fault) as raised:
            record.put(b'G', b'')
        self.assertEqual(raised.exception.name, 'TooManyEntries')

    def test_an_entry_is_given_before_the_next_is_there(self):
        out, into = os.pipe()
        with os.fdopen(out, 'rb') as file, os.fdopen(into, 'wb', buffering=0) as pipe, at_most(60):
            pipe.write(HEADER + entry('G', b'abc'))
            record = iter(hkrec.Reader(file))
            self.assertEqual(next(record), (8, b'G', b'abc'))
            pipe.write(entry('S', b'd'))
            self.assertEqual(next(record), (16, b'S', b'd'))

    def test_primary_header(self):
        # 0x1864 is type 1, secondary header, APID 100; 0xc005 is flags 3, count 5; the length is 8
        self.assertEqual(tuple(hkrec.primary(bytes.fromhex('1864c0050008'))), (0, 1, 1, 100, 3, 5, 8))
        self.assertEqual(tuple(hkrec.primary(bytes.fromhex('ffffffffffff'))), (7, 1, 1, 2047, 3, 16383, 65535))

    def test_packets(self):
        one, two = bytes.fromhex('0001c000000041'), bytes.fromhex('1864c00500024142 43')
        self.assertEqual(list(hkrec.packets(one + two)), [one, two])
        self.assertEqual(list(hkrec.packets(b'')), [])
        for octets, at in ((one + b'\x20', 7), (one + two[:5], 7), (two[:-1], 0), (one + two + b'\xff', 16)):
            with self.assertRaises(hkrec.NotPacket) as raised:
                list(hkrec.packets(octets))
            self.assertEqual(raised.exception.at, at)


class Made(unittest.TestCase):
    """Records that generate_record makes. The numbers are those of `hk_replay generate` in README.md."""

    @classmethod
    def setUpClass(cls):
        status, cls.record, said = run('generate_record', 1, 3200)
        assert (status, said) == (0, ''), said

    def test_counts(self):
        kinds = [kind for _, kind, _ in hkrec.Reader(io.BytesIO(self.record))]
        self.assertEqual((kinds.count(b'S'), kinds.count(b'G')), (200, 18700 + 80))

    def test_packets_by_hand(self):
        """By what docs/FORMATS.md says of the session: the first report, one that comes twice, one that comes late, the first request."""
        packets = [octets for _, _, octets in hkrec.Reader(io.BytesIO(self.record))]
        # parameters 1 to 6 in slot 3, and parameter 37 in slots 1 and 3
        values = struct.pack('>8H', 53, 84, 115, 146, 177, 208, 1155, 1169)
        first = bytes.fromhex('0864c000001d' '20' '0319' '0000' '0001' '000000004001' '01') + values
        self.assertEqual(packets[0], first)
        self.assertEqual(packets[6].hex(), '1864c0000008' '2f' '031f' '0001' '01010002')
        tags = [int.from_bytes(octets[13:19], 'big') for octets in packets]
        twice, late, after = (4 * 20 + 4) * 4096 + 3, (4 * 8 + 4) * 4096 + 2, (4 * 9 + 4) * 4096 + 6
        self.assertEqual((tags.count(twice), tags[tags.index(twice) + 1]), (2, twice))
        self.assertEqual((tags.count(late), tags[tags.index(late) - 1]), (1, after))

    @needs_program
    def test_what_the_program_decides(self):
        with tempfile.TemporaryDirectory() as folder:
            tailoring, path = os.path.join(folder, 'a.toml'), os.path.join(folder, 'a.rec')
            for name, octets in ((tailoring, run('generate_record', '--tailoring')[1]), (path, self.record)):
                with open(name, 'wb') as file:
                    file.write(octets)
            status, text, _ = replay('replay', tailoring, path)
            self.assertEqual(status, 0)
            lines = [line.split() for line in text.decode().splitlines()]
            verdicts = [words[5] for words in lines if words[0] == 'report']
            self.assertEqual((verdicts.count('decided'), verdicts.count('undecidable')), (14378, 3862))
            self.assertEqual(sum(words[0] == 'value' for words in lines), 105440)
            self.assertIn(['repeats', '80'], lines)

    def test_wrong_words(self):
        for words in ((), ('1',), ('1', '0'), ('1', '100001'), ('4294967296', '1'), ('-1', '1')):
            self.assertEqual(run('generate_record', *words)[:2], (2, b''))


class FromLines(unittest.TestCase):
    def lines(self):
        return ''.join(f'{"sent" if kind == "S" else "got"} {octets.hex()}\n' for kind, octets in entries('asked_again.rec'))

    def test_lines(self):
        wanted = (EXAMPLES / 'asked_again.rec').read_bytes()
        self.assertEqual(run('make_record', 'lines', '-', '--known', given=self.lines().encode()), (0, wanted, ''))
        wordy = '# a comment\n\n' + self.lines().upper().replace('SENT', ' sent').replace('GOT', 'got ')
        unknown_long = run('make_record', 'lines', '-', '--unknown', '--long', given=wordy.encode())
        self.assertEqual(unknown_long, (0, b'HKREC2U\n' + wanted[8:], ''))

    def test_what_is_no_packet(self):
        good, kept = self.lines().encode(), (EXAMPLES / 'asked_again.rec').read_bytes()
        for line, told in (
            ('got', 'line 7: neither'),
            ('seen 1864c00000000f', 'line 7: neither'),
            ('got 18 6', 'line 7: neither'),
            ('got f864c000000041', 'line 7, octet 0: the version is 7'),
            ('got 1864c0', 'line 7, octet 0: 3 of the 6 octets of a primary header'),
            ('got 1864c000000241', 'line 7, octet 0: 9 octets by its data length, and 7 are there'),
            ('got 1864c00000004102', 'line 7, octet 7: 1 of the 6 octets of a primary header'),
            ('sent 1864c000000041 1864c000000041', 'line 7: 2 packets'),
        ):
            given = good + line.encode() + b'\n' + b'got 0001c000000041\n'
            status, _, said = run('make_record', 'lines', '-', '--known', given=given)
            self.assertEqual((status, said.startswith(f'make_record: {told}')), (3, True), said)
            status, record, said = run('make_record', 'lines', '-', '--known', '--leave-out', given=given)
            self.assertEqual((status, record), (0, kept + entry('G', bytes.fromhex('0001c000000041'))), said)
            self.assertTrue(said.startswith(f'make_record: {told}') and said.endswith('left out\n'), said)

    def test_a_file_appears_only_when_it_is_whole(self):
        with tempfile.TemporaryDirectory() as folder:
            path = os.path.join(folder, 'a.rec')
            self.assertEqual(run('make_record', 'lines', '-', '--known', '-o', path, given=b'got 00\n')[0], 3)
            self.assertEqual(os.listdir(folder), [])
            self.assertEqual(run('make_record', 'lines', '-', '--known', '-o', path, given=self.lines().encode())[:2], (0, b''))
            with open(path, 'rb') as file:
                self.assertEqual(file.read(), (EXAMPLES / 'asked_again.rec').read_bytes())
            self.assertEqual(os.listdir(folder), ['a.rec'])

    def test_statuses(self):
        self.assertEqual(run('make_record', 'lines', '/no/such', '--known')[0], 5)
        for words in (('lines', '-'), ('lines', '-', '--known', '--unknown'), ('pcap', '-', '--known'), ('files', '-', '--known'),
                      ('lines', '-', '--known', '--sent-to', '1'), ('pcap', '-', '--known', '--by-type', '--got-to', '1')):
            self.assertEqual(run('make_record', *words)[:2], (2, b''), words)
        with open('/dev/full', 'wb') as full:
            done = subprocess.run([TOOLS / 'make_record', 'lines', '-', '--known'], input=b'', stdout=full, stderr=subprocess.PIPE,
                                  check=False)
        self.assertEqual(done.returncode, 6)

    def test_each_line_is_written_before_the_next_is_read(self):
        with subprocess.Popen([TOOLS / 'make_record', 'lines', '-', '--known'], stdin=subprocess.PIPE, stdout=subprocess.PIPE) as tool:
            tool.stdin.write(b'got 0001c000000041\n')
            tool.stdin.flush()
            try:
                with at_most(60):
                    self.assertEqual(tool.stdout.read(8 + 5 + 7), HEADER + entry('G', bytes.fromhex('0001c000000041')))
            finally:
                tool.stdin.close()


class FromFiles(unittest.TestCase):
    def make(self, times, sent=None, got=None, *words):
        """Runs the tool on the packets of asked_again.rec, or on other octets."""
        kept = entries('asked_again.rec')
        sent = b''.join(octets for kind, octets in kept if kind == 'S') if sent is None else sent
        got = b''.join(octets for kind, octets in kept if kind == 'G') if got is None else got
        with tempfile.TemporaryDirectory() as folder:
            for name, octets in (('sent', sent), ('got', got), ('times.csv', times.encode())):
                with open(os.path.join(folder, name), 'wb') as file:
                    file.write(octets)
            return run('make_record', 'files', 'sent', 'got', 'times.csv', '--known', *words, cwd=folder)

    def test_files(self):
        # S G S G G G
        wanted = (0, (EXAMPLES / 'asked_again.rec').read_bytes(), '')
        self.assertEqual(self.make('which,time\nsent,1\nsent,3\ngot,2\ngot,3\ngot,4.5\ngot,10\n'), wanted)
        iso = 'sent,2026-12-02T12:00:00Z\ngot,2026-12-02T13:00:00.5+01:00\nsent,2026-12-02 12:00:01\n' \
            + ''.join(f'got,2026-12-02T12:00:0{second}Z\n' for second in (2, 3, 4))
        self.assertEqual(self.make(iso), wanted)

    def test_order_of_times(self):
        times = 'got,5\ngot,1\ngot,3\ngot,4\nsent,9\nsent,0\n'
        sent, *got = ([octets for kind, octets in entries('asked_again.rec') if kind == wanted] for wanted in 'SG')
        got = got[0]
        order = [('S', sent[1]), ('G', got[1]), ('G', got[2]), ('G', got[3]), ('G', got[0]), ('S', sent[0])]
        self.assertEqual(self.make(times), (0, HEADER + b''.join(entry(*pair) for pair in order), ''))

    def test_faults(self):
        for times, told in (
            ('sent,1\nsent,3\ngot,2\ngot,3\ngot,4\n', 'got: the last 1 packets have no time in times.csv'),
            ('sent,1\nsent,3\nsent,3\ngot,2\ngot,3\ngot,4\ngot,5\n', 'times.csv, line 3: no packet is left for this time'),
            ('sent,1\nsent,never\n', 'times.csv, line 2: no row of'),
            ('sent,1\nsent\n', 'times.csv, line 2: no row of'),
            ('sent,1\nseen,2\n', 'times.csv, line 2: no row of'),
        ):
            status, record, said = self.make(times)
            self.assertEqual((status, record, said.startswith(f'make_record: {told}')), (3, HEADER, True), said)

    def test_octets_that_are_no_packet(self):
        one = bytes.fromhex('0001c000000041')
        status, record, said = self.make('got,1\ngot,2\n', b'', one + b'\xff' + one)
        self.assertEqual((status, record, said), (3, HEADER, 'make_record: got, octet 7: the version is 7\n'))
        status, record, said = self.make('got,1\n', b'', one + b'\xff' + one, '--leave-out')
        self.assertEqual((status, record), (0, HEADER + entry('G', one)))
        self.assertIn('got, octet 7: the version is 7: left out', said)


@needs('tshark')
class FromCaptures(unittest.TestCase):
    """The two captures were made by `dumpcap` on sockets of this machine. Their packets are those of asked_again.rec."""

    def test_udp(self):
        wanted = (EXAMPLES / 'asked_again.rec').read_bytes()
        capture = EXAMPLES / 'asked_again.pcap'
        for words in (('--sent-from', 10015, '--got-from', 10025), ('--by-type', '--port', 10025)):
            status, record, said = run('make_record', 'pcap', capture, *words, '--known', '--leave-out')
            self.assertEqual((status, record, said), (0, wanted, 'make_record: frame 4, octet 0: the version is 3: left out\n'))
        self.assertEqual(run('make_record', 'pcap', capture, '--by-type', '--known')[::2],
                         (3, 'make_record: frame 4, octet 0: the version is 3\n'))
        only = run('make_record', 'pcap', capture, '--by-type', '--known', '--filter', 'frame.number != 4')
        self.assertEqual(only, (0, wanted, ''))
        none = run('make_record', 'pcap', capture, '--by-type', '--port', 9, '--unknown')
        self.assertEqual(none, (0, b'HKREC1U\n', ''))

    def test_standard_input(self):
        given = (EXAMPLES / 'asked_again.pcap').read_bytes()
        status, record, _ = run('make_record', 'pcap', '-', '--by-type', '--known', '--leave-out', given=given)
        self.assertEqual((status, record), (0, (EXAMPLES / 'asked_again.rec').read_bytes()))

    def test_tcp(self):
        capture = TOP / 'tests/tools/asked_again_tcp.pcap'
        for words in (('--sent-to', 10025, '--got-from', 10025), ('--by-type',)):
            made = run('make_record', 'pcap', capture, *words, '--known')
            self.assertEqual(made, (0, (EXAMPLES / 'asked_again.rec').read_bytes(), ''))

    def test_tcp_segments_in_any_order(self):
        packets = [struct.pack('>HHH', 0x1864, 0xc000 | number, 3) + b'abcd' for number in range(5)]
        stream, first = b''.join(packets), (1 << 32) - 20
        wanted = HEADER + b''.join(entry('S', packet) for packet in packets)

        def cut(*places):
            return [(first + 1 + begin, False, stream[begin:end]) for begin, end in places]

        orders = [
            cut((0, 50)),
            cut((0, 3), (3, 12), (12, 50)),
            cut((0, 10), (30, 40), (20, 30), (10, 20), (40, 50)),
            cut((0, 10), (0, 10), (10, 30), (15, 25), (25, 50)),
            cut((30, 50), (5, 35), (0, 5), (0, 50)),
        ]
        connections = [[(first, True, b'')] + segments for segments in orders]
        # the last one is captured from its middle on
        made = self.of_capture(tcp_capture(*connections, cut((20, 50))))
        self.assertEqual(made, (0, HEADER + wanted[8:] * 5 + wanted[8 + 30:], ''))

    def test_tcp_with_faults(self):
        packet = struct.pack('>HHH', 0x1864, 0xc000, 3) + b'abcd'
        connections = [
            [(9, True, b''), (10, False, packet), (30, False, packet)],
            [(9, True, b''), (10, False, packet + packet[:7])],
            [(10, False, packet), (20, False, b'\xff'), (21, False, packet)],
        ]
        told = ('octets are missing in the capture after 0 of a packet', 'it ends after 7 octets of a packet',
                'frame 7, octet 0: the version is 7')
        status, record, said = self.of_capture(tcp_capture(*connections), '--leave-out')
        self.assertEqual((status, record, said.count('left out')), (0, HEADER + entry('S', packet) * 3, 3), said)
        for text in told:
            self.assertIn(text, said)
        for connection, text in zip(connections, told):
            status, _, said = self.of_capture(tcp_capture(connection))
            self.assertEqual((status, text.replace('frame 7', 'frame 2') in said), (3, True), said)

    @needs('editcap')
    def test_frames_that_are_cut_off(self):
        """`editcap -s` keeps the first octets of each frame: a datagram begins after 42, a segment of this capture after 66."""
        for name, kept, told in (
            ('examples/asked_again.pcap', 42 + 15, 'frame 2: 15 of 26 octets were captured'),
            ('examples/asked_again.pcap', 42, 'frame 1: 0 of 15 octets were captured'),
            ('tests/tools/asked_again_tcp.pcap', 66 + 4, 'frame 6: 4 of 11 octets were captured'),
            ('tests/tools/asked_again_tcp.pcap', 36, "frame 1: its header isn't all there"),
        ):
            cut = subprocess.run(['editcap', '-s', str(kept), TOP / name, '-'], stdout=subprocess.PIPE, check=True).stdout
            made = run('make_record', 'pcap', '-', '--by-type', '--known', given=cut)
            self.assertEqual(made[::2], (3, f'make_record: {told}\n'))

    def of_capture(self, octets, *words):
        with tempfile.NamedTemporaryFile(suffix='.pcap') as file:
            file.write(octets)
            file.flush()
            return run('make_record', 'pcap', file.name, '--sent-to', 10025, '--known', *words)

    def test_no_capture(self):
        self.assertEqual(run('make_record', 'pcap', '/no/such', '--by-type', '--known')[0], 5)
        self.assertEqual(run('make_record', 'pcap', TOP / 'README.md', '--by-type', '--known')[0], 7)


def header_lines(capture, *options):
    """What tshark reads of each primary header: version, type, APID, sequence flags, sequence count and data length."""
    words = ['tshark', '-n', '-r', '-', *options, '-T', 'fields', '-E', 'occurrence=f']
    for field in ('version', 'type', 'apid', 'seqflag', 'seqnum', 'length'):
        words += ['-e', f'ccsds.{field}']
    text = subprocess.run(words, input=capture, stdout=subprocess.PIPE, stderr=subprocess.DEVNULL, check=True).stdout.decode()
    return [tuple(map(int, line.split('\t'))) for line in text.splitlines()]


UDP = ('-d', 'udp.port==10025,ccsds', '-d', 'udp.port==10015,ccsds')
BARE = ('-o', 'uat:user_dlts:"User 0 (DLT=147)","ccsds","0","","0",""')


class Split(unittest.TestCase):
    def requests(self):
        """The requests that `hk_replay encode` makes of examples/requests.txt: run where it is built, else as stored. Each has APID 100,
        flags 3 and its number as count; the lengths are those of docs/FORMATS.md: 4, and the octets of the body."""
        record = (EXAMPLES / 'requests.rec').read_bytes()
        return record, [(0, 1, 100, 3, number, 4 + body) for number, body in enumerate((2, 4, 2, 2, 5, 5, 1, 11))]

    @needs('tshark')
    def test_ten_thousand_packets(self):
        rng = random.Random(20)
        record, wanted = self.requests()
        parts = [record]
        while len(wanted) < 10_000:
            kind, apid, flags, count = rng.randrange(2), rng.randrange(2048), rng.randrange(4), rng.randrange(16_384)
            size = rng.choice((1, 2, 7, 60, rng.randrange(1, 400)))
            if len(wanted) % 1000 == 0:
                size = rng.randrange(1, 65_502)
            secondary = rng.randrange(2)
            packet = struct.pack('>HHH', kind << 12 | secondary << 11 | apid, flags << 14 | count, size - 1) + rng.randbytes(size)
            parts.append(entry('SG'[rng.randrange(2)], packet))
            if len(wanted) % 10 == 0:
                parts.append(entry('J', b'4096 emitted'))
            wanted.append((0, kind, apid, flags, count, size - 1))
        record = b''.join(parts)
        for words, options in (((), UDP), (('--bare',), BARE)):
            status, capture, said = run('split_record', '-', *words, given=record)
            self.assertEqual((status, said), (0, ''))
            self.assertEqual(header_lines(capture, *options), wanted)
        # and back, with all but the lines of the journal
        status, capture, _ = run('split_record', '-', given=record)
        status, back, said = run('make_record', 'pcap', '-', '--sent-to', 10025, '--got-to', 10015, '--known', given=capture)
        self.assertEqual((status, said), (0, ''))
        self.assertEqual(back, b''.join(part for part in parts if part[:1] != b'J'))

    @needs_program
    @needs('tshark')
    def test_requests_that_the_program_writes(self):
        _, wanted = self.requests()
        status, record, _ = replay('encode', 'builtin', EXAMPLES / 'requests.txt')
        self.assertEqual(status, 0)
        self.assertEqual(header_lines(run('split_record', '-', given=record)[1], *UDP), wanted)

    @needs_board
    @needs('tshark')
    def test_packets_that_a_board_writes(self):
        """A board that reports for 4,000 slots, through a link that repeats and delays. What tshark reads of each packet is compared with its
        octets; what was sent are requests and what came are reports, of APID 100, unsegmented."""
        lines = ['start known', 'slots 4000', 'seed 3', 'loss 0 0', 'repeat 0 20', 'delay 3']
        lines += [f'send {2 * n} 1864c0{n:02x}00062f0305000101{1 + n % 6:02x}' for n in range(6)]
        with tempfile.NamedTemporaryFile(suffix='.script') as script:
            script.write(''.join(f'{line}\n' for line in lines).encode())
            script.flush()
            record = subprocess.run([BOARD, 'run', 'builtin', script.name], stdout=subprocess.PIPE, check=True).stdout
        wanted, at = [], 8
        while at < len(record):
            kind, size = record[at:at + 1], int.from_bytes(record[at + 1:at + 5], 'big')
            packet = record[at + 5:at + 5 + size]
            at += 5 + size
            if kind != b'J':
                first, second, length = struct.unpack('>HHH', packet[:6])
                self.assertEqual((first & 0xf7ff, second >> 14, length), (0x1064 if kind == b'S' else 0x0064, 3, size - 7))
                wanted.append((0, int(kind == b'S'), 100, 3, second & 0x3fff, size - 7))
        self.assertEqual(sum(kind for _, kind, *_ in wanted), 6)
        self.assertGreater(len(wanted), 1000)
        self.assertEqual(header_lines(run('split_record', '-', given=record)[1], *UDP), wanted)

    def test_the_octets_of_a_capture(self):
        """A request of 11 octets, worked out by hand: IPv4 and UDP headers with their checksums (RFC 791, 768, 1071)."""
        packet = bytes.fromhex('1864c00000042f04030001')[:10] + b'\x01'
        status, capture, _ = run('split_record', '-', given=HEADER + entry('J', b'x') + entry('S', packet))
        self.assertEqual(status, 0)
        self.assertEqual(capture[:24].hex(), 'a1b2c3d4' '0002' '0004' '00000000' '00000000' '00040000' '000000e4')
        # entry number 1, so one millisecond; 20 + 8 + 11 octets
        self.assertEqual(capture[24:40].hex(), '00000000' '000003e8' '00000027' '00000027')
        self.assertEqual(capture[40:50].hex(), '45000027' '00010000' '4011')
        self.assertEqual(capture[52:64].hex(), 'c0000201' 'c0000202' '271f' '2729')
        self.assertEqual(capture[64:66].hex(), '0013')
        self.assertEqual(capture[68:], packet)
        for part in (capture[40:60], capture[52:60] + b'\0\x11\0\x13' + capture[60:] + b'\0'):
            # with its checksum in it, the sum is all ones
            self.assertEqual(sum(struct.unpack(f'>{len(part) // 2}H', part)) % 65535, 0)

    def test_what_cannot_stand(self):
        longest = bytes.fromhex('0801c000ffff') + bytes(65_536)
        fits = bytes.fromhex('0801c000ffdc') + bytes(65_501)
        for octets, told in (
            (b'', 'entry 1 at 20: 0 packets'),
            (b'\xff', 'entry 1 at 20: octet 0: the version is 7'),
            (bytes(7) * 2, 'entry 1 at 20: 2 packets'),
            (longest, 'entry 1 at 20: 65542 octets are too many for a datagram (--bare takes them)'),
        ):
            record = HEADER + entry('G', bytes(7)) + entry('G', octets) + entry('G', fits)
            self.assertEqual(run('split_record', '-', given=record)[::2], (3, f'split_record: {told}\n'))
            status, capture, said = run('split_record', '-', '--leave-out', given=record)
            self.assertEqual((status, said), (0, f'split_record: {told}: left out\n'))
            self.assertEqual(len(capture), 24 + 16 + 28 + 7 + 16 + 28 + 65_507)
        status, capture, _ = run('split_record', '-', '--bare', given=HEADER + entry('G', longest))
        self.assertEqual((status, capture[20:24].hex(), capture[40:]), (0, '00000093', longest))

    def test_statuses(self):
        self.assertEqual(run('split_record', EXAMPLES / 'cut.rec')[::2], (4, 'split_record: record: cut at 8\n'))
        self.assertEqual(run('split_record', EXAMPLES / 'bad_kind.rec')[::2], (4, 'split_record: record: bad kind 88 at 8\n'))
        self.assertEqual(run('split_record', '/no/such')[0], 5)
        self.assertEqual(run('split_record')[0], 2)


if __name__ == '__main__':
    unittest.main()
