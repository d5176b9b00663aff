"""Reads and writes session records, as docs/FORMATS.md describes them, and cuts space packets by their primary headers.

This module isn't proved. It stands on docs/FORMATS.md alone, shares nothing with the crates, and decodes no packet: it sees the kind,
the length and the octets of an entry, and the six octets of a primary header. Only Python's standard library is used.

    with open('session.rec', 'rb') as file:
        record = hkrec.Reader(file)
        for offset, kind, octets in record:
            ...

    record = hkrec.Writer(sys.stdout.buffer, known=True)
    record.put(hkrec.SENT, packet)

A reader holds one piece of the record and never the whole; it gives an entry as soon as its octets are there, also from a pipe. What the
format refuses is a Fault, whose text is what `hk_replay` says of it."""
import os
import struct
import sys
from typing import NamedTuple

MOST_OCTETS = 268_435_456
MOST_ENTRIES = 1_000_000
MOST_OF_PACKET = 65_542
SENT, GOT, JOURNAL = b'S', b'G', b'J'
KINDS = {ord('S'): SENT, ord('G'): GOT, ord('J'): JOURNAL}
PIECE = 1 << 18

ENTRY = struct.Struct('>BI')
PRIMARY = struct.Struct('>HHH')


class Fault(Exception):
    """What the format refuses: the fault's name as in docs/FORMATS.md, the offset of its entry, and a kind octet that is none."""

    def __init__(self, name, offset=None, kind=None):
        self.name, self.offset, self.kind = name, offset, kind
        super().__init__(str(self))

    def __str__(self):
        told = {
            'BadMagic': 'bad magic',
            'BadKind': f'bad kind {self.kind} at {self.offset}',
            'Cut': f'cut at {self.offset}',
            'TooLong': f'too long at {self.offset}',
            'TooManyEntries': f'too many entries at {self.offset}',
        }
        return 'record: ' + told[self.name]


def header(known, long=False):
    """The first eight octets of a record: whether the board's state at the start is known, and whether the session is a long one."""
    return b'HKREC%c%c\n' % (b'2' if long else b'1', b'K' if known else b'U')


HEADERS = {header(known, long): (known, long) for known in (True, False) for long in (True, False)}


class Reader:
    """A record, read from a binary file or a pipe. `known` and `long` are what its header says. Going over it gives the offset, the
    kind (SENT, GOT or JOURNAL) and the octets of each entry, once. Making one and going over it raise Fault."""

    def __init__(self, file):
        # read1 gives what is there; a raw file's read does so too
        self.more = getattr(file, 'read1', file.read)
        self.held = self._filled(b'', 8)
        if self.held[:8] not in HEADERS:
            raise Fault('BadMagic')
        self.known, self.long = HEADERS[self.held[:8]]

    def _filled(self, held, wanted):
        """The octets that are held with those that follow, until there are as many as wanted or no more come."""
        parts, size = [held], len(held)
        while size < wanted:
            part = self.more(PIECE)
            if not part:
                break
            parts.append(part)
            size += len(part)
        return b''.join(parts)

    def __iter__(self):
        # `before` octets of the record were let go; `held` has the next ones, and the next entry begins at `at` of it
        held, at, before = self.held, 8, 0
        unpack, kind_of, size = ENTRY.unpack_from, KINDS.get, len(self.held)
        for _ in range(MOST_ENTRIES):
            if size - at < 5:
                before, held, at = before + at, self._filled(held[at:], 5), 0
                size = len(held)
                if not size:
                    return
                if size < 5:
                    raise Fault('Cut', before) if held[0] in KINDS else Fault('BadKind', before, held[0])
            octet, length = unpack(held, at)
            kind = kind_of(octet)
            if kind is None:
                raise Fault('BadKind', before + at, octet)
            end = at + 5 + length
            if end > size:
                if before + end > MOST_OCTETS:
                    raise Fault('TooLong', before + at)
                before, end, held, at = before + at, end - at, self._filled(held[at:], end - at), 0
                size = len(held)
                if end > size:
                    raise Fault('Cut', before)
            elif before + end > MOST_OCTETS:
                raise Fault('TooLong', before + at)
            yield before + at, kind, held[at + 5:end]
            at = end
        if at < size or self._filled(b'', 1):
            raise Fault('TooManyEntries', before + at)


class Writer:
    """A record, written to a binary file. Making one writes the header. An entry that a record can't take is a Fault and isn't written."""

    def __init__(self, file, known, long=False):
        self.file, self.octets, self.entries = file, 8, 0
        file.write(header(known, long))

    def put(self, kind, octets):
        """Writes an entry: SENT or GOT with a packet, JOURNAL with a line without its line feed."""
        if kind not in KINDS.values():
            raise Fault('BadKind', self.octets, kind[0])
        if self.entries == MOST_ENTRIES:
            raise Fault('TooManyEntries', self.octets)
        end = self.octets + 5 + len(octets)
        if end > MOST_OCTETS:
            raise Fault('TooLong', self.octets)
        self.file.write(ENTRY.pack(kind[0], len(octets)) + octets)
        self.octets = end
        self.entries += 1


class Primary(NamedTuple):
    """The fields of a primary header (CCSDS 133.0-B, 4.1.3)."""

    version: int
    type: int
    secondary_header: int
    apid: int
    sequence_flags: int
    sequence_count: int
    data_length: int

    def octets(self):
        """The octets of the whole packet: the data length field is one less than those after the primary header."""
        return self.data_length + 7


def primary(octets, at=0):
    """The primary header at a place where six octets are."""
    first, second, length = PRIMARY.unpack_from(octets, at)
    return Primary(first >> 13, first >> 12 & 1, first >> 11 & 1, first & 0x7ff, second >> 14, second & 0x3fff, length)


class NotPacket(Exception):
    """Octets that aren't space packets, one after the other: where the first that isn't one begins, and why it isn't."""

    def __init__(self, at, why):
        self.at, self.why = at, why
        super().__init__(f'octet {at}: {why}')


def packet_end(octets, at=0):
    """Where the packet at a place ends, or None where its primary header isn't all there; NotPacket where its version isn't 0."""
    if at < len(octets) and octets[at] >> 5:
        raise NotPacket(at, f'the version is {octets[at] >> 5}')
    if len(octets) - at < 6:
        return None
    return at + 7 + (octets[at + 4] << 8 | octets[at + 5])


def packets(octets):
    """The space packets that stand one after the other in some octets. NotPacket comes after those that do stand."""
    at = 0
    while at < len(octets):
        end = packet_end(octets, at)
        left = len(octets) - at
        if end is None:
            raise NotPacket(at, f'{left} of the 6 octets of a primary header')
        if end > len(octets):
            raise NotPacket(at, f'{end - at} octets by its data length, and {left} are there')
        yield octets[at:end]
        at = end


class Stop(Exception):
    """The end of a tool: its status, and a line for standard error."""

    def __init__(self, status, text):
        self.status, self.text = status, text
        super().__init__(text)


def tell(text):
    """A line on standard error, with the name of the tool in front."""
    print(f'{os.path.basename(sys.argv[0])}: {text}', file=sys.stderr)


def ended(main):
    """Runs a tool with the words of the command line and gives its status: that of a Stop, or 6 where the output can't be written. A
    reader of a pipe that goes away early ends the tool quietly."""
    try:
        status = main(sys.argv[1:])
        sys.stdout.flush()
        return status
    except Stop as stop:
        tell(stop.text)
        return stop.status
    except KeyboardInterrupt:
        return 130
    except BrokenPipeError:
        status = 0
    except OSError as fault:
        tell(f'write fault: {fault.strerror}')
        status = 6
    # what is still held can't go anywhere
    os.dup2(os.open(os.devnull, os.O_WRONLY), sys.stdout.fileno())
    return status


def opened(path):
    """A file to read octets from; `-` is standard input. Stop with status 5 where it can't be opened."""
    if path == '-':
        return sys.stdin.buffer
    try:
        return open(path, 'rb')
    except OSError as fault:
        raise Stop(5, f'read fault: {path}: {fault.strerror}') from None


class Output:
    """Where octets go: standard output, held in pieces, or a file that appears under its name only once all is written. A `with` block gives
    the file and ends it."""

    def __init__(self, path):
        self.path = path
        self.file = open(f'{path}.part', 'wb') if path else open(sys.stdout.fileno(), 'wb', closefd=False)

    def __enter__(self):
        return self.file

    def __exit__(self, kind, *_):
        if not self.path:
            self.file.flush()
            return
        self.file.close()
        if kind is None:
            os.replace(f'{self.path}.part', self.path)
        else:
            os.unlink(f'{self.path}.part')
