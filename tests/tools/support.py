"""What the tests of the tools share: where things are, how a tool is run, and records and captures written by hand, without the tools."""
import os
import pathlib
import shutil
import struct
import subprocess
import unittest

# a tool has to hand its output on by itself where that matters
os.environ.pop('PYTHONUNBUFFERED', None)

TOP = pathlib.Path(__file__).resolve().parents[2]
TOOLS = TOP / 'tools'
EXAMPLES = TOP / 'examples'
PROGRAM = pathlib.Path(os.environ.get('HK_REPLAY', TOP / 'crates/hk_replay/out/hk_replay'))

BOARD = pathlib.Path(os.environ.get('HK_BOARD', TOP / 'crates/hk_board/out/hk_board'))


def needs_program(test):
    """Marks a test that runs hk_replay: it is skipped where that isn't built, unless HK_REPLAY_NEEDED=1 says that it has to be."""
    if PROGRAM.is_file() or os.environ.get('HK_REPLAY_NEEDED') == '1':
        return test
    return unittest.skip("hk_replay isn't built")(test)


def needs_board(test):
    """The same of hk_board."""
    if BOARD.is_file() or os.environ.get('HK_REPLAY_NEEDED') == '1':
        return test
    return unittest.skip("hk_board isn't built")(test)


def needs(command):
    """Marks a test that runs a command which needn't be there."""
    return unittest.skipUnless(shutil.which(command), f"{command} isn't there")


def run(tool, *words, given=b'', **more):
    """Runs a tool and gives its status, its output and its messages."""
    done = subprocess.run([TOOLS / tool, *map(str, words)], input=given, capture_output=True, check=False, **more)
    return done.returncode, done.stdout, done.stderr.decode()


def replay(*words):
    """Runs hk_replay in the same way."""
    done = subprocess.run([PROGRAM, *map(str, words)], stdin=subprocess.DEVNULL, capture_output=True, check=False)
    return done.returncode, done.stdout, done.stderr.decode()


def entry(kind, octets):
    """An entry of a record."""
    return kind.encode() + struct.pack('>I', len(octets)) + octets


def entries(name):
    """The entries of an example, which has no fault."""
    octets, at, found = (EXAMPLES / name).read_bytes(), 8, []
    while at < len(octets):
        end = at + 5 + struct.unpack_from('>I', octets, at + 1)[0]
        found.append((chr(octets[at]), octets[at + 5:end]))
        at = end
    return found


def tcp_capture(*connections, port=10025):
    """A capture of raw IP: for each connection, from a port of its own, the segments (sequence number, whether it begins the connection,
    octets) of one direction."""
    capture, number = struct.pack('>IHHiIII', 0xa1b2c3d4, 2, 4, 0, 0, 65535, 101), 0
    for source, segments in enumerate(connections, 40_000):
        for sequence, begins, octets in segments:
            tcp = struct.pack('>HHIIBBHHH', source, port, sequence % (1 << 32), 0, 0x50, 2 if begins else 0x18, 1000, 0, 0) + octets
            packet = struct.pack('>BBHHHBBH4B4B', 0x45, 0, 20 + len(tcp), number, 0, 64, 6, 0, 10, 0, 0, 1, 10, 0, 0, 2) + tcp
            capture += struct.pack('>IIII', number, 0, len(packet), len(packet)) + packet
            number += 1
    return capture
