"""The runs of examples/runs.txt. A line has the words of one run, the exit status, and the file of examples/ that holds what the run
writes to standard output, or `-` where that is nothing."""
import pathlib

EXAMPLES = pathlib.Path(__file__).resolve().parent.parent / 'examples'


def runs():
    """The words, the status and the stored file of each run."""
    for line in (EXAMPLES / 'runs.txt').read_text().splitlines():
        if line and not line.startswith('#'):
            *words, status, stored = line.split()
            yield words, int(status), stored


def expected(stored):
    """What a run writes whose stored file has this name."""
    return b'' if stored == '-' else (EXAMPLES / stored).read_bytes()


def shown(octets):
    """A text as it is, and other octets in hexadecimal."""
    if all(octet == 10 or 32 <= octet < 127 for octet in octets):
        return octets.decode()
    return octets.hex() + ' (in hexadecimal)\n'
