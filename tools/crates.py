"""What crates.txt says: which crates there are, which stand on which, and which of them are programs."""
import hashlib
import pathlib

TOP = pathlib.Path(__file__).resolve().parent.parent


def uses():
    """The crates of this repository, each with those that it names, in an order in which each comes after those below it."""
    named = {}
    for line in (TOP / 'crates.txt').read_text().splitlines():
        crate, _, others = line.partition('#')[0].partition(':')
        if others:
            named[crate.split()[0]] = others.split()
    named = {crate: [other for other in others if other in named] for crate, others in named.items()}
    placed = {}
    while len(placed) < len(named):
        ready = [crate for crate in named if crate not in placed and all(other in placed for other in named[crate])]
        if not ready:
            raise SystemExit('crates.txt: some crates stand on each other')
        placed.update((crate, named[crate]) for crate in ready)
    return placed


def below(crate, named):
    """The crates that a crate stands on, itself left out."""
    found, left = set(), list(named[crate])
    while left:
        other = left.pop()
        if other not in found:
            found.add(other)
            left += named[other]
    return found


def above(crate, named):
    """The crates that stand on a crate, itself left out."""
    return {other for other in named if crate in below(other, named)}


def programs(named):
    """The crates that are programs."""
    return [crate for crate in named if (TOP / 'crates' / crate / 'src' / 'main.rt').is_file()]


def built(program):
    """Where a program is, once it is built."""
    return TOP / 'crates' / program / 'out' / program


def sources(program, named):
    """The files that a program is proved and built from."""
    for crate in sorted({program} | below(program, named)):
        for folder in ('src', 'specs', 'proofs'):
            yield from sorted(path for path in (TOP / 'crates' / crate / folder).rglob('*') if path.is_file())


def sum_of(program, named):
    """A checksum of a built program and of all that it was built from."""
    whole = hashlib.sha256(built(program).read_bytes())
    for path in sources(program, named):
        whole.update(f'{path.relative_to(TOP)}\0'.encode() + hashlib.sha256(path.read_bytes()).digest())
    return whole.hexdigest()


def mark(program):
    """Where the checksum of a built program is kept."""
    return built(program).with_suffix('.sources')


def is_current(program, named):
    """Whether a program is built from the sources as they are: by the checksum that tools/build keeps, or else since no source is newer."""
    path = built(program)
    if not path.is_file():
        return False
    if mark(program).is_file():
        return mark(program).read_text() == sum_of(program, named)
    since = path.stat().st_mtime
    return all(source.stat().st_mtime <= since for source in sources(program, named))
