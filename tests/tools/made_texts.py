"""A large text as `hk_replay replay` writes it, made from what docs/FORMATS.md says of the session of `generate`: which requests and
packets are lost, and what every sample is."""
ROUNDS = 50_000   # rounds of a session whose record has about 300,000 entries
STRUCTURES = 6


def entries(rounds):
    """The number of entries of the session's record: requests, verification reports and parameter reports that came."""
    total = 0
    for at in range(rounds):
        if at % 20 != 10:
            total += STRUCTURES + (at % 40 == 20)
        if at % 16 == 0:
            which = at // 16 % 10
            total += 1 + {9: 0, 4: 0, 6: 2}.get(which, 3)
    return total


def parameters(structure):
    """The parameters of a structure: its simple ones, and the one of its array of repetition 2, where it has one."""
    return list(range(6 * structure - 5, 6 * structure + 1)), [36 + structure] if structure <= 4 else []


def blocks(seed, rounds):
    """Each block's text, in the order of tags."""
    interval = dict.fromkeys(range(1, STRUCTURES + 1), 4)
    opened = {}    # structure: the request that leaves it open, and the last round before a later request decides it again
    untold = {}    # structure: its first request of which nothing ever tells; it is the one that is named
    for at in range(rounds):
        last = 4 * at + 3
        for structure in range(1, STRUCTURES + 1) if at % 20 != 10 else ():
            head = f'report hk {structure} tag {(4 * at + 4) * 4096 + structure} '
            request, until = opened.get(structure, (None, 0))
            if at <= until and request is not None:
                yield f'{head}undecidable {request}\n'
                continue
            simple, array = parameters(structure)
            places = [(parameter, last) for parameter in simple]
            places += [(parameter, last - interval[structure] + step * interval[structure] // 2) for step in (1, 2) for parameter in array]
            yield f'{head}decided interval {interval[structure]}\n' + ''.join(
                [f'value {parameter} slot {slot} = {(seed + 31 * parameter + 7 * slot) % 65536}\n' for parameter, slot in places])
        if at % 16 == 0:
            request = at // 16
            structure = 1 + request % 6
            if request % 10 in (4, 6, 9):
                if request % 10 != 6:
                    untold.setdefault(structure, request)
                opened[structure] = untold.get(structure, request), at + (16 if request % 10 == 6 else 96)
            if request % 10 != 9:
                interval[structure] = 2 if request // 6 % 2 == 0 else 4


def text(seed, rounds):
    """The whole text. The reports that came twice are counted."""
    repeats = len([at for at in range(rounds) if at % 40 == 20])
    return ''.join(blocks(seed, rounds)) + (f'repeats {repeats}\n' if repeats else '')
