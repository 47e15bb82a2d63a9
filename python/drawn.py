"""Draws captures for the tests: random ones, with edges that are moved, dropped or added."""

import random

import kuzhenga

# Values that are seldom random: at rest, zero periods, the acknowledgement of EDT, and the largest speed.
RARE_VALUES = (0xFFF, 0x000, 0x200, 0x800, 0xE00, 0x001)


def jittered(samples, random_source):
    """The samples with each edge moved by at most one sample, as `kuzhenga make` does it."""
    moved = list(samples)
    shift = 0
    for place in range(1, len(samples)):
        if samples[place] == samples[place - 1]:
            continue
        shift = max(-1, min(1, shift + random_source.choice((-1, 0, 1))))
        if shift < 0:
            moved[place - 1] = samples[place]
        elif shift > 0:
            moved[place] = samples[place - 1]
    return moved


def turned(samples, start, end, mask):
    """The samples with the line's level turned around from a place up to another: at both an edge more, or one less."""
    return list(samples[:start]) + [sample ^ mask for sample in samples[start:end]] + list(samples[end:])


def noisy(samples, mask, random_source):
    """The samples with random bits of other pins."""
    return [sample | random_source.getrandbits(16) & ~mask & 0xFFFF for sample in samples]


def value(random_source):
    """A value: any, one that EDT uses, or a rare one."""
    return random_source.choice((
        random_source.getrandbits(12),
        random_source.randrange(1, 8) << 9 | random_source.getrandbits(8),
        random_source.choice(RARE_VALUES),
    ))


def capture(random_source):
    """A capture of a random reply: about half have jitter alone, others have wrong edges too, and some are cut off."""
    lead, edt = random_source.randrange(80), random_source.random() < 0.6
    mask = random_source.choice((1 << random_source.randrange(16), random_source.randrange(1, 0x10000)))
    count = lead + 69 + random_source.randrange(100)
    made = kuzhenga.make_capture(value=value(random_source), lead=lead, mask=mask, samples=count, edt=edt)
    samples = jittered(made.samples, random_source)
    if random_source.random() < 0.5:
        for _ in range(random_source.choice((1, 1, 2, 8))):
            start = lead + 3 * random_source.randrange(30)
            samples = turned(samples, start, random_source.choice((max(start, lead + 63), count)), mask)
    if random_source.random() < 0.05:
        samples = samples[:random_source.randrange(lead + 60)]
    return kuzhenga.Capture(noisy(samples, mask, random_source), mask, edt)


def captures(seed, count):
    random_source = random.Random(seed)
    return [capture(random_source) for _ in range(count)]


def files(seed, count):
    """Bytes that are capture files, nearly are, or are not at all, and some that are longer than any."""
    random_source = random.Random(seed)
    made = []
    for drawn in captures(seed, count):
        data = bytearray(drawn.to_bytes())
        made.append(bytes(data) + b"\x00")
        made.append(bytes(data[:random_source.randrange(len(data))]))
        data[random_source.randrange(len(data))] = random_source.getrandbits(8)
        made.append(bytes(data))
        made.append(bytes(random_source.getrandbits(8) for _ in range(random_source.randrange(40))))
    longest = kuzhenga.Capture([0xFFFF] * kuzhenga.FILE_SAMPLES, 0xFFFF, True).to_bytes()
    return made + [b"", longest, longest + b"x", longest + bytes(60000)]
