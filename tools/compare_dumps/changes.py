"""Draws the times and changes of a dump, at random or as a reply on the signal's line."""

import declared

LAST_TIME = 2**62 - 1
STEPS = (1, 1, 3, 100, 4440, 2**20, 2**31, 2**32 - 1, 2**32, 2**44, 2**59, 2**61)
VECTORS = (b"b0", b"b1", b"B1", b"bx", b"bz", b"b01xXzZ", b"BZZ10")
REALS = (
    b"r0", b"r1.5", b"R-.5e+10", b"r+3.", b"rinf", b"r-INF", b"rNaN", b"R1e5", b"r1E-05", b"r0.1234567890123456", b"r.5",
)
BLOCKS = (b"$dumpvars", b"$dumpall", b"$dumpon", b"$dumpoff")
# Words with the transition bits of replies, as the captures of this repository hold them. The last is damaged.
REPLIES = (
    0x17673B, 0x1B6553, 0x17BDF9, 0x1D6776, 0x156B2D, 0x1F3DF3, 0x1DA776, 0x19BFB7, 0x1766BD, 0x196D35, 0x1EF72F, 0x1EF72E,
)


def time_word(source, time):
    zeros = source.choice((0, 0, 0, 0, 0, 0, 1, 2, 20)) if source.random() < 0.3 else 0
    if source.random() < 0.001:
        zeros = 5000
    return b"#" + b"0" * zeros + str(time).encode()


def value(source):
    return source.choice((b"0", b"1")) if source.random() < 0.97 else source.choice((b"x", b"X", b"z", b"Z"))


def change(source, code, codes):
    """A change as words: mostly a scalar, of the signal or another code."""
    chance = source.random()
    if chance < 0.5:
        return [value(source) + code]
    other = source.choice([*codes, b"$end", b"undeclared", code + b"!"])
    if chance < 0.8:
        return [value(source) + other]
    other = b"undeclared" if other == b"$end" else other
    return [source.choice(VECTORS if chance < 0.9 else REALS), other]


def block(source, code, codes):
    words = [source.choice(BLOCKS)]
    for _ in range(source.randrange(5)):
        words += change(source, code, codes)
    return words + [b"$end"]


def step(source, code, codes):
    chance = source.random()
    if chance < 0.04:
        return declared.skipped(source, (b"$comment",))
    if chance < 0.1:
        return block(source, code, codes)
    return change(source, code, codes)


def first(source, code):
    """Mostly a level for the signal before the first time."""
    word = source.choice((b"0", b"1")) + code
    chance = source.random()
    if chance < 0.45:
        return [b"$dumpvars", word, b"$end"]
    return [word] if chance < 0.9 else []


def later(source, time, by):
    """A time that is mostly at or after another."""
    if source.random() < 0.005:
        return max(0, time - 1)
    return min(LAST_TIME, time + source.choice((0, 1, by, by, by + 1, source.randrange(by + 1))))


def simulation(source, code, codes):
    """The words, and the times in them."""
    words, times = first(source, code), []
    by = source.choice(STEPS)
    time = source.choice((0, 0, 0, 1, source.randrange(2**20), 2**32 - 3, 2**62 - 5))
    for _ in range(source.randrange(20)):
        times.append(time)
        words.append(time_word(source, time))
        for _ in range(source.choice((0, 1, 1, 2, 3))):
            words += step(source, code, codes)
        time = later(source, time, by)
    return words, times


def edges(source, third):
    """Times and levels of a line with a reply in it. Each edge is moved by less than a sample."""
    bits, time, level = source.choice(REPLIES), third * source.randrange(1, 40), 1
    found = [(0, level)]
    for place in reversed(range(21)):
        if bits >> place & 1:
            level = 1 - level
            found.append((time + source.randrange(third), level))
        time += 3 * third
    return found + [(time + source.randrange(third), 1)]


def reply(source, code, codes):
    """The words, and an offset, a period and a count with which the reply can be read."""
    third = source.choice((1, 2, 7, 444, 4440, 10**6, 2**32 - 1))
    words = []
    for time, level in edges(source, third):
        words += [time_word(source, time), str(level).encode() + code]
        if source.random() < 0.2:
            words += [source.choice((b"0", b"1", b"x")) + source.choice(codes + [b"other"]) + b"?"]
    return words, (source.choice((0, third - 1, third // 2)), third, source.choice((120, 160, 200)))
