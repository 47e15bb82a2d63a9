"""Draws dumps for the comparison from a seed: well-formed ones, broken ones, and arguments for each.

    texts.py [COUNT] [SEED]

Run as a program, it prints how many texts meet each cause. If a cause is met by fewer than one text in a thousand, the
exit status is 1.
"""

import collections
import random
import sys

import breaking
import changes
import declared
import reader

Case = collections.namedtuple("Case", "text name offset period count edt")

BLANKS = (
    (b" ",), (b"\n",), (b"\r\n",), (b" ", b"\n"), (b" ", b" ", b"\r\n"),
    (b" ", b"\t", b"\n", b"\f", b"\r", b"\r\n", b"  ", b" \t\n\f\r "),
)
OUTSIDE = (2**32, 2**32 + 1, 2**33, 2**62, 2**63, 2**64 - 1)

CAUSES = (0, *range(2401, 2425), 2501, 2502, 2601)


def joined(source, words):
    """The words with white space between them, and mostly at the end."""
    blanks = source.choice(BLANKS)
    text = b"".join(word + source.choice(blanks) for word in words)
    if source.random() < 0.1:
        text = source.choice(blanks) + text
    return text.rstrip(b" \t\n\f\r") if source.random() < 0.3 else text


def asked_name(source, name):
    """Mostly the signal's name. Else with a backslash, with an index, empty or another."""
    chance = source.random()
    if chance < 0.88:
        return name
    return source.choice((
        b"\\" + name, b"\\" + name, b"\\" + name, b"\\\\" + name, name + b"[0]", name + b" [0]", b"", b"top." + name,
        name[:-1], name + b"x", b"\\", b"\\\\", source.choice(declared.NAMES), source.choice(declared.NAMES),
    ))


def count_of(source):
    chance = source.random()
    if chance < 0.9:
        return source.randrange(1, 40)
    return source.choice((0, 0, 1, 2, 160, 200, 1000, 4095, 4096))


def arguments(source, times):
    """Offset, period and count, mostly such that samples fall on and beside the text's times."""
    times = times or [0]
    near = source.choice(times[:5] + [source.choice(times)])
    offset = min(max(0, near + source.choice((-1, 0, 0, 0, 1, 2, source.randrange(1000)))), 2**32 - 1)
    count = count_of(source)
    span = max(1, times[-1] - offset)
    fitting = (span + count) // max(1, count)
    period = source.choice((1, 2, fitting, fitting, fitting + 1, source.randrange(1, 2 * fitting + 1), 2**32 - 1))
    period = min(period, 2**32 - 1)
    chance = source.random()
    if chance < 0.01:
        offset = source.choice(OUTSIDE)
    elif chance < 0.02:
        offset = 2**32 - 1
    if source.random() < 0.01:
        period = source.choice((0, 0, *OUTSIDE))
    if source.random() < 0.01:
        count = source.choice((4097, 4098, 8192, *OUTSIDE))
    return offset, period, count


def edt_of(source):
    """Every number except 0 is yes."""
    return source.choice((0, 0, 1, 1, 2, 2**31, 2**32 - 1))


def drawn(source):
    """One case: a text, and what is asked of it."""
    name = source.choice(declared.NAMES)
    words, code, codes = declared.declarations(source, name)
    if source.random() < 0.1:
        more, asked = changes.reply(source, code, codes)
    else:
        more, times = changes.simulation(source, code, codes)
        asked = arguments(source, times)
    words += more
    broken = source.random() < 0.55
    if broken:
        words = breaking.words(source, words)
    text = joined(source, words)
    if broken and source.random() < 0.25:
        text = breaking.text(source, text)
    return Case(text, asked_name(source, name), *asked, edt_of(source))


def cases(count, seed):
    source = random.Random(seed)
    for _ in range(count):
        yield drawn(source)


def cause_of(case):
    return reader.answer(*case[:5]).cause


def histogram(causes):
    """One line for each cause, with how many texts meet it."""
    return "\n".join(f"{cause:4} {causes[cause]}" for cause in CAUSES)


def main(count=100000, seed=1):
    causes = collections.Counter(cause_of(case) for case in cases(int(count), int(seed)))
    print(histogram(causes))
    few = [cause for cause in CAUSES if causes[cause] * 1000 < int(count)]
    if few:
        sys.exit(f"too few texts meet {few}")


if __name__ == "__main__":
    main(*sys.argv[1:])
