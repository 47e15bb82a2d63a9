"""Draws the declarations of a dump."""

# Written out here too: a word that reader.py lacks must still be drawn.
TYPES = (
    b"event integer parameter real realtime reg supply0 supply1 time tri triand trior trireg tri0 tri1 wand wire wor"
    .split()
)
SCOPES = b"begin fork function module task".split()
UNITS = b"s ms us ns ps fs".split()
# Names as tools write them, and names that look like indices, keywords, times and changes.
NAMES = (
    b"a", b"a", b"b", b"line", b"0", b"1", b"top.a", b"a[x]", b"g(0)", b"$unit", b"\\", b"a[0]x", b"[0]", b"#0", b"$var",
    b"reply", b"a[-", b"b0", b"a[x][", b"-1", b"]", b":", b"a[0:1:2]", b"x$end", b"~!",
)
CODES = (b"!", b'"', b"#", b"$", b"%", b"0", b"1", b"b", b"x", b"!!", b"!a", b"aaaab", b"$en", b"$end!", b"#1", b"~" * 40)
NUMBERS = (b"0", b"1", b"3", b"7", b"-1", b"-12", b"007", b"31", b"9" * 25)
SIZES = (
    b"0", b"2", b"8", b"32", b"64", b"10", b"11", b"00", b"9" * 40, b"1" + b"0" * 20, str(2**62 - 1).encode(),
    str(2**62).encode(), str(2**62 + 1).encode(), str(2**64 + 1).encode(), b"08",
)
SKIPPED_WORDS = (
    b"Mon", b"x$end", b"$end$end", b"$var", b"$enddefinitions", b"#5", b"1!", b"\x00", b"\xff\xfe", b"$End", b"\x0b", b"$",
    b"\xc5\x9b", b"$comment", b"$dumpvars",
)


def some(source, choices, most):
    return [source.choice(choices) for _ in range(source.randrange(most + 1))]


def skipped(source, keywords=(b"$comment", b"$date", b"$version")):
    return [source.choice(keywords), *some(source, SKIPPED_WORDS, 4), b"$end"]


def timescale(source):
    number, unit = source.choice((b"1", b"10", b"100")), source.choice(UNITS)
    words = [number + unit] if source.random() < 0.5 else [number, unit]
    return [b"$timescale", *words, b"$end"]


def scope(source):
    return [b"$scope", source.choice(SCOPES), source.choice(NAMES), b"$end"]


def glued(source, parts, chance):
    """The parts as words. Each part is glued to the one before it by chance."""
    words = parts[:1]
    for part in parts[1:]:
        if source.random() < chance:
            words[-1] += part
        else:
            words.append(part)
    return words


def index(source):
    second = [b":", source.choice(NUMBERS)] if source.random() < 0.5 else []
    return [b"[", source.choice(NUMBERS), *second, b"]"]


def reference(source, name):
    """The name as words: alone, with indices glued or apart, or escaped."""
    chance = source.random()
    if chance < 0.4:
        return [name]
    escaped = chance < 0.6
    indices = [part for _ in range(source.choice((0, 1, 1, 1, 2, 3))) for part in index(source)]
    words = glued(source, [b"" if escaped else name, *indices], source.choice((0, 0.5, 0.8, 1)))
    if not escaped:
        return words
    # An index that is glued to an escaped name belongs to it.
    return [b"\\" + name] + [word for word in words if word]


def size_of(source):
    chance = source.random()
    if chance < 0.8:
        return source.choice((b"1", b"1", b"1", b"01", b"0" * 30 + b"1"))
    return source.choice(SIZES)


def variable(source, size, code, name):
    return [b"$var", source.choice(TYPES), size, code, *reference(source, name), b"$end"]


def other_variable(source, name, code):
    """Mostly one of another name and code than the signal's."""
    other, size = source.choice(NAMES), size_of(source)
    chance = source.random()
    if chance < 0.02:
        other, size = name, b"1"
    elif chance < 0.06:
        other, size = name, source.choice(SIZES)
    elif other == name:
        other = b"other"
    code = code if source.random() < 0.1 else source.choice(CODES)
    return variable(source, size, code, other), code


def declarations(source, name):
    """The words up to the last $end of the declarations, the signal's code and all codes."""
    code = source.choice(CODES)
    items, codes = [], [code]
    for _ in range(source.choice((0, 1, 2, 2, 3, 4, 6))):
        words, other = other_variable(source, name, code)
        items.append(words)
        codes.append(other)
    for draw in (skipped, timescale, scope, scope, skipped):
        if source.random() < 0.6:
            items.append(draw(source))
    items += [[b"$upscope", b"$end"]] * source.randrange(3)
    source.shuffle(items)
    if source.random() < 0.98:
        signal = variable(source, source.choice((b"1", b"1", b"01", b"0001")), code, name)
        items.insert(source.randrange(len(items) + 1), signal)
    items.append([b"$enddefinitions", b"$end"])
    return [word for words in items for word in words], code, codes
