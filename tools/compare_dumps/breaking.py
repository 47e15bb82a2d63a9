"""Breaks dumps: changes of their words, and of their bytes."""

KEYWORDS = (
    b"$comment", b"$date", b"$version", b"$timescale", b"$scope", b"$upscope", b"$var", b"$enddefinitions", b"$dumpvars",
    b"$dumpall", b"$dumpon", b"$dumpoff",
)
# Words that are wrong at most places, and words that are right at some and wrong at others.
ODD_WORDS = (
    b"$dumpports", b"$attrbegin", b"$", b"$END", b"$end$end", b"$var1", b"#", b"#-1", b"#1.5", b"#1_000", b"#0x1", b"#5",
    b"#4611686018427387903", b"#4611686018427387904", b"#18446744073709551616", b"#" + b"9" * 40, b"0", b"1", b"x", b"z",
    b"1!", b"0\x80", b"1\x7f", b"b", b"b012", b"bx!", b"b1", b"B", b"bU", b"r", b"R", b"r1", b"rr", b"r1.2.3", b"r1e", b"rinfinity",
    b"r.", b"r+", b"U!", b"H!", b"-!", b"!", b"\xef\xbb\xbf", b"\x0b", b"a", b"2", b"01", b"-1", b"1.0", b"10", b"100", b"1000",
    b"10ns", b"ns", b"1sec", b"Ns", b"module", b"Module", b"struct", b"wire", b"logic", b"wires", b"[0]", b"[0", b"0]", b"[", b"]",
    b"#+1", b"##5", b"r+-1", b"rnan(1)", b"r0x1p3", b"r1e1.5", b"re5", b"[--1]", b"[+1]", b"[1.5]", b"[:1]", b"[1:]", b"[1]]", b"[[1]",
    b"[1]x", b"01ns", b"1.0ns", b"10Ns", b"1_000", b"rin", b"r1,5",
    b":", b"[]", b"[a]", b"[1:2:3]", b"[-", b"a[0]", b"a[1", b"a[", b"\\", b"\\a", b"Zu\xc5\x9b", b"\x00", b"\xff", b"\x7f",
)


def dropped(source, words, at):
    del words[at]


def doubled(source, words, at):
    words.insert(at, words[at])


def swapped(source, words, at):
    other = source.randrange(len(words))
    words[at], words[other] = words[other], words[at]


def replaced(source, words, at):
    words[at] = source.choice(ODD_WORDS)


def replaced_by_another(source, words, at):
    words[at] = source.choice(words)


def inserted(source, words, at):
    words.insert(at, source.choice(ODD_WORDS))


def end_inserted(source, words, at):
    words.insert(at, b"$end")


def keyword_inserted(source, words, at):
    words.insert(at, source.choice(KEYWORDS))


def joined_to_next(source, words, at):
    if at + 1 < len(words):
        words[at:at + 2] = [words[at] + words[at + 1]]


def parted(source, words, at):
    cut = source.randrange(len(words[at]) + 1)
    words[at:at + 1] = [part for part in (words[at][:cut], words[at][cut:]) if part]


def cut_off(source, words, at):
    del words[at:]


def ended(source, words, at):
    """Puts $end in the place of a word. Most declarations then end too early."""
    words[at] = b"$end"


def without_end(source, words, at):
    """Drops one of the words $end."""
    ends = [place for place, word in enumerate(words) if word == b"$end"]
    if ends:
        del words[source.choice(ends)]


def wrong_code(source, words, at):
    """Puts no code behind one of the vectors and reals."""
    before = [place for place, word in enumerate(words[:-1]) if word[:1] in (b"b", b"B", b"r", b"R") and len(word) > 1]
    if before:
        words[source.choice(before) + 1] = source.choice((b"$end", b"\x80", b"!\x7f", b"\xc5\x9b!"))


WAYS = (
    dropped, doubled, swapped, replaced, replaced, replaced, replaced_by_another, inserted, inserted, end_inserted,
    keyword_inserted, joined_to_next, parted, cut_off, ended, without_end, wrong_code,
)


def place_of(source, words):
    """Any place, or one close behind a keyword, or one among the changes. So the few words of a scope are met often."""
    chance = source.random()
    starts = [at for at, word in enumerate(words) if word in KEYWORDS]
    if starts and chance < 0.4:
        return min(source.choice(starts) + source.randrange(6), len(words) - 1)
    if b"$enddefinitions" in words and chance < 0.7:
        return source.randrange(words.index(b"$enddefinitions"), len(words))
    return source.randrange(len(words))


def words(source, whole):
    """A copy of the words that is broken in one place or in a few."""
    broken = list(whole)
    for _ in range(source.choice((1, 1, 1, 1, 2, 3))):
        if broken:
            source.choice(WAYS)(source, broken, place_of(source, broken))
    return broken


def text(source, whole):
    """The bytes with one flipped, replaced or added, or cut."""
    if not whole:
        return whole
    at = source.randrange(len(whole))
    byte = source.choice((source.randrange(256), source.randrange(128, 256), 0, 11, 32, 127))
    return source.choice((
        whole[:at] + bytes([whole[at] ^ 1 << source.randrange(8)]) + whole[at + 1:],
        whole[:at] + bytes([byte]) + whole[at + 1:],
        whole[:at] + bytes([byte]) + whole[at:],
        whole[:at] + whole[at + 1:],
        whole[:at],
        b"\xef\xbb\xbf" + whole,
    ))
