"""Reads four-state value change dumps (IEEE 1364), to judge the library's calls. It shares no code with them.

A text is a list of words, each with the byte at which it begins. Each function below reads one thing of the grammar
from the front of that list. The first word that is wrong raises Broken, with the cause and the place.

The causes, by number; a refusal is its cause / 100:

2401 to 2403  offset, period, count            2404  the text ends early
2405  a word with $ that may not stand here    2406  no declaration, before $enddefinitions
2407  no $end where one must stand             2408  number or unit of $timescale
2409, 2410  type and name of a scope           2411 to 2414  type, size, code and name of a variable
2415  no index behind a variable's name        2416  a declaration, behind $enddefinitions
2417  what no $dump... block may hold          2418  no time below 2^62
2419  a value without a right code             2420, 2421  a vector, a real
2422  the code behind a vector or a real       2423  any other word behind $enddefinitions
2424  a sample without a level                 2501, 2502  the name is declared never, or more than once
2601  a time smaller than the one before
"""

import bisect
import collections
import functools
import re

NO_PLACE = 2**64 - 1
ARGUMENT_LIMIT = 2**32
TIME_LIMIT = 2**62
MOST_SAMPLES = 4096

# White space is blank, tab, line feed, form feed and carriage return. The vertical tab is none.
WORD = re.compile(rb"[^ \t\n\f\r]+")
PRINTABLE = re.compile(rb"[!-~]+")
DIGITS = re.compile(rb"[0-9]+")
TIME = re.compile(rb"#[0-9]+")
SCALAR = re.compile(rb"[01xXzZ][!-~]+")
VECTOR = re.compile(rb"[bB][01xXzZ]+")
REAL = re.compile(rb"[rR][+-]?((?i:inf|nan)|([0-9]+\.?[0-9]*|\.[0-9]+)([eE][+-]?[0-9]+)?)")

# Indices, with one blank behind each of their words. The blanks show where a word may end.
GROUP = rb"\[ ?-?[0-9]+ ?(: ?-?[0-9]+ ?)?\] ?"
INDICES = re.compile(rb"(%b)*" % GROUP)
BEGUN_INDICES = re.compile(rb"(%b)*(\[ ?(-?[0-9]+ ?(: ?(-?[0-9]+ ?)?)?)?)?" % GROUP)

END = b"$end"
SKIPPED = {b"$comment", b"$date", b"$version"}
DECLARATIONS = SKIPPED | {b"$timescale", b"$scope", b"$upscope", b"$var", b"$enddefinitions"}
BLOCKS = {b"$dumpall", b"$dumpoff", b"$dumpon", b"$dumpvars"}
SCOPE_TYPES = {b"begin", b"fork", b"function", b"module", b"task"}
VARIABLE_TYPES = set(
    b"event integer parameter real realtime reg supply0 supply1 time tri triand trior trireg tri0 tri1 wand wire wor"
    .split()
)
NUMBERS = {b"1": 1, b"10": 10, b"100": 100}
FEMTOSECONDS = {b"s": 10**15, b"ms": 10**12, b"us": 10**9, b"ns": 10**6, b"ps": 10**3, b"fs": 1}
GLUED = {number + unit: NUMBERS[number] * FEMTOSECONDS[unit] for number in NUMBERS for unit in FEMTOSECONDS}

Variable = collections.namedtuple("Variable", "size code name name_place after")
Answer = collections.namedtuple("Answer", "cause place sample samples")


class Broken(Exception):
    """The text is refused at a word, or at its end."""

    def __init__(self, cause, place):
        super().__init__(cause, place)
        self.cause, self.place = cause, place


# The calls on one text ask for the same words.
@functools.lru_cache(maxsize=1)
def words_of(text, start):
    return [(found.start(), found.group()) for found in WORD.finditer(text, start)]


class Words:
    """The words of a text from a byte on, with their places, and how many of them are taken."""

    def __init__(self, text, start=0):
        self.words = words_of(text, min(start, len(text)))
        self.taken = 0
        self.end = len(text)

    def left(self):
        return self.taken < len(self.words)

    def peek(self):
        if not self.left():
            raise Broken(2404, self.end)
        return self.words[self.taken]

    def take(self):
        pair = self.peek()
        self.taken += 1
        return pair

    def take_if(self, right, cause):
        """Takes a word that must be right; if it is not, that is the cause."""
        place, word = self.take()
        if not right(word):
            raise Broken(cause, place)
        return place, word


# ---- words


def is_end(word):
    return word == END


def is_name(word):
    """A name, or a code that is a word of its own."""
    return PRINTABLE.fullmatch(word) and word != END


def number_of(digits):
    """The number, or 2^62 if it is larger. Python would not read thousands of digits."""
    digits = digits.lstrip(b"0")
    return min(int(digits or b"0"), TIME_LIMIT) if len(digits) < 20 else TIME_LIMIT


def time_of(place, word):
    if not TIME.fullmatch(word) or number_of(word[1:]) == TIME_LIMIT:
        raise Broken(2418, place)
    return number_of(word[1:])


# ---- declarations


def skip(words):
    """Text of any bytes up to the first $end."""
    while not is_end(words.take()[1]):
        pass


def timescale(words):
    """The unit of the file's times in femtoseconds."""
    _, word = words.take_if(lambda word: word in NUMBERS or word in GLUED, 2408)
    if word in GLUED:
        scale = GLUED[word]
    else:
        _, unit = words.take_if(FEMTOSECONDS.__contains__, 2408)
        scale = NUMBERS[word] * FEMTOSECONDS[unit]
    words.take_if(is_end, 2407)
    return scale


def scope(words):
    words.take_if(SCOPE_TYPES.__contains__, 2409)
    words.take_if(is_name, 2410)
    words.take_if(is_end, 2407)


def variable(words):
    words.take_if(VARIABLE_TYPES.__contains__, 2411)
    _, size = words.take_if(DIGITS.fullmatch, 2412)
    _, code = words.take_if(is_name, 2413)
    place, word = words.take_if(is_name, 2414)
    start, stop = name_within(word)
    after = indices(words, word[stop:])
    return Variable(number_of(size), code, word[start:stop], place + start, after)


def name_within(word):
    """Where in its word a name begins and ends: without the backslash, or without indices."""
    if word.startswith(b"\\") and len(word) > 1:
        return 1, len(word)
    ends = (at for at in range(1, len(word)) if BEGUN_INDICES.fullmatch(word[at:] + b" "))
    return 0, next(ends, len(word))


def indices(words, glued):
    """Takes all words up to $end, and gives the byte behind it. `glued` is what stood behind the name in its word."""
    text = glued + b" " if glued else b""
    while True:
        place, word = words.take()
        if is_end(word):
            if not INDICES.fullmatch(text):
                raise Broken(2415, place)
            return place + len(word)
        text += word + b" "
        if not BEGUN_INDICES.fullmatch(text):
            raise Broken(2415, place)


def declarations(words):
    """Gives each Variable and each scale, up to the word $enddefinitions. That word is not taken."""
    while words.peek()[1] != b"$enddefinitions":
        place, word = words.take()
        if word in SKIPPED:
            skip(words)
        elif word == b"$timescale":
            yield timescale(words)
        elif word == b"$scope":
            scope(words)
        elif word == b"$upscope":
            words.take_if(is_end, 2407)
        elif word == b"$var":
            yield variable(words)
        else:
            raise Broken(2405 if word.startswith(b"$") and word not in BLOCKS else 2406, place)


# ---- times and changes


def change(words):
    """The code and the value of a scalar change. A vector or a real is skipped and gives None."""
    place, word = words.take()
    if word[0] in b"01xXzZ":
        if not SCALAR.fullmatch(word):
            raise Broken(2419, place)
        return word[1:], word[:1]
    for letters, form, cause in ((b"bB", VECTOR, 2420), (b"rR", REAL, 2421)):
        if word[0] in letters:
            if not form.fullmatch(word):
                raise Broken(cause, place)
            words.take_if(is_name, 2422)
            return None
    raise Broken(2423, place)


def block(words):
    """The changes of a block, up to its $end."""
    changes = []
    while True:
        place, word = words.peek()
        if is_end(word):
            words.take()
            return changes
        if word in DECLARATIONS or word in BLOCKS:
            raise Broken(2417, place)
        if word.startswith(b"$"):
            raise Broken(2405, place)
        if word.startswith(b"#"):
            time_of(place, word)
            raise Broken(2417, place)
        changes.append(change(words))


def simulation(words):
    """All scalar changes, each as its time, code and value. Those before the first time have time 0."""
    time, changes = 0, []
    while words.left():
        place, word = words.peek()
        found = []
        if word.startswith(b"$") or word.startswith(b"#"):
            words.take()
        if word == b"$comment":
            skip(words)
        elif word in BLOCKS:
            found = block(words)
        elif word in DECLARATIONS:
            raise Broken(2416, place)
        elif word.startswith(b"$"):
            raise Broken(2405, place)
        elif word.startswith(b"#"):
            last, time = time, time_of(place, word)
            if time < last:
                raise Broken(2601, place)
        else:
            found = [change(words)]
        changes += [(time, *pair) for pair in found if pair]
    return changes


# ---- the whole dump


def without_backslash(name):
    return name[1:] if name.startswith(b"\\") and len(name) > 1 else name


def signal_changes(words, name):
    """Times and values of the changes of the named signal."""
    variables = [found for found in declarations(words) if isinstance(found, Variable)]
    place, _ = words.take()
    codes = [found.code for found in variables if found.size == 1 and found.name == without_backslash(name)]
    if len(codes) != 1:
        raise Broken(2502 if codes else 2501, place)
    words.take_if(is_end, 2407)
    return [(time, value) for time, code, value in simulation(words) if code == codes[0]]


def levels(changes, times):
    """The level at each time, or None: the value of the last change up to then. The times of changes never fall."""
    values = [b"x"] + [value for _, value in changes]
    at = [time for time, _ in changes]
    return [{b"0": 0, b"1": 1}.get(values[bisect.bisect_right(at, time)]) for time in times]


# read_dump and dump_place are asked for the same.
@functools.lru_cache(maxsize=1)
def answer(text, name, offset, period, count):
    for cause, wrong in (
        (2401, offset >= ARGUMENT_LIMIT),
        (2402, period == 0 or period >= ARGUMENT_LIMIT),
        (2403, count > MOST_SAMPLES),
    ):
        if wrong:
            return Answer(cause, NO_PLACE, NO_PLACE, None)
    try:
        changes = signal_changes(Words(text), name)
    except Broken as broken:
        return Answer(broken.cause, broken.place, NO_PLACE, None)
    samples = levels(changes, [offset + k * period for k in range(count)])
    if None in samples:
        return Answer(2424, NO_PLACE, samples.index(None), None)
    return Answer(0, NO_PLACE, NO_PLACE, samples)


# ---- the calls


def read_dump(text, name, offset, period, count):
    """The refusal's number or 0, and the samples or None."""
    found = answer(text, name, offset, period, count)
    return found.cause // 100, found.samples


def dump_place(text, name, offset, period, count):
    """Place, cause and sample."""
    found = answer(text, name, offset, period, count)
    return found.place, found.cause, found.sample


def dump_scale(text):
    """The refusal's number or 0, and the file's unit in femtoseconds, 0 if it has none."""
    try:
        scales = [found for found in declarations(Words(text)) if not isinstance(found, Variable)]
    except Broken as broken:
        return broken.cause // 100, None
    return 0, scales[-1] if scales else 0


def dump_variable(text, start):
    """The refusal's number or 0, and the byte behind the next variable, its name's place and length, and its size."""
    words = Words(text, start)
    try:
        for found in declarations(words):
            if isinstance(found, Variable):
                return 0, (found.after, found.name_place, len(found.name), found.size)
        return 0, (words.peek()[0], 0, 0, 0)
    except Broken as broken:
        return broken.cause // 100, None
