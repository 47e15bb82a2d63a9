"""A list of small dumps, each with the answer that a person reasoned out. cases_*.py hold the texts.

    cases.py            prints a line for each: LABEL HEX(text) HEX(name) OFFSET PERIOD COUNT, empty hexadecimals as -
    cases.py --answers  prints the answers of reader.py: LABEL number samples place cause sample
    cases.py --check    compares reader.py with the answers in the list, and exits with 1 if one differs

The samples are a digit each. If there are none, they are -. Where no place or no sample is meant, the number is 2^64 - 1.

A text marks with @ where the word that decides begins. What is expected is samples as digits, or a cause. If a text ends
early, its end is the place. Of cause 2424 the first sample without a level is given too.
"""

import collections
import sys

import cases_changes
import cases_declarations
import cases_names
import cases_samples
import reader
import texts

Hand = collections.namedtuple("Hand", "label text name offset period count expected")

AT_THE_END = 2404
WITHOUT_PLACE = (2401, 2402, 2403)
# What stands before the texts about changes, and after those about declarations.
DECLARED = "$var wire 1 ! a $end $enddefinitions $end "
ENDED = " $enddefinitions $end 1!"


def expected_of(label, marked, what):
    """The whole answer that the list means: cause, place, sample and samples."""
    if isinstance(what, str):
        cause, sample, samples = 0, reader.NO_PLACE, [int(digit) for digit in what]
    else:
        cause, sample = what if isinstance(what, tuple) else (what, reader.NO_PLACE)
        samples = None
    text = marked.replace("@", "")
    at_a_word = cause not in (0, AT_THE_END, 2424, *WITHOUT_PLACE)
    if marked.count("@") != at_a_word:
        raise ValueError(f"the marks of {label} are not as its cause asks")
    place = marked.index("@") if at_a_word else len(text) if cause == AT_THE_END else reader.NO_PLACE
    return text.encode("latin-1"), reader.Answer(cause, place, sample, samples)


def hand(label, marked, what, question=None):
    text, expected = expected_of(label, marked, what)
    # A refused text is asked for three samples, if nothing else is said.
    count = 3 if expected.samples is None else len(expected.samples)
    asked = {"name": "a", "offset": 0, "period": 1, "count": count, **(question or {})}
    name = asked["name"].encode("latin-1")
    return Hand(label, text, name, asked["offset"], asked["period"], asked["count"], expected)


def with_end(marked, what):
    """The declarations with their end. A name that is declared never or twice is refused there."""
    return marked + (ENDED.replace("$", "@$", 1) if what in (2501, 2502) else ENDED)


def hands():
    """The whole list."""
    found = [hand(*row) for row in cases_declarations.WHOLE + cases_samples.WHOLE]
    for label, marked, what, *question in cases_declarations.DECLARATIONS + cases_names.NAMES:
        found.append(hand(label, with_end(marked, what), what, *question))
    for label, marked, what, *question in cases_changes.CHANGES + cases_samples.SAMPLES:
        found.append(hand(label, DECLARED + marked, what, *question))
    labels = collections.Counter(one.label for one in found)
    if len(labels) != len(found):
        raise ValueError(f"labels that are there twice: {[label for label in labels if labels[label] > 1]}")
    return found


def as_texts():
    """The list for the comparison, once with EDT off and once with it on."""
    return [texts.Case(*one[1:6], edt) for edt in (0, 1) for one in hands()]


def hexadecimal(data):
    return data.hex() or "-"


def line(one):
    return f"{one.label} {hexadecimal(one.text)} {hexadecimal(one.name)} {one.offset} {one.period} {one.count}"


def answer_line(one):
    asked = one[1:6]
    number, samples = reader.read_dump(*asked)
    digits = "".join(map(str, samples or ())) or "-"
    place, cause, sample = reader.dump_place(*asked)
    return f"{one.label} {number} {digits} {place} {cause} {sample}"


def wrong_of(one):
    """What reader.py gives, if it is not what the list expects."""
    wanted, asked = one.expected, one[1:6]
    got = (reader.read_dump(*asked), reader.dump_place(*asked))
    right = ((wanted.cause // 100, wanted.samples), (wanted.place, wanted.cause, wanted.sample))
    return None if got == right else f"{one.label}: {got}, and not {right}"


def wrong_about(label, got, wanted):
    return None if got == wanted else f"{label}: {got}, and not {wanted}"


def check():
    found = [wrong_of(one) for one in hands()]
    for label, text, *wanted in cases_declarations.SCALES:
        found.append(wrong_about(label, reader.dump_scale(text.encode("latin-1")), tuple(wanted)))
    for label, text, start, *wanted in cases_declarations.VARIABLES:
        found.append(wrong_about(label, reader.dump_variable(text.encode("latin-1"), start), tuple(wanted)))
    wrong = [text for text in found if text]
    print("\n".join([*wrong, f"{len(found)} answers, {len(wrong)} wrong"]))
    return 1 if wrong else 0


def main(arguments):
    if arguments == ["--check"]:
        return check()
    if arguments not in ([], ["--answers"]):
        print("usage: cases.py [--answers | --check]", file=sys.stderr)
        return 2
    for one in hands():
        print(answer_line(one) if arguments else line(one))
    return 0


if __name__ == "__main__":
    sys.exit(main(sys.argv[1:]))
