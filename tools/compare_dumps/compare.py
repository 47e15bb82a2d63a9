"""Compares the library's dump calls with reader.py: the hand-made cases, then texts that are drawn from a seed.

    compare.py [COUNT [SEED]] | --seen-to-fail

`run` of this folder says what is printed, and what the exit status means.
"""

import collections
import itertools
import sys

import cases
import library
import right
import texts
from smallest import smallest


def differing(wanted, got):
    """The names of the answers that are not as wanted."""
    return [name for name in wanted if wanted[name] != got[name]]


def differs(case, given):
    """Whether an answer of the library is not that of reader.py. `given` makes the library's calls."""
    return bool(differing(right.answers(case), given(case)))


def compare(all_cases, given):
    """How many texts meet each cause, and the cases that differ."""
    causes, wrong = collections.Counter(), []
    for case in all_cases:
        causes[texts.cause_of(case)] += 1
        if differs(case, given):
            wrong.append(case)
    return causes, wrong


def smallest_of(wrong, given):
    shortest = min(wrong, key=lambda case: len(case.text))
    return smallest(shortest, lambda case: differs(case, given))


def shown(answer):
    """An answer in print. Of a buffer, the bytes at its end that no call touched are left out."""
    if isinstance(answer, bytes):
        return answer.rstrip(bytes([library.UNTOUCHED])).hex()[:400] or "untouched"
    if isinstance(answer, int):
        return str(answer)
    return "(" + ", ".join(shown(part) for part in answer) + ")"


def describe(case, given):
    wanted, got = right.answers(case), given(case)
    print(f"text {case.text!r}")
    print(f"in hexadecimal {cases.hexadecimal(case.text)}")
    print(f"name {case.name!r}, offset {case.offset}, period {case.period}, count {case.count}, EDT {case.edt}")
    for name in differing(wanted, got):
        print(f"{name}\n  reader.py {shown(wanted[name])}\n  library   {shown(got[name])}")


# ---- wrong answers, to see that a difference is seen


def changed_bytes(data):
    """Single bytes changed: at both ends, at the end of each buffer's lent part, and between."""
    for at in (0, 1, 2, 7, 8, 16, 24, 31, len(data) // 2, 2 * library.SAMPLES - 1, len(data) - 1):
        if at < len(data):
            yield data[:at] + bytes([data[at] ^ 1]) + data[at + 1:]


def wrong_answers(answer):
    """The answer with one number or byte changed, or with one answer of several left out."""
    if isinstance(answer, int):
        yield answer + 1
    elif isinstance(answer, bytes):
        yield from changed_bytes(answer)
    else:
        for at, part in enumerate(answer):
            for other in wrong_answers(part):
                yield type(answer)([*answer[:at], other, *answer[at + 1:]])
    if isinstance(answer, list):
        yield answer[:-1]


def seen_to_fail(all_cases, given):
    """How many wrong answers of each name were compared, and those that were not seen."""
    made, unseen = collections.Counter(), []
    for case in all_cases:
        wanted, got = right.answers(case), given(case)
        for name, answer in got.items():
            for other in wrong_answers(answer):
                made[name] += 1
                if differing(wanted, {**got, name: other}) != [name]:
                    unseen.append(f"{name} of {case}")
    return made, unseen


def loop_seen_to_fail(few, given):
    """Whether the loop counts each text with a wrong answer, and comes down to the empty text."""
    def spoiled(case):
        return {**given(case), "dump_scale": "wrong"}

    _, wrong = compare(few, spoiled)
    return wrong == few and smallest_of(wrong, spoiled).text == b""


def spoil(given):
    few = cases.as_texts()[::10]
    made, unseen = seen_to_fail([*few, *texts.cases(20, 2)], given)
    if not loop_seen_to_fail(few, given):
        unseen.append("the loop")
    for name, count in made.items():
        print(f"{name}: {count} wrong answers")
    for text in unseen:
        print(f"not seen: {text}")
    print(f"{sum(made.values())} wrong answers, {len(unseen)} not seen")
    return 1 if unseen else 0


def main(arguments):
    try:
        given = library.Library().answers
    except library.LibraryError as error:
        sys.exit(str(error))
    if arguments == ["--seen-to-fail"]:
        return spoil(given)
    count, seed = [int(number) for number in arguments] + [100000, 1][len(arguments):]
    causes, wrong = compare(itertools.chain(cases.as_texts(), texts.cases(count, seed)), given)
    print(texts.histogram(causes))
    if wrong:
        describe(smallest_of(wrong, given), given)
    print(f"{sum(causes.values())} texts compared, {len(wrong)} differ")
    return 1 if wrong else 0


if __name__ == "__main__":
    sys.exit(main(sys.argv[1:]))
