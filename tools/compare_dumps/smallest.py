"""Makes a case small, as long as the library and the reader differ on it. A person is to read it."""

import re

# A word with the white space behind it.
PIECE = re.compile(rb"[^ \t\n\f\r]+[ \t\n\f\r]*|[ \t\n\f\r]+")
# A declaration goes as a whole or not at all, so several words are left out at once.
WIDTHS = (30, 6, 5, 4, 3, 2, 1)
LEAST = {"count": 0, "offset": 0, "period": 1, "edt": 0}


def fewer_words(case, differs):
    pieces = PIECE.findall(case.text)
    for width in WIDTHS:
        at = 0
        while at < len(pieces):
            fewer = pieces[:at] + pieces[at + width:]
            if differs(case._replace(text=b"".join(fewer))):
                pieces = fewer
            else:
                at += 1
    return case._replace(text=b"".join(pieces))


def smaller_numbers(case, differs):
    for field, least in LEAST.items():
        while getattr(case, field) > least:
            smaller = case._replace(**{field: (getattr(case, field) + least) // 2})
            if not differs(smaller):
                break
            case = smaller
    return case


def smallest(case, differs):
    return smaller_numbers(fewer_words(case, differs), differs)
