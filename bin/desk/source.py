"""A book as text: each line becomes bytes, name by name. Whether they are a book, and which, only the proved reader says.

    # a comment
    symbols f0/0 f1/1        each symbol with its arity, numbered from 0
    rule 0: f1(x0) -> x0     a line a rule, numbered from 0; x0 is a variable
    record f1(f0)            at most one record

In prefix order a term's bytes are its names from left to right: f3 is 03 03, x2 is 04 02."""
import re
from typing import NamedTuple

from desk.ends import broken

# Lines that tests/examples reads: what a book's ranks, budget and replies are.
PASSED_OVER = ("ranks", "budget", "clear", "run")
NAME = re.compile(r"([fx])(\d{1,3})")


class Made(NamedTuple):
    """The bytes, the text that they must be shown as, and the line that each byte came from."""

    data: bytes
    shown: list
    lines: list


class _Maker:
    def __init__(self):
        self.data, self.lines, self.shown = bytearray(), [], []

    def add(self, line, *numbers):
        for number in numbers:
            if number > 255:
                raise broken(f"line {line}: {number} is too large a number")
            self.data.append(number)
            self.lines.append(line)

    def term(self, line, text):
        """Its names as bytes. What stands between names is compared when the proved reader has shown the term back."""
        for kind, number in NAME.findall(text):
            self.add(line, 3 if kind == "f" else 4, int(number))

    def made(self):
        return Made(bytes(self.data), self.shown, self.lines)


def _symbols(book, number, words):
    for at, word in enumerate(words):
        found = re.fullmatch(r"f(\d+)/(\d{1,3})", word)
        if not found or int(found.group(1)) != at:
            raise broken(f"line {number}: the symbols are f0/ARITY f1/ARITY and so on, and here stands {word}")
        book.add(number, 1, int(found.group(2)))
    book.shown.append(" ".join(["symbols", *words]))


def _rule(book, number, text, at):
    head, colon, sides = text.partition(":")
    left, arrow, right = (side.replace(" ", "") for side in sides.partition("->"))
    if head.split() != ["rule", str(at)] or not colon or not arrow:
        raise broken(f"line {number}: a rule is `rule {at}: LEFT -> RIGHT`, the rules being numbered from 0")
    book.add(number, 2)
    book.term(number, left)
    book.term(number, right)
    book.shown.append(f"rule {at}: {left} -> {right}")


def read(text):
    """The book, and the record or None."""
    book, record, rules = _Maker(), None, 0
    lines = text.splitlines()
    for number, line in enumerate(lines, 1):
        line = line.partition("#")[0].strip()
        words = line.split()
        if not words or words[0] in PASSED_OVER:
            continue
        if words[0] == "symbols" and not book.shown:
            _symbols(book, number, words[1:])
        elif words[0] == "rule" and book.shown:
            _rule(book, number, line, rules)
            rules += 1
        elif words[0] == "record" and record is None:
            record = _Maker()
            record.shown.append(line.removeprefix("record").replace(" ", ""))
            record.term(number, record.shown[0])
            record.add(number, 5)
        else:
            raise broken(f"line {number} is no line of a book: it begins with {words[0]}")
    if not book.shown:
        raise broken("a book begins with the line `symbols`, and each symbol with its arity behind it")
    book.add(len(lines), 5)
    return book.made(), record and record.made()
