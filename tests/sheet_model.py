#!/usr/bin/env python3
"""Gap sheets by the request alone: a list written as a sheet, and a sheet read, with the answers of tests/oracle/README.md.

A sheet is read by the writer: each line is taken for what it might mean, however it is spelled, and counts where the writer
gives that very line for it. So the sheets that are accepted are those that the writer gives, and no others.

    tests/sheet_model.py <SHEET      what crates/read_sheet prints of it
"""
import os
import re
import sys

sys.dont_write_bytecode = True  # nothing is left beside the models
sys.path.insert(0, os.path.join(os.path.dirname(os.path.abspath(__file__)), "models"))
import list_cases as lists  # noqa: E402

RING = 1 << 31
ENDLESS = 1 << 40  # room set aside


class Model:
    """A method to a rule, so that a wrong model is one with another method: tests/sheets has some."""

    LIMITS = {1: 8192, 2: 65536}  # the editions that are read, each with its limit
    EDITION = 2  # the one that is written
    NUMERAL = rb"(0|[1-9][0-9]*)"

    def __init__(self):
        self.lines_told = {}  # each line is looked at once

    # The writer.

    def first(self, edition):
        return b"gaps\t%d\t%d\n" % (edition, self.LIMITS[edition])

    def line(self, item):
        if item[0] < RING:
            return b"one\t%d\n" % item[0]
        return b"run\t%d\t%d\n" % (item[0] - RING, item[1])

    def last(self, total):
        return b"end\t%d\n" % total

    def items(self, words):
        """The items of an accepted list, of one word or two."""
        at = 0
        while at < len(words):
            length = 1 if words[at] < RING else 2
            yield words[at:at + length]
            at += length

    def expansion(self, words):
        """The numbers of a list, or its own refusal."""
        return lists.expand(words, ENDLESS)

    def sheet(self, words, total):
        return self.first(self.EDITION) + b"".join(map(self.line, self.items(words))) + self.last(total)

    def write(self, words, room):
        numbers = self.expansion(words)
        if isinstance(numbers, tuple):
            return numbers
        sheet = self.sheet(words, len(numbers))
        return sheet if len(sheet) <= room else self.no_room(len(sheet))

    def no_room(self, needed):
        return 21, needed

    # The reader.

    def edition(self, sheet):
        """Refusal 27, or none."""
        first = re.match(b"gaps\t" + self.NUMERAL + b"\t" + self.NUMERAL + b"\n", sheet)
        if first and first[1] not in [b"%d" % edition for edition in self.LIMITS]:
            return 27, self.carried(first[1])
        return None

    def carried(self, edition):
        # a number of more than ten digits has more than 32 bits, and Python reads no numeral of some thousands
        value = int(edition) if len(edition) <= 10 else ENDLESS
        return value if value < 1 << 32 else 0

    def lines(self, sheet):
        """The whole lines, with their line feeds."""
        return [line + b"\n" for line in sheet.split(b"\n")[:-1]]

    def item(self, line):
        """The words that a line might mean, or none."""
        word, *fields = line.split()
        numbers = [int(field) for field in fields if re.fullmatch(rb"[+-]?[0-9]{1,30}", field)]
        if word == b"one" and len(numbers) == 1:
            return numbers
        if word == b"run" and len(numbers) == 2:
            return [numbers[0] + RING, numbers[1]]
        return None

    def is_item(self, item, line):
        """Whether the writer gives this line for some list of this item alone."""
        return all(0 <= word < 1 << 32 for word in item) and isinstance(self.expansion(item), list) and self.line(item) == line

    def told(self, line):
        """The words of an item's line and how many numbers they stand for, or none where the writer gives no such line."""
        if line not in self.lines_told:
            item = self.item(line) if line.strip() else None
            is_item = item is not None and self.is_item(item, line)
            self.lines_told[line] = (item, len(self.expansion(item))) if is_item else None
        return self.lines_told[line]

    def most(self, line):
        """The most numbers of a sheet that begins with this line, or none where no sheet does."""
        return next((limit for edition, limit in self.LIMITS.items() if line == self.first(edition)), None)

    def begins(self, lines):
        """How many of the lines some accepted sheet begins with, with the words of their items; and whether the last is `end`."""
        most = self.most(lines[0]) if lines else None
        if most is None:
            return 0, [], False
        words, total, count = [], 0, 1
        for line in lines[1:]:
            if line == self.last(total):
                return count + 1, words, True
            told = self.told(line)
            if told is None or total + told[1] > most:
                break
            words += told[0]
            total += told[1]
            count += 1
        return count, words, False

    def read(self, sheet, room):
        refused = self.edition(sheet)
        if refused:
            return refused
        lines = self.lines(sheet)
        count, words, ended = self.begins(lines)
        if not ended or not self.is_whole(sheet, lines, count):
            return 26, self.counted(count, ended)
        return words if len(words) <= room else self.no_room(len(words))

    def is_whole(self, sheet, lines, count):
        """Whether nothing follows these lines."""
        return sum(map(len, lines[:count])) == len(sheet)

    def counted(self, count, ended):
        """What 26 carries."""
        return count

    # The program that reads a sheet, and its 64 KiB.

    def program(self, given):
        if len(given) > 65536:
            return b"refused\t14\t65536\n"
        answer = self.read(given, ENDLESS)
        if isinstance(answer, tuple):
            return b"refused\t%d\t%d\n" % answer
        return b"".join(b"%d\n" % number for number in self.expansion(answer))


def as_bytes(words):
    return b"".join(word.to_bytes(4, "big") for word in words)


def shown(answer):
    """An answer in the language of the questions."""
    if isinstance(answer, tuple):
        return "refused %d %d" % answer
    if isinstance(answer, list):
        answer = as_bytes(answer)
    return "ok " + (answer.hex() or "-")


if __name__ == "__main__":
    sys.stdout.buffer.write(Model().program(sys.stdin.buffer.read()))
