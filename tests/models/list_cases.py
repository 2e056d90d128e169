#!/usr/bin/env python3
"""Prints what crates/list_cases must print: the list cases of docs/RULES.md, by a model of its rules that shares nothing with the crates."""
LIMIT, RING, HALF = 65536, 1 << 31, 1 << 30


def less(a, b):
    return 0 < (b - a) % RING < HALF


def compress(numbers, room):
    if len(numbers) > LIMIT:
        return 14, LIMIT
    for place, n in enumerate(numbers):
        if n >= RING:
            return 15, place
        if place and not less(numbers[place - 1], n):
            return 16, place
    runs = []
    for n in numbers:
        if runs and n == (runs[-1][-1] + 1) % RING:
            runs[-1].append(n)
        else:
            runs.append([n])
    words = []
    for run in runs:
        words += run if len(run) <= 2 else [run[0] + RING, run[-1]]
    return words if len(words) <= room else (21, len(words))


def parsed(words):
    """The items of a list, each with its place, its first number and its steps; or its refusal."""
    if len(words) > LIMIT:
        return 14, LIMIT
    items, place = [], 0
    while place < len(words):
        start = words[place]
        if start < RING:
            items.append((place, start, 0))
            place += 1
            continue
        if place + 1 == len(words):
            return 17, place
        end = words[place + 1]
        if end >= RING:
            return 18, place + 1
        if not less(start - RING, end):
            return 19, place + 1
        items.append((place, start - RING, (end - start) % RING))
        place += 2
    total = 0
    for place, _, steps in items:
        total += steps + 1
        if total > LIMIT:
            return 20, place
    return items


def numbers(item):
    _, first, steps = item
    return [(first + k) % RING for k in range(steps + 1)]


def expand(words, room):
    items = parsed(words)
    if isinstance(items, tuple):
        return items
    answer = [n for item in items for n in numbers(item)]
    return answer if len(answer) <= room else (21, len(answer))


def why_lost(words, number):
    """The place of the first item that has the number among its own, None where there is none, or a refusal."""
    items = parsed(words)
    if isinstance(items, tuple):
        return items
    if number >= RING:
        return 15, 0
    return next((item[0] for item in items if number in numbers(item)), None)


class Merging:
    """Two lists merged. A method to a rule, so that a wrong model is one with another method: tests/merges has some."""

    def is_number(self, oldest):
        return oldest < RING

    def judged(self, given):
        """The items of a list, in words or in bytes, or its own refusal."""
        if not isinstance(given, bytes):
            return parsed(given)
        if len(given) % 4:
            return 1, 0
        return parsed([int.from_bytes(given[k:k + 4], "big") for k in range(0, len(given), 4)])

    def is_in_window(self, oldest, number):
        return (number - oldest) % RING < HALF

    def fits(self, oldest, item):
        return all(self.is_in_window(oldest, n) for n in numbers(item))

    def outside(self, oldest, first, second):
        """The place of the item that 29 carries, None where there is none."""
        return next((item[0] for item in first + second if not self.fits(oldest, item)), None)

    def union(self, oldest, first, second):
        every = {n for item in first + second for n in numbers(item)}
        return sorted(every, key=lambda n: (n - oldest) % RING)

    def is_too_much(self, union):
        return len(union) > LIMIT

    def coded(self, union, room):
        return compress(union, room)

    def merge(self, oldest, first, second, room):
        """The words of the one list, or a refusal. The room is in words."""
        if not self.is_number(oldest):
            return 15, 0
        judged = []
        for given in first, second:
            judged.append(self.judged(given))
            if isinstance(judged[-1], tuple):
                return judged[-1]
        place = self.outside(oldest, *judged)
        if place is not None:
            return 29, place
        union = self.union(oldest, *judged)
        return (20, 0) if self.is_too_much(union) else self.coded(union, room)


def shown(answer):
    if isinstance(answer, tuple):
        return " refused %d %d" % answer
    if answer is None:
        return " not"
    if isinstance(answer, int):
        return " at %d" % answer
    return "".join(" %d" % w for w in answer)


if __name__ == "__main__":
    for given in [], [5], [5, 6], [5, 6, 7], [5, 6, 7, 9], [0x7FFFFFFE, 0x7FFFFFFF, 0, 1], [0, 0x3FFFFFFF], [0, 0x40000000], [0, 0x40000001], [5, 5], [7, 0x80000000], [0] * 65537:
        print("compress" + shown(compress(given, 65536)))
    for given in ([], [0xFFFFFFFE, 1], [0x80000005, 6], [0x80000005, 5], [0x80000005], [0x80000005, 0x80000007], [9, 3], [0x80000000, 0x7FFFFFFF],
                  [0x80000000, 0x40000000], [0x80000000, 0x3FFFFFFF], [0] * 65537):
        print("expand" + shown(expand(given, 65536)))
    for given in [0x80000005, 7], [0x80000005, 6], [4, 0x80000005, 5]:
        answer = expand(given, 2)
        held = [111, 222] if isinstance(answer, tuple) else answer + [111, 222][len(answer):]
        print("expand in 2" + (shown(answer) if isinstance(answer, tuple) else " %d" % len(answer)) + " leaving" + shown(held))
    for given in [0x80000000, 65535], [0x80000000, 65536]:
        answer = expand(given, 65536)
        print("expand" + (shown(answer) if isinstance(answer, tuple) else " %d numbers to %d %d" % (len(answer), answer[-2], answer[-1])))
    for number in 0, 1, HALF - 1, HALF, HALF + 1, RING - 1:
        for steps in HALF - 1, HALF, HALF + 1:
            there, start = (number + steps) % RING, number + RING
            for given in ([0, steps, steps + 2, steps + 4], [-16, 0, steps, steps + 2], [-14, -12, 0, steps]):
                print("compress" + shown(compress([(number + n) % RING for n in given], 65536)))
            for given in [start, there, 7, 9], [7, start, there, 9], [7, 9, start, there]:
                print("expand" + shown(expand(given, 65536)))
    for number in 0, 1, HALF - 1, HALF, RING - 2, RING - 1:
        for steps in 1, 2, 100:
            start, end = number + RING, (number + steps) % RING
            for given in [start, end, number], [number, start, end], [(number + 200) % RING, end, start, end]:
                for on in -1, 0, 1, 2, steps - 1, steps, steps + 1:
                    print("lost" + shown(why_lost(given, (number + on) % RING)))
    for given in [], [5], [5, 0x80000005], [0x80000005, 4], [0x80000000, 65536], [0] * 65537:
        for number in 5, 0x80000005:
            print("lost" + shown(why_lost(given, number)))

    def merged(oldest, one, other):
        for first, second in (one, other), (other, one), (one, one), (other, other):
            answer, held = Merging().merge(oldest, first, second, 3), [111, 222, 333]
            print("merge" + (shown(answer) if isinstance(answer, tuple) else " %d" % len(answer)) + " leaving" + shown(held if isinstance(answer, tuple) else answer + held[len(answer):]))

    for oldest in 0, 1, HALF, RING - 4, RING - 1, RING:
        def after(*steps):
            return [(oldest + n) % RING for n in steps]
        merged(oldest, [], after(5))
        merged(oldest, after(5), after(6, 7))
        merged(oldest, after(9, 3), [after(3)[0], oldest])
        merged(oldest, [oldest | RING] + after(4), after(2, 5))
        merged(oldest, after(7, 5, 6), after(9))
        merged(oldest, after(HALF - 1), after(HALF))
        merged(oldest, [after(-2)[0] | RING] + after(2), after(3))
        merged(oldest, [oldest] + after(2), after(4, 6))
    for one, other in ([0x80000005], [0x80000005, 5]), ([5, 0x80000005, 0x80000007], [0x40000000]), ([0x80000000, 65535], [65536]), ([0] * 65537, [5]):
        merged(0, one, other)
