#!/usr/bin/env python3
"""Prints what crates/step_cases must print: the steps of the walks over lists, by a model of RULES 1.10, 3.10 and 3.11 that shares nothing with the crates."""
RING, HALF = 1 << 31, 1 << 30


def parts(words, bytes_):
    """A list whose words stand in a slice and then as bytes, four big-endian to a word; bytes that are left over are none."""
    words = words + [int.from_bytes(bytes_[i:i + 4], "big") for i in range(0, len(bytes_) // 4 * 4, 4)]
    print("parts", len(words), *words, 0)


def head(word, more, after):
    """The item that a word begins, where another word follows if `more`: its first number, its steps and its words, or its refusal."""
    start = word % RING
    if word < RING:
        print("head", word, 0, 1)
    elif not more:
        print("head refused 17 0")
    elif after >= RING:
        print("head refused 18 1")
    elif not 0 < (after - start) % RING < HALF:
        print("head refused 19 1")
    else:
        print("head", start, (after - start) % RING, 2)


def store(kind, cells, word):
    """A word in front of some cells, or nothing where they are too few for it."""
    code = [word] if kind == "words" else list(word.to_bytes(4, "big"))
    print(kind, *(code + cells[len(code):] if len(code) <= len(cells) else cells))


parts([], b"")
parts([5], b"")
parts([], bytes([0, 0, 0, 5, 0, 0, 0]))
parts([RING + 5, 7], bytes([0, 0, 0, 9, 0x80, 0, 0, 10, 0, 1, 0, 0, 1]))
head(5, False, 0)
head(5, True, RING + 7)
head(RING + 5, True, 7)
head(2 * RING - 2, True, 1)
head(RING + 5, False, 7)
head(RING + 5, True, RING + 7)
head(RING + 5, True, 5)
head(RING, True, HALF)
store("words", [], 9)
store("words", [1], RING + 9)
store("words", [1, 2], 9)
store("bytes", [1, 2, 3], 0x80010203)
store("bytes", [1, 2, 3, 4], 0x80010203)
store("bytes", [1, 2, 3, 4, 5], 0x80010203)
