#!/usr/bin/env python3
"""What crates/extension_cases must print, by docs/RULES.md alone; its `stdout` is this model's output.

Run it at the project's root: tests/models/extension_cases.py > crates/extension_cases/stdout
It shares no code with the crates: each rule below is one of RULES 5, 6 or 7.
An answer is (0, bytes used or written) or (refusal number, what it carries).
"""

GOOD = bytes.fromhex("12202901" "00000000" "02000200" "00000404") + bytes(range(1, 41))
out = []


def line(*words):
    out.append(" ".join(str(w) for w in words))


def bits_set(flags):
    return bin(flags).count("1")


def key_read(m):
    """Key read: 1 (under 16); 4; 5; 6; 23 (flags 0); 7; 8; 9 or 10; 11; 1 for the rest."""
    if len(m) < 16:
        return (1, 0)
    if m[0] >> 4 != 1:
        return (4, 0)
    if m[0] & 15 not in (1, 2):
        return (5, m[0] & 15)
    sign = int.from_bytes(m[1:3], "big")
    if sign != 0x2029:
        return (6, sign)
    if m[3] & 3 == 0:
        return (23, 0)
    if m[8] > 3:
        return (7, m[8])
    if m[9] != 0:
        return (8, m[9])
    if m[10] == 1:
        return (10, 0)
    if m[10] != 2:
        return (9, m[10])
    key_length = 4 * m[15]
    if key_length not in (16, 24, 32):
        return (11, key_length)
    used = 16 + 4 * m[14] + bits_set(m[3] & 3) * key_length + 8
    if len(m) < used:
        return (1, 0)
    return (0, used)


def key_write(flags, salt, wrapped, room):
    """Key write: 22; 23 (flags 0); 24 (over 1,020 or not a multiple of 4); 25 (not 8 plus keys times 16, 24 or 32); 21."""
    if flags > 3:
        return (22, 3)
    if flags == 0:
        return (23, 0)
    if salt > 1020 or salt % 4:
        return (24, salt)
    if wrapped not in [8 + bits_set(flags) * n for n in (16, 24, 32)]:
        return (25, wrapped)
    if room < 16 + salt + wrapped:
        return (21, 16 + salt + wrapped)
    return (0, 16 + salt + wrapped)


def fixed_read(size, m):
    """Handshake and group read: 1."""
    return (1, 0) if len(m) < size else (0, size)


def choice(kind, m):
    """The type chooses; 13 for 5, 6 and 7, and 12 for 9 up, come first. The answer and the size in words."""
    if kind >= 9:
        return (12, kind), 0
    if kind in (5, 6, 7):
        return (13, kind), 0
    if kind == 0:
        return (0, 0), 0
    answer = key_read(m) if kind in (3, 4) else fixed_read(4 if kind == 8 else 12, m)
    return answer, (answer[1] // 4 if answer[0] == 0 else 0)


def dump(written, room_bytes):
    line("", *("%02x" % b for b in written + b"\xee" * (room_bytes - len(written))))


# every truncation
for n in range(57):
    line(n, *key_read(GOOD[:n]))

# every damage of one byte, a line where the answer changes
for at in range(56):
    last = None
    for v in range(256):
        m = bytearray(GOOD)
        m[at] = v
        answer = key_read(m)
        if answer != last:
            line(at, v, *answer)
        last = answer

# every pair of faults among the checks; the later one of a byte that both change wins where they cannot both stand
FAULTS = [None, (0, 0xF0, 0x20), (0, 0x0F, 0x03), (1, 0xFF, 0x29), (3, 0xFF, 0xFC), (8, 0xFF, 4), (9, 0xFF, 1), (10, 0xFF, 3), (10, 0xFF, 1), (15, 0xFF, 5), None]
KEPT = {0: 15, 10: 55}
for i in range(11):
    for j in range(i + 1, 11):
        m = bytearray(GOOD)
        for fault in (FAULTS[i], FAULTS[j]):
            if fault:
                at, mask, value = fault
                m[at] = m[at] & ~mask | value
        line(i, j, *key_read(m[: min(KEPT.get(i, 56), KEPT.get(j, 56))]))

# the longest message, and one byte less of it
LONGEST = bytearray(1108)
LONGEST[0:4] = bytes.fromhex("11202903")
LONGEST[10], LONGEST[14], LONGEST[15] = 2, 255, 8
line(*key_read(LONGEST))
line(*key_read(LONGEST[:1107]))

# writing: how many bytes of the buffer were touched, and the answer. No refusal writes
for flags, salt, wrapped, room in [
    (4, 1024, 9, 0), (255, 1024, 9, 0), (0, 1024, 9, 0), (1, 1024, 9, 0), (1, 1021, 24, 1200), (1, 3, 9, 0), (1, 16, 9, 0), (1, 16, 24, 0),
    (1, 16, 24, 55), (1, 16, 24, 56), (1, 16, 24, 1200), (2, 16, 32, 64), (3, 16, 24, 1200), (3, 16, 40, 71), (3, 16, 40, 72), (3, 0, 56, 72),
    (3, 1020, 72, 1107), (3, 1020, 72, 1108), (1, 16, 8, 1200),
]:
    number, carried = key_write(flags, salt, wrapped, room)
    line(flags, salt, wrapped, room, carried if number == 0 else 0, number, carried)


def written_again(m):
    """Reading then writing into 60 bytes: of every message that is read the used bytes, with the reserved fields cleared."""
    number, used = key_read(m)
    if number != 0:
        line(number, used)
        return
    salt = 4 * m[14]
    answer = key_write(m[3] & 3, salt, used - 16 - salt, 60)
    assert answer == (0, used)
    line(*answer)
    cleared = bytearray(m[:used])
    cleared[3] &= 3
    cleared[11:14] = bytes(3)
    dump(cleared, 60)


written_again(GOOD)
reserved = bytearray(GOOD)
reserved[3] = 0xFD
reserved[11:14] = b"\xff\xff\xff"
written_again(reserved)
keyless = bytearray(GOOD)
keyless[3] = 0
written_again(keyless)
both = bytearray(GOOD)
both[3] = 3
line(*key_read(both))
both[14] = 0
written_again(both)

# the choice by type, on each beginning of the good message: the type, the size in words and the answer where it changes
for kind in list(range(12)) + [65535]:
    last = None
    for n in range(57):
        answer, words = choice(kind, GOOD[:n])
        if answer[0] != last:
            line(kind, n, kind, words, *answer)
        last = answer[0]

# handshakes: the version word kept whole, the low 8 flag bits, the two latencies. Their writers: 22 carrying 4; 21
line(0x7F010301, 0xFF, 120, 0x1234, 0, 12)
for flags, room in [(256, 11), (256, 16), (255, 11), (255, 12), (0, 16)]:
    answer = (22, 4) if flags > 255 else (21, 12) if room < 12 else (0, 12)
    line(*answer)
    dump(bytes.fromhex("00010301") + flags.to_bytes(4, "big") + (120).to_bytes(2, "big") + (0x1234).to_bytes(2, "big") if answer[0] == 0 else b"", 16)

# groups: type, flags of which only 0x40 is kept, weight little-endian. Their writers: 22 carrying 5; 21
for ty, flags in [(0, 0), (1, 0x40), (2, 0xFF), (3, 0xBF), (4, 0x80), (5, 0x41), (255, 0)]:
    line(1 if ty <= 4 else 0, ty, flags & 0x40, 0x1234, 0, 4)
for ty, flags, room in [(4, 0x80, 3), (4, 0x41, 6), (4, 0x40, 3), (4, 0x40, 4), (3, 0, 6), (9, 0, 6)]:
    answer = (22, 5) if flags & ~0x40 else (21, 4) if room < 4 else (0, 4)
    line(*answer)
    dump(bytes([ty, flags]) + (0x1234).to_bytes(2, "little") if answer[0] == 0 else b"", 6)

print("\n".join(out))
