#!/usr/bin/env python3
"""What the program data_packet_cases must print, by a model of the rules' data packets that shares nothing with it.

Run it at the project's root: python3 tests/models/data_packet_cases.py > crates/data_packet_cases/stdout
The rules are those of docs/RULES.md, 4; fields are cut out of the header's bits as text.
"""
import sys

LIMIT = 65535
LOCATIONS = {"10": "first", "01": "last", "11": "only", "00": "middle"}
KEYS = {"00": "none", "01": "even", "10": "odd"}
IP_HEADERS = {"IPv4": 20, "IPv6": 40}


class Refused(Exception):
    def __init__(self, number, carried):
        self.words = f"refused {number} {carried}"


def bits(data):
    return "".join(f"{byte:08b}" for byte in data)


def read(data, family):
    """The record of a packet of that family as RULES 4 reads it, or the refusal: 1, 14, 2, 3."""
    if len(data) < 16:
        raise Refused(1, 0)
    if len(data) - 16 > LIMIT:
        raise Refused(14, LIMIT)
    header = bits(data[:16])
    word0, word1, word2, word3 = (header[i:i + 32] for i in range(0, 128, 32))
    if word0[0] == "1":
        raise Refused(2, 0)
    if word1[3:5] == "11":
        raise Refused(3, 0x18)
    return {
        "sequence": int(word0[1:], 2),
        "location": LOCATIONS[word1[0:2]],
        "in order": int(word1[2]),
        "key": KEYS[word1[3:5]],
        "again": int(word1[5]),
        "message": int(word1[6:], 2),
        "time": int(word2, 2),
        "socket": int(word3, 2),
        "family": family,
    }


def payload(data):
    """The bytes from 16 on, none where the packet is refused."""
    try:
        read(data, "IPv4")
    except Refused:
        return b""
    return data[16:]


def write(record, payload, buffer):
    """The length written, or the refusal: 14, 22 (1, then 2), 21. Only an accepted write changes the buffer."""
    if len(payload) > LIMIT:
        raise Refused(14, LIMIT)
    if record["sequence"].bit_length() > 31:
        raise Refused(22, 1)
    if record["message"].bit_length() > 26:
        raise Refused(22, 2)
    if len(buffer) < 16 + len(payload):
        raise Refused(21, 16 + len(payload))
    location = next(text for text, name in LOCATIONS.items() if name == record["location"])
    key = next(text for text, name in KEYS.items() if name == record["key"])
    header = (
        f"0{record['sequence']:031b}"
        f"{location}{record['in order']}{key}{record['again']}{record['message']:026b}"
        f"{record['time']:032b}{record['socket']:032b}"
    )
    packet = int(header, 2).to_bytes(16, "big") + payload
    buffer[:len(packet)] = packet
    return len(packet)


def wire_size(record, payload):
    if len(payload) > LIMIT:
        raise Refused(14, LIMIT)
    return IP_HEADERS[record["family"]] + 8 + 16 + len(payload)


def answer(ask):
    try:
        return str(ask())
    except Refused as why:
        return why.words


def shown_payload(data):
    part = payload(data)
    ends = f" {part[0]} {part[-1]}" if part else ""
    return f"payload {len(part)}{ends}"


def reading(data, family):
    try:
        record = read(data, family)
    except Refused as why:
        return f"{why.words} {shown_payload(data)}"
    buffer = bytearray(b"\x77" * 65600)
    length = answer(lambda: write(record, payload(data), buffer))
    back = f"{length} {int(bytes(buffer[:len(data)]) == data)} {buffer[len(data)]}"
    return f"accepted {' '.join(map(str, record.values()))} {shown_payload(data)} wire {answer(lambda: wire_size(record, payload(data)))} back {back}"


LONG = bytes(16) + bytes((i - 15) % 251 for i in range(16, 65560))


def lengths(some, family):
    return [f"length {n} " + reading(LONG[:n], family) for n in some]


def cases(family):
    lines = []
    for byte in range(256):
        lines.append(f"byte 4 {byte} " + reading(bytes.fromhex(f"00000005{byte:02x}0000090000010000000002AA"), family))
    lines += lengths(range(0, 21), family)
    for sequence, message, n, room in [
        (5, 9, 0, 15), (5, 9, 0, 16), (5, 9, 2, 17), (5, 9, 2, 18), (5, 9, 2, 20),
        (2**31 - 1, 2**26 - 1, 1, 20), (2**31, 2**26 - 1, 1, 20), (2**31 - 1, 2**26, 1, 20), (2**31, 2**26, 1, 0),
        (2**32 - 1, 2**32 - 1, 65536, 0), (5, 9, 65535, 65550), (5, 9, 65536, 65552),
    ]:
        record = {"sequence": sequence, "location": "first", "in order": 0, "key": "odd", "again": 1, "message": message, "time": 2**32 - 1, "socket": 0x01020304, "family": family}
        # the front of a longer buffer is lent, and the front of the longer one is printed
        lent = bytearray(b"\x77" * room)
        said = answer(lambda: write(record, LONG[16:16 + n], lent))
        shown = bytes(lent) + b"\x77" * 20
        lines.append(f"write {sequence} {message} {n} {room}: {said} {shown[:20].hex()}")
    for n in [0, 1, 65535, 65536]:
        lines.append(f"wire size {n}: " + answer(lambda: wire_size({"family": family}, LONG[16:16 + n])))
    return lines


def doubly_faulty(family):
    lines = []
    for first, fifth, n in [(0x80, 0xFF, 15), (0x80, 0xFF, 65552), (0x80, 0xFF, 16), (0x7F, 0xFF, 16), (0x7F, 0xE7, 20)]:
        changed = bytearray(LONG)
        changed[0], changed[4] = first, fifth
        lines.append(f"bytes 0 and 4 {first} {fifth}, length {n} " + reading(bytes(changed[:n]), family))
    return lines


def main():
    lines = cases("IPv4") + lengths(range(65551, 65554), "IPv4") + cases("IPv6") + lengths(range(65552, 65554), "IPv6")
    lines += doubly_faulty("IPv4") + doubly_faulty("IPv6")
    sys.stdout.write("\n".join(lines) + "\n")


if __name__ == "__main__":
    main()
