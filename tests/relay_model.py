#!/usr/bin/env python3
"""What the example relay must print of a recording, or of two, by the models of the rules and a reader of recordings of its own.

    tests/relay_model.py RECORDING [RECORDING]
"""
import ipaddress
import os
import re
import struct
import sys

sys.dont_write_bytecode = True  # nothing is left beside the models
HERE = os.path.dirname(os.path.abspath(__file__))
sys.path.insert(0, os.path.join(HERE, "models"))
import data_packet_cases as packets  # noqa: E402
import list_cases as lists  # noqa: E402

RING, LIMIT = 1 << 31, 65536


def sentences():
    """The refusals' sentences, as the header has them."""
    header = open(os.path.join(HERE, "..", "include", "xezalbur.h")).read()
    numbers = dict(re.findall(r"^    (XEZ_\w+) = (\d+)", header, re.M))
    return {int(numbers[name]): said for name, said in re.findall(r'case (XEZ_\w+):\s+return "(.*)";', header)}


SAID = sentences()


def refusal(number, carried):
    return "%s (refusal %d carrying %d)" % (SAID[number], number, carried)


def frames(recording):
    """The addresses, ports and SRT packets with the length of the IP packets around them, in order: Ethernet, IPv4 or IPv6, and UDP."""
    data = open(recording, "rb").read()
    at = 24
    while at < len(data):
        (length,) = struct.unpack("<I", data[at + 8:at + 12])
        frame = data[at + 16:at + 16 + length]
        at += 16 + length
        ip = frame[14:]
        if ip[0] >> 4 == 6:
            family, header, whole, hosts = "IPv6", 40, 40 + struct.unpack(">H", ip[4:6])[0], (ip[8:24], ip[24:40])
        else:
            family, header, whole, hosts = "IPv4", 4 * (ip[0] % 16), struct.unpack(">H", ip[2:4])[0], (ip[12:16], ip[16:20])
        udp = ip[header:]
        ends = ["%s port %d" % (ipaddress.ip_address(host), struct.unpack(">H", udp[p:p + 2])[0]) for host, p in zip(hosts, (0, 2))]
        yield ends[0], ends[1], family, whole, udp[8:struct.unpack(">H", udp[4:6])[0]]


def placed(numbers, around):
    """Each number once, in order as they lie half a ring before that one and half a ring after."""
    return sorted(set(numbers), key=lambda n: (n - around + RING // 2) % RING)


def ranges(numbers):
    """Numbers in order as text, three neighbours and more as a range, a full list at a time; or why they are no list."""
    text = ""
    for at in range(0, len(numbers), LIMIT):
        words = lists.compress(numbers[at:at + LIMIT], LIMIT)
        if isinstance(words, tuple):
            return text + " (not listed: %s)" % SAID[words[0]]
        text += "".join(" %d-%d" % (first, (first + steps) % RING) if steps else " %d" % first for _, first, steps in lists.parsed(words))
    return text


def counted(title, numbers):
    return "  %s: %d" % (title, len(numbers)) + (":" + ranges(numbers) if numbers else "")


def holes(known):
    """What lies between numbers in order. It may be half the ring, so that it is not gone through number by number."""
    text = ""
    for a, b in zip(known, known[1:]):
        first, last, size = (a + 1) % RING, (b - 1) % RING, (b - a - 1) % RING
        text += "" if size == 0 else " %d" % first if size == 1 else " %d%s%d" % (first, " " if size == 2 else "-", last)
    return "  holes that nobody reported:" + (text or " none")


def reasons(missing, reports):
    """The missing numbers with the packet and the word of the first report and item that names them, neighbours of one item together."""
    named, runs = {}, []
    for packet, words in reports:
        for item in lists.parsed(words):
            for n in lists.numbers(item):
                named.setdefault(n, (packet, item[0]))
    for n in missing:
        if runs and n == (runs[-1][1] + 1) % RING and named[n] == runs[-1][2]:
            runs[-1][1] = n
        else:
            runs.append([n, n, named[n]])
    return runs


def of_one(recording):
    """What is said of a recording, a line each, and its streams by their ends."""
    refused, others, count, streams, lines = 0, 0, 0, {}, ["recording " + recording]

    def stream(ends):
        return streams.setdefault(ends, {"came": [], "reported": [], "again": 0, "payload": 0, "wire": 0, "reports": []})

    def refuse(what, number, carried):
        lines.append("refused: packet %d, %s: " % (count, what) + refusal(number, carried))
        return 1

    for source, target, family, whole, srt in frames(recording):
        count += 1
        if not srt or srt[0] < 128:
            try:
                record = packets.read(srt, family)
            except packets.Refused as why:
                refused += refuse("a data packet", *map(int, why.words.split()[1:]))
                continue
            s = stream((source, target))
            s["came"].append(record["sequence"])
            s["again"] += record["again"]
            s["payload"] += len(srt) - 16
            s["wire"] += whole
        elif len(srt) >= 16 and srt[:2] == b"\x80\x03":
            words = [struct.unpack(">I", srt[k:k + 4])[0] for k in range(16, len(srt) - 3, 4)]
            answer = (1, 0) if len(srt) % 4 else lists.expand(words, LIMIT)
            if isinstance(answer, tuple):
                refused += refuse("a loss report", *answer)
                continue
            s = stream((target, source))
            s["reported"] += answer
            s["reports"].append((count, words))
        else:
            others += 1
    # of a stream with empty loss reports alone nothing is said
    streams = {ends: s for ends, s in streams.items() if s["came"] or s["reported"]}
    for (source, target), s in streams.items():
        around, packet_count = (s["came"] + s["reported"])[0], len(s["came"])
        came, reported = s["came"], s["reported"] = placed(s["came"], around), placed(s["reported"], around)
        missing = s["missing"] = placed(set(reported) - set(came), around)
        lines += [
            "",
            "from %s to %s" % (source, target),
            "  data packets that came: %d, %d of them sent again, %d bytes of payload, %d on the wire" % (packet_count, s["again"], s["payload"], s["wire"]),
            counted("numbers that came", came),
            "  reported lost: %d, in %d loss reports" % (len(reported), len(s["reports"])),
            "  came after all: %d" % (len(reported) - len(missing)),
            counted("missing", missing),
        ]
        for a, b, named in reasons(missing, s["reports"]):
            lines.append("    %s: named by the loss report in packet %d, at word %d" % ((a if a == b else "%d-%d" % (a, b),) + named))
        lines.append(holes(placed(came + reported, around)))
    lines += ["", "packets: %d; refused: %d; other control packets: %d; no whole UDP packet: 0" % (count, refused, others)]
    return lines, streams


def merged(oldest, pair):
    """The numbers that either of two lists has, in order from the oldest; or the refusal: 29, 20."""
    items = [item for words in pair for item in lists.parsed(words)]
    for item in items:
        if any((n - oldest) % RING >= RING // 2 for n in lists.numbers(item)):
            return 29, item[0]
    union = {n for item in items for n in lists.numbers(item)}
    return (20, 0) if len(union) > LIMIT else sorted(union, key=lambda n: (n - oldest) % RING)


def of_stream(pair, names):
    """What is said of a stream that two recordings have, and whether it was merged."""
    pair_of_lists = []
    for s, name in zip(pair, names):
        words = lists.compress(s["missing"], LIMIT)
        if isinstance(words, tuple):
            return ["  not merged: what is missing in %s makes no list: " % name + refusal(*words)], False
        pair_of_lists.append(words)
    came = pair[0]["came"] + pair[1]["came"]
    known = came + pair[0]["reported"] + pair[1]["reported"]
    known, came = placed(known, known[0]), set(came)
    union = merged(known[0], pair_of_lists)
    if isinstance(union, tuple):
        return ["  not merged: " + refusal(*union)], False
    return [
        counted("missing in either", union),
        counted("of these the other recording has", [n for n in union if n in came]),
        counted("of these neither has", [n for n in union if n not in came]),
        holes(known),
    ], True


def of_both(names, first, second):
    """What is said of two recordings together."""
    lines, count = ["", "both recordings"], {True: 0, False: 0}
    for ends in [*first, *(ends for ends in second if ends not in first)]:
        lines += ["", "from %s to %s" % ends]
        if ends in first and ends in second:
            more, done = of_stream((first[ends], second[ends]), names)
            lines += more
            count[done] += 1
        else:
            lines.append("  not merged: only %s has this stream" % names[ends in second])
    return lines + ["", "streams merged: %d; refused: %d; in one recording alone: %d" % (count[True], count[False], len(set(first) ^ set(second)))]


def of_recordings(names):
    """What the relay prints, a line each."""
    lines, streams = of_one(names[0])
    if len(names) == 1:
        return lines
    more, others = of_one(names[1])
    return lines + [""] + more + of_both(names, streams, others)


if __name__ == "__main__":
    print("\n".join(of_recordings(sys.argv[1:])))
