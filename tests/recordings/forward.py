#!/usr/bin/env python3
"""Forwards UDP on a loopback address from one port to another and back, and drops some data packets on the way there.

    forward.py ADDRESS FROM TO

Of the packets' first sending it drops the places below, lone ones, pairs and longer stretches; most of them again
when they are sent again, so that the receiver has several holes to report at once.
"""
import socket
import struct
import sys
import time

LONE, PAIRS, LONGER = {12, 24, 60, 68, 90}, {20, 21, 100, 101}, set(range(26, 32)) | set(range(62, 65))
DROPPED = LONE | PAIRS | LONGER
TIMES = 7  # how often a packet of these places is dropped

address = sys.argv[1]
family = socket.AF_INET6 if ":" in address else socket.AF_INET
here = socket.socket(family, socket.SOCK_DGRAM)
here.bind((address, int(sys.argv[2])))
there = socket.socket(family, socket.SOCK_DGRAM)
there.connect((address, int(sys.argv[3])))
here.settimeout(0.005)
there.settimeout(0.0005)

sender, first, dropped, ends = None, None, {}, time.time() + 30
while time.time() < ends:
    try:
        packet, sender = here.recvfrom(2048)
        word = struct.unpack(">I", packet[:4])[0]
        drop = False
        if word < 1 << 31:
            first = word if first is None else first
            place = (word - first) % (1 << 31)
            if place in DROPPED and dropped.get(place, 0) < TIMES:
                dropped[place] = dropped.get(place, 0) + 1
                drop = True
        if not drop:
            there.send(packet)
    except (socket.timeout, ConnectionRefusedError):
        pass
    try:
        for _ in range(20):
            answer = there.recv(2048)
            if sender:
                here.sendto(answer, sender)
    except (socket.timeout, ConnectionRefusedError):
        pass
